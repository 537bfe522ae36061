"""A report that a tool reads, the one that is expected of a case, as the suite writes it, and where
two reports differ.

The troubles of both name the file and the line.
"""

import io
import re
from dataclasses import dataclass
from itertools import zip_longest
from typing import Iterator, NamedTuple, Optional

from zaklimot import format
from zaklimot.format import MOST_STEPS, Answer, Picture, ReportError, decimal
from zaklimot.format.report import MOST_PICTURE, REFUSAL, SKIPPED
from zaklimot.commands.core.progress import Progress
from zaklimot.commands.core.streams import counted, length_of
from zaklimot.commands.core.trouble import Trouble
from zaklimot.commands.images.holding import told_dots


OK_STEPS = re.compile(rb"([1-9][0-9]*)-([1-9][0-9]*) ok\n")
# A picture whose dots stand below it, a row each.
ROWS = re.compile(r"(picture ([0-9]+)) ([1-9][0-9]*)x([1-9][0-9]*)")
RUN = re.compile(r"([0-9A-F]{6})(?:\*([1-9][0-9]{0,6}))?")
# So much of a line is shown.
MOST_SHOWN = 40
END = "the end"
DONE = "ok"
# How the answer of a call begins.
CALLED = "ax="


class Report(format.Report):
    """A report that is read from a stream. A terminal shows how far it was read.

    Lines are counted as `text` shows them, a picture as one.
    """

    def __init__(
        self, stream: io.BufferedReader, name: str, progress: Optional[Progress] = None
    ) -> None:
        super().__init__(stream, None if progress is None else self._tell)
        self._name = name
        self._progress = progress
        self._length = length_of(stream)

    def steps(self) -> Iterator[Answer]:
        """The answers in their order; a Trouble where the report is damaged, behind those before
        that place."""
        try:
            yield from self.answers()
        except ReportError as error:
            raise Trouble(error.reason, self._name, error.line) from error
        except OSError as error:
            raise Trouble(error.strerror or str(error), self._name, self.line) from error

    def _tell(self, line: int) -> None:
        assert self._progress is not None
        if self._progress.is_due():
            share = (
                f"{100 * self._stream.tell() // self._length} %"
                if self._length
                else f"{line} lines"
            )
            self._progress.tell(f"{self._name}: {share}")


class Expected(Report):
    """An expected report: steps that answer `ok` may be one line, and a picture the rows of its
    dots, or its digest."""

    def answers(self) -> Iterator[Answer]:
        """The answers in their order; a ReportError where the report is damaged, behind those
        before that place."""
        number = 1
        for line in iter(self._next_line, b""):
            alike = OK_STEPS.fullmatch(line)
            if alike is None:
                yield self._answer(number, line)
            else:
                first, last = (decimal(digits, MOST_STEPS) for digits in alike.groups())
                if first is None or last is None or not number == first <= last:
                    given = line[:MOST_SHOWN].decode("ascii").rstrip()
                    raise self._error(f"steps from {number} on are to come, and not '{given}'")
                yield from (Answer(number, self.line, "ok") for number in range(first, last + 1))
                number = last
            number += 1

    def _picture_answer(self, number: int, answer: str) -> Answer:
        found = ROWS.fullmatch(answer)
        place = self.line
        if found is None:
            return super()._picture_answer(number, answer)
        length, width, height = (decimal(word, MOST_PICTURE) for word in found.groups()[1:])
        if length is None or width is None or height is None or width * height > MOST_PICTURE:
            raise self._error(f"no picture has so many dots: '{answer[:MOST_SHOWN]}'")
        picture = Picture.of_dots(width, height, b"".join(self._row(width) for _ in range(height)))
        if picture.length != length:
            raise self._error(
                f"a picture of {picture.size} dots has {picture.length} bytes, and not {length}"
            )
        return Answer(number, place, found[1], (), picture)

    def _row(self, width: int) -> bytes:
        """The dots of the next line: `3F0015*9` stands for nine that are alike."""
        text = self._text_of(self._next_line())
        runs = [RUN.fullmatch(word) for word in text.split(" ")]
        counts = [0 if run is None else int(run[2] or "1") for run in runs]
        # Nothing is made of a row that is longer than the picture.
        if None in runs or sum(counts) != width:
            raise self._error(f"no row of {width} dots: '{text[:MOST_SHOWN]}'")
        dots = b"".join(
            bytes.fromhex(run[1]) * count for run, count in zip(runs, counts) if run is not None
        )
        if max(dots) > 63:
            raise self._error("a dot has a component above 3F")
        return dots


class Difference(NamedTuple):
    """A step with two answers. Where one of the reports has ended, it has no step."""

    step: Optional[Answer]
    other: Optional[Answer]

    @property
    def number(self) -> int:
        """The number of the step that differs; 0 where a fault stands in the place of steps."""
        return max(step.number for step in self if step is not None)

    @property
    def place(self) -> str:
        """The step in messages."""
        return f"step {self.number}" if self.number else "the run"

    def answers(self) -> tuple[str, str]:
        """Both answers, each as one line: the first that differs; pictures by what tells them
        apart."""
        step, other = self
        if step is None or other is None:
            return END if step is None else step.answer, END if other is None else other.answer
        if step.picture is not None and other.picture is not None:
            head = f"{step.answer} {step.picture.size}"
            other_head = f"{other.answer} {other.picture.size}"
            if head != other_head:
                return head, other_head
            return f"{head} {step.picture.sum}", f"{head} {other.picture.sum}"
        lines = zip_longest(step.lines, other.lines, fillvalue=END)
        line, other_line = next(
            (line, other_line) for line, other_line in lines if line != other_line
        )
        if step.kind == other.kind:
            return line, other_line
        # A refusal looks like a byte that was read.
        kind, other_kind = (f" ({one.kind})" if one.kind else "" for one in (step, other))
        return line + kind, other_line + other_kind

    def pictures(self) -> Optional[tuple[Picture, Picture]]:
        """Both pictures, if both answers are pictures whose dots are at hand."""
        picture, other = (None if step is None else step.picture for step in self)
        return (
            (picture, other)
            if isinstance(picture, Picture) and isinstance(other, Picture)
            else None
        )

    def dots(self) -> str:
        """How two pictures of one size differ; empty for all else."""
        pictures = self.pictures()
        return told_dots(*pictures) if pictures and pictures[0].size == pictures[1].size else ""

    def told(self) -> str:
        """What messages tell of it: as a line, what the first report has in the place of what the
        other has."""
        answer, other = self.answers()
        text = self.dots() or f"{answer}, not {other}"
        lines = ["" if step is None else step.answer for step in self]
        if lines[0] != lines[1] == lines[0].upper():
            text += ": digits are upper case in a report"
        return f"{self.place}: {text}"


@dataclass
class Comparison:
    """Walks through two reports side by side, and counts what it has seen.

    Without refusals, the first report is that of a bus that refuses nothing: where the other has a
    refusal, any answer counts as skipped. Of a machine, which would go on from a state of its own
    there, all behind it does too, whether its report has it or not.

    Of an adapter without a BIOS, all behind the first call that is skipped counts as skipped: what
    later steps answer hangs on it.
    """

    has_refusals: bool = True
    is_machine: bool = False
    ends_at_call: bool = False
    steps: int = 0
    pictures: int = 0
    skipped: int = 0
    # The answers that were compared, but for `ok`, and the steps that differ.
    answers: int = 0
    differing: int = 0

    def differences(
        self, steps: Iterator[Answer], others: Iterator[Answer]
    ) -> Iterator[Difference]:
        """The steps that differ, up to the end of the shorter report. A step that was left out
        differs from none."""
        is_left = False
        pairs: Iterator[tuple[Optional[Answer], Optional[Answer]]] = zip_longest(steps, others)
        for step, other in pairs:
            is_left = is_left or (self.is_machine and other is not None and other.kind == REFUSAL)
            if is_left and step is None:
                # A machine gets no step from there on.
                self.steps += 1
                self.skipped += 1
                continue
            if step is None or other is None:
                self.differing += 1
                yield Difference(step, other)
                return
            self.steps += 1
            self.pictures += step.picture is not None
            is_left = is_left or self.ends_at_call and _is_skipped_call(step, other)
            is_alike = _are_alike(step, other)
            # In the place of a refusal any answer will do to a bus that refuses nothing.
            may_be_any = not self.has_refusals and other.kind == REFUSAL
            if is_left or SKIPPED in (step.answer, other.answer) or may_be_any and not is_alike:
                self.skipped += 1
                continue
            self.answers += other.answer != DONE
            if not is_alike:
                self.differing += 1
                yield Difference(step, other)

    def text(self) -> str:
        """What was seen."""
        seen = [counted(self.steps, "step"), counted(self.pictures, "picture")]
        return ", ".join(seen + ([f"{self.skipped} skipped"] if self.skipped else []))


def _is_skipped_call(step: Answer, other: Answer) -> bool:
    """Whether a call is skipped that would be done."""
    return step.answer == SKIPPED and other.answer.startswith(CALLED)


def _are_alike(step: Answer, other: Answer) -> bool:
    if step.number != other.number or step.answer != other.answer or step.others != other.others:
        return False
    picture, other_picture = step.picture, other.picture
    if picture is None or other_picture is None or type(picture) is type(other_picture):
        return picture == other_picture
    return (picture.size, picture.sum) == (other_picture.size, other_picture.sum)
