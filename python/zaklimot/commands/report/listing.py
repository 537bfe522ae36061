"""A run step by step: each with its line, its number, its words as they were understood, and its
answer.

What was seen is counted, told for machines, or written into the script.
"""

import io
import re
import select
import tempfile
import time
from contextlib import contextmanager, nullcontext
from functools import partial
from itertools import chain, count, islice, repeat, zip_longest
from pathlib import Path
from typing import Any, BinaryIO, Callable, Iterable, Iterator, NamedTuple, Optional, Union, cast

from zaklimot.format import STATE, Answer, count_in, is_bytes, places_in, steps_in, words_in
from zaklimot.format.report import VALUE
from zaklimot.format.table import OK
from zaklimot.commands.core.processes import IS_POSIX
from zaklimot.commands.core.progress import Progress
from zaklimot.commands.core.streams import JsonList, counted, writing
from zaklimot.commands.core.trouble import Trouble
from zaklimot.commands.explain.faults import explained
from zaklimot.commands.explain.reasons import Reasons
from zaklimot.commands.script.own import OwnProgram
from zaklimot.commands.script.program import BuiltProgram, fault_of
from zaklimot.commands.script.reading import text_of

from .expecting import (
    ANY,
    DUMPED,
    MARK,
    answer_of,
    dumps_in,
    expected_in,
    is_as_expected,
    is_worth_telling,
    what_differs,
)
from .report import Report


HEADING = "step as understood"
# So many bytes of answers that differ stay in memory.
MOST_TOLD = 1 << 20
# Seconds between two looks whether there is an answer.
PAUSE = 0.2
# A script of bytes with no step has so many.
EMPTY = 5
# The words of a step, the number of its line, if it stands on one, and its comment.
Stood = tuple[str, tuple[Optional[int], bytes]]
# The place of a step that stands on no line of the script.
NO_PLACE = None, b""
# The widest column of steps; what is longer has its end cut off.
MOST_WORDS = 47
# What a tally counts for machines.
COUNTS = ("steps", "refused", "pictures", "expected", "met", "wrong")
RANGE = re.compile(r"([0-9]{1,10})(?:-([0-9]{1,10}))?")


class Row(NamedTuple):
    """A step with its answer."""

    step: Answer
    words: str
    line: Optional[int] = None
    expected: Optional[str] = None
    # A dump that is expected, where it stands whole; why the step was refused; whether a refusal
    # must be expected.
    dump: tuple[str, ...] = ()
    why: str = ""
    is_strict: bool = False

    @property
    def name(self) -> str:
        """What the step does: its first word."""
        return self.words.partition(" ")[0].lower()

    @property
    def is_wrong(self) -> bool:
        """Whether another answer was expected."""
        expected = self.expected
        if expected is None:
            return self.is_strict and self.step.is_refused
        is_other = bool(self.dump) and expected != ANY and self.dump != self.step.lines
        return is_other or not is_as_expected(self.step, expected, self.words)

    def mismatch(self) -> str:
        """What an answer is in the place of the one that was expected."""
        if self.expected is None:
            return f"answers {self.step.answer}, and no refusal is expected"
        named = what_differs(self.step, self.expected, self.name, self.dump)
        return f"answers {answer_of(self.step)}, not {self.expected}" + (
            f": {'; '.join(named)}" if named else ""
        )


# A row of all its parts, made in half the time that the class itself takes.
made_row = cast(Callable[[Iterable[object]], Row], partial(tuple.__new__, Row))
# What `--only` may call a step, and which steps it means.
KINDS: dict[str, Callable[[Row], bool]] = {
    "refused": lambda row: row.step.is_refused,
    "read": lambda row: row.step.kind == VALUE,
    "pictures": lambda row: row.step.picture is not None or row.step.answer == "ragged",
    "dumps": lambda row: row.name == "show" and not row.step.is_refused,
    "differs": lambda row: row.is_wrong,
}


def chosen(text: str) -> Callable[[Row], bool]:
    """Which steps `--only` shows with this text: those of some numbers and kinds."""
    kinds = list(map(_kind, text.split(",")))
    return lambda row: any(is_meant(row) for is_meant in kinds)


def _kind(word: str) -> Callable[[Row], bool]:
    found = RANGE.fullmatch(word)
    if found is None and word not in KINDS:
        raise Trouble(
            f"--only has numbers of steps, as 10-20, and {', '.join(KINDS)}, and not '{word}'"
        )
    if found is None:
        return KINDS[word]
    first = int(found[1])
    last = int(found[2] or found[1])
    if not 1 <= first <= last:
        reason = (
            "steps are counted from 1"
            if not first
            else f"the range ends before it begins: {last}-{first}?"
        )
        raise Trouble(f"--only {word}: {reason}")
    return lambda row: first <= row.step.number <= last


class RunScript:
    """A script that is run: its file, and its steps as they stand in it and as the program
    understands them.

    The steps are read anew each time from the text and from what the program prints, so that memory
    holds none of them.
    """

    def __init__(
        self,
        path: str,
        data: bytes,
        program: Union[BuiltProgram, OwnProgram],
        shown: str,
        printed: BinaryIO,
    ) -> None:
        self._path = path
        self.shown = shown
        self.is_bytes = is_bytes(data)
        self._text = None if self.is_bytes else io.BytesIO(data)
        self._dumps = {} if self.is_bytes else dumps_in(data, shown)
        self._program = program
        program.print_steps(Path(path), self.is_bytes, printed)
        understood = count_in(printed)
        meant = understood if self._text is None else count_in(self._text)
        # Without a line for each step there is no telling which is which; the words are then those
        # of the text.
        self._printed = printed if understood == meant else None
        # How many steps it means; None where that isn't known, of bytes that the program doesn't
        # print.
        self._count: Optional[int] = (
            meant if meant or not self.is_bytes or len(data) <= EMPTY else None
        )
        printed.seek(0)
        lengths = (
            map(len, printed)
            if self._printed is not None
            else (len(words) + 1 for words, _ in self._steps())
        )
        longest = max(lengths, default=1) - 1
        self.width = min(max(len(HEADING), longest), MOST_WORDS)

    def _steps(self) -> Iterator[Stood]:
        """The steps: each one's words as they were understood, with the number of its line and its
        comment."""
        if self._printed is None:
            assert self._text is not None
            return ((line.words, (line.number, line.comment)) for line in steps_in(self._text))
        return zip(
            words_in(self._printed),
            zip(count(1), repeat(b"")) if self._text is None else places_in(self._text),
        )

    def rows(
        self, fonts: str, until: Optional[int], progress: Progress, is_strict: bool, tells_why: bool
    ) -> Iterator[Row]:
        """The steps with their answers, as they come, and why each was refused, if that is
        wanted. A fault is told with its reason."""
        reasons = Reasons() if tells_why else None
        # A script may have millions of steps, and each look at an object takes its time.
        dumps_at = self._dumps
        is_told = progress.is_wanted
        for (words, (number, comment)), step in self._answered(fonts, until, progress):
            if is_told and progress.is_due():
                progress.tell(f"{self.shown}: step {step.number} of {self._count}")
            expected = expected_in(comment) if comment else None
            why = "" if reasons is None else reasons.why_of(words, step)
            dump = () if number is None else dumps_at.get(number, ())
            yield made_row((step, words, number, expected, dump, why, is_strict))

    def _meant(self, until: Optional[int]) -> Iterator[Stood]:
        """The steps of a run that may be stopped, with the dumps behind the last of them. Steps
        that aren't known have no words."""
        dumps = () if until is None else STATE
        unknown = repeat(("", NO_PLACE)) if self._count is None else ()
        return chain(islice(self._steps(), until), ((dump, NO_PLACE) for dump in dumps), unknown)

    def _wanted(self, until: Optional[int]) -> Optional[int]:
        """How many answers a run is to have; None where that isn't known."""
        if self._count is None or until is None:
            return self._count
        return min(until, self._count) + len(STATE)

    def _answered(
        self, fonts: str, until: Optional[int], progress: Progress
    ) -> Iterator[tuple[Stood, Answer]]:
        """The steps of a run, each with its answer; a Trouble where they are not as many."""
        wanted = self._wanted(until)
        with self._program.running(Path(self._path), fonts, until, self.is_bytes) as outcome:
            _wait_for(outcome.report, self.shown, progress)
            report = Report(cast(io.BufferedReader, outcome.report), "the report", progress)
            steps = report.steps()
            first = next(steps, None)
            if first is not None and first.number == 0:
                # A fault stands in the place of the report.
                raise self._trouble(first.answer, fonts)
            steps = chain(() if first is None else (first,), steps)
            yield from zip(self._meant(until), steps)
            if next(steps, None) is not None:
                raise Trouble(f"the report goes on after the last step, {wanted}", self.shown)
        if outcome.status:
            raise self._trouble(fault_of(outcome), fonts)
        if wanted is None:
            raise Trouble(
                "the program prints none of its steps, so there is no telling which were answered",
                self.shown,
            )
        if report.count < wanted:
            raise Trouble(f"the report ends after {report.count:,} of {wanted:,} steps", self.shown)

    def _trouble(self, fault: str, fonts: str) -> Trouble:
        return Trouble(explained(fault, self._path, fonts).replace(self._path, self.shown))


def _wait_for(report: BinaryIO, shown: str, progress: Progress) -> None:
    """Tells how long a program has given no answer yet."""
    try:
        report.fileno()
    except OSError:
        # The library answers in this process.
        return
    begun = time.monotonic()
    while IS_POSIX and progress.is_wanted and not select.select([report], [], [], PAUSE)[0]:
        if progress.is_due():
            passed = counted(round(time.monotonic() - begun), "second")
            progress.tell(f"{shown}: no answer yet after {passed}")


def listed(row: Row, is_wrong: bool, width: int, more: str = "", why: str = "") -> str:
    """A step in the listing, and below it why it was refused: lines that end with a newline
    each."""
    step = row.step
    words = row.words
    if len(words) > width:
        words = words[: width - 2] + ".."
    place = "" if row.line is None else row.line
    is_other = is_wrong and row.expected is not None
    if not is_other and step.picture is None and not step.others:
        text = "%6s %6d  %-*s  %s\n" % (place, step.number, width, words, step.answer)
    else:
        front = "%6s %6d  %-*s  " % (place, step.number, width, words)
        answers = [answer_of(step) + more] if step.picture is not None else list(step.lines)
        if is_other:
            answers[-1] += f"   not {row.expected}"
        fronts = zip_longest([front], answers, fillvalue=" " * len(front))
        text = "".join((front + answer).rstrip() + "\n" for front, answer in fronts)
    return f"{text}{'':15}{why}\n" if why else text


def heading(width: int) -> str:
    """The names of the columns."""
    return f"{'line':>6} {'step':>6}  {HEADING:{width}}  answer"


class Tally:
    """What was seen of a run: counted, and told as JSON into a stream, if one is given, as the
    steps come.

    The JSON is one object, whose last members are the counts, and the trouble of a run that isn't
    whole.
    """

    def __init__(self, shown: str, stream: Optional[BinaryIO] = None) -> None:
        self.shown = shown
        self.steps = self.pictures = self.refused = self.expected = self.met = self.wrong = 0
        # The answers that differ may be as many as the steps.
        self._told = tempfile.SpooledTemporaryFile(MOST_TOLD)
        self._json = None if stream is None else JsonList(stream, "answers", {"script": shown})

    def count(self, row: Row) -> bool:
        """Counts a step, and tells whether another answer was expected."""
        step = row.step
        expected = row.expected
        self.steps += 1
        if self._json is not None:
            self._json.entries.add(_told(row))
        if expected is None and step.answer == OK:
            # Of most steps there is nothing more to count.
            return False
        self.pictures += step.picture is not None
        self.refused += step.is_refused
        is_wrong = row.is_wrong
        if expected is not None:
            self.expected += 1
            self.met += not is_wrong
        if is_wrong:
            self.wrong += 1
            place = f"{self.shown}:{row.line}: step {step.number}"
            self._told.write(
                f"{place}: {row.words} {row.mismatch()}\n".encode("utf-8", "surrogateescape")
            )
        return is_wrong

    def end(self, trouble: Optional[Trouble]) -> None:
        """Ends the JSON, with the trouble of a run that isn't whole."""
        if self._json is not None:
            counts = {name: getattr(self, name) for name in COUNTS}
            self._json.end({**counts, "trouble": None if trouble is None else str(trouble)})

    def differing(self) -> Iterator[str]:
        """The answers that differ, a line each."""
        self._told.seek(0)
        return (line.decode("utf-8", "surrogateescape") for line in self._told)

    def text(self) -> str:
        """What was seen, as a line."""
        parts = [
            counted(self.steps, "step"),
            *([f"{self.refused} refused"] if self.refused else []),
        ]
        parts.append(counted(self.pictures, "picture"))
        if self.expected:
            parts.append(f"{self.met} of {self.expected} answers as expected")
        return ", ".join(parts)


def _told(row: Row) -> dict[str, Any]:
    step = row.step
    told: dict[str, Any] = {
        "step": step.number,
        "line": row.line,
        "words": row.words,
        "answer": answer_of(step),
    }
    if step.others:
        told["lines"] = list(step.lines)
    if step.picture is not None:
        told["picture"] = {"size": step.picture.size, "md5": step.picture.sum}
    if step.is_refused:
        told["refused"] = step.answer
        told["why"] = row.why
    if row.expected is not None or row.is_wrong:
        told["expected"] = row.expected
        told["met"] = not row.is_wrong
    return told


@contextmanager
def tallied(shown: str, place: Union[str, BinaryIO, None]) -> Iterator[Tally]:
    """The tally of a run, whose JSON goes into a file that is named or into a stream, if there is
    one: whole, also where a trouble ends the run."""
    trouble: Optional[Trouble] = None
    with writing(place) if isinstance(place, str) else nullcontext(place) as stream:
        tally = Tally(shown, stream)
        try:
            yield tally
        except Trouble as raised:
            trouble = raised
        tally.end(trouble)
        if stream is not None:
            stream.write(b"\n")
    if trouble is not None:
        raise trouble


class ChangedLine(NamedTuple):
    """A line of a script whose expectation changes: what it was, and what it will be."""

    number: int
    before: str
    after: str


class BlessedAnswer(NamedTuple):
    """What the step of a line answered: on one line, and the lines of a dump of several."""

    line: str
    dump: tuple[str, ...] = ()


class Blessing:
    """The answers that a script is to expect: those that were not met, and those of steps that
    expect none yet."""

    def __init__(self, data: bytes) -> None:
        self._lines = text_of(data).split("\n")
        # What each line's step answered, and which lines change; and the last line of which a step
        # was taken.
        self._answers: dict[int, BlessedAnswer] = {}
        self._changed: set[int] = set()
        self._last = 0

    def take(self, row: Row) -> None:
        """Takes a step's answer. That of a block's step may be another each time: then any will
        do."""
        number = row.line
        if number is None:
            return
        is_again = number <= self._last
        self._last = max(self._last, number)
        is_told = row.expected is not None or is_worth_telling(row.step, row.words)
        dump = row.step.lines if row.step.others else ()
        answered = BlessedAnswer(answer_of(row.step), dump)
        if is_told:
            # What was not worth telling before was another answer.
            known = self._answers.setdefault(number, BlessedAnswer(ANY) if is_again else answered)
        else:
            known = self._answers.get(number, answered)
        if known != answered:
            self._answers[number] = BlessedAnswer(ANY)
        if row.is_wrong or row.expected is None and is_told:
            self._changed.add(number)

    def changes(self) -> Iterator[ChangedLine]:
        """The lines whose expectations change."""
        for number, answered in self._answers.items():
            if number in self._changed:
                before = expected_in(
                    self._lines[number - 1].partition(";")[2].encode("utf-8", "surrogateescape")
                )
                yield ChangedLine(number, before or "", answered.line)

    def text(self) -> str:
        """The script with the answers in it."""
        lines = []
        is_dropped = False
        for number, line in enumerate(self._lines, 1):
            if not (is_dropped and line.strip().startswith(DUMPED)):
                is_dropped = False
                lines.append(line)
            if number in self._changed:
                answered = self._answers[number]
                lines[-1] = _blessed(line, answered.line)
                lines += [f"{DUMPED} {part}{_ending(line)}" for part in answered.dump]
                is_dropped = True
        return "\n".join(lines)


def _ending(line: str) -> str:
    """How a line ends, before its line feed."""
    return "\r" if line.endswith("\r") else ""


def _blessed(line: str, answer: str) -> str:
    words, _, comment = line.rstrip("\r").partition(";")
    rest = comment.strip()
    if rest.startswith(MARK):
        rest = rest.partition(";")[2].strip()
    # Comments stand in the column where they stood.
    front = words if words.endswith((" ", "\t")) else words + " "
    return f"{front}; {MARK} {answer}" + (f" ; {rest}" if rest else "") + _ending(line)
