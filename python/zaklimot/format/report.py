"""Reading a report, answer by answer."""

from __future__ import annotations

import io
import re
from functools import partial
from itertools import count
from typing import Callable, Iterable, Iterator, NamedTuple, Optional, Union, cast

from .picture import Digest, Picture
from .table import FAULT, OK, REFUSALS, refusal_of

# More than the longest line of an answer, with a block of 65,535 bytes, and more than an adapter's
# largest picture.
MOST_LINE, MOST_PICTURE = 1 << 18, 1 << 26
# So many lines follow the first one of an answer at most: a dump of a plane has 4,096.
MOST_LINES = 1 << 16
# How many lines are read between two reports of progress.
_LINES_BETWEEN = 4096

TEXT = re.compile(rb"[ -~]+\n")
_PICTURE = re.compile(r"picture ([1-9][0-9]{0,11})")
# A picture in a report that is kept as text: its length, its size, and its digest in place of its
# bytes.
_SHOWN = re.compile(
    r"(picture ([1-9][0-9]{0,11})) ([1-9][0-9]{0,6}x[1-9][0-9]{0,6}) ([0-9a-f]{32})"
)
READ = re.compile(r"[0-9A-F]{2}|[0-9A-F]{4}")
REFUSED = re.compile(r"E([1-9][0-9]?) ([A-Z][A-Za-z]*)")
# The refusals, with their numbers.
_REFUSED = {refusal_of(number): number for number in REFUSALS}
# What a harness answers if it skips a step.
SKIPPED = "skipped"
# The kinds of answers that could be mistaken for one another.
VALUE, REFUSAL, RUN_FAULT = "read", "refused", "fault"
# The answers of most steps. Looking them up makes long reports fast to read.
_PLAIN = {
    b"%s\n" % answer.encode(): answer
    for answer in (OK, SKIPPED, *("%02X" % value for value in range(256)))
}
_MOST_PLAIN = 1024
# What may follow the lines of an answer.
_DIGITS_OR_END = (b"", *(b"%d" % digit for digit in range(10)))


class ReportError(ValueError):
    """A report is damaged: the reason, and the line, counted from 1."""

    def __init__(self, reason: str, line: int) -> None:
        super().__init__(f"line {line}: {reason}")
        self.reason = reason
        self.line = line


class Answer(NamedTuple):
    """What one step answered: its number, its line in the report, and the lines of the answer.

    A fault that stands in place of a report is an answer with the number 0.
    """

    number: int
    line: int
    answer: str
    others: tuple[str, ...] = ()
    picture: Union[Picture, Digest, None] = None

    @property
    def lines(self) -> tuple[str, ...]:
        """The lines of the answer."""
        return (self.answer, *self.others)

    @property
    def kind(self) -> str:
        """The kind of the answer, if it could be mistaken for another kind."""
        if self.number == 0:
            return RUN_FAULT
        if READ.fullmatch(self.answer):
            return VALUE
        return REFUSAL if self.is_refused else ""

    @property
    def is_refused(self) -> bool:
        """Whether it looks like a refusal, known or not."""
        answer = self.answer
        return (
            answer[:1] == "E"
            and self.number != 0
            and (answer in _REFUSED or REFUSED.fullmatch(answer) is not None)
        )

    @property
    def refusal(self) -> int:
        """The number of the refusal, 1 to 13; or 0 if it is none."""
        return _REFUSED.get(self.answer, 0) if self.number else 0

    def text(self) -> str:
        """Its lines, with a picture as one line; it ends with a newline."""
        if not (self.others or self.picture):
            return f"{self.number} {self.answer}\n" if self.number else f"{self.answer}\n"
        picture = "" if self.picture is None else f" {self.picture.size} {self.picture.sum}"
        return f"{self.number} " + "\n".join(self.lines) + picture + "\n"


# Makes an answer of all its parts in half the time that the class takes.
_made_answer = cast(Callable[[Iterable[object]], Answer], partial(tuple.__new__, Answer))


class Report:
    """A report that is read from a stream. Lines are counted from 1; a picture and its line count
    as one.

    `heard` is called now and then during reading, with the line. `first` is the number of the first
    step: the report of a slice of a script begins with a later step.
    """

    def __init__(
        self,
        stream: io.BufferedReader,
        heard: Optional[Callable[[int], None]] = None,
        first: int = 1,
    ) -> None:
        self._stream = stream
        self._heard = heard
        self._first = first
        # The answers that are looked up, with the refusals that have come so far.
        self._plain = dict(_PLAIN)
        self.line = 0
        # How many steps were read so far.
        self.count = 0

    def answers(self) -> Iterator[Answer]:
        """The answers in order. If the report is damaged, raises ReportError after the answers
        before that place."""
        read_line, plain_of = self._stream.readline, self._plain.get
        for number in count(self._first):
            # The same as `_next_line`, without the call.
            self.line = place = self.line + 1
            if place % _LINES_BETWEEN == 0 and self._heard is not None:
                self._heard(place)
            line = read_line(MOST_LINE)
            front, _, answer = line.partition(b" ")
            plain = plain_of(answer)
            if not line:
                return
            self.count += 1
            if plain is not None and front == b"%d" % number:
                yield _made_answer((number, place, plain, (), None))
            else:
                yield self._answer(number, line)

    def _answer(self, number: int, line: bytes) -> Answer:
        """The answer that begins with this line, which must have this number."""
        text = self._text_of(line)
        place = self.line
        if number == self._first and FAULT.fullmatch(text):
            return self._fault(text)
        front, _, answer = text.partition(" ")
        if front != str(number) or not answer:
            raise self._error(f"step {number} is to come, and not '{_front_of(text)}'")
        if answer.split(" ")[0] == "picture":
            return self._picture_answer(number, answer)
        if REFUSED.fullmatch(answer) or READ.fullmatch(answer):
            if len(self._plain) < _MOST_PLAIN:
                self._plain[line[len(front) + 1 :]] = answer
            return Answer(number, place, answer)
        return Answer(number, place, answer, tuple(self._other_lines()))

    def _picture_answer(self, number: int, answer: str) -> Answer:
        """The answer of a picture. Its bytes come next, or its digest stands in their place."""
        place = self.line
        announced = _PICTURE.fullmatch(answer)
        if announced is not None:
            return Answer(number, place, answer, (), self._picture(number, int(announced[1])))
        shown = _SHOWN.fullmatch(answer)
        if shown is None:
            raise self._error(f"step {number} has a picture of no length: '{_front_of(answer)}'")
        return Answer(number, place, shown[1], (), Digest(int(shown[2]), shown[3], shown[4]))

    def _fault(self, text: str) -> Answer:
        """A fault in place of a report. Nothing may follow it."""
        if self._next_line():
            raise self._error("something stands after a fault")
        return Answer(0, 1, text)

    def _next_line(self) -> bytes:
        """The next line, with its newline if it has one; empty at the report's end."""
        self.line = line = self.line + 1
        if line % _LINES_BETWEEN == 0 and self._heard is not None:
            self._heard(line)
        return self._stream.readline(MOST_LINE)

    def _text_of(self, line: bytes) -> str:
        """A line's text, without its newline."""
        if len(line) == MOST_LINE:
            raise self._error("the line is longer than any answer")
        if not line.endswith(b"\n"):
            raise self._error("the report ends within a line")
        if line.endswith(b"\r\n"):
            raise self._error(
                "the line ends with a carriage return: a report is bytes, not a system's text"
            )
        if TEXT.fullmatch(line) is None:
            raise self._error("the line is empty, or has bytes that no answer has")
        return line[:-1].decode("ascii")

    def _other_lines(self) -> Iterator[str]:
        """The lines before the next step's, which belong to a dump: none of them begins with a
        digit."""
        left = MOST_LINES
        while self._stream.peek(1)[:1] not in _DIGITS_OR_END:
            if not left:
                raise self._error("the answer has more lines than any dump")
            left -= 1
            yield self._text_of(self._next_line())

    def _picture(self, number: int, length: int) -> Picture:
        """Reads the next picture, of the given length, and its newline."""
        if length > MOST_PICTURE:
            raise self._error(
                f"step {number} has a picture of {length} bytes, and {MOST_PICTURE} are the most"
            )
        ppm = self._stream.read(length)
        newline = self._stream.read(1)
        if len(ppm) < length:
            raise self._error(
                f"the picture of step {number} is cut off: of {length} bytes there are {len(ppm)}"
            )
        if newline != b"\n":
            raise self._error(
                f"no newline stands after the {length} bytes of the picture of step {number}"
            )
        if self._heard is not None:
            self._heard(self.line)
        try:
            return Picture.of_ppm(ppm)
        except ValueError as error:
            raise self._error(f"step {number}: {error}") from error

    def _error(self, reason: str) -> ReportError:
        return ReportError(reason, self.line)


def _front_of(text: str) -> str:
    """The beginning of a line, for messages."""
    return text if len(text) <= 40 else text[:40] + ".."
