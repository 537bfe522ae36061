"""The reports of `run` and `Card.run_on` (docs/REPORT.md), step by step."""

from __future__ import annotations

import io
from functools import cached_property
from typing import Iterator, NamedTuple, Optional, Sequence, Union, overload

from . import format
from ._errors import BY_NUMBER, Error
from ._pictures import Picture
from ._state import Answer
from .format.report import READ


class Step(NamedTuple):
    """The answer of one step: its number, counted from 1, its text, and its picture if it has
    one."""

    number: int
    answer: str
    """what stands after the number; a dump of several lines has newlines in it"""
    picture: Optional[Picture] = None

    @property
    def value(self) -> Optional[int]:
        """The byte or the word that was read, or None."""
        return int(self.answer, 16) if READ.fullmatch(self.answer) else None

    @property
    def registers(self) -> Optional[Answer]:
        """What an `int` answers, or None."""
        words = self.answer.split(" ")
        pairs = [word.partition("=") for word in words[: len(format.REGISTERS)]]
        if [name for name, *_ in pairs] != list(format.REGISTERS):
            return None
        ax, bx, cx, dx = (int(value, 16) for *_, value in pairs)
        return Answer(ax, bx, cx, dx, bytes.fromhex(words[-1] if len(words) > 4 else ""))

    @property
    def refusal(self) -> Optional[type[Error]]:
        """The class of the refusal, such as `zaklimot.NotDecoded`, or None."""
        return BY_NUMBER.get(format.Answer(self.number, 0, self.answer).refusal)


def _picture(read: Union[format.Picture, format.Digest, None]) -> Optional[Picture]:
    """A picture of the report, over the report's own bytes."""
    if not isinstance(read, format.Picture):
        return None
    return Picture(read.width, read.height, memoryview(read.ppm)[-3 * read.width * read.height :])


def read_steps(raw: bytes) -> Iterator[Step]:
    """The steps of a report one after another. It may begin with any number."""
    front = raw[:20].partition(b" ")[0]
    # What `BufferedReader` asks of a stream, bytes in memory have too.
    stream = io.BufferedReader(io.BytesIO(raw))  # type: ignore[arg-type]
    for answer in format.Report(stream, first=int(front) if front.isdigit() else 1).answers():
        yield Step(answer.number, "\n".join(answer.lines), _picture(answer.picture))


class Report(Sequence[Step]):
    """The steps of a run, in order. `raw` is the report as bytes.

    `report[0]` is the answer of the first step. `taken` is how many steps there are.
    """

    def __init__(self, raw: bytes, taken: Optional[int] = None) -> None:
        self.raw = raw
        self._taken = taken

    @cached_property
    def _steps(self) -> list[Step]:
        return list(read_steps(self.raw))

    @overload
    def __getitem__(self, at: int) -> Step:
        ...

    @overload
    def __getitem__(self, at: slice) -> list[Step]:
        ...

    def __getitem__(self, at: Union[int, slice]) -> Union[Step, list[Step]]:
        return self._steps[at]

    def __iter__(self) -> Iterator[Step]:
        return iter(self._steps)

    def __len__(self) -> int:
        return len(self._steps)

    @property
    def taken(self) -> int:
        """How many steps were taken."""
        return len(self._steps) if self._taken is None else self._taken

    @property
    def pictures(self) -> list[Picture]:
        """The pictures, in order."""
        return [step.picture for step in self._steps if step.picture is not None]

    def __repr__(self) -> str:
        return f"<Report of {len(self.raw):,} bytes>"
