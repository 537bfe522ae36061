"""Pictures of reports, which are Netpbm PPMs, and how two of them differ."""

from __future__ import annotations

import hashlib
import re
from dataclasses import dataclass
from typing import NamedTuple, Optional

HEADER = re.compile(rb"P6\n([1-9][0-9]{0,6}) ([1-9][0-9]{0,6})\n63\n")
COMPONENTS = bytes(range(64))


class Digest(NamedTuple):
    """The size and the digest of a picture whose dots are not at hand."""

    length: int
    size: str
    sum: str


class DifferentDots(NamedTuple):
    """How many dots of two pictures of one size differ, and where the first of them is."""

    # It takes the name of a tuple's method, which nobody calls here.
    count: int  # type: ignore[assignment]
    x: int
    y: int


@dataclass(frozen=True)
class Picture:
    """A picture of dots of three components, each from 0 to 63."""

    ppm: bytes
    width: int
    height: int

    @classmethod
    def of_ppm(cls, ppm: bytes) -> Picture:
        """The picture of a PPM. Raises ValueError with the reason if it is not one."""
        header = HEADER.match(ppm)
        if header is None:
            raise ValueError(
                "the picture doesn't begin as a PPM of the kind P6, width, height and 63"
            )
        width, height = int(header[1]), int(header[2])
        length = header.end() + 3 * width * height
        if len(ppm) != length:
            raise ValueError(
                f"a picture of {width}x{height} dots has {length} bytes, and not {len(ppm)}"
            )
        if ppm[header.end() :].translate(None, COMPONENTS):
            raise ValueError("a dot of the picture has a component above 63")
        return cls(ppm, width, height)

    @classmethod
    def of_dots(cls, width: int, height: int, dots: bytes) -> Picture:
        """A picture of these dots, row by row from the top left."""
        return cls.of_ppm(b"P6\n%d %d\n63\n" % (width, height) + dots)

    @property
    def length(self) -> int:
        """The length of its PPM in bytes."""
        return len(self.ppm)

    @property
    def size(self) -> str:
        """Width and height, as `720x400`."""
        return f"{self.width}x{self.height}"

    @property
    def sum(self) -> str:
        """The MD5 digest of its PPM, in hexadecimal."""
        return hashlib.md5(self.ppm).hexdigest()

    def row(self, y: int) -> bytes:
        """The dots of a row, three bytes each."""
        start = len(self.ppm) - 3 * self.width * (self.height - y)
        return self.ppm[start : start + 3 * self.width]

    def dot(self, x: int, y: int) -> str:
        """A dot's red, green and blue, as `3F0015`."""
        return self.row(y)[3 * x : 3 * x + 3].hex().upper()


def marks_in_row(row: bytes, other: bytes) -> list[bool]:
    """For each dot of a row, whether it differs from the dot of another row of the same width."""
    return [row[at : at + 3] != other[at : at + 3] for at in range(0, len(row), 3)]


def different_dots(picture: Picture, other: Picture) -> Optional[DifferentDots]:
    """Which dots of two pictures of one size differ, if any do."""
    count, first = 0, None
    for y in range(picture.height):
        row, other_row = picture.row(y), other.row(y)
        if row != other_row:
            marks = marks_in_row(row, other_row)
            count += sum(marks)
            first = first or (marks.index(True), y)
    return None if first is None else DifferentDots(count, *first)
