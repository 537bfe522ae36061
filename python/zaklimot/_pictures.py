"""Pictures: those of frames, which a card lends, and those of reports."""

from __future__ import annotations

import struct
import zlib
from typing import Any, Iterator, NamedTuple

from ._structs import HIGHEST

# A component of six bits widened to eight, so that 63 is white.
_WIDENED = bytes(4 * (value & 63) + (value & 63) // 16 for value in range(256))


class Colour(NamedTuple):
    """A colour of the DAC: red, green and blue, 0 to 63 each."""

    red: int
    green: int
    blue: int


def _chunk(kind: bytes, data: bytes) -> bytes:
    return struct.pack(">I", len(data)) + kind + data + struct.pack(">I", zlib.crc32(kind + data))


def _png(width: int, height: int, rgb: bytes) -> bytes:
    """A PNG of three bytes per dot, eight bits per component."""
    pitch = 3 * width
    rows = b"".join(b"\0" + rgb[pitch * y : pitch * (y + 1)] for y in range(height))
    head = struct.pack(">IIBBBBB", width, height, 8, 2, 0, 0, 0)
    parts = (_chunk(b"IHDR", head), _chunk(b"IDAT", zlib.compress(rows)), _chunk(b"IEND", b""))
    return b"\x89PNG\r\n\x1a\n" + b"".join(parts)


class Picture:
    """The picture of a frame: `height` rows of `width` dots, three bytes per dot, 0 to 63 each.

    `picture[x, y]` is the colour of a dot, x from the left first, as on a screen. `data` is a
    memoryview of 3 * width * height bytes, rows from the top, dots from the left, red, green and
    blue. `pixels` is the same memory with the shape (height, width, 3), as arrays of numpy have it:
    there y comes first, and `picture.pixels[y, x, 0]` is the red of `picture[x, y]`. With numpy,
    `numpy.asarray(picture)` is such an array over the same memory, without a copy.

    A picture that `Card.frame` lends is valid until the card's next frame; `copy()` keeps it. You
    can also pickle a picture, and send it to another process: that makes a copy too.
    """

    def __init__(self, width: int, height: int, data: memoryview) -> None:
        self.width, self.height, self.data = width, height, data

    @property
    def pixels(self) -> memoryview:
        """The dots as a memoryview of the shape (height, width, 3): `pixels[y, x, 0]` is a red."""
        return self.data.cast("B", shape=[self.height, self.width, 3])

    @property
    def __array_interface__(self) -> dict[str, Any]:
        shape = (self.height, self.width, 3)
        return {"version": 3, "typestr": "|u1", "shape": shape, "data": self.data}

    def __getitem__(self, place: tuple[int, int]) -> Colour:
        """`picture[x, y]` is the colour of the dot x from the left, y from the top. IndexError
        outside. `pixels` takes y first."""
        x, y = place
        if not (0 <= x < self.width and 0 <= y < self.height):
            raise IndexError(
                f"({x}, {y}) is outside a picture of {self.width} by {self.height} dots"
            )
        at = 3 * (self.width * y + x)
        return Colour(*self.data[at : at + 3])

    def rows(self) -> Iterator[memoryview]:
        """The rows from the top, 3 * width bytes each."""
        pitch = 3 * self.width
        for y in range(self.height):
            yield self.data[pitch * y : pitch * (y + 1)]

    def copy(self) -> Picture:
        """A copy of the picture in memory of its own."""
        return _picture_of(self.width, self.height, bytes(self.data))

    def __reduce__(self) -> tuple[Any, ...]:
        return _picture_of, (self.width, self.height, bytes(self.data))

    def __eq__(self, other: object) -> bool:
        if not isinstance(other, Picture):
            return NotImplemented
        return (self.width, self.height, self.data) == (other.width, other.height, other.data)

    # Its dots may change, so it is no key.
    __hash__ = None  # type: ignore[assignment]

    def __repr__(self) -> str:
        return f"<Picture of {self.width} by {self.height} dots>"

    def ppm(self) -> bytes:
        """The picture as a Netpbm PPM (P6, at most 63), as reports have it."""
        return b"P6\n%d %d\n63\n" % (self.width, self.height) + self.data

    def png(self) -> bytes:
        """The picture as a PNG of eight bits per component, in which 63 becomes 255."""
        return _png(self.width, self.height, bytes(self.data).translate(_WIDENED))


def _picture_of(width: int, height: int, rgb: bytes) -> Picture:
    """A picture in memory of its own."""
    return Picture(width, height, memoryview(rgb))


class XrgbPicture:
    """The picture of a frame: a word 00RRGGBB or FFRRGGBB per pixel, eight bits per component.

    Each word stands for `across` dots of a line and `down` scan lines. Both are 1 in `frame_xrgb`.

    `picture[x, y]` is the word of a pixel. `words` is a memoryview of 32-bit numbers; row y begins
    at `words[pitch * y]` and has `width` of them. With numpy, `numpy.asarray(picture)` has the
    shape (height, width), without a copy, and takes y first.

    A picture in the card's own memory is valid until its next `frame_xrgb`, `frame_words` or
    `line`; `copy()` keeps it. You can also pickle a picture, which makes a copy too.
    """

    def __init__(
        self, width: int, height: int, pitch: int, words: memoryview, across: int = 1, down: int = 1
    ) -> None:
        self.width, self.height, self.pitch, self.words = width, height, pitch, words
        self.across, self.down = across, down

    @property
    def __array_interface__(self) -> dict[str, Any]:
        shape, strides = (self.height, self.width), (4 * self.pitch, 4)
        return {
            "version": 3,
            "typestr": "<u4",
            "shape": shape,
            "strides": strides,
            "data": self.words,
        }

    def __getitem__(self, place: tuple[int, int]) -> int:
        """`picture[x, y]` is the word of a pixel, x from the left, y from the top. IndexError
        outside."""
        x, y = place
        if not (0 <= x < self.width and 0 <= y < self.height):
            raise IndexError(
                f"({x}, {y}) is outside a picture of {self.width} by {self.height} dots"
            )
        return int(self.words[self.pitch * y + x])

    def rows(self) -> Iterator[memoryview]:
        """The rows from the top, `width` words each."""
        for y in range(self.height):
            yield self.words[self.pitch * y : self.pitch * y + self.width]

    def copy(self) -> XrgbPicture:
        """A copy of the picture in memory of its own, with `width` words in a row."""
        return _words_of(*self._parts())

    def _parts(self) -> tuple[int, int, bytes, int, int]:
        """What a copy is made of."""
        return self.width, self.height, b"".join(self.rows()), self.across, self.down

    def __reduce__(self) -> tuple[Any, ...]:
        return _words_of, self._parts()

    def __repr__(self) -> str:
        return f"<XrgbPicture of {self.width} by {self.height} dots>"


def _words_of(width: int, height: int, words: bytes, across: int, down: int) -> XrgbPicture:
    """A picture in memory of its own."""
    return XrgbPicture(width, height, width, memoryview(words).cast("I"), across, down)


class IndexedPicture:
    """The picture of a frame: `height` rows of `width` numbers of colours, and their palette.

    `picture[x, y]` is the number of a dot's colour, 0 to 255, and `palette[number]` that colour, a
    word 00RRGGBB with eight bits per component. The palette is a tuple of at most 256 words: the
    colours of this picture, each once, in the order in which they first appear. `numbers` is a
    memoryview of width * height bytes, rows from the top, dots from the left. With numpy,
    `numpy.asarray(picture)` has the shape (height, width), without a copy, and takes y first.

    A picture in the card's own memory is valid until its next `frame_indexed`; `copy()` keeps it.
    You can also pickle a picture, which makes a copy too.
    """

    def __init__(
        self, width: int, height: int, numbers: memoryview, palette: tuple[int, ...]
    ) -> None:
        self.width, self.height, self.numbers, self.palette = width, height, numbers, palette

    @property
    def __array_interface__(self) -> dict[str, Any]:
        shape = (self.height, self.width)
        return {"version": 3, "typestr": "|u1", "shape": shape, "data": self.numbers}

    def __getitem__(self, place: tuple[int, int]) -> int:
        """`picture[x, y]` is the number of a dot's colour, x from the left, y from the top.
        IndexError outside."""
        x, y = place
        if not (0 <= x < self.width and 0 <= y < self.height):
            raise IndexError(
                f"({x}, {y}) is outside a picture of {self.width} by {self.height} dots"
            )
        return int(self.numbers[self.width * y + x])

    def rows(self) -> Iterator[memoryview]:
        """The rows from the top, `width` numbers each."""
        for y in range(self.height):
            yield self.numbers[self.width * y : self.width * (y + 1)]

    def copy(self) -> IndexedPicture:
        """A copy of the picture in memory of its own."""
        return _indexed_of(*self._parts())

    def _parts(self) -> tuple[int, int, bytes, tuple[int, ...]]:
        """What a copy is made of."""
        return self.width, self.height, bytes(self.numbers), self.palette

    def __reduce__(self) -> tuple[Any, ...]:
        return _indexed_of, self._parts()

    def __repr__(self) -> str:
        return (
            f"<IndexedPicture of {self.width} by {self.height} dots in {len(self.palette)} colours>"
        )


def _indexed_of(
    width: int, height: int, numbers: bytes, palette: tuple[int, ...]
) -> IndexedPicture:
    """A picture in memory of its own."""
    return IndexedPicture(width, height, memoryview(numbers), palette)


class ScanLine(NamedTuple):
    """A line of a frame, as it ends."""

    number: int
    """of the frame, from 0; lines without a dot are counted too"""
    ends_frame: bool
    """whether the frame ends with it"""
    words: memoryview
    """a word 00RRGGBB or FFRRGGBB for each dot, from the left"""


class Lines:
    """The dots of a frame line by line, even if its lines differ in width.

    `widths[y]` is how many dots line y has, 0 to 2,304, for y from 0 to 1,023. Iterating gives a
    memoryview of 3 * widths[y] bytes for each line that has dots; `line(y)` gives one by its
    number. It is valid until the card's next frame.
    """

    def __init__(self, widths: tuple[int, ...], data: memoryview) -> None:
        self.widths, self.data = widths, data

    def line(self, y: int) -> memoryview:
        """The dots of line y, 0 to 1,023: red, green and blue, 0 to 63 each. IndexError outside."""
        if not 0 <= y < HIGHEST:
            raise IndexError(f"there are lines 0 to {HIGHEST - 1}, and not {y}")
        begin = 3 * sum(self.widths[:y])
        return self.data[begin : begin + 3 * self.widths[y]]

    def __iter__(self) -> Iterator[memoryview]:
        begin = 0
        for width in self.widths:
            if width:
                yield self.data[begin : begin + 3 * width]
                begin += 3 * width

    def __len__(self) -> int:
        """How many lines have dots."""
        return sum(1 for width in self.widths if width)

    def __repr__(self) -> str:
        return f"<Lines: {len(self)} of them have dots>"
