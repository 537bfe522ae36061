"""Pictures as PNG of eight bits, still and moving; and as blocks of colour in a terminal."""

import struct
import zlib
from itertools import groupby
from typing import BinaryIO, Iterable, Iterator, NamedTuple, Optional

from zaklimot.format import Picture
from zaklimot.format.picture import marks_in_row
from zaklimot.commands.core.streams import writing
from zaklimot.commands.core.trouble import Trouble

# Six bits widened to eight, so that 0 stays 0 and 3F is FF.
WIDENED = bytes(value << 2 | value >> 4 for value in range(64)) + bytes([255] * 192)
# A dot that is marked, and how a dot that is not is darkened.
MARK = b"\xff\x20\x20"
DARKENED = bytes(value // 3 for value in range(256))
SIGNATURE = b"\x89PNG\r\n\x1a\n"
COMPRESSION = 6
# The delay of a frame is a fraction of two numbers below this.
MOST_NUMBER = 0xFFFF
SHORT = 50_000
LONG = 100
# Blocks show a picture as if it had this shape.
UPPER_HALF = "\u2580"
MONITOR = 4 / 3
# An enlarged picture has at most so many dots.
MOST_DOTS = 100_000_000


class ImageSize(NamedTuple):
    """The width and the height of an image, in dots."""

    width: int
    height: int

    def __str__(self) -> str:
        return f"{self.width}x{self.height}"


class Shape(NamedTuple):
    """How a picture is enlarged: each dot so often, and then to the shape of a monitor of 4 by
    3."""

    scale: int = 1
    is_monitor: bool = False

    def size(self, width: int, height: int) -> ImageSize:
        """The size that a picture of this width and height gets. No dot is lost."""
        given = ImageSize(width, height)
        width *= self.scale
        height *= self.scale
        if self.is_monitor and 3 * width > 4 * height:
            height = (3 * width + 2) // 4
        elif self.is_monitor:
            width = (4 * height + 1) // 3
        if width * height > MOST_DOTS:
            raise Trouble(
                f"a picture of {given} dots would get {width}x{height}, and {MOST_DOTS:,} dots are"
                " the most"
            )
        return ImageSize(width, height)


def chunk(kind: bytes, data: bytes) -> bytes:
    """A chunk of a PNG."""
    return struct.pack(">I", len(data)) + kind + data + struct.pack(">I", zlib.crc32(kind + data))


def _head(width: int, height: int) -> bytes:
    """What a PNG of eight bits a component begins with: of these the six high ones were given."""
    head = chunk(b"IHDR", struct.pack(">IIBBBBB", width, height, 8, 2, 0, 0, 0))
    return SIGNATURE + head + chunk(b"sBIT", bytes([6, 6, 6]))


def _packed(rows: Iterable[bytes], size: ImageSize, new: ImageSize) -> Iterator[bytes]:
    packer = zlib.compressobj(COMPRESSION)
    for row in rows if new == size else stretched(rows, size, new):
        packed = packer.compress(b"\0" + row)
        if packed:
            yield packed
    yield packer.flush()


def stretched(rows: Iterable[bytes], size: ImageSize, new: ImageSize) -> Iterator[bytes]:
    """Rows of one size as rows of a larger one, each dot and each row repeated as often as it
    takes."""
    width, height = size
    new_width, new_height = new
    columns = [x * width // new_width for x in range(new_width)]
    last = b""
    wide = b""
    for y, row in enumerate(rows):
        if row != last:
            dots = [row[at : at + 3] for at in range(0, len(row), 3)]
            last = row
            wide = row if width == new_width else b"".join(map(dots.__getitem__, columns))
        # The new rows that this one gives: those whose number times height / new_height is y and a
        # bit.
        for _ in range(-(-y * new_height // height), -(-(y + 1) * new_height // height)):
            yield wide


def _rows(picture: Picture) -> Iterator[bytes]:
    return (picture.row(y).translate(WIDENED) for y in range(picture.height))


def _marked_row(picture: Picture, other: Picture, width: int, y: int) -> bytes:
    if y >= picture.height or y >= other.height:
        return MARK * width
    row = picture.row(y)
    other_row = other.row(y)
    shared = 3 * min(picture.width, other.width)
    dark = row[:shared].translate(WIDENED).translate(DARKENED)
    if row != other_row:
        marks = marks_in_row(row[:shared], other_row[:shared])
        dark = b"".join(MARK if mark else dark[3 * x : 3 * x + 3] for x, mark in enumerate(marks))
    return dark + MARK * (width - shared // 3)


def write_png(
    stream: BinaryIO, picture: Picture, shape: Shape = Shape(), other: Optional[Picture] = None
) -> None:
    """Writes a picture; beside another one it is darkened, and the dots are marked in which that
    differs."""
    width = picture.width
    height = picture.height
    rows = _rows(picture)
    if other is not None:
        width = max(width, other.width)
        height = max(height, other.height)
        rows = (_marked_row(picture, other, width, y) for y in range(height))
    size = shape.size(width, height)
    stream.write(_head(*size))
    for part in _packed(rows, ImageSize(width, height), size):
        stream.write(chunk(b"IDAT", part))
    stream.write(chunk(b"IEND", b""))


def save_png(
    path: str, picture: Picture, shape: Shape = Shape(), other: Optional[Picture] = None
) -> None:
    """The same into a file."""
    with writing(path) as stream:
        write_png(stream, picture, shape, other)


class PackedFrame(NamedTuple):
    """A frame that moves: its packed rows, and how long it lasts, as so many parts of a second."""

    rows: bytes
    time: int
    part: int


class Animation:
    """Frames of one size: that of the first, or a size that is given, to which each picture is
    stretched."""

    def __init__(self, shape: Shape, stretched: Optional[ImageSize] = None) -> None:
        self._shape = shape
        self._stretched = stretched
        self._size = ImageSize(0, 0)
        self._first = ""
        self.seconds = 0.0
        self.frames: list[PackedFrame] = []

    def add(self, picture: Picture, seconds: float, name: str) -> None:
        """Adds a frame, which is to have the size of the first."""
        given = ImageSize(picture.width, picture.height)
        size = self._shape.size(*(self._stretched or given))
        if self.frames and size != self._size:
            raise Trouble(
                f"{name} has a picture of another size than {self._first}: --step picks those of"
                " one size"
            )
        self._size = size
        self._first = self._first or name
        packed = b"".join(_packed(_rows(picture), given, size))
        part = SHORT if seconds < 1 else LONG
        self.frames.append(PackedFrame(packed, min(MOST_NUMBER, round(seconds * part)), part))
        self.seconds += seconds

    def write(self, stream: BinaryIO) -> None:
        """Writes all frames; they begin anew without an end."""
        width, height = self._size
        stream.write(_head(width, height) + chunk(b"acTL", struct.pack(">II", len(self.frames), 0)))
        for at, (packed, time, part) in enumerate(self.frames):
            # These chunks are counted, but for the first frame's dots.
            number = max(0, 2 * at - 1)
            stream.write(
                chunk(
                    b"fcTL",
                    struct.pack(">IIIIIHHBB", number, width, height, 0, 0, time, part, 0, 0),
                )
            )
            stream.write(
                chunk(b"fdAT", struct.pack(">I", 2 * at) + packed) if at else chunk(b"IDAT", packed)
            )
        stream.write(chunk(b"IEND", b""))


def _shrunk_row(picture: Picture, top: int, bottom: int, columns: int) -> list[list[int]]:
    rows = [picture.row(y).translate(WIDENED) for y in range(top, max(top + 1, bottom))]
    colours = []
    for column in range(columns):
        left = column * picture.width // columns
        right = max(left + 1, (column + 1) * picture.width // columns)
        count = len(rows) * (right - left)
        colours.append(
            [
                sum(sum(row[3 * left + part : 3 * right : 3]) for row in rows) // count
                for part in range(3)
            ]
        )
    return colours


def block_lines(picture: Picture, columns: int, lines: int) -> Iterator[str]:
    """The lines that show a picture in the shape of a monitor, at most so many characters wide and
    so many lines high."""
    columns = max(2, min(columns, picture.width, round(2 * lines * MONITOR)))
    rows = max(2, round(columns / MONITOR) // 2 * 2)
    edges = [y * picture.height // rows for y in range(rows + 1)]
    for y in range(0, rows, 2):
        upper = _shrunk_row(picture, edges[y], edges[y + 1], columns)
        lower = _shrunk_row(picture, edges[y + 1], edges[y + 2], columns)
        yield "".join(
            "\x1b[38;2;{};{};{};48;2;{};{};{}m".format(*a, *b) + UPPER_HALF * len(list(cells))
            for (a, b), cells in groupby(zip(upper, lower))
        ) + "\x1b[0m"
