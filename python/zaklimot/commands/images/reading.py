"""Images of others: PNG and PPM, as rows of red, green and blue of eight bits, or of six."""

from __future__ import annotations

import re
import struct
import zlib
from collections import defaultdict
from contextlib import suppress
from typing import Any, Callable, Iterator, NamedTuple, Sequence

from zaklimot.format import Picture
from zaklimot.commands.core.streams import read_at_most
from zaklimot.commands.core.trouble import Trouble

from . import others
from .png import MOST_DOTS, SIGNATURE, ImageSize, stretched


PPM = re.compile(
    rb"P6(?:\s|#[^\n]*\n)+(\d{1,7})(?:\s|#[^\n]*\n)+(\d{1,7})(?:\s|#[^\n]*\n)+(\d{1,5})\s"
)
PPM_BEGINS = b"P6"
DAMAGED = "the PNG is damaged"
# Where the head of a PNG begins: behind its length and its kind.
HEAD_AT = len(SIGNATURE) + 8
# An image's file has at most so many bytes.
MOST_BYTES = 1 << 26
# Samples of a dot, by the colour type of a PNG, and the colour type whose dots name entries of a
# palette.
SAMPLES = {0: 1, 2: 3, 3: 1, 4: 2, 6: 4}
PALETTE = 3


class Image(NamedTuple):
    """An image: its rows, three bytes a dot, each up to a most that is 63 or 255."""

    width: int
    height: int
    rows: tuple[bytes, ...]
    most: int

    @property
    def size(self) -> ImageSize:
        """Its width and height."""
        return ImageSize(self.width, self.height)

    def every(self, across: int, down: int) -> Image:
        """A smaller image: the first of each so many dots, in the first of each so many rows."""
        rows = tuple(
            _spread([row[part :: 3 * across] for part in range(3)]) for row in self.rows[::down]
        )
        return Image(self.width // across, self.height // down, rows, self.most)

    def repeated(self, across: int, down: int) -> Image:
        """The image with each dot so often across and down."""
        new = ImageSize(self.width * across, self.height * down)
        return Image(*new, tuple(stretched(self.rows, self.size, new)), self.most)

    def picture(self, shift: int) -> Picture:
        """The picture of six bits a component, of which so many low bits are taken off."""
        table = bytes(min(63, value >> shift) for value in range(256))
        return Picture.of_dots(self.width, self.height, b"".join(self.rows).translate(table))


def image_bytes(path: str) -> bytes:
    """The bytes of an image's file."""
    return read_at_most(path, MOST_BYTES)


def image_of(data: bytes, name: str, most: int = MOST_DOTS) -> Image:
    """The image that a file holds. One of more dots than the most is told before it is unpacked.

    What is neither a PNG nor a PPM of the kind P6 is read by Pillow, and so is an interlaced PNG.
    Transparency doesn't count.
    """
    if data.startswith(SIGNATURE):
        return _png(data, name, most)
    if data.startswith(PPM_BEGINS):
        return _ppm(data, name, most)
    return _other(data, name, most)


def size_of(data: bytes, name: str) -> ImageSize:
    """The size that the file of an image tells, which says nothing yet of its dots."""
    if data.startswith(SIGNATURE):
        if len(data) < HEAD_AT + 8:
            raise Trouble(DAMAGED, name)
        return ImageSize(*struct.unpack_from(">II", data, HEAD_AT))
    if data.startswith(PPM_BEGINS):
        head = _ppm_head(data, name)
        return ImageSize(head.width, head.height)
    return others.size_of(others.opened(_pillow(name), data, name), name)


class PpmHead(NamedTuple):
    """Width, height and the most of a component of a PPM, and where its dots begin."""

    width: int
    height: int
    most: int
    end: int


def _ppm_head(data: bytes, name: str) -> PpmHead:
    found = PPM.match(data)
    if found is None:
        raise Trouble("the header of the PPM is damaged", name)
    width, height, most = map(int, found.groups())
    return PpmHead(width, height, most, found.end())


def _check_dots(width: int, height: int, most: int, name: str) -> None:
    if width * height > most:
        raise Trouble(f"the image has {width}x{height} dots, and {most:,} are the most", name)


def _spread(parts: Sequence[bytes]) -> bytes:
    row = bytearray(3 * len(parts[0]))
    for at, part in enumerate(parts):
        row[at::3] = part
    return bytes(row)


def _pillow(name: str, told: str = "this is neither a PNG nor a PPM of the kind P6") -> Any:
    """Pillow, for an image that can't be read without it; a Trouble where Python has none."""
    found = others.pillow()
    if found is None:
        raise Trouble(f"{told}; {others.WITHOUT}", name)
    return found


def _other(data: bytes, name: str, most: int, told: str = "") -> Image:
    module = _pillow(name, told) if told else _pillow(name)
    image = others.opened(module, data, name)
    width, height = others.size_of(image, name)
    _check_dots(width, height, most, name)
    return Image(width, height, others.rows_of(image, name), 255)


def _ppm(data: bytes, name: str, most_dots: int) -> Image:
    width, height, most, begin = _ppm_head(data, name)
    _check_dots(width, height, most_dots, name)
    if most not in (63, 255):
        raise Trouble(f"the components go to {most}; 63 and 255 can be read", name)
    dots = data[begin : begin + 3 * width * height]
    if not width or not height or len(dots) < 3 * width * height or max(dots) > most:
        raise Trouble(f"the PPM of {width}x{height} dots is damaged", name)
    return Image(
        width,
        height,
        tuple(dots[at : at + 3 * width] for at in range(0, len(dots), 3 * width)),
        most,
    )


def _chunks(data: bytes, name: str) -> dict[bytes, bytes]:
    at = len(SIGNATURE)
    parts = defaultdict(list)
    while b"IEND" not in parts:
        kind = data[at + 4 : at + 8]
        end = at + 8 + int.from_bytes(data[at : at + 4], "big")
        parts[kind].append(data[at + 8 : end])
        if data[end : end + 4] != struct.pack(">I", zlib.crc32(kind + parts[kind][-1])):
            raise Trouble(DAMAGED, name)
        at = end + 4
    return {kind: b"".join(bodies) for kind, bodies in parts.items()}


def _png(data: bytes, name: str, most: int) -> Image:
    chunks = _chunks(data, name)
    head, palette = chunks.get(b"IHDR", b""), chunks.get(b"PLTE", b"")
    if len(head) != 13:
        raise Trouble(DAMAGED, name)
    width, height, depth, colour, _, _, interlace = struct.unpack(">IIBBBBB", head)
    _check_dots(width, height, most, name)
    if colour not in SAMPLES or depth not in (1, 2, 4, 8, 16) or not width * height:
        raise Trouble(
            (
                f"a PNG of this form can't be read: {width}x{height}, depth {depth}, colour type"
                f" {colour}"
            ),
            name,
        )
    if interlace:
        return _other(
            data, name, most, "an interlaced PNG can't be read: save it without interlace"
        )
    bits = depth * SAMPLES[colour]
    lines = b""
    length = (width * bits + 7) // 8
    with suppress(zlib.error):
        lines = zlib.decompressobj().decompress(chunks.get(b"IDAT", b""), (length + 1) * height)
    if len(lines) != (length + 1) * height:
        raise Trouble(DAMAGED, name)
    rows = []
    for line in _unfiltered(lines, length, max(1, bits // 8), name):
        samples = _samples(line, width, depth, SAMPLES[colour], colour)
        row = _dots(samples, colour, palette)
        if len(row) != 3 * width:
            raise Trouble("the PNG names a colour that it does not have", name)
        rows.append(row)
    return Image(width, height, tuple(rows), 255)


def _unfiltered(lines: bytes, length: int, back: int, name: str) -> Iterator[bytes]:
    """The rows of a PNG without their filters; a Trouble where one has a filter that there is
    not."""
    last = bytearray(back + length)
    for at in range(0, len(lines), length + 1):
        kind = lines[at]
        row = bytearray(back) + lines[at + 1 : at + 1 + length]
        if kind > len(FILTERS):
            raise Trouble(
                f"a row of the PNG has filter {kind}, and the filters are 0 to {len(FILTERS)}", name
            )
        taken_off = FILTERS[kind - 1]
        for x in range(back, len(row) if kind else 0):
            row[x] = row[x] + taken_off(row[x - back], last[x], last[x - back]) & 255
        last = row
        yield bytes(row[back:])


def _paeth(left: int, above: int, corner: int) -> int:
    # How far each is from left + above - corner.
    far = abs(above - corner)
    other = abs(left - corner)
    both = abs(left + above - 2 * corner)
    return left if far <= other and far <= both else above if other <= both else corner


# What the filters 1 to 4 have taken off a sample: the one of the dot to the left, above, their
# mean, or the nearest.
FILTERS: tuple[Callable[[int, int, int], int], ...] = (
    lambda left, _, __: left,
    lambda _, above, __: above,
    lambda left, above, _: (left + above) // 2,
    _paeth,
)


def _samples(row: bytes, width: int, depth: int, samples: int, colour: int) -> bytes:
    """A row's samples, eight bits each; those that name entries of a palette as they are."""
    if depth == 8:
        return row
    if depth == 16:
        return row[::2]
    most = (1 << depth) - 1
    scale = 1 if colour == PALETTE else 255 // most
    spread = [
        bytes((byte >> shift & most) * scale for shift in range(8 - depth, -1, -depth))
        for byte in range(256)
    ]
    return b"".join(map(spread.__getitem__, row))[: width * samples]


def _dots(samples: bytes, colour: int, palette: bytes) -> bytes:
    if colour == PALETTE:
        return b"".join(palette[3 * entry : 3 * entry + 3] for entry in samples)
    if colour in (0, 4):
        grey = samples if colour == 0 else samples[::2]
        return _spread([grey, grey, grey])
    return samples if colour == 2 else _spread([samples[part::4] for part in range(3)])
