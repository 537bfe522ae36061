"""Images and pictures: PNG and PPM, pictures that move, an image held to a picture, and the
specimens of a font."""

from __future__ import annotations

import io
import struct
import unittest
import zlib
from typing import Optional

from zaklimot import Card
from zaklimot.format import Picture
from zaklimot.commands.images.png import MARK, Shape, chunk, write_png
from zaklimot.commands.images.reading import image_of
from zaklimot.commands.script.speed import USUAL, seconds_of, speed_of

from .test_command import PICTURE, run
from .tools import BLACK, RED, TOP, WHITE, Folder, hold, png_chunks, png_rows, ppm, want_library


GREY = b"\x15\x15\x15"
PREVIEW = TOP / "fonts" / "preview.py"
# A program that does each call, and whose picture is black.
GOOD = """import sys
steps = open(sys.argv[2]).read().split("\\n")[:-1]
for number, step in enumerate(steps, 1):
    if {frame}:
        sys.stdout.write("%d picture 16\\nP6\\n2 1\\n63\\n" % number + "\\0" * 6 + "\\n")
    else:
        print(number, 'E4 BadFunction' if {wrong} else "ax=0000 bx=0000 cx=0000 dx=0000")
"""


def png(
    width: int,
    height: int,
    lines: bytes,
    depth: int = 8,
    colour: int = 2,
    palette: bytes = b"",
    interlace: int = 0,
    clear: bytes = b"",
) -> bytes:
    """A PNG of lines that have their filters."""
    head = struct.pack(">IIBBBBB", width, height, depth, colour, 0, 0, interlace)
    parts = [
        chunk(b"IHDR", head),
        chunk(b"PLTE", palette) if palette else b"",
        chunk(b"tRNS", clear) if clear else b"",
        chunk(b"IDAT", zlib.compress(lines)),
    ]
    return b"\x89PNG\r\n\x1a\n" + b"".join(parts) + chunk(b"IEND", b"")


# The speed of a frame: its dots, and the dot clock in hertz.
TEXT = (404_100, 28_322_000)
WIDE = (359_200, 25_175_000)
NARROW = (179_600, 12_587_500)
# Steps, and the speed of the frames after them.
SPEEDS: list[tuple[str, Optional[tuple[int, int]]]] = [
    ("", None),
    ("out 3C2 67", None),
    ("int ax=83", TEXT),
    ("int ax=13", WIDE),
    ("int ax=13;int ax=d", NARROW),
    ("out 3C2 63;outw 3C4 0101;outw 3D4 5F00;outw 3D4 BF06;outw 3D4 1F07", WIDE),
    (
        (
            "out 3C2 67;out 3D4 0;out 3D5 5F;outw 3D4 BF06;outw 3D4 1F07;outw 3D4"
            " 8E11;outw 3D4 0000"
        ),
        TEXT,
    ),
    # Two clocks of four are there: each of the others is the first.
    ("int ax=3;out 3C2 6F", (404_100, 25_175_000)),
    ("int ax=3;out 3C2 6B", (404_100, 25_175_000)),
    # The same at the ports of monochrome.
    ("out 3C2 62;outw 3C4 0101;outw 3B4 5F00;outw 3B4 BF06;outw 3B4 1F07", WIDE),
    ("out 3C2 62;outw 3C4 0101;outw 3B4 5F00;outw 3B4 BF06;out 3B4 7;out 3B5 1F", WIDE),
    ("out 3C2 62;outw 3C4 0101;outw 3D4 5F00;outw 3D4 BF06;outw 3D4 1F07", None),
    # What is written to a protected register tells nothing.
    ("out 3C2 63;outw 3D4 8011;outw 3D4 5F00;outw 3D4 BF06;outw 3D4 1F07", None),
    # A mode set protects registers 0 to 7; without that, each leaves the others'
    # parts of the shape as they are.
    ("int ax=3;outw 3D4 0F07;outw 3D4 0000", TEXT),
    ("int ax=d;outw 3D4 0E11;outw 3D4 0F07", NARROW),
    ("int ax=12;outw 3D4 0C11;outw 3D4 0106", (515 * 800, 25_175_000)),
    ("int ax=3;outw 3C4 0101", (100 * 8 * 449, 28_322_000)),
    # Registers 0 to 7 alone are protected.
    (
        ("out 3C2 67;outw 3D4 BF06;outw 3D4 1F07;outw 3D4 8E11;outw 3D4 0E11;outw" " 3D4 4000"),
        (278_829, 28_322_000),
    ),
]


class Filters(unittest.TestCase):
    def paeth(self, left: int, above: int, corner: int) -> int:
        """What filter 4 takes off a sample with these neighbours, by the image that is read."""
        first = b"\0" + bytes([corner, 0, 0, above, 0, 0])
        # The first sample of the row has the one above as its only neighbour.
        second = b"\4" + bytes([left - corner & 255, 0, 0, 0, 0, 0])
        return image_of(png(2, 2, first + second), "it").rows[1][3]

    def test_ties_of_paeth_go_left_and_then_up(self) -> None:
        # Each is as far from left + above - corner as the next one named.
        hold(
            self,
            self.paeth,
            (
                (40, 10, 20, 40),
                (10, 40, 20, 40),
                (10, 20, 15, 15),
                (50, 60, 60, 50),
                (60, 50, 60, 50),
                (0, 255, 0, 255),
            ),
        )

    def test_neighbours_are_as_far_as_a_dot_has_bytes(self) -> None:
        # Each filter of a row behind a plain one, of one byte a dot and more, and of parts of one.
        for depth, colour, samples in ((8, 0, 1), (8, 2, 3), (16, 0, 1), (16, 2, 3), (16, 4, 2)):
            size = samples * depth // 8
            rows = [bytes((7 * at + 11 * row) % 251 for at in range(4 * size)) for row in (1, 5)]
            plain = image_of(png(4, 2, b"".join(b"\0" + row for row in rows), depth, colour), "it")
            for kind in range(5):
                filtered = self.filtered(kind, rows[1], rows[0], size)
                lines = b"\0" + rows[0] + bytes([kind]) + filtered
                found = image_of(png(4, 2, lines, depth, colour), "it")
                self.assertEqual(found.rows, plain.rows, (depth, colour, kind))

    @staticmethod
    def filtered(kind: int, row: bytes, above: bytes, size: int) -> bytes:
        """A row as a writer filters it, by the rules of PNG."""
        made = bytearray()
        for at, value in enumerate(row):
            left, corner = (line[at - size] if at >= size else 0 for line in (row, above))
            up = above[at]
            # Of those as near the first.
            nearest = min((left, up, corner), key=lambda one: abs(left + up - corner - one))
            made.append(value - (0, left, up, (left + up) // 2, nearest)[kind] & 255)
        return bytes(made)


class ComparePicture(Folder):
    def compared(self, image: bytes, *words: str, picture: bytes = PICTURE) -> tuple[int, str]:
        """The status, and what is said of an image beside a picture, without the names."""
        path = self.report("r", "ok", picture)
        shot = self.write("shot", image)
        status, output, message = run("compare", path, shot, "--step", "2", *words)
        self.assertEqual(message, "")
        return status, output.decode().replace(f"step 2 and {shot} ", "")

    def test_alike(self) -> None:
        line, wide = b"\0" + b"\x3f\0\0" * 4 + bytes(15), b"\0" + b"\xff\0\0" * 8 + bytes(30)
        six, eight = "six bits a component\n", "eight bits a component, of which six count\n"
        larger = "the image has each dot twice, the image has each line three times"
        smaller = (
            "the picture has each dot of the image twice, the picture has each line of the image"
            " twice"
        )
        hold(
            self,
            lambda image, picture: self.compared(image, picture=picture),
            (
                (PICTURE, PICTURE, (0, f"agree: 9x1, {six}")),
                (png(9, 1, line), PICTURE, (0, f"agree: 9x1, {six}")),
                (png(9, 1, line.replace(b"\x3f", b"\xff")), PICTURE, (0, f"agree: 9x1, {eight}")),
                (png(9, 1, line.replace(b"\x3f", b"\xfc")), PICTURE, (0, f"agree: 9x1, {eight}")),
                (png(18, 3, wide * 3), PICTURE, (0, f"agree: 9x1, {larger}, {eight}")),
                (
                    ppm(2, 1, RED + WHITE),
                    ppm(4, 2, (RED * 2 + WHITE * 2) * 2),
                    (0, f"agree: 4x2, {smaller}, {six}"),
                ),
            ),
        )

    def test_differing(self) -> None:
        marked = self.folder / "marked.png"
        fewer = png(18, 1, b"\0" + b"\xff\0\0" * 7 + b"\x80\0\0" + bytes(30))
        sizes = (
            "differ: they have {} and {} dots, and neither is the other with dots repeated\n".format
        )
        dots = "differ: 9x1, six bits a component\n"
        dots += "  1 of 9 dots differ, the first is dot 3 of row 0: 3F0000, not 000000\n"
        hold(
            self,
            self.compared,
            (
                (ppm(10, 1, BLACK * 10), (1, sizes("9x1", "10x1"))),
                (fewer, (1, sizes("9x1", "18x1"))),
                (ppm(9, 1, RED * 3 + BLACK * 6), "--picture", str(marked), (1, dots)),
            ),
        )
        self.assertTrue(marked.exists())
        # A component of six bits is not read as one of eight, though it would agree then.
        self.assertEqual(self.compared(ppm(1, 1, RED), picture=ppm(1, 1, b"\x0f\0\0"))[0], 1)


class Animations(Folder):
    def test_frames_with_their_times(self) -> None:
        path = self.report("r", "ok", PICTURE, "ok", ppm(9, 1, BLACK * 9))
        moving = self.folder / "m.png"
        calls = [b"\x09" + bytes([mode]) + bytes(9) for mode in (3, 0x12)]
        # A script of bytes has the times of its text.
        for script in (
            b"int ax=3\nframe\nint ax=12\nframe\n",
            b"VGAS\x01" + calls[0] + b"\x0b" + calls[1] + b"\x0b",
        ):
            done = run("pictures", path, "--apng", moving, "--script", self.write("s", script))
            self.assertEqual(done, (0, f"{moving}: 2 frames, 0.031 seconds\n".encode(), ""))
        chunks = png_chunks(moving.read_bytes())
        self.assertEqual(
            [kind for kind, _ in chunks],
            [b"IHDR", b"sBIT", b"acTL", b"fcTL", b"IDAT", b"fcTL", b"fdAT", b"IEND"],
        )
        # The dots have six bits.
        self.assertEqual(chunks[1][1], b"\6\6\6")
        times = [struct.unpack(">IIIIIHHBB", body) for kind, body in chunks if kind == b"fcTL"]
        self.assertEqual([time[0] for time in times], [0, 1])
        # 404,100 dots of 28.322 MHz, and 420,000 of 25.175 MHz.
        self.assertEqual([time[5:7] for time in times], [(713, 50000), (834, 50000)])
        self.assertEqual(zlib.decompress(chunks[6][1][4:]), b"\0" + bytes(27))

    def test_advances_pass_between_frames(self) -> None:
        path = self.report("r", "ok", PICTURE, "ok", PICTURE)
        moving = str(self.folder / "m.png")
        for dots, seconds in (
            (0, 0.029),
            (404_099, 0.029),
            (404_100, 0.043),
            (4_041_000, 0.171),
            # The most that the adapter takes; more is refused.
            (16_777_216, 0.614),
            (16_777_217, 0.029),
            (99_999_999, 0.029),
        ):
            script = self.write("s.vga", f"int ax=3\nframe\nadvance {dots}\nframe\n")
            done = run("pictures", path, "--apng", moving, "--script", script)
            self.assertEqual(done, (0, f"{moving}: 2 frames, {seconds:.3f} seconds\n".encode(), ""))
        # Behind the last frame too; not where nothing tells how long frames are.
        for front, seconds in (("int ax=3", 0.057), ("out 3C2 67", 0.029)):
            script = self.write("s.vga", f"{front}\nframe\nadvance 0\nframe\nadvance 1212299\n")
            done = run("pictures", path, "--apng", moving, "--script", script)
            self.assertEqual(done, (0, f"{moving}: 2 frames, {seconds:.3f} seconds\n".encode(), ""))
        # One step of those that differ in size.
        self.report("r", PICTURE, ppm(1, 1, RED))
        self.assertEqual(run("pictures", path, "--apng", moving, "--step", "2")[0], 0)

    def test_a_script_of_other_steps(self) -> None:
        # Also where it has a frame behind the step.
        moving = self.folder / "m.png"
        script = self.write("s.vga", "int ax=3\nframe\nint ax=3\nframe\n")
        for number in (1, 3):
            path = self.report("r", *["ok"] * (number - 1), PICTURE)
            done = run("pictures", path, "--apng", moving, "--script", script)
            told = f"it is not the report's script: step {number} has a picture, and is no frame of"
            self.assertEqual(done, (2, b"", f"zaklimot: {script}: {told} it\n"))
            self.assertFalse(moving.exists())

    def test_the_order_of_the_frames(self) -> None:
        # The chunks of frames but the first's dots are numbered, and all play without an end.
        first, *others = (ppm(1, 1, dot) for dot in (RED, BLACK, WHITE))
        path = self.report("r", "ok", first, *["ok"] * 4, *others)
        moving = self.folder / "m.png"
        advances = "advance 14161000\n" * 4
        script = self.write("s.vga", f"int ax=3\nframe\n{advances}frame\nframe\n")
        done = run("pictures", path, "--apng", moving, "--script", script)
        self.assertEqual(done, (0, f"{moving}: 3 frames, 2.040 seconds\n".encode(), ""))
        chunks = png_chunks(moving.read_bytes())
        kinds = dict(chunks)
        self.assertEqual(struct.unpack(">II", kinds[b"acTL"]), (3, 0))
        numbers = [
            struct.unpack(">I", body[:4])[0] for kind, body in chunks if kind in (b"fcTL", b"fdAT")
        ]
        self.assertEqual(numbers, [0, 1, 2, 3, 4])
        rows = [
            body[4 * (kind == b"fdAT") :] for kind, body in chunks if kind in (b"IDAT", b"fdAT")
        ]
        self.assertEqual(
            list(map(zlib.decompress, rows)), [b"\0\xff\0\0", bytes(4), b"\0\xff\xff\xff"]
        )
        # From a second on hundredths are counted: 141 frames of 404,100 dots pass before the next.
        times = [struct.unpack(">HH", body[20:24]) for kind, body in chunks if kind == b"fcTL"]
        self.assertEqual(times, [(201, 100), (713, 50000), (713, 50000)])

    def test_times_by_registers(self) -> None:
        want_library()

        def speed(steps: str) -> Optional[tuple[int, float]]:
            with Card() as card:
                card.run_on(steps.replace(";", "\n"))
                found = speed_of(card)
            self.assertAlmostEqual(seconds_of(found), found.dots / found.clock if found else USUAL)
            return None if found is None else (found.dots, found.clock)

        hold(self, speed, SPEEDS)


def shown(
    picture: Picture, shape: Shape = Shape(), other: Optional[Picture] = None
) -> tuple[int, int, list[bytes]]:
    stream = io.BytesIO()
    write_png(stream, picture, shape, other)
    return png_rows(stream.getvalue())


# Pictures, how they are written, and the PNG's width, height and rows.
DRAWN_FULL = b"\xff\xff\xff"
DRAWN_RED = b"\xff\0\0"
DRAWN_DARK = b"\x55\0\0"
DRAWN_FOUR, DRAWN_WIDE, DRAWN_HIGH = (
    Picture.of_dots(*given)
    for given in (
        (2, 2, RED + BLACK + BLACK + WHITE),
        (2, 1, BLACK * 2),
        (1, 2, BLACK * 2),
    )
)
DRAWN_PICTURE = Picture.of_dots(3, 2, WHITE + BLACK + GREY + RED + RED + RED)
DRAWN_OTHER = Picture.of_dots(3, 2, WHITE + RED + GREY + RED + RED + BLACK)
# Stretching to the shape of a monitor loses no row and no column.
DRAWN_ROWS = [bytes([y, 0, 0]) * 16 for y in range(9)]
DRAWN_ROW = bytes(value for x in range(6) for value in (x, 0, 0))
STRETCHED = (
    # Six bits become eight.
    (
        Picture.of_dots(4, 1, bytes(range(10)) + b"\x3f\x20"),
        Shape(),
        None,
        (4, 1, [bytes(4 * value for value in range(10)) + b"\xff\x82"]),
    ),
    (
        DRAWN_FOUR,
        Shape(scale=3),
        None,
        (6, 6, [DRAWN_RED * 3 + BLACK * 3] * 3 + [BLACK * 3 + DRAWN_FULL * 3] * 3),
    ),
    (
        Picture.of_dots(16, 9, b"".join(DRAWN_ROWS)),
        Shape(is_monitor=True),
        None,
        (
            16,
            12,
            [bytes([4 * y, 0, 0]) * 16 for y in (0, 0, 1, 2, 3, 3, 4, 5, 6, 6, 7, 8)],
        ),
    ),
    (
        Picture.of_dots(6, 6, DRAWN_ROW * 6),
        Shape(is_monitor=True),
        None,
        (
            8,
            6,
            [bytes(value for x in (0, 0, 1, 2, 3, 3, 4, 5) for value in (4 * x, 0, 0))] * 6,
        ),
    ),
    # Dots that differ are marked, also those that one picture lacks, and others are
    # darkened.
    (
        DRAWN_PICTURE,
        Shape(),
        DRAWN_OTHER,
        (3, 2, [b"\x55\x55\x55" + MARK + b"\x1c\x1c\x1c", DRAWN_DARK + DRAWN_DARK + MARK]),
    ),
    *(
        (*pair, (2, 2, [BLACK + MARK, MARK * 2]))
        for pair in ((DRAWN_WIDE, Shape(), DRAWN_HIGH), (DRAWN_HIGH, Shape(), DRAWN_WIDE))
    ),
)
# Images in other forms, and their rows.
DRAWN_LINE = b"\0" + DRAWN_RED
DRAWN_PACKED = zlib.compress(DRAWN_LINE)
FORMS_OF_PNG = (
    (png(2, 1, b"\0" + DRAWN_RED + DRAWN_FULL), [DRAWN_RED + DRAWN_FULL]),
    (
        png(2, 1, b"\0" + DRAWN_RED + b"\x01" + DRAWN_FULL + b"\x80", colour=6),
        [DRAWN_RED + DRAWN_FULL],
    ),
    (
        png(2, 1, b"\0\xff\0\xff\0\0\0" + b"\xff\0" * 3, depth=16),
        [b"\xff\xff\0" + DRAWN_FULL],
    ),
    (png(2, 1, b"\0\x80\xff", colour=0), [b"\x80" * 3 + DRAWN_FULL]),
    (png(2, 1, b"\0\x80\0\xff\0", colour=4), [b"\x80" * 3 + DRAWN_FULL]),
    (png(3, 1, b"\0\xa0", depth=1, colour=0), [DRAWN_FULL + b"\0\0\0" + DRAWN_FULL]),
    (
        png(3, 1, b"\0\x10\x10", depth=4, colour=3, palette=DRAWN_RED + DRAWN_FULL),
        [DRAWN_FULL + DRAWN_RED + DRAWN_FULL],
    ),
    (
        png(2, 2, b"\x01" + DRAWN_RED + b"\0\xff\xff" + b"\x02" + b"\0" * 6),
        [DRAWN_RED + DRAWN_FULL] * 2,
    ),
    (
        png(2, 2, b"\0" + DRAWN_RED + DRAWN_FULL + b"\x03" + b"\x80\x00\x00\x00\x80\x80"),
        [DRAWN_RED + DRAWN_FULL] * 2,
    ),
    (
        png(2, 2, b"\0" + DRAWN_RED + DRAWN_FULL + b"\x04" + b"\0" * 3 + b"\0" * 3),
        [DRAWN_RED + DRAWN_FULL] * 2,
    ),
    # Two bits, and sixteen of a colour with its alpha.
    (
        png(4, 1, b"\0\x1b", depth=2, colour=0),
        [b"\0\0\0\x55\x55\x55\xaa\xaa\xaa" + DRAWN_FULL],
    ),
    (png(1, 1, b"\0\1\xff\2\xff\3\xff\4\xff", depth=16, colour=6), [b"\1\2\3"]),
    # A filter looks back by a dot, or a byte where a dot is less.
    (
        png(2, 1, b"\1\1\0\2\0\3\0" + b"\1\0" * 3, depth=16),
        [b"\1\2\3\2\3\4"],
    ),
    (
        png(4, 1, b"\1\x01\x0f", depth=4, colour=3, palette=DRAWN_RED + DRAWN_FULL),
        [DRAWN_RED + DRAWN_FULL + DRAWN_FULL + DRAWN_RED],
    ),
    (b"P6 # a\n1\t1\n255\n\x01\x02\x03", [b"\x01\x02\x03"]),
    (b"P6\n1 1\n63\n\x3f\x02\x03and more", [b"\x3f\x02\x03"]),
    # What is packed may stand in several chunks, and anything behind the last.
    (
        png(1, 1, DRAWN_LINE).replace(
            chunk(b"IDAT", DRAWN_PACKED),
            b"".join(chunk(b"IDAT", part) for part in (DRAWN_PACKED[:3], b"", DRAWN_PACKED[3:])),
        )
        + b"more",
        [DRAWN_RED],
    ),
)


class Images(unittest.TestCase):
    def test_dots_that_are_repeated_stretched_and_marked(self) -> None:
        hold(
            self,
            shown,
            STRETCHED,
        )

    def test_the_shape_of_a_monitor(self) -> None:
        hold(
            self,
            lambda scale, *size: Shape(scale, True).size(*size),
            [
                (1, 720, 400, (720, 540)),
                (1, 640, 480, (640, 480)),
                (1, 640, 350, (640, 480)),
                (1, 320, 400, (533, 400)),
                (1, 320, 200, (320, 240)),
                (1, 9, 1, (9, 7)),
                (3, 720, 400, (2160, 1620)),
            ],
        )
