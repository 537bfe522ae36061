"""What the tools do with Pillow, where a Python has it: they read more images."""

import os
import random
import struct
import subprocess
import sys
import unittest
from pathlib import Path
from typing import Optional, Union

from zaklimot.commands.script.words import FONTS

from .test_images import png
from .tools import (
    TOP,
    EXAMPLES,
    MODULES,
    PYTHON,
    Folder,
    ended,
    hold_undone,
    ppm,
    run_program,
    want_program,
)


def python_with_pillow() -> Optional[str]:
    """A Python that has the package: this one, or Debian's."""
    for python in (sys.executable, "/usr/bin/python3"):
        words = [python, "-c", "import PIL"]
        if Path(python).exists() and not subprocess.run(words, capture_output=True).returncode:
            return python
    return None


PILLOW = python_with_pillow()
# Saves an image as a camera does that was held otherwise: turned, with the number that tells how.
TURNING = """
import sys
from PIL import Image
exif = Image.Exif()
exif[0x0112] = int(sys.argv[2])
turned = Image.open(sys.argv[1]).rotate(int(sys.argv[3]), expand=True)
turned.save(sys.argv[4], lossless=True, exif=exif)
"""
Dots = list[list[tuple[int, int, int]]]


def photo(width: int, height: int, colours: int) -> Dots:
    """Dots that go from one colour to another, with a grain, in so many steps of a component."""
    chance = random.Random(f"{width}x{height}")
    step = 256 // colours
    return [
        [
            (
                (255 * x // width + chance.randrange(24)) // step * step & 255,
                (255 * y // height + chance.randrange(24)) // step * step & 255,
                (255 * (x + y) // (width + height) + chance.randrange(24)) // step * step & 255,
            )
            for x in range(width)
        ]
        for y in range(height)
    ]


def png_of(dots: Dots) -> bytes:
    """A PNG of dots of eight bits a component."""
    rows = (b"\0" + b"".join(map(bytes, row)) for row in dots)
    return png(len(dots[0]), len(dots), b"".join(rows))


def bmp(dots: Dots, size: Optional[tuple[int, int]] = None) -> bytes:
    """A BMP of dots, whose rows stand from the last to the first, blue before green and red."""
    width, height = size or (len(dots[0]), len(dots))
    head = struct.pack("<IiiHHIIiiII", 40, width, height, 1, 24, 0, 0, 0, 0, 0, 0)
    rows = (b"".join(bytes(dot[::-1]) for dot in row) for row in reversed(dots))
    body = b"".join(row + bytes(-len(row) % 4) for row in rows)
    return struct.pack("<2sIHHI", b"BM", 54 + len(body), 0, 0, 54) + head + body


@unittest.skipIf(PILLOW is None, "no Python has Pillow: install python3-pil")
class Beside(Folder):
    def compared(self, dots: Dots, image: Union[Path, str]) -> tuple[int, str, str]:
        """What is told of a picture of these dots, and an image that Pillow reads."""
        dark = b"".join(bytes(value >> 2 for value in dot) for row in dots for dot in row)
        report = self.report("r", ppm(len(dots[0]), len(dots), dark))
        tool = TOP / "zaklimot"
        done: tuple[int, str, str] = ended(
            str(PILLOW), tool, "compare", report, image, "--step", "1"
        )
        return done

    def test_a_picture_against_another_format(self) -> None:
        dots = photo(9, 5, 4)
        path = self.write("shot.bmp", bmp(dots))
        done = self.compared(dots, path)
        self.assertEqual((done[0], done[2]), (0, ""))
        self.assertIn("agree: 9x5, eight bits a component", done[1])
        words = (TOP / "zaklimot", "compare", self.folder / "r", path, "--step", "1")
        hold_undone(
            self,
            ended(*PYTHON, *words),
            "shot.bmp: this is neither a PNG nor a PPM of the kind P6; the package pillow reads ",
        )

    def test_a_photo_stands_upright(self) -> None:
        dots = photo(32, 20, 4)
        upright = self.write("one.png", png_of(dots))
        for number, degrees in (("6", "90"), ("8", "270"), ("3", "180"), ("1", "0")):
            path = self.folder / "photo.webp"
            words = (str(PILLOW), "-c", TURNING, upright, number, degrees, path)
            self.assertEqual(ended(*words), (0, "", ""))
            self.assertEqual(self.compared(dots, path)[0], 0, number)

    def test_what_pillow_cannot_read(self) -> None:
        dots = photo(32, 20, 4)
        big = bmp([[(0, 0, 0)]], (5000, 5000))
        for data, told in (
            (b"GIF89a", "pillow can't read it: cannot identify image file"),
            (b"%!PS-Adobe-3.0 EPSF-3.0\n%%BoundingBox: 0 0 32 20\n", "cannot identify image file"),
            (bmp(dots)[:-400], "image file is truncated"),
            # Pillow reads an interlaced PNG.
            (png(32, 20, b"\0" + bytes(6), interlace=1), "image file is truncated"),
        ):
            done = self.compared(dots, self.write("image", data))
            hold_undone(self, done, f"^zaklimot: {self.folder}/image: .*{told}")
        done = self.compared(dots, self.write("image", big))
        self.assertEqual((done[0], done[2]), (1, ""))

    def test_an_image_becomes_a_script(self) -> None:
        """The example draws the image dot for dot where its colours fit the mode."""
        want_program()
        colours = [(255, 0, 0), (0, 255, 0), (0, 0, 255), (252, 252, 252)]
        dots = [[colours[(x // 9 + y // 7) % 4] for x in range(640)] for y in range(480)]
        image = self.write("one.png", png_of(dots))
        script = self.folder / "one.vga"
        words = (str(PILLOW), EXAMPLES / "python" / "image.py", image, script, "12")
        environment = {**os.environ, "PYTHONPATH": MODULES}
        self.assertEqual(ended(*words, env=environment), (0, "", ""))
        report = self.folder / "report"
        report.write_bytes(run_program("go", script, "--fonts", FONTS).report)
        count = len(script.read_text("ascii").splitlines())
        comparing = ("compare", report, image, "--step", str(count))
        done = ended(*PYTHON, TOP / "zaklimot", *comparing)
        self.assertEqual((done[0], done[2]), (0, ""), done[1])
        self.assertEqual(ended(*words[:2], env=environment)[0], 2)
