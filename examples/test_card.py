#!/usr/bin/env python3
"""Draws a test card as PNG, for examples/python/image.py.

    python3 examples/test_card.py WIDTHxHEIGHT FILE

It has bars of colour, a row of greys, a word in the font of this repository, a gradient, and a
circle that is to look round: a monitor of 4 by 3 shows dots of 640 by 480 as squares, and those of
320 by 200 a fifth higher than wide. At 640x480 the card has fifteen colours, and the gradient is a
pattern of two of them; at 320x200 it has each of its own.
"""

from __future__ import annotations

import sys
from pathlib import Path

TOP = Path(__file__).resolve().parents[1]
sys.path.insert(0, str(TOP / "python"))

from zaklimot.commands.images.png import Shape, write_png  # noqa: E402
from zaklimot.commands.core.streams import writing  # noqa: E402
from zaklimot.commands.core.trouble import Trouble  # noqa: E402
from zaklimot.format import Picture  # noqa: E402

Colour = tuple[int, int, int]
BLACK, SLATE, GREY, WHITE = (0, 0, 0), (10, 12, 18), (34, 36, 42), (63, 63, 63)
BARS = [
    (63, 63, 63),
    (60, 60, 8),
    (8, 56, 58),
    (10, 54, 12),
    (56, 10, 54),
    (58, 10, 10),
    (8, 10, 56),
    (4, 4, 4),
]
GREYS = [(level, level, level) for level in (12, 22, 44, 54)]
ORDERED = ((0, 8, 2, 10), (12, 4, 14, 6), (3, 11, 1, 9), (15, 7, 13, 5))
FONT = TOP / "fonts" / "zaklimot.fnt"
FONT_8 = 8


class Card:
    """Dots of six bits a component, and what is drawn into them. The unit is a cell of 8 dots."""

    def __init__(self, width: int, height: int) -> None:
        self.width, self.height = width, height
        self.rows = [[SLATE] * width for _ in range(height)]
        # Dots of a line for one of a column, where a circle is round.
        self.shape = 3 * width / (4 * height)

    def box(self, left: int, top: int, right: int, bottom: int, colour: Colour) -> None:
        """Fills a rectangle; right and bottom are not part of it."""
        for row in self.rows[top:bottom]:
            row[left:right] = [colour] * (right - left)

    def lines(self) -> None:
        """A line along each edge, and a cross in the middle."""
        right, bottom = self.width - 1, self.height - 1
        for at in (0, self.width // 2, right):
            self.box(at, 0, at + 1, self.height, GREY)
        for at in (0, self.height // 2, bottom):
            self.box(0, at, self.width, at + 1, GREY)

    def bars(self, top: int, bottom: int) -> None:
        """Eight bars of colour, in the middle half and more of the width."""
        step = self.width // 10
        for at, colour in enumerate(BARS):
            self.box((at + 1) * step, top, (at + 2) * step, bottom, colour)

    def steps(self, top: int, bottom: int) -> None:
        """A row of greys."""
        colours = [BLACK, *GREYS, WHITE]
        step = self.width // 10
        for at, colour in enumerate(colours):
            self.box((at + 2) * step, top, (at + 3) * step, bottom, colour)

    def gradient(self, top: int, bottom: int) -> None:
        """Blue to white: by its own colours where there may be many, and else a mix of two by an
        ordered pattern."""
        left, right = 3 * self.width // 10, 7 * self.width // 10
        for y in range(top, bottom):
            for x in range(left, right):
                part = (x - left) / (right - left)
                if self.width < 640:
                    self.rows[y][x] = (int(8 + 55 * part), int(10 + 53 * part), int(56 + 7 * part))
                else:
                    self.rows[y][x] = WHITE if part * 16 > ORDERED[y % 4][x % 4] else BARS[6]

    def circle(self, radius: float, thick: float) -> None:
        """A circle around the middle, its radius in dots of a column."""
        middle_x, middle_y = (self.width - 1) / 2, (self.height - 1) / 2
        for y, row in enumerate(self.rows):
            for x in range(self.width):
                far = (((x - middle_x) / self.shape) ** 2 + (y - middle_y) ** 2) ** 0.5
                if radius - thick <= far < radius:
                    row[x] = WHITE

    def text(self, words: str, top: int, scale: int, colour: Colour) -> None:
        """A line of text in the font of 8 lines, in the middle, each dot so many times as wide and
        high, on black."""
        font = FONT.read_bytes()
        left = (self.width - FONT_8 * scale * len(words)) // 2 // 8 * 8
        self.box(
            left - 8,
            top - 8,
            left + FONT_8 * scale * len(words) + 8,
            top + FONT_8 * scale + 8,
            BLACK,
        )
        for at, letter in enumerate(words.encode("ascii")):
            for y in range(FONT_8):
                for x in range(8):
                    if font[FONT_8 * letter + y] >> 7 - x & 1:
                        corner = left + scale * (8 * at + x), top + scale * y
                        self.box(*corner, corner[0] + scale, corner[1] + scale, colour)

    def picture(self) -> Picture:
        """The card as a picture."""
        return Picture.of_dots(
            self.width, self.height, bytes(part for row in self.rows for dot in row for part in dot)
        )


def drawn(width: int, height: int) -> Card:
    """The card of a size."""
    card = Card(width, height)
    unit = height // 25 // 8 * 8 or 8
    card.lines()
    card.circle(0.46 * height, 0.012 * height)
    card.bars(3 * unit, 8 * unit)
    card.steps(8 * unit, 10 * unit)
    card.gradient(height - 7 * unit, height - 5 * unit)
    card.text("ZAKLIMOT", height // 2 // unit * unit, 4 if width >= 640 else 2, BARS[1])
    return card


def main(words: list[str]) -> int:
    """Writes a card."""
    if len(words) != 2 or words[0] not in ("640x480", "320x200"):
        print("usage: test_card.py 640x480|320x200 FILE", file=sys.stderr)
        return 2
    width, height = (int(number) for number in words[0].split("x"))
    try:
        with writing(words[1]) as stream:
            write_png(stream, drawn(width, height).picture(), Shape())
    except Trouble as trouble:
        print(f"test_card.py: {trouble}", file=sys.stderr)
        return 2
    return 0


if __name__ == "__main__":
    sys.exit(main(sys.argv[1:]))
