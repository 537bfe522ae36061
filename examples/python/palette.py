"""Draws the DAC of a mode as a PNG of 16 by 16 squares: palette.py MODE PALETTE.png (the mode in
hexadecimal)

It needs the standard library and zaklimot alone.
"""

from __future__ import annotations

import sys
from pathlib import Path

import zaklimot

SQUARE = 24  # dots


def plot(palette: list[zaklimot.Colour]) -> zaklimot.Picture:
    """A picture with a square for each colour, sixteen in a row."""
    rows = []
    for first in range(0, 256, 16):
        row = b"".join(SQUARE * bytes(colour) for colour in palette[first : first + 16])
        rows += SQUARE * [row]
    return zaklimot.Picture(16 * SQUARE, 16 * SQUARE, memoryview(b"".join(rows)))


def main() -> int:
    if len(sys.argv) != 3:
        print(__doc__, file=sys.stderr)
        return 2
    try:
        with zaklimot.Card() as card:
            card.int10(ax=int(sys.argv[1], 16) & 0xFF)
            Path(sys.argv[2]).write_bytes(plot(card.palette()).png())
    except (zaklimot.Refusal, ValueError) as error:
        print(f"palette.py: mode {sys.argv[1]}: {error}", file=sys.stderr)
        return 1
    except OSError as error:
        print(f"{sys.argv[2]}: {error.strerror}", file=sys.stderr)
        return 1
    return 0


if __name__ == "__main__":
    sys.exit(main())
