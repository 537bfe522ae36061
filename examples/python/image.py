"""Makes a script that draws an image, which Pillow reads: image.py IMAGE SCRIPT.vga [12|13]

Mode 13, the usual one, has 320 by 200 dots in 256 colours, and mode 12 has 640 by 480 in 16. Pillow
(Debian's python3-pil) stretches the image to the mode's size and chooses its colours.
"""

from __future__ import annotations

import sys
from pathlib import Path
from typing import Iterator

from PIL import Image

from zaklimot import SEQ, Script

WINDOW = 0xA0000
SIZES = {0x13: (320, 200), 0x12: (640, 480)}
COLOURS = {0x13: 256, 0x12: 16}
# The entries of the DAC that mode 12 names for its 16 colours.
ENTRIES = {0x13: range(256), 0x12: [*range(6), 0x14, 7, *range(0x38, 0x40)]}
DAC_INDEX, DAC_DATA = 0x3C8, 0x3C9


def reduced(path: str, mode: int) -> tuple[bytes, list[tuple[int, int, int]]]:
    """The numbers of an image's dots, row by row, and its colours, six bits a component."""
    with Image.open(path) as image:
        dots = image.convert("RGB").resize(SIZES[mode]).quantize(COLOURS[mode])
    parts = (dots.getpalette() or [])[: 3 * COLOURS[mode]]
    colours = [
        (parts[at] >> 2, parts[at + 1] >> 2, parts[at + 2] >> 2) for at in range(0, len(parts), 3)
    ]
    return dots.tobytes(), colours


def words(line: bytes) -> Iterator[tuple[int, int]]:
    """The places of a line's words that are not 0, and their values, low byte first."""
    for at in range(0, len(line), 2):
        if line[at : at + 2] != b"\0\0":
            yield at, line[at] | line[at + 1] << 8


def draw_bytes(script: Script, numbers: bytes) -> None:
    """Draws in mode 13, in which a byte is a dot."""
    for at, word in words(numbers):
        script.put_word(WINDOW + at, word)


def draw_planes(script: Script, numbers: bytes) -> None:
    """Draws in mode 12: a bit of each of four planes is a dot, eight dots are a byte."""
    for plane in range(4):
        script.out(SEQ.MAP_MASK, 1 << plane)
        bits = "".join("01"[number >> plane & 1] for number in numbers)
        for at, word in words(int(bits, 2).to_bytes(len(bits) // 8, "big")):
            script.put_word(WINDOW + at, word)
    script.out(SEQ.MAP_MASK, 0x0F)


def script_of(path: str, mode: int) -> Script:
    """The script that sets a mode, its colours and its dots, and lets a frame end."""
    numbers, colours = reduced(path, mode)
    script = Script()
    script.int10(ax=mode)
    for entry, colour in zip(ENTRIES[mode], colours):
        script.out(DAC_INDEX, entry)
        for part in colour:
            script.out(DAC_DATA, part)
    draw = draw_bytes if mode == 0x13 else draw_planes
    draw(script, numbers)
    script.frame()
    return script


def main() -> int:
    if not 3 <= len(sys.argv) <= 4 or sys.argv[3:] not in ([], ["12"], ["13"]):
        print(__doc__, file=sys.stderr)
        return 2
    mode = int((sys.argv[3:] or ["13"])[0], 16)
    try:
        Path(sys.argv[2]).write_text(script_of(sys.argv[1], mode).text(), "ascii")
    except OSError as error:
        # Pillow says the same of a file that is no image.
        print(f"image.py: {error}", file=sys.stderr)
        return 1
    return 0


if __name__ == "__main__":
    sys.exit(main())
