"""Counts the instructions and the time of an emulator's main loop: python3 bench/emulator.py FOLDER

FOLDER is one that `tools/vga-library make` has made, or `portable`, the repository's folder of the
one C file. The loop is that of bench/emulator.c. Debian's packages gcc and valgrind are needed.
"""

from __future__ import annotations

import sys
import tempfile
from pathlib import Path

from library import TOP, Call, instructions, library_part, make_program, seconds

SOURCE = TOP / "bench" / "emulator.c"
# How many frames a second there are: 25.175 MHz over 800 dots of 449 lines. Text has as many.
FRAMES_A_SECOND = 25_175_000 / (800 * 449)
LOOPS = tuple(
    Call(way, mode, counted=12, timed=300)
    for way in ("single", "bulk", "single-skip", "bulk-skip")
    for mode in ("13", "X", "12", "3")
)


def main() -> int:
    if len(sys.argv) != 2:
        print(__doc__, file=sys.stderr)
        return 2
    part = library_part(Path(sys.argv[1]))
    if part is None:
        return 2
    print("| Loop | Mode | Instructions a frame | Share of a core |\n|---|---|---|---|")
    with tempfile.TemporaryDirectory(prefix="bench-emulator-") as name:
        folder = Path(name)
        program = make_program(SOURCE, part, folder)
        for loop in LOOPS:
            counts = [instructions(program, loop, times, folder) for times in (0, loop.counted)]
            took = seconds(program, loop, loop.timed) - seconds(program, loop, 0)
            each = (counts[1] - counts[0]) / loop.counted
            share = took / loop.timed * FRAMES_A_SECOND
            print(f"| {loop.name} | {loop.mode} | {each:,.0f} | {share:.1%} |", flush=True)
    return 0


if __name__ == "__main__":
    sys.exit(main())
