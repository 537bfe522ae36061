"""How long calls take through the package, beside the same by C: python3 bench.py [FOLDER]

FOLDER is one that `tools/vga-library make` has made; else ZAKLIMOT_DIR names it. The table has the
best of several runs, in microseconds. Debian's package gcc is needed; this is no part of the tests.
"""

from __future__ import annotations

import os
import subprocess
import sys
import tempfile
import time
from pathlib import Path
from typing import Any, Callable

import header

RUNS = 15
# A run of Python's is short, so that some of many have a processor to themselves.
SHORT_RUNS = 200
CALLS = header.TOP / "bench" / "calls.c"
FONTS = header.TOP / "fonts" / "zaklimot.fnt"
# The name of a call in bench/calls.c, the mode, and how often it is made.
TIMED = (
    ("put", "13", 5000),
    ("get", "13", 5000),
    ("out", "13", 5000),
    ("in", "13", 5000),
    ("advance_25", "13", 5000),
    ("put_bytes", "13", 20),
    ("fill_bytes", "13", 20),
    ("get_bytes", "13", 20),
    ("clock", "13", 5000),
    ("frame", "13", 20),
    ("frame", "3", 20),
    ("frame", "12", 20),
    ("frame_xrgb", "13", 20),
    ("frame_lines", "12", 20),
    ("teletype", "3", 1000),
    ("read_registers", "13", 1000),
    ("show_regs", "13", 1000),
    ("save", "13", 20),
    ("restore", "13", 20),
)


def by_c(program: Path, name: str, mode: str, times: int) -> float:
    """Microseconds of a call by C."""
    took = []
    for count in (0, 10 * times):
        runs = []
        for _ in range(RUNS):
            start = time.perf_counter()
            subprocess.run([program, FONTS, mode, name, str(count)], check=True)
            runs.append(time.perf_counter() - start)
        took.append(min(runs))
    return (took[1] - took[0]) * 1e6 / (10 * times)


def by_python(name: str, mode: str, times: int) -> float:
    """Microseconds of a call through the package, in a loop."""
    import zaklimot

    with zaklimot.Card() as opened:
        # Lists are made of what calls answer, also of those that answer nothing.
        card: Any = opened
        card.int10(ax=int(mode, 16))
        state, screen = card.save(), bytes(64_000)
        numbers = range(times)
        work: dict[str, Callable[[], object]] = {
            "put": lambda: [card.put(0xA0000 + (at & 0x7FFF), at & 0xFF) for at in numbers],
            "get": lambda: [card.get(0xA0000 + (at & 0x7FFF)) for at in numbers],
            "out": lambda: [card.out(0x3C4, at & 3) for at in numbers],
            "in": lambda: [card.inp(0x3DA) for at in numbers],
            "advance_25": lambda: [card.advance(25) for at in numbers],
            "put_bytes": lambda: [card.put_bytes(0xA0000, screen) for at in numbers],
            "fill_bytes": lambda: [card.fill(0xA0000, at & 0xFF, 64_000) for at in numbers],
            "get_bytes": lambda: [card.get_bytes(0xA0000, 64_000) for at in numbers],
            "clock": lambda: [card.clock() for at in numbers],
            "frame": lambda: [card.frame() for at in numbers],
            "frame_xrgb": lambda: [card.frame_xrgb() for at in numbers],
            "frame_lines": lambda: [card.lines() for at in numbers],
            "teletype": lambda: [card.int10(0x0E41, 7) for at in numbers],
            "read_registers": lambda: [card.registers() for at in numbers],
            "show_regs": lambda: [card.show_regs() for at in numbers],
            "save": lambda: [card.save() for at in numbers],
            "restore": lambda: [card.restore(state) for at in numbers],
        }
        took = []
        for _ in range(SHORT_RUNS):
            start = time.perf_counter()
            work[name]()
            took.append(time.perf_counter() - start)
    return min(took) * 1e6 / times


def main() -> int:
    folder = Path(
        sys.argv[1] if len(sys.argv) > 1 else os.environ.get("ZAKLIMOT_DIR", "")
    ).absolute()
    if not (folder / "lib" / "libzaklimot.a").is_file():
        print(__doc__, file=sys.stderr)
        return 2
    if not CALLS.is_file():
        print(
            f"{CALLS}: no such file: it lies in the repository, and not in a release",
            file=sys.stderr,
        )
        return 2
    os.environ["ZAKLIMOT_DIR"] = str(folder)
    sys.path.insert(0, str(header.TOP / "python"))
    print("| Call | Mode | C, µs | Python, µs | times |\n|---|---|---|---|---|")
    with tempfile.TemporaryDirectory(prefix="zaklimot-bench-") as name:
        program = Path(name) / "calls"
        library = folder / "lib" / "libzaklimot.a"
        words: list[str | Path] = [
            "gcc",
            "-std=c99",
            "-O2",
            "-I",
            folder / "include",
            CALLS,
            library,
        ]
        subprocess.run([*words, "-o", program], check=True)
        for call, mode, times in TIMED:
            c, python = by_c(program, call, mode, times), by_python(call, mode, times)
            print(f"| `{call}` | {mode} | {c:.3f} | {python:.3f} | {python / c:.2f} |", flush=True)
    return 0


if __name__ == "__main__":
    sys.exit(main())
