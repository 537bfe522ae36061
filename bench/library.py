"""Counts the instructions and the time of each call of the library: python3 bench/library.py FOLDER
[CALL ..]

FOLDER is one that `tools/vga-library make` has made, or `portable`, the repository's folder of the
one C file. CALL is a name in the table; without one, all are counted. Debian's packages gcc and
valgrind are needed.
"""

from __future__ import annotations

import os
import re
import subprocess
import sys
import tempfile
import time
from pathlib import Path
from typing import NamedTuple

TOP = Path(__file__).resolve().parents[1]
SOURCE = TOP / "bench" / "calls.c"
FONTS = TOP / "fonts" / "zaklimot.fnt"
COUNTED = re.compile(r"Collected : (\d+)")
# A time is that of the best of so many runs.
RUNS = 3
# glibc copies and fills long blocks by one instruction, `rep movsb` or `rep stosb`. valgrind counts
# each byte of them as an instruction. Below these thresholds glibc takes vector instructions.
VECTOR_COPIES = ":".join(
    f"glibc.cpu.x86_rep_{copies}_threshold={1 << 30}" for copies in ("movsb", "stosb")
)


class Call(NamedTuple):
    """A call in a mode: how often it is made to count its instructions, and to take its time."""

    name: str
    mode: str
    counted: int = 10_000
    timed: int = 10_000_000


CALLS = (
    Call("put", "13"),
    Call("put", "12"),
    Call("put_word", "13"),
    Call("get", "13"),
    Call("get", "12"),
    Call("get_word", "13"),
    Call("out", "13"),
    Call("out_word", "13"),
    Call("in", "13"),
    Call("advance_0", "13"),
    Call("advance_1", "13"),
    Call("advance_25", "13", timed=1_000_000),
    Call("advance_line", "13", 1000, 100_000),
    # A cycle after an advance, or a look at the clock.
    *(
        Call(f"advance_{cycle}", mode, timed=1_000_000)
        for cycle in ("put", "get", "in", "out_word", "clock")
        for mode in ("13", "12", "3")
    ),
    # Many bytes by one call, and by as many calls.
    Call("put_bytes", "13", 10, 2000),
    Call("put_each", "13", 10, 500),
    Call("fill_bytes", "13", 10, 5000),
    Call("get_bytes", "13", 10, 1000),
    Call("get_each", "13", 10, 500),
    Call("put_page", "3", 100, 20_000),
    Call("put_page_each", "3", 100, 5000),
    Call("copy", "12", 100, 10_000),
    Call("copy_each", "12", 100, 2000),
    Call("clock", "13", 1000, 1_000_000),
    Call("frame", "13", 10, 500),
    Call("frame", "3", 10, 500),
    Call("frame", "12", 10, 500),
    # The same of a page of letters: in one colour, and in sixteen.
    Call("frame_letters", "3", 10, 500),
    Call("frame_colours", "3", 10, 500),
    Call("skip_frame", "13", 100, 100_000),
    Call("skip_frame", "3", 100, 100_000),
    Call("skip_frame", "12", 100, 100_000),
    Call("frame_xrgb", "13", 10, 500),
    Call("frame_xrgb", "3", 10, 500),
    Call("frame_xrgb", "12", 10, 500),
    # The same of a picture without equal lines.
    *(Call("frame_xrgb_picture", mode, 10, 500) for mode in ("13", "3", "12")),
    Call("frame_once", "13", 10, 500),
    Call("frame_once", "3", 10, 500),
    Call("frame_once", "12", 10, 500),
    # A buffer that is kept: of a frame that stays the same, and of one in which a byte is written.
    *(
        Call(name, mode, 10, 500)
        for name in ("frame_update", "put_frame_update")
        for mode in ("13", "3", "12")
    ),
    Call("frame_lines", "12", 10, 500),
    Call("frame_indexed", "13", 10, 500),
    Call("frame_indexed", "3", 10, 500),
    Call("frame_indexed", "12", 10, 500),
    Call("peek", "12", 10, 500),
    Call("lines", "12", 10, 500),
    Call("lines", "13", 10, 500),
    Call("block", "13", 1000, 1_000_000),
    Call("cycles", "3", 100, 1000),
    Call("cycles_of_mode", "3", 3, 30),
    Call("teletype", "3", 1000, 100_000),
    Call("read_registers", "13", 1000, 1_000_000),
    Call("read_beam", "13", 1000, 1_000_000),
    Call("show_regs", "13", 1000, 100_000),
    Call("save", "13", 10, 2000),
    Call("restore", "13", 10, 2000),
    Call("save_fixed", "13", 5, 200),
    Call("restore_fixed", "13", 5, 200),
    # A step of a script that has no other, the first and the last one of 10,000, and all of these,
    # against as many calls.
    Call("run_on_one", "13", 1000, 100_000),
    Call("run_on_first", "13", 100, 10_000),
    Call("run_on_last", "13", 100, 10_000),
    Call("run_on_all", "13", 10, 1000),
    Call("puts", "13", 10, 1000),
    # A text of a million bytes, and the script that it spells.
    Call("assemble", "13", 5, 100),
    Call("print", "13", 5, 100),
    # What the card explains: a read that is refused, the dot at the beam, a cycle's stages, the
    # last line of a text of a million bytes, and the steps to the state.
    Call("explain_step", "13", 1000, 100_000),
    *(Call("explain_dot", mode, 1000, 1_000_000) for mode in ("3", "12", "13")),
    Call("explain_put", "12", 1000, 1_000_000),
    Call("explain_get", "12", 1000, 1_000_000),
    Call("explain_text", "13", 5, 100),
    *(Call("rebuild", mode, 3, 30) for mode in ("3", "12", "13")),
)


def instructions(program: Path, call: Call, times: int, folder: Path) -> int:
    """How many instructions a run takes that makes a call so often."""
    tool = ["valgrind", "--tool=callgrind", f"--callgrind-out-file={folder / 'counted'}"]
    words = [*tool, str(program), str(FONTS), call.mode, call.name, str(times)]
    environment = {**os.environ, "GLIBC_TUNABLES": VECTOR_COPIES}
    run = subprocess.run(words, capture_output=True, check=True, env=environment)
    said = run.stderr.decode("ascii", "replace")
    counted = COUNTED.search(said)
    assert counted is not None, said
    return int(counted[1])


def seconds(program: Path, call: Call, times: int) -> float:
    """How long the best run takes that makes a call so often."""
    took = []
    for _ in range(RUNS):
        start = time.perf_counter()
        subprocess.run([program, FONTS, call.mode, call.name, str(times)], check=True)
        took.append(time.perf_counter() - start)
    return min(took)


def library_part(library: Path) -> Path | None:
    """The one C file of a folder, or its archive, or None and a message where there is neither."""
    parts = [library / "zaklimot.c", library / "lib" / "libzaklimot.a"]
    part = next(filter(Path.is_file, parts), None)
    if part is None:
        print(
            f"{Path(sys.argv[0]).name}: {library} has no library: tools/vga-library make {library}",
            file=sys.stderr,
        )
    return part


def make_program(source: Path, part: Path, folder: Path) -> Path:
    """A program of the benchmarks, linked with the library."""
    program = folder / source.stem
    words = ["gcc", "-std=c99", "-O2", "-I", str(TOP / "include"), str(source), str(part)]
    subprocess.run([*words, "-o", str(program)], check=True)
    return program


def main() -> int:
    wanted = sys.argv[2:] or [call.name for call in CALLS]
    if len(sys.argv) < 2 or not {call.name for call in CALLS}.issuperset(wanted):
        print(__doc__, file=sys.stderr)
        return 2
    part = library_part(Path(sys.argv[1]))
    if part is None:
        return 2
    print("| Call | Mode | Instructions | ns |\n|---|---|---|---|")
    with tempfile.TemporaryDirectory(prefix="bench-library-") as name:
        folder = Path(name)
        program = make_program(SOURCE, part, folder)
        for call in (call for call in CALLS if call.name in wanted):
            counts = [instructions(program, call, times, folder) for times in (0, call.counted)]
            took = seconds(program, call, call.timed) - seconds(program, call, 0)
            each = round((counts[1] - counts[0]) / call.counted)
            print(
                f"| `zak_{call.name}` | {call.mode} | {each:,} | {took * 1e9 / call.timed:,.0f} |",
                flush=True,
            )
    return 0


if __name__ == "__main__":
    sys.exit(main())
