"""Times the calls that guests make longest: python3 bench/guests.py FOLDER [find TRIES SEED]

FOLDER is `portable`, the repository's folder of the one C file, or one that `tools/vga-library
make` has made. Each guest of the table below makes its call: how many instructions that takes, and
how long.

With `find` other guests are looked for: so many are tried for each call as TRIES says. A guest is a
mode, writes to registers, and the numbers of its call; the worst one is changed again and again.
They are compared by the blocks of code that the C file runs for them, so a SEED finds the same
guests each time, however busy the machine is. Debian's packages gcc and valgrind are needed.
"""

from __future__ import annotations

import os
import subprocess
import sys
import tempfile
from pathlib import Path
from typing import NamedTuple

from library import COUNTED, FONTS, TOP, VECTOR_COPIES, library_part, make_program

SOURCE = TOP / "bench" / "guests.c"
CALLS = ("frame", "string", "service", "move", "get", "put", "fill")
# A time is that of the best of so many calls. No run takes longer than so many seconds.
RUNS = 5
MOST_SECONDS = 900


class Guest(NamedTuple):
    """A guest: what its call does, the call, and its words. Of a call that takes seconds a part is
    counted, by these words, which the call does so often."""

    does: str
    call: str
    words: str
    counted: str = ""
    times: int = 1


# A mode of 256 colours without chain 4, where a scroll moves each byte by cycles of its own.
SCROLLING = "13 3C4=0004 3CE=7203"
# The longest string, from the last row on, and how much of it is counted.
LONGEST = "ax=1301 cx=FFFF dx=1800"
COUNTED_PART = "ax=1301 cx=0400 dx=1800"
GUESTS = (
    Guest("`zak_fill_bytes` of all addresses", "fill", "10 3C4=9204 3CE=0006 3CE=FF03 dx=0001"),
    Guest("`zak_move_bytes` of all addresses", "move", "12 3CE=FF03 3CE=F106"),
    Guest("`zak_put_bytes`, 131,072 bytes", "put", "10 3C4=9204 3CE=0006 3CE=FF03 dx=0001"),
    Guest("`zak_get_bytes`, 131,072 bytes", "get", "0D 3CE=0006 dx=0001"),
    Guest(
        "`zak_advance` by 16,777,216 dots, and a frame",
        "frame",
        "03 3D4=0C11 3D4=FF01 3D4=FF00 3D4=FF06 3D4=FF07 3D4=FF12",
    ),
    Guest("`zak_int10`, a scroll", "service", "13 3C4=0004 3CE=9203 ax=0601 dx=1827"),
    Guest(
        "`zak_int10`, 2,400 characters in mode 12", "service", "12 3CE=AD03 ax=0905 bx=000F cx=0960"
    ),
    Guest(
        "`zak_int10`, a string of 65,535 letters",
        "string",
        f"{SCROLLING} {LONGEST} byte=0041",
        f"{SCROLLING} {COUNTED_PART} byte=0041",
        64,
    ),
    Guest(
        "`zak_int10`, a string of 65,535 line feeds",
        "string",
        f"{SCROLLING} {LONGEST} byte=000A",
        f"{SCROLLING} {COUNTED_PART} byte=000A".replace("0400", "0010"),
        4096,
    ),
)


def printed(*words: str | Path, environment: dict[str, str] | None = None) -> tuple[str, str]:
    """What a program prints, and what it says."""
    run = subprocess.run(
        words,
        capture_output=True,
        check=True,
        text=True,
        timeout=MOST_SECONDS,
        env={**os.environ, **(environment or {})},
    )
    return run.stdout, run.stderr


def instructions(program: Path, guest: Guest, folder: Path) -> int:
    """How many instructions the call of a guest takes."""
    tool = ("valgrind", "--tool=callgrind", f"--callgrind-out-file={folder / 'counted'}")
    counts = []
    for times in ("0", "1"):
        words = (str(FONTS), "take", guest.call, times, *(guest.counted or guest.words).split())
        _, said = printed(*tool, program, *words, environment={"GLIBC_TUNABLES": VECTOR_COPIES})
        found = COUNTED.search(said)
        assert found is not None, said
        counts.append(int(found[1]))
    return (counts[1] - counts[0]) * guest.times


def milliseconds(program: Path, guest: Guest) -> float:
    """How long the call of a guest takes a processor."""
    runs = RUNS if guest.times == 1 else 1
    words = (str(FONTS), "take", guest.call, str(runs), *guest.words.split())
    return float(printed(program, *words)[0])


def show(part: Path, folder: Path) -> None:
    """Prints what the calls of the guests take."""
    program = make_program(SOURCE, part, folder)
    print("| Call | Guest | Instructions | Took |\n|---|---|---|---|")
    for guest in GUESTS:
        count = instructions(program, guest, folder)
        took = milliseconds(program, guest)
        print(f"| {guest.does} | `{guest.words}` | {count:,} | {took:,.2f} ms |", flush=True)


def find(part: Path, folder: Path, tries: str, seed: str) -> None:
    """Looks for the worst guest of each call."""
    library, program = folder / "library.o", folder / "guests"
    options = ("-std=c99", "-O2", "-I", str(TOP / "include"))
    printed("gcc", *options, "-fsanitize-coverage=trace-pc", "-c", part, "-o", library)
    printed("gcc", *options, SOURCE, library, "-o", program)
    for call in CALLS:
        print(f"{call}:", flush=True)
        subprocess.run([program, FONTS, "find", call, tries, seed], check=True)


def main() -> int:
    words = sys.argv[1:]
    is_finding = len(words) == 4 and words[1] == "find" and (words[2] + words[3]).isdigit()
    if len(words) != 1 and not is_finding:
        print(__doc__, file=sys.stderr)
        return 2
    part = library_part(Path(words[0]))
    if part is None or (is_finding and part.suffix != ".c"):
        return 2
    with tempfile.TemporaryDirectory(prefix="bench-guests-") as name:
        if is_finding:
            find(part, Path(name), *words[2:])
        else:
            show(part, Path(name))
    return 0


if __name__ == "__main__":
    sys.exit(main())
