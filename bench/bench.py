#!/usr/bin/env python3
"""Times the built program on scripts that this makes.

    python3 bench.py [PROGRAM]

PROGRAM is ../crates/vga/out/vga where nothing is said. Each script is written to a temporary folder
and run with the output thrown away; the best of three runs counts. Where strace is installed, the
calls of the system are counted too, and with GNU time the most memory.
"""
import os
import shutil
import signal
import struct
import subprocess
import sys
import tempfile
import time
from typing import Tuple

HERE = os.path.dirname(os.path.abspath(__file__))
FONT = os.path.join(HERE, "..", "fonts", "zaklimot.fnt")
EXAMPLES = os.path.join(HERE, "..", "examples")
HEADER = b"VGAS\x01"
# The header of a script that may have blocks.
BLOCKS = b"VGAS\x02"
MOST_BYTES = 16_777_216
MOST_DOTS = 16_777_216
FRAMES = 200
TEXT_MODES = (0x03, 0x07)
GRAPHICS_MODES = (0x0D, 0x10, 0x12, 0x13)
# A script that is timed: the program's job, the script, how many it has of what is counted, and
# what that is.
Script = Tuple[str, bytes, int, str]


def out(port: int, value: int) -> bytes:
    return struct.pack("<BHB", 0x01, port, value)


def inp(port: int) -> bytes:
    return struct.pack("<BH", 0x03, port)


def put(address: int, value: int) -> bytes:
    return struct.pack("<BIB", 0x05, address, value)


def get(address: int) -> bytes:
    return struct.pack("<BI", 0x07, address)


def advance(dots: int) -> bytes:
    return struct.pack("<BI", 0x0A, dots)


def service(ax: int, bx: int = 0, cx: int = 0, dx: int = 0, memory: bytes = b"") -> bytes:
    """A call of the video BIOS, with the block that the caller's memory has."""
    return struct.pack("<BHHHHH", 0x09, ax, bx, cx, dx, len(memory)) + memory


def block(count: int, steps: bytes) -> bytes:
    """Steps that are taken so many times."""
    return struct.pack("<BH", 0x0D, count) + steps + b"\x0E"


# Memory on, all addresses alike, all planes written, all bits let through.
MEMORY = out(0x3C2, 0x03) + b"".join(
    out(index, number) + out(index + 1, value)
    for index, number, value in [(0x3C4, 4, 0x06), (0x3C4, 2, 0x0F), (0x3CE, 8, 0xFF)]
)


def puts() -> Script:
    """As many writes to display memory as a script may have."""
    count = (MOST_BYTES - len(HEADER) - len(MEMORY)) // len(put(0, 0))
    steps = b"".join(put(0xA0000 + i * 7 % 65536, i % 256) for i in range(count))
    return "run", HEADER + MEMORY + steps, count + 7, "steps"


def gets() -> Script:
    """As many reads of display memory as a script may have."""
    count = (MOST_BYTES - len(HEADER) - len(MEMORY)) // len(get(0))
    steps = b"".join(get(0xA0000 + i * 7 % 65536) for i in range(count))
    return "run", HEADER + MEMORY + steps, count + 7, "steps"


def cycles() -> Script:
    """Two million cycles of all kinds, a register write, a port read, a write and a read of memory
    in turn."""
    turn = out(0x3CF, 0xF0) + inp(0x3CC) + put(0xA1234, 0x5A) + get(0xA1234)
    return "run", HEADER + MEMORY + turn * 500_000, 2_000_007, "steps"


def dots() -> Script:
    """Advances by the most dots that one may have, from power-on: lines of 45 dots, of which nine
    of every other are displayed."""
    return "run", HEADER + advance(MOST_DOTS) * 16, 16 * MOST_DOTS, "dots"


def frames(example: str) -> Script:
    """Frames of what an example sets up before its first frame."""
    with open(os.path.join(EXAMPLES, example)) as file:
        lines = [line.partition(";")[0].strip() for line in file]
    text = lines[: lines.index("frame")] + ["frame"] * FRAMES
    return "go", "\n".join(text).encode(), FRAMES, "frames"


def text_frames() -> Script:
    """Text of 720 by 400 dots."""
    return frames("text-screen.vga")


def planar_frames() -> Script:
    """16 colours, 320 by 400 dots."""
    return frames("planar-screen.vga")


def byte_frames() -> Script:
    """256 colours, 640 by 400 dots."""
    return frames("byte-screen.vga")


def mode_sets(modes: tuple[int, ...], turns: int) -> Script:
    """Modes in turn, each of which clears its memory."""
    turn = b"".join(service(ax=mode) for mode in modes)
    return "run", HEADER + turn * turns, len(modes) * turns, "mode sets"


def text_mode_sets() -> Script:
    """The two modes of text in turn."""
    return mode_sets(TEXT_MODES, 500)


def graphics_mode_sets() -> Script:
    """The four modes of graphics in turn."""
    return mode_sets(GRAPHICS_MODES, 250)


def scrolls() -> Script:
    """A whole page of text, up by a row."""
    scroll = service(0x0601, bx=0x0700, dx=0x184F)
    return "run", HEADER + service(0x0003) + scroll * 10_000, 10_000, "scrolls"


def planar_scrolls() -> Script:
    """A whole page of 640 by 480 dots of 16 colours, up by a row of characters."""
    scroll = service(0x0601, dx=0x1D4F)
    return "run", HEADER + service(0x0012) + scroll * 500, 500, "scrolls"


def byte_scrolls() -> Script:
    """A whole page of 256 colours, up by a row of characters."""
    scroll = service(0x0601, dx=0x1827)
    return "run", HEADER + service(0x0013) + scroll * 500, 500, "scrolls"


def line_feeds() -> Script:
    """The longest string of line feeds, on the last row of 640 by 480 dots of 16 colours: each
    scrolls the page."""
    feeds = 65_535
    string = service(0x1300, bx=0x0007, cx=feeds, dx=0x1D00, memory=b"\n" * feeds)
    return "run", HEADER + service(0x0012) + string, feeds, "line feeds"


def short_advances(mode: int) -> Script:
    """Dots as a core hands them over that advances after each instruction, 25 at a time: 18 frames
    or so."""
    return "run", BLOCKS + service(mode) + block(60_000, advance(25)) * 5, 300_000, "advances"


def text_advances() -> Script:
    """Text of 720 by 400 dots, 25 dots at a time."""
    return short_advances(0x0003)


def planar_advances() -> Script:
    """16 colours, 640 by 480 dots, 25 dots at a time."""
    return short_advances(0x0012)


def byte_advances() -> Script:
    """256 colours, 320 by 200 dots, 25 dots at a time."""
    return short_advances(0x0013)


def teletype() -> Script:
    """A page of text typed to its last cell but one, again and again: it wraps, and never
    scrolls."""
    page = b"".join(service(0x0E20 + i % 95) for i in range(1_999))
    turn = service(0x0200) + page
    return "run", HEADER + service(0x0003) + turn * 500, 1_999 * 500, "characters"


def teletype_scrolling() -> Script:
    """Rows typed on the last row of the page, each of which scrolls it."""
    row = b"".join(service(0x0E20 + i % 95) for i in range(80))
    begin = service(0x0003) + service(0x0200, dx=0x1800)
    return "run", HEADER + begin + row * 5_000, 400_000, "characters"


def repeated() -> Script:
    """A block of 200 steps, register writes, port reads, memory writes and reads in turn, 65,535
    times."""
    turn = out(0x3CF, 0xF0) + inp(0x3CC) + put(0xA1234, 0x5A) + get(0xA1234)
    return "run", BLOCKS + MEMORY + block(65_535, turn * 50), 200 * 65_535, "steps"


def repeated_frames() -> Script:
    """The dots of 65,535 frames from power-on, a frame at a time: two lines of 45 dots each."""
    return "run", BLOCKS + block(65_535, advance(90)), 65_535, "frames"


def assembling() -> Script:
    """The text of the most steps `int`, 11 bytes each, that a script may have."""
    count = (MOST_BYTES - len(HEADER)) // 11
    return "asm", b"int\n" * count, count, "lines"


def printing() -> Script:
    """The longest script of such steps, printed."""
    count = (MOST_BYTES - len(HEADER)) // 11
    return "dis", HEADER + (b"\x09" + bytes(10)) * count, count, "lines"


SCRIPTS = (
    puts,
    gets,
    cycles,
    dots,
    text_frames,
    planar_frames,
    byte_frames,
    text_advances,
    planar_advances,
    byte_advances,
    text_mode_sets,
    graphics_mode_sets,
    scrolls,
    planar_scrolls,
    byte_scrolls,
    line_feeds,
    teletype,
    teletype_scrolling,
    repeated,
    repeated_frames,
    assembling,
    printing,
)


def words(program: str, job: str, path: str) -> list[str]:
    if job == "asm":
        return [program, job, path, path + ".out"]
    if job == "dis":
        return [program, job, path]
    return [program, job, path, "--fonts", FONT]


def rate(count: int, took: float) -> str:
    """How many in a second."""
    a_second = count / took
    return (
        f"{a_second / 1e6:.1f} million a second" if a_second >= 1e6 else f"{a_second:,.0f} a second"
    )


def seconds(command: list[str]) -> float:
    took = []
    for _ in range(3):
        begin = time.perf_counter()
        subprocess.run(command, stdout=subprocess.DEVNULL, check=True)
        took.append(time.perf_counter() - begin)
    return min(took)


def system_calls(command: list[str]) -> str:
    if shutil.which("strace") is None:
        return ""
    traced = subprocess.run(
        ["strace", "-c", "-f"] + command,
        stdout=subprocess.DEVNULL,
        stderr=subprocess.PIPE,
        text=True,
    )
    lines = [line.split() for line in traced.stderr.splitlines() if line.rstrip().endswith("total")]
    numbers = [word for word in lines[-1] if word.isdigit()] if lines else []
    return f", {numbers[1]} calls of the system" if len(numbers) > 1 else ""


def memory(command: list[str]) -> str:
    if shutil.which("/usr/bin/time") is None:
        return ""
    timed = subprocess.run(
        ["/usr/bin/time", "-f", "%M"] + command,
        stdout=subprocess.DEVNULL,
        stderr=subprocess.PIPE,
        text=True,
    )
    return f", {int(timed.stderr.split()[-1]) / 1024:.0f} MiB"


def main() -> None:
    program = (
        sys.argv[1]
        if len(sys.argv) > 1
        else os.path.join(HERE, "..", "crates", "vga", "out", "vga")
    )
    if not shutil.which(program):
        print(
            f"bench.py: {program}: there is no such program; README.md tells how to build it",
            file=sys.stderr,
        )
        sys.exit(2)
    with tempfile.TemporaryDirectory() as folder:
        for script in SCRIPTS:
            job, data, count, what = script()
            path = os.path.join(folder, script.__name__)
            with open(path, "wb") as file:
                file.write(data)
            command = words(program, job, path)
            took = seconds(command)
            more = system_calls(command) + memory(command)
            print(f"{script.__name__}: {count:,} {what} in {took:.2f} s, {rate(count, took)}{more}")


if __name__ == "__main__":
    # So that the temporary folder goes.
    signal.signal(signal.SIGTERM, lambda number, _: sys.exit(128 + number))
    try:
        main()
    except BrokenPipeError:
        # Nobody reads on. What is left can't be written, and would fail once more.
        os.dup2(os.open(os.devnull, os.O_WRONLY), sys.stdout.fileno())
        sys.exit(141)
