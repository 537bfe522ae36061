"""Command lines of the program, and what the proved program answers to them, as `commands.json` has
it.

    python3 tools/tests/commands.py PROGRAM

writes that file anew, from what this program answers: the proved one, when its words have changed.
"""

from __future__ import annotations

import hashlib
import json
import os
import re
import signal
import subprocess
import sys
import tempfile
from itertools import product
from pathlib import Path
from typing import Iterator, Sequence

HERE = Path(__file__).resolve().parent
TOP = HERE.parents[1]
RECORDED = HERE / "commands.json"
# An output of more bytes is told by its number of bytes and its digest.
MOST_BYTES = 400
# The version, which the last line of a help tells, and what the portable program adds to it.
VERSION = re.compile(rb"^vga \d+\.\d+(, portable: tested, not proved)?$", re.M)
MODE_13, MODE_12 = (b"\x09%c\0" % mode + bytes(8) for mode in (0x13, 0x12))
OUT = b"\x01\xc2\x03\x63"
FRAME = b"\x0b"
# Files, by their names. The last few have long reports, which are written slice by slice.
FILES = {
    "empty": b"",
    "short": b"123",
    "long": bytes(9729),
    "text": b"OUT 3c2 63 ; colour addresses\n\nput A0000 ff\r\nin 3CC",
    "bad": b"frame\nfram\n",
    "script": b"VGAS\x01" + OUT + b"\x05\x00\x00\x0a\x00\xff\x03\xcc\x03",
    "magic": b"VGAX",
    "magic-alone": b"VGAS",
    "version": b"VGAS\x09",
    "header": b"VGAS\x01",
    "header-2": b"VGAS\x02",
    "opcode": b"VGAS\x01" + OUT + b"\xff",
    "cut": b"VGAS\x01\x01\xc2",
    "lone-end": b"VGAS\x02\x0e",
    "no-times": b"VGAS\x02\x0d\0\0\x0e",
    "many-steps": b"VGAS\x02\x0d\xff\xff" + FRAME * 257 + b"\x0e",
    "empty-repeats": b"VGAS\x02" + b"\x0d\xff\xff\x0e" * 4000 + FRAME,
    "most-bytes": b"VGAS\x01"
    + (b"\x09\0\x0f" + bytes(6) + b"\xff\xff" + bytes(65535)) * 255
    + FRAME * 62_981,
    "too-long": bytes(16_777_217),
    "many-outs": b"VGAS\x01" + OUT * 400_000,
    "many-frames": b"VGAS\x01" + MODE_12 + FRAME * 20,
    # Small pictures, and then large ones, whose size nobody foresees.
    "growing": b"VGAS\x01" + FRAME * 3000 + MODE_13 + FRAME * 12 + OUT * 5 + MODE_12 + FRAME * 12,
    "growing-2": b"VGAS\x02\x0d\xff\x0f"
    + OUT
    + FRAME
    + b"\x0e"
    + MODE_12
    + b"\x0d\x0c\0"
    + OUT
    + FRAME
    + b"\x0e",
    "tables": b"VGAS\x01"
    + MODE_12
    + (b"\x09\x17\x10\0\0\0\x01\0\0\0\0" + b"\x0c\x00\x0c\x05") * 6000,
    "cells": b"VGAS\x02\x09\x03\0" + bytes(8) + b"\x0d\xe8\x03\x0c\x06\x0e",
}
FONTS = "fonts"
WORDS = (
    "asm",
    "dis",
    "run",
    "go",
    "help",
    "--fonts",
    "--until",
    "--fonts=f",
    "--until=3",
    "--help",
    "-h",
    "-x",
    "--",
    "-",
    "x",
)
LINES = (
    "--version",
    "--help=3",
    "--hel",
    "--font run",
    "--until x go run",
    "--fonts go x run y",
    "--unti go",
    "rnu",
    "as",
    "diss",
    "helpp",
    "un",
    "-- asm x y",
    "-- q",
    "-- help",
    "-ü",
    "--ü",
    "ünd",
    "gö",
    "-hx",
    "-xh",
    "help help x",
    "help run y",
    "help q",
    "help --",
    "asm x y z",
    "asm x -- -y -z",
    "asm --help=a",
    "asm --fonts f x y",
    "dis -é",
    "dis --hlp",
    "dis -- --help",
    "run --fonts --help",
    "run --fonts=a --fonts=b",
    "run x --fonts f --fonts g --loud",
    "run x --fonts -- f",
    "run --fonts -- x",
    "run x --fonts",
    "run x --untl 3",
    "run x --until --until=3 --fonts f",
    "run x --fonts f --until -5",
    "run x -h --fonts",
    "go x --fonts=",
    "go x --until=+3 --fonts f",
    "go x --fonts f --until 4294967296",
    "go x --fonts f --until=",
    "go x --fonts f --until 3 --until 3",
    "go x y --fonts f",
    "go --fonts f",
    "go -5 --fonts f",
)
# The names with which a program may be started.
NAMES = ("vga", "/x/other", "./vga/", "..", "/", "", "ü/é")


def lines() -> Iterator[tuple[str, ...]]:
    """The command lines: of words alone, and of files."""
    yield ()
    yield ("",)
    yield from ((one,) for one in WORDS)
    yield from product(WORDS, repeat=2)
    yield from (tuple(line.split()) for line in LINES)
    for name in (*FILES, "none", ".", ""):
        yield from (("dis", name), ("asm", name, "made"), ("asm", name, "no/such"))
        yield from ((job, name, "--fonts", FONTS) for job in ("run", "go"))
    for fonts, job, name in product(
        ("none", "short", "long", "."), ("run", "go"), ("text", "script", "bad", "none", ".")
    ):
        yield (job, name, "--fonts", fonts)
    for number, (job, name) in product(
        "0 2 9 0012 4294967295".split(), (("run", "script"), ("go", "text"), ("go", "bad"))
    ):
        yield (job, name, "--fonts", FONTS, "--until", number)
    yield from (
        ("run", "growing", "--fonts", FONTS, "--until", number)
        for number in ("3001", "3010", "3025")
    )


def lay(folder: Path) -> None:
    """Writes the files into a folder."""
    for name, content in {**FILES, FONTS: (TOP / "fonts" / "zaklimot.fnt").read_bytes()}.items():
        (folder / name).write_bytes(content)


def _told(content: bytes) -> str:
    text = VERSION.sub(b"vga VERSION", content)
    if len(text) <= MOST_BYTES and text.isascii():
        return text.decode("ascii")
    return f"{len(text)} bytes, {hashlib.sha256(text).hexdigest()}"


def _ignore_nothing() -> None:
    # Python has this signal ignored, and a shell has not.
    signal.signal(signal.SIGPIPE, signal.SIG_DFL)


def answer(program: str, words: Sequence[str], folder: Path, name: str = "vga") -> list[object]:
    """What a program answers in a folder with the files: its status, what it writes and says, and
    the file that it makes."""
    made = folder / "made"
    if made.exists():
        made.unlink()
    done = subprocess.run(
        [name, *words],
        executable=program,
        cwd=folder,
        stdin=subprocess.DEVNULL,
        capture_output=True,
        timeout=200,
        preexec_fn=_ignore_nothing,
    )
    found = _told(made.read_bytes()) if made.exists() else ""
    return [done.returncode, _told(done.stdout), done.stderr.decode("utf-8"), found]


def key(words: Sequence[str], name: str = "vga") -> str:
    """How a command line is named in the file of answers."""
    return json.dumps([name, *words], ensure_ascii=False)


def all_lines() -> Iterator[tuple[str, tuple[str, ...]]]:
    """All command lines, each with the name by which the program is started."""
    yield from (("vga", words) for words in lines())
    yield from product(NAMES[1:], ((), ("help", "help"), ("help", "help", "x"), ("asm",)))


def _record(program: str) -> None:
    with tempfile.TemporaryDirectory() as name:
        lay(Path(name))
        told = {
            key(words, named): answer(program, words, Path(name), named)
            for named, words in all_lines()
        }
    rows = ",\n".join(
        f"{json.dumps(line, ensure_ascii=False)}: {json.dumps(row)}" for line, row in told.items()
    )
    RECORDED.write_text(f"{{\n{rows}\n}}\n", "utf-8")


if __name__ == "__main__":
    _record(os.path.abspath(sys.argv[1]))
