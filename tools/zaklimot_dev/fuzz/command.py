"""Inputs one after the other, and the figures at the end."""

import argparse
import os
import tempfile
import time
from collections import Counter
from contextlib import suppress
from pathlib import Path
from random import Random

from zaklimot.format import ScriptFault, encode, parse_text
from zaklimot.commands import TOP
from zaklimot.commands.core.processes import Limits
from zaklimot.commands.core.progress import Progress
from zaklimot.commands.core.streams import counted, empty_folder, write_file
from zaklimot.commands.core.trouble import AGREED, DIFFERED, Trouble, Wrong
from zaklimot.commands.core.words import MEBIBYTE
from zaklimot.commands.script.program import found_program
from zaklimot.commands.script.words import FONTS

from .feeding import Program
from .making import make

# Where the texts are that are changed.
TEXTS = (TOP / "examples", TOP / "crates" / "vga_suite" / "data")
# Longer texts are left out: they are runs of many frames.
MOST_TEXT = 1 << 14
# What each program is asked first.
FIRST_TEXT = b"in 3DA\n"
# What stands for the answer of a run with which something is wrong.
WRONG = "wrong"


def _at_hand() -> tuple[list[bytes], list[bytes]]:
    """The texts of the examples and of the suite; and as bytes the scripts of those that are
    any."""
    files = sorted(
        file
        for folder in TEXTS
        for file in folder.rglob("*.vga")
        if file.stat().st_size <= MOST_TEXT
    )
    texts = [file.read_bytes() for file in files]
    scripts = []
    for text in texts:
        with suppress(ScriptFault):
            scripts.append(encode(parse_text(text)))
    return texts, scripts


def _check(program: Program) -> None:
    try:
        script = program.assembled(FIRST_TEXT)
    except Wrong as wrong:
        raise Trouble(
            f"it isn't vga, or can't work within these limits: {wrong}", program.path
        ) from wrong
    if script != encode(parse_text(FIRST_TEXT)):
        raise Trouble(
            f"it isn't vga: it makes another script of `{FIRST_TEXT.decode().strip()}`",
            program.path,
        )


def _figures(made: Counter[str], answers: Counter[str], seed: int, seconds: float) -> str:
    """How many inputs were made in each way and answered in each way, and with how many something
    was wrong."""
    total = sum(made.values())
    counts = [*sorted(made.items()), *sorted(answers.items())]
    passed = counted(round(seconds), "second", ",")
    return "\n".join(
        [
            f"seed {seed}: {counted(total, 'input', ',')} in {passed}",
            *(f"{count:9,} {name}" for name, count in counts),
            f"{answers[WRONG]:,} with something wrong",
        ]
    )


def _fuzz(words: argparse.Namespace, path: str, folder: Path) -> int:
    """Makes inputs and feeds the program with them, until the time or the inputs are used up, or
    the user ends it."""
    limits = Limits(words.timeout, words.output * MEBIBYTE, memory=words.memory * MEBIBYTE)
    program = Program(path, str(FONTS), folder, limits)
    _check(program)
    texts, scripts = _at_hand()
    made = Counter[str]()
    answers = Counter[str]()
    number = words.first
    begin = time.monotonic()
    try:
        while time.monotonic() - begin < words.seconds and number - words.first != (
            words.inputs or -1
        ):
            given = make(Random(f"{words.seed}:{number}"), texts, scripts)
            try:
                # An answer is counted without its place.
                answer = program.feed(given).partition("(")[0]
            except Wrong as wrong:
                answer = WRONG
                print(f"input {number} ({given.made}): {wrong}", flush=True)
                if words.keep is not None:
                    write_file(
                        str(Path(words.keep) / f"{number}{'.vga' if given.is_text else '.bin'}"),
                        given.data,
                    )
            made[given.made] += 1
            answers[answer] += 1
            number += 1
    finally:
        # The figures are told of a run that the user ends, too.
        print(_figures(made, answers, words.seed, time.monotonic() - begin), flush=True)
    return DIFFERED if answers[WRONG] else AGREED


def feed_program(words: argparse.Namespace, _: Progress) -> int:
    """Feeds a program with inputs at random; whether one shows something wrong."""
    path = words.program or found_program(instead="PROGRAM names one")
    if not os.path.isfile(path) or not os.access(path, os.X_OK):
        raise Trouble("it is no program; (cd crates/vga && rt run -- --help) builds it", path)
    if words.keep is not None:
        empty_folder(words.keep)
    with tempfile.TemporaryDirectory(prefix="vga-fuzz-") as folder:
        return _fuzz(words, path, Path(folder))
