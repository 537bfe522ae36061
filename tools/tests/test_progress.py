"""How far long work has come, as the tools tell it on a terminal: what is told first and last, how
often, and that nothing of it stays on the terminal."""

from __future__ import annotations

import os
import shlex
import shutil
import sys
from typing import Callable, NamedTuple

from zaklimot.commands.core import progress

from .tools import PROGRAM, RED, Folder, ppm, report, run_tool, takes_long, want_program


class Told(NamedTuple):
    """What is told while a command works: how many times, first and last."""

    times: int
    first: str
    last: str


NOTHING = Told(0, "", "")
CASES = "--only examples/first-path --only examples/until"
OF_CASES = Told(
    3,
    "1 of 3 cases, 1 doesn't agree: examples/first-path",
    "3 of 3 cases, 2 don't agree: examples/until-dumps",
)
SCRIPT = "int ax=3\n" + "in 3CC ; = 67\n" * 18 + "frame\n"
TRACE = "0 w p 3C2 67 1\n- int 0003 0000 0000 0000\n50 w m B8000 0741 2\n"
# What commands tell, each of which counts something else.
TELLING = {
    "run s.vga": Told(21, "s.vga: step 1 of 20", "s.vga: step 20 of 20"),
    "run d": Told(2, "1 of 2 scripts: d/a.vga", "2 of 2 scripts: d/b.vga"),
    "pictures end.txt p": Told(5, "end.txt: 18 %", "end.txt: 100 %"),
    "compare long.txt long.txt": Told(4, "long.txt: 18 %", "long.txt: 80 %"),
    f"suite 'false # {{name}}' {CASES}": OF_CASES,
    "trace pictures t.trace p": Told(4, "step 1", "step 4"),
}


def _begin_on_terminal() -> None:
    """Has the process tell all there is to tell, as on a terminal."""
    setattr(progress, "DELAY", 0)
    setattr(progress, "PAUSE", 0)
    os.environ["COLUMNS"] = "100"
    for stream in (sys.stdout, sys.stderr):
        setattr(stream, "isatty", lambda: True)


def _shown(written: str) -> str:
    """What a terminal shows of what is written on it: behind a carriage return, text replaces
    text."""
    rows = []
    for line in written.split("\n"):
        row = ""
        for part in line.split("\r"):
            row = part + row[len(part) :]
        rows.append(row.rstrip())
    return "\n".join(rows)


@takes_long
class Terminal(Folder):
    @classmethod
    def setUpClass(cls) -> None:
        want_program()

    def setUp(self) -> None:
        super().setUp()
        for name in ("s.vga", "d/a.vga", "d/b.vga"):
            self.write(name, SCRIPT)
        self.write("t.trace", TRACE)
        self.write("long.txt", report(*["ok"] * 20_000))
        self.write("end.txt", report(*["ok"] * 20_000, ppm(2, 1, RED + RED)))

    def done(self, words: str, prepare: Callable[[], None]) -> str:
        """What a command writes in the folder, on either stream; what it makes is taken away
        then."""
        tool, *rest = shlex.split(words)
        before = self.names()

        def begin() -> None:
            os.chdir(self.folder)
            # One place shows both streams in their order, as a terminal does.
            os.dup2(2, 1)
            prepare()

        _, output, said = run_tool("zaklimot", tool, *rest, prepare=begin)
        for name in set(self.names()) - set(before):
            path = self.folder / name
            if path.is_dir():
                shutil.rmtree(path)
            else:
                path.unlink()
        return output.decode() + said

    def told(self, words: str) -> tuple[list[str], str]:
        """What a command tells, one after the other, and what stays on the terminal."""
        written = self.done(words, _begin_on_terminal)
        # A line that is taken away is blanks.
        parts = [part.rstrip(" ") for part in written.split("\r")]
        return [part for part in parts if part and "\n" not in part], _shown(written)

    def test_what_is_told_and_that_nothing_of_it_stays(self) -> None:
        for words, wanted in TELLING.items():
            with self.subTest(words):
                told, shown = self.told(words)
                found = Told(len(told), told[0], told[-1]) if told else NOTHING
                self.assertEqual(found, wanted)
                self.assertEqual(shown, _shown(self.done(words, lambda: None)))

    def test_a_program_that_does_not_answer_yet_is_told(self) -> None:
        self.program("slow", f'#!/bin/sh\nsleep 0.5\nexec {PROGRAM} "$@"\n')
        told, shown = self.told("run s.vga --quiet --vga ./slow")
        self.assertIn("s.vga: no answer yet after 0 seconds", told)
        self.assertEqual(shown, _shown(self.done("run s.vga --quiet", lambda: None)))
