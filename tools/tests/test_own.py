"""`run` by the library in its own process, which is to tell what it tells of the program."""

from __future__ import annotations

import unittest
from typing import Any
from unittest import mock

from zaklimot._file import PORTABLE, PROVED, UNKNOWN
from zaklimot.commands.report import runs
from zaklimot.commands.script import own
from zaklimot.commands.script.words import FONTS

from .tools import EXAMPLES, PROGRAM, Folder, patched, run_tool, want_library, want_program

# Texts, and how their runs end: each with a fault, or cut off.
ENDS = {
    "bad line": b"in 3C2\nout 3C2\n",
    "open block": b"version 2\nrepeat 3\nin 3C2\n",
    "bad step": b"VGAS\x01\x0b\x63",
    "no script": b"VGAS\x09",
    "cut short": b"VGAS",
    "empty": b"",
    "only a comment": b"# nothing\n",
    "too long": b" " * (1 << 24) + b" ",
    "many": b"version 2\nint ax=12\nrepeat 40\nget A0000\nframe\nend\nshow beam\n",
}


class Own(Folder):
    def setUp(self) -> None:
        super().setUp()
        want_library()
        want_program()

    def told(self, *words: Any) -> tuple[tuple[int, bytes, str], ...]:
        """What a run tells by the library, and what by the program."""
        given = ("run", *map(str, words))
        with mock.patch.object(runs, "own_program", lambda _: own.OwnProgram()):
            by_library = run_tool("zaklimot", *given)
        return by_library, run_tool("zaklimot", *given, "--vga", PROGRAM)

    def hold_same(self, *words: Any) -> None:
        by_library, by_program = self.told(*words)
        self.assertEqual(by_library, by_program)

    def test_examples(self) -> None:
        for path in sorted(EXAMPLES.glob("*.vga")):
            with self.subTest(path.name):
                self.hold_same(path)

    def test_ways_to_show(self) -> None:
        script = EXAMPLES / "driver-test.vga"
        for words in (
            ("--quiet",),
            ("--until", "5"),
            ("--until", "0"),
            ("--until", "400"),
            ("--only", "11-13,refused"),
            ("--json", "-", "--quiet"),
            ("--pictures", self.folder / "pictures", "--force"),
        ):
            with self.subTest(words):
                self.hold_same(script, *words)

    def test_ends(self) -> None:
        for name, data in ENDS.items():
            with self.subTest(name):
                self.hold_same(self.write("script", data))
                self.hold_same(self.write("script.vga", data), "--quiet")

    def test_files_that_are_wrong(self) -> None:
        script = EXAMPLES / "driver-test.vga"
        fonts = self.write("fonts", b"short")
        self.hold_same(self.folder / "none.vga")
        self.hold_same(self.folder)
        self.hold_same(script, "--fonts", fonts)
        self.hold_same(script, "--fonts", self.folder / "none")
        self.hold_same(script, "--fonts", self.write("long", FONTS.read_bytes() + b"x"))


class Chosen(unittest.TestCase):
    def test_a_proved_program_goes_before_a_library_that_is_not(self) -> None:
        for kind, built, is_own in (
            (PROVED, None, True),
            (PROVED, "vga", True),
            (PORTABLE, None, True),
            (PORTABLE, "vga", False),
            (None, None, True),
            (None, "vga", False),
        ):
            with (
                self.subTest(kind=kind, built=built),
                mock.patch.object(own, "kind_of_ready", lambda kind=kind: kind),
                mock.patch.object(own, "built_program", lambda built=built: built),
            ):
                self.assertEqual(own.own_program(None) is not None, is_own)
                self.assertIsNone(own.own_program("vga"))

    def test_what_runs_scripts_is_told(self) -> None:
        for kind, ready, built, told in (
            (PROVED, "/lib.so", "/vga", "by the library /lib.so, which is proved"),
            (PORTABLE, "/lib.so", None, "by the library /lib.so, which is tested, not proved"),
            (UNKNOWN, "/lib.so", None, "by the library /lib.so, and no file beside it says "),
            (UNKNOWN, "/lib.so", "/vga", "by the program /vga"),
            (None, None, "/vga", "by the program /vga"),
            (None, None, None, "by the library of portable/zaklimot.c, which is tested, not pro"),
        ):
            given = {
                "kind_of_ready": lambda kind=kind: kind,
                "kind_of": lambda _, kind=kind: kind,
                "ready_library": lambda ready=ready: ready,
                "built_program": lambda built=built: built,
            }
            with self.subTest(told), patched(own, given):
                self.assertTrue(own.told_runner().startswith(f"scripts run {told}"))
