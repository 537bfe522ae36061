"""The transcripts, and the pages whose commands show what they print: all is as it stands there."""

from __future__ import annotations

import unittest
from typing import Callable

from . import transcripts
from .test_help import parsers_of
from .tools import COMMAND, TOP, want_program


class _Page(unittest.TestCase):
    """Pages that say what their commands do."""

    def hold(self, name: str) -> None:
        """Holds a page to what its commands do."""
        want_program()
        before = transcripts.transcripts()[name].read_text("utf-8")
        after, count = transcripts.run(name, before)
        self.assertGreater(count, 0, "it has no command")
        self.assertEqual(after, before, "\n" + transcripts.difference(name, before, after))


def _holding(name: str) -> Callable[[_Page], None]:
    return lambda test: test.hold(name)


def _made() -> dict[str, type[_Page]]:
    """A class of tests for each folder of pages, whose tests run in a process of their own."""
    made: dict[str, type[_Page]] = {}
    for name in transcripts.transcripts():
        folder, _, page = name.rpartition("/")
        called = "Of" + folder.title()
        one = made.setdefault(called, type(called, (_Page,), {"__module__": __name__}))
        setattr(one, f"test_{page.partition('.')[0].replace('-', '_')}", _holding(name))
    return made


globals().update(_made())


class Commands(unittest.TestCase):
    """A command of users has a transcript of its help, and a line on a page."""

    def test_each_is_told(self) -> None:
        shown = [path.read_text("utf-8") for path in transcripts.HERE.glob("*/*.md")]
        pages = [path.read_text("utf-8") for path in (TOP / "docs").glob("*.md")]
        for parser in parsers_of(COMMAND):
            with self.subTest(parser.prog):
                self.assertTrue(any(f"$ ./{parser.prog} --help\n" in text for text in shown))
                self.assertTrue(any(parser.prog in text for text in pages))


class Bless(unittest.TestCase):
    """What still fits stays as a person has written it."""

    def test_what_fits(self) -> None:
        told = ["one 1", "two", "three", "four"]
        for expected, is_fit in (
            (["one [..]", "two", "three", "four"], True),
            (["one 1", "...", "four"], True),
            (["..."], True),
            (["one 1", "two", "three"], False),
            (["[..] 2", "...", "four"], False),
        ):
            self.assertEqual(transcripts.fits(expected, told), is_fit, expected)

    def test_what_changed_alone_is_renewed(self) -> None:
        for expected, told, wanted in (
            (["a [..]", "b"], ["a 1", "c"], ["a [..]", "c"]),
            (["a", "...", "z"], ["a", "b", "y"], ["a", "...", "y"]),
            (["a", "b"], ["a"], ["a"]),
        ):
            self.assertEqual(transcripts.renewed(expected, told), wanted)
