"""Options of `zaklimot`: the bounds of their numbers; which of them contradict others, which is
told before any work, and which only look so."""

from __future__ import annotations

import contextlib
import io
import os
from functools import partial
from urllib.parse import unquote

from zaklimot.commands.report.debugging import DOCS, page_data
from zaklimot.commands.words import parser

from .tools import BLACK, Folder, ppm, report, run_tool


PICTURE = ppm(9, 1, BLACK * 9)
# The words of a number, the least that it may be, and the most.
BOUNDS = (
    ("run s --until {}", 0, 4_294_967_295),
    ("run s --jobs {}", 1, 256),
    ("run s --scale {}", 1, 1000),
    ("suite c --jobs {}", 1, 256),
    ("suite c --output {}", 1, 1_048_576),
    ("pictures r p --step {}", 1, 4_294_967_295),
    ("pictures r p --scale {}", 1, 1000),
    ("compare r s --scale {}", 1, 1000),
    ("compare r i --step {}", 1, 4_294_967_295),
)


class Options(Folder):
    def setUp(self) -> None:
        super().setUp()
        self.write("s.vga", "frame\n")
        self.write("scripts/s.vga", "frame\n")
        self.report("r", PICTURE)
        self.write("e", "1 picture 37 9x1\n000000*9\n")
        # It answers one step, or the state before it.
        go = "[ $1 = go ] || exit 1\n[ $5 ] && printf '1 a\\n2 a\\n3 a\\n4 a\\n' || cat r\n"
        self.program("vga", f"#!/bin/sh\n{go}")

    def done(self, words: str) -> tuple[int, bytes, str]:
        """Exit status, output and standard error of the command in the folder."""
        prepare = partial(os.chdir, self.folder)
        return run_tool("zaklimot", *words.split(), given=report(PICTURE), prepare=prepare)

    def test_numbers_have_bounds(self) -> None:
        for words, least, most in BOUNDS:
            for number in (least, most):
                self.assertIn(number, self.parsed(words.format(number)))
            for number in (least - 1, most + 1):
                with self.subTest(words, number=number):
                    said = io.StringIO()
                    with contextlib.redirect_stderr(said), self.assertRaises(SystemExit):
                        self.parsed(words.format(number))
                    told = f": '{number}' .* from {least} to {most}\n$"
                    self.assertRegex(said.getvalue(), told)

    def parsed(self, words: str) -> list[object]:
        """The values of words, each by itself."""
        values = vars(parser().parse_args(words.split())).values()
        return [one for value in values for one in (value if isinstance(value, list) else [value])]

    def test_where_a_page_opens_a_script(self) -> None:
        # Before the first step, too, and by an address that a browser takes.
        for name, until, behind in (
            ("o.html", (), "o.html"),
            ("o p#.html", ("--until", "0"), "o%20p%23.html#step=0"),
            ("\u00e9.html", ("--until", "12"), "%C3%A9.html#step=12"),
        ):
            words = ("page", "s.vga", name, *until)
            done = run_tool("zaklimot", *words, prepare=partial(os.chdir, self.folder))
            address = f"{self.folder.resolve().as_uri()}/{behind}"
            told = f"{name}: open it in a browser, for instance as {address}\n"
            self.assertEqual(done, (0, told.encode(), ""))
            self.assertTrue((self.folder / name).exists())

    def test_a_page_on_standard_output_is_one_of_the_current_folder(self) -> None:
        status, page, said = self.done("page s.vga -")
        self.assertEqual((status, said), (0, ""))
        pages = unquote(page_data(page.decode())["pages"])
        self.assertEqual((self.folder / pages).resolve(), DOCS)
