"""Scripts beside the answers that they expect: one, those of a folder, and the examples. And the
program that runs them, where it is lacking."""

from __future__ import annotations

import io
import json
import os
import re
import unittest
from functools import partial
from itertools import product
from pathlib import Path
from unittest import mock
from xml.etree import ElementTree

from zaklimot.format import Answer, count_in, lines_in, places_in, steps_in, words_in
from zaklimot.commands.report.expecting import dumps_in, expected_in, is_worth_telling
from zaklimot.commands.script.reading import text_of

from .running import Fake, run
from .tools import EXAMPLES, PROGRAM, hold, takes_long, want_program

# What it does first where no two are to be: it fails while another runs.
ALONE = (
    "import fcntl, time; own = open(sys.argv[0]); fcntl.flock(own, fcntl.LOCK_EX | fcntl.LOCK_NB);"
    " time.sleep(0.1)\n"
)


class Expectations(unittest.TestCase):
    """What a text expects of its steps. page/tests/expecting.mjs holds which answers meet it."""

    def test_comments(self) -> None:
        hold(
            self,
            lambda comment: expected_in(comment.encode()),
            [
                ("= 55", "55"),
                (" =55 ; more", "55"),
                ("55", None),
                ("= E6  WrongKind", "E6 WrongKind"),
                ("=", ""),
            ],
        )

    def test_what_is_not_worth_writing_in(self) -> None:
        call = "ax=0003 bx=0000 cx=00FF dx=0000"
        hold(
            self,
            lambda answer, words: is_worth_telling(Answer(1, 1, answer), words),
            [
                ("ok", "frame", False),
                ("skipped", "frame", False),
                ("00", "in 3DA", True),
                (call, "INT AX=3 CX=FF", False),
                (call, "INT AX=3", True),
            ],
        )

    def test_dumps(self) -> None:
        hold(
            self,
            lambda text: dumps_in(text.encode(), "t"),
            [
                ("frame\n;| a\n ;| b \nframe\n;| c\n", {1: ("a", "b"), 4: ("c",)}),
                ("; x\n;| a\nframe\n\n;| b\n", {}),
                ("version 2\nREPEAT 2\n;| a\nframe ; x\n;| b\nend\n;| c\n", {4: ("b",)}),
                ("frame\n frame ;| a\n", {}),
                ("ret\v2 ; = 5\n\t\r\n", {}),
                ("\xe9 ; = 5\n;| 1", {1: ("1",)}),
                # A line of signs alone expects nothing.
                ("; =====\n;=\r\n; == =\r\nframe\r\n", {}),
            ],
        )

    def test_lines_of_any_bytes(self) -> None:
        pieces = (
            b"out 3C4 02",
            b"  in\t3da",
            b"\xff",
            b"\v",
            b"\f",
            b" ",
            b"\r",
            b";",
            b"; = 5",
            b"\n",
        )
        for text in map(b"".join, product(pieces, repeat=4)):
            fronts = [(at, line.partition(b";")) for at, line in enumerate(text.split(b"\n"), 1)]
            wanted = [
                (at, " ".join(map(text_of, words)), comment)
                for at, (front, _, comment) in fronts
                if (words := re.findall(rb"[^ \t\r]+", front))
            ]
            lines = [(*line[:2], line[2].rstrip(b"\n")) for line in lines_in(io.BytesIO(text))]
            self.assertEqual(lines, wanted, text)
            for whole in (text, b"version 2\n" + text):
                places = [(line.number, line.comment) for line in steps_in(io.BytesIO(whole))]
                self.assertEqual(list(places_in(io.BytesIO(whole))), places, whole)

    def test_blocks(self) -> None:
        def steps(text: str) -> list[tuple[int, str]]:
            return [(line.number, line.words) for line in steps_in(io.BytesIO(text.encode()))]

        text = (
            "; x\nVersion  2\nint\nrepeat 2 ; twice\nframe ; = *\nin 3DA\nEND\nrepeat"
            " 3\nend\nframe\n"
        )
        self.assertEqual(
            steps(text), [(3, "int"), *[(5, "frame"), (6, "in 3DA")] * 2, (10, "frame")]
        )
        self.assertEqual(steps("version 2\nrepeat 65535\nframe\n"), [(3, "frame")])
        with mock.patch("zaklimot.format.lines.MOST_STEPS", 1000):
            self.assertEqual(len(steps("version 2\nrepeat 65535\n" + "frame\n" * 300 + "end")), 900)
        self.assertEqual(steps("frame\nrepeat 2\nend"), [(1, "frame"), (2, "repeat 2"), (3, "end")])
        long = (
            "version 2\nrepeat 3\n" + "".join(f"in {at:X}\n" for at in range(5000)) + "end\nframe\n"
        )
        once = [(at + 3, f"in {at:X}") for at in range(5000)]
        self.assertEqual(steps(long), [*once, *once, *once, (5004, "frame")])
        others = (
            "frame\nin 3DA ; repeat 2\n",
            "",
            "version 2\nrepeat 7\nend\n",
            "; a\n \t\r\n ; b\nframe",
        )
        for some in (text, long, *others):
            self.assertEqual(count_in(io.BytesIO(some.encode())), len(steps(some)))
        printed = "version 2\nIN 3DA\nrepeat 2\nFRAME\nend\n"
        self.assertEqual(
            list(words_in(io.BytesIO(printed.encode()))), [words for _, words in steps(printed)]
        )


class Examples(unittest.TestCase):
    def test_each_answers_what_its_comments_expect(self) -> None:
        want_program()
        status, output, said = run("run", EXAMPLES, "--jobs", "4", "--vga", PROGRAM)
        self.assertEqual((status, said), (0, ""))
        *lines, last = output.decode().splitlines()
        self.assertRegex(last, "^[0-9]+ scripts, 0 differ$")
        self.assertGreater(int(last.split()[0]), 22)
        for line in lines:
            # Bytes have no comments.
            self.assertRegex(line, r"\.bin: |, ([1-9]\d*) of \1 answers as expected$")


@takes_long
class Several(Fake):
    def setUp(self) -> None:
        super().setUp()
        self.tests = self.folder / "tests"
        for name, text in (
            ("a.vga", "get 0 ; = E6\n"),
            ("more/b.vga", "get 0 ; = 55\nin 60\n"),
            ("notes.txt", ""),
        ):
            self.write(f"tests/{name}", text)

    def test_no_script_is_written_over(self) -> None:
        script = str(self.tests / "a.vga")
        for words in (
            (self.tests, "--json", script),
            (self.tests, "--junit", script),
            (self.tests,),
            (script,),
        ):
            onto = partial(os.dup2, os.open(script, os.O_WRONLY | os.O_APPEND), 1)
            name, prepare = ("standard output", onto) if len(words) == 1 else (script, bool)
            done = run("run", *words, "--vga", self.vga, prepare=prepare)
            self.assertEqual(
                done, (2, b"", f"zaklimot: {name}: it is read as {script}, so it isn't written\n")
            )
        self.assertEqual(Path(script).read_text(), "get 0 ; = E6\n")

    def test_a_name_that_looks_like_an_option(self) -> None:
        (self.tests / "-c.vga").write_text("frame\n")
        status, output, _ = run("run", ".", "--vga", self.vga, prepare=lambda: os.chdir(self.tests))
        self.assertEqual((status, output.split(b"\n")[0]), (1, b"-c.vga: 1 step, 1 picture"))

    def test_text_goes_to_standard_error_where_machines_read_the_output(self) -> None:
        text = self.run_script(path=str(self.tests))[1]
        self.assertTrue(text.endswith("2 scripts, 1 differs\n"))
        done = self.run_script("--junit", "-", path=str(self.tests))
        self.assertEqual((done[0], done[2]), (1, text))
        suite = ElementTree.fromstring(done[1].encode())
        self.assertEqual((suite.tag, suite.get("tests"), len(suite)), ("testsuite", "2", 2))
        done = self.run_script("--json", "-", path=str(self.tests))
        self.assertEqual((done[0], done[2], len(json.loads(done[1]))), (1, text, 2))
