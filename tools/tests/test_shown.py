"""How a run is shown, and kept for machines: options together, pictures, JSON, XML and watching."""

from __future__ import annotations

import json
import os
import sys
import unittest
from unittest import mock
from xml.etree import ElementTree

from zaklimot.format import Answer, Picture
from zaklimot.commands.report.expecting import is_as_expected, why_never
from zaklimot.commands.report.listing import Row
from zaklimot.commands.report.modes import StepList
from zaklimot.commands.words import parser

from .running import Fake
from .tools import PROGRAM, RED, hold, png_rows, run_tool, want_program

# What the fake program's frame answers, and its dump of two lines.
DIGEST = "cc3cef99328e895f73a6088030faaab2"
LINES_DIGEST = "dd8c6a395b5dd36c56d23275028f526c"
DOTS = Picture.of_dots(9, 1, RED * 4 + bytes(15))
CALLED = "ax=0003 bx=0000 cx=0D0E dx=0000"
# Answers with the words of their steps, what is expected, and whether it is met.
EXPECTED = (
    *(
        (Answer(1, 1, answer), expected, words, is_met)
        for answer, words, expected, is_met in (
            ("ok", "out 3C2 1", "OK", True),
            ("55", "get 0", "5", False),
            ("55", "get 0", "", False),
            ("55", "get 0", "*", True),
            ("5F", "get 0", "5f", True),
            # A number alone is a refusal, but after a step that reads.
            ("E1 NotDecoded", "OUT 60 1", "e1", True),
            ("E1 NotDecoded", "out 60 1", "E2", False),
            ("E1 NotDecoded", "INW 60", "E1", False),
            ("E1 NotDecoded", "in 60", "e1 notdecoded", True),
            ("E12 TooFar", "advance 9", "E1", False),
            ("E12 TooFar", "advance 9", "E12", True),
            # Registers of a call, whole ones, in any order.
            (CALLED, "int", "cx=0d0e", True),
            (CALLED, "int", "dx=0000 ax=0003", True),
            (CALLED, "int", "cx=0D0", False),
            (CALLED, "int", "ax=0003 cx=0D0F", False),
            (CALLED, "int", "ax=0003 twice", False),
            # Other words are all of the answer, or none.
            ("latches 00 55 00 00", "show latches", "latches 00", False),
            ("beam frame 0", "show beam", "frame beam 0", False),
        )
    ),
    *(
        (Answer(1, 1, "picture 37", (), DOTS), expected, "frame", is_met)
        for expected, is_met in (
            ("picture 9x1", True),
            ("picture 9x2", False),
            (f"picture 9x1 {DIGEST}", True),
            (f"picture 9x1 {DIGEST[:4]}...", True),
            (f"picture 9x1 {DIGEST[:4]}", False),
            ("picture 9x1 cc3d...", False),
            ("picture 37", False),
        )
    ),
    *(
        (Answer(1, 1, "a", ("b",)), expected, "show regs", is_met)
        for expected, is_met in (
            (f"2 lines {LINES_DIGEST}", True),
            ("2 lines...", True),
            ("a", False),
        )
    ),
)


# What is expected of a step, and how it is told that no answer meets it.
NEVER = (
    ("5", "in 3CC", "no answer of `in` is `5`: it answers a byte of two digits, as `= 05`,"),
    ("05", "inw 3CC", "no answer of `inw` is `05`: it answers a word of four digits,"),
    ("done", "out 3C2 67", "no answer of `out` is `done`: it answers `ok`"),
    ("pictur 9x1", "frame", "no answer of `frame` is `pictur 9x1`: it answers a picture,"),
    ("ax=3", "int ax=3", "no answer of `int` is `ax=3`: it answers registers,"),
    ("E99", "out 3C2 67", "there is no refusal E99: they are E1 to E13"),
    ("E1 NoMode", "in 60", "there is no refusal `E1 NoMode`: E1 is NotDecoded"),
    ("E5", "out 3C2 67", "`out` is never refused as E5 BadMode: it is refused as E1 NotDecoded,"),
)


class Expectations(unittest.TestCase):
    def test_what_no_answer_meets(self) -> None:
        for expected, words, told in NEVER:
            self.assertEqual(why_never(expected, words)[: len(told)], told)
        for expected, words in (
            *(("05", "in 3CC"), ("E1", "in 3CC"), ("e1 notdecoded", "IN 60"), ("*", "in 60")),
            *(
                ("OK", "out 3C2 67"),
                ("E2", "out 3C2 67"),
                ("E12", "advance 9"),
                ("ragged", "frame"),
            ),
            *(("picture 9x1", "frame"), ("picture 9...", "frame"), ("cx=0001 ax=0003", "int ax=3")),
            *(("ax=0003 bx=0000 cx=0000 dx=0000 block 01", "int"), ("a", "show regs"), ("5", "no")),
        ):
            self.assertEqual(why_never(expected, words), "", expected)

    def test_which_answers_meet_them(self) -> None:
        hold(self, is_as_expected, EXPECTED)


@unittest.skipIf(sys.platform == "win32", "a script is a program on POSIX")
class Together(Fake):
    """Options beside one another."""

    def pictures(self, *words: str) -> list[str]:
        """The names of the pictures that a run with these words leaves."""
        self.write("t.vga", "frame\nget 0 ; = 55\nframe\nframe ; = ragged\n")
        folder = self.folder / "p"
        for path in folder.glob("*"):
            path.unlink()
        self.run_script("--pictures", "p", *words, path="t.vga")
        return sorted(path.name for path in folder.glob("*"))

    def test_pictures_of_the_steps_that_only_names(self) -> None:
        all_of_them = ["0001.png", "0003.png", "0004.png"]
        hold(
            self,
            self.pictures,
            (
                (all_of_them,),
                ("--only", "3", ["0003.png"]),
                ("--only", "2", []),
                ("--only", "3-4", "--quiet", ["0003.png", "0004.png"]),
                ("--only", "differs", "--json", "-", ["0004.png"]),
                # They are written beside what is told of answers, too.
                ("--bless", all_of_them),
            ),
        )

    def test_pictures_in_other_sizes(self) -> None:
        for words, size in (
            ((), (9, 1)),
            (("--scale", "2"), (18, 2)),
            (("--scale", "2", "--quiet"), (18, 2)),
            # 4:3 of 9 dots is nearest to 7 rows.
            (("--aspect",), (9, 7)),
        ):
            self.pictures(*words)
            data = (self.folder / "p" / "0003.png").read_bytes()
            self.assertEqual(png_rows(data)[:2], size, words)

    def test_blocks_of_colour_fit_the_terminal(self) -> None:
        for columns, lines, width in (("4", "24", 4), ("200", "24", 9), ("200", "6", 5)):
            with mock.patch.dict(os.environ, COLUMNS=columns, LINES=lines):
                output = self.run_text("get 0\nframe\n", "--show")[1]
            shown = [line.count("\u2580") for line in output.splitlines() if "\u2580" in line]
            self.assertEqual(set(shown), {width})

    def test_a_terminal_that_does_not_say_that_it_has_the_colours_is_told_of(self) -> None:
        words = parser().parse_args(["run", "s.vga", "--show"])
        for is_terminal, colours, pictures, is_told in (
            (True, "", 1, True),
            (True, "truecolor", 1, False),
            (True, "", 0, False),
            (False, "", 1, False),
        ):
            tally = mock.Mock(pictures=pictures, differing=lambda: ())
            with (
                mock.patch("sys.stdout.isatty", lambda: is_terminal),
                mock.patch("zaklimot.commands.report.modes.say") as say,
                mock.patch.dict(os.environ, COLORTERM=colours),
            ):
                StepList(words, mock.Mock(), mock.Mock()).end(tally)
            self.assertEqual(say.called, is_told, (is_terminal, colours, pictures))

    def test_the_line_of_a_terminal_is_taken_away_before_a_step_is_shown(self) -> None:
        words = parser().parse_args(["run", "s.vga"])
        told: list[str] = []
        progress = mock.Mock(is_wanted=True, clear=lambda: told.append("cleared"))
        with mock.patch("zaklimot.commands.report.modes.write", told.append):
            shown = StepList(words, told.append, progress)
            shown.begin(18)
            for at in (1, 2):
                shown.take(Row(Answer(at, at, "ok"), "out 3C2 1", at), False)
        steps = [f"     {at}      {at}  out 3C2 1           ok\n" for at in (1, 2)]
        self.assertEqual(told[1:], ["cleared", steps[0], "cleared", steps[1]])

    def test_a_dump_that_stands_below_is_met_or_any_will_do(self) -> None:
        def is_wrong(expected: str, *dump: str) -> bool:
            return Row(Answer(1, 1, "a", ("b",)), "show regs", 1, expected, dump).is_wrong

        whole = f"2 lines {LINES_DIGEST}"
        hold(
            self,
            is_wrong,
            (
                (whole, "a", "b", False),
                (whole, "a", "c", True),
                (whole, "a", True),
                ("2 lines...", "a", "c", True),
                ("*", "a", "c", False),
                ("2 lines " + 32 * "0", "a", "b", True),
            ),
        )

    def test_an_expected_answer_of_no_words_is_met_by_none(self) -> None:
        status, output, said = self.run_text("get 0 ; =\n", "--quiet")
        told = "t.vga:1: step 1: GET 0 answers E6, not \n"
        told += "t.vga: 1 step, 0 pictures, 0 of 1 answers as expected\n"
        self.assertEqual((status, output, said), (1, told, ""))


@unittest.skipIf(sys.platform == "win32", "a script is a program on POSIX")
class Stopped(Fake):
    def test_the_state_before_a_step(self) -> None:
        # No step: what the adapter has at power-on. More than there are: at the end.
        want_program()
        path = self.write("one.vga", "out 3C2 63\n")
        for until, misc, steps in (("0", "misc 00", 4), ("1", "misc 63", 5), ("9", "misc 63", 5)):
            words = ("run", path, "--vga", PROGRAM, "--until", until)
            status, told, said = run_tool("zaklimot", *words)
            self.assertEqual((status, said), (0, ""))
            self.assertIn(f"show regs           {misc}\n", told.decode())
            self.assertTrue(told.decode().endswith(f"\n{steps} steps, 0 pictures\n"), told)

    def test_scripts_without_a_step(self) -> None:
        want_program()
        for name, data in (("t.vga", b"; nothing\n"), ("empty.vga", b""), ("t.bin", b"VGAS\x01")):
            words = ("run", self.write(name, data), "--vga", PROGRAM, "--pictures", "none")
            done = run_tool("zaklimot", *words, prepare=lambda: os.chdir(self.folder))
            self.assertEqual(done, (0, b"0 steps, 0 pictures\n", ""), name)
        # The state of bytes is as that of a text.
        told = run_tool("zaklimot", *words[:4], "--until", "3")[1].decode().splitlines()
        self.assertEqual([line.split()[:3] for line in told[1:2]], [["1", "show", "regs"]])
        self.assertEqual(told[-1], "4 steps, 0 pictures")


class Written(Fake):
    """Answers that are written into a script."""

    def blessed(self, text: str) -> tuple[str, str]:
        """What is told, and the script then."""
        status, output, said = self.run_text(text, "--bless")
        self.assertEqual((status, said), (0, ""))
        return output, (self.folder / "t.vga").read_text()

    def test_a_script_of_which_nothing_changes_stays_the_file_that_it_is(self) -> None:
        path = self.write("t.vga", "get 0 ; = E6\nout 3C2 1\n")
        before = os.stat(path).st_ino
        self.assertEqual(self.run_script("--bless", path=path)[1], f"{path}: 0 answers written\n")
        self.assertEqual(os.stat(path).st_ino, before)

    def test_columns_and_comments_stay(self) -> None:
        one = "t.vga:1: nothing -> E6\nt.vga: 1 answer written\n"
        dump = f"t.vga:1: 3 lines -> 2 lines {LINES_DIGEST}\nt.vga: 1 answer written\n"
        new = f"show regs ; = 2 lines {LINES_DIGEST}\n;| a\n;| b\n"
        hold(
            self,
            self.blessed,
            (
                ("get 0\t; why\n", (one, "get 0\t; = E6 ; why\n")),
                ("get 0   ;why", (one, "get 0   ; = E6 ; why")),
                ("get 0 ; why ; = 55", (one, "get 0 ; = E6 ; why ; = 55")),
                ("get 0 ;=; why; more", (one, "get 0 ; = E6 ; why; more")),
                # The lines of the old dump go, and no others.
                (
                    "show regs ; = 3 lines\n;| x\n  ;| y\n;| z\n; more\n;| kept\nout 3C2 1\n",
                    (dump, f"{new}; more\n;| kept\nout 3C2 1\n"),
                ),
            ),
        )


JSON_TEXT = "; One.\nget 0 ; = 55\nframe ; = *\nin 60\nshow regs\nout 3C2 1\n"


@unittest.skipIf(sys.platform == "win32", "a script is a program on POSIX")
class Machines(Fake):
    """What machines read."""

    def told(self, *words: str) -> dict[str, object]:
        """The JSON of a run."""
        told: dict[str, object] = json.loads(self.run_text(JSON_TEXT, "--json", "-", *words)[1])
        return told

    def suite(self, path: str) -> ElementTree.Element:
        """The XML of a run of a folder or a script."""
        self.run_script("--junit", "junit.xml", path=path)
        return ElementTree.parse(self.folder / "junit.xml").getroot()

    def test_times_and_reasons_in_the_xml(self) -> None:
        for name, text in (("a\x1b[1m", "get 0\n"), ("b", "move\n"), ("c", "get 0 ; = 55\n")):
            self.write(f"tests/{name}.vga", text)
        suite = self.suite("tests")
        self.assertEqual(suite[0].get("name"), "tests/a?[1m.vga")
        times = [float(one.get("time") or "") for one in (suite, *suite)]
        self.assertAlmostEqual(times[0], sum(times[1:]), delta=0.003)
        # What keeps a script from being run, and not what it has written until then.
        self.assertRegex(
            suite[1][0].get("message") or "", "^zaklimot: tests/b.vga:1: F7 BadLine.1.: there is"
        )
        told = "tests/c.vga:1: step 1: GET 0 answers E6, not 55"
        self.assertEqual(suite[2][0].get("message"), told)

    def test_what_xml_does_not_take_is_no_part_of_it(self) -> None:
        path = self.write("bad.vga", "get 0 ; = \x1b[2J<\ufffe\n")
        (case,) = self.suite(path)
        told = f"zaklimot: {path}:1: no answer of `get` is `?[2J<?`: it answers a byte"
        self.assertTrue((case[0].get("message") or "").startswith(told))
        self.assertTrue((case[0].text or "").startswith(told))
