"""Scripts beside their answers: listings of runs, what a step of one takes, and the benchmarks."""

from __future__ import annotations

import cProfile
import contextlib
import os
import resource
import sys
import unittest
import warnings
from concurrent.futures import ThreadPoolExecutor
from functools import partial
from pathlib import Path
from unittest import mock

from zaklimot.format import Answer
from zaklimot.commands.core.progress import Progress
from zaklimot.commands.report.expecting import is_as_expected
from zaklimot.commands.report.listing import Blessing, Row, chosen
from zaklimot.commands.words import parser

from .running import TEXT, Fake, run
from .tools import hold

NAMES = "out, outw, in, inw, put, putw, get, getw, advance, frame, int, show, version, repeat, end"


@unittest.skipIf(sys.platform == "win32", "a script is a program on POSIX")
class Listings(Fake):
    def test_a_stopped_run_without_all_its_dumps(self) -> None:
        program = self.vga.read_text()
        self.vga.write_text(program.replace("for at in (1, 2, 3, 4)", "for at in (1, 2, 3)"))
        status, _, said = self.run_script("--until", "2")
        told = f"zaklimot: {self.path}: the report ends after 5 of 6 steps\n"
        self.assertEqual((status, said), (2, told))

    def test_the_front_of_an_answer(self) -> None:
        answer = Answer(1, 1, "5F")
        rows = (("5...", True), ("5F...", True), ("...", True), ("6...", False), ("5E...", False))
        for expected, is_met in rows:
            self.assertEqual(is_as_expected(answer, expected, "in 3CC"), is_met, expected)

    def test_a_frame_of_ragged_rows_is_among_the_pictures(self) -> None:
        rows = (("ragged", "FRAME", True), ("ok", "OUT 3C2 1", False))
        for answer, words, is_shown in rows:
            row = Row(Answer(1, 1, answer), words)
            self.assertEqual(chosen("pictures")(row), is_shown, words)

    def test_steps_of_bytes_of_which_some_are_printed(self) -> None:
        self.begin_program("if sys.argv[1] == 'dis': print('IN 3CC'); sys.exit(1)\n")
        path = self.write("s.bin", b"VGAS\x01\nin\nin\n")
        status, output, said = self.run_script(path=path)
        self.assertEqual((status, len(output.splitlines())), (2, 4))
        self.assertIn("s.bin: the program prints none of its steps, so there is no telling", said)

    def test_words_that_fit_in_the_column_stand_whole(self) -> None:
        # The column is as wide as its heading, or as the longest words; but at most 47.
        for length, told in (
            (17, f"GET {'0' * 13}   E6"),
            (18, f"GET {'0' * 14}  E6"),
            (19, f"GET {'0' * 15}  E6"),
            (47, f"GET {'0' * 43}  E6"),
            (48, f"GET {'0' * 41}..  E6"),
            (60, f"GET {'0' * 41}..  E6"),
        ):
            output = self.run_text(f"get {'0' * (length - 4)}\n")[1]
            self.assertEqual(output.splitlines()[1], f"     1      1  {told}", length)

    def test_scripts_and_fonts_of_any_name(self) -> None:
        listed = self.run_script()
        pipe = self.folder / "pipe"
        os.mkfifo(pipe)
        with ThreadPoolExecutor(1) as pool:
            pool.submit(pipe.write_text, TEXT)
            self.assertEqual(self.run_script(path="pipe"), listed)
        for name, data in ((b"s\xff", TEXT), (b"f\xff", "font")):
            Path(os.fsdecode(bytes(self.folder) + b"/" + name)).write_text(data)
        # As the program does, which wants words of UTF-8, and reads the font file.
        self.begin_program(
            "' '.join(sys.argv).encode()\nif '--fonts' in sys.argv: open(sys.argv[4]).close()\n"
        )
        hold(
            self,
            lambda path, *words: self.run_script(*words, path=path, given=TEXT.encode()),
            (
                ("-", listed),
                ("/dev/stdin", listed),
                ("/proc/self/fd/0", listed),
                (b"s\xff", "--fonts", b"f\xff", listed),
            ),
        )

    def test_a_thousand_reasons_are_told_once_and_others_each_time(self) -> None:
        ports = (*range(0x400, 0x7E9), 0x400, 0x7E8)
        output = self.run_text("".join(f"in {port:X}\n" for port in ports))[1]
        told = [output.count(f" decodes port {port:X}.\n") for port in (0x400, 0x7E7, 0x7E8)]
        self.assertEqual(told, [1, 1, 2])

    def test_programs_that_do_not_do_it(self) -> None:
        good = self.vga.read_text().replace("import sys\n", "import os, sys\n", 1)
        fault = "t.vga:2: F7 BadLine(2): refused"
        for text, script, told in (
            (
                good + "sys.exit('the script can\\'t be read')\n",
                TEXT,
                "t.vga: the script can't be read\n",
            ),
            (
                good + "if words[0] == 'go': out.write(b'7 ok\\n')\n",
                TEXT,
                "t.vga: the report goes on after the last step, 6\n",
            ),
            # A signal ends it once all is answered.
            (
                good + "if words[0] == 'go': out.flush(), os.kill(os.getpid(), 9)\n",
                TEXT,
                "t.vga: the program ended without a word\n",
            ),
            ("#!/bin/true", TEXT, "t.vga: the report ends after 0 of 6 steps\n"),
            # A fault may stand in the place of a report.
            *(
                ("import sys\nif sys.argv[1] == 'go': print('F7 BadLine(2)')\n", script, fault)
                for script in ("frame\nint", "; a\n; b\n")
            ),
            (
                good.replace("[:stop], 1)", "[:2], 1)"),
                TEXT,
                "t.vga: the report ends after 2 of 6 steps\n",
            ),
        ):
            self.program("vga", text)
            status, output, said = self.run_text(script)
            self.assertEqual((status, said[: len(told) + 10]), (2, f"zaklimot: {told}"))
        self.assertIn("     4      2  GET A0000 ", output)
        self.assertEqual(
            (self.run_script("--until", "2")[0], self.run_text("; no step\n")[0]), (0, 0)
        )

    def test_long_scripts_take_no_longer_a_step(self) -> None:
        path = self.write("long.vga", "out 3c4 02\n" * 50_000)
        little = partial(resource.setrlimit, resource.RLIMIT_CPU, (30, 30))
        output = run("run", path, "--vga", self.vga, "--only", "50000", prepare=little)[1].decode()
        self.assertEqual(
            output.splitlines()[1:],
            [" 50000  50000  OUT 3C4 02          ok", "50000 steps, 0 pictures"],
        )

    def blessed(self, text: str, *words: str) -> tuple[int, str, str]:
        """Exit status and output of a run that writes answers into a script, and the script
        then."""
        status, output, _ = self.run_text(text, "--bless", *words)
        return status, output, (self.folder / "t.vga").read_bytes().decode()

    def test_a_step_that_answers_otherwise_when_it_is_repeated(self) -> None:
        blessing = Blessing(b"version 2\nrepeat 2\nget 0\nend\n")
        for answer in ("55", "66"):
            blessing.take(Row(Answer(1, 1, answer), "get 0", 3, None, (), "", False))
        self.assertEqual(blessing.text(), "version 2\nrepeat 2\nget 0 ; = *\nend\n")

    def test_a_step_that_is_refused_in_some_turns_alone_may_answer_anything(self) -> None:
        # It is repeated alone, behind another or before another.
        for front, behind in (("", ""), ("get 0\n", ""), ("", "get 0\n")):
            block = f"version 2\nrepeat 2\n{front}out 3D4 0E\n{behind}end\n"
            lines = block.splitlines()
            for answers in (("ok", "E1 NotDecoded"), ("E1 NotDecoded", "ok")):
                blessing = Blessing(f"{block}get 0\n".encode())
                for answer in answers:
                    for number, line in enumerate(lines[2:-1], 3):
                        told = answer if line.startswith("out") else "55"
                        blessing.take(Row(Answer(number, 1, told), line, number))
                blessing.take(Row(Answer(9, 1, "66"), "get 0", len(lines) + 1))
                wanted = block.replace("0E", "0E ; = *").replace("get 0", "get 0 ; = 55")
                self.assertEqual(blessing.text(), f"{wanted}get 0 ; = 66\n")

    def test_of_a_dump_that_is_another_one_each_time_no_lines_are_written(self) -> None:
        blessing = Blessing(b"version 2\nrepeat 2\nshow regs\n;| old\nend\n")
        for last in ("b", "c"):
            blessing.take(Row(Answer(1, 1, "a", (last,)), "show regs", 3))
        self.assertEqual(blessing.text(), "version 2\nrepeat 2\nshow regs ; = *\nend\n")

    def test_a_dump_that_stands_whole(self) -> None:
        whole = (
            "show regs ; = 2 lines dd8c6a395b5dd36c56d23275028f526c ; more\n;| a\n;| b\nget 0 ; ="
            " E6\n"
        )
        self.assertEqual(self.blessed("show regs ; more\n;| old\nget 0 ; = E6\n")[::2], (0, whole))
        good = (0, "t.vga: 2 steps, 0 pictures, 2 of 2 answers as expected\n", "")
        self.assertEqual(self.run_text(whole, "--quiet"), good)
        other = whole.replace(";| b", ";| c")
        status, output, _ = self.run_text(other, "--quiet")
        self.assertEqual((status, output.split("6c: ")[1].splitlines()[0]), (1, "'b', not 'c'"))
        self.run_text(other, "--bless")
        self.assertEqual((self.folder / "t.vga").read_text(), whole)

    def test_lines_of_a_dump_end_as_that_of_its_step(self) -> None:
        text = "show regs ; more\r\n;| old\r\nget 0 ; = E6\n"
        whole = "show regs ; = 2 lines dd8c6a395b5dd36c56d23275028f526c ; more\r\n"
        whole += ";| a\r\n;| b\r\nget 0 ; = E6\n"
        self.assertEqual(self.blessed(text)[::2], (0, whole))
        self.assertEqual(self.blessed(whole)[1:], ("t.vga: 0 answers written\n", whole))


class Calls(Fake):
    """What a step takes doesn't grow unseen: its calls are counted, since seconds are never
    alike."""

    # The Python functions that a plain step, and one that is refused, call at most, and what they
    # call of Python's own.
    MOST = 30

    def calls(self, text: str) -> int:
        """How many calls a run makes with its listing."""
        words = parser().parse_args(["run", self.write("long.vga", text), "--vga", str(self.vga)])
        profile = cProfile.Profile()
        with (
            open(self.folder / "out", "w") as output,
            contextlib.redirect_stdout(output),
            warnings.catch_warnings(),
        ):
            # A tool's process ends at once, and closes its files so.
            warnings.simplefilter("ignore", ResourceWarning)
            profile.runcall(words.job, words, Progress(False))
        return sum(entry.callcount for entry in profile.getstats())  # type: ignore[attr-defined]

    def test_of_a_step(self) -> None:
        with mock.patch("zaklimot.commands.report.listing._wait_for") as waited:
            self.calls("get 0\n")
        waited.assert_called_once()
        for line in ("out 3c4 2\n", "put b8000 55\n", "get 0 ; a comment\n", "in 3da\n"):
            few, many = self.calls(line * 100), self.calls(line * 600)
            with self.subTest(line, calls=(many - few) / 500):
                self.assertTrue(10 < (many - few) / 500 < self.MOST)
