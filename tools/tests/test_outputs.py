"""Outputs on standard output: they are the files that stand there otherwise, and nothing is told
among them."""

from __future__ import annotations

import os
import shlex
import stat
import sys
import unittest
from concurrent.futures import ThreadPoolExecutor
from typing import Optional

from zaklimot.commands.core.streams import counted

from .tools import BLACK, EXAMPLES, RED, WHITE, Folder, hold, ppm, run_tool, want_program


# Commands with the place of their output, their status, what is told beside a file, and what is
# told where the output is standard output: None where that is the same.
DIFFER = (
    "  1 of 2 dots differ, the first is dot 1 of row 0: 3F3F3F, not 000000\n",
    "step 1 differs\n"
    "  one:1: picture 16 2x1 adced6a5b6c82272e9b653910d61e040\n"
    "  two:1: picture 16 2x1 b28a2c68ac5287a944f28a57cdf7a52d\n",
)
COMPARED = DIFFER[1] + DIFFER[0]
HELD = f"step 1 and image differ: 2x1, six bits a component\n{DIFFER[0]}"
MOVING = "1 picture, 0.014 seconds\n"
MOVING = "{}: 1 picture, 1.029 seconds\n"
OUTPUTS: tuple[tuple[str, int, str, Optional[str]], ...] = (
    ("pictures one --apng {}", 0, "{}: 1 frame, 0.014 seconds\n", ""),
    ("compare one two --picture {}", 1, COMPARED, None),
    ("compare one image --step 1 --picture {}", 1, HELD, None),
    ("floppy make script {}", 0, "", None),
    ("trace convert trace {}", 0, "2 cycles, 3 steps, 14 bytes: 2 out, 1 frame\n", None),
    ("trace text typed {}", 0, "", None),
    ("trace pictures typed --png {}", 0, "{}\n", ""),
    ("trace pictures timed --apng {}", 0, MOVING, None),
)
# Where no picture is written although one is asked for, and why.
UNWRITTEN = (
    ("compare one one", 0, "no pictures differ"),
    ("compare two image --step 1", 0, "no dots differ"),
    ("compare one large --step 1", 1, "the sizes differ"),
)
NOWHERE = "standard output"


class Outputs(Folder):
    def setUp(self) -> None:
        super().setUp()
        self.report("one", ppm(2, 1, RED + WHITE))
        self.report("two", ppm(2, 1, RED + BLACK))
        self.write("image", ppm(2, 1, RED + BLACK))
        self.write("large", ppm(3, 1, RED + BLACK + BLACK))
        self.write("script", "frame\n")
        self.write("trace", "- w p 3C2 63 1\n- w p 3C4 1 1\n")
        self.write("timed", "0 w p 3C2 63 1\n20000 w p 3C2 63 1\n")
        (self.folder / "typed").symlink_to(EXAMPLES / "typed-line.trace")

    def done(self, words: str) -> tuple[int, bytes, str]:
        """Exit status, output and standard error of a command in the folder."""
        tool, *rest = shlex.split(words)
        return run_tool("zaklimot", tool, *rest, prepare=lambda: os.chdir(self.folder))

    def test_each_is_the_file_that_stands_there_otherwise(self) -> None:
        want_program()
        for words, status, beside, told in OUTPUTS:
            with self.subTest(words):
                name = "o"
                done = self.done(words.format(name))
                self.assertEqual(done, (status, beside.format(name).encode(), ""))
                written = (self.folder / name).read_bytes()
                (self.folder / name).unlink()
                told = beside if told is None else told
                done = self.done(words.format("-"))
                self.assertEqual(done, (status, written, told.format(NOWHERE)))
                self.assertFalse((self.folder / "-").exists())

    @unittest.skipIf(sys.platform == "win32", "there are no named pipes")
    def test_a_named_pipe_stays_one_and_its_reader_gets_all(self) -> None:
        pipe = self.folder / "pipe"
        os.mkfifo(pipe)
        for words, status, _, _ in OUTPUTS[:5]:
            # Both ends are open before, so that no end waits for one that is never opened.
            stream = open(os.open(pipe, os.O_RDONLY | os.O_NONBLOCK), "rb")
            held = os.open(pipe, os.O_WRONLY)
            os.set_blocking(stream.fileno(), True)
            with self.subTest(words), stream, ThreadPoolExecutor(1) as pool:
                reader = pool.submit(stream.read)
                done = self.done(words.format("pipe"))
                os.close(held)
                self.assertTrue(stat.S_ISFIFO(pipe.stat().st_mode))
                wanted = self.done(words.format("-"))
                self.assertEqual((done[0], reader.result(60)), (status, wanted[1]))

    def test_a_picture_that_is_not_written_is_told(self) -> None:
        for words, status, reason in UNWRITTEN:
            for path, name in (("o", "o"), ("-", NOWHERE)):
                done = self.done(f"{words} --picture {path}")
                told = f"zaklimot: {reason}, so {name} isn't written\n"
                self.assertEqual(done[0], status, words)
                self.assertIn(told, done[2])
                self.assertFalse((self.folder / path).exists())

    def test_how_many_there_are(self) -> None:
        hold(
            self,
            counted,
            (
                (0, "step", "0 steps"),
                (1, "step", "1 step"),
                (1234, "step", ",", "1,234 steps"),
                (1.0, "second", "g", "1 second"),
                (0.5, "second", "g", "0.5 seconds"),
                (60.0, "second", "g", "60 seconds"),
            ),
        )
