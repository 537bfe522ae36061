"""What options of `convert`, `check` and `pictures` make together; the figures that are told of a
script, and what is told of steps that were refused or differ."""

from __future__ import annotations

import re

from zaklimot.commands.script.words import FONTS

from .tools import EXAMPLES, Folder, hold, hold_undone, ppm, report, run_program, want_program
from .tracing import BEGIN, listed, run


# The shape of text of 720 by 400 dots, whose clock is 28.322 MHz, and the steps of that.
SHAPE = BEGIN + b"".join(
    b"0 w p %s 2\n" % words for words in (b"3C4 0001", b"3D4 5F00", b"3D4 BF06", b"3D4 1F07")
)
SHAPED = ["out 3C2 67", "outw 3C4 0001", "outw 3D4 5F00", "outw 3D4 BF06", "outw 3D4 1F07"]
# A byte a millisecond later, two polls, a change of the start address, and a byte.
REST = b"""1000 w m A0001 01 1
2000 r p 3DA 00 1
2500 r p 3DA 00 1
3000 w p 3D4 010C 2
3000 w m A0001 02 1
"""
PUT, POLL, FLIP, LAST = "put A0001 01", "in 3DA", "outw 3D4 010C", "put A0001 02"
MILLISECOND = "advance 28322"
TYPED = EXAMPLES / "typed-line.trace"
PICTURE = ppm(9, 1, bytes(27))
REFUSED = {"E1": "E1 NotDecoded", "E2": "E2 NotInProfile"}


class Together(Folder):
    def converted(self, *words: str) -> list[str]:
        """The lines of the script, behind the shape that all of them begin with."""
        status, data, said = run("convert", "-", "-", "--text", *words, given=SHAPE + REST)
        self.assertEqual(status, 0, said)
        lines: list[str] = data.decode().splitlines()
        self.assertEqual(lines[: len(SHAPED)], SHAPED)
        return lines[len(SHAPED) :]

    def test_time_and_frames_and_polls(self) -> None:
        half = "advance 14161"
        hold(
            self,
            self.converted,
            (
                (
                    "--time",
                    [MILLISECOND, PUT, MILLISECOND, POLL, half, POLL, half, FLIP, LAST]
                    + 2 * ["frame"],
                ),
                # What passes before a poll that is left out passes before the next step.
                (
                    *("--time", "--polls", "first"),
                    [MILLISECOND, PUT, MILLISECOND, POLL, MILLISECOND, FLIP, LAST, *2 * ["frame"]],
                ),
                (
                    *("--time", "--polls", "first", "--frames", "flip"),
                    [MILLISECOND, PUT, MILLISECOND, POLL, MILLISECOND, "frame", FLIP, LAST]
                    + 2 * ["frame"],
                ),
                (
                    *("--time", "--polls", "first", "--frames", "0.002"),
                    [MILLISECOND, PUT, MILLISECOND, "frame", POLL, MILLISECOND, FLIP, LAST]
                    + 2 * ["frame"],
                ),
                (
                    *("--frames", "flip", "--to", "9", "--polls", "first"),
                    [PUT, POLL, "frame", FLIP, "frame"],
                ),
                (*("--time", "--to", "6"), [MILLISECOND, PUT, *2 * ["frame"]]),
            ),
        )

    def test_a_part_from_the_middle_has_the_time_and_the_frames_too(self) -> None:
        # What rebuilds the state stands before, and has no frame.
        for words, wanted in (
            (("--time", "--from", "9"), [FLIP, LAST, "frame", "frame"]),
            (("--time", "--from", "8"), [POLL, "advance 14161", FLIP, LAST, "frame", "frame"]),
            (("--frames", "flip", "--from", "8"), [POLL, "frame", FLIP, LAST, "frame"]),
            (("--from", "9"), [FLIP, LAST, "frame"]),
        ):
            data = run("convert", "-", "-", "--text", *words, given=SHAPE + REST)[1].decode()
            self.assertEqual(data.splitlines()[-len(wanted) :], wanted, words)
            self.assertEqual(data.count("frame"), wanted.count("frame"), words)

    def test_frames_of_times_that_are_one(self) -> None:
        # No time is so short that two cycles of one microsecond have a frame between them.
        data = b"".join(b"%d w m A0001 1 1\n" % time for time in (0, 0, 1, 1, 2))
        steps = listed(BEGIN + data, frames=1e-9)
        put = "put A0001 01"
        wanted = ["out 3C2 67", put, put, "frame", put, put, "frame", put, "frame"]
        self.assertEqual(steps, wanted)

    def test_what_asks_for_time_refuses_a_trace_without_it(self) -> None:
        untimed = self.write("untimed", b"- w p 3C2 67 1\n")
        told = f"^zaklimot: {re.escape(untimed)}:1: the first cycle has no time, and time is asked"
        for words in (
            ("convert", untimed, "-", "--time"),
            ("convert", untimed, "-", "--frames", "clock"),
            ("convert", untimed, "-", "--frames", "1"),
            ("check", untimed, self.write("report", report("ok", PICTURE)), "--time"),
            ("pictures", untimed, self.folder / "all"),
            ("pictures", untimed, self.folder / "all", "--beam"),
        ):
            hold_undone(self, run(*words), told)
            self.assertFalse((self.folder / "all").exists())
        self.assertEqual(run("convert", untimed, "-", "--frames", "screens")[0], 0)

    def test_check_takes_the_options_of_convert(self) -> None:
        want_program()
        path_of_trace = self.write("trace", SHAPE + REST + b"30000 w m A0001 03 1\n")
        for words, others in (
            (("--time", "--frames", "flip"), ("--time",)),
            (("--frames", "clock", "--longest", "0.5"), ("--longest", "0.5")),
            (("--frames", "0.001", "--polls", "first", "--to", "9"), ("--frames", "0.001")),
            (("--time", "--from", "7"), ("--time",)),
        ):
            script = self.folder / "script"
            self.assertEqual(run("convert", path_of_trace, script, *words)[0], 0)
            path = self.write("report", run_program("run", script, "--fonts", FONTS).report)
            status, output, said = run("check", path_of_trace, path, *words)
            self.assertEqual((status, said), (0, ""), (words, output))
            self.assertIn(b" 0 refused, ", output)
            # It is of no other script.
            self.assertEqual(run("check", path_of_trace, path, *others)[0], 2, words)
