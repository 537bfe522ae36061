"""Moments of a trace: the cycles up to a second, a number or a screen, and what is told of them.
And the words that name keys."""

from __future__ import annotations

import argparse
import unittest
from typing import Any

from zaklimot.commands.trace.asked import Deed
from zaklimot.commands.trace.moments import Moment, Passed, Steps
from zaklimot.commands.trace.step import ADVANCE, IN, TraceStep
from zaklimot.commands.trace.trace import SCREEN
from zaklimot.commands.trace.words import _deed

from .tools import hold, refused
from .tracing import BEGIN, qemu, texts, trace

# Four writes, the second and the third a second after the first.
SECONDS = b"".join(
    b"%d w p 3C9 %d 1\n" % (time, number)
    for number, time in enumerate((5_000_000, 6_000_000, 6_000_000, 6_000_001))
)
# Writes of which the dots are known, with two screens that were taken, and one that wasn't.
DOTS = b"""0+0 w p 3C2 67 1
1+100 w m A0001 01 1
2+200 frame
3+300 w m A0003 02 1
4+400 frame
5+500 w m A0005 03 1
"""
FIRST, PUTS = "out 3C2 67", [f"put A000{2 * at - 1} 0{at}" for at in (1, 2, 3)]


def up_to(data: bytes, **moment: Any) -> list[str]:
    """The steps up to a moment."""
    return texts(*Steps(trace(data)).up_to(Moment(**moment)))


def advanced(*dots: int) -> list[str]:
    return [f"advance {count}" for count in dots]


class Moments(unittest.TestCase):
    def test_what_stands_at_a_second_is_before_it(self) -> None:
        for at, count in ((0.5, 1), (0.999999, 1), (1, 3), (1.000001, 4), (9, 4)):
            self.assertEqual(len(up_to(SECONDS, at=at)), count, at)
        # Seconds are those after the first cycle, also where this stands at 0.
        begin = BEGIN + b"500000 w p 3C9 1 1\n1200000 w p 3C9 2 1\n"
        for at, count in ((0.4, 1), (1, 2), (1.2, 3)):
            self.assertEqual(len(up_to(begin, at=at)), count, at)

    def test_each_second_that_is_told_names_its_moment(self) -> None:
        passed = Passed()
        passed.take(TraceStep(IN, time=0))
        for micros in (1_001_000, 4_019_000, 4_018_001, 8_038_000, 9_001_000):
            passed.take(TraceStep(IN, time=micros))
            data = BEGIN + b"%d w p 3C9 1 1\n" % micros
            self.assertEqual(len(up_to(data, at=float(passed.told))), 2, passed.told)

    def test_so_many_cycles(self) -> None:
        for count in (1, 3, 4):
            self.assertEqual(len(up_to(SECONDS, cycle=count)), count)
        self.assertEqual(len(up_to(SECONDS)), 4)

        def refusal(count: int) -> str:
            return refused(lambda: up_to(SECONDS, cycle=count))

        self.assertEqual(refusal(5), "trace: it has 4 cycles, and no cycle 5")
        self.assertEqual(refusal(5000), "trace: it has 4 cycles, and no cycle 5,000")

    def test_a_screen_where_dots_are_known(self) -> None:
        """The dot at the end of the frame that was taken is the frame's own."""
        one, two, three = PUTS
        hold(
            self,
            lambda number: up_to(DOTS, screen=number),
            (
                (1, [FIRST, *advanced(100), one, *advanced(199)]),
                (2, [FIRST, *advanced(100), one, *advanced(500), two, *advanced(399)]),
            ),
        )
        whole = [FIRST, *advanced(100), one, *advanced(500), two, *advanced(900), three]
        self.assertEqual(up_to(DOTS), whole)
        told = refused(lambda: up_to(DOTS, screen=3))
        self.assertEqual(told, "trace: `record` took 2 of its screens, and no screen 3")

    def test_two_screens_between_two_cycles(self) -> None:
        data = DOTS.replace(b"3+300 w m A0003 02 1\n", b"")
        one = PUTS[0]
        front = [FIRST, *advanced(100), one]
        self.assertEqual(up_to(data, screen=1), [*front, *advanced(199)])
        self.assertEqual(up_to(data, screen=2), [*front, *advanced(599)])

    def test_a_screen_of_six_dumps(self) -> None:
        mark = SCREEN + b"\n"
        writes = [qemu(f"write 3c9 {number} 1") for number in range(5)]
        data = b"".join([writes[0], writes[1], 6 * mark, writes[2], 5 * mark, writes[3], mark])
        for screen, count in ((1, 2), (2, 3)):
            self.assertEqual(len(up_to(data + writes[4], screen=screen)), count)
        told = refused(lambda: up_to(data, screen=3))
        self.assertEqual(told, "trace: `record` took 2 of its screens, and no screen 3")
        # One that was cut has fewer dumps.
        data += mark + writes[4]
        self.assertEqual(len(up_to(data, screen=3)), 4)

    def test_how_a_moment_is_told(self) -> None:
        def told(*times: int | None) -> str:
            passed = Passed()
            for number, time in enumerate(times, 1):
                passed.take(TraceStep(ADVANCE, time=time, cycle=number))
            return passed.told

        hold(
            self,
            told,
            (
                # The next thousandth: a moment that is told is never before its cycle.
                (0, "0.000"),
                (0, 1, "0.001"),
                (0, 1000, "0.001"),
                (0, 1001, "0.002"),
                (7_000_000, 8_234_000, "1.234"),
                (None, None, "cycle 2"),
                (*[None] * 1234, "cycle 1,234"),
            ),
        )
        self.assertEqual(Passed().seconds, None)

    def test_a_trace_without_times(self) -> None:
        told = refused(lambda: up_to(b"- w p 3C2 67 1\n", at=1.0))
        wanted = "trace: its cycles have no times: --cycle names a moment by its cycles"
        self.assertEqual(told, wanted)
        told = refused(lambda: list(Steps(trace(b"- w p 3C2 67 1\n")).with_frames()))
        self.assertEqual(told, "trace:1: the first cycle has no time, by which frames end")

    def test_polls_that_follow_one_another_are_one(self) -> None:
        data = BEGIN + 3 * b"1 r p 3DA 0 1\n" + b"2 r p 3BA 0 1\n" + b"3 r p 3DA 0 1\n"
        self.assertEqual(up_to(data), [FIRST, "in 3DA", "in 3BA", "in 3DA"])


class Deeds(unittest.TestCase):
    def test_keys_and_their_time(self) -> None:
        hold(
            self,
            _deed,
            (
                ("ret", Deed(None, ("ret",))),
                ("2.5:c,l,s,ret", Deed(2.5, ("c", "l", "s", "ret"))),
                ("ctrl-c", Deed(None, ("ctrl-c",))),
                ("86400:ctrl-alt-delete,kp_5", Deed(86400, ("ctrl-alt-delete", "kp_5"))),
            ),
        )
        self.assertEqual(str(Deed(1.0, ("a", "ctrl-c"))), "the keys a,ctrl-c")
        self.assertEqual(str(Deed(1.0)), "a screen")

    def test_words_that_are_no_keys(self) -> None:
        for word, wanted in (
            ("", "'' is no key of qemu's"),
            ("RET", "'RET' is no key of qemu's"),
            ("a,,b", "'a,,b' is no key of qemu's"),
            ("a,", "'a,' is no key of qemu's"),
            ("-a", "'-a' is no key of qemu's"),
            ("2.5:", "'2.5:' is no key of qemu's"),
            ("x:ret", "'x' .* above 0"),
            (":ret", "'' .* above 0"),
            ("0:ret", "'0' .* above 0"),
            ("1:2:ret", "'1:2' .* above 0"),
        ):
            with self.subTest(word), self.assertRaisesRegex(
                argparse.ArgumentTypeError, f"^{wanted}"
            ):
                _deed(word)
