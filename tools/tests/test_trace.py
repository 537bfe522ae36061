"""Traces: their lines and what they lack, and the steps that their cycles become."""

from __future__ import annotations

import unittest
from functools import partial
from unittest import mock

from zaklimot.commands.trace import trace as reading
from zaklimot.commands.trace.step import IN, OUT, TraceStep, steps_of, without_polls
from zaklimot.commands.trace.trace import MEMORY, PORT, SCREEN, VBE, Call, Cycle

from .test_conversions import SHAPE
from .tools import hold, refused
from .tracing import BEGIN, cycles, listed, qemu, texts, trace, warned


# A trace with calls, dots and frames.
KEPT_DATA = (
    b"0+5 int 0003 0 0 0 ; mode 3\n1+7 w m B8000 41 1\n1+0 w m B8001 7 1\n9+30 frame\n9+20"
    b" frame\n12+4 r p 3DA 1 1\n13+6 r p 3DA 1 1\n14+20000000 int 1301 7 2 0 4142\n15+2"
    b" frame\n"
)
KEPT_CALL = "int ax=0003 bx=0000 cx=0000 dx=0000"
KEPT_OTHER = "int ax=1301 bx=0007 cx=0002 dx=0000 block 4142"
# The last dot of a frame is its own.
KEPT_TIMED = [
    "advance 5",
    KEPT_CALL,
    "advance 7",
    "put B8000 41",
    "put B8001 07",
    "advance 29",
    "frame",
    "advance 19",
    "frame",
    "advance 4",
    "in 3DA",
    "advance 6",
    "in 3DA",
    "advance 16777216",
    "advance 3222784",
    KEPT_OTHER,
]
KEPT_PLAIN = [KEPT_CALL, "put B8000 41", "put B8001 07", "in 3DA", "in 3DA", KEPT_OTHER, "frame"]
# What is listed of it in each way.
KEPT_LISTED: tuple[tuple[dict[str, object], list[str]], ...] = (
    (
        {"has_time": True, "frames": "screens"},
        [*KEPT_TIMED, "advance 1", "frame", "frame", "frame"],
    ),
    ({"has_time": True}, [*KEPT_TIMED[:5], "advance 54", *KEPT_TIMED[10:], "frame", "frame"]),
    (
        {"has_time": True, "keeps_polls": False},
        [
            *KEPT_TIMED[:5],
            "advance 54",
            "in 3DA",
            "advance 16777216",
            "advance 3222790",
            KEPT_OTHER,
            "frame",
            "frame",
        ],
    ),
    ({}, KEPT_PLAIN),
    ({"frames": "screens"}, [*KEPT_PLAIN[:3], "frame", "frame", *KEPT_PLAIN[3:], "frame"]),
)
# Traces whose calls are none.
KEPT_REFUSED = (
    (
        BEGIN + b"0 int 0003 0 0\n",
        "trace:2: it is no cycle: `TIME r|w p|m ADDRESS VALUE SIZE` is one",
    ),
    (
        BEGIN + b"0 int 10003 0 0 0\n",
        "trace:2: it is no cycle: `TIME r|w p|m ADDRESS VALUE SIZE` is one",
    ),
    (
        BEGIN + b"0 int 0003 0 0 0 123\n",
        "trace:2: it is no cycle: `TIME r|w p|m ADDRESS VALUE SIZE` is one",
    ),
    (
        BEGIN + b"0 int 0003 0 0 0 " + b"00" * 65536 + b"\n",
        "trace:2: a call's block has 65,535 bytes at most",
    ),
)


# Traces of both forms, and their cycles.
FORM_PLAIN = (
    b"; a comment\n\n12 w p 3c4 302 2 ; map mask\r\n- r m A0000 5 1\n \t13\tw  m b8000"
    b" 0123456789ABCDEF 8"
)
FORMS_OF_CYCLES = (
    *(
        (
            qemu("write 3c4 302 2", name) + qemu("read 3c4 2 1", name),
            [Cycle(True, space, 0x3C4, 0x302, 2, None), Cycle(False, space, 0x3C4, 2, 1, None)],
        )
        for name, space in (
            ("vga", PORT),
            ("cirrus-io", PORT),
            ("vbe", VBE),
            ("vga-lowmem", MEMORY),
            ("cirrus-low-memory", MEMORY),
            ("vga-chain4", MEMORY),
        )
    ),
    # A time stamp of qemu; its other lines and regions are passed over.
    (
        qemu("read 3da 5 1", front="4711@1700000000.000042:"),
        [Cycle(False, PORT, 0x3DA, 5, 1, 1_700_000_000_000_042)],
    ),
    (
        b"qemu: some message\n" + qemu("write 70 f 1", "rtc") + b"\n" + qemu("write 3c2 67 1"),
        [Cycle(True, PORT, 0x3C2, 0x67, 1, None)],
    ),
    (
        FORM_PLAIN,
        [
            Cycle(True, PORT, 0x3C4, 0x302, 2, 12),
            Cycle(False, MEMORY, 0xA0000, 5, 1, None),
            Cycle(True, MEMORY, 0xB8000, 0x123456789ABCDEF, 8, 13),
        ],
    ),
)


def lacking_vbe(index: str, value: str) -> bytes:
    return (
        qemu("write 3c2 67 1")
        + qemu(f"write 1ce {index} 2", "vbe")
        + qemu(f"write 1cf {value} 2", "vbe")
    )


# Traces, and what they are told to lack.
LACKING_BEGIN = "cycle 2 writes first, and not port 3C2: the trace doesn't begin at power-on"
LACKING_ENABLED = "cycle 3 turns VBE on: what follows is no VGA's, and its memory isn't traced"
LACKING_SILENT = (
    "chain 4 with map mask 0F has no cycle of memory, first from cycle 3 on: "
    "qemu traces none there without the plugin"
)
LACKING_CHAINED = BEGIN + b"- w p 3C4 0F02 2\n- w p 3C4 0E04 2\n"
# The plugin logs the memory of VBE too.
LACKING_VESA = qemu("write a0000 1 1", "vga-chain4")
LACKING: tuple[tuple[bytes, list[str]], ...] = (
    (b"- r p 3CC 0 1\n" + BEGIN + b"- w m A0000 1 1\n", []),
    (b"- r p 3CC 0 1\n- w m B8000 1 1\n" + BEGIN, [LACKING_BEGIN]),
    (b"- r p 3CC 0 1\n- w p 3C4 1 1\n" + BEGIN, [LACKING_BEGIN]),
    (lacking_vbe("4", "41"), [LACKING_ENABLED]),
    (
        lacking_vbe("4", "41") + LACKING_VESA * 3,
        [LACKING_ENABLED.replace("its memory isn't traced", "3 cycles of its memory are left out")],
    ),
    (
        lacking_vbe("4", "41")
        + qemu("write 3c4 f02 2")
        + qemu("write 3c4 e04 2")
        + LACKING_VESA
        + qemu("write 3c4 604 2"),
        [LACKING_ENABLED.replace("its memory isn't traced", "1 cycle of its memory is left out")],
    ),
    (
        # Memory that came before is none of VBE.
        qemu("read b8000 41 1", "vga-lowmem") + lacking_vbe("4", "41") + LACKING_VESA,
        [
            LACKING_ENABLED.replace("cycle 3", "cycle 4").replace(
                "its memory isn't traced", "1 cycle of its memory is left out"
            )
        ],
    ),
    (lacking_vbe("4", "40"), []),
    (lacking_vbe("3", "1"), []),
    (LACKING_CHAINED, [LACKING_SILENT]),
    (LACKING_CHAINED + b"- w p 3C4 0604 2\n- w m A0000 1 1\n", [LACKING_SILENT]),
    # Of what is lacking twice, the first is told.
    (LACKING_CHAINED + b"- w p 3C4 0604 2\n- w p 3C4 0E04 2\n", [LACKING_SILENT]),
    (lacking_vbe("4", "41") + qemu("write 1cf 41 2", "vbe"), [LACKING_ENABLED]),
    (
        BEGIN + b"- w p 3C4 4 1\n- w p 3C5 E 1\n- w p 3C4 0F02 2\n",
        [LACKING_SILENT.replace("3 on", "4 on")],
    ),
    (LACKING_CHAINED + b"- w p 3C4 0E04 2\n- w m A0000 1 1\n- w p 3C4 0604 2\n", []),
    (
        # A line that came before chain 4 comes again.
        qemu("write 3c2 67 1")
        + qemu("write b8000 41 1", "vga-lowmem")
        + qemu("write 3c4 f02 2")
        + qemu("write 3c4 e04 2")
        + qemu("write b8000 41 1", "vga-lowmem")
        + qemu("write 3c4 604 2"),
        [],
    ),
    (BEGIN + b"- w p 3C4 0702 2\n- w p 3C4 0E04 2\n", []),
    (
        qemu("write 3c2 67 1")
        + b"x\n"
        + 2 * b"memory_region_ops_wri\n"
        + qemu("write 3c4 2 1")[:-9],
        ["3 lines of cycles are damaged and left out, line 3 first"],
    ),
)


class Lines(unittest.TestCase):
    def test_cycles_of_both_forms(self) -> None:
        hold(self, cycles, FORMS_OF_CYCLES)

    def test_faults(self) -> None:
        none = "it has no cycle, neither of qemu's log nor of the plain form"
        bad = (
            "0 w p 3C4 302/0 x p 3C4 2 1/0 w q 3C4 2 1/0.5 w p 3C4 2 1/0 w p 0x3C4 2 1/0 w p 3C4"
            " 2 1 2".split("/")
        )
        no_cycle = "2: it is no cycle: `TIME r|w p|m ADDRESS VALUE SIZE` is one"
        hold(
            self,
            partial(refused, cycles),
            (
                (data, f"trace:{told}")
                for data, told in (
                    *((BEGIN + f"{line}\n".encode(), no_cycle) for line in bad),
                    (BEGIN + b"0 w p 3C4 2 3\n", "2: a cycle has 1, 2, 4 or 8 bytes, and not 3"),
                    (BEGIN + b"0 w p 3C4 302 1\n", "2: the value 302 has more than 1 byte"),
                    (BEGIN + b"0 w m A0000 10302 2\n", "2: the value 10302 has more than 2 bytes"),
                    (BEGIN + b"0 w p FFFF 302 2\n", "2: there is no port of address FFFF"),
                    (
                        BEGIN + b"0 w m FFFFFFFF 302 2\n",
                        "2: there is no memory of address FFFFFFFF",
                    ),
                    (BEGIN + SCREEN + b"\n", no_cycle),
                    (BEGIN + bytes(1 << 18), "2: the line is longer than any of a trace"),
                    (
                        b";\n0 w p 3C2 67\n" + BEGIN,
                        "2: a line before the first cycle is neither a cycle nor a comment",
                    ),
                    (b"", f" {none}"),
                    (b"; nothing\n", f" {none}"),
                    # The line of a mistake, where no line has a cycle.
                    (b"0 w p 3C2 67\n", f"1: {none}; this line is the first that is no comment"),
                    (b"0 x p 3C2 67 1", f"1: {none}; this line is the first that is no comment"),
                    (
                        b"; good\n\nhello\noh\n",
                        f"3: {none}; this line is the first that is no comment",
                    ),
                )
            ),
        )

    def test_a_front_without_a_cycle_has_an_end(self) -> None:
        front = 3 * b"; none\n"
        # The first cycle may end so many bytes from the begin.
        size = len(front + BEGIN)
        with mock.patch.object(reading, "MOST_BEFORE", size):
            self.assertEqual(len(cycles(front + BEGIN + 100 * front)), 1)
        with mock.patch.object(reading, "MOST_BEFORE", size - 1):
            told = f"it has no cycle in its first {size - 1} bytes"
            self.assertEqual(refused(cycles, front + BEGIN), f"trace: {told}")
            named = refused(cycles, b"; none\nhello\n" + 2 * front)
            self.assertEqual(named, f"trace:2: {told}; this line is the first that is no comment")

    def test_lines_of_blanks_and_small_digits(self) -> None:
        passed = b" \n\r\n\t; a comment\r\n"
        call = b"- int 1301 b 2 0 4a4b\r\n"
        found = cycles(passed + call + passed + BEGIN.replace(b"\n", b"\r\n") + passed)
        self.assertEqual([one.address for one in found], [0, 0x3C2])
        call_found = Call((0x1301, 0x0B, 2, 0), b"JK")
        self.assertEqual((found[0].call, found[0].time), (call_found, None))

    def test_what_a_picture_lacks(self) -> None:
        def lacking(data: bytes) -> str:
            read = trace(data)
            self.assertTrue(list(read.cycles()))
            return read.lacking

        silent = "chain 4 is on, and no memory was recorded since: --chain-4 does so"
        off = b"- w p 3C4 0604 2\n"
        dots = LACKING_CHAINED + b"1+5 r p 3CC 67 1\n"
        hold(
            self,
            lacking,
            (
                (LACKING_CHAINED, silent),
                # What was lacking before is of no picture that comes later.
                (LACKING_CHAINED + off, ""),
                (LACKING_CHAINED + off + b"- w p 3C4 0E04 2\n", silent),
                (dots, ""),
                (lacking_vbe("4", "41"), "VBE is on: what qemu shows is no VGA's"),
            ),
        )

    def test_screens_and_polls_may_come_before_the_first_cycle(self) -> None:
        screen = SCREEN + b"\n"
        found = trace(screen + b"polls 3 of 'vga-trace'\n" + qemu("write 3c2 67 1") + screen)
        self.assertEqual(len(list(found.cycles())), 1)
        self.assertEqual((found.screens, found.polls), ([0, 1], 3))

    def test_lines_that_are_like_those_before(self) -> None:
        """Most lines of a log are looked up by those before them. What is damaged is damaged
        there too, with a time and without."""
        good = "write 3c2 67 1"
        for front in ("", "7@1.000001:"):
            first = qemu(good, front=front)
            self.assertEqual(warned(first * 3), [])
            told = "1 line of cycles is damaged and left out, line 2 first"
            for line in (
                qemu("write 3c2 +7 1", front=front),
                qemu("write 3c2 6_7 1", front=front),
                qemu("write 3g2 67 1", front=front),
                qemu(good, front=front)[:-9] + b"\n",
                qemu(good, front=f"{front}x"),
                qemu(good, front="7@1.00001:"),
                qemu(good, front="7@1.000017@1.000002:"),
            ):
                with self.subTest(line):
                    self.assertEqual(warned(first + line + first), [told])
                    self.assertEqual(len(cycles(first + line + first)), 2)
            for bad, fault in (
                ("write 3c2 167 1", "the value 167 has more than 1 byte"),
                ("write 1ffff 67 1", "there is no port of address 1FFFF"),
            ):
                self.assertIn(f"2: {fault}", refused(cycles, first + qemu(bad, front=front)))
        times = [f"7@{second}.000001:" for second in (1, 2, 3)]
        found = cycles(b"".join(qemu(good, front=front) for front in times))
        self.assertEqual([cycle.time for cycle in found], [1000001, 2000001, 3000001])

    def test_calls_dots_and_frames_that_were_kept(self) -> None:
        hold(self, lambda wanted: listed(KEPT_DATA, **wanted), KEPT_LISTED)
        self.assertEqual(warned(KEPT_DATA), [])
        # A script from the middle begins with steps that do what calls before it have done.
        *before, last = listed(KEPT_DATA, first=6)[:-1]
        self.assertEqual((before[0], last), (KEPT_CALL, KEPT_OTHER))
        hold(self, partial(refused, cycles), KEPT_REFUSED)

    def test_what_a_trace_lacks(self) -> None:
        hold(self, warned, LACKING)
        for times, told in (((2, 1), "1 time"), ((3, 2, 2, 1), "2 times")):
            data = b"".join(b"%d w p 3C2 67 1\n" % time for time in times)
            lacking = [f"the time runs back {told}, which is no pause"]
            self.assertEqual(warned(data, has_time=True), lacking)


class Steps(unittest.TestCase):
    def steps(self, *lines: str) -> list[TraceStep]:
        return list(steps_of(cycles("".join(f"- {line}\n" for line in lines).encode())))

    def test_which_bytes_become_words(self) -> None:
        hold(
            self,
            lambda lines: texts(*self.steps(*lines)),
            (
                (("w m B8000 41 1", "w m B8001 1F 1"), ["putw B8000 1F41"]),
                (("r m B8000 41 1", "r m B8001 1F 1"), ["getw B8000 ; = 1F41"]),
                (
                    (f"w m B800{at} 0{at} 1" for at in range(4)),
                    ["putw B8000 0100", "putw B8002 0302"],
                ),
                # Those that are no word stay.
                (("w m B8001 41 1", "w m B8002 1F 1"), ["put B8001 41", "put B8002 1F"]),
                (("w m B8001 41 1", "w m B8000 1F 1"), ["put B8001 41", "put B8000 1F"]),
                (("w m B8000 41 1", "w m B8003 1F 1"), ["put B8000 41", "put B8003 1F"]),
                (("w m B8000 41 1", "r m B8001 1F 1"), ["put B8000 41", "get B8001 ; = 1F"]),
                (
                    ("w m B8000 41 1", "w p 3C4 2 1", "w m B8001 1F 1"),
                    ["put B8000 41", "out 3C4 02", "put B8001 1F"],
                ),
                (("w m B8000 41 1", "w m B8001 1F00 2"), ["put B8000 41", "putw B8001 1F00"]),
                (
                    ("w m B8000 41 1", "w m B8000 42 1", "w m B8001 43 1"),
                    ["put B8000 41", "putw B8000 4342"],
                ),
                (("w p 3C4 2 1", "w p 3C5 F 1"), ["out 3C4 02", "out 3C5 0F"]),
                (("w m B8000 41 1",), ["put B8000 41"]),
                (("r m B8000 55 2",), ["getw B8000 ; = 0055"]),
                # Wider cycles are words from the first.
                (("w m A0000 44332211 4",), ["putw A0000 2211", "putw A0002 4433"]),
                (("r p 3C4 44332211 4",), ["inw 3C4 ; = 2211", "inw 3C6 ; = 4433"]),
                (
                    ("w m A0001 8877665544332211 8",),
                    ["putw A0001 2211", "putw A0003 4433", "putw A0005 6655", "putw A0007 8877"],
                ),
            ),
        )

    def test_the_time_before_a_wide_cycle_passes_once(self) -> None:
        data = b"0+0 w p 3C2 67 1\n1+100 w m A0000 44332211 4\n2+7 w m A0005 1 1\n"
        words = ["putw A0000 2211", "putw A0002 4433"]
        wanted = ["out 3C2 67", "advance 100", *words, "advance 7", "put A0005 01"]
        self.assertEqual(listed(data, has_time=True), [*wanted, "frame", "frame"])
        # Times that are less than a line are put together across it.
        puts = b"1000 w m A0005 1 1\n1020 w m A0000 44332211 4\n1035 w m A0005 1 1\n"
        wanted = ["advance 28322", "put A0005 01", *words, "advance 991", "put A0005 01"]
        self.assertEqual(listed(SHAPE + puts, has_time=True)[5:], [*wanted, "frame", "frame"])

    def test_vbe_is_left_out_and_separates_nothing(self) -> None:
        lines = (
            qemu("write b8000 41 1", "vga-lowmem")
            + qemu("write 1ce 4 2", "vbe")
            + qemu("write b8001 1f 1", "vga-lowmem")
        )
        self.assertEqual(texts(*steps_of(cycles(lines))), ["putw B8000 1F41"])

    def test_the_memory_of_vbe_is_none_of_a_vgas(self) -> None:
        off = qemu("write 1cf 40 2", "vbe")
        lines = LACKING_VESA + lacking_vbe("4", "41") + LACKING_VESA * 2 + off + LACKING_VESA
        self.assertEqual(
            texts(*steps_of(cycles(lines))), ["put A0000 01", "out 3C2 67", "put A0000 01"]
        )

    def test_rows_of_polls(self) -> None:
        poll, mono, other = (
            TraceStep(IN, 0x3DA, 5),
            TraceStep(IN, 0x3BA, 5),
            TraceStep(IN, 0x3C9, 5),
        )
        steps = [
            poll,
            poll._replace(value=4),
            poll,
            mono,
            mono,
            poll,
            other,
            other,
            poll,
            TraceStep(OUT, 0x3C0, 1),
            poll,
            poll,
        ]
        self.assertEqual(
            list(without_polls(steps)),
            [poll, mono, poll, other, other, poll, TraceStep(OUT, 0x3C0, 1), poll],
        )
        self.assertEqual(
            listed(BEGIN + 3 * b"- r p 3DA 0 1\n"), ["out 3C2 67", *3 * ["in 3DA"], "frame"]
        )
        self.assertEqual(
            listed(BEGIN + 3 * b"- r p 3DA 0 1\n", keeps_polls=False),
            ["out 3C2 67", "in 3DA", "frame"],
        )
