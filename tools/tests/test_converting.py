"""Scripts that traces become: the time that passes in them, their frames and their blocks. And
reports that are held to a trace."""

from __future__ import annotations

import contextlib
import gzip
import hashlib
import os
import subprocess
import unittest
from itertools import product
from typing import Any, Iterable, Optional

from zaklimot.commands.core.trouble import Trouble
from zaklimot.commands.trace import converting
from zaklimot.commands.words import main
from zaklimot.commands.trace.converting import Pauses, Written, folded, with_flips
from zaklimot.commands.trace.step import ADVANCE, FRAME, IN, NAMES, OUT, OUTW, PUT, TraceStep

from .tools import (
    EXAMPLES,
    Folder,
    begin,
    call,
    hold,
    hold_undone,
    patched,
    ppm,
    report,
    run_texts,
    want_program,
)
from .tracing import BEGIN, listed, registers, run, steps_listed, texts, warned


PICTURE = ppm(9, 1, bytes(27))
POLL = TraceStep(IN, 0x3DA)
WRITE = TraceStep(OUT, 0x3C0, 0x20)


class Passing(unittest.TestCase):
    def test_the_dots_of_pauses(self) -> None:
        """Those of `advance` before steps at some times, behind registers that choose the clock."""

        def at(*times: int) -> list[TraceStep]:
            return [TraceStep(IN, 0x3DA, time=time) for time in times]

        hold(
            self,
            lambda _, *steps: [
                step.address for step in Pauses().steps(steps) if step.opcode == ADVANCE
            ],
            (
                (
                    "two pauses, and half a clock",
                    *registers(0x67, 8),
                    *at(0, 1000, 3000),
                    [14_161, 28_322],
                ),
                ("a frame is the most", *registers(0x67, 0), *at(0, 60_000_000), [900 * 449]),
                (
                    "short times are put together",
                    *registers(0x67, 0),
                    *at(0, 10, 20, 29, 30, 59, 60),
                    [849, 849],
                ),
                ("a clock that is not there", *registers(0x6B, 0), *at(0, 1000), [25_175]),
                ("time that runs back", *registers(0x67, 0), *at(2000, 1000, 2000), [28_322]),
                (
                    "the clock before the pause",
                    *registers(0x67, 0),
                    *at(0),
                    TraceStep(OUT, 0x3C2, 0x63, 1000),
                    *at(2000),
                    [28_322, 25_175],
                ),
            ),
        )
        steps = [TraceStep(OUT, 0x3C2, 0x67), *at(0, 1000)]
        self.assertEqual(list(Pauses().steps(steps)), steps)

    def test_dots_that_are_told_have_all_time_before_them(self) -> None:
        times: tuple[tuple[int, Optional[int]], ...] = (
            (0, None),
            (20, None),
            (1000, 500),
            (1015, None),
            (1030, None),
        )
        reads = [TraceStep(IN, 0x3DA, time=time, dots=dots) for time, dots in times]
        steps = Pauses().steps([*registers(0x67, 0), *reads])
        passed = [step.address for step in steps if step.opcode == ADVANCE]
        self.assertEqual(passed, [500, 849])

    def test_time_that_is_asked_for_and_not_there(self) -> None:
        ways: tuple[dict[str, Any], ...] = ({"has_time": True}, {"frames": 0.5})
        for wanted in ways:
            with self.subTest(wanted), self.assertRaisesRegex(
                Trouble, "^trace:1: the first cycle has no time, and time"
            ):
                listed(b"- w p 3C2 67 1\n", **wanted)
            told = ["1 cycle has no time, and comes without a pause"]
            self.assertEqual(warned(BEGIN + b"- r p 3DA 0 1\n", **wanted), told)
            told = ["1,234 cycles have no time, and come without a pause"]
            self.assertEqual(warned(BEGIN + 1234 * b"- r p 3DA 0 1\n", **wanted), told)

    def test_a_frame_before_each_change_of_the_start_address(self) -> None:
        high, low, draw = (
            TraceStep(OUTW, 0x3D4, 0x400C),
            TraceStep(OUTW, 0x3D4, 0x200D),
            TraceStep(PUT, 0xA0000, 1),
        )
        zero, other = TraceStep(OUTW, 0x3D4, 0x000C), TraceStep(OUTW, 0x3D4, 0x400E)

        def flips(steps: list[TraceStep]) -> str:
            """The steps by name, behind that which chooses one of the controller's places."""
            misc = TraceStep(OUT, 0x3C2, 0x66 if steps[0].address == 0x3B4 else 0x67)
            named = [NAMES[step.opcode] for step in with_flips([misc, *steps])]
            return " ".join(named[1:])

        hold(
            self,
            flips,
            (
                ([draw, high, low, draw], "put frame outw outw put"),
                ([draw, low, draw, high], "put frame outw put frame outw"),
                ([high, other, low], "frame outw outw frame outw"),
                # Bytes, and the other place of the controller.
                *(
                    (
                        [
                            TraceStep(OUT, port, 0x0C),
                            TraceStep(OUT, port + 1, 0x40),
                            TraceStep(OUT, port, 0x0D),
                            TraceStep(OUT, port + 1, 0x20),
                        ],
                        "out frame out out out",
                    )
                    for port in (0x3D4, 0x3B4)
                ),
                # No frame where the address stays.
                ([zero, other, zero], "outw outw outw"),
            ),
        )
        flipped = ["out 3C2 67", "frame", "outw 3D4 400C", "frame"]
        self.assertEqual(listed(BEGIN + b"- w p 3D4 400C 2\n", frames="flip"), flipped)

    def test_frames_by_time(self) -> None:
        puts = b"".join(
            b"%d w m A0001 1 1\n" % time
            for time in (400_000, 500_000, 600_000, 5_000_000, 5_400_000)
        )
        names = [NAMES[step.opcode] for step in steps_listed(BEGIN + puts, frames=0.5)]
        # After a silence the time is counted anew.
        wanted = ["out", "put", "frame", "put", "put", "frame", "put", "put", "frame"]
        self.assertEqual(names, wanted)


class Converting(Folder):
    def test_traces_of_each_form(self) -> None:
        data = BEGIN + b"5 r p 3CC 67 1\n"
        lacking = b"- w p 3C4 1 1\n"
        script = b"VGAS\x01" + bytes.fromhex("01 C2 03 67 03 CC 03 0B")
        text = b"out 3C2 67\nin 3CC ; = 67\nframe\n"
        figures = "2 cycles, 3 steps, {} bytes: 1 out, 1 in, 1 frame\n".format
        begins = "cycle 1 writes first, and not port 3C2: the trace doesn't begin at power-on\n"
        hold(
            self,
            lambda given, *words: run(*words, given=given),
            (
                *(
                    (form, "convert", "-", "-", (0, script, figures(13)))
                    for form in (data, gzip.compress(data))
                ),
                (data, "convert", "-", "-", "--text", (0, text, figures(31))),
            ),
        )
        said = run("convert", "-", "-", given=lacking)[2]
        self.assertIn(f"zaklimot: warning: standard input: {begins}", said)
        path = self.folder / "script"
        done = run("convert", self.write("trace", gzip.compress(data)), path)
        self.assertEqual((done, path.read_bytes()), ((0, figures(13).encode(), ""), script))

    def test_too_long_is_told_with_a_number_of_cycles_that_fit(self) -> None:
        long = BEGIN + b"".join(b"- w p 3C4 %X 1\n" % at for at in range(50))
        many = BEGIN + 300 * b"- r p 3DA 0 1\n" + b"- w p 3C4 0 1\n"
        script = str(self.folder / "script")
        for data, limits, most, last in (
            (
                long,
                {"MOST_BYTES": 200, "FOR_THE_END": 64},
                "200 bytes, or means more than 16,777,216 steps",
                32,
            ),
            (
                many,
                {"MOST_STEPS": 200, "FOR_THE_END": 10},
                "16,777,216 bytes, or means more than 200 steps",
                1,
            ),
        ):
            path = self.write("trace", data)
            ways = f"`--to {last}` ends before that, and `--from {last + 1}` goes on after it"
            with self.subTest(most), patched(converting, limits):
                told = f"zaklimot: {path}: the script has more than {most}; {ways}\n"
                self.assertEqual(call(main, "trace", "convert", path, script), (2, "", told))
                self.assertFalse(os.path.exists(script))
                self.assertEqual(
                    call(main, "trace", "convert", path, script, "--to", str(last))[0], 0
                )
                os.unlink(script)

    def test_version_2_where_there_are_blocks_and_they_are_wanted(self) -> None:
        given = BEGIN + 6 * b"- r p 3C9 0 1\n"
        text = b"version 2\nout 3C2 67\nrepeat 6\nin 3C9 ; = 00\nend\nframe\n"
        said = f"7 cycles, 8 steps, {len(text)} bytes, 1 repeat: 6 in, 1 out, 1 frame\n"
        self.assertEqual(run("convert", "-", "-", "--text", given=given), (0, text, said))
        data = b"VGAS\x02" + bytes.fromhex("01C20367 0D0600 03C903 0E 0B")
        said = f"7 cycles, 8 steps, {len(data)} bytes, 1 repeat: 6 in, 1 out, 1 frame\n"
        self.assertEqual(run("convert", "-", "-", given=given), (0, data, said))
        data = b"VGAS\x01" + bytes.fromhex("01C20367" + 6 * "03C903" + "0B")
        self.assertEqual(run("convert", "-", "-", "--no-repeat", given=given)[1], data)


class Endings(Folder):
    def test_a_trace_without_an_end(self) -> None:
        script = self.folder / "script"
        command = begin(
            "zaklimot", "trace", "convert", "-", script, "--to", "3", stdin=subprocess.PIPE
        )
        self.addCleanup(command.communicate)
        self.addCleanup(command.kill)
        assert command.stdin is not None
        with contextlib.suppress(BrokenPipeError):
            for _ in range(1000):
                command.stdin.write(1000 * BEGIN)
        self.assertEqual(
            (command.wait(60), script.read_bytes()),
            (0, b"VGAS\x01" + 3 * b"\x01\xc2\x03\x67" + b"\x0b"),
        )

    def test_a_moment_of_a_trace_without_an_end(self) -> None:
        want_program()
        words = ("text", "-", self.folder / "o.txt", "--cycle", "3")
        command = begin("zaklimot", "trace", *words, stdin=subprocess.PIPE)
        self.addCleanup(command.communicate)
        self.addCleanup(command.kill)
        assert command.stdin is not None
        with contextlib.suppress(BrokenPipeError):
            for _ in range(1000):
                command.stdin.write(1000 * BEGIN)
        self.assertEqual((command.wait(60), self.names()), (0, ["o.txt"]))

    def test_a_compressed_trace_that_is_cut_off(self) -> None:
        for data, cut in product(
            (BEGIN, os.urandom(1000).hex().encode() + b"\n" + BEGIN), (1, 5, 12, 20)
        ):
            path = self.write("trace", gzip.compress(data)[:-cut])
            told = (
                rf"^zaklimot: {path}(:[1-9]\d*: its compressed bytes are damaged after this line|"
                r": its compressed bytes are damaged): .*\n$"
            )
            hold_undone(self, run("convert", path, self.folder / "script"), told)
            self.assertEqual(self.names(), ["trace"])


# The kinds of reads of the trace below; and a trace whose steps are refused.
READ = ("in port 3C5 index 02", "in port 3DA", "get memory A0000", "getw memory A0000")
REFUSING = BEGIN + 2 * b"- w p 3B4 1 1\n- w p 3B5 2 1\n" + b"- r p 3C7 0 1\n"
# What is told of that, and of a read that differs.
REFUSED_BY_KIND = [
    "7 steps, 5 refused, 0 reads answered, 0 differ",
    "  refused         2 E1 NotDecoded: out port 3B4 (first at step 2)",
    "  refused         2 E1 NotDecoded: out port 3B5 index 01 (first at step 3)",
    "  refused         1 E2 NotInProfile: in port 3C7 (first at step 6)",
]
DIFFERING_BY_KIND = [
    "5 steps, 0 refused, 1 read answered, 1 differs",
    "  read            1 in port 3C1 index 10",
    "  differ          1 in port 3C1 index 10 (first at step 4: traced 00, answered 01)",
]


class Checking(Folder):
    # Seven steps: two writes, reads of a register, of status, of a byte and a word of memory, and
    # the frame.
    TRACE = (
        BEGIN
        + b"- w p 3C4 2 1\n- r p 3C5 F 1\n- r p 3DA 4 1\n- r m A0000 E1 1\n- r m A0002 1234 2\n"
    )
    GOOD: tuple[str | bytes, ...] = ("ok", "ok", "0F", "04", "E1", "1234", PICTURE)

    def check(
        self, *answers: str | bytes, given: bytes = TRACE, options: tuple[str, ...] = ()
    ) -> tuple[int, list[str], str]:
        """Exit status, the lines, and what is said of a report with these answers."""
        status, out, said = run(
            "check", self.write("trace", given), "-", *options, given=report(*answers)
        )
        return status, out.decode().split("\n")[:-1], said

    def changed(self, **answers: str | bytes) -> tuple[str | bytes, ...]:
        """The good answers, but of the steps `s1`, `s2` and so on."""
        return tuple(
            answers.get(f"s{number}", answer) for number, answer in enumerate(self.GOOD, 1)
        )

    def test_what_is_counted(self) -> None:
        index, status, *memory = (f"  read            1 {kind}" for kind in READ)
        whole = ["7 steps, 0 refused, 4 reads answered, 0 differ", index, status, *memory]
        frames: tuple[str | bytes, ...] = (
            PICTURE,
            "ragged",
            f"picture {len(PICTURE)} 9x1 {32 * '0'}",
        )
        for frame in frames:
            self.assertEqual(self.check(*self.GOOD[:-1], frame), (0, whole, ""))
        told = "7 steps, 0 refused, 3 reads answered, 0 differ, 1 skipped"
        done = self.check(*self.changed(s5="skipped"))
        self.assertEqual(done, (0, [told, index, status, memory[1]], ""))

    def test_refusals_and_reads_that_differ_are_counted_by_kind(self) -> None:
        answers: tuple[str | bytes, ...] = (
            "ok",
            *4 * ["E1 NotDecoded"],
            "E2 NotInProfile",
            PICTURE,
        )
        self.assertEqual(self.check(*answers, given=REFUSING), (1, REFUSED_BY_KIND, ""))
        given = BEGIN + b"- w p 3C0 10 1\n- w p 3C0 C 1\n- r p 3C1 0 1\n"
        done = self.check(*3 * ["ok"], "01", PICTURE, given=given)
        self.assertEqual(done, (1, DIFFERING_BY_KIND, ""))

    def test_reads_that_differ(self) -> None:
        front, last = "  differ          1", "  read            1 getw memory A0000"
        for answers, told in (
            ({"s4": "35"}, f"{front} in port 3DA (first at step 4: traced 04, answered 35)"),
            (
                {"s6": "0034"},
                f"{front} getw memory A0000 (first at step 6: traced 1234, answered 0034)",
            ),
            # Where the beam is differs from none.
            *(({"s4": answer}, last) for answer in ("05", "0C", "0D")),
        ):
            status, lines, _ = self.check(*self.changed(**answers))
            self.assertEqual((status, lines[-1]), (int(told != last), told))

    def test_so_many_kinds_at_most(self) -> None:
        given = BEGIN + b"- r p 3C4 0 1\n- r p 3CE 0 1\n"
        _, lines, _ = self.check("ok", "01", "01", PICTURE, given=given, options=("--most", "1"))
        self.assertEqual([line.split()[0] for line in lines], ["4", "read", "differ"])

    def test_a_report_of_another_script(self) -> None:
        other = "zaklimot: standard input:{}: it is of another script\n".format
        hold(
            self,
            self.check,
            (
                (*self.GOOD[:-1], (2, [], other(" it ends before step 7, `frame`"))),
                (*self.GOOD, "ok", (2, [], other(" it has more than the 7 steps of the trace"))),
                (
                    *self.changed(s1="00"),
                    (2, [], other("1: step 1 is `out`, and '00' answers none")),
                ),
                (
                    *self.changed(s3="ok"),
                    (2, [], other("3: step 3 is `in`, and 'ok' answers none")),
                ),
                (
                    *self.changed(s3="000F"),
                    (2, [], other("3: step 3 is `in`, and '000F' answers none")),
                ),
                (
                    *self.changed(s7="ok"),
                    (2, [], other("7: step 7 is `frame`, and 'ok' answers none")),
                ),
            ),
        )
        said = "zaklimot: standard input:2: step 2 is to come, and not '3 ok'\n"
        self.assertEqual(
            run("check", self.write("trace", self.TRACE), "-", given=b"1 ok\n3 ok\n"),
            (2, b"", said),
        )

    def test_with_the_options_of_the_script(self) -> None:
        given = BEGIN + 2 * b"0 r p 3DA 0 1\n"
        hold(
            self,
            lambda options, *answers: self.check(*answers, PICTURE, given=given, options=options)[
                0
            ],
            (
                (("--polls", "first"), "ok", "00", 0),
                (("--to", "1"), "ok", 0),
                ((), "ok", "00", 2),
                (("--text",), "ok", "00", "00", 0),
                (("--no-repeat",), "ok", "00", "00", 0),
                # A frame began amid the cycles, and a whole one stands at the end.
                (("--time",), "ok", "00", "00", PICTURE, 0),
            ),
        )


class Example(Folder):
    PATH = EXAMPLES / "typed-line.trace"

    def test_its_picture_and_its_reads_from_several_cycles_on(self) -> None:
        cuts = ("1", "2", "300", "586")
        runs = run_texts(
            {cut: run("convert", self.PATH, "-", "--text", "--from", cut)[1] for cut in cuts}
        )
        for cut, ran in runs.items():
            with self.subTest(cut):
                picture = ran.report[ran.report.index(b"P6") : -1]
                self.assertEqual(
                    hashlib.md5(picture).hexdigest(), "c568c179decaec703a3333f9afda3326"
                )
                path = self.write("report", ran.report)
                status, out, said = run("check", self.PATH, path, "--from", cut)
                self.assertEqual((status, said), (0, ""))
                whole = b"586 steps, 0 refused, 187 reads answered, 0 differ\n"
                self.assertIn(whole if cut == "1" else b" steps, 0 refused, ", out)
                self.assertEqual(run("check", self.PATH, path)[0], 0 if cut == "1" else 2)

    def test_what_it_becomes(self) -> None:
        told = (
            b"586 cycles, 586 steps, 2,810 bytes, 2 repeats: 186 in, 184 putw, 121 outw, 93 out, 1"
            b" getw, 1 frame\n"
        )
        self.assertEqual(run("convert", self.PATH, self.folder / "script"), (0, told, ""))


def lines(steps: Iterable[TraceStep]) -> list[str]:
    return b"".join(map(Written(True).row, folded(steps, TraceStep.text))).decode().splitlines()


class Folding(unittest.TestCase):
    def test_rows_of_equal_steps_and_groups(self) -> None:
        nine = [TraceStep(PUT, 0xA0000 + at, at) for at in range(9)] * 3
        group = nine[:8]
        other = [TraceStep(IN, 0x3C9, value) for value in range(20)]
        hold(
            self,
            lines,
            (
                (
                    [WRITE, *[POLL] * 100, WRITE],
                    ["out 3C0 20", "repeat 100", "in 3DA", "end", "out 3C0 20"],
                ),
                (
                    [POLL, WRITE] * 30 + [POLL],
                    ["repeat 30", "in 3DA", "out 3C0 20", "end", "in 3DA"],
                ),
                (group * 3, ["repeat 3", *texts(*group), "end"]),
                (nine, texts(*nine)),
                # More than are looked at ahead.
                (
                    [POLL, *group * 600, *nine],
                    ["in 3DA", "repeat 601", *texts(*group), "end", *texts(*nine[8:])],
                ),
                # Reads of other values are one row in bytes, and not in text.
                (other, texts(*other)),
            ),
        )
        self.assertEqual([row.times for row in folded(other, TraceStep.data)], [20])

    def test_short_rows_stay(self) -> None:
        # Five polls of three bytes are 15 bytes, and a block of them seven: less than half.
        for step, least in (
            (POLL, 5),
            (WRITE, 4),
            (TraceStep(PUT, 0xA0000), 4),
            (TraceStep(FRAME), 10),
        ):
            with self.subTest(step):
                self.assertEqual(len(lines([step] * (least - 1))), least - 1)
                self.assertEqual(lines([step] * least)[0], f"repeat {least}")

    def test_more_rounds_than_a_block_has(self) -> None:
        rows = list(
            folded(
                [POLL._replace(cycle=number) for number in range(1, 2 * 65535 + 4)], TraceStep.data
            )
        )
        self.assertEqual([row.times for row in rows], [65535, 65535, 1])
        self.assertEqual([len(row.steps) for row in rows], [1, 1, 3])
        self.assertEqual([row.cycle for row in rows], [65535, 131070, 131073])
        self.assertEqual(Written(False).row(rows[0]), bytes.fromhex("0D FFFF 03DA03 0E"))
