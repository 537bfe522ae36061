"""Floppies: scripts that are read whole, the table and its interpreter, images, records, reports,
and runs."""

from __future__ import annotations

import json
import os
import re
import shutil
import signal
import sys
import time
import unittest
from contextlib import ExitStack, suppress
from dataclasses import replace
from functools import partial
from pathlib import Path
from typing import Callable, Sequence
from unittest import mock

from zaklimot import Card, Refusal
from zaklimot.format import Script, Step
from zaklimot.commands.core.processes import started
from zaklimot_dev.emulators.words import main as emulators
from zaklimot_dev.emulators.table_page import FIRST_MARK, LAST_MARK
from zaklimot.commands.explain.faults import script_of
from zaklimot.commands.core.trouble import Trouble
from zaklimot.commands.floppy import image as images, running
from zaklimot.commands.floppy.image import (
    CODE,
    Run,
    image_for,
    read_image,
    read_record,
    report_lines,
)
from zaklimot.commands.floppy.asked import DOSBOX
from zaklimot.commands.floppy.running import MACHINES
from zaklimot.commands.floppy.table import Table, is_for_machine, reset_steps, table_for
from zaklimot.commands.report.cases import read_cases
from zaklimot.commands.report.places import SUITE

from .floppy import ANSWERS, KEYS, LETTERS, MARK, PAGE, ROW, Machine, cycles, line, machine
from .tools import (
    TOP,
    Folder,
    begin,
    call,
    ended,
    hold,
    hold_undone,
    refused,
    run_tool,
    want_library,
)


run = partial(run_tool, "zaklimot", "floppy")
SCRIPT = b"""version 2
outw 3C4 0F02
in 3CC
put A0000 5A
getw AFFFF ; the last address of a segment
repeat 3
inw 3CE
frame
end
in 3DA
int ax=0300 bx=0102
int ax=1017 bx=00FE cx=2 dx=77
int ax=1302 bx=F cx=3 dx=101 block 414243
out 3C3 00
advance 7
get A0000
"""
REPORT = b"""1 ok
2 CC
3 ok
4 FF00
5 CFCE
6 skipped
7 CFCE
8 skipped
9 CFCE
10 skipped
11 skipped
12 ax=0300 bx=0102 cx=1234 dx=1234
13 ax=1017 bx=00FE cx=0002 dx=0077 block 000102030405
14 ax=1302 bx=000F cx=0003 dx=0101
15 skipped
16 skipped
17 5A
"""


def fill(card: Card) -> None:
    """Gives all memory and the registers other values than at power-on."""
    card.int10(0x0012)
    card.fill(0xA0000, 0x78, 0x10000)
    card.get(0xA0000)
    card.out(0x3C8, 0)
    for _ in range(768):
        card.out(0x3C9, 0x15)
    card.out(0x3C6, 0x54)
    card.out_word(0x3D4, 0x0011)
    for port, count, others in (
        (0x3D4, 25, {0x14: 0x15, 0x17: 0x53}),
        (0x3CE, 9, {5: 0x55 & ~0x20}),
    ):
        for index in range(count):
            card.out_word(port, others.get(index, 0x55) << 8 | index)
    for index in range(21):
        card.out(0x3C0, index)
        card.out(0x3C0, 0x15)
    card.out(0x3C0, 5)


def take(card: Card, kind: str, numbers: Sequence[int]) -> None:
    """Has a card take a cycle, which it may refuse."""
    with suppress(Refusal):
        if kind == "out":
            card.out(*numbers)
        elif kind == "put":
            card.put(*numbers)
        else:
            (card.inp if kind == "in" else card.get)(numbers[0])


class Interpreting(unittest.TestCase):
    def test_a_script_step_by_step(self) -> None:
        booted = machine(SCRIPT)
        self.assertEqual(b"".join(report_lines(read_image(booted.image, "image"), "image")), REPORT)
        record = b"noise\r\n" + b"".join([*booted.record[:-1], line("P", 4096), booted.record[-1]])
        self.assertEqual(b"".join(report_lines(read_record(record, "record"), "record")), REPORT)

    def test_the_bytes_of_the_table(self) -> None:
        steps = table_for({"ab": script_of(SCRIPT, "script")})[16:].partition(reset_steps())[2]
        self.assertEqual(
            steps.hex(" "),
            (
                "0f 03 02 61 62 02 c4 03 02 0f 03 cc 03 05 00 a0 00 00 5a 08 ff af 0f 00 0d 03 00"
                " 04 ce 03 0a 01 00 0e 0b da 03 00 09 00 03 02 01 00 00 00 00 00 00 00 00 00 09 17"
                " 10 fe 00 02 00 77 00 04 06 00 00 00 09 02 13 0f 00 03 00 01 01 02 00 00 03 00 41"
                " 42 43 0a 01 00 0a 01 00 07 00 a0 00 00 00"
            ),
        )

    def test_nothing_but_the_adapter_is_touched(self) -> None:
        harmful = (
            b"out 3BF 1\nout 3BC 1\noutw 3BB 1\noutw 3C2 1\noutw 3DF 1\nin 3BC\nout 3F2 0\nout CF9"
            b" 6\noutw FFFF 1\nputw 9FFFF 1\nputw BFFFF 1\nput C0000 1\nput 7C00 1\nget"
            b" FFFFFFFF\nint ax=1017 bx=1 cx=100\nint ax=1017 cx=FFFF\n"
        )
        self.assertEqual(cycles(harmful), [])
        self.assertEqual(
            cycles(b"out 3B0 1\nout 3BB 1\nout 3C0 1\nout 3DF 1\nput BFFFF 1\nget A0000\n")[-1],
            ("get", 0xA0000),
        )

    def test_before_the_first_step_the_adapter_is_as_at_power_on(self) -> None:
        want_library()
        for script, last in (
            (b"frame\n", 0x00),
            (b"int ax=3\n", 0x03),
            (b"version 2\nrepeat 2\nint ax=3\nend\n", 0x03),
        ):
            found = machine(script).cycles
            self.assertEqual(found[0], ("int", 3, 0, 0, 0, 0, b""))
            with Card() as wanted, Card() as card:
                # Two registers are left otherwise; and before, all have another value.
                wanted.out(0x3C2, last)
                wanted.out_word(0x3C4, 0x0300)
                fill(card)
                for kind, *numbers in found[1 : found.index(("begin",))]:
                    take(card, str(kind), [one for one in numbers if isinstance(one, int)])
                for part in ("registers", "palette", "latches"):
                    self.assertEqual(getattr(card, part)(), getattr(wanted, part)(), part)
                # What differs isn't shown: the planes are long.
                for plane in range(4):
                    self.assertTrue(card.plane(plane) == wanted.plane(plane), plane)

    @unittest.skipUnless(shutil.which("nasm"), "nasm isn't installed")
    def test_the_bytes_kept_are_those_of_the_source(self) -> None:
        made = ended("nasm", "-f", "bin", CODE.with_suffix(".asm"), "-o", "/dev/stdout", text=False)
        self.assertEqual(made, (0, CODE.read_bytes(), b""))

    def test_the_layout_is_that_of_the_source(self) -> None:
        source = CODE.with_suffix(".asm").read_text("ascii")
        for name, value in (
            ("MARK_SECTOR", images.MARK_AT // 512),
            ("ANSWER_SECTOR", images.ANSWERS_AT // 512),
            *((ending.name, ending.value) for ending in images.Ending),
            ("INTERPRETER_SIZE", 3072),
            ("HEADER_SIZE", 16),
            ("PARTITIONS", images.PARTITIONS_AT),
            ("ROW_BYTES", ROW),
            ("PAGE_ROWS", PAGE // ROW),
            ("ROW_OF_CHECKS", "0x8000"),
            ("ROW_OF_ALL", "0xffff"),
            ("POLYNOMIAL", "0x1021"),
        ):
            self.assertRegex(source, rf"(?m)^{name} +equ {value}\b")
        for name, letters in (("consonants", LETTERS[0]), ("vowels", LETTERS[1])):
            self.assertRegex(source, rf"(?m)^{name} +db '{letters}'$")
        self.assertIn(f"keys    db '{KEYS}', 0\n", source)
        self.assertEqual(len(CODE.read_bytes()), images.CODE_SIZE)

    def test_a_disk_has_a_table_of_partitions(self) -> None:
        floppy, disk = (
            image_for({"": script_of(SCRIPT, "script")}, "script", is_disk=is_disk)
            for is_disk in (False, True)
        )
        # A floppy tells its form, and a disk none; the code before and behind it is the same.
        self.assertEqual((floppy[11:13], disk[11:62]), (b"\0\2", bytes(51)))
        self.assertEqual(
            (disk[:11], disk[62:440], disk[512:]), (floppy[:11], floppy[62:440], floppy[512:])
        )
        # The signature; a partition from sector 1, that of head 0 and number 2, to sector 2879; and
        # three empty ones.
        one = bytes.fromhex("56474146 0000  80 000200 DA 2D2D00 01000000 3F0B0000")
        self.assertEqual(
            (floppy[440:512], disk[440:512]),
            (bytes(70) + b"\x55\xaa", one + bytes(48) + b"\x55\xaa"),
        )
        self.assertEqual(
            b"".join(report_lines(read_image(Machine(disk).image, "disk"), "disk")), REPORT
        )


class Images(Folder):
    def folder_of_scripts(self, **scripts: str) -> Path:
        for name, text in scripts.items():
            self.write(f"scripts/{name}.vga", text)
        self.write("scripts/list.txt", "".join(f"{name}.vga fonts/zero.fnt\n" for name in scripts))
        return self.folder / "scripts"

    def test_each_has_a_report(self) -> None:
        folder = self.folder_of_scripts(
            one="in 3CC\nframe\n", two="int ax=300\n", three="put A0000 1\n"
        )
        image = self.folder / "image"
        self.assertEqual(run("make", folder, image), (0, b"", ""))
        booted = Machine(image.read_bytes())
        image.write_bytes(booted.image)
        outputs = [
            cycle[2]
            for cycle, after in zip(booted.cycles, booted.cycles[1:])
            if after == ("begin",)
        ]
        self.assertEqual(outputs, [0, 3, 0])
        reports = self.folder / "reports"
        texts = {
            "one.report": b"1 CC\n2 skipped\n",
            "two.report": b"1 ax=0300 bx=0000 cx=1234 dx=1234\n",
            "three.report": b"1 ok\n",
        }
        self.assertEqual(run("read", image, reports), (0, b"", ""))
        self.assertEqual({path.name: path.read_bytes() for path in reports.iterdir()}, texts)
        self.assert_needs_a_folder(image, reports)
        record = self.write("record", b"".join(booted.record[:-2]))
        self.assertEqual(
            run("read", "--serial", "--part", record, self.folder / "part"), (0, b"", "")
        )
        left = [(path.name, path.read_bytes()) for path in (self.folder / "part").iterdir()]
        self.assertEqual(left, [("one.report", b"")])

    def assert_needs_a_folder(self, image: Path, reports: Path) -> None:
        """That the reports of several scripts want a folder that is new or empty."""
        message = (
            f"zaklimot: {image}: it has the answers of 3 scripts: name a folder for their"
            " reports\n"
        )
        self.assertEqual(run("read", image), (2, b"", message))
        message = (
            f"zaklimot: {reports}: the folder has files, and none of them is to be lost: give one"
            " that is new or empty\n"
        )
        self.assertEqual(run("read", image, reports), (2, b"", message))

    def test_a_report_lies_where_its_script_lay(self) -> None:
        # The last ending alone tells text from bytes.
        script = {"host/one.two": script_of(b"in 3CC\n", "one"), "three": script_of(b"", "three")}
        image, reports = self.folder / "image", self.folder / "reports"
        self.write("scripts/host/one.two.vga", "in 3CC\n")
        self.write("scripts/three.bin", b"VGAS\1")
        self.write(
            "scripts/list.txt", "host/one.two.vga fonts/zero.fnt\nthree.bin fonts/zero.fnt\n"
        )
        self.assertEqual(run("make", self.folder / "scripts", image), (0, b"", ""))
        self.assertEqual(image.read_bytes(), image_for(script, "all"))
        image.write_bytes(Machine(image.read_bytes()).image)
        self.assertEqual(run("read", image, reports), (0, b"", ""))
        self.assertEqual((reports / "host" / "one.two.report").read_bytes(), b"1 CC\n")
        self.assertEqual((reports / "three.report").read_bytes(), b"")

    def test_all_registers_of_each_script(self) -> None:
        # Function 0F answers in AX and BX.
        scripts = {name: script_of(b"int ax=0F00\n", name) for name in ("one", "two")}
        image = self.folder / "image"
        image.write_bytes(Machine(image_for(scripts, "it")).image)
        for number, words in enumerate(((), ("--all-registers",))):
            reports = self.folder / f"reports{number}"
            self.assertEqual(run("read", *words, image, reports), (0, b"", ""))
            rest = b"cx=1234 dx=1234" if words else b"cx=0000 dx=0000"
            for name in scripts:
                told = (reports / f"{name}.report").read_bytes()
                self.assertEqual(told, b"1 ax=DEAD bx=1234 %b\n" % rest)

    def test_one_alone_has_a_folder_too(self) -> None:
        image = self.folder / "image"
        image.write_bytes(Machine(image_for({"one": script_of(b"in 3CC\n", "one")}, "one")).image)
        self.assertEqual(
            (run("read", image), run("read", image, self.folder / "alone")),
            ((0, b"1 CC\n", ""), (0, b"", "")),
        )
        self.assertEqual((self.folder / "alone" / "one.report").read_bytes(), b"1 CC\n")

    def test_each_may_have_as_many_steps_as_a_script(self) -> None:
        scripts = {name: script_of(b"in 3CC\nin 3CC\n", name) for name in ("one", "two")}
        table = Table(table_for(scripts), "it")
        with mock.patch("zaklimot.commands.floppy.table.MOST_STEPS", 2):
            self.assertEqual([name for name, _ in table.scripts()], ["one", "two"])
        with mock.patch("zaklimot.commands.floppy.table.MOST_STEPS", 1):
            self.assertRaisesRegex(Trouble, "none that `zaklimot floppy` makes", table.scripts)

    def test_a_bad_one_is_named(self) -> None:
        folder = self.folder_of_scripts(one="frame\n", two="move\n")
        hold_undone(
            self,
            run("make", folder, self.folder / "image"),
            rf"^zaklimot: {folder}/two.vga:1: F7 BadLine\(1\): ",
        )

    def test_the_registers_in_which_each_service_answers(self) -> None:
        # The machine of these tests leaves DEAD in AX, and 1234 in the others.
        hands = "bx=1 cx=2 dx=3"
        answered = {
            "0001 0101 0201 0501 0601 0701 0901 0A01 0C01 0E01 1003 1103 1301": "",
            "0300 1015": "cd",
            "0800 0D00": "a",
            "0F00 1A00": "ab",
            "1200": "abc",
            "1007 1008 1019 101A": "b",
            "1B00": "abcd",
        }
        for numbers, letters in answered.items():
            for ax in numbers.split():
                given = (int(ax, 16), 1, 2, 3)
                left = (0xDEAD, 0x1234, 0x1234, 0x1234)
                wanted = [
                    f"{letter}x={(left if letter in letters else given)[at]:04X}"
                    for at, letter in enumerate("abcd")
                ]
                run = read_image(machine(f"int ax={ax} {hands}\n".encode()).image, "it")
                (line,) = report_lines(run, "it")
                with self.subTest(ax):
                    self.assertEqual(line.decode().split()[1:5], wanted)

    def test_a_name_of_a_file_elsewhere(self) -> None:
        for name in ("../one", str(self.folder / "one")):
            image = image_for({name: Script(), "two": Script()}, "it")
            path = self.write("image", Machine(image).image)
            said = (
                f"zaklimot: {path}: a script has the name of a file outside of a folder:"
                f" '{name[:40]}'\n"
            )
            self.assertEqual(run("read", path, self.folder / "reports"), (2, b"", said))
            self.assertFalse((self.folder / "reports").exists())

    def test_an_image_is_made_and_read(self) -> None:
        script = self.write("script.vga", SCRIPT)
        image = self.folder / "image"
        self.assertEqual(run("make", script, image), (0, b"", ""))
        for options, byte in ((), 0x00), (("--disk",), 0x80):
            made = run("make", *options, "-", "-", given=SCRIPT)[1]
            self.assertEqual(
                (made[64], made[446], made == image.read_bytes()), (0, byte, not options)
            )
        image.write_bytes(Machine(image.read_bytes()).image)
        self.assertEqual(run("read", image), (0, REPORT, ""))
        self.assertEqual(
            run("read", "-", self.folder / "report", given=image.read_bytes()), (0, b"", "")
        )
        self.assertEqual((self.folder / "report").read_bytes(), REPORT)

    def test_a_script_that_is_too_long_for_a_machine(self) -> None:
        for script, message in (
            (
                b"out 3C4 02\n" * 110_000,
                (
                    f"standard input: its steps take {440_004 + len(reset_steps()):,} bytes, and a"
                    " machine has room for 422,896\n"
                ),
            ),
            (
                b"version 2\nrepeat 65535\nin 3CC\nend\nin 3CC\n",
                (
                    "standard input: its answers take 65,536 bytes, and a machine has room for"
                    " 65,535\n"
                ),
            ),
        ):
            self.assertEqual(
                run("make", "-", self.folder / "image", given=script),
                (2, b"", "zaklimot: " + message),
            )
        self.assertEqual(list(self.folder.iterdir()), [])

    def test_what_a_machine_has_room_for(self) -> None:
        # Of a call's block each byte takes one of its room, of which all is taken, and one more.
        def call_of(length: int) -> Step:
            return Step("int", (0x1302, 0, 0, 0), bytes(length))

        room = 422_896 - (len(table_for({"": Script((call_of(0),) * 7)})) - 16)
        for more, told in ((0, ""), (1, "it: its steps take 422,897 bytes, and a machine has")):
            lengths = [65_520] * 6 + [room - 6 * 65_520 + more]
            script = Script(tuple(map(call_of, lengths)))
            if told:
                self.assertIn(told, refused(image_for, {"": script}, "it"))
            else:
                self.assertEqual(len(image_for({"": script}, "it")), images.IMAGE_SIZE)
        answers = script_of(b"version 2\nrepeat 65535\nin 3CC\nend\n", "it")
        self.assertEqual(len(image_for({"": answers}, "it")), images.IMAGE_SIZE)
        self.assertEqual(len(Table(table_for({255 * "n": answers}), "it").scripts()), 1)
        told = refused(table_for, {256 * "n": answers})
        self.assertEqual(told, f"{256 * 'n'}: the name of a script has at most 255 bytes")
        # A longer block is passed over.
        for length, is_taken in ((0xFFF0, True), (0xFFF1, False)):
            self.assertEqual(is_for_machine(call_of(length)), is_taken)


class Left(Folder):
    def setUp(self) -> None:
        super().setUp()
        self.image = machine(SCRIPT).image

    def trouble(self, read: Callable[[bytes, str], Run], data: bytes) -> str:
        return refused(lambda: list(report_lines(read(data, "it"), "it")))

    def changed(self, at: int, byte: int) -> bytes:
        return self.image[:at] + bytes([byte]) + self.image[at + 1 :]

    def test_images_that_are_damaged(self) -> None:
        hold(
            self,
            partial(self.trouble, read_image),
            (
                (b"", "it: it is no image of `zaklimot floppy`"),
                (bytes(len(self.image)), "it: it is no image of `zaklimot floppy`"),
                (self.image[:ANSWERS], "it: its answers are damaged"),
                (
                    self.image[: ANSWERS - 1],
                    f"it: the image is cut off: it has {ANSWERS - 1:,} bytes of 1,474,560",
                ),
                (
                    image_for({"": script_of(SCRIPT, "script")}, "script"),
                    "it: no run has ended: the machine has not written its mark",
                ),
                (
                    self.changed(MARK, 0),
                    "it: no run has ended: the machine has not written its mark",
                ),
                (
                    self.changed(MARK + 12, self.image[MARK + 12] ^ 1),
                    "it: its answers are those of another script",
                ),
                (
                    self.changed(ANSWERS + 3, self.image[ANSWERS + 3] ^ 1),
                    "it: its answers are damaged",
                ),
                (self.changed(MARK + 8, 39), "it: its answers are damaged"),
                (
                    self.changed(MARK + 9, 0x80),
                    "it: it has 32,808 bytes of answers, and its steps have 40",
                ),
            ),
        )

    def test_tables_that_are_damaged(self) -> None:
        hold(
            self,
            partial(self.trouble, read_image),
            (
                (self.changed(512 * 7, 0), "it: it holds no table of steps of `zaklimot floppy`"),
                (
                    self.changed(512 * 7 + 4, 2),
                    "it: its table is of version 2, and this tool reads version 1",
                ),
                (self.changed(512 * 7 + 20, 0x77), "it: its table of steps is damaged"),
                (self.changed(512 * 7 + 11, 0x77), "it: its table of steps is damaged"),
            ),
        )

    def test_fewer_answers_than_steps(self) -> None:
        run = Run(read_image(self.image, "it").table, b"\1")
        self.assertEqual(
            refused(lambda: list(report_lines(run, "it"))), "it: it has no answer for step 4"
        )

    def test_records_that_are_damaged(self) -> None:
        lines = machine(SCRIPT).record
        at = next(at for at, line in enumerate(lines) if line.startswith(b"A"))
        # The first of the lines is an empty one too.
        hold(
            self,
            lambda lines: self.trouble(read_record, b"".join(lines)),
            (
                ([b"nothing\n"], "it: it holds no record of `zaklimot floppy`"),
                (
                    [*lines[:at], lines[at].replace(b"CC", b"CD"), *lines[at + 1 :]],
                    f"it:{at + 2}: the line's sum is wrong: bytes were lost on their way",
                ),
                (
                    lines[:at] + lines[at + 1 :],
                    f"it:{at + 2}: bytes from 0 on are to come, and not from 16 on",
                ),
                (
                    [*lines[:at], b"A 0000\r\n", *lines[at + 1 :]],
                    f"it:{at + 2}: no line of a record: 'A 0000'",
                ),
                (lines[:5], "it: its table of steps is damaged"),
                (
                    lines[: at + 2] + lines[at + 3 :],
                    "it: the end of the record tells of other answers",
                ),
                (
                    [*lines[:-1], line("E", 40, bytes(2))],
                    "it: the end of the record tells of other answers",
                ),
            ),
        )

    def test_the_last_of_two_records_counts(self) -> None:
        record = b"".join(machine(b"in 3CC\n").record)[:-40] + b"".join(machine(SCRIPT).record)
        self.assertEqual(b"".join(report_lines(read_record(record, "it"), "it")), REPORT)

    def test_a_record_that_ends_too_early(self) -> None:
        # Of three lines of answers the first came.
        path = self.write("record", b"".join(machine(b"in 3CC\n" * 40).record[:-3]))
        message = (
            f"zaklimot: {path}: the record ends before the run did: 16 of 40 bytes of answers"
            " came; --part gives the report so far\n"
        )
        self.assertEqual(run("read", "--serial", path), (2, b"", message))
        report = b"".join(b"%d CC\n" % number for number in range(1, 17))
        self.assertEqual(run("read", "--serial", "--part", path), (0, report, ""))
        # One that is whole is given whole, from standard input too.
        whole = b"".join(machine(SCRIPT).record)
        for words in ((), ("--part",)):
            self.assertEqual(run("read", "--serial", *words, "-", given=whole), (0, REPORT, ""))
        told = "zaklimot: standard input: its table of steps is damaged\n"
        self.assertEqual(run("read", "--serial", "-", given=whole[:200]), (2, b"", told))

    def test_registers_in_which_nothing_is_answered(self) -> None:
        with_all = b"".join(report_lines(read_image(self.image, "it"), "it", True)).splitlines()
        self.assertEqual(with_all[11], b"12 ax=DEAD bx=1234 cx=1234 dx=1234")
        self.assertEqual(with_all[12], b"13 ax=DEAD bx=1234 cx=1234 dx=1234 block 000102030405")
        # The same is told by the option, of an image and of a record.
        path = self.write("image", self.image)
        report = b"".join(line + b"\n" for line in with_all)
        self.assertEqual(run("read", "--all-registers", path), (0, report, ""))
        record = b"".join(machine(SCRIPT).record)
        words = ("read", "--all-registers", "--serial", "-")
        self.assertEqual(run(*words, given=record), (0, report, ""))


@unittest.skipUnless(
    Path("/proc/self/stat").exists(), "processes are looked at as Linux shows them"
)
class Runs(Folder):
    def setUp(self) -> None:
        super().setUp()
        self.scratch = self.temporary()

    def path_with(self, *lines: str) -> str:
        """A path of programs in which dosbox does this, or what a machine with the script does; and
        goes on."""
        after = self.write("after", machine(SCRIPT).image)
        text = "\n".join(["#!/bin/sh", *(lines or [f"cat {after} > script.img"]), "sleep 600"])
        program = self.program("bin/dosbox", text)
        return f"{Path(program).parent}:{os.environ['PATH']}"

    def run_on(
        self, *words: str, path: str, script: str = SCRIPT.decode()
    ) -> tuple[int, bytes, str]:
        with mock.patch.dict(os.environ, PATH=path, TMPDIR=self.scratch):
            return run("run", "--on", "dosbox", self.write("script.vga", script), *words)

    def test_a_report_comes_back(self) -> None:
        self.assertEqual(self.run_on(path=self.path_with()), (0, REPORT, ""))
        status, report, said = self.run_on("--all-registers", path=self.path_with())
        self.assertEqual((status, said), (0, ""))
        self.assertIn(b"\n12 ax=DEAD bx=1234 cx=1234 dx=1234\n", report)
        path = self.folder / "report"
        self.assertEqual(self.run_on(str(path), path=self.path_with()), (0, b"", ""))
        self.assertEqual(path.read_bytes(), REPORT)

    def test_a_folder_that_is_not_there_is_told_before_the_run(self) -> None:
        told = f"zaklimot: {self.folder}/none: there is no such folder\n"
        done = self.run_on(f"{self.folder}/none/report", path=str(self.folder))
        self.assertEqual(done, (2, b"", told))

    def test_a_full_disk_beneath_the_run(self) -> None:
        given = {"PATH": self.path_with(), "TMPDIR": self.scratch}
        # A module that Python compiles under the limit would be kept cut short, for other tests.
        environment = {**os.environ, **given, "PYTHONDONTWRITEBYTECODE": "1"}
        words = (
            "sh",
            "-c",
            'ulimit -f 100 && exec "$@"',
            "sh",
            sys.executable,
            TOP / "zaklimot",
            "floppy",
        )
        done = ended(*words, "run", "--on", "dosbox", "-", input="frame\n", env=environment)
        hold_undone(self, done, r"^zaklimot: .*/script.img: File too large\n$")

    def test_emulators_that_do_not_do_it(self) -> None:
        hold(
            self,
            lambda what, *words: self.run_on(
                *words, path=str(self.folder) if what is None else self.path_with(what)
            ),
            (
                (
                    r"printf 'no such\007 part\n'; exit 3",
                    (2, b"", "zaklimot: dosbox: it ended before the script did: no such part\n"),
                ),
                (
                    "kill -SEGV $$",
                    (
                        2,
                        b"",
                        "zaklimot: dosbox: it ended before the script did, by SIGSEGV:"
                        " it said nothing\n",
                    ),
                ),
                (
                    None,
                    (2, b"", "zaklimot: there is no dosbox: Debian's package dosbox has it\n"),
                ),
                (
                    "exit",
                    "--bios",
                    "lgpl",
                    (2, b"", "zaklimot: dosbox has a video BIOS of its own\n"),
                ),
            ),
        )

    def test_the_limit_ends_all_that_was_started(self) -> None:
        told = self.folder / "child"
        path = self.path_with(f"sleep 600 & echo $! > {told}")
        done = self.within(lambda seconds: self.run_on("--seconds", str(seconds), path=path), told)
        hold_undone(
            self, done, r"^zaklimot: dosbox: the script has not ended within \d+ seconds?\n$"
        )
        self.assert_ended(int(told.read_text()))

    def test_the_limit_leaves_out_what_an_emulator_waits(self) -> None:
        (self.folder / "script.img").write_bytes(bytes(images.IMAGE_SIZE))
        process = mock.Mock(pid=1, poll=lambda: None)
        for waiting, least in ((0.0, 0.3), (0.5, 0.8)):
            began = time.monotonic()
            with mock.patch.object(running, "waited", return_value=waiting):
                told = refused(running._wait, MACHINES["dosbox"], process, self.folder, 0.3)
            self.assertEqual(told, "dosbox: the script has not ended within 0.3 seconds")
            self.assertGreaterEqual(time.monotonic() - began, least)

    @unittest.skipUnless(
        Path("/proc/self/schedstat").exists(), "the system doesn't tell how long a process waits"
    )
    def test_how_long_a_process_waits(self) -> None:
        code = "import os, time; os.sched_setaffinity(0, {min(os.sched_getaffinity(0))})\n"
        begun = self.folder / "begun"
        # Of three that want one processor all the time two wait, and one that sleeps doesn't.
        with ExitStack() as stack:
            asleep, *busy = (
                stack.enter_context(started([sys.executable, "-S", "-c", code + rest])).pid
                for rest in (
                    f"open('{begun}', 'w').write('1\\n'); time.sleep(100)",
                    *3 * ["while True: pass"],
                )
            )
            self.wait_for(begun)
            # A busy machine may have let it wait until it slept.
            before = running.waited(asleep)
            began = time.monotonic()
            self.wait_until(lambda: sum(map(running.waited, busy)) > 5)
            # Together they could run for as long as has passed, and no longer.
            self.assertLess(1.3 * (time.monotonic() - began), 5)
            self.assertLess(running.waited(asleep) - before, 1)
        self.assertEqual(running.waited(asleep), 0)

    @unittest.skipUnless(
        sys.platform.startswith("linux"), "Linux alone ends a process with its parent"
    )
    def test_an_emulator_ends_with_a_command_that_is_killed(self) -> None:
        told = self.folder / "child"
        path = self.path_with(f"sleep 600 & echo $! > {told}")
        environment = {**os.environ, "PATH": path, "TMPDIR": str(self.folder)}
        words = ["zaklimot", "floppy", "run", "--on", "dosbox", self.write("script.vga", "frame\n")]
        with begin(*words, env=environment) as process:
            child = self.wait_for(told, process)
            emulators = Path(f"/proc/{process.pid}/task/{process.pid}/children").read_text().split()
            process.kill()
        self.assertEqual(len(emulators), 1)
        self.assert_ended(int(emulators[0]))
        # What the emulator itself has started no signal reaches then.
        os.kill(int(child), signal.SIGKILL)


# Images and records whose table is none, and what is told.
MARKED = (
    "Before.",
    FIRST_MARK,
    "",
    "Compared were dosbox 0.1.",
    "",
    "|  | dosbox |",
    "|---|---|",
    "| cases that agree | 1 |",
    "| cases of which a part or all was skipped, and the rest agrees | 1 |",
    "| cases that differ | 1 |",
    "| cases whose run failed | 1 |",
    "| bytes, words and registers compared | 2,005 |",
    "| of these as expected | 2,003 |",
    "",
    "| Folder: cases that agree, are skipped, differ | dosbox |",
    "|---|---|",
    "| `host/` | 1, 0, 2 |",
    "| `ports/` | 0, 1, 0 |",
    "",
    "| Rule of the suite | Case | dosbox |",
    "|---|---|---|",
    "| The host/one \\| rule. | `host/one` | 020202020202020202020202.., not 03 |",
    "| The host/three \\| rule. | `host/three` | fails |",
    "",
    LAST_MARK,
    "After.",
    "",
)


class Pages(Folder):
    def test_cases_that_a_machine_is_asked_have_answers_of_one_and_fit_an_image(self) -> None:
        page = (TOP / "docs" / "REAL-MACHINES.md").read_text("utf-8")
        named = set(
            re.findall(
                r"`((?:host|words|ports|crtc|attribute|dac|services|heights|graphics)/[a-z0-9-]+)`",
                page,
            )
        )
        self.assertGreater(len(named), 30)
        cases = [case for case in read_cases(str(SUITE)) if case.has_answers_of_machine()]
        scripts = {
            case.name: script_of(case.handed(is_for_machine=True, can_stop=False), case.name)
            for case in cases
        }
        self.assertEqual(named - scripts.keys(), set())
        self.assertIn(f" {len(cases)} of them", page)
        self.assertEqual(len(image_for(scripts, "all")), images.IMAGE_SIZE)

    def write_page(self, results: str) -> tuple[int, str, str]:
        page = Path(self.write("page.md", f"Before.\n{FIRST_MARK}\nold\n{LAST_MARK}\nAfter.\n"))
        status, _, said = call(emulators, "table", page, results)
        return status, page.read_text(), said

    def test_tables_between_the_marks(self) -> None:
        self.patch(
            mock.patch.dict(MACHINES, {DOSBOX: replace(MACHINES[DOSBOX], version=lambda: "0.1")})
        )
        one = {
            "name": "host/one",
            "answer": "differs",
            "answers": 5,
            "differing": 2,
            "answered": f"ax=0001 block {'02' * 13}",
            "expected": "ax=0001 block 03",
        }
        two = {"name": "host/two", "answer": "agrees", "answers": 2000, "differing": 0}
        three = {"name": "host/three", "answer": "failed", "answers": 0, "differing": 0}
        four = {"name": "ports/four", "answer": "skipped", "answers": 0, "differing": 0}
        rules = [
            {
                "rule": f"The {case['name']} | rule.",
                "folder": str(case["name"]).partition("/")[0],
                "cases": [case],
            }
            for case in (one, two, three, four)
        ]
        results = {"command": "zaklimot floppy run --on dosbox {script}", "rules": rules}
        status, page, said = self.write_page(self.write("results", json.dumps(results)))
        self.assertEqual((status, said), (0, ""))
        self.assertEqual(
            page,
            "\n".join(MARKED),
        )

    def test_files_that_are_wrong(self) -> None:
        for name, text in (
            ("none", "{"),
            ("list", "[]"),
            ("lacking", '{"command": "x", "rules": [{"cases": [{}]}]}'),
        ):
            path = self.write(name, text)
            status, page, said = self.write_page(path)
            self.assertEqual(
                (status, said),
                (2, f"vga-emulators: {path}: it isn't what `zaklimot suite --json` prints\n"),
            )
            self.assertIn("\nold\n", page)
        path = self.write("other", '{"command": "my-harness {script}", "rules": []}')
        self.assertEqual(
            self.write_page(path)[2],
            f"vga-emulators: {path}: its command is no `zaklimot floppy run --on` of an emulator\n",
        )
        page = self.write("unmarked.md", "Text.\n")
        hold_undone(
            self,
            call(emulators, "table", page, path),
            f"^vga-emulators: {page}: it lacks the marks: ",
        )
