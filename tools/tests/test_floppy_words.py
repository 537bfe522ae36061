"""What `floppy` makes of files, folders and streams at their limits: scripts of folders, images
that are longer or shorter, and a screen that qemu dumps."""

from __future__ import annotations

import os
import unittest
from functools import partial
from pathlib import Path
from unittest import mock

from zaklimot.commands.explain.faults import script_of
from zaklimot.commands.floppy import running
from zaklimot.commands.floppy.image import (
    Run,
    has_ended,
    image_for,
    read_image,
    read_record,
    report_lines,
)
from zaklimot.commands.floppy.running import PackagedFile
from zaklimot.commands.floppy.table import Table, table_for

from .floppy import ANSWERS, MARK, Machine, line, machine
from .tools import Folder, hold, hold_undone, png_rows, refused, run_tool

run = partial(run_tool, "zaklimot", "floppy")
# qemu with its monitor, as far as a screen is dumped: it leaves an image that has run, and notes
# what it is asked.
QEMU = """import json, os, socket, shutil, time
server = socket.socket(socket.AF_UNIX)
server.bind("qmp")
server.listen()
shutil.copy({image!r}, "after")
os.rename("after", "script.img")
connection, _ = server.accept()
with connection, connection.makefile("rw") as monitor:
    monitor.write('{{"QMP": {{}}}}\\n')
    monitor.flush()
    for line in monitor:
        asked = json.loads(line)
        with open({notes!r}, "a") as notes:
            notes.write(asked["execute"] + " " + asked["arguments"].get("filename", "") + "\\n")
        if asked["execute"] == "screendump":
            open(asked["arguments"]["filename"], "wb").write({dump!r})
        monitor.write('{{"return": {{}}}}\\n')
        monitor.flush()
time.sleep(600)
"""


@unittest.skipUnless(
    Path("/proc/self/stat").exists(), "processes are looked at as Linux shows them"
)
class Dumped(Folder):
    def test_the_screen_that_qemu_dumps(self) -> None:
        image, notes = self.write("left", machine(b"in 3CC\n").image), self.folder / "notes"
        dump = b"P6\n2 1\n255\n" + bytes([0xFF, 0x9A, 0, 3, 4, 0xFC])
        text = QEMU.format(image=image, notes=str(notes), dump=dump)
        self.program("bin/qemu-system-i386", text)
        rom = PackagedFile("seabios", self.write("rom", "rom"))
        self.patch(
            mock.patch.dict(running.ROMS, {("qemu", "sea"): rom}),
            mock.patch.object(running, "DRAWING", 0),
            mock.patch.dict(
                os.environ,
                PATH=f"{self.folder}/bin:{os.environ['PATH']}",
                TMPDIR=self.temporary(),
            ),
        )
        picture, report = self.folder / "p.png", self.folder / "report"
        words = ("run", "--on", "qemu", "--picture", picture, self.write("s.vga", "in 3CC\n"))
        self.assertEqual(run(*words, report), (0, b"", ""))
        self.assertEqual(report.read_bytes(), b"1 CC\n")
        self.assertEqual(notes.read_text(), "qmp_capabilities \nscreendump dump.ppm\n")
        # Six bits of each component, widened again.
        row = bytes([0xFF, 0x9A, 0, 0, 4, 0xFF])
        self.assertEqual(png_rows(picture.read_bytes()), (2, 1, [row]))

    def test_a_report_into_a_folder_that_is_there(self) -> None:
        # Of one script the report is a file, and of a folder's a folder.
        image = self.write("left", machine(b"in 3CC\n").image)
        (self.folder / "reports").mkdir()
        hold_undone(
            self,
            run("read", image, self.folder / "reports"),
            f"^zaklimot: {self.folder}/reports: it is a folder\n$",
        )
        scripts = {"a/one": script_of(b"in 3CC\n", "one")}
        named = self.write("named", Machine(image_for(scripts, "it")).image)
        file = self.write("file", "kept")
        hold_undone(self, run("read", named, file), f"^zaklimot: {file}: it is not a folder\n$")
        self.assertEqual(Path(file).read_text(), "kept")
        self.assertEqual(run("read", named, self.folder / "reports"), (0, b"", ""))
        self.assertEqual((self.folder / "reports" / "a" / "one.report").read_bytes(), b"1 CC\n")


@unittest.skipUnless(
    Path("/proc/self/stat").exists(), "processes are looked at as Linux shows them"
)
class Reports(Folder):
    """Where the reports of a folder of scripts go that an emulator runs."""

    def setUp(self) -> None:
        super().setUp()
        texts = {"a/one": b"in 3CC\n", "two": b"in 3CE\n"}
        for name, text in texts.items():
            self.write(f"scripts/{name}.vga", text)
        self.write("scripts/list.txt", "".join(f"{name}.vga -\n" for name in texts))
        scripts = {name: script_of(text, name) for name, text in texts.items()}
        self.left = self.write("left", Machine(image_for(scripts, "it")).image)
        path = f"{self.folder}/bin:{os.environ['PATH']}"
        self.patch(mock.patch.dict(os.environ, PATH=path, TMPDIR=self.temporary()))

    def run_scripts(self, ending: str, *words: str | Path) -> tuple[int, bytes, str]:
        """How the run of the scripts ends by an emulator that tells that it has begun."""
        text = f"#!/bin/sh\necho > {self.folder}/begun\n{ending}\n"
        self.program("bin/dosbox", text)
        return run("run", "--on", "dosbox", self.folder / "scripts", *words)

    def test_what_is_wrong_with_their_place_is_told_before_the_run(self) -> None:
        file = self.write("file", "kept")
        told = "name a folder for their reports"
        scripts = f"{self.folder}/scripts"
        for place, wanted in (
            ("-", f"{scripts}: it has 2 scripts: {told}"),
            (file, f"{file}: it is not a folder"),
            (scripts, f"{scripts}: the folder has files"),
        ):
            done = self.run_scripts("exit 3", place)
            hold_undone(self, done, f"^zaklimot: {wanted}")
        self.assertFalse((self.folder / "begun").exists())
        self.assertEqual(Path(file).read_text(), "kept")

    def test_each_has_its_report(self) -> None:
        new = self.folder / "new"
        hold_undone(self, self.run_scripts("exit 3", new), "it ended before the script did")
        self.assertFalse(new.exists())
        done = self.run_scripts(f"cp {self.left} after; mv after script.img; sleep 600", new)
        self.assertEqual(done, (0, b"", ""))
        told = {str(path.relative_to(new)): path.read_text() for path in new.rglob("*.report")}
        self.assertEqual(told, {"a/one.report": "1 CC\n", "two.report": "1 CE\n"})


class Scripts(Folder):
    def test_a_list_as_other_systems_write_it(self) -> None:
        # Empty lines are none, and what stands behind a name is for a harness alone.
        for name, text in (("a/one.vga", b"in 3CC\n"), ("b.c.bin", b"VGAS\1\x0b")):
            self.write(f"scripts/{name}", text)
        wanted = image_for(
            {"a/one": script_of(b"in 3CC\n", "one"), "b.c": script_of(b"frame\n", "b")}, "all"
        )
        image = self.folder / "image"
        for listed in (
            "a/one.vga -\nb.c.bin -\n",
            "a/one.vga fonts/some.fnt 7\n\n\nb.c.bin\n",
            "a/one.vga\nb.c.bin",
        ):
            self.write("scripts/list.txt", listed)
            self.assertEqual(run("make", self.folder / "scripts", image), (0, b"", ""))
            self.assertEqual(image.read_bytes(), wanted, listed)

    def test_long_names_are_counted_in_bytes(self) -> None:
        script = script_of(b"in 3CC\n", "it")
        for name in ("\u00e9" * 127 + "x", "\udce9" * 255):
            (named,) = Table(table_for({name: script}), "it").scripts()
            self.assertEqual(named.name, name)
        for name in ("\u00e9" * 128, "\udce9" * 256):
            told = refused(table_for, {name: script})
            self.assertEqual(told, f"{name}: the name of a script has at most 255 bytes")

    def test_names_that_are_no_ascii(self) -> None:
        name = "d\u00e9p\u00f4t/\u00e9t\u00e9"
        self.write(f"scripts/{name}.vga", "in 3CC\n")
        self.write("scripts/list.txt", f"{name}.vga -\n")
        image, reports = self.folder / "image", self.folder / "r\u00e9ports"
        self.assertEqual(run("make", self.folder / "scripts", image), (0, b"", ""))
        image.write_bytes(Machine(image.read_bytes()).image)
        self.assertEqual(run("read", image, reports), (0, b"", ""))
        self.assertEqual((reports / f"{name}.report").read_bytes(), b"1 CC\n")

    def test_a_script_of_no_steps(self) -> None:
        image = self.write("image", machine(b"").image)
        self.assertEqual(run("read", image), (0, b"", ""))
        # An image of no script at all has no report for standard output.
        none = self.write("none", Machine(image_for({}, "it")).image)
        told = f"^zaklimot: {none}: it has the answers of 0 scripts: name a folder"
        hold_undone(self, run("read", none), told)
        self.assertEqual(run("read", none, self.folder / "reports"), (0, b"", ""))


class Resetting(Folder):
    def test_planes_are_reached_in_graphics_before_they_are_cleared(self) -> None:
        # Emulators have another memory of text: the mode control says so before the first write.
        cycles = machine(b"").cycles
        first = next(at for at, cycle in enumerate(cycles) if cycle[0] == "put")
        flip_flop, index, graphics = cycles[first - 3 : first]
        self.assertEqual(flip_flop, ("in", 0x3DA))
        self.assertEqual((index, graphics), (("out", 0x3C0, 0x10), ("out", 0x3C0, 1)))
        # The clock of a PC's mode 3 and the CRT controller at 3D4 are there by then.
        self.assertEqual(cycles[:2], [("int", 3, 0, 0, 0, 0, b""), ("out", 0x3C2, 3)])
        self.assertEqual(
            cycles[first:][:0x10000], [("put", 0xA0000 + at, 0) for at in range(0x10000)]
        )


class Lengths(Folder):
    def test_what_stands_behind_an_image_does_not_count(self) -> None:
        # A stick is longer than an image, and a copy may end after the last answer.
        left = machine(b"in 3CC\nin 3CE\n").image
        for data in (left + b"more" * 9, left[: ANSWERS + 2], left):
            self.assertEqual(run("read", "-", given=data), (0, b"1 CC\n2 CE\n", ""), len(data))
        told = "^zaklimot: standard input: its answers are damaged\n$"
        hold_undone(self, run("read", "-", given=left[: ANSWERS + 1]), told)
        # An answer of 00 adds nothing to their sum, and may be cut off all the same.
        left = machine(b"put A0000 0\nget A0000\n").image
        hold_undone(self, run("read", "-", given=left[:ANSWERS]), told)

    def test_a_record_with_other_ends_of_lines_and_a_cut_one(self) -> None:
        lines = machine(b"in 3CC\n" * 20).record
        report = b"".join(b"%d CC\n" % number for number in range(1, 21))

        def told(data: bytes) -> bytes:
            return b"".join(report_lines(read_record(data, "it"), "it"))

        whole = b"".join(lines)
        self.assertEqual(told(whole.replace(b"\r\n", b"\n")), report)
        # What comes behind the end doesn't count, nor does a last line without its end.
        self.assertEqual(told(whole + b"noise\r\n"), report)
        self.assertFalse(read_record(whole[:-1], "it").is_whole)
        self.assertEqual(told(whole[:-1]), report)
        self.assertEqual(told(b"".join(lines[:-2]) + lines[-2][:-2]), report[: report.index(b"17")])
        # Several steps begun are told by lines between.
        between = [*lines[:-2], line("P", 1), line("P", 2), *lines[-2:]]
        self.assertEqual(told(b"".join(between)), report)

    def test_a_record_as_long_as_may_be_read(self) -> None:
        record = b"".join(machine(b"in 3CC\n").record)
        with mock.patch("zaklimot.commands.floppy.command.MOST_READ", len(record)):
            for noise, told in ((b"", (0, b"1 CC\n", "")), (b"\n", None)):
                done = run("read", "--serial", "-", given=noise + record)
                if told is None:
                    hold_undone(self, done, "^zaklimot: standard input: the record ends before")
                else:
                    self.assertEqual(done, told)


class Runs(Folder):
    def test_a_word_that_reaches_input_status_1(self) -> None:
        # It is read, and its answer left out: the beam's position hangs on the time.
        booted = machine(b"inw 3D9\ninw 3DA\ninw 3DB\nin 3DB\nin 3BA\ninw 3B9\nin 3B9\n")
        told = b"".join(report_lines(read_image(booted.image, "it"), "it"))
        answers = ["skipped", "skipped", "DCDB", "DB", "skipped", "skipped", "B9"]
        wanted = "".join(f"{number} {answer}\n" for number, answer in enumerate(answers, 1))
        self.assertEqual(told.decode(), wanted)
        read = [place for name, place, *_ in booted.cycles[-11:] if name == "in"]
        pairs = [0x3D9, 0x3DA, 0x3DA, 0x3DB, 0x3DB, 0x3DC, 0x3DB, 0x3BA, 0x3B9, 0x3BA, 0x3B9]
        self.assertEqual(read, pairs)

    def test_whether_a_run_has_ended(self) -> None:
        left = machine(b"in 3CC\n").image
        hold(
            self,
            lambda data: has_ended(Path(self.write("image", data))),
            (
                (left, True),
                (left[: MARK + 8], True),
                (left[: MARK + 7], False),
                (image_for({"": script_of(b"in 3CC\n", "it")}, "it"), False),
                (b"", False),
            ),
        )
        self.assertFalse(has_ended(self.folder / "none"))
        self.assertFalse(has_ended(self.folder))

    def test_a_call_at_the_end_of_the_dac(self) -> None:
        # Function 10 with AL 17 reads up to the last entry, and no farther.
        def answers(numbers: str) -> bytes:
            image = machine(f"int ax=1017 {numbers}\n".encode()).image
            (told,) = report_lines(read_image(image, "it"), "it")
            return told.partition(b" block ")[2] or told

        hold(
            self,
            answers,
            (
                ("bx=FF cx=1", b"000102\n"),
                ("bx=FF cx=2", b"1 skipped\n"),
                ("bx=100 cx=0", b"1 ax=1017 bx=0100 cx=0000 dx=0000\n"),
                ("bx=101 cx=0", b"1 skipped\n"),
            ),
        )


class Answered(Folder):
    def test_answers_that_do_not_fit_the_steps(self) -> None:
        table = Table(table_for({"": script_of(b"in 3CC\ninw 3CE\n", "it")}), "it")

        def told(answers: bytes, is_whole: bool) -> object:
            return b"".join(report_lines(Run(table, answers, is_whole), "it"))

        self.assertEqual(told(b"\1\2\3", True), b"1 01\n2 0302\n")
        self.assertEqual(told(b"\1\2", False), b"1 01\n")
        self.assertEqual(refused(told, b"\1\2", True), "it: it has no answer for step 2")
        wrong = "it: it has 4 bytes of answers, and its steps have 3"
        self.assertEqual(refused(told, b"\1\2\3\4", True), wrong)
        # The end of a record has the sum, and how many there are.
        record = machine(b"in 3CC\n").record
        for count, total in ((2, b"\xcc\0"), (1, b"\xcd\0"), (1, b"\xcc\1")):
            data = b"".join([*record[:-1], line("E", count, total)])
            ended_otherwise = "it: the end of the record tells of other answers"
            self.assertEqual(refused(read_record, data, "it"), ended_otherwise)
