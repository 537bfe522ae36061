"""Recordings of the page's own machine: the same bytes each time, its keys, its files, and what
can't be recorded."""

from __future__ import annotations

import gzip
import json
import os
import re
import shutil
import signal
import unittest
import zipfile
from functools import partial
from hashlib import sha256
from pathlib import Path
from unittest import mock

from zaklimot.commands.report.debugging import PAGE
from zaklimot.commands.trace import converting, inpage, keeper, replaying
from zaklimot.commands.trace.asked import SPEEDS, USUAL_SPEED, Deed

from .tools import (
    PROGRAM as TESTED,
    TOP,
    Folder,
    begin,
    hold_undone,
    is_running,
    run_tool,
    want_program,
    takes_long,
)


run = partial(run_tool, "zaklimot", "trace")
HAS_NODE = shutil.which("node") is not None
# Mode 13; four bytes of it; a read of memory, of a port, and of input status 1; a cycle that is
# refused; then letters of keys go into the memory that is shown, again and again.
PROGRAM = bytes.fromhex(
    "B81300CD10 B800A08EC0 31FFB80201ABAB 26A00000 BACC03EC BADA03ECECEC"
    "BAB403EC 30E4CD16 26A20000 EBF6"
)
# The cursor of text of 50 rows moves, and letters are typed and put; input status 1 is read between
# them. A key begins it anew in mode 13, whose DAC changes.
MANY = bytes.fromhex(
    "B80300CD10 B8121131DBCD10 B402BA070ACD10 B800B88EC0"
    "31FF BADA03 B92000 EC89F8ABE2FA B8410ECD10 B401CD16 74E9"
    "30E4CD16 B81300CD10 B800A08EC0 31FF BADA03 EC89F8AA BAC903EE BADA03 EBF3"
)
# A ROM that writes a port as it begins, and another one in each call of interrupt 10; and a program
# that sets a mode.
ROM = bytes.fromhex(
    "55AA01 31C08ED8 C70640001A00 C706420000C0 BAC203B067EE CB BAC803B05AEE CF"
).ljust(512, b"\0")
SETTING = bytes.fromhex("B80D00CD10 B8004CCD21")
# It writes a letter by DOS, and ends.
ENDING = bytes.fromhex("B402B241CD21 B8004CCD21")
# A run that the page has saved.
SAVED = {
    "is": "zaklimot run",
    "version": 1,
    "name": "x.com",
    "software": {"program": "q5dhkGBgYGBgYGBgYPh/gQEA"},
    "inputs": [[1000, "key", 0x1E, 0x1E61]],
}
# Keys that qemu calls otherwise than by their letters, and what they type.
TYPED = {
    "spc": "  ",
    "minus": "-_",
    "equal": "=+",
    "bracket_left": "[{",
    "bracket_right": "]}",
    "semicolon": ";:",
    "apostrophe": "'\"",
    "grave_accent": "`~",
    "backslash": "\\|",
    "comma": ",<",
    "dot": ".>",
    "slash": "/?",
}
# The files that a recording of two screens leaves.
RECORDED = [
    "picture-1.png",
    "picture-2.png",
    "recording.json",
    "report.txt",
    "screen-1.ppm",
    "screen-2.ppm",
    "script.bin",
    "trace.gz",
    "verdict.txt",
]


@takes_long
@unittest.skipUnless(HAS_NODE, "node is not here")
class Recorded(Folder):
    def setUp(self) -> None:
        super().setUp()
        want_program()
        self.patch(mock.patch.dict(os.environ, TMPDIR=self.temporary()))

    def record(self, file: str, *options: str, into: str = "into") -> tuple[int, list[str], str]:
        """Exit status, lines and what is said of a recording in a folder."""
        status, output, said = run(
            "record", self.folder / into, "--in-page", file, "--vga", TESTED, *options
        )
        return status, output.decode().splitlines(), said

    def trace(self, into: str = "into") -> str:
        return gzip.decompress((self.folder / into / "trace.gz").read_bytes()).decode()

    def test_the_same_bytes_each_time(self) -> None:
        file = self.write("program.com", PROGRAM)
        options = ("--quiet", "0.1", "--key", "a,shift-b", "--screen", "0.5", "--key", "0.6:spc")
        done = [self.record(file, *options, into=into) for into in ("one", "two")]
        self.assertEqual(done[0], done[1])
        status, lines, said = done[0]
        self.assertEqual((status, said), (0, ""))
        self.assertEqual(
            lines[1],
            (
                f"{lines[0].split(' cycles, ')[1].split(' steps')[0]} steps, 1 refused, 5 reads"
                " answered, 0 differ"
            ),
        )
        size = "640x400, eight bits a component, of which six count"
        told = [line.partition(": ")[2] for line in lines if line.startswith("screen")]
        self.assertEqual(told, [f"equal, {size}"] * 2)
        for folder in (self.folder / "one", self.folder / "two"):
            self.assertEqual(sorted(path.name for path in folder.iterdir()), RECORDED)
        for name in RECORDED:
            one, other = ((self.folder / into / name).read_bytes() for into in ("one", "two"))
            self.assertEqual(one, other, name)
        trace = self.trace("one")
        self.assertEqual(
            re.findall(r"^\d+\+\d+ w m A0000 (..) 1$", trace, re.M), ["61", "42", "20"]
        )
        self.assertEqual(len(re.findall(r"^\d+\+\d+ frame$", trace, re.M)), 2)
        self.assert_reads_its_own_trace(trace)
        self.assert_differs_by_the_beam(file, *options)

    def assert_reads_its_own_trace(self, trace: str) -> None:
        """That the command reads its own trace, and the beam is where it was."""
        script = self.folder / "script"
        report = self.folder / "one" / "report.txt"
        self.assertEqual(
            run(
                "convert", self.folder / "one" / "trace.gz", script, "--time", "--frames", "screens"
            )[0],
            0,
        )
        self.assertEqual(script.read_bytes(), (self.folder / "one" / "script.bin").read_bytes())
        self.assertEqual(
            run("check", self.folder / "one" / "trace.gz", report, "--time", "--frames", "screens")[
                0
            ],
            1,
        )
        first = re.search(r"(?<=r p 3DA )..", trace)
        assert first is not None
        moved = f"{trace[:first.start()]}{int(first[0], 16) ^ 1:02X}{trace[first.end():]}"
        bad = self.write("bad.gz", gzip.compress(moved.encode()))
        output = run("check", bad, report, "--time", "--frames", "screens")[1].decode()
        self.assertIn("differ          1 in port 3DA (first at step", output)

    def assert_differs_by_the_beam(self, file: str, *options: str) -> None:
        """That a recording tells of a program that answers otherwise by the beam alone."""
        answers = (self.folder / "one" / "report.txt").read_bytes()
        places = [found.start(1) for found in re.finditer(rb"^\d+ (0[0-9A-F])$", answers, re.M)]
        other = bytearray(answers)
        other[places[-1] + 1] ^= 1
        program = self.writing(self.write("other", bytes(other)))
        status, lines, _ = self.record(file, *options, "--vga", program, into="three")
        differing = [line for line in lines if " differ " in line and "port" in line]
        self.assertEqual((status, len(differing)), (1, 1))
        self.assertTrue(differing[0].startswith("  differ          1 in port 3DA (first at step"))

    def test_several_scripts_are_all_judged(self) -> None:
        file = self.write("a.com", MANY)
        words = ("--screen", "0.05", "--key", "0.09:a", "--screen", "0.1", "--speed", "8088")
        whole = self.record(file, *words, into="one")
        self.assertEqual(whole[0], 0)
        self.patch(
            mock.patch.object(converting, "MOST_BYTES", 160_000),
            mock.patch.object(replaying, "REST_OF_FRAME", 40_000),
        )
        parts = self.record(file, *words, into="two")
        self.assertEqual((parts[0], parts[2]), (0, ""))
        scripts = sorted(path.name for path in (self.folder / "two").glob("script*"))
        self.assertGreater(len(scripts), 1)
        # An advance that is cut in two is two steps.
        self.assertEqual(parts[1][2:], whole[1][2:])
        self.assertIn("steps rebuild the state", parts[1][0])
        self.assertRegex(
            parts[1][1], r"^[0-9,]+ steps, 0 refused, [0-9,]{5,} reads answered, 0 diff"
        )
        self.assertEqual(len([line for line in parts[1] if ": equal, " in line]), 2)

    def test_what_ends_by_itself_has_a_screen_too(self) -> None:
        status, lines, said = self.record(self.write("a.com", ENDING))
        self.assertEqual(
            (status, said), (0, "zaklimot: the machine stopped after 0.0 seconds: it ended\n")
        )
        self.assertRegex(lines[-1], r"^screen 1 at 0\.0 s, after cycle 2: equal, 720x400")
        # The frame that was under way is drawn to its end.
        dots = sum(map(int, re.findall(r"^\d+\+(\d+) ", self.trace(), re.M)))
        self.assertEqual(dots, 404100)
        # The letter, in the picture.
        self.assertIn(bytes([0xAA] * 3), (self.folder / "into" / "screen-1.ppm").read_bytes())

    def test_a_saved_run_and_a_zip(self) -> None:
        with zipfile.ZipFile(self.folder / "two.zip", "w") as archive:
            archive.writestr("a.com", PROGRAM)
            archive.writestr("b.com", ENDING)
        both = str(self.folder / "two.zip")
        told = (
            rf"^zaklimot: {re.escape(both)}: --start names what runs of two\.zip: a\.com,"
            r" b\.com\n$"
        )
        hold_undone(self, run("record", self.folder / "into", "--in-page", both), told)
        hold_undone(
            self, run("record", self.folder / "into", "--in-page", both, "--start", "c.com"), told
        )
        self.assertEqual(self.record(both, "--start", "b.com")[0], 0)
        self.assertIn(" int 0E41 ", self.trace())
        saved = self.write("x.run.json", json.dumps(SAVED, separators=(",", ":")))
        rom = self.write("video.rom", ROM)
        for options in (("--key", "a"), ("--speed", "286"), ("--rom", rom)):
            done = run("record", self.folder / "into2", "--in-page", saved, *options)
            hold_undone(
                self, done, r"x\.run\.json is a saved run, which has its keys, speed and ROM"
            )

    def test_the_rom_of_a_video_bios_serves_interrupt_10(self) -> None:
        file, rom = self.write("a.com", SETTING), self.write("video.rom", ROM)
        self.assertEqual(self.record(file, "--rom", rom, into="one")[0], 0)
        cycles = [line.split(" ", 1)[1] for line in self.trace("one").splitlines()]
        # The machine sets a mode as it begins, and then the program does.
        self.assertEqual(cycles, ["w p 3C2 67 1", *2 * ["w p 3C8 5A 1"], "frame"])
        note = json.loads((self.folder / "one" / "recording.json").read_text("ascii"))
        given = {"a.com": SETTING, "video.rom": ROM}
        digests = {name: sha256(data).hexdigest() for name, data in given.items()}
        self.assertEqual((note["software"], note["words"]), (digests, ["a.com"]))
        # One of more than 64 KiB is refused before anything runs.
        long = self.write("long.rom", ROM.ljust(65537, b"\0"))
        done = run("record", self.folder / "two", "--in-page", file, "--rom", long)
        hold_undone(self, done, f"^zaklimot: {re.escape(long)}: it has more than 65,536 bytes")
        self.assertFalse((self.folder / "two").exists())

    def test_one_that_is_too_long(self) -> None:
        file = self.write("a.com", MANY)
        with mock.patch.object(keeper, "MOST_KEPT", 10):
            done = run("record", self.folder / "into", "--in-page", file, "--seconds", "3600")
        again = f"`zaklimot trace record {self.folder / 'into'} --again` judges it"
        told = f"zaklimot: {self.folder / 'into'}: it has what was recorded: {again}\n"
        full = "its trace has 10 bytes, as they are packed: --seconds ends the machine sooner"
        self.assertEqual(done, (2, b"", f"{told}zaklimot: node: {full}\n"))
        left = {path.name for path in (self.folder / "into").iterdir()}
        self.assertEqual(left, {"recording.json", "trace.gz"})
        self.assertIn(" int 0003 ", self.trace())

    def test_speeds(self) -> None:
        file = self.write("a.com", bytes.fromhex("B800B88EC0 26A20000 FEC0 EBF8"))
        cycles = []
        for speed in SPEEDS:
            self.record(file, "--seconds", "0.01", "--speed", speed, into=speed)
            cycles.append(self.trace(speed).count(" w m "))
        self.assertEqual(cycles, sorted(set(cycles)), "a faster processor makes more cycles")
        source = (PAGE.parent / "machine" / "machine.js").read_text("utf-8")
        table = re.search(r"export const SPEEDS = \{ (.*?) \};", source)
        assert table is not None
        self.assertEqual(tuple(re.findall(r"(\w+): \d+", table[1])), SPEEDS)
        self.assertIn(f'USUAL_SPEED = "{USUAL_SPEED}"', source)

    def test_wrong_files(self) -> None:
        for name, data, told in (
            ("a.txt", b"hello", r"a\.txt is no program for DOS, and no disk that starts"),
            (
                "a.img",
                bytes(1474560),
                r"a\.img does not start: a boot sector ends with 55 AA, and this one does not",
            ),
            (
                "a.com",
                bytes(70000),
                r"a\.com has 70,000 bytes, and a program without a head may have 65,280",
            ),
            ("a.rom", b"\x55\xaa\x01" + bytes(509), r"a\.rom is no program for DOS"),
            ("a.zip", b"PK\3\4" + bytes(100), r"This ZIP is damaged, or cut off"),
            ("a.run.json", b'{"is":"zaklimot run",', r"This run is damaged: it is no JSON"),
            ("empty", b"", r"empty is no program for DOS"),
        ):
            with self.subTest(name):
                hold_undone(
                    self,
                    run("record", self.folder / "into", "--in-page", self.write(name, data)),
                    told,
                )
                self.assertFalse((self.folder / "into").exists())
        hold_undone(
            self,
            run("record", self.folder / "into", "--in-page", self.folder / "none"),
            "No such file",
        )
        with mock.patch.object(inpage, "MOST_FILE", 4):
            hold_undone(
                self,
                run("record", self.folder / "into", "--in-page", self.write("a.com", PROGRAM)),
                "more than 4 bytes",
            )

    def test_words_that_do_not_go_together(self) -> None:
        file = self.write("a.com", PROGRAM)
        into = self.folder / "into"
        for words, told in (
            (("--in-page", file, "--chain-4"), "--chain-4 is for qemu, and not for --in-page"),
            (("--in-page", file, "--card", "VGA"), "--card is for qemu"),
            (("--in-page", file, "--", "-cdrom", "x"), "what stands behind `--` is for qemu"),
            (("--in-page", file, "--polls", "first"), "--polls is for qemu, and not for"),
            (("--in-page", file, "--beam"), "--beam is for qemu, and not for --in-page"),
            (("--speed", "286", "--", "-cdrom", "x"), "--speed is for --in-page alone"),
            (("--rom", file, "--", "-cdrom", "x"), "--rom is for --in-page alone"),
            (("--start", "a", "--", "-cdrom", "x"), "--start is for --in-page alone"),
            (("--in-page", file, "--speed", "486"), "invalid choice: '486'"),
            (("--in-page", file, "--key", "power"), "`power` is no key of the page's machine"),
            ((), "qemu needs words after `--`"),
        ):
            with self.subTest(words):
                hold_undone(self, run("record", into, *words), re.escape(told))
                self.assertFalse(into.exists())
        self.write("full/file", "kept")
        hold_undone(self, run("record", self.folder / "full", "--in-page", file), "it has files")
        self.assertEqual((self.folder / "full" / "file").read_text(), "kept")

    def test_a_signal_ends_node_too(self) -> None:
        # A program without an end, for an hour of its time.
        file = self.write("a.com", bytes.fromhex("EBFE"))
        into = self.folder / "into"
        for number in (signal.SIGINT, signal.SIGTERM):
            process = begin(
                "zaklimot", "trace", "record", into, "--in-page", file, "--seconds", "3600"
            )
            nodes: set[int] = set()

            def has_begun() -> bool:
                nodes.update(recorders_of(process.pid))
                return bool(nodes)

            with process:
                self.wait_until(has_begun, process)
                process.send_signal(number)
                output, said = process.communicate()
            self.assertEqual((process.returncode, output), (128 + number, b""), said)
            self.wait_until(lambda: not any(map(is_running, nodes)))
            # What was recorded until then stays, if anything was.
            if into.exists():
                self.assertIn(b"record %s --again` judges it" % os.fsencode(into), said)
                left = {path.name for path in into.iterdir()} - {".dump.0.ppm"}
                self.assertEqual(left, {"recording.json", "trace.gz"})
                shutil.rmtree(into)


def recorders_of(parent: int) -> list[int]:
    """The numbers of the processes by which a process records; the node that tells its version is
    none of them."""
    found = []
    for path in Path("/proc").glob("[0-9]*/stat"):
        try:
            rest = path.read_text().rsplit(")", 1)[1]
            words = (path.parent / "cmdline").read_bytes().split(b"\0")
        except OSError:
            continue
        if rest.split()[1] == str(parent) and any(word.endswith(b"inpage.mjs") for word in words):
            found.append(int(path.parent.name))
    return found


class WithoutNode(Folder):
    def test_node_is_lacking_or_too_old(self) -> None:
        file = self.write("a.com", ENDING)
        into = self.folder / "into"
        program = self.answering("ok")
        for version, told in (
            ("", "node: it is not in the path: install the package nodejs"),
            ("v16.20.2", "node: it is older than version 18"),
            ("x", "node: it is older than version 18"),
        ):
            with self.subTest(version):
                folder = self.folder / f"bin{version}"
                folder.mkdir()
                if version:
                    self.program(f"bin{version}/node", f"#!/bin/sh\necho {version}\n")
                with mock.patch.dict(os.environ, PATH=str(folder)):
                    hold_undone(
                        self, run("record", into, "--in-page", file, "--vga", program), told
                    )
                self.assertFalse(into.exists())
        for version in ("v18.0.0", "v22.1.0"):
            self.program("bin/node", f"#!/bin/sh\necho {version}\n")
            with mock.patch.dict(os.environ, PATH=str(self.folder / "bin")):
                inpage.check_node()
        with mock.patch.object(inpage, "SOURCES", self.folder / "none"):
            hold_undone(
                self,
                run("record", into, "--in-page", file, "--vga", program),
                "they lie in the repository",
            )

    def test_what_keys_type(self) -> None:
        """The letters of each key of a keyboard of the United States, without Shift and with it."""
        names = dict(zip("1234567890", "!@#$%^&*()"))
        names.update({letter: letter.upper() for letter in "abcdefghijklmnopqrstuvwxyz"})
        for name, shifted in names.items():
            part = inpage._part(name)
            self.assertEqual((part["key"], part["shifted"], part["modifier"]), (name, shifted, ""))
        for name, typed in TYPED.items():
            part = inpage._part(name)
            self.assertEqual(part["key"] + part["shifted"], typed, name)
        for name, flag in (("shift_r", "shiftKey"), ("ctrl", "ctrlKey"), ("alt_r", "altKey")):
            self.assertEqual(inpage._part(name)["modifier"], flag)
        for name in ("ret", "f1", "f11", "kp_0", "kp_9", "kp_enter", "caps_lock"):
            part = inpage._part(name)
            self.assertEqual({part["key"], part["shifted"], part["code"]}, {part["code"]}, name)
        told = [inpage._deed(deed)["told"] for deed in (Deed(2.5, ("ctrl-c", "a")), Deed())]
        self.assertEqual(told, ["the keys ctrl-c,a", "a screen"])

    def test_keys(self) -> None:
        """Each key that is named has a place that the page's machine knows."""
        source = (TOP / "page" / "machine" / "pckeys.js").read_text("utf-8")
        rules = r"Key[A-Z]|Digit\d|F\d+"
        for name in (*inpage.PLACES, *inpage.LETTERS):
            place = inpage._part(name)["code"]
            self.assertTrue(re.fullmatch(rules, place) or re.search(rf"\b{place}\b", source), name)
        self.assertEqual(
            inpage._deed(Deed(2.5, ("ctrl-c",)))["keys"],
            [
                [
                    {
                        "code": "ControlLeft",
                        "key": "ControlLeft",
                        "shifted": "ControlLeft",
                        "modifier": "ctrlKey",
                    },
                    {"code": "KeyC", "key": "c", "shifted": "C", "modifier": ""},
                ]
            ],
        )
