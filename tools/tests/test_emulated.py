"""The emulators of zaklimot: the words that start each, their versions, and the screen that a run
leaves; by programs that stand in their places."""

from __future__ import annotations

import os
import struct
import unittest
from pathlib import Path
from unittest import mock

from zaklimot.commands.floppy import running
from zaklimot.commands.floppy.running import MACHINES, Margin, PackagedFile, window_image

from .floppy import machine
from .tools import Folder, hold, png_rows, refused, run_tool

SEA = "/usr/share/seabios/vgabios-stdvga.bin"
ISA = "/usr/share/seabios/vgabios-isavga.bin"
LGPL = "/usr/share/vgabios/vgabios.bin"
# What `xwininfo` tells of a display on which the second window is the largest: ten by six dots,
# from dot 3 of row 2 on.
WINDOWS = r"""
  Root window id: 0x50 (the root window) (has no name)
     2 children:
     0x60 "small": ("a" "A")  4x4+0+0  +1+1
     0x61 "DOSBox": ("b" "B")  10x6+0+0  +3+2
"""


def dump() -> bytes:
    """The file of a screen of sixteen by nine dots, whose lines have some bytes more: red has a
    dot's column, green its row, blue is 99."""
    numbers = [100 + 12 * 2] + [0] * 19
    numbers[0], numbers[12], numbers[19] = 100, 72, 2
    lines = (
        b"".join(bytes([99, y, x, 0xAA]) for x in range(16)) + bytes(72 - 64) for y in range(9)
    )
    return struct.pack(">20I", *numbers).ljust(100 + 12 * 2, b"n") + b"".join(lines)


class Programs(Folder):
    """A path that begins with programs of the test."""

    def setUp(self) -> None:
        super().setUp()
        self.patch(mock.patch.dict(os.environ, PATH=f"{self.folder}/bin:{os.environ['PATH']}"))

    def shell(self, name: str, text: str) -> None:
        """A program of the shell in the path."""
        self.program(f"bin/{name}", f"#!/bin/sh\n{text}\n")


class Starting(Programs):
    def words(self, name: str, bios: str | None, is_seen: bool = False) -> list[str]:
        """The words that start an emulator that is installed, and so are all its files."""
        self.shell(MACHINES[name].program, "exit")
        with mock.patch.object(PackagedFile, "found", lambda file: file.path):
            return MACHINES[name].started_words(self.folder, bios, is_seen)

    def test_the_video_bios(self) -> None:
        def rom(name: str, bios: str | None) -> list[str]:
            words = " ".join(self.words(name, bios))
            if name == "bochs":
                words = (self.folder / "bochsrc").read_text("ascii")
            return [path for path in (SEA, ISA, LGPL) if path in words]

        hold(
            self,
            rom,
            (
                ("qemu", None, [SEA]),
                ("qemu", "sea", [SEA]),
                ("qemu", "lgpl", [LGPL]),
                ("bochs", None, [LGPL]),
                ("bochs", "lgpl", [LGPL]),
                ("bochs", "sea", [ISA]),
            ),
        )

    def test_how_an_emulator_is_to_end(self) -> None:
        # One that nobody looks at ends itself, and one whose screen is wanted is asked for it.
        unseen, seen = (" ".join(self.words("qemu", None, is_seen)) for is_seen in (False, True))
        self.assertIn(" -device isa-debug-exit,iobase=0xf4,", unseen)
        self.assertNotIn("isa-debug-exit", seen)
        self.assertIn(" -qmp unix:qmp,server=on,wait=off", seen)
        self.assertNotIn("-qmp", unseen)
        for words in (unseen, seen):
            self.assertIn(" -serial file:record ", words)
            self.assertIn("file=script.img,if=floppy,format=raw,cache=writethrough", words)

    def test_the_files_that_emulators_read(self) -> None:
        # Bochs draws as few pictures as can be, and its debugger begins the run.
        for is_seen, updates in ((False, 1), (True, 5)):
            words = self.words("bochs", None, is_seen)
            self.assertEqual(words, ["bochs", "-q", "-f", "bochsrc", "-rc", "commands"])
            text = (self.folder / "bochsrc").read_text("ascii")
            for line in (
                f"vga: extension=none, update_freq={updates}",
                "floppya: 1_44=script.img, status=inserted",
                "com1: enabled=1, mode=file, dev=record",
                "romimage: file=/usr/share/bochs/BIOS-bochs-legacy",
            ):
                self.assertIn(f"\n{line}\n", text)
        self.assertEqual((self.folder / "commands").read_text(), "c\n")
        self.assertEqual(self.words("dosbox", None), ["dosbox", "-conf", "dosbox.conf"])
        text = (self.folder / "dosbox.conf").read_text("ascii")
        self.assertTrue(text.endswith("\n[autoexec]\nboot script.img\n"))
        self.assertIn("\nmachine=vgaonly\n", text)

    def test_what_an_emulator_finds_around_it(self) -> None:
        # No display of the user's, no sound, and none of the user's files.
        given = {"DISPLAY": ":0", "WAYLAND_DISPLAY": "w", "XAUTHORITY": "x", "SOME": "other"}
        names = ("DISPLAY", "WAYLAND_DISPLAY", "XAUTHORITY", "SOME", "SDL_VIDEODRIVER")
        with mock.patch.dict(os.environ, given):
            for display, wanted in (
                (None, [None, None, None, "other", "dummy"]),
                (":7", [":7", None, None, "other", "x11"]),
            ):
                found = running.environment(self.folder, display)
                self.assertEqual([found.get(name) for name in names], wanted)
                self.assertEqual(found["SDL_AUDIODRIVER"], "dummy")
                self.assertEqual((found["HOME"], found["TERM"]), (str(self.folder), "dumb"))

    def test_a_bios_that_is_not_installed(self) -> None:
        self.shell(MACHINES["qemu"].program, "exit")
        path = f"{self.folder}/none.bin"
        file = PackagedFile("a-package", path)
        with mock.patch.dict(running.ROMS, {("qemu", "sea"): file}):
            told = refused(MACHINES["qemu"].started_words, self.folder, "sea", False)
        self.assertEqual(told, f"there is no {path}: Debian's package a-package has it")

    def test_versions(self) -> None:
        self.shell("qemu-system-i386", "echo QEMU emulator version 7.2.5 '(Debian 1:7.2+dfsg-7)'")
        self.shell("dosbox", "echo DOSBox version 0.74-3, copyright >&2")
        packages = "seabios) echo 1.16.2-1 ;; vgabios) echo 0.8a-1 ;; bochs) echo 1:2.7+dfsg-4 ;;"
        self.shell("dpkg-query", f'for package; do :; done; case "$package" in {packages} esac')
        hold(
            self,
            lambda name, bios: MACHINES[name].full_version(bios),
            (
                ("qemu", None, "qemu 7.2.5 with SeaVGABIOS 1.16.2"),
                ("qemu", "lgpl", "qemu 7.2.5 with LGPL VGABios 0.8a"),
                ("bochs", None, "bochs 2.7 with LGPL VGABios 0.8a"),
                ("bochs", "sea", "bochs 2.7 with SeaVGABIOS 1.16.2"),
                ("dosbox", None, "dosbox 0.74-3"),
            ),
        )
        self.shell("dosbox", "exit 1")
        self.shell("dpkg-query", "echo none")
        for name, what in (("dosbox", "dosbox"), ("bochs", "the package bochs")):
            told = refused(MACHINES[name].full_version)
            self.assertEqual(told, f"the version of {what} can't be told")

    def test_the_largest_window_without_its_margin(self) -> None:
        self.shell("xwininfo", f'echo "$*" > {self.folder}/words\ncat {self.write("w", WINDOWS)}')
        for margin in (Margin(), Margin(above=2, below=1)):
            image = window_image(":7", dump(), margin)
            rows = range(2 + margin.above, 8 - margin.below)
            wanted = tuple(b"".join(bytes([x, y, 99]) for x in range(3, 13)) for y in rows)
            self.assertEqual((image.size, image.most), ((10, len(wanted)), 255))
            self.assertEqual(image.rows, wanted)
        self.assertEqual((self.folder / "words").read_text(), "-display :7 -root -children\n")
        self.shell("xwininfo", "echo none")
        told = refused(window_image, ":7", dump(), Margin())
        self.assertEqual(told, "the emulator shows no window")


@unittest.skipUnless(
    Path("/proc/self/stat").exists(), "processes are looked at as Linux shows them"
)
class Screens(Programs):
    def run_seen(self, *words: str | Path) -> tuple[int, bytes, str]:
        """How a run ends whose last screen is wanted."""
        script = self.write("script.vga", "in 3CC\n")
        picture = ("--picture", self.folder / "p.png")
        with mock.patch.dict(os.environ, TMPDIR=self.temporary()):
            return run_tool("zaklimot", "floppy", "run", "--on", "dosbox", *picture, script, *words)

    def test_the_last_screen_as_a_picture(self) -> None:
        left = self.write("left", machine(b"in 3CC\n").image)
        screen = self.write("screen", dump())
        named = f'echo "$DISPLAY $SDL_VIDEODRIVER" > {self.folder}/display'
        self.shell("dosbox", f"{named}\ncat {left} > script.img\nsleep 600")
        self.shell("Xvfb", f'cp {screen} "$4/Xvfb_screen0"\necho 7\nsleep 600')
        self.shell("xwininfo", f"cat {self.write('w', WINDOWS)}")
        self.assertEqual(self.run_seen(), (0, b"1 CC\n", ""))
        self.assertEqual((self.folder / "display").read_text(), ":7 x11\n")
        # Of eight bits a component has six, which are widened again: 99 is 18, and 98 + 1 then.
        rows = [
            b"".join(
                bytes(value >> 2 << 2 | value >> 6 for value in (x, y, 99)) for x in range(3, 13)
            )
            for y in range(2, 8)
        ]
        self.assertEqual(png_rows((self.folder / "p.png").read_bytes()), (10, 6, rows))

    def test_no_display(self) -> None:
        self.shell("dosbox", "sleep 600")
        self.shell("xwininfo", "exit")
        self.shell("Xvfb", "exit 1")
        self.assertEqual(self.run_seen(), (2, b"", "zaklimot: Xvfb has given no display\n"))
        self.assertFalse((self.folder / "p.png").exists())
