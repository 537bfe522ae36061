"""What all tools refuse: words that mean nothing, endless files, and to write what is read."""

from __future__ import annotations

import os
import resource
import sys
import unittest
from functools import partial
from pathlib import Path
from typing import Any, Callable

from zaklimot.commands.images import others
from zaklimot.commands.images.reading import image_of
from zaklimot_dev.emulators.table_page import FIRST_MARK, LAST_MARK

from .floppy import machine
from .test_images import png
from .tools import refused, BLACK, TOP, Folder, ppm, report, run_tool


PICTURE = ppm(9, 1, BLACK * 9)
OTHER = ppm(9, 1, b"\x3f\0\0" * 9)
# A floppy's image with what a run has left.
IMAGE = machine(b"frame\n").image
# What stands in the place of a program: it answers each script with the picture of the report `r`.
PROGRAM = '#!/bin/sh\n[ "$1" = go ] && exec cat "${0%/*}/r"\nexit 0\n'
# A program that writes so many pictures of three megabytes, and the memory that their run may take;
# and that of all else.
PICTURES = 100
ROOM = 1 << 27
MEMORY = 1 << 28
MANY = f"""import sys
for number in range(1, {PICTURES + 1} if sys.argv[1] == "go" else 1):
    sys.stdout.buffer.write(b"%d picture 3000016\\nP6\\n1000 1000\\n63\\n" % number)
    sys.stdout.buffer.write(bytes(3_000_000) + b"\\n")
"""
FILES: dict[str, str | bytes] = {
    "r": report(PICTURE),
    "r2": report(OTHER),
    "i": PICTURE,
    "s.vga": "frame\n",
    "m": IMAGE,
    "t": "- w p 3C4 02 1\n",
    "empty/notes": "",
    "ok": report("ok", PICTURE),
    "none": report("ok"),
    "move.vga": "frame\nmove\n",
    "font": bytes(9727),
    "sizes": report(PICTURE, ppm(1, 1, BLACK)),
    "end.vga": "version 2\nend\n",
    "cut": b"VGAS\1\1",
    "zero.vga": "frame\n",
    "list": "zero\n",
    "endless": "endless\n",
    "marks": f"{FIRST_MARK}\n{LAST_MARK}\n",
}
NAMES = "out, outw, in, inw, put, putw, get, getw, advance, frame, int, show, version, repeat, end"
MOVE = (
    f"zaklimot: {{move}}:2: F7 BadLine(2): there is no step 'move'; the steps are {NAMES}\n "
    " move\n  ^^^^\n"
)
# The words of tools, and what is said of them. {o} is a file that is not there, {d} the folder.
REFUSED = {
    # Files without an end.
    "zaklimot run /dev/zero --vga /bin/true": (
        "/dev/zero: F6 TooLong: a script has at most 16,777,216 bytes\n"
    ),
    "zaklimot pictures {r} --apng {o} --script /dev/zero": "F6 TooLong: ",
    "zaklimot compare {r} /dev/zero --step 1": "/dev/zero: it has more than 67,108,864 bytes",
    "zaklimot compare {r} /dev/zero --expected": "/dev/zero:1: ",
    "zaklimot suite true{{script}} --list /dev/zero": (
        "/dev/zero: it has more than 16,777,216 bytes"
    ),
    "zaklimot trace convert /dev/zero {o}": "/dev/zero:1: the line is longer than any of a trace",
    "zaklimot floppy make /dev/zero {o}": "F6 TooLong: ",
    "zaklimot floppy make {d}/empty {o}": "empty/list.txt: it has more than 16,777,216 bytes",
    "zaklimot suite true{{script}} --list {endless}": (
        "endless.vga: it has more than 16,777,216 bytes"
    ),
    "emulators table /dev/full {r}": "/dev/full: it has more than 16,777,216 bytes",
    "emulators table {s} /dev/zero": "it lacks the marks",
    "page make {o} --module /dev/zero": "/dev/zero: it has more than 16,777,216 bytes",
    "emulators table {marks} /dev/zero": "/dev/zero: it has more than 16,777,216 bytes",
    "zaklimot suite true{{script}} --machine --list {list}": (
        "zero.txt:1: the line is longer than any answer"
    ),
    f"page make {TOP}/examples/byte-screen.vga --module {{s}}": (
        f"{TOP}/examples/byte-screen.vga: it is read as {TOP}"
    ),
    # What is wrong with folders and files is said before any work.
    "library make {s}": "s.vga: it is not a folder",
    "library make {s}/kit": "s.vga: it is not a folder",
    "library make {o} --archive /dev/zero": "/dev/zero: there is no such file",
    "library make {o} --archive no-such-file": "vga-library: no-such-file: there is no such file\n",
    "library install --prefix usr": "vga-library: usr: a prefix begins with a slash\n",
    "library install --prefix /usr --libdir /lib": (
        "vga-library: /lib: the folder of libraries is named from the prefix"
    ),
    "library make {o} --archive ": "vga-library: the name of a file ",
    "release {s}": "s.vga: it is not a folder",
    "release {o} --program /dev/zero": "/dev/zero: there is no such file",
    "page make {s}/page": "there is no such folder",
    f"page make {TOP}/page/index.html --module {{s}}": (
        f"vga-page: {TOP}/page/index.html: it is read as {TOP}"
    ),
    "zaklimot run {s} --pictures {s}": "it is not a folder",
    "zaklimot suite --scripts {d}/empty": "the folder has files, and none of them is to be lost",
    "zaklimot run {d}/empty": "it has no script: their names end with .vga or .bin",
    "zaklimot pictures {r} {r}": "zaklimot: {r}: it is not a folder\n",
    "zaklimot run  --vga {p}": "zaklimot: the name of a file ",
    "zaklimot trace convert {t} ": "the name of a file ",
    # Files that are not there.
    "zaklimot run {s} --vga {o}": "zaklimot: {o}: No such file or directory\n",
    "zaklimot trace convert {t} {o}/script": "zaklimot: {o}: there is no such folder\n",
    "zaklimot floppy make {o} {d}/image": "zaklimot: {o}: No such file or directory\n",
    "zaklimot floppy make {d} {o}": "zaklimot: {d}: it is a folder without list.txt, which",
    "zaklimot floppy make {move} {o}": MOVE,
    "zaklimot floppy make {move} {o}": MOVE,
    "zaklimot floppy run --on dosbox {move}": MOVE,
    "zaklimot floppy make {end} {o}": "zaklimot: {end}:2: F7 BadLine(2): no repeat is open here",
    "zaklimot floppy make {cut} {o}": (
        "zaklimot: {cut}: F5 Truncated(5): the step out at offset 5 is cut off: the file ends"
        " after 1 of its bytes\n"
    ),
    "zaklimot floppy read {t}": "zaklimot: {t}: it is no image of `zaklimot floppy`\n",
    "zaklimot floppy read --serial {t}": "zaklimot: {t}: it holds no record of `zaklimot floppy`\n",
    "fuzz {o}": "it is no program",
    "fuzz {d}": "it is no program",
    "fuzz /bin/true": "vga asm: status 0, and it has written no script",
    # Disks that are full.
    "zaklimot trace convert {t} /dev/full": "zaklimot: /dev/full: No space left on device\n",
    "zaklimot floppy make {s} /dev/full": "zaklimot: /dev/full: No space left on device\n",
    "zaklimot floppy read {m} /dev/full": "zaklimot: /dev/full: No space left on device\n",
    # Standard input can be read once.
    "zaklimot compare - -": "zaklimot: standard input can be read once\n",
    "zaklimot trace check - -": "zaklimot: standard input can be read once\n",
    # Words that contradict one another, or lack something.
    "zaklimot run {d} --vga {p} --bless": "a folder of scripts, and --junit, want none of --bless",
    "zaklimot run - --vga {p} --bless": "--bless writes into the script, whole: it wants a file",
    "zaklimot run - --vga {p} --junit {o}": "--junit wants a file or a folder",
    "zaklimot compare {r} {r2} --expected --all": "--expected tells the first step that differs",
    "zaklimot run {s} --junit {o} --json {o}": "zaklimot: {o}: two outputs have this name, "
    "and one would be lost\n",
    "zaklimot pictures {sizes} --apng {o}": (
        "zaklimot: step 2 has a picture of another size than step 1: --step picks those of one"
        " size\n"
    ),
    "zaklimot pictures {ok} --apng {o} --script {i}": "zaklimot: {i}:1: F7 BadLine(1): ",
    "zaklimot pictures {ok} --apng {o} --script {move}": "zaklimot: {move}:2: F7 BadLine(2): ",
    "zaklimot pictures {ok} --apng {o} --script /dev/null": (
        "zaklimot: /dev/null: it is not the report's script: "
        "step 2 has a picture, and is no frame of it\n"
    ),
    "zaklimot pictures {r}": "the pictures want a folder, or --apng a file",
    "zaklimot pictures {r} {d} --apng {o}": (
        "--apng writes one file, with neither a folder nor --ppm"
    ),
    "zaklimot pictures {r} {o} --ppm --aspect": "--ppm gives the bytes as they are",
    "zaklimot pictures {ok} - --step 1": (
        "zaklimot: {ok}: step 1 has no picture; there are 2 steps\n"
    ),
    "zaklimot pictures {none} -": "zaklimot: {none}: no step has a picture\n",
    "zaklimot compare {ok} {i} --step 1": (
        "zaklimot: {ok}: step 1 has no picture; there are 2 steps\n"
    ),
    "zaklimot suite --scripts -": "zaklimot: the files want a folder\n",
    "zaklimot suite --scripts {s}": "zaklimot: {s}: it is not a folder\n",
    "zaklimot trace": "usage: zaklimot trace",
    "zaklimot trace convert {t}": "usage: zaklimot trace",
    "zaklimot trace pictures {t}": (
        "zaklimot: name a folder for the pictures, or by --png, --apng or --video a file\n"
    ),
    "zaklimot trace convert {t} {o} --frames 0": "argument --frames: '0' ",
    "zaklimot trace convert {t} - --from 300 --to 100": (
        "--from 300 is after --to 100: no cycle is both"
    ),
    "zaklimot trace record {d}/empty --vga {p} -- -cdrom x": "it has files: name a new folder",
    "zaklimot trace record {o} --vga {p}": "qemu needs words after `--`",
    "zaklimot trace record {o} --key 2:": "'2:' is no key of qemu's",
    "zaklimot trace record {o} --key x:ret": "argument --key: 'x' ",
    "zaklimot trace record {o} --screen soon": "argument --screen: 'soon' ",
    "zaklimot trace convert - - --time --frames clock": (
        "zaklimot: frames by the clock have the time already: without --time\n"
    ),
    "page make x --proof p": "vga-page: --proof keeps a proof of --gated",
    "page module x --proof p": "vga-page: --proof keeps a proof of --gated",
    "page make x --module m --gated": "vga-page: --module takes a module as it is",
    "page make {o} --module {t}": "it is no WebAssembly module",
    "library-tests --target aarch64 --only pc": (
        "vga-library-tests: pc: there is no such check for aarch64\n"
    ),
    # Numbers have ranges.
    "zaklimot run {s} --until -1 --vga {p}": " from 0 to 4294967295\n",
    **{
        f"{words} {option} {number}": f"argument {option}: '{number}' "
        for words, option, numbers in (
            ("zaklimot suite x{{script}}", "--timeout", "-1 0 nan inf"),
            ("zaklimot suite x{{script}}", "--jobs", "0 1000"),
            ("zaklimot suite x{{script}}", "--output", "-1"),
            ("zaklimot pictures r f", "--scale", "0 1001 +1"),
            ("zaklimot pictures r f", "--step", "-1"),
            ("zaklimot run {s}", "--until", "-1"),
            ("fuzz", "--timeout", "0"),
            ("fuzz", "--memory", "0 -1"),
            ("fuzz", "--output", "0"),
            ("fuzz", "--seconds", "0 nan"),
        )
        for number in numbers.split()
    },
}
GOOD = png(1, 1, bytes(4))
# So many dots may an image have here.
MOST_DOTS = 1 << 24
# What is said of images that are none, or can't be read, without pillow and with it.
NO_IMAGE = f"this is neither a PNG nor a PPM of the kind P6; {others.WITHOUT}"
NO_INTERLACE = f"an interlaced PNG can't be read: save it without interlace; {others.WITHOUT}"
INTERLACED = [(NO_INTERLACE, png(1, 1, bytes(4), interlace=1))]
if others.pillow() is not None:
    NO_IMAGE = "pillow can't read it: cannot identify image file"
    INTERLACED = []
BAD_IMAGES: tuple[tuple[Any, ...], ...] = (
    (NO_IMAGE, b"", b"GIF89a"),
    ("the PNG is damaged", GOOD[:-1], GOOD[:20], GOOD[:40], png(1, 2, bytes(4))),
    ("the PNG is damaged", GOOD.replace(b"IDAT", b"IDAX"), GOOD.replace(b"IDAT", b"iDAT")),
    ("the header of the PPM is damaged", b"P6\n320 200\n", b"P6 1"),
    ("the PPM of 320x200 dots is damaged", ppm(320, 200, bytes(100))),
    ("the PPM of 1x1 dots is damaged", b"P6\n1 1\n255\n\0", b"P6\n1 1\n63\n\x3f\x3f\x40"),
    ("the PPM of 0x1 dots is damaged", b"P6\n0 1\n255\n123"),
    ("the PPM of 1x0 dots is damaged", b"P6\n1 0\n255\n123"),
    ("a PNG of this form can't be read: 0x1, depth 8, colour type 2", png(0, 1, b"\0")),
    ("a PNG of this form can't be read: 1x1, depth 3, colour type 2", png(1, 1, bytes(4), depth=3)),
    ("the components go to 100; 63 and 255 can be read", b"P6\n1 1\n100\n123"),
    ("the components go to 1000; 63 and 255 can be read", b"P6\n1 1\n1000\n123456"),
    ("the components go to 65535; 63 and 255 can be read", b"P6\n1 1\n65535\n123456"),
    (
        "a row of the PNG has filter 5, and the filters are 0 to 4",
        png(1, 2, bytes(4) + b"\5" + bytes(3)),
    ),
    ("a row of the PNG has filter 255, and the filters are 0 to 4", png(1, 1, b"\xff" + bytes(3))),
    ("the PNG names a colour that it does not have", png(1, 1, b"\0\0", colour=3)),
    ("a PNG of this form can't be read: 1x1, depth 8, colour type 5", png(1, 1, b"\0", colour=5)),
    *INTERLACED,
    ("the image has 5000x5000 dots, and 16,777,216 are the most", png(5000, 5000, b"")),
    ("the image has 9999999x2 dots, and 16,777,216 are the most", b"P6 9999999 2 255\n"),
)
# Words of the tools, in which the file {in} is read, what it has, and the other name of it in the
# folder, which would be written.
READ_AND_WRITTEN: list[tuple[str, str | bytes, str]] = [
    ("zaklimot run {s} --vga {p} --fonts {in} --json {out}", "font", "out"),
    ("zaklimot run {in} --vga {p} --json {out}", "frame\n", "out"),
    ("zaklimot run {in} --vga {p} --junit {out}", "frame\n", "out"),
    ("zaklimot run {in} --vga {p} --pictures {d}", "frame\n", "0001.png"),
    ("zaklimot run {s} --vga {in} --json {out}", PROGRAM, "out"),
    ("zaklimot page {in} {out}", "frame\n", "out"),
    ("zaklimot page {s} {out} --fonts {in}", bytes(9728), "out"),
    ("zaklimot pictures {r} --apng {out} --script {in}", "frame\n", "out"),
    ("zaklimot pictures {in} --apng {out}", report(PICTURE), "out"),
    ("zaklimot pictures {in} {d} --ppm", report(PICTURE), "0001.ppm"),
    ("zaklimot pictures {in} {d}", report(PICTURE), "0001.png"),
    ("zaklimot compare {in} {r2} --picture {out}", report(PICTURE), "out"),
    ("zaklimot compare {r2} {in} --picture {out}", report(PICTURE), "out"),
    ("zaklimot compare {r2} {in} --step 1 --picture {out}", PICTURE, "out"),
    ("zaklimot trace convert {in} {out}", "- w p 3C4 02 1\n", "out"),
    ("zaklimot floppy make {in} {out}", "frame\n", "out"),
    ("zaklimot floppy read {in} {out}", IMAGE, "out"),
    ("page make {out} --module {in}", "module", "out"),
]


def limit_memory(room: int) -> None:
    """Lets a process take so many bytes more than it has."""
    room += resource.getpagesize() * int(Path("/proc/self/statm").read_text().split()[0])
    resource.setrlimit(resource.RLIMIT_AS, (room, room))


@unittest.skipUnless(sys.platform == "linux", "the limits are those of Linux")
class Refused(Folder):
    def setUp(self) -> None:
        super().setUp()
        for name, content in FILES.items():
            self.write(name, content)
        for name in ("zero.txt", "endless.vga", "empty/list.txt"):
            (self.folder / name).symlink_to("/dev/zero")
        self.places = {
            name.removesuffix(".vga"): str(self.folder / name) for name in (*FILES, "o", "in")
        }
        self.places.update(p=self.program("p", PROGRAM), d=str(self.folder))

    def files(self) -> dict[Path, int]:
        """All that is in the folder, with the times at which it was written."""
        return {path: path.lstat().st_mtime_ns for path in self.folder.rglob("*")}

    def said(self, words: str) -> tuple[bytes, str]:
        """What a tool writes and says that is to do nothing, with little memory and no input."""
        tool, *rest = words.split(" ")
        status, output, said = run_tool(
            tool if tool == "zaklimot" else f"vga-{tool}",
            *(word.format(**self.places) for word in rest),
            prepare=partial(limit_memory, MEMORY),
        )
        self.assertEqual(status, 2, said)
        self.assertNotIn("Traceback", said)
        return output, said

    def test_each_is_told_and_nothing_is_written(self) -> None:
        before = self.files()
        for words, told in REFUSED.items():
            with self.subTest(words):
                output, said = self.said(words)
                self.assertEqual(output, b"")
                wanted = told.format(**self.places)
                is_whole = told.startswith(("vga-", "zaklimot: ")) and told.endswith("\n")
                self.assertTrue(said == wanted if is_whole else wanted in said, said)
                self.assertEqual(self.files(), before)

    def test_what_is_no_image(self) -> None:
        for told, *images in BAD_IMAGES:
            for image in images:
                with self.subTest(told, image=image[:40]):
                    self.assertEqual(refused(image_of, image, "it", MOST_DOTS), f"it: {told}")

    def test_what_is_read_is_not_written_under_whatever_name(self) -> None:
        for words, content, name in READ_AND_WRITTEN:
            links: tuple[Callable[[Path, Path], None], ...] = (os.link, os.symlink)
            for link in links:
                with self.subTest(words, link=link.__name__):
                    (self.folder / "in").unlink(missing_ok=True)
                    path = Path(self.write("in", content))
                    path.chmod(0o755 if content == PROGRAM else 0o644)
                    other = self.folder / name
                    other.parent.mkdir(parents=True, exist_ok=True)
                    link(path, other)
                    self.places["out"] = str(other)
                    before = path.read_bytes(), self.files()
                    _, said = self.said(words)
                    self.assertIn(f"{other}: it is read as {path}, so it isn't written\n", said)
                    self.assertEqual((path.read_bytes(), self.files()), before)
                    self.assertEqual(other.read_bytes(), before[0])
                    other.unlink()

    def test_memory_holds_one_picture(self) -> None:
        path = self.write("many.vga", "frame\n" * PICTURES)
        program = self.program("many", MANY)
        done = run_tool(
            "zaklimot",
            "run",
            path,
            "--vga",
            program,
            "--quiet",
            prepare=partial(limit_memory, ROOM),
        )
        self.assertEqual(done, (0, f"{path}: {PICTURES} steps, {PICTURES} pictures\n".encode(), ""))
