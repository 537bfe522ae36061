"""Releases: their archives and pages, how one is installed, and the library for other processors.

A release has the same bytes whatever the order and the time, from a commit alone.
"""

import os
import re
import shutil
import sys
from pathlib import Path
from typing import Iterator

from zaklimot.commands import TOP
from zaklimot_dev.release import command as release
from zaklimot_dev.release.command import FRONT, INSTALL, LINKS, MADE_OF, PATHS, Entry, File, settled

from .test_pages import broken
from .tools import Folder, ended, hold, hold_undone, takes_long


ENTRIES: dict[str, Entry] = {
    "z/lib/b.so.1": File(b"library"),
    "z/lib/b.so": "b.so.1",
    "z/bin/vga": File(b"program", True),
    "z/a": File(b""),
}


def sources() -> dict[str, Entry]:
    """What goes into a release of the files as they lie here, with nothing in the place of what is
    built."""
    entries: dict[str, Entry] = {
        name: File(b"")
        for name in (
            "bin/vga",
            INSTALL,
            MADE_OF,
            "lib/libzaklimot.a",
            "share/zaklimot/zaklimot.fnt",
            "scripts/list.txt",
        )
    }
    for name in PATHS:
        below = [TOP / name] if (TOP / name).is_file() else sorted((TOP / name).rglob("*"))
        for path in below:
            place = path.relative_to(TOP)
            if path.is_symlink():
                entries[str(place)] = str(path.readlink())
            elif path.is_file() and not {"out", "target", "__pycache__"} & set(place.parts):
                entries[str(place)] = File(path.read_bytes(), os.access(path, os.X_OK))
    return {**entries, **LINKS}


@takes_long
class Whole(Folder):
    """All pages of a release, as who has unpacked it reads them."""

    def setUp(self) -> None:
        super().setUp()
        self.pages = {}
        for place, entry in settled(sources()).items():
            (self.folder / place).parent.mkdir(parents=True, exist_ok=True)
            if isinstance(entry, str):
                (self.folder / place).symlink_to(entry)
            elif self.write(place, entry.content) and place.endswith(".md"):
                self.pages[place] = entry.content.decode("utf-8")

    def test_each_link_leads_to_what_is_there(self) -> None:
        self.assertTrue(self.pages[FRONT].startswith("# Zaklimot: a release\n"))
        self.assertTrue(self.pages[f"docs/{FRONT}"].startswith("# Zaklimot\n"))
        self.assertIn("(docs/RELEASES.md)", self.pages[FRONT])
        self.assertTrue(len(self.pages) > 30 and (self.folder / "share/man/man1/vga.1").exists())
        hold(
            self,
            lambda page: broken(self.folder / page, self.pages[page]),
            ((page, []) for page in self.pages),
        )

    def test_what_is_compiled_on_other_machines_is_there(self) -> None:
        """The C file, what CMake reads of it, and what the packages make of it."""
        self.assertIn(
            "add_subdirectory(portable)", (self.folder / "CMakeLists.txt").read_text("ascii")
        )
        crate = "bindings/rust/zaklimot-sys"
        source = self.folder / "portable" / "zaklimot.c"
        for copy, file in (
            (f"{crate}/portable/zaklimot.c", "portable/zaklimot.c"),
            (f"{crate}/portable/zaklimot.h", "include/zaklimot.h"),
            (f"{crate}/portable/zaklimot.fnt", "fonts/zaklimot.fnt"),
            (f"{crate}/LICENSE", "LICENSE"),
            ("bindings/rust/zaklimot/LICENSE", "LICENSE"),
            ("python/LICENSE", "LICENSE"),
        ):
            copied, own = ((self.folder / place).read_bytes() for place in (copy, file))
            self.assertTrue(copied == own, copy)
        backend = self.folder / "python" / "building.py"
        asking = f"import runpy; print(runpy.run_path({str(backend)!r})['part']('zaklimot.c'))"
        self.assertEqual(ended(sys.executable, "-c", asking), (0, f"{source}\n", ""))

    def test_each_command_is_there_or_told_to_be_elsewhere(self) -> None:
        elsewhere = re.findall(
            r"`([^`]+)`",
            self.pages[FRONT].partition("These prove, build or test")[2].partition("\n\n")[0],
        )
        self.assertIn("tools/vga-library", elsewhere)
        for page, text in self.pages.items():
            # What a page's own commands make is there then.
            made = {Path(name).name for name in re.findall(r" -o (\S+)", text)}
            for name in commands_of(text):
                with self.subTest(page=page, command=name):
                    is_there = (self.folder / name).exists() or Path(name).name in made
                    self.assertTrue(is_there or any(name.startswith(told) for told in elsewhere))
        # What is told to be elsewhere is not here.
        others = [name for name in elsewhere if name.startswith("tools/")]
        self.assertEqual(
            {((self.folder / name).exists(), (TOP / name).exists()) for name in others},
            {(False, True)},
        )


# What may stand before a program of the repository, or before the folder of its tests.
STARTING = (
    r"(?:(?:\S*/)?python3? |python3 -m unittest discover --start-directory |node (?:--\S+ )*)?"
)


def commands_of(text: str) -> Iterator[str]:
    """The programs of the repository that a page's commands name, by their place."""
    for line in re.findall(r"^(?: {4,}|\s*\$ )(?:\$ )?(.+)$", text, re.M):
        found = re.match(
            STARTING
            + r"((?:tools|crates|bin|bench|\.ci|examples|fonts|page|bindings)/[\w./-]+)( |$)",
            line,
        )
        if found:
            yield found[1]
        elif re.match(r"\(cd crates/|rt ", line):
            yield line.strip("(")


class Installing(Folder):
    """The command that lays a release below a prefix."""

    def setUp(self) -> None:
        super().setUp()
        self.release = self.folder / "a release"
        self.program("a release/bin/vga", "#!program")
        for place, text in (
            ("include/z.h", "header"),
            ("lib/z.so.1", "library"),
            ("share/z/f.fnt", "font"),
        ):
            self.write(f"a release/{place}", text)
        (self.release / "lib/z.so").symlink_to("z.so.1")
        shutil.copy(Path(release.__file__).parent / INSTALL, self.release / INSTALL)

    def install(self, *words: str) -> tuple[int, str, str]:
        return ended("sh", self.release / INSTALL, *words, cwd=self.folder)

    def test_all_is_laid_and_told(self) -> None:
        prefix = self.folder / "in here"
        laid = [
            f"{prefix}/{place}\n"
            for place in ("bin/vga", "include/z.h", "lib/z.so", "lib/z.so.1", "share/z/f.fnt")
        ]
        for _ in "12":
            self.assertEqual(self.install("--prefix", str(prefix)), (0, "".join(laid), ""))
        self.assertTrue(os.access(prefix / "bin/vga", os.X_OK))
        self.assertEqual(os.readlink(prefix / "lib/z.so"), "z.so.1")
        # A stage stands before the prefix.
        self.assertEqual(self.install("--destdir=stage", "--prefix=/usr")[0], 0)
        self.assertEqual((self.folder / "stage/usr/share/z/f.fnt").read_text(), "font")

    def test_where_the_font_is_used(self) -> None:
        self.write("a release/share/zaklimot/zaklimot.fnt", "font")
        for words, prefix in (
            (("--prefix", f"{self.folder}/in here"), f"{self.folder}/in here"),
            (("--destdir=stage", "--prefix=/usr"), "/usr"),
        ):
            status, told, said = self.install(*words)
            path = f"{prefix}/share/zaklimot/zaklimot.fnt"
            self.assertEqual(
                (status, said), (0, f"install.sh: vga takes the font by --fonts {path}\n")
            )
            self.assertIn(f"{path}\n", told)

    def test_what_it_refuses(self) -> None:
        (self.folder / "full" / "bin" / "vga").mkdir(parents=True)
        (self.release / "kit").mkdir()
        (self.release / "kit" / "bin").symlink_to("../bin")
        wanted = {
            ("--prefix", "here"): "begins with a slash",
            ("--prefix",): "wants a folder",
            ("--other",): "there is no option",
            ("--prefix", str(self.release)): "the release's own",
            ("--prefix", str(self.release / "kit")): "the release's own",
            ("--prefix", str(self.folder / "full")): "is a folder",
            ("--prefix", "/proc/none"): "there can be no folder",
        }
        for words, told in wanted.items():
            with self.subTest(words=words):
                hold_undone(self, self.install(*words), rf"{told}.*\n\Z")
        self.assertEqual((self.release / "bin/vga").read_text(), "#!program")
