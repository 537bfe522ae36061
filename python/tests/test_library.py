"""How the package finds the library, and what it says where there is none."""

from __future__ import annotations

import os
import shutil
import subprocess
import sys
import tempfile
import unittest
from pathlib import Path

import header
import zaklimot
from zaklimot import _file, _library, _version

SOURCES = header.TOP / "python"
OPEN = "import zaklimot; zaklimot.Card().close(); print(zaklimot.library_path())"
KIND = "import zaklimot; print(zaklimot.library().kind)"
TRIED = (
    f"import zaklimot\ntry:\n    {OPEN[17:]}\nexcept zaklimot.LibraryMissing as error:"
    " print('missing:', error)"
)


def said(program: str, *given: str, **names: str) -> str:
    """What a program writes, in an environment with these names and none of the library's own."""
    kept = {
        name: value
        for name, value in os.environ.items()
        if not name.startswith(("ZAKLIMOT_", "LD_LIBRARY"))
    }
    words = [sys.executable, "-B", "-c", program, *given]
    done = subprocess.run(
        words,
        env={**kept, "PYTHONPATH": str(SOURCES), **names},
        capture_output=True,
        text=True,
        timeout=60,
    )
    if done.returncode:
        raise AssertionError(done.stderr)
    return done.stdout.strip()


class Finding(unittest.TestCase):
    def test_by_the_environment(self) -> None:
        path = zaklimot.library_path()
        with tempfile.TemporaryDirectory() as name:
            folder, other = Path(name), Path(name) / "lib" / "x86_64-linux-gnu"
            other.mkdir(parents=True)
            (other / "libzaklimot.so").symlink_to(path)
            self.assertEqual(said(OPEN, ZAKLIMOT_DIR=str(folder)), str(other / "libzaklimot.so"))
        self.assertEqual(said(OPEN, ZAKLIMOT_LIBRARY=path), path)
        self.assertEqual(said(OPEN, ZAKLIMOT_LIBRARY=path, ZAKLIMOT_DIR="/no-such-folder"), path)

    def test_by_the_systems_loader(self) -> None:
        path = zaklimot.library_path()
        with tempfile.TemporaryDirectory() as name:
            (Path(name) / "libzaklimot.so.1").symlink_to(path)
            # Which file it took, the loader doesn't say.
            told = said(f"{OPEN}; {KIND}", LD_LIBRARY_PATH=name)
            self.assertRegex(told, "libzaklimot.so.*\nunknown")

    def test_a_file_that_is_not_there(self) -> None:
        for names in ({"ZAKLIMOT_LIBRARY": "/no-such-file"}, {"ZAKLIMOT_DIR": "/no-such-folder"}):
            told = said(TRIED, **names)
            for value in names.values():
                self.assertIn(value, told)
            for word in (
                "missing: ",
                "pip install ./python",
                "export ZAKLIMOT_LIBRARY=",
                "cc -O2 -fPIC -shared -Iinclude portable/zaklimot.c",
                "tools/vga-library make kit",
                "export ZAKLIMOT_DIR=$PWD/kit",
            ):
                self.assertIn(word, told)

    def test_another_library(self) -> None:
        with tempfile.TemporaryDirectory() as name:
            text = Path(name) / "libzaklimot.so"
            text.write_text("no library")
            self.assertIn("can't be loaded", said(TRIED, ZAKLIMOT_LIBRARY=str(text)))
        self.assertIn("lacks a call", said(TRIED, ZAKLIMOT_LIBRARY=_libc()))

    def test_versions_that_fit(self) -> None:
        own = 65536 + _version.API_MINOR
        for version, fits in ((0, True), (1, True), (-1, False), (65536, False), (-65536, False)):
            self.assertEqual(_library._fits(own + version), fits)

    def test_the_repositorys_font(self) -> None:
        own = Path(_library.__file__).resolve()
        self.assertEqual(_library._in_sources(own), [header.TOP / "fonts" / "zaklimot.fnt"])
        self.assertEqual(_library._in_sources(Path("/zaklimot/_library.py")), [])


class Kinds(unittest.TestCase):
    """Whether the library is the proved one or the portable one, which a file beside it tells."""

    def kind(self, folder: Path, name: str = "libzaklimot.so.1.6") -> str:
        (folder / name).touch()
        return _file.kind_of(str(folder / name))

    def test_of_what_is_loaded(self) -> None:
        found = zaklimot.library()
        self.assertEqual((found.path, found.version), (zaklimot.library_path(), zaklimot.version()))
        self.assertIn(found.kind, ("proved", "portable", "unknown"))
        self.assertEqual(said(KIND, ZAKLIMOT_LIBRARY=found.path), found.kind)
        with tempfile.TemporaryDirectory() as name:
            copy, link = Path(name) / "libzaklimot.so", Path(name) / "linked.so"
            shutil.copy(found.path, copy)
            link.symlink_to(found.path)
            self.assertEqual(said(KIND, ZAKLIMOT_LIBRARY=str(copy)), "unknown")
            # A link is the file that it leads to.
            self.assertEqual(said(KIND, ZAKLIMOT_LIBRARY=str(link)), found.kind)

    def test_by_the_file_beside_it(self) -> None:
        for place in ("kind", "pkgconfig/zaklimot.pc"):
            with tempfile.TemporaryDirectory() as name:
                note = Path(name) / place
                note.parent.mkdir(exist_ok=True)
                self.assertEqual(self.kind(Path(name)), "unknown")
                for text, kind in (
                    ("prefix=/usr\nkind=proved\nName: x\n", "proved"),
                    ("kind=portable\n", "portable"),
                    ("kind=unknown\n", "unknown"),
                    ("kind=provedly\n", "unknown"),
                    ("# kind=proved\n", "unknown"),
                    (5000 * "\n" + "kind=proved\n", "unknown"),
                    ("", "unknown"),
                ):
                    note.write_text(text)
                    self.assertEqual(self.kind(Path(name)), kind, text)
                note.write_bytes(b"kind=portable\n\xff")
                self.assertEqual(self.kind(Path(name)), "portable")
                # Another file there is not what was laid there.
                self.assertEqual(self.kind(Path(name), "other.so"), "unknown")

    def test_a_name_without_a_folder(self) -> None:
        with tempfile.TemporaryDirectory() as name:
            (Path(name) / "kind").write_text("kind=proved\n")
            program = "import os, sys; os.chdir(sys.argv[1]); from zaklimot import _file; "
            program += "print(_file.kind_of(sys.argv[2]))"
            self.assertEqual(said(program, name, "./libzaklimot.so"), "proved")
            self.assertEqual(said(program, name, "libzaklimot.so.1"), "unknown")


class Importing(unittest.TestCase):
    def test_it_needs_no_library(self) -> None:
        program = (
            "import zaklimot; script = zaklimot.Script(); script.frame(); print(script.text(),"
            " zaklimot.Card)"
        )
        self.assertEqual(
            said(program, ZAKLIMOT_LIBRARY="/no-such-file"), "frame\n <class 'zaklimot._card.Card'>"
        )

    def test_the_formats_come_alone(self) -> None:
        shown = (
            "print(*sorted(name for name in sys.modules if name.startswith('zaklimot') and"
            " '.format' not in name))"
        )
        for program in (
            "import zaklimot.format",
            "from zaklimot import format",
            "from zaklimot.format import parse_text",
        ):
            self.assertEqual(
                said(f"import sys; {program}; {shown}", ZAKLIMOT_LIBRARY="/no-such-file"),
                "zaklimot",
            )

    def test_names_come_when_they_are_used(self) -> None:
        self.assertLessEqual(set(zaklimot.__all__), set(dir(zaklimot)))
        self.assertEqual(
            said("from zaklimot import *; print(Card.__name__, run.__name__)"), "Card run"
        )
        self.assertEqual(zaklimot.__version__, _version.VERSION)
        with self.assertRaisesRegex(AttributeError, "has no attribute 'Crad'"):
            zaklimot.Crad
        with self.assertRaises(ImportError):
            from zaklimot import Crad  # noqa: F401


def _libc() -> str:
    """The path of the C library that this program has loaded."""
    with open("/proc/self/maps", encoding="ascii") as maps:
        return next(line.split()[-1] for line in maps if "/libc.so" in line or "/libc-" in line)


if __name__ == "__main__":
    unittest.main()
