"""The package as it is built and installed, its examples, and what its pages say."""

from __future__ import annotations

import ast
import contextlib
import email
import inspect
import io
import os
import re
import shutil
import subprocess
import sys
import tarfile
import tempfile
import unittest
import zipfile
from functools import lru_cache
from pathlib import Path
from unittest import mock

import header
import zaklimot
from zaklimot import Card, _errors

HERE = header.TOP / "python"
EXAMPLES = header.TOP / "examples" / "python"
PAGE = header.TOP / "docs" / "PYTHON.md"


def run(*words: str | Path, env: dict[str, str] | None = None) -> str:
    """What a program writes that ends well."""
    done = subprocess.run(
        [str(word) for word in words], env=env, capture_output=True, text=True, timeout=300
    )
    if done.returncode:
        raise AssertionError(f"{words}: {done.stdout}{done.stderr}")
    return done.stdout


def build(folder: str, what: str = "wheel", project: Path = HERE, /, **names: str) -> Path:
    """What the backend builds, in an environment with these names."""
    program = f"import sys; sys.path.insert(0, {str(project)!r}); import building; "
    program += f"print(building.build_{what}({folder!r}))"
    kept = {name: value for name, value in os.environ.items() if not name.startswith(OWN)}
    return Path(folder) / run(sys.executable, "-B", "-c", program, env={**kept, **names}).strip()


# The name of a wheel with a library, which tells the glibc that it needs, or the system alone.
NAME = r"^zaklimot-\d+\.\d+-py3-none-(manylinux_\d+_\d+|linux)_\w+(\.manylinux\w+)?\.whl$"
# How the names begin by which the environment tells of libraries and compilers.
OWN = ("ZAKLIMOT_", "CC", "CFLAGS")
# Compilers in the shell. Their last word is where the library goes.
LAST = "for last; do :; done; "
COPYING, WRITING = 'cp "$LIBRARY" "$last"', 'echo text > "$last"'
FAILING = "echo no such option >&2; exit 1"
USED = """import os, zaklimot
os.chdir("/")
value = zaklimot.run("int ax=3\\nin 3CC")[1].value
print(zaklimot.library_path(), zaklimot.library().kind, value)
"""


@lru_cache(maxsize=None)
def environment() -> Path:
    """A new environment of Python's, which goes when the tests end."""
    folder = tempfile.TemporaryDirectory()
    unittest.addModuleCleanup(folder.cleanup)
    run(sys.executable, "-m", "venv", folder.name)
    return Path(folder.name) / "bin"


def used(package: Path) -> str:
    """What a program of an environment that has this package alone tells of its library."""
    run(environment() / "pip", "install", "--no-index", "--quiet", "--force-reinstall", package)
    others = ("ZAKLIMOT_", "PYTHON", "LD_")
    kept = {key: value for key, value in os.environ.items() if not key.startswith(others)}
    try:
        return run(environment() / "python", "-c", USED, env=kept)
    finally:
        run(environment() / "pip", "uninstall", "--quiet", "--yes", "zaklimot")


class Wheel(unittest.TestCase):
    def test_it_carries_the_library_and_needs_nothing_else(self) -> None:
        folder = os.environ.get("ZAKLIMOT_DIR")
        if not folder:
            self.skipTest("ZAKLIMOT_DIR is not set")
        with tempfile.TemporaryDirectory() as name:
            wheel = build(name, ZAKLIMOT_DIR=folder)
            self.assertRegex(wheel.name, NAME)
            told = used(wheel)
            self.assertIn(f"/zaklimot/carried/libzaklimot.so {zaklimot.library().kind} 103", told)
            self.assertTrue(told.startswith(str(environment().parent)))

    def test_without_the_library_it_is_for_all_machines(self) -> None:
        with tempfile.TemporaryDirectory() as name:
            wheel = build(name, ZAKLIMOT_PORTABLE="0")
            self.assertTrue(wheel.name.endswith("-py3-none-any.whl"))
            sources = HERE / "zaklimot"
            own = {
                str(path.relative_to(sources))
                for path in sources.rglob("*")
                if path.is_file() and not {"__pycache__", "carried"} & {*path.parts}
            }
            self.assertGreater(own, {"format/table.py", "py.typed", "commands/floppy/boot.bin"})
            with zipfile.ZipFile(wheel) as files:
                names = files.namelist()
                self.assertIn(
                    "Requires-Python: >=3.9\n",
                    files.read(next(n for n in names if n.endswith("METADATA"))).decode(),
                )
            packed = {path.partition("/")[2] for path in names if path.startswith("zaklimot/")}
            taken = {path for path in packed if path.startswith("commands/carried/")}
            self.assertEqual(own | {"carried/zaklimot.fnt"}, packed - taken)
            self.assertIn("commands/carried/page/zaklimot.html", taken)
            self.assertEqual(wheel.read_bytes(), build(name, ZAKLIMOT_PORTABLE="0").read_bytes())

    def test_a_folder_without_the_library(self) -> None:
        with tempfile.TemporaryDirectory() as name, self.assertRaisesRegex(
            AssertionError, "type tools/vga-library make"
        ):
            build(name, ZAKLIMOT_DIR=name)


class Compiled(unittest.TestCase):
    """What is built with nothing but a C compiler."""

    def setUp(self) -> None:
        folder = tempfile.TemporaryDirectory()
        self.addCleanup(folder.cleanup)
        self.folder = Path(folder.name)

    def compiler(self, text: str) -> dict[str, str]:
        """The environment of a compiler that does this."""
        script = self.folder / f"compiler-{len(list(self.folder.glob('compiler-*')))}.sh"
        script.write_text(LAST + text)
        return {"CC": f"sh '{script}'", "LIBRARY": zaklimot.library_path()}

    def carried(self, wheel: Path) -> dict[str, bytes]:
        """The library, its kind and its font in a wheel."""
        place = "zaklimot/carried/"
        with zipfile.ZipFile(wheel) as files:
            names = [name for name in files.namelist() if name.startswith(place)]
            return {name[len(place) :]: files.read(name) for name in names}

    def test_in_an_empty_environment_by_way_of_the_sources(self) -> None:
        """The archive of the sources has all that is needed, and its wheel is the repository's."""
        archive = build(str(self.folder), "sdist")
        quick = {**os.environ, "CFLAGS": "-O0", "ZAKLIMOT_DIR": "", "CC": ""}
        words = ("--no-index", "--no-deps", "--quiet", "--wheel-dir", self.folder / "made", archive)
        run(sys.executable, "-m", "pip", "wheel", *words, env=quick)
        (wheel,) = (self.folder / "made").iterdir()
        self.assertRegex(wheel.name, NAME)
        told = used(wheel)
        self.assertTrue(told.endswith("/zaklimot/carried/libzaklimot.so portable 103\n"), told)
        self.assertTrue(told.startswith(str(environment().parent)))
        self.assertEqual(wheel.read_bytes(), build(str(self.folder), CFLAGS="-O0").read_bytes())
        self.assertEqual(archive.read_bytes(), build(str(self.folder), "sdist").read_bytes())

    def test_what_it_carries(self) -> None:
        copying = self.compiler(COPYING)
        library, fonts = Path(zaklimot.library_path()).read_bytes(), zaklimot.default_fonts()
        made = {"libzaklimot.so": library, "zaklimot.fnt": fonts, "kind": b"kind=portable\n"}
        self.assertEqual(self.carried(build(str(self.folder), **copying)), made)
        # By the variable the C file goes before a folder.
        named = {**copying, "ZAKLIMOT_DIR": "/no-such-folder", "ZAKLIMOT_PORTABLE": "1"}
        self.assertEqual(self.carried(build(str(self.folder), **named)), made)

    def test_a_folder_is_of_the_kind_that_it_tells(self) -> None:
        for place, kind in (("lib/pkgconfig/zaklimot.pc", "proved"), ("lib/other.pc", "unknown")):
            kit = self.folder / kind
            (kit / "lib" / "pkgconfig").mkdir(parents=True)
            (kit / "share" / "zaklimot").mkdir(parents=True)
            shutil.copy(zaklimot.library_path(), kit / "lib" / "libzaklimot.so")
            (kit / "share" / "zaklimot" / "zaklimot.fnt").write_bytes(b"font")
            (kit / place).write_text("kind=proved\n")
            carried = self.carried(build(str(self.folder), ZAKLIMOT_DIR=str(kit)))
            self.assertEqual(carried["kind"].decode(), f"kind={kind}\n")

    def test_what_can_not_be_compiled(self) -> None:
        old = self.folder / "old.c"
        old.write_text("unsigned zak_version(void) { return 65536 + 3; }\n")
        older = f'cc -shared -fPIC {old} -o "$last"'
        for names, told in (
            (
                {"CC": "no-such-cc"},
                "there is no C compiler no-such-cc. Install one, as Debian's packages",
            ),
            (self.compiler(FAILING), "sh ended with status 1, and said:\nno such option\n"),
            (self.compiler("exit 0"), "sh ended with status 0, and said:"),
            (self.compiler(WRITING), "made a library that Python can't load: OSError: "),
            (self.compiler(older), "zaklimot.c is of version 1.3, and this package of 1.6\n"),
            ({"ZAKLIMOT_PORTABLE": "yes"}, "ZAKLIMOT_PORTABLE is yes, and it is to be 0 or 1\n"),
        ):
            with self.subTest(told), self.assertRaises(AssertionError) as caught:
                build(str(self.folder), **names)
            self.assertIn(told, str(caught.exception))
            self.assertNotIn("Traceback", str(caught.exception))

    def repository(self) -> Path:
        """The folder of the package in a copy of the repository that has no more than it needs."""
        project = self.folder / "copy" / "python"
        ignored = shutil.ignore_patterns("tests", "carried", "__pycache__")
        shutil.copytree(HERE, project, ignore=ignored)
        for folder in ("portable", "include", "fonts"):
            shutil.copytree(header.TOP / folder, self.folder / "copy" / folder)
        return project

    def test_sources_in_place_get_the_library(self) -> None:
        project = self.repository()
        copying = self.compiler(COPYING)
        carried = project / "zaklimot" / "carried"
        wheel = build(str(self.folder), "editable", project, ZAKLIMOT_DIR="/kit")
        self.assertTrue(wheel.name.endswith("-any.whl") and not carried.exists())
        wheel = build(str(self.folder), "editable", project, **copying)
        laid = {path.name for path in carried.iterdir()}
        self.assertEqual(laid, {"kind", "libzaklimot.so", "zaklimot.fnt"})
        self.assertEqual(used(wheel), f"{carried}/libzaklimot.so portable 103\n")

    def test_a_copy_without_the_repository(self) -> None:
        project = self.repository()
        shutil.rmtree(self.folder / "copy" / "portable")
        told = r"there is no portable/zaklimot\.c .*`pip install --upgrade pip`"
        self.assertRaisesRegex(AssertionError, told, build, str(self.folder), "wheel", project)

    def test_the_words_for_machines(self) -> None:
        sys.path.insert(0, str(HERE))
        self.addCleanup(sys.path.remove, str(HERE))
        import building

        for told, machine, bits, word in (
            ("linux-x86_64", "x86_64", 64, "linux_x86_64"),
            ("linux-x86_64", "x86_64", 32, "linux_i686"),
            ("linux-aarch64", "aarch64", 64, "linux_aarch64"),
            ("win-amd64", "AMD64", 64, "win_amd64"),
            ("win32", "AMD64", 32, "win32"),
            ("macosx-10.9-universal2", "x86_64", 64, "macosx_10_9_x86_64"),
            ("macosx-10.9-universal2", "arm64", 64, "macosx_11_0_arm64"),
            ("macosx-14.2-arm64", "arm64", 64, "macosx_14_2_arm64"),
        ):
            self.assertEqual(building.machine_word(told, machine, bits), word)
        with mock.patch.dict(os.environ, {"CC": "ccache 'my cc'", "CFLAGS": "-O3 -g"}):
            words = building.compiler_words("macosx_11_0_arm64")
        self.assertEqual((words[:2], words[-2:]), (["ccache", "my cc"], ["-O3", "-g"]))
        self.assertIn("-arch arm64 -mmacosx-version-min=11.0", " ".join(words))

    def test_what_it_tells_of_itself(self) -> None:
        """The licence, and a tag for each of the platforms in the name."""
        copying = self.compiler(COPYING)
        archive = build(str(self.folder), "sdist")
        with tarfile.open(archive) as opened:
            names = {name.partition("/")[2] for name in opened.getnames()}
        self.assertLessEqual({"LICENSE", "README.md", "needs.py", "building.py"}, names)
        wheel = build(str(self.folder), **copying)
        with zipfile.ZipFile(wheel) as files:
            (folder,) = {name.partition("/")[0] for name in files.namelist() if "-info/" in name}
            licence, told, kinds, record = (
                files.read(f"{folder}/{name}").decode("utf-8")
                for name in ("licenses/LICENSE", "METADATA", "WHEEL", "RECORD")
            )
        self.assertEqual(licence, (header.TOP / "LICENSE").read_text("utf-8"))
        self.assertIn(f"{folder}/licenses/LICENSE,sha256=", record)
        fields = email.message_from_string(told)
        self.assertEqual((fields["License-Expression"], fields["License-File"]), ("MIT", "LICENSE"))
        self.assertIn("vga", fields["Keywords"].split(","))
        self.assertIn("Topic :: System :: Emulators", fields.get_all("Classifier"))
        platforms = wheel.stem.rpartition("-")[2].split(".")
        tags = email.message_from_string(kinds).get_all("Tag")
        self.assertEqual(tags, [f"py3-none-{name}" for name in platforms])

    def test_the_platform_where_pip_takes_no_glibc(self) -> None:
        """A module of this name keeps pip from wheels for other machines, as on NixOS."""
        copying = self.compiler(COPYING)
        (self.folder / "_manylinux.py").write_text("manylinux1_compatible = False\n")
        wheel = build(str(self.folder), **copying, PYTHONPATH=str(self.folder))
        self.assertRegex(wheel.name, r"-py3-none-linux_\w+\.whl$")

    def test_what_pip_asks_first_needs_no_compiler(self) -> None:
        folder = build(str(self.folder), "wheel", ZAKLIMOT_PORTABLE="0")
        sys.path.insert(0, str(HERE))
        self.addCleanup(sys.path.remove, str(HERE))
        import building

        with zipfile.ZipFile(folder) as files:
            (place,) = (name for name in files.namelist() if name.endswith("METADATA"))
            self.assertEqual(files.read(place).decode("utf-8"), building.metadata())
        told = building.prepare_metadata_for_build_wheel(str(self.folder))
        self.assertEqual(f"{told}/METADATA", place)
        self.assertEqual((self.folder / place).read_text("utf-8"), building.metadata())


class Examples(unittest.TestCase):
    def run_example(self, *words: str | Path) -> str:
        return run(sys.executable, "-B", EXAMPLES / str(words[0]), *words[1:])

    def test_the_picture(self) -> None:
        script = (
            "int ax=13\n"
            + "".join(
                f"put {0xA0000 + at:X} {at % 320 // 20 + 16 * (2 * (at // 320) // 25):X}\n"
                for at in range(64_000)
            )
            + "frame\n"
        )
        with tempfile.TemporaryDirectory() as name:
            ppm, png = Path(name) / "picture.ppm", Path(name) / "picture.png"
            self.run_example("picture.py", ppm)
            picture = zaklimot.run(script)[64_001].picture
            assert picture is not None
            self.assertEqual(ppm.read_bytes(), picture.ppm())
            self.run_example("picture.py", png)
            self.assertEqual(png.read_bytes(), picture.png())

    def test_a_picture_that_can_not_be_written(self) -> None:
        with tempfile.TemporaryDirectory() as name:
            path = Path(name) / "none" / "picture.png"
            for words in (("picture.py", str(path)), ("palette.py", "13", str(path))):
                with self.subTest(words), self.assertRaisesRegex(
                    AssertionError, f": {path}: No such file or directory\n$"
                ):
                    self.run_example(*words)

    def test_the_palette(self) -> None:
        with tempfile.TemporaryDirectory() as name:
            png = Path(name) / "palette.png"
            self.run_example("palette.py", "13", png)
            self.assertTrue(png.read_bytes().startswith(b"\x89PNG\r\n\x1a\n"))
            with self.assertRaisesRegex(AssertionError, "mode 99: The video BIOS has no such mode"):
                self.run_example("palette.py", "99", png)

    def test_the_drivers_tests_pass(self) -> None:
        sys.path.insert(0, str(EXAMPLES))
        import test_driver

        tests = [test for name, test in vars(test_driver).items() if name.startswith("test_")]
        self.assertEqual(len(tests), 6)
        for test in tests:
            test()

    def test_slices(self) -> None:
        text = "; blanks\r\nversion 2\n int AX=3\nrepeat 2\nput b8000 41\nGET b8000\nend\n\nin 3cc"
        printed = (
            "version 2\nint ax=0003 bx=0000 cx=0000 dx=0000\nrepeat 2\nput B8000 41\nget"
            " B8000\nend\nin 3CC\n"
        )
        answers = "1 ax=0003 bx=0000 cx=0000 dx=0000\n2 ok\n3 41\n4 ok\n5 41\n6 67\n"
        with tempfile.TemporaryDirectory() as name:
            script = Path(name) / "few.vga"
            script.write_text(text)
            for steps in ("1", "4", "6", "1000"):
                self.assertEqual(self.run_example("slices.py", script, steps), printed + answers)
            script.write_text("frame\n\nmove 3C4 02\n")
            with self.assertRaisesRegex(AssertionError, "few.vga: line 3: "):
                self.run_example("slices.py", script, "1")
            for steps in ("0", "-1", "few"):
                with self.assertRaisesRegex(
                    AssertionError, f": {steps}: a slice has one step or more\n"
                ):
                    self.run_example("slices.py", script, steps)
            script.unlink()
            with self.assertRaisesRegex(AssertionError, "few.vga: No such file or directory"):
                self.run_example("slices.py", script, "1")


class Pages(unittest.TestCase):
    def test_programs_of_the_docstrings_run(self) -> None:
        for text, count in (
            (zaklimot.__doc__, 2),
            (Card.__doc__, 1),
            (zaklimot.run.__doc__, 1),
            (zaklimot.Script.__doc__, 1),
        ):
            blocks = self.programs(inspect.cleandoc(text or ""))
            self.assertEqual(len(blocks), count)
            with tempfile.TemporaryDirectory() as name:
                for block in blocks:
                    told = run(
                        sys.executable,
                        "-B",
                        "-c",
                        f"import os, zaklimot; os.chdir({name!r})\n{block}",
                    )
                    wanted = re.findall(r"print\(.*\) +# (.*)", block)
                    self.assertEqual(told.splitlines(), wanted)

    def test_lines_of_methods_run(self) -> None:
        begin = (
            "import zaklimot; card = zaklimot.Card(); card.int10(ax=0x13); buffer ="
            " bytearray(320)\n"
        )
        for method in (Card.put_bytes, Card.get_bytes, Card.clock):
            (block,) = self.programs(inspect.cleandoc(method.__doc__ or ""))
            names = re.findall(r"^(?:\w+ = )?(.*?) +# (\w+) in mode 13", block, re.M)
            shown = "".join(f"print({name})\n" for name, _ in names)
            told = run(sys.executable, "-B", "-c", f"{begin}{block}\n{shown}")
            self.assertEqual(told.split(), [value for _, value in names])

    def test_examples_of_methods_run(self) -> None:
        """Each example of a method of Card, on a card in mode 13 (hexadecimal)."""
        shown: list[int] = []
        tried = set()
        for name, method in inspect.getmembers(Card, inspect.isfunction):
            for block in self.programs(inspect.cleandoc(method.__doc__ or "")):
                with Card() as card:
                    card.int10(ax=0x13)
                    names = {"card": card, "zaklimot": zaklimot, "buffer": bytearray(320)}
                    names["show"] = lambda number, words: shown.append(number)
                    with contextlib.redirect_stdout(io.StringIO()):
                        exec(block, names)
                tried.add(name)
        self.assertLessEqual({"line", "save_into", "clock", "frame_words", "frame_update"}, tried)
        # The line that ends the frame is shown too.
        self.assertEqual(shown, list(range(449)))

    def test_programs_of_the_page_run(self) -> None:
        blocks = re.findall(r"^```python\n(.*?)^```$", PAGE.read_text("utf-8"), re.M | re.S)
        self.assertEqual(len(blocks), 10)
        with tempfile.TemporaryDirectory() as name:
            for block in blocks:
                told = run(
                    sys.executable, "-B", "-c", f"import os; os.chdir({name!r})\n{block}"
                ).splitlines()
                wanted = re.findall(r"print\(.*\) +# (.*)", block)
                self.assertEqual(told[-len(wanted) :], wanted)
            self.assertEqual(len((Path(name) / "picture.png").read_bytes()[:8]), 8)

    def programs(self, text: str) -> list[str]:
        """The indented parts of a text that are programs."""
        found = re.findall(r"(?:^(?: {4}.*)?\n?)+", text, re.M)
        return [inspect.cleandoc("\n" + block) for block in found if block.strip()]

    def test_all_that_is_public_has_a_docstring_and_types(self) -> None:
        for name in zaklimot.__all__:
            one = getattr(zaklimot, name)
            if callable(one):
                self.assertTrue(one.__doc__, name)
        for kind in (
            Card,
            zaklimot.Picture,
            zaklimot.XrgbPicture,
            zaklimot.Lines,
            zaklimot.Report,
            zaklimot.Step,
        ):
            for name, method in inspect.getmembers(kind, inspect.isfunction):
                if not name.startswith("_") and method.__module__.startswith("zaklimot"):
                    self.assertTrue(method.__doc__, f"{kind.__name__}.{name}")
                    self.assertIn("return", method.__annotations__, f"{kind.__name__}.{name}")

    def test_each_exception_is_exported(self) -> None:
        kinds = {kind.__name__ for kind in _errors._below(zaklimot.Error)}
        self.assertLessEqual(kinds, set(zaklimot.__all__))

    def test_names_that_the_sources_use_are_pythons_3_9(self) -> None:
        for path in (HERE / "zaklimot").rglob("*.py"):
            ast.parse(path.read_text("utf-8"), feature_version=(3, 9))


if __name__ == "__main__":
    unittest.main()
