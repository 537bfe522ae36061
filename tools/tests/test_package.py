"""The tools as one package: what its parts depend on, and where its commands run."""

from __future__ import annotations

import ast
import importlib.util
import os
import re
import sys
import tempfile
import unittest
import zipfile
from pathlib import Path
from unittest import mock

from zaklimot.commands import PARTS

from .tools import PACKAGE, PROGRAM, TOP, Folder, ended, hold_version, path_of, want_program


PYTHON = TOP / "python"
# What makes a wheel of this folder, and prints its name.
MAKING = "import sys, building; print(building.build_wheel(sys.argv[1]))"


def used_parts(path: Path) -> set[str]:
    """The parts of the tools' package that a module imports from."""
    package = path.relative_to(PYTHON).parts[:-1]
    found: set[str] = set()
    for node in ast.walk(ast.parse(path.read_text("utf-8"))):
        names = [name.name for name in node.names] if isinstance(node, ast.Import) else []
        if isinstance(node, ast.ImportFrom):
            above = package[: len(package) + 1 - node.level] if node.level else ()
            front = ".".join([*above, *([node.module] if node.module else [])])
            names = [f"{front}.{name.name}" for name in node.names]
        words = (name.split(".") for name in names)
        found.update(
            word[2]
            for word in words
            if word[:2] == ["zaklimot", "commands"] and word[2:3] and word[2] in PARTS
        )
    return found


class Parts(Folder):
    """The tools are one package, whose parts depend on those before them alone."""

    def test_all_parts_are_listed(self) -> None:
        self.assertEqual(
            sorted(PARTS), sorted(path.parent.name for path in PACKAGE.glob("*/__init__.py"))
        )

    def test_a_part_uses_those_before_it(self) -> None:
        seen: set[str] = set()
        for place, part in enumerate(PARTS):
            for path in sorted((PACKAGE / part).rglob("*.py")):
                with self.subTest(path.relative_to(PACKAGE)):
                    used = used_parts(path)
                    self.assertEqual(used - {*PARTS[: place + 1]}, set())
                    seen |= used
        # Each is used by some other, but for those that are tools alone.
        self.assertGreaterEqual(seen, {"core", "script", "explain", "images", "report", "trace"})

    def test_python_3_9_reads_each_module(self) -> None:
        for path in sorted(PACKAGE.rglob("*.py")):
            with self.subTest(path.relative_to(PACKAGE)):
                ast.parse(path.read_text("utf-8"), feature_version=(3, 9))
        with self.assertRaises(SyntaxError):
            ast.parse("match 1:\n    case 1: pass\n", feature_version=(3, 9))

    def test_what_a_module_uses_is_seen(self) -> None:
        for text, used in (
            ("from zaklimot.commands.core import cli", {"core"}),
            ("import zaklimot.commands.floppy.image", {"floppy"}),
            ("from zaklimot.commands import report as other", {"report"}),
            ("def work():\n    from ..images.png import write_png", {"images"}),
            ("from .words import add", {"script"}),
            ("from zaklimot.format import read", set()),
        ):
            with self.subTest(text), mock.patch(f"{__name__}.PYTHON", self.folder):
                path = Path(self.write("zaklimot/commands/script/module.py", text))
                self.assertEqual(used_parts(path), used)

    def test_a_tool_runs_from_any_folder_and_through_a_link(self) -> None:
        (self.folder / "there").mkdir()
        for name in ("zaklimot", "vga-page"):
            (self.folder / name).symlink_to(path_of(name))
            (self.folder / "there" / name).symlink_to(f"../{name}")
            for path in (str(path_of(name)), f"./{name}", f"there/{name}"):
                with self.subTest(path):
                    done = ended(sys.executable, "-S", path, "--version", cwd=self.folder)
                    hold_version(self, name, done)

    def test_python_runs_the_package_as_the_command(self) -> None:
        given = {**os.environ, "PYTHONPATH": str(PYTHON)}
        done = ended(sys.executable, "-S", "-m", "zaklimot", "--version", env=given)
        hold_version(self, "zaklimot", done)


class Installed(Folder):
    """`pip install ./python` gives the commands of users, which need nothing of the clone then."""

    site: Path
    starting: dict[str, str]

    @classmethod
    def setUpClass(cls) -> None:
        folder = tempfile.TemporaryDirectory()
        cls.addClassCleanup(folder.cleanup)
        cls.site = Path(folder.name) / "site"
        environment = {**os.environ, "ZAKLIMOT_PORTABLE": "0", "ZAKLIMOT_DIR": ""}
        words = (sys.executable, "-B", "-c", MAKING, folder.name)
        status, told, said = ended(*words, cwd=PYTHON, env=environment)
        assert status == 0, said
        name = told.strip()
        with zipfile.ZipFile(Path(folder.name) / name) as wheel:
            wheel.extractall(cls.site)
            listed = wheel.read(f"{name.rsplit('-', 3)[0]}.dist-info/entry_points.txt").decode()
        entries = re.findall(r"^(\S+) = (\S+):(\w+)$", listed, re.M)
        cls.starting = {
            name: f"from {module} import {work}; sys.exit({work}())"
            for name, module, work in entries
        }

    def run_installed(self, *words: str) -> tuple[int, str, str]:
        """Exit status, output and standard error of a command of the wheel."""
        command = f"import sys; sys.argv[0] = {words[0]!r}; {self.starting[words[0]]}"
        environment = {**os.environ, "PYTHONPATH": str(self.site)}
        python = [sys.executable, "-S", "-c", command]
        return ended(*python, *words[1:], cwd=self.folder, env=environment)

    def test_the_command_and_what_it_carries(self) -> None:
        self.assertEqual([*self.starting], ["zaklimot"])
        done = self.run_installed("zaklimot", "--version")
        hold_version(self, "zaklimot", done)
        words = ("suite", "--scripts", "cases", "--only", "dots/")
        status, told, said = self.run_installed("zaklimot", *words)
        self.assertEqual((status, said), (0, ""))
        self.assertTrue((self.folder / told.split("\n")[0]).is_file())

    def test_a_script_is_run_and_a_page_is_written(self) -> None:
        want_program()
        self.write("one.vga", "in 3CC ; = 00\n")
        done = self.run_installed("zaklimot", "run", "one.vga", "--vga", str(PROGRAM), "--quiet")
        self.assertEqual((done[0], done[2]), (0, ""))
        self.assertIn("1 of 1 answers as expected", done[1])
        done = self.run_installed("zaklimot", "page", "one.vga", "page.html")
        self.assertEqual((done[0], done[2]), (0, ""))
        self.assertGreater((self.folder / "page.html").stat().st_size, 100_000)

    @unittest.skipIf(importlib.util.find_spec("pip") is None, "there is no pip")
    def test_pip_installs_the_commands(self) -> None:
        words = ["-m", "pip", "install", "--quiet", "--no-index", "--disable-pip-version-check"]
        target = self.folder / "target"
        given = {**os.environ, "ZAKLIMOT_PORTABLE": "0", "ZAKLIMOT_DIR": ""}
        done = ended(sys.executable, *words, "--target", target, PYTHON, env=given)
        self.assertEqual((done[0], done[1]), (0, ""), done[2])
        environment = {**os.environ, "PYTHONPATH": str(target)}
        done = ended(target / "bin" / "zaklimot", "--version", env=environment)
        hold_version(self, "zaklimot", done)
