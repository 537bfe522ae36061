"""The library for C: its header, its files and its page; the packages; that tests can fail."""

import os
import re
import shutil
import subprocess
import tempfile
import unittest
from pathlib import Path

from zaklimot.commands import TOP
from zaklimot.commands.core.trouble import Trouble
from zaklimot.commands.core.version import (
    HEADER,
    Version,
    calls_of,
    version,
    version_of,
    without_comments,
)
from zaklimot_dev.library.making import described
from zaklimot_dev.library_tests import checks
from zaklimot_dev.release import command as release

from .tools import ended


TEXT = HEADER.read_text("ascii")
PAGE = TOP / "docs" / "LIBRARY.md"
RELEASES = TOP / "docs" / "RELEASES.md"
STATUS = re.compile(r"^ +(ZAK_\w+) = (\d+)", re.M)
STRUCT = re.compile(r"^typedef struct (zak_\w+) \{", re.M)
REFUSAL = re.compile(r"^\| `E(\d+) \w+` \|", re.M)


class Header(unittest.TestCase):
    def test_its_version_and_its_calls(self) -> None:
        self.assertEqual(
            version_of("#define ZAK_API_MAJOR 3 /* x */\n#define ZAK_API_MINOR 14\n"),
            Version(3, 14),
        )
        self.assertRaises(Trouble, version_of, "#define ZAK_API_MAJOR 3\n")
        text = (
            "/* zak_status zak_old(int); */\nzak_status zak_open(int a,\n    int b);\nuint32_t"
            " zak_version(void);\n"
        )
        self.assertEqual(calls_of(text), ["zak_open", "zak_version"])
        # Each name of a call stands once in a line that was read as one.
        self.assertEqual(
            sorted(calls_of(TEXT)),
            sorted(set(re.findall(r"\b(zak_\w+)\(", without_comments(TEXT)))),
        )

    def test_refusals_are_their_numbers(self) -> None:
        numbers = {
            int(number) for number in REFUSAL.findall((TOP / "docs" / "REPORT.md").read_text())
        }
        # They stand in the header's first enum.
        statuses = {int(number) for _, number in STATUS.findall(TEXT[: TEXT.index("};")])}
        self.assertEqual(numbers, {status for status in statuses if 0 < status < 20})

    def test_each_struct_has_asserts(self) -> None:
        asserted = set(re.findall(r"TAKES\((zak_\w+), ", checks.LAYOUT.read_text("ascii")))
        self.assertEqual(asserted, {*STRUCT.findall(TEXT), "zak_status"})


class Page(unittest.TestCase):
    def test_its_programs_are_those_that_are_tried(self) -> None:
        text = PAGE.read_text("utf-8")
        for name, begins, end in (
            ("picture.c", "", ""),
            ("core.c", "static void take_frame(void)\n{", "\n}\n"),
            ("core.c", "static void settle(void)\n{", "\n}\n"),
            ("debugger.c", "/* Takes the next steps,", "\n}\n"),
            ("debugger.c", "static void back(", "\n}\n"),
            ("script.c", "zak_status script_assemble(", "\n}\n"),
            ("explain.c", "/* Says what is wrong in a text ", "\n}\n"),
            ("explain.c", "/* Says why the card refuses ", "\n}\n"),
            ("explain.c", "/* Says where the colour ", "\n}\n"),
            ("explain.c", "/* Writes a script that leads ", "\n}\n"),
        ):
            source = (TOP / "examples" / "c" / name).read_text("ascii")
            function = source[source.index(begins) :]
            self.assertIn(
                function[: function.index(end) + len(end)] if end else function, text, begins
            )
        lines = "".join(re.findall(r"^  ```cpp\n(.*?)^  ```$", text, re.M | re.S)).splitlines()
        tried = [line.strip() for line in checks.OBJECTS.read_text("ascii").splitlines()]
        self.assertEqual(
            (len(lines), [line for line in lines if line.strip() not in tried]), (65, [])
        )

    def test_its_version_is_the_header_s(self) -> None:
        self.assertIn(
            f"this is version {version()}.", " ".join(RELEASES.read_text("utf-8").split())
        )
        for page in (PAGE, RELEASES, TOP / release.PAGE):
            told = set(re.findall(r"zaklimot-(\d+\.\d+)-", page.read_text("utf-8")))
            self.assertEqual(told, {str(version())}, page.name)

    def test_each_call_is_named_and_has_its_function_in_cpp(self) -> None:
        page = PAGE.read_text("utf-8")
        functions = HEADER.with_suffix(".hpp").read_text("ascii")
        self.assertEqual([name for name in calls_of(TEXT) if name not in page], [])
        # Dumps, slices, lines and the print of a script are the C header's alone.
        lacking = {name for name in calls_of(TEXT) if not re.search(rf"\b{name}\b", functions)}
        self.assertEqual(
            {name.partition("_show_")[0] for name in lacking},
            {"zak", "zak_version", "zak_frame_lines", "zak_peek", "zak_run_on", "zak_print"},
        )


@unittest.skipUnless(shutil.which("rustc"), "rustc isn't installed")
class Finding(unittest.TestCase):
    """What the build of the crate for Rust finds, and what it says where there is no library."""

    folder: Path

    @classmethod
    def setUpClass(cls) -> None:
        folder = tempfile.TemporaryDirectory()
        cls.addClassCleanup(folder.cleanup)
        cls.folder = Path(folder.name)
        source = TOP / "bindings" / "rust" / "zaklimot-sys" / "build.rs"
        words = ["rustc", "--edition", "2021", "-D", "warnings"]
        subprocess.run([*words, "-o", cls.folder / "build", source], check=True, timeout=120)
        # Each of them has a file for pkg-config; the library of `empty` is not there.
        for name in ("full", "empty"):
            package = cls.folder / name / "lib" / "pkgconfig" / "zaklimot.pc"
            package.parent.mkdir(parents=True)
            package.write_text(next(iter(described("", "lib", version()).values())), "ascii")
        (cls.folder / "full" / "lib" / "libzaklimot.a").touch()

    def built(self, **names: str) -> tuple[int, str, str]:
        """How the build ends, what it tells cargo, and what it says."""
        cargo = {
            "CARGO_MANIFEST_DIR": str(self.folder / "crate"),
            "OUT_DIR": str(self.folder / "out"),
            "TARGET": "x86_64-unknown-linux-gnu",
            "HOST": "x86_64-unknown-linux-gnu",
        }
        return ended(self.folder / "build", env={"PATH": os.environ["PATH"], **cargo, **names})

    def test_what_is_found(self) -> None:
        full = self.folder / "full"
        for names in (
            {"ZAKLIMOT_DIR": str(full)},
            {"PKG_CONFIG_PATH": f"/no-such-folder:{full}/lib/pkgconfig"},
        ):
            with self.subTest(names):
                status, told, said = self.built(**names)
                self.assertEqual((status, said), (0, ""))
                self.assertIn("cargo:rustc-link-lib=static=zaklimot\n", told)
                self.assertIn("cargo:rustc-env=ZAKLIMOT_KIND=proved\n", told)
                folders = dict(line.partition("=")[::2] for line in told.splitlines())
                self.assertTrue(
                    os.path.samefile(
                        folders["cargo:rustc-link-search"].partition("=")[2], full / "lib"
                    )
                )

    def test_what_a_folder_tells_of_its_kind(self) -> None:
        for name, text, kind in (
            ("some", "kind=portable\n", "portable"),
            ("other", "kind=provedly\n", "unknown"),
            ("none", "", "unknown"),
        ):
            library = self.folder / name / "lib"
            (library / "pkgconfig").mkdir(parents=True)
            (library / "libzaklimot.so").touch()
            if text:
                (library / "pkgconfig" / "zaklimot.pc").write_text(text)
            status, told, said = self.built(ZAKLIMOT_DIR=str(library.parent))
            self.assertEqual((status, said), (0, ""))
            self.assertIn(f"cargo:rustc-env=ZAKLIMOT_KIND={kind}\n", told)
            self.assertIn("cargo:rustc-link-lib=dylib=zaklimot\n", told)

    def crate(self) -> Path:
        """The crate's folder of the library's files."""
        folder = self.folder / "crate" / "portable"
        shutil.rmtree(folder.parent, ignore_errors=True)
        folder.mkdir(parents=True)
        (self.folder / "out").mkdir(exist_ok=True)
        for name in ("zaklimot.c", "zaklimot.h", "zaklimot.fnt"):
            (folder / name).write_text("x")
        return folder

    def compiled(self, **names: str) -> tuple[dict[str, str], list[str]]:
        """What the build tells cargo, and the words of the compiler and of the archiver."""
        notes = self.folder / "notes"
        notes.unlink(missing_ok=True)
        fake = self.folder / "fake"
        fake.write_text(f'#!/bin/sh\necho "$0 $*" >>{notes}\n')
        fake.chmod(0o755)
        for name in ("ar", "cc", "aarch64-linux-gnu-gcc", "aarch64-linux-gnu-ar"):
            (self.folder / "bin").mkdir(exist_ok=True)
            (self.folder / "bin" / name).unlink(missing_ok=True)
            (self.folder / "bin" / name).symlink_to(fake)
        path = {"PATH": f"{self.folder / 'bin'}:{os.environ['PATH']}"}
        status, told, said = self.built(**{**path, "ZAKLIMOT_PORTABLE": "1", **names})
        self.assertEqual((status, said), (0, ""))
        lines = [line.replace(f"{self.folder}/", "") for line in notes.read_text().splitlines()]
        return dict(line.partition("=")[::2] for line in told.splitlines()), lines

    def test_what_is_compiled(self) -> None:
        self.crate()
        told, lines = self.compiled(ZAKLIMOT_DIR=str(self.folder / "full"), ZAKLIMOT_SHARED="1")
        self.assertEqual(
            lines,
            [
                (
                    "bin/cc -std=c99 -O2 -I crate/portable -fPIC -c crate/portable/zaklimot.c -o"
                    " out/zaklimot.o"
                ),
                "bin/ar crs out/libzaklimot.a out/zaklimot.o",
            ],
        )
        wanted = {
            "cargo:rustc-link-lib": "static=zaklimot",
            "cargo:rustc-env": "ZAKLIMOT_KIND=portable",
            "cargo:rustc-link-search": f"native={self.folder}/out",
            "cargo:fonts": f"{self.folder}/crate/portable/zaklimot.fnt",
        }
        self.assertEqual({name: told[name] for name in wanted}, wanted)
        self.assertNotEqual(told["cargo:rerun-if-changed"], f"{self.folder}/out")

    def test_for_other_targets_and_by_other_programs(self) -> None:
        self.crate()
        target = {"TARGET": "aarch64-unknown-linux-gnu"}
        other = {**target, "CC": "no-cc"}
        own = "bin/cc -std"
        cross = "bin/aarch64-linux-gnu-"
        path = str(self.folder / "bin" / "cc")
        for names, *wanted in (
            (target, f"{cross}gcc -std", f"{cross}ar crs"),
            ({**target, "CC": "cc -march=x", "AR": "ar"}, "bin/cc -march=x -std", "bin/ar crs"),
            ({**other, "CC_aarch64-unknown-linux-gnu": "cc"}, own, cross),
            ({**other, "CC_aarch64_unknown_linux_gnu": "cc", "AR": " "}, own, cross),
            ({"CC": path, "CC_other": "no-cc"}, own, "bin/ar crs"),
        ):
            with self.subTest(names):
                _, lines = self.compiled(**names)
                begun = [line[: len(begins)] for line, begins in zip(lines, wanted)]
                self.assertEqual(begun, wanted)
        _, lines = self.compiled(CFLAGS="-O3 -g")
        self.assertIn(" -fPIC -O3 -g -c ", lines[0])
        _, lines = self.compiled(TARGET="x86_64-pc-windows-gnu", CC="cc", AR="ar")
        self.assertNotIn("-fPIC", lines[0])

    def test_without_a_library_each_way_to_one_is_told(self) -> None:
        empty = str(self.folder / "empty")
        ways = ("a release", "./install.sh", "tools/vga-library install", "PKG_CONFIG_PATH")
        self.crate()
        packages = {"PKG_CONFIG_PATH": f"{empty}/lib/pkgconfig"}
        for names, begins in (
            ({**packages, "ZAKLIMOT_PORTABLE": "0"}, "there is no library libzaklimot.\n"),
            (
                {**packages, "CC": "no-cc"},
                "there is no library libzaklimot, and no-cc can't be run: ",
            ),
            (
                {**packages, "CC": "false"},
                "false ended with exit status: 1, and compiles no library.",
            ),
            ({"ZAKLIMOT_PORTABLE": "yes"}, "ZAKLIMOT_PORTABLE is yes, and it is to be 0 or 1.\n"),
            (
                {"ZAKLIMOT_DIR": empty},
                f"ZAKLIMOT_DIR is {empty}, and there is no lib/libzaklimot.a or .so.\n",
            ),
            (
                {"ZAKLIMOT_DIR": "kit"},
                "ZAKLIMOT_DIR is kit, and a path is to begin with a slash.\n",
            ),
        ):
            with self.subTest(names):
                status, told, said = self.built(**names)
                self.assertEqual((status, said[: len(begins)]), (1, begins))
                self.assertNotIn("rustc-link", told)
                kit, compiler = "tools/vga-library make kit", "Debian's packages gcc and libc6-dev"
                for way in (*ways, kit, "set ZAKLIMOT_DIR", compiler):
                    self.assertIn(way, said)

    def test_without_the_c_file_nothing_is_compiled(self) -> None:
        folder = self.crate()
        (folder / "zaklimot.c").unlink()
        status, _, said = self.built(ZAKLIMOT_PORTABLE="1")
        told = f"there is no library libzaklimot, and no {folder}/zaklimot.c to compile.\n"
        self.assertEqual((status, said[: len(told)]), (1, told))
