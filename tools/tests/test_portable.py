"""The portable program answers what the proved one answers; it is found last, compiled once, and
nothing is left behind."""

from __future__ import annotations

import contextlib
import io
import json
import fcntl
import os
import re
import shutil
import signal
import stat
import sys
import tempfile
import unittest
from functools import partial
from pathlib import Path
from unittest import mock

from zaklimot.format import FORMS
from zaklimot.format.table import END_CODE, REPEAT_CODE
from zaklimot.commands.core.files import files_of_run
from zaklimot.commands.core.trouble import Trouble
from zaklimot_dev.testing.running import BUILT
from zaklimot.commands.script import portable, program
from zaklimot.commands.script.portable import portable_library, portable_program
from zaklimot.commands.script.program import built_program, found_program
from zaklimot.commands.script.program import PROGRAM as BUILT_PROGRAM

from . import commands
from .tools import SIGNALS, TOP, Folder, begin, hold_refused, patched, refused, takes_long


SOURCE = (TOP / "portable" / "vga.c").read_text("ascii")
# What stands in the place of a compiler: it notes its words, does this, and makes a program that
# does that.
COMPILER = """#!/bin/sh
echo "$*" >> {notes}
while [ "$1" != -o ]; do shift; done
{does}
printf '#!/bin/sh\\n{made}\\n' > "$2"
chmod +x "$2"
"""
# What compilers tell where the C library's headers or its first file are not here.
BARE = (
    "include/stdint.h:9:16: fatal error: stdint.h: No such file or directory",
    "zaklimot.h:20:10: fatal error: 'stdint.h' file not found",
    "zaklimot.h:20: error: include file 'stdint.h' not found",
    "/usr/bin/ld: cannot find crt1.o: No such file or directory",
)
SLEEPS = "echo $$ > {}; sleep 600 & echo $! >> {}; wait"


def the_portable() -> str:
    """The portable program. Where it can't be compiled, the test is skipped."""
    with contextlib.redirect_stderr(io.StringIO()):
        try:
            return portable_program()
        except Trouble as trouble:
            raise unittest.SkipTest(str(trouble)) from trouble


@takes_long
@unittest.skipIf(sys.platform == "win32", "names and pipes are those of POSIX")
class Answers(Folder):
    """Each command line of a large table is answered as it was written down from the proved
    program."""

    RECORDED = json.loads(commands.RECORDED.read_text("utf-8"))

    def hold_to_record(self, path: str) -> None:
        commands.lay(self.folder)
        for name, words in commands.all_lines():
            with self.subTest([name, *words]):
                self.assertEqual(
                    commands.answer(path, words, self.folder, name),
                    self.RECORDED[commands.key(words, name)],
                )

    def test_all_lines_are_recorded(self) -> None:
        keys = [commands.key(words, name) for name, words in commands.all_lines()]
        self.assertEqual((set(keys), len(set(keys)) > 500), (set(self.RECORDED), True))

    def test_the_portable_program(self) -> None:
        self.hold_to_record(the_portable())

    def test_the_proved_program(self) -> None:
        if not os.access(BUILT_PROGRAM, os.X_OK):
            raise (AssertionError if os.environ.get(BUILT) else unittest.SkipTest)(
                "the proved program isn't built"
            )
        self.hold_to_record(str(BUILT_PROGRAM))


class Steps(unittest.TestCase):
    """How long a step is, as the portable program has it, is what the format's table says."""

    def test_bytes(self) -> None:
        steps, shown = (
            [
                int(number)
                for number in re.findall(rf"\b{name}\[\] = \{{(.*)\}};", SOURCE)[0].split(", ")
            ]
            for name in ("STEP_BYTES", "SHOW_BYTES")
        )
        wanted, kinds = {0: 0, REPEAT_CODE: 3, END_CODE: 1}, {}
        for form in FORMS.values():
            size = sum(field.size for field in form.fields)
            if len(form.code) == 1:
                # Behind the fields a block has its length.
                wanted[form.code[0]] = 1 + size + 2 * form.has_block
            else:
                wanted[form.code[0]], kinds[form.code[1]] = 2, size
        self.assertEqual(dict(enumerate(steps)), wanted)
        self.assertEqual(dict(enumerate(shown)), kinds)


class Cache(Folder):
    """A folder in the place of the user's cache, and programs in the place of compilers."""

    def setUp(self) -> None:
        super().setUp()
        self.cache = self.folder / "cache" / "zaklimot"
        self.notes = self.folder / "notes"
        self.notes.write_text("")
        self.environment = {"XDG_CACHE_HOME": str(self.folder / "cache"), "CC": self.compiler("cc")}
        self.patch(mock.patch.dict(os.environ, self.environment))

    def compiler(self, name: str, does: str = ":", made: str = "exit 0") -> str:
        return self.program(name, COMPILER.format(notes=self.notes, does=does, made=made))

    def found(self) -> tuple[Path, str]:
        """The program, and what is said while it is looked for."""
        said = io.StringIO()
        with contextlib.redirect_stderr(said):
            return Path(portable_program()), said.getvalue()

    def noted(self) -> int:
        """How many times a compiler was run."""
        return self.notes.read_text().count("\n")

    def left(self) -> list[str]:
        """What the cache has, but for the lock."""
        return sorted(
            str(path.relative_to(self.cache))
            for path in self.cache.rglob("*")
            if path.name != portable.LOCK
        )


@unittest.skipIf(sys.platform == "win32", "a script is a program on POSIX")
class Compiled(Cache):
    def test_once_and_it_is_told(self) -> None:
        path, said = self.found()
        given = {"compiler": self.environment["CC"], "told": "the program vga", "kind": "program"}
        self.assertEqual(said, portable.COMPILES.format(**given, folder=self.cache))
        self.assertRegex(
            said, r"^\S+ compiles .* in about 30 seconds, and once: .* is tested, not proved\n$"
        )
        self.assertEqual(self.found(), (path, ""))
        self.assertEqual(
            (self.noted(), self.left()), (1, [path.parent.name, f"{path.parent.name}/vga"])
        )
        self.assertRegex(
            self.notes.read_text(),
            r"^-std=c99 -O2 -I \S+/include -o \S+/vga( \S+/portable/(vga|zaklimot)\.c){2}\n$",
        )

    def test_anew_for_other_sources_and_compilers_and_older_ones_are_removed(self) -> None:
        paths = [self.found()[0]]
        os.environ["CC"] = self.compiler("other") + " -m64"
        paths.append(self.found()[0])
        # This process has found the first: it may still run it.
        self.assertEqual(len(self.left()), 4)
        self.release()
        with mock.patch.object(
            portable, "SOURCES", (Path(self.write("vga.c", "1")), *portable.SOURCES[1:])
        ):
            paths.append(self.found()[0])
        self.assertEqual((len(set(paths)), self.noted()), (3, 3))
        self.assertEqual(self.left(), [paths[2].parent.name, f"{paths[2].parent.name}/vga"])
        self.assertIn("-m64 -std=c99", self.notes.read_text())

    def test_anew_for_each_source_that_changed_in_its_place(self) -> None:
        sources = [Path(self.write(path.name, "1")) for path in portable.SOURCES]
        paths = []
        with mock.patch.object(portable, "SOURCES", tuple(sources)):
            for number in range(len(sources) + 1):
                if number:
                    sources[number - 1].write_text("2")
                paths.append(self.found()[0])
            self.assertEqual(self.found(), (paths[-1], ""))
        self.assertEqual((len(set(paths)), self.noted()), (4, 4))

    def release(self) -> None:
        while portable._in_use:
            os.close(portable._in_use.pop())

    def test_what_else_the_cache_has_stays(self) -> None:
        # The library, which is compiled beside it, and what others keep there.
        kept = [f"of-library/{portable.LIBRARY_NAME}", "others/file", "toolchain.tar"]
        for name in (*kept, "of-another-compiler/vga"):
            self.write(f"cache/zaklimot/{name}", "")
        path, _ = self.found()
        place = path.parent.name
        wanted = [place, f"{place}/vga", "of-library", "others", *kept]
        self.assertEqual(self.left(), sorted(wanted))

    def test_the_library_is_of_the_same_sources_and_is_not_run(self) -> None:
        os.environ["CC"] = self.compiler("cc", made="exit 3")
        said = io.StringIO()
        with contextlib.redirect_stderr(said):
            paths = [portable_library() for _ in "12"]
        self.assertEqual((len(set(paths)), self.noted()), (1, 1))
        self.assertRegex(said.getvalue(), r"^\S+ compiles the library from .*: this library is ")
        front = r"^-std=c99 -O2 -shared -fPIC -I \S+/include -o \S+/"
        wanted = rf"{front}{portable.LIBRARY_NAME} \S+/portable/zaklimot\.c\n$"
        self.assertRegex(self.notes.read_text(), wanted)
        # The program is compiled beside it by the same compiler, and both stay.
        os.environ["CC"] = self.compiler("cc")
        program, _ = self.found()
        self.assertEqual(self.found(), (program, ""))
        self.assertTrue(Path(paths[0]).is_file())
        with contextlib.redirect_stderr(io.StringIO()):
            self.assertEqual(portable_library(), paths[0])
        self.assertEqual(self.noted(), 2)

    def test_the_compiler_that_is_first_in_the_path(self) -> None:
        folder = self.folder / "compilers"
        given = {"CC": "", "PATH": f"{folder}{os.pathsep}/usr/bin{os.pathsep}/bin"}
        here = partial(shutil.which, path=str(folder))
        with mock.patch.dict(os.environ, given), mock.patch("shutil.which", here):
            for name in ("clang", "gcc", "cc"):
                self.compiler(f"compilers/{name}")
                self.assertEqual(portable._compilers()[0], [name])

    def test_another_compiler_where_the_first_can_not(self) -> None:
        folder = self.folder / "compilers"
        self.program("compilers/cc", "#!/bin/sh\necho 'stdio.h: No such file' >&2\nexit 1\n")
        given = {"CC": "", "PATH": f"{folder}{os.pathsep}/usr/bin{os.pathsep}/bin"}
        here = partial(shutil.which, path=str(folder))
        with mock.patch.dict(os.environ, given), mock.patch("shutil.which", here):
            told = refused(portable_program)
            self.assertIn("install Debian's package libc6-dev", told)
            self.compiler("compilers/tcc")
            with contextlib.redirect_stderr(io.StringIO()) as said:
                self.assertTrue(Path(portable_program()).is_file())
            # It is there the next time.
            self.assertTrue(Path(portable_program()).is_file())
        self.assertEqual(said.getvalue().count("compiles the program"), 2)

    def test_two_runs_at_once(self) -> None:
        begun = self.folder / "begun"
        os.environ["CC"] = self.compiler("slow", f"echo 1 > {begun}; sleep 4", "echo ran")
        own = {"env": dict(os.environ), "text": True}
        runs = [begin("tests/finding.py", **own)]
        self.wait_for(begun, runs[0])
        runs.append(begin("tests/finding.py", **own))
        said = [run.communicate(timeout=60) for run in runs]
        self.assertEqual([run.returncode for run in runs], [0, 0], said)
        self.assertEqual(said[0][0], said[1][0])
        self.assertEqual([portable.WAITS in text for _, text in said], [False, True])
        self.assertEqual(self.noted(), 1)

    def test_one_that_is_ended_leaves_nothing_and_no_lock(self) -> None:
        child = self.folder / "child"
        good = self.environment["CC"]
        slow = self.compiler("slow", SLEEPS.format(child, child))
        for number, status in (*SIGNALS, (signal.SIGKILL, -9)):
            with self.subTest(number):
                child.unlink(missing_ok=True)
                # What a killed run leaves of its temporary files goes with this test's.
                run = begin(
                    "tests/finding.py", env={**os.environ, "CC": slow, "TMPDIR": str(self.folder)}
                )
                self.wait_until(lambda: child.exists() and child.read_text().count("\n") == 2, run)
                run.send_signal(number)
                run.communicate(timeout=60)
                self.assertEqual(run.returncode, status)
                if number != signal.SIGKILL:
                    self.assertEqual(self.left(), [])
                    self.assert_ended(*map(int, child.read_text().split()))
                else:
                    os.kill(int(child.read_text().split()[1]), signal.SIGKILL)
        # A run that was killed could not undo its work: the next one does.
        os.environ["CC"] = good
        path, _ = self.found()
        self.assertEqual(self.left(), [path.parent.name, f"{path.parent.name}/vga"])

    def test_a_file_system_without_locks(self) -> None:
        # Nobody is waited for, and what is older is removed all the same.
        self.write("cache/zaklimot/of-another-compiler/vga", "")
        with mock.patch.object(fcntl, "flock", side_effect=OSError("no locks")):
            path, said = self.found()
        self.assertEqual((said.count("\n"), self.noted()), (1, 1))
        self.assertEqual(self.left(), [path.parent.name, f"{path.parent.name}/vga"])

    def test_a_lock_that_somebody_keeps_is_waited_for_no_longer_than_that(self) -> None:
        self.cache.mkdir(parents=True)
        with open(self.cache / portable.LOCK, "wb") as file:
            self.assertTrue(portable._is_locked(file, fcntl.LOCK_EX))
            with mock.patch.object(portable, "MOST_WAITING", 0.3):
                _, said = self.found()
        self.assertEqual((said.startswith(portable.WAITS), self.noted()), (True, 1))


@unittest.skipIf(sys.platform == "win32", "a script is a program on POSIX")
class Lacking(Cache):
    def test_what_is_lacking_is_told(self) -> None:
        file = self.write("file", "")
        for variables, told in (
            (
                {"CC": self.compiler("bad", "echo oh >&2; exit 1")},
                r"^\S+/bad: it can't compile .*; CC may name another .*\noh$",
            ),
            *(
                (
                    {"CC": self.compiler(f"bare{number}", f"cat >&2 <<E\n{line}\nE\nexit 1")},
                    rf"^\S+: the files of the C library .* libc6-dev; it can't .*\n{line}$",
                )
                for number, line in enumerate(BARE)
            ),
            (
                {"CC": self.compiler("cross", made="exit 3")},
                r"^\S+/cross: what it makes doesn't run here$",
            ),
            (
                {"CC": "no-such-compiler"},
                r"^no-such-compiler: CC names it .*; page/zaklimot\.html ",
            ),
            ({"CC": "'"}, "^CC names no compiler: "),
            (
                {"CC": "", "PATH": str(self.folder / "none")},
                (
                    r"^there is no C compiler .* package gcc, clang or tcc, on macOS Xcode's .*;"
                    r" page/zaklimot\.html runs scripts "
                ),
            ),
            (
                {"XDG_CACHE_HOME": file},
                rf"^{file}\S*: Not a directory; .* can be written by XDG_CACHE_HOME$",
            ),
        ):
            with self.subTest(variables), mock.patch.dict(os.environ, variables):
                with contextlib.redirect_stderr(io.StringIO()):
                    hold_refused(self, portable_program, ((told,),))
                if self.cache.exists():
                    self.assertEqual(self.left(), [])

    def test_a_folder_in_the_place_of_the_lock_is_told_by_its_name(self) -> None:
        lock = self.cache / portable.LOCK
        lock.mkdir(parents=True)
        hold_refused(
            self, portable_program, ((f"^{lock}: Is a directory; the compiled program ",),)
        )
        self.assertEqual(self.noted(), 0)

    def test_where_no_home_can_be_written_it_is_kept_among_temporary_files(self) -> None:
        temporary = self.folder / "temporary"
        temporary.mkdir()
        self.patch(
            mock.patch.dict(os.environ, XDG_CACHE_HOME="", HOME=self.write("file", "")),
            mock.patch.object(tempfile, "tempdir", str(temporary)),
        )
        path, said = self.found()
        (folder,) = temporary.iterdir()
        self.assertEqual((path.parents[2], stat.S_IMODE(folder.stat().st_mode)), (folder, 0o700))
        self.assertIn(f" into {folder}/zaklimot now, ", said)
        with mock.patch.object(Path, "home", side_effect=RuntimeError("no home")):
            self.assertEqual(self.found(), (path, ""))
        # What others may have laid there is not run.
        folder.chmod(0o777)
        hold_refused(self, portable_program, ((f"^{folder}: others can write there; ",),))
        shutil.rmtree(folder)
        folder.symlink_to(self.folder)
        hold_refused(self, portable_program, ((f"^{folder}: others can write there; ",),))

    def test_a_cache_that_is_no_whole_path_is_none(self) -> None:
        with mock.patch.dict(os.environ, XDG_CACHE_HOME="cache", HOME=str(self.folder / "home")):
            self.assertEqual(
                self.found()[0].parents[1], self.folder / "home" / ".cache" / "zaklimot"
            )


@unittest.skipIf(sys.platform == "win32", "a script is a program on POSIX")
class Found(Cache):
    def test_the_order(self) -> None:
        built, released, in_path = (
            self.program(f"{name}/vga", "#!/bin/sh\n") for name in ("built", "released", "path")
        )
        named = self.program("named", "#!/bin/sh\n")
        none = self.folder / "none"
        places = {"PROGRAM": Path(built), "RELEASED": Path(released)}
        # The command `tools/vga` in the path, or a link to it, is no program: it looks for one.
        linked = self.folder / "linked"
        linked.mkdir()
        (linked / "vga").symlink_to(TOP / "tools/vga")
        places_in_path = ("", TOP / "tools", linked, Path(in_path).parent)
        path = os.pathsep.join(map(str, places_in_path))
        with patched(program, places), mock.patch.dict(os.environ, PATH=path):
            self.assertEqual((found_program(named), found_program()), (named, built))
            with mock.patch.object(program, "PROGRAM", none):
                self.assertEqual(found_program(), released)
                with mock.patch.object(program, "RELEASED", none):
                    self.assertEqual(found_program(), in_path)
                    self.assertEqual((built_program(named), built_program()), (named, in_path))
                    # What pip has installed has no command of that name.
                    with mock.patch.object(program, "LAUNCHER", none):
                        alone = mock.patch.dict(os.environ, PATH=str(Path(in_path).parent))
                        with alone:
                            self.assertEqual(found_program(), in_path)
        with mock.patch.multiple(program, PROGRAM=none, RELEASED=none), mock.patch.dict(
            os.environ, PATH="/usr/bin:/bin"
        ):
            self.assertIsNone(built_program())
            with contextlib.redirect_stderr(io.StringIO()):
                self.assertEqual(Path(found_program()).parents[1], self.cache)
            with mock.patch.object(portable, "SOURCES", (none,)):
                self.assertIn(
                    "there is no program vga, and portable/ has no sources of it",
                    refused(found_program),
                )

    def test_a_folder_without_a_name_in_the_path_has_none(self) -> None:
        self.program("vga", "#!/bin/sh\n")
        self.addCleanup(os.chdir, os.getcwd())
        os.chdir(self.folder)
        none = {"PROGRAM": self.folder / "none", "RELEASED": self.folder / "none"}
        with patched(program, none), mock.patch.dict(os.environ, PATH=os.pathsep):
            self.assertIsNone(built_program())

    def test_wherever_it_is_found_it_is_not_written(self) -> None:
        names = ("named", "built", "released", "path")
        paths = {name: self.program(f"{name}/vga", "#!/bin/sh\n") for name in names}
        none = self.folder / "none"
        for name, path in paths.items():
            built, released = (
                Path(paths[one]) if name == one else none for one in ("built", "released")
            )
            given = paths["named"] if name == "named" else None
            in_path = str(Path(paths["path"]).parent) if name == "path" else "/usr/bin"
            with (
                files_of_run() as own,
                mock.patch.multiple(program, PROGRAM=built, RELEASED=released),
                mock.patch.dict(os.environ, PATH=in_path),
            ):
                self.assertEqual(built_program(given), path)
                told = f"{path}: it is read as {path}, so it isn't written"
                self.assertEqual(refused(own.check_file, path), told)
