"""The files of a run: no input is written, no two outputs are one, and nothing is left of a
failure; and how a run ends that is interrupted, or can tell nothing."""

from __future__ import annotations

import argparse
import os
import signal
import subprocess
import sys
import time
import unittest
from pathlib import Path
from unittest import mock

from zaklimot.commands.core.cli import Ended
from zaklimot.commands.core.files import (
    Input,
    Output,
    OutputOrFolder,
    PictureFolder,
    files,
    files_of_run,
)
from zaklimot.commands.core.streams import empty_folder, write_over, writing

from .running import Fake
from .tools import PYTHON, TOOLS, TOP, Folder, begin, ended, hold_undone, ppm, refused, run_tool


BOTH = "two outputs have this name, and one would be lost\n"
PICTURE = ppm(1, 1, b"\x3f\x3f\x3f")


class Registry(Folder):
    def taken(self, **words: object) -> str:
        """What is told of these words; nothing where all is well."""
        with files_of_run() as own:
            try:
                own.take(argparse.Namespace(**words))
            except Exception as trouble:
                return str(trouble)
        return ""

    def test_two_outputs(self) -> None:
        os.chdir(self.folder)
        self.addCleanup(os.chdir, "/")
        self.write("o", "")
        os.link("o", "linked")
        Path("named").symlink_to("new")
        (self.folder / "d").mkdir()
        same = (
            ("o", "o"),
            ("o", "linked"),
            ("new", "./new"),
            ("new", "named"),
            ("d/../new", "new"),
            ("-", "-"),
        )
        for one, other in same:
            with self.subTest(one=one, other=other):
                told = self.taken(html=Output(one), json=Output(other))
                self.assertIn(BOTH.strip(), told)
        for one, other in (("o", "new"), ("-", "o"), ("/dev/null", "/dev/null"), ("d/o", "o")):
            self.assertEqual(self.taken(html=Output(one), json=Output(other)), "", (one, other))

    def test_standard_output_that_is_another_output(self) -> None:
        path, other = self.write("o", ""), self.write("p", "")
        with open(path, "ab") as stream, mock.patch("sys.stdout", stream):
            self.assertIn(BOTH.strip(), self.taken(json=Output("-"), junit=Output(path)))
            self.assertIn(BOTH.strip(), self.taken(json=Output(path), junit=Output("-")))
            self.assertEqual(self.taken(json=Output("-"), junit=Output(other)), "")
        # It is no input, whatever is written there.
        with open(path, "ab") as stream, mock.patch("sys.stdout", stream):
            told = f"standard output: it is read as {path}, so it isn't written"
            self.assertEqual(self.taken(report=Input(path), all=True), told)
            self.assertEqual(self.taken(report=Input(other), html=Output(path)), "")
        # Also where it is no file.
        reader, writer = os.pipe()
        os.close(reader)
        with open(writer, "wb") as stream, mock.patch("sys.stdout", stream):
            told = f"standard output: {BOTH.strip()}"
            self.assertEqual(self.taken(json=Output("-"), junit=Output("-")), told)
            self.assertEqual(self.taken(json=Output("-"), junit=Output(path)), "")

    def test_each_of_several_inputs(self) -> None:
        paths = [self.write(name, "") for name in "abc"]
        for path in paths:
            told = self.taken(files=[Input(one) for one in paths], report=Output(path))
            self.assertEqual(told, f"{path}: it is read as {path}, so it isn't written")

    def test_a_picture_of_a_folder(self) -> None:
        folder = str(self.folder / "d")
        for name in ("0003.png", "12345.ppm", "00012.345.png"):
            pictures, path = PictureFolder(folder), Output(f"{folder}/{name}")
            for words in ({"a": pictures, "b": path}, {"a": path, "b": pictures}):
                (self.folder / "d").mkdir(exist_ok=True)
                told = self.taken(**words)
                self.assertEqual(
                    told, f"{folder}/{name}: a picture of {folder} would have this name"
                )
        for name in ("3.png", "report.json", "0003.txt"):
            self.assertEqual(
                self.taken(pictures=PictureFolder(folder), json=Output(f"{folder}/{name}")), ""
            )

    def test_a_picture_of_a_folder_that_is_named_otherwise(self) -> None:
        folder = self.folder / "d"
        folder.mkdir()
        (self.folder / "linked").symlink_to(folder)
        (self.folder / "named.png").symlink_to(folder / "0001.png")
        for given, name in (
            ("linked", "d/0001.png"),
            ("d", "linked/0001.ppm"),
            ("d", "named.png"),
            ("d/../d/", "d/0001.png"),
        ):
            pictures, path = PictureFolder(self.folder / given), str(self.folder / name)
            told = f"{path}: a picture of {pictures} would have this name"
            self.assertEqual(self.taken(pictures=pictures, json=Output(path)), told)
        for given, name in (("d", "0001.png"), ("d", "d/0001.png.json"), ("-", "d/0001.png")):
            pictures = PictureFolder(given if given == "-" else self.folder / given)
            path = str(self.folder / name)
            self.assertEqual(self.taken(pictures=pictures, json=Output(path)), "")

    def test_folders_that_are_not_there_or_are_links_to_nothing(self) -> None:
        os.chdir(self.folder)
        self.addCleanup(os.chdir, "/")
        (self.folder / "gone").symlink_to("nowhere")
        self.write("file", "")
        rows: tuple[tuple[dict[str, object], str], ...] = (
            ({"pictures": PictureFolder("new/er/est")}, ""),
            ({"pictures": PictureFolder("-")}, ""),
            ({"pictures": PictureFolder("")}, "the name of a file is empty"),
            ({"pictures": PictureFolder("file")}, "file: it is not a folder"),
            (
                {"pictures": PictureFolder("file/new")},
                f"{self.folder.resolve()}/file: it is not a folder",
            ),
            ({"pictures": PictureFolder("gone")}, "gone: it is not a folder"),
            ({"json": Output("")}, "the name of a file is empty"),
            ({"json": Output("new/o")}, "new: there is no such folder"),
            ({"json": Output("gone")}, ""),
            ({"report": OutputOrFolder(".")}, ""),
            ({"report": OutputOrFolder("new/o")}, "new: there is no such folder"),
            ({"json": Output("/dev/null"), "junit": Output("/dev/null")}, ""),
            ({"json": Output("o"), "junit": Output("p"), "html": Output("./o")}, f"./o: {BOTH}"),
        )
        for words, told in rows:
            with self.subTest(words):
                self.assertEqual(self.taken(**words), told.strip())

    def test_what_the_system_permits_is_asked_before_any_work(self) -> None:
        # The user of the tests may be one to whom all is permitted.
        path, folder = self.write("d/o", ""), str(self.folder / "d")
        there = f"{folder}: there is no permission to write there"
        outputs: tuple[tuple[Output, str], ...] = (
            (Output(path), f"{path}: it is read-only"),
            (Output(f"{folder}/new"), there),
            (PictureFolder(folder), there),
            (PictureFolder(f"{folder}/new/er"), there),
        )
        for output, told in outputs:
            with mock.patch("os.access", lambda *_: False):
                self.assertEqual(self.taken(json=output), told)
            # A folder that can't be entered takes no file.
            with mock.patch("os.access", lambda _, mode: not mode & os.X_OK):
                self.assertEqual(self.taken(json=output), there)
            self.assertEqual(self.taken(json=output), "")

    def test_a_folder_for_files_is_new_or_empty(self) -> None:
        (self.folder / "full" / "folder").mkdir(parents=True)
        self.write("hidden/.file", "")
        told = "the folder has files, and none of them is to be lost: give one that is new or empty"
        for name in ("full", "hidden"):
            path = str(self.folder / name)
            self.assertEqual(refused(empty_folder, path), f"{path}: {told}")
        for name in ("new/er", "new/er", "full/folder"):
            self.assertEqual(empty_folder(str(self.folder / name)), self.folder / name)

    def test_what_keeps_an_output_from_being_written_is_told_before_any_work(self) -> None:
        (self.folder / "d").mkdir()
        path = self.write("locked", "kept")
        os.chmod(path, 0o444)
        for name, told in (("d", "it is a folder"), ("n/o", "there is no such folder")):
            self.assertIn(told, self.taken(json=Output(self.folder / name)))
        self.assertEqual(self.taken(json=Output(path)), f"{path}: it is read-only")
        self.assertEqual(self.taken(report=OutputOrFolder(self.folder / "d")), "")
        self.assertEqual(self.taken(pictures=PictureFolder(path)), f"{path}: it is not a folder")

    def test_an_input_has_a_name(self) -> None:
        taken = self.taken(script=Input("s"), fonts=Input(""))
        self.assertIn("the name of a file ", taken)

    def test_standard_input_is_read_once(self) -> None:
        self.assertIn("can be read once", self.taken(report=Input("-"), other=Input("-")))
        self.assertEqual(self.taken(report=Input("-"), other=Output("-")), "")

    def test_a_run_knows_its_own_files_alone(self) -> None:
        path = self.write("o", "")
        with files_of_run() as own:
            own.take(argparse.Namespace(report=Input(path)))
            self.assertRegex(refused(files().refuse_input, path), "it is read as")
            with files_of_run():
                files().refuse_input(path)
            self.assertRegex(refused(files().refuse_input, path), "it is read as")

    def test_folders_that_were_made_in_vain(self) -> None:
        # However the run ends: the user may end it too, and the system.
        for is_filled in (False, True):
            for error in (OSError, KeyboardInterrupt, Ended):
                with self.assertRaises(error), files_of_run() as own:
                    folder = own.make_folder(self.folder / "a" / "b")
                    if is_filled:
                        (folder / "file").touch()
                    raise error
                self.assertEqual((self.folder / "a").exists(), is_filled)
        with files_of_run() as own:
            own.make_folder(self.folder / "kept")
        self.assertTrue((self.folder / "kept").is_dir())

    def test_a_read_only_file_is_not_replaced(self) -> None:
        path = self.write("locked", "kept")
        os.chmod(path, 0o444)

        def write() -> None:
            with writing(path) as stream:
                stream.write(b"new")

        self.assertEqual(refused(write), f"{path}: it is read-only")
        self.assertEqual((self.names(), Path(path).read_text()), (["locked"], "kept"))

    def test_a_file_that_has_changed_is_not_written_over(self) -> None:
        path = self.write("script", "old")
        files().reads(path)
        for was in (b"other", b"odd", b"", b"old\n"):
            self.assertRegex(refused(write_over, path, b"new", was), "has changed since it was")
            self.assertEqual((self.names(), Path(path).read_text()), (["script"], "old"))
        write_over(path, b"new", b"old")
        self.assertEqual(Path(path).read_text(), "new")

    def test_names_as_long_as_a_file_may_have(self) -> None:
        for name in ("n" * 255, "\u00e9" * 127):
            for text in (b"old", b"new"):
                with writing(str(self.folder / name)) as stream:
                    stream.write(text)
            self.assertEqual((self.folder / name).read_bytes(), b"new")


class Tools(Fake):
    """The same of whole tools."""

    def test_two_outputs_are_refused_before_any_work(self) -> None:
        self.report("r", PICTURE)
        self.report("s", "ok")
        self.write("t.vga", "frame\n")
        self.write("i", PICTURE)
        self.begin_program(f"open({str(self.folder / 'begun')!r}, 'w')\n")
        run = f"zaklimot run t.vga --vga {self.vga}"
        for words, name in (
            (f"{run} --junit o --json o", "o"),
            (f"{run} --json o --junit o", "o"),
            (f"{run} --junit - --json -", "standard output"),
            ("zaklimot floppy run --on qemu t.vga o --picture o", "o"),
            ("zaklimot floppy run --on qemu t.vga --picture -", "standard output"),
            ("zaklimot trace pictures t.vga d --apng d", "d"),
        ):
            with self.subTest(words):
                tool, *rest = words.split()
                before = self.names()
                done = run_tool(tool, *rest, prepare=lambda: os.chdir(self.folder))
                self.assertEqual(done, (2, b"", f"{tool}: {name}: {BOTH}"))
                self.assertEqual(self.names(), before)
        given = f"{run} --pictures d --json d/0003.png".split()[1:]
        (self.folder / "d").mkdir()
        done = run_tool("zaklimot", *given, prepare=lambda: os.chdir(self.folder))
        hold_undone(self, done, "^zaklimot: d/0003.png: a picture of d would have this name\n$")
        self.assertFalse((self.folder / "begun").exists())

    def test_a_script_that_an_editor_changes_while_it_runs(self) -> None:
        path = self.write("t.vga", "get 0\n")
        adding = f"lambda: open({path!r}, 'a').write('in 60\\n')"
        self.begin_program(f"import atexit\nif sys.argv[1] == 'go': atexit.register({adding})\n")
        done = run_tool("zaklimot", "run", path, "--bless", "--vga", self.vga)
        self.assertEqual((done[0], Path(path).read_text()), (2, "get 0\nin 60\n"))
        self.assertIn(f"zaklimot: {path}: it has changed since it was read", done[2])

    def test_folders_of_runs_that_fail(self) -> None:
        self.write("bad", "1 picture 9\n")
        self.write("bad.vga", "move\n")
        ways: tuple[tuple[str | Path, ...], ...] = (
            ("pictures", "bad", "a/b"),
            ("run", "bad.vga", "--pictures", "a", "--vga", self.vga),
            ("suite", "--scripts", "a", "--list", "none"),
        )
        for words in ways:
            done = run_tool("zaklimot", *words, prepare=lambda: os.chdir(self.folder))
            self.assertEqual((done[0], (self.folder / "a").exists()), (2, False), words)
        # A run that has begun, but has come to no picture.
        self.write("s.vga", "get 0\nframe\nget 0\n")
        for lines in (1, 6):
            self.program("short", f'#!/bin/sh\n{self.vga} "$@" | head -n {lines}\n')
            words = ("run", "s.vga", "--pictures", "a/b", "--vga", "./short")
            done = run_tool("zaklimot", *words, prepare=lambda: os.chdir(self.folder))
            self.assertEqual((done[0], (self.folder / "a").exists()), (2, lines > 1))

    def test_a_folder_or_a_file_in_the_place_of_the_program(self) -> None:
        path, plain = self.write("t.vga", "frame\n"), self.write("plain", "")
        for given, told in (
            (str(self.folder), "it is a folder, and no program"),
            (plain, "it is no program: there is no permission to run it"),
            ("/none/such", "No such file or directory"),
        ):
            done = run_tool("zaklimot", "run", path, "--vga", given)
            self.assertEqual(done, (2, b"", f"zaklimot: {given}: {told}\n"))

    def test_fonts_that_are_wrong(self) -> None:
        path = self.write("t.vga", "frame\n")
        self.begin_program(
            "sys.exit('vga: F2 ReadFault') if not os.path.isfile(sys.argv[4]) else 0\n"
        )
        for given, told in (
            ("/none", "No such file or directory"),
            (str(self.folder), "directory"),
        ):
            done = run_tool("zaklimot", "run", path, "--vga", self.vga, "--fonts", given)
            self.assertEqual((done[0], done[1]), (2, b""))
            self.assertRegex(
                done[2], f"^zaklimot: {given}: .*the font file can't be read: .*{told}"
            )


class Recordings(Folder):
    def test_what_would_be_missing_at_the_end_is_told_at_the_beginning(self) -> None:
        begun = self.folder / "begun"
        self.program("bin/qemu-system-x86_64", f"#!/bin/sh\ntouch {begun}\n")
        self.program("says", "#!/bin/sh\necho 'vga: F3 FontSize' >&2\nexit 1\n")
        self.program("other", "#!/bin/sh\necho '1 01'\n")
        self.program("more", "#!/bin/sh\nprintf '1 00\\n2 00\\n'\n")
        self.program("fails", "#!/bin/sh\necho '1 00'\nexit 3\n")
        path = f"{self.folder / 'bin'}:{os.environ['PATH']}"
        for words, told in (
            (("--vga", "/none/vga"), "/none/vga: No such file or directory"),
            (("--vga", str(self.folder)), "it is a folder, and no program"),
            (("--vga", "/bin/true"), "/bin/true: it runs no script with .*: it says nothing"),
            (("--vga", str(self.folder / "says")), "no script with .*: F3 FontSize"),
            (
                ("--vga", str(self.folder / "other")),
                "other: it runs no script .*: it writes '1 01'",
            ),
            (("--vga", str(self.folder / "more")), "more: it runs no script .*: it writes '1 00'"),
            (
                ("--vga", str(self.folder / "fails")),
                "fails: it runs no script .*: it writes '1 00'",
            ),
        ):
            made = self.folder / "made"
            done = ended(
                *PYTHON,
                TOP / "zaklimot",
                "trace",
                "record",
                made,
                *words,
                "--",
                "-cdrom",
                "disc",
                env={**os.environ, "PATH": path},
            )
            hold_undone(self, done, told)
            self.assertFalse(made.exists() or begun.exists(), words)

    def test_no_option_is_advised_that_the_tool_lacks(self) -> None:
        (self.folder / "tools").mkdir()
        for name in ("fonts", "include"):
            (self.folder / name).symlink_to(TOP / name)
        self.assertEqual(ended("cp", "-r", TOP / "python", TOP / "zaklimot", self.folder)[0], 0)
        self.assertEqual(ended("cp", TOOLS / "vga", self.folder / "tools")[0], 0)
        self.program("bin/qemu-system-x86_64", "#!/bin/sh\n")
        given = {**os.environ, "PATH": str(self.folder / "bin")}
        trace = self.folder / "zaklimot"
        words = ("trace", "record", self.folder / "made", "--", "-cdrom", "disc")
        done = ended(sys.executable, trace, *words, env=given)
        told = "^zaklimot: there is no library, .*: name one by ZAKLIMOT_LIBRARY\n$"
        hold_undone(self, done, told)
        done = ended(sys.executable, self.folder / "tools" / "vga", "--help", env=given)
        hold_undone(
            self, done, "^vga: there is no program vga, .*README.md says how it is built\n$"
        )


class Endings(Folder):
    def test_a_signal_that_the_caller_has_ignored(self) -> None:
        # As `nohup` has it.
        def ignore() -> None:
            signal.signal(signal.SIGHUP, signal.SIG_IGN)

        given = {"stdin": subprocess.PIPE, "preexec_fn": ignore}
        process = begin(
            "zaklimot", "compare", "-", self.report("other", *["ok", "55"] * 2500), "--all", **given
        )
        assert process.stdin is not None and process.stdout is not None
        with process:
            process.stdin.write(b"".join(b"%d ok\n" % at for at in range(1, 5000)))
            process.stdin.flush()
            # It works by now: a difference is told.
            self.assertEqual(process.stdout.readline(), b"step 2 differs\n")
            process.send_signal(signal.SIGHUP)
            process.stdin.write(b"5000 E6\n")
            process.stdin.close()
            output = process.stdout.read()
            self.assertEqual(process.wait(60), 1)
        self.assertIn(b"\nstep 5000 differs\n  standard input:5000: E6\n", output)

    def test_an_error_that_can_not_be_told(self) -> None:
        for words in (
            ("pictures", "/none", "-"),
            ("no-such-command",),
            ("run", "/none", "--vga", "/none"),
        ):
            with open("/dev/full", "wb") as full:
                done = ended(*PYTHON, TOP / "zaklimot", *words, stderr=full)
            self.assertEqual(done, (2, "", None), words)

    def test_an_interrupt_while_a_tool_begins(self) -> None:
        for delay in (0.02, 0.05, 0.1, 0.2):
            process = begin("zaklimot", "--help", start_new_session=True)
            time.sleep(delay)
            process.send_signal(signal.SIGINT)
            _, said = process.communicate()
            with self.subTest(delay=delay):
                self.assertNotIn(b"zaklimot", said)

    @unittest.skipUnless(
        Path("/proc/self/stat").exists(), "processes are looked at as Linux shows them"
    )
    def test_two_interrupts_leave_nothing_that_runs(self) -> None:
        harness = self.program(
            "harness",
            "import os, sys, time\nopen(f'{sys.argv[1]}.{os.getpid()}', 'w')\ntime.sleep(600)\n",
        )
        self.write("list.txt", "".join(f"case{number}\n" for number in range(12)))
        for number in range(12):
            self.write(f"case{number}.vga", "frame\n")
            self.write(f"case{number}.txt", "1 ok\n")
        words = ("--list", self.folder / "list.txt", "--jobs", "12")
        command = f"{harness} {self.folder / 'begun'} {{script}}"
        process = begin("zaklimot", "suite", command, *words, start_new_session=True)
        self.wait_until(lambda: len(list(self.folder.glob("begun.*"))) == 12, process)
        for _ in range(3):
            process.send_signal(signal.SIGINT)
            time.sleep(0.02)
        _, said = process.communicate(timeout=60)
        self.assertEqual((process.returncode, said), (130, b""))
        numbers = (int(path.suffix[1:]) for path in self.folder.glob("begun.*"))
        self.assert_ended(*numbers)


@unittest.skipUnless(
    Path("/proc/self/stat").exists(), "processes are looked at as Linux shows them"
)
class Folders(Folder):
    def test_an_interrupt_ends_all_scripts_of_a_folder(self) -> None:
        sleeping = (
            "import os, sys, time\nopen(f'{sys.argv[0]}.{os.getpid()}', 'w')\ntime.sleep(600)\n"
        )
        vga = self.program("vga", sleeping)
        for number in range(8):
            self.write(f"scripts/{number}.vga", "frame\n")
        words = ("run", self.folder / "scripts", "--vga", vga, "--jobs", "4")
        process = begin("zaklimot", *words, start_new_session=True)
        self.wait_until(lambda: len(list(self.folder.glob("vga.*"))) == 4, process)
        process.send_signal(signal.SIGINT)
        _, said = process.communicate(timeout=60)
        self.assertEqual((process.returncode, said), (130, b""))
        numbers = [int(path.suffix[1:]) for path in self.folder.glob("vga.*")]
        self.assertEqual(len(numbers), 4)
        self.assert_ended(*numbers)


class Suite(Folder):
    def test_the_exit_status(self) -> None:
        for name, text in (("good", "1 ok\n"), ("other", "1 FF\n"), ("failed", "1 ok\n")):
            self.write(f"{name}.vga", "crash\n" if name == "failed" else "out 3C4 1\n")
            self.write(f"{name}.txt", text)
        harness = f"{sys.executable} {Path(__file__).with_name('adapter.py')} {{script}}"
        for cases, status in (
            (("good",), 0),
            (("good", "other"), 1),
            (("good", "failed"), 2),
            (("other", "failed"), 2),
            (("failed",), 2),
        ):
            path = self.write("list.txt", "".join(f"{name}\n" for name in cases))
            done = run_tool("zaklimot", "suite", harness, "--list", path)
            self.assertEqual((done[0], done[2]), (status, ""), cases)


class Reports(Folder):
    def test_a_report_is_no_folder(self) -> None:
        script = self.write("t.vga", "in 3CC\n")
        words = ("run", "--on", "dosbox", script, str(self.folder))
        done = run_tool("zaklimot", "floppy", *words)
        self.assertEqual(done, (2, b"", f"zaklimot: {self.folder}: it is a folder\n"))
