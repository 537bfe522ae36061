"""What all tools have in common: how they begin, end, write and run others, of which nothing is
left; and the gate."""

from __future__ import annotations

import ast
import io
import os
import re
import stat
import sys
import unittest
from functools import partial
from pathlib import Path
from threading import Event
from unittest import mock

from zaklimot.commands.core import cli
from zaklimot.commands.core.processes import (
    IS_LINUX,
    Failed,
    Limits,
    Outcome,
    captured,
    run,
    run_command,
    said_last,
    started,
    streaming,
)
from zaklimot.commands.core.progress import DELAY, Progress
from zaklimot.commands.core.streams import write_file, writing
from zaklimot.commands.core.trouble import TROUBLE, Trouble
from zaklimot.commands.core.words import MEBIBYTE
from zaklimot_dev.library.making import AARCH64
from zaklimot_dev.testing import running
from zaklimot_dev.testing.running import TESTED
from zaklimot.commands.report.listing import _wait_for

from .tools import (
    NAMES,
    PACKAGE,
    PYTHON,
    SIGNALS,
    TOOLS,
    path_of,
    TOP,
    Folder,
    begin,
    call,
    ended,
    hold,
    refused,
    run_tool,
    takes_long,
)


# Starts a program, and has a signal come amid its start; its status tells that the signal came.
INTERRUPTED = """
import os, signal, sys
sys.path.insert(0, {package!r})
from zaklimot.commands.core.processes import started
# A run in the background of a shell has the signal ignored.
signal.signal(signal.SIGINT, signal.default_int_handler)
os.register_at_fork(after_in_parent=lambda: os.kill(os.getpid(), signal.SIGINT))
try:
    with started(["true"], preexec_fn=lambda: None) as process:
        process.wait()
except KeyboardInterrupt:
    sys.exit(7)
"""
# Starts a child that sleeps, writes its number into a file, and then does what is wanted.
PARENT = """
import subprocess, sys, time
child = subprocess.Popen([sys.executable, '-c', 'import time; time.sleep(600)'])
open(sys.argv[1], 'w').write(f'{child.pid}\\n')
"""
# What stands in the place of the toolchain: it starts a child in a group of its own, leaves a
# temporary file, and sleeps.
RT = """import os, signal, subprocess, sys, tempfile, time
if sys.argv[1] == 'doc': print('/none/doc'); sys.exit()
tempfile.mkstemp()
child = subprocess.Popen(['sleep', '600'], start_new_session=True)
signal.signal(signal.SIGTERM, lambda *_: (child.kill(), child.wait(), sys.exit(1)))
open(os.environ['CHILD'], 'w').write(f'{child.pid} {os.getpid()}\\n')
time.sleep(600)
"""
# What stands in the place of `vga`, for the fuzzer.
SLEEPING = """import os, time
open(os.environ['CHILD'], 'w').write(f'{os.getpid()}\\n')
time.sleep(600)
"""
# Tests, of which one does the same of a process in a group of its own, and leaves a temporary file
# too.
TESTS = """
import os, subprocess, tempfile, unittest
from zaklimot.commands.core.processes import started
class Sleeping(unittest.TestCase):
    def test_one(self):
        tempfile.mkstemp()
        with started(["sleep", "600"]) as process:
            open(os.environ["CHILD"], "w").write(f"{process.pid} {os.getpid()}\\n")
            process.wait()
"""
# The words of tools that start programs.
STARTING = (
    "zaklimot suite {harness} --list {list}",
    "vga-library make {made}",
    "vga-release {made}",
    "vga-page module {made}",
    "vga-fuzz {vga}",
    "zaklimot floppy run --on dosbox {script} {made}",
    "tests-of-tools {tests}",
    "zaklimot trace record {made} --vga {vga} --quiet 50 -- -cdrom disc",
)
# What the only test of a module does, and what is told of it.
TEST = """import os, signal, time, unittest
from pathlib import Path
from tests import tools
class One(unittest.TestCase):
    def test_one(self):
        {}
"""
BAD = {
    "fails": ("self.fail('oh')", "AssertionError: oh"),
    "raises": ("no_such_name", "NameError: name 'no_such_name'"),
    "ends": ("os._exit(0)", "its process ended with status 0"),
    "is_killed": ("os.kill(os.getpid(), 9)", "its process ended with status -9"),
    "is_asked_to_end": ("os.kill(os.getpid(), 15)", "its process ended with status -15"),
    "lacks": ("import no_such_module", "No module named 'no_such_module'"),
}


class Endings(unittest.TestCase):
    """What it writes may find no room, no reader, and no open stream."""

    def told(self, name: str, rest: str) -> tuple[int, str]:
        """Exit status and standard error of a tool's help, with its streams as a shell sets
        them."""
        status, _, said = ended(
            "/bin/sh", "-c", f'"$@" {rest}', "sh", *PYTHON, path_of(name), "--help"
        )
        return status, said

    def test_an_output_that_takes_nothing_or_is_closed(self) -> None:
        ways = ((">/dev/full", "No space left on device"), (">&-", "it is closed"))
        hold(
            self,
            self.told,
            (
                (name, rest, (TROUBLE, f"{name}: standard output: {told}\n"))
                for name in NAMES
                for rest, told in ways
            ),
        )

    def test_want_of_memory(self) -> None:
        done = call(lambda _: cli.run("tool", mock.Mock(side_effect=MemoryError)))
        self.assertEqual(done, (TROUBLE, "", f"tool: {cli.NO_MEMORY}\n"))

    def test_a_reader_that_has_gone(self) -> None:
        for name in NAMES:
            with self.subTest(name):
                reader, writer = os.pipe()
                os.close(reader)
                with open(writer, "wb"):
                    self.assertEqual(
                        ended(*PYTHON, path_of(name), "--help", stdout=writer), (141, None, "")
                    )


class Programs(unittest.TestCase):
    def test_one_module_starts_them(self) -> None:
        starting = re.compile(
            r"\bsubprocess\.(?:Popen\(|run\(|call\(|check_)|\bos\.(?:system|popen|spawn)"
        )
        found = {
            path.name
            for folder in (PACKAGE, TOOLS / "zaklimot_dev")
            for path in folder.rglob("*.py")
            if starting.search(path.read_text("utf-8"))
        }
        self.assertEqual(found, {"processes.py"})

    def test_one_that_is_not_there(self) -> None:
        for words in (["/none/such"], ["a\0b"]):
            with self.assertRaises(Trouble), started(words):
                self.fail("it is started")

    def test_no_signal_is_lost_while_one_is_started(self) -> None:
        status, _, said = ended(
            sys.executable, "-c", INTERRUPTED.format(package=str(PACKAGE.parents[1]))
        )
        self.assertEqual((status, said), (7, ""))

    def test_unions_of_types_are_not_evaluated(self) -> None:
        # Python 3.9, which the tools are content with, has no `|` between types.
        for path in PACKAGE.rglob("*.py"):
            nodes = list(ast.walk(ast.parse(path.read_text("utf-8"))))
            told = [node.annotation for node in nodes if isinstance(node, (ast.arg, ast.AnnAssign))]
            told += [node.returns for node in nodes if isinstance(node, ast.FunctionDef)]
            unions = [
                part.lineno
                for one in told
                if one
                for part in ast.walk(one)
                if isinstance(part, ast.BinOp)
            ]
            with self.subTest(path.relative_to(TOP)):
                is_late = any(
                    isinstance(node, ast.ImportFrom) and node.module == "__future__"
                    for node in nodes
                )
                self.assertEqual([] if is_late else unions, [])

    def test_what_ends_badly_is_told(self) -> None:
        hold(
            self,
            partial(refused, run),
            (
                (
                    ["sh", "-c", "echo a >&2; exit 3"],
                    "sh: it ended with status 3\n  sh -c echo a >&2; exit 3\na\n",
                ),
                (["no-such-program"], "no-such-program: it is not in the path"),
            ),
        )
        with self.assertRaises(Failed) as raised:
            run(["sleep", "60"], seconds=0.1)
        self.assertEqual(str(raised.exception), "sleep: it had not ended after 0 seconds")

    def test_lines_are_heard_and_output_is_answered(self) -> None:
        heard: list[str] = []
        said = run(["sh", "-c", "echo one; echo two >&2; echo three"], heard=heard.append)
        self.assertEqual(said, "one\nthree\n")
        self.assertTrue(heard[-1] in ("two", "three"))
        self.assertEqual(run(["sh", "-c", 'printf "$ONE"'], environment={"ONE": "1"}), "1")

    def test_of_much_the_end_is_told(self) -> None:
        says = "seq 20000 >&2; seq 20000; echo written"
        done = captured(["sh", "-c", f"{says}; exit 3"])
        self.assertEqual((done.status, len(done.said())), (3, 2000))
        self.assertTrue(done.said().endswith("\n19999\n20000\n"))
        with streaming(["sh", "-c", says]) as run:
            self.assertTrue(run.report.read().endswith(b"\n20000\nwritten\n"))
        self.assertEqual((run.status, len(run.said)), (0, 1 << 16))
        self.assertTrue(run.said.endswith("\n20000\n"))

    def test_what_is_said_is_heard_before_what_is_written(self) -> None:
        # Whole lines alone, and the last of them at the end.
        for says, wanted in (
            ("echo one >&2; echo two", "one"),
            ("echo one >&2; printf more >&2; echo two", "one"),
            ("echo one; echo two; printf more", "two"),
            ("printf more", ""),
        ):
            heard: list[str] = []
            run(["sh", "-c", says], heard=heard.append)
            self.assertEqual(heard[-1], wanted, says)


@unittest.skipUnless(
    Path("/proc/self/stat").exists(), "processes are looked at as Linux shows them"
)
class Commands(Folder):
    def run_python(
        self, program: str, limits: Limits = Limits(), is_ended: Event | None = None
    ) -> Outcome:
        words = [sys.executable, "-c", program, str(self.folder / "child")]
        return run_command(
            words, self.folder / "out", self.folder / "said", limits, is_ended or Event()
        )

    def test_what_is_written_and_said(self) -> None:
        outcome = self.run_python(
            "import sys; print('written'); print('said', file=sys.stderr); sys.exit(3)"
        )
        self.assertEqual(outcome, Outcome(3))
        self.assertEqual(
            ((self.folder / "out").read_text(), (self.folder / "said").read_text()),
            ("written\n", "said\n"),
        )

    def test_children_end_with_their_command(self) -> None:
        too_much = Outcome(None, "the command wrote more than 1 MiB")
        for behind, limits, outcome in (
            ("", Limits(), Outcome(0)),
            ("time.sleep(600)", None, Outcome(None, "the command took too long")),
            ("while True: sys.stdout.buffer.write(bytes(1 << 16))", Limits(60, MEBIBYTE), too_much),
        ):
            with self.subTest(behind):
                child = self.folder / "child"
                text = PARENT + behind
                child.unlink(missing_ok=True)
                made = self.within(
                    lambda seconds: self.run_python(text, limits or Limits(seconds)), child
                )
                self.assertEqual(made, outcome)
                self.assert_ended(int(self.wait_for(child)))
        self.assertEqual((self.folder / "out").stat().st_size, MEBIBYTE)
        # An output that is too long may be short.
        self.assertEqual(self.run_python("print('x' * (1 << 20))", Limits(60, MEBIBYTE)), too_much)

    def test_a_user_who_ends_it(self) -> None:
        is_ended = Event()
        is_ended.set()
        self.assertEqual(
            self.run_python("import time; time.sleep(600)", Limits(), is_ended).status, None
        )

    def test_one_without_a_limit_of_time_is_ended(self) -> None:
        is_ended = Event()
        is_ended.set()
        told = refused(partial(captured, is_ended=is_ended), ["sleep", "600"])
        self.assertEqual(told, "sleep: it was ended")

    @takes_long
    def test_signals_end_all_that_was_begun(self) -> None:
        self.write("two.fnt", "12")
        self.write("one.vga", "frame\n")
        self.write("one.txt", "1 ok\n")
        harness = self.write("harness.py", PARENT + "time.sleep(600)")
        self.program("bin/rt", RT)
        # The archive of a commit is one that has no files.
        answers = "log) echo 0123 0 ;; archive) head -c 10240 /dev/zero ;;"
        self.program("bin/git", f"#!/bin/sh\ncase $3 in {answers} esac\n")
        for name in ("qemu-system-x86_64", *AARCH64.programs()):
            self.program(f"bin/{name}", SLEEPING)
        self.program("bin/dosbox", "#!/bin/sh\nsleep 600 &\necho $! > $CHILD\nwait\n")
        places = {
            "harness": f"{sys.executable} {harness} {self.folder}/child {{script}}",
            "list": self.write("list.txt", "fonts two.fnt\none\n"),
            "script": str(self.folder / "one.vga"),
            "vga": self.program("bin/vga", SLEEPING),
            "made": str(self.folder / "made"),
            "tests": Path(self.write("sleeping.py", TESTS)).stem,
            "elements": str(TOP / "examples" / "steps" / "sequencer.json.gz"),
        }
        for line in STARTING:
            tool, *words = (word.format(**places) for word in line.split())
            for number, status in SIGNALS:
                with self.subTest(line, number=number):
                    self.end_tool(number, status, tool, *words)

    def end_tool(self, number: int, status: int, *words: str) -> None:
        """Sends a tool a signal while what it has started sleeps: nothing is left, nor said."""
        child, temporary = self.folder / "child", self.folder / "tmp"
        temporary.mkdir(exist_ok=True)
        child.unlink(missing_ok=True)
        given = {
            "PATH": f"{self.folder / 'bin'}:{os.environ['PATH']}",
            "PYTHONPATH": str(self.folder),
            "TMPDIR": str(temporary),
            "CHILD": str(child),
        }
        with begin(*words, env={**os.environ, **given}) as process:
            numbers = [int(word) for word in self.wait_for(child, process).split()]
            self.assertNotEqual(list(temporary.iterdir()), [])
            process.send_signal(number)
            output, said = process.communicate(timeout=120)
        self.assertEqual((process.returncode, output, said), (status, b"", b""))
        self.assert_ended(*numbers)
        self.assertEqual(list(temporary.iterdir()), [])
        self.assertFalse((self.folder / "made").exists())


class Writing(Folder):
    def test_a_file_is_new_and_whole_or_stays(self) -> None:
        path = self.write("a", "old")
        with self.assertRaises(KeyboardInterrupt):
            with writing(path) as stream:
                stream.write(b"half")
                stream.flush()
                self.assertEqual((self.folder / "a").read_text(), "old")
                raise KeyboardInterrupt
        self.assertEqual((self.names(), (self.folder / "a").read_text()), (["a"], "old"))
        write_file(path, b"new")
        self.assertEqual((self.names(), (self.folder / "a").read_text()), (["a"], "new"))

    def test_what_a_file_has_been_to_others_it_stays(self) -> None:
        path = self.write("a", "old")
        link = self.folder / "link"
        link.symlink_to("a")
        os.chmod(path, 0o640)
        with open(path, encoding="ascii") as stream:
            write_file(str(link), b"new")
            self.assertEqual(
                (stream.read(), Path(path).read_text(), link.is_symlink()), ("old", "new", True)
            )
        self.assertEqual(stat.S_IMODE(os.stat(path).st_mode), 0o640)
        write_file(path + "b", b"new")
        (self.folder / "c").touch()
        self.assertEqual(os.stat(path + "b").st_mode, os.stat(self.folder / "c").st_mode)

    def test_the_rights_of_files_are_those_that_the_user_wants(self) -> None:
        before = os.umask(0o027)
        try:
            for name in "ab":
                write_file(str(self.folder / name), b"new")
        finally:
            after = os.umask(before)
        modes = [stat.S_IMODE(os.stat(self.folder / name).st_mode) for name in "ab"]
        self.assertEqual((modes, after), ([0o640, 0o640], 0o027))

    def test_a_device_is_written_as_it_is(self) -> None:
        write_file(os.devnull, b"new")
        self.assertFalse(stat.S_ISREG(os.stat(os.devnull).st_mode))


class Lines(Folder):
    def setUp(self) -> None:
        super().setUp()
        # A terminal that keeps what is written on it.
        self.terminal = io.StringIO()
        self.now = 100.0
        self.patch(
            mock.patch.object(self.terminal, "isatty", return_value=True),
            mock.patch("sys.stderr", self.terminal),
            mock.patch("time.monotonic", lambda: self.now),
        )

    def test_long_work_shows_one_line_and_clears_it(self) -> None:
        progress = Progress()
        for tells, line in ((True, "r: 10 %"), (False, ""), (True, "r: 9 %")):
            self.now += DELAY if tells else 0
            self.assertEqual(progress.is_due(), tells)
            if tells:
                progress.tell(line)
        progress.clear()
        progress.clear()
        self.assertEqual(self.terminal.getvalue(), "\rr: 10 %\rr: 9 % \r      \r")

    def test_short_work_and_no_terminal_show_nothing(self) -> None:
        with mock.patch("sys.stderr", io.StringIO()):
            elsewhere = Progress()
        progress = Progress()
        self.assertFalse(progress.is_due())
        progress.clear()
        self.now += DELAY
        self.assertFalse(elsewhere.is_due())
        self.assertEqual(self.terminal.getvalue(), "")

    def test_a_line_is_no_longer_than_the_terminal(self) -> None:
        with mock.patch.dict("os.environ", COLUMNS="10"):
            Progress().tell("r: a long name")
        self.assertEqual(self.terminal.getvalue(), "\rr: a long")

    def test_the_end_of_what_a_program_said_is_told_as_one_line(self) -> None:
        # Of 609 bytes the last 600.
        path = Path(self.write("said", 600 * "a" + "\nthe end\n"))
        self.assertEqual(said_last(path), 591 * "a" + " the end")

    def test_a_line_is_taken_away_before_a_reason_is_told(self) -> None:
        progress = Progress()

        def work() -> int:
            progress.tell("r: 9 %")
            raise Trouble("why", "r")

        with mock.patch.object(cli, "_end_output"):
            self.assertEqual(cli.run("tool", work, progress), TROUBLE)
        self.assertEqual(self.terminal.getvalue(), "\rr: 9 %\r      \rtool: r: why\n")

    def test_how_long_the_first_answer_takes_is_told(self) -> None:
        reader, writer = os.pipe()
        progress = mock.Mock(is_wanted=True, tell=mock.Mock(side_effect=lambda _: os.close(writer)))
        with open(reader, "rb") as report:
            _wait_for(report, "s.vga", progress)
        progress.tell.assert_called_once_with("s.vga: no answer yet after 0 seconds")


def find_modules(folder: Path) -> None:
    """Has this process find modules of tests in a folder, and read those of the tests anew."""
    sys.path.insert(0, str(folder))
    for name in [name for name in sys.modules if name.partition(".")[0] == "tests"]:
        del sys.modules[name]
    running.MOST_WORKERS = 1


@takes_long
class Running(Folder):
    """The tests themselves, which the standard library runs."""

    def run_tests(self, *words: str, **lines: str) -> tuple[int, str]:
        """Exit status and output of tests, of which each module has one that does what a line
        says."""
        names = [
            Path(self.write(f"{name}.py", TEST.format(line))).stem for name, line in lines.items()
        ]
        # No program is compiled for them.
        tested = os.environ.get(TESTED) or str(self.folder / "none")

        def prepare() -> None:
            os.environ[TESTED] = tested
            find_modules(self.folder)

        status, output, said = run_tool("tests-of-tools", *words, *names, prepare=prepare)
        self.assertEqual(said, "")
        return status, output.decode()

    def test_what_is_bad_is_told_beside_what_is_good(self) -> None:
        status, said = self.run_tests(
            good="print('seen')", **{name: line for name, (line, _) in BAD.items()}
        )
        self.assertEqual((status, said.splitlines()[-1]), (1, f"1 passed, {len(BAD)} failed"))
        for name, (_, told) in BAD.items():
            self.assertRegex(said, told)
            self.assertRegex(said, rf"(?m)^failed  {name}\.One\.test_one$")

    @unittest.skipUnless(IS_LINUX, "processes are looked at as Linux shows them")
    def test_what_a_test_leaves_running_is_ended(self) -> None:
        # A process of a group of its own, whose parent has ended.
        number = self.folder / "number"
        line = f"os.system('setsid sh -c \\'sleep 600 & echo $! > {number}\\' &')"
        # The file is there before the number stands in it.
        waiting = f"while not (os.path.exists('{number}') and os.path.getsize('{number}')): pass"
        # The next test sees none of it: it has ended with its own test.
        seen = f"assert not tools.is_running(int(open('{number}').read()))"
        status, said = self.run_tests(leaves=f"{line}\n        {waiting}", sees=seen)
        self.assertEqual((status, said.splitlines()[-1]), (0, "2 passed, 0 failed"))
        self.assert_ended(int(self.wait_for(number)))

    @unittest.skipUnless(IS_LINUX, "limits are those of Linux")
    def test_a_test_that_takes_all_memory(self) -> None:
        status, said = self.run_tests(takes="bytes(3 << 30)", good="pass")
        self.assertEqual((status, said.splitlines()[-1]), (1, "1 passed, 1 failed"))
        self.assertIn("MemoryError", said)
        self.assertRegex(said, r"(?m)^failed  takes\.One\.test_one$")

    def test_a_test_that_takes_too_long(self) -> None:
        status, said = self.run_tests(
            takes="time.sleep(60)\n    most_seconds = 0.5",
            sets_up="pass\n    most_seconds = 0.5\n    setUpClass = lambda: time.sleep(60)",
            good="pass",
        )
        self.assertEqual((status, said.splitlines()[-1]), (1, "1 passed, 2 failed"))
        for name in ("takes", "sets_up"):
            self.assertRegex(said, rf"(?m)^failed  {name}\.One\.test_one$")
        self.assertIn("TookTooLong: the test takes more than 0.5 seconds", said)

    def test_one_that_is_skipped_is_told_with_the_reason(self) -> None:
        status, said = self.run_tests(skips="self.skipTest('it is Sunday')", good="pass")
        self.assertEqual((status, said.splitlines()[-1]), (0, "1 passed, 0 failed, 1 skipped"))
        self.assertIn("skipped  skips.One: it is Sunday\n", said)

    def test_those_that_a_crash_leaves_run_all_the_same(self) -> None:
        lines = "pass\n    def test_a(self): pass\n    def test_b(self): os._exit(3)"
        status, said = self.run_tests(several=lines)
        self.assertEqual((status, said.splitlines()[-1]), (1, "2 passed, 1 failed"))
        self.assertIn("failed  several.One.test_b\nits process ended with status 3\n", said)

    def test_a_class_that_can_not_be_set_up_or_cleaned_has_failed(self) -> None:
        two = "pass\n    def test_two(self): pass\n    @classmethod\n    def {}(cls): {}"
        for name, line, counts in (
            ("setUpClass", "cls.x", "0 passed, 2 failed"),
            ("setUpClass", "raise unittest.SkipTest('why')", "0 passed, 0 failed, 2 skipped"),
            ("tearDownClass", "cls.x", "2 passed, 1 failed"),
        ):
            with self.subTest(name, line=line):
                status, said = self.run_tests(one=two.format(name, line))
                self.assertEqual(said.splitlines()[-1], counts)
                self.assertEqual(status, int("1 failed" in counts or "2 failed" in counts))
