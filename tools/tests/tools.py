"""How tests run the tools, in folders of their own, with fake programs, and ended by signals; and
the built program."""

from __future__ import annotations

import contextlib
import importlib
import io
import multiprocessing
import os
import re
import signal
import struct
import subprocess
import sys
import tempfile
import time
import unittest
import warnings
import zlib
from functools import partial
from pathlib import Path
from typing import (
    Any,
    BinaryIO,
    Callable,
    Iterable,
    Mapping,
    NamedTuple,
    Optional,
    Sequence,
    TypeVar,
)
from unittest import mock

from zaklimot.commands.core.trouble import Trouble
from zaklimot.commands.core.version import version
from zaklimot_dev.testing.running import BUILT, TESTED
from zaklimot_dev.testing.style import PYTHON as STARTING
from zaklimot.commands.script.library import use_library
from zaklimot.commands.script.program import PROGRAM as BUILT_PROGRAM
from zaklimot.commands.script.words import FONTS


TOOLS = Path(__file__).resolve().parents[1]
TOP = TOOLS.parent
# The commands of users; and where Python finds these and the modules of the tools.
PACKAGE = TOP / "python" / "zaklimot" / "commands"
MODULES = f"{TOOLS}:{TOP / 'python'}"
EXAMPLES = TOP / "examples"
RED = b"\x3f\x00\x00"
WHITE = b"\x3f\x3f\x3f"
BLACK = b"\x00\x00\x00"
# How a tool's script names the module that has its `main`.
MAIN = re.compile(r'\bstart\("([\w.]+)"\)')
# The tools want nothing but Python's own library, and start faster where nothing else is looked
# for.
PYTHON = (sys.executable, "-S")
FORKING = multiprocessing.get_context("fork")
# So long may a run take.
MOST_SECONDS = 200
# The signals that end a tool, and its exit status then.
SIGNALS = ((signal.SIGTERM, 143), (signal.SIGHUP, 129), (signal.SIGINT, 130))
# A child that is to be there is waited for this many seconds.
WAITING = 60
# So many seconds have processes to end that a tool has ended.
ENDING = 10
# The program that is tested, as the runner of the tests names it to their processes.
PROGRAM = Path(os.environ.get(TESTED) or BUILT_PROGRAM)
# What a program begins with that answers the script by which it is tried.
TRIED = '#!/bin/sh\n[ "$(/bin/cat "$2")" = "in 3CC" ] && echo "1 00" && exit\n'
# Why a test is skipped.
UNBUILT = "there is no program to test: tools/tests-of-tools compiles one, if there is a C compiler"


# A test or a class of them.
Marked = TypeVar("Marked", bound=Any)


# The command of users, and all tools but the one that is the program itself.
COMMAND = "zaklimot"
NAMES = [
    COMMAND,
    *sorted(
        path.name
        for path in TOOLS.glob("*")
        if path.is_file() and path.read_bytes().startswith(STARTING) and path.name != "vga"
    ),
]


def path_of(name: str) -> Path:
    """Where a tool lies, or the command of users."""
    return TOP / name if name == COMMAND else TOOLS / name


def main_of(name: str) -> Callable[[Sequence[str]], int]:
    """The `main` of a tool."""
    found = MAIN.search(path_of(name).read_text("utf-8"))
    assert found is not None, name
    main: Callable[[Sequence[str]], int] = importlib.import_module(found[1]).main
    return main


def _become(
    work: Callable[[], int],
    streams: Sequence[BinaryIO],
    temporary: str,
    prepare: Callable[[], object],
) -> None:
    """Goes on as a tool does that has just been started, with these three files as its standard
    streams, and this folder for temporary files."""
    for number, stream in enumerate(streams):
        os.dup2(stream.fileno(), number)
    sys.stdin = open(0)
    sys.stdout = open(1, "w")
    sys.stderr = open(2, "w", errors="backslashreplace")
    warnings.simplefilter("ignore")
    tempfile.tempdir = None
    os.environ["TMPDIR"] = temporary
    _heed_signals()
    prepare()
    sys.exit(work())


def run_tool(
    name: str, *words: str | bytes | Path, given: bytes = b"", prepare: Callable[[], object] = bool
) -> tuple[int, bytes, str]:
    """Exit status, output and standard error of a tool, which reads these bytes; its process is
    prepared before.

    A tool that is given nothing reads nothing of its standard input, which may be that of a loop
    around it. None leaves temporary files, or processes that go on running. None ends with status 2
    and without a reason, or with Python's own words.

    The process has the tool's modules already: to start Python for each run would take most of the
    tests' time.
    """
    work = partial(main_of(name), [os.fsdecode(word) for word in words])
    with (
        tempfile.TemporaryFile() as read,
        tempfile.TemporaryFile() as written,
        tempfile.TemporaryFile() as said,
        tempfile.TemporaryDirectory() as temporary,
    ):
        is_asked = given or not {"-", b"-"}.isdisjoint(words)
        read.write(given if is_asked else b"not to be read\n")
        read.seek(0)
        others = _children()
        status = _forked(_become, work, (read, written, said), temporary, prepare)
        assert is_asked or not os.lseek(read.fileno(), 0, os.SEEK_CUR), "it reads standard input"
        assert not os.listdir(temporary), f"temporary files are left: {os.listdir(temporary)}"
        assert not _left_running(others), "processes are left"
        written.seek(0)
        said.seek(0)
        output, told = written.read(), said.read().decode()
        assert status != 2 or output or told, "no reason is told"
        assert "Traceback" not in told, told
        return status, output, told


def _forked(work: Callable[..., None], *given: object) -> int:
    """The exit status of work in a process of its own."""
    process = FORKING.Process(target=work, args=given)
    process.start()
    try:
        process.join(MOST_SECONDS)
    finally:
        # Where it takes too long, or the tests are ended, it ends what it has started.
        if process.is_alive():
            process.terminate()
            process.join()
    assert process.exitcode is not None
    return process.exitcode


def _children() -> set[int]:
    """The numbers of the processes below this one, whose own parents may have ended."""
    found: set[int] = set()
    for listed in Path("/proc/self/task").glob("*/children"):
        with contextlib.suppress(OSError):
            found.update(map(int, listed.read_text("ascii").split()))
    return found


def _left_running(others: set[int]) -> set[int]:
    """The processes that run beside others, once they have had the time to end. While other tools
    run beside, whose they are isn't known, and none is told."""
    end = time.monotonic() + ENDING
    left = _children() - others
    while left and not multiprocessing.active_children():
        left = {number for number in left if is_running(number)}
        if time.monotonic() > end:
            return left
        time.sleep(0.01)
    return set()


def call(main: Callable[[list[str]], int], *words: str | Path) -> tuple[int, str, str]:
    """The same of a tool's `main`, which is called here."""
    output, errors = io.StringIO(), io.StringIO()
    with contextlib.redirect_stdout(output), contextlib.redirect_stderr(errors):
        status = main([str(word) for word in words])
    return status, output.getvalue(), errors.getvalue()


def ended(*words: str | bytes | Path, **options: Any) -> tuple[int, Any, Any]:
    """The same of any command; `options` go to `subprocess.run`, and `text=False` among them asks
    for bytes."""
    given: dict[str, Any] = {
        "stdout": subprocess.PIPE,
        "stderr": subprocess.PIPE,
        "text": True,
        "timeout": MOST_SECONDS,
        **options,
    }
    done = subprocess.run(words, **given)
    return done.returncode, done.stdout, done.stderr


def takes_long(test: Marked) -> Marked:
    """Marks a test, or a class of them, that takes long: it is begun first."""
    test.is_long = True
    return test


def want_program() -> None:
    """Skips a test where there is no program to test, or has it fail where the proved one is to be
    built."""
    if not os.access(PROGRAM, os.X_OK):
        raise (AssertionError if os.environ.get(BUILT) else unittest.SkipTest)(UNBUILT)


def want_library() -> None:
    """Skips a test where there is no library that explains."""
    try:
        use_library()
    except Trouble as trouble:
        raise unittest.SkipTest(str(trouble)) from trouble


class Ran(NamedTuple):
    """How a run of the program ended: its status, its report, and what it said."""

    status: int
    report: bytes
    said: str


def run_program(
    *words: str | bytes | Path, given: bytes = b"", folder: Optional[Path] = None
) -> Ran:
    """How a run of the program with these words ends."""
    status, report, said = ended(PROGRAM, *words, cwd=folder, input=given, text=False)
    return Ran(status, report, said.decode())


def run_texts(texts: Mapping[str, bytes]) -> dict[str, Ran]:
    """What `vga go` answers to each of these texts. Without the program the test is skipped."""
    want_program()
    words = ("go", "/dev/stdin", "--fonts", FONTS)
    return {name: run_program(*words, given=text) for name, text in texts.items()}


def patched(target: Any, faked: Mapping[str, Any]) -> Any:
    """A patch of some names of a module."""
    return mock.patch.multiple(target, **faked)


def hold(
    test: unittest.TestCase, work: Callable[..., object], table: Iterable[tuple[Any, ...]]
) -> None:
    """Holds what work makes of the front of each row of a table to the row's last."""
    for *given, wanted in table:
        with test.subTest(given):
            test.assertEqual(work(*given), wanted)


def hold_version(test: unittest.TestCase, name: str, done: Sequence[Any]) -> None:
    """Holds what a tool has answered to `--version`. What runs scripts the command of users tells
    alone."""
    status, output, said = done
    first, *more = output.splitlines()
    test.assertEqual((status, first, said), (0, f"{name} {version()}", ""))
    test.assertEqual([line[:16] for line in more], ["scripts run by t"] * (name == COMMAND))


def hold_undone(test: unittest.TestCase, done: Sequence[Any], told: Any) -> None:
    """Holds what a call above has answered to work that can't be done: status 2, no output, words
    with the pattern."""
    status, output, said = done
    test.assertEqual((status, len(output)), (2, 0), said)
    test.assertRegex(said, told)


def refused(work: Callable[..., object], *words: object) -> str:
    """What is told of work that a Trouble ends."""
    try:
        work(*words)
    except Trouble as trouble:
        return str(trouble)
    raise AssertionError("it is not refused")


def hold_refused(
    test: unittest.TestCase, work: Callable[..., object], table: Iterable[tuple[Any, ...]]
) -> None:
    """Holds what is told of work that a Trouble ends, for the front of each row, to the row's last,
    a pattern."""
    for *given, told in table:
        with test.subTest(given):
            test.assertRegex(refused(work, *given), told)


def _heed_signals() -> None:
    # What runs in the background of a shell ignores some of them, and so would a tool.
    for number, _ in SIGNALS:
        signal.signal(number, signal.SIG_DFL)
    # A tool for which a test waits in vain ends all the same.
    signal.signal(signal.SIGALRM, signal.SIG_DFL)
    signal.alarm(MOST_SECONDS)


def begin(name: str, *words: str | Path, **options: Any) -> subprocess.Popen[Any]:
    """A tool that has begun, with pipes for its streams; `options` go to `subprocess.Popen`."""
    given: dict[str, Any] = {
        "stdout": subprocess.PIPE,
        "stderr": subprocess.PIPE,
        "preexec_fn": _heed_signals,
        **options,
    }
    return subprocess.Popen([*PYTHON, path_of(name), *words], **given)


def is_running(number: int) -> bool:
    """Whether a process runs. One that has ended and that nobody has asked for is none."""
    try:
        state = Path(f"/proc/{number}/stat").read_text().rpartition(")")[2].split()[0]
    except OSError:
        return False
    return state not in ("Z", "X")


class Folder(unittest.TestCase):
    """A test with files of its own."""

    def setUp(self) -> None:
        folder = tempfile.TemporaryDirectory()
        self.addCleanup(folder.cleanup)
        self.folder = Path(folder.name)

    def write(self, name: str, text: str | bytes) -> str:
        """Writes a file, and answers its path."""
        path = self.folder / name
        path.parent.mkdir(parents=True, exist_ok=True)
        path.write_bytes(text.encode() if isinstance(text, str) else text)
        return str(path)

    def program(self, name: str, text: str) -> str:
        """Writes a program: of the shell, or of Python without packages, where it has no line that
        names another."""
        path = self.write(name, text if text.startswith("#!") else f"#!{sys.executable} -S\n{text}")
        os.chmod(path, 0o755)
        return path

    def report(self, name: str, *answers: str | bytes) -> str:
        """A report as a file."""
        return self.write(name, report(*answers))

    def answering(self, *answers: str | bytes) -> str:
        """A program in the place of `vga` that writes a report of these answers."""
        return self.writing(self.report("given", *answers))

    def writing(self, report: str) -> str:
        """A program in the place of `vga` that writes this file; of the script by which it is
        tried, the right report."""
        return self.program("vga", f"{TRIED}/bin/cat {report}\n")

    def temporary(self) -> str:
        """A folder for temporary files, of which none may be left when the test ends."""
        folder = self.folder / "temporary"
        folder.mkdir()
        self.addCleanup(lambda: self.assertEqual(list(folder.iterdir()), []))
        return str(folder)

    def names(self) -> list[str]:
        """The names of all that is in the folder."""
        return sorted(path.name for path in self.folder.iterdir())

    def patch(self, *patches: Any) -> None:
        """Begins patches of `mock`, which end with the test."""
        for patch in patches:
            patch.start()
            self.addCleanup(patch.stop)

    def wait_until(
        self, is_done: Callable[[], bool], process: Optional[subprocess.Popen[bytes]] = None
    ) -> None:
        """Waits until something is done, as long as a process runs."""
        until = time.monotonic() + WAITING
        while not is_done():
            self.assertLess(time.monotonic(), until, "it is not done in time")
            self.assertTrue(process is None or process.poll() is None, "the process has ended")
            time.sleep(0.01)

    def wait_for(self, path: Path, process: Optional[subprocess.Popen[bytes]] = None) -> str:
        """Waits until a file has a whole line, as long as a process runs; what it has."""
        self.wait_until(lambda: path.exists() and path.read_text().endswith("\n"), process)
        return path.read_text()

    def within(self, work: Callable[[int], Any], begun: Path) -> Any:
        """What comes of work that is ended after so many seconds: after more, where no file tells
        that it had begun."""
        for seconds in (2, 8, 32):
            made = work(seconds)
            if begun.exists():
                return made
        self.fail(f"{begun} is not written")

    def assert_ended(self, *numbers: int) -> None:
        """That processes end soon."""
        self.wait_until(lambda: not any(map(is_running, numbers)))


# Reports, pictures and PNGs are made and read with none of the tools' own code.


def ppm(width: int, height: int, dots: bytes) -> bytes:
    """A picture's bytes."""
    return b"P6\n%d %d\n63\n" % (width, height) + dots


def report(*answers: str | bytes) -> bytes:
    """A report of steps with these answers. Bytes are a picture."""
    told = (
        b"picture %d\n" % len(one) + one if isinstance(one, bytes) else one.encode()
        for one in answers
    )
    return b"".join(b"%d %b\n" % step for step in enumerate(told, 1))


def stream(data: bytes) -> io.BufferedReader:
    """A stream of bytes, as a file gives them."""
    return io.BufferedReader(io.BytesIO(data))  # type: ignore[arg-type]


def png_chunks(data: bytes) -> list[tuple[bytes, bytes]]:
    """The chunks of a PNG, each of whose checks must hold: their kinds and data."""
    assert data[:8] == b"\x89PNG\r\n\x1a\n"
    at = 8
    chunks = []
    while at < len(data):
        (length,) = struct.unpack_from(">I", data, at)
        kind, body = data[at + 4 : at + 8], data[at + 8 : at + 8 + length]
        (check,) = struct.unpack_from(">I", data, at + 8 + length)
        assert check == zlib.crc32(kind + body)
        chunks.append((kind, body))
        at += 12 + length
    return chunks


def png_rows(data: bytes) -> tuple[int, int, list[bytes]]:
    """Width, height and rows of a truecolour PNG of eight bits."""
    chunks = png_chunks(data)
    assert chunks[0][0] == b"IHDR" and chunks[-1] == (b"IEND", b"")
    width, height, *form = struct.unpack(">IIBBBBB", chunks[0][1])
    assert form == [8, 2, 0, 0, 0]
    lines = zlib.decompress(b"".join(body for kind, body in chunks if kind == b"IDAT"))
    length = 3 * width + 1
    assert len(lines) == length * height
    assert not any(lines[::length]), "a row with a filter"
    return width, height, [lines[at + 1 : at + length] for at in range(0, len(lines), length)]
