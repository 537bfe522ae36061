"""Runs other programs: each in a group of its own, within limits, and all that it has started ends
with it."""

import ctypes
import math
import os
import shlex
import shutil
import signal
import subprocess
import sys
import tempfile
import threading
import time
from concurrent.futures import ThreadPoolExecutor
from contextlib import contextmanager, suppress
from dataclasses import dataclass
from pathlib import Path
from threading import Event
from typing import (
    Any,
    BinaryIO,
    Callable,
    Iterable,
    Iterator,
    Mapping,
    NamedTuple,
    Optional,
    Sequence,
    TypeVar,
    Union,
    cast,
)

from .signals import ending_signals
from .trouble import Trouble, Wrong
from .words import MEBIBYTE


IS_POSIX = os.name == "posix"
IS_LINUX = sys.platform.startswith("linux")
# Seconds between two looks whether a command has ended: the first of them, and the longest.
FIRST_PAUSE = 0.0005
LONGEST_PAUSE = 0.05
# Seconds for what stands in a pipe once all that could write into it has ended.
DRAINING = 5
# Seconds for a program to end what it has started in groups of its own, once it is asked to.
ENDING = 5
# So much of what a program says at last is told, in lines and as one line; and so much of its
# output is kept at most.
MOST_SAID = 2000
MOST_IN_LINE = 600
MOST_KEPT = 1 << 28
# So much of what a command said at last is kept whose output is read as it comes.
MOST_STREAMED = 1 << 16
TOO_LONG = "the command took too long"
# Where each program comes from that may be lacking: the toolchain's, and those of Debian's
# packages.
BINUTILS = ("ld", "objcopy", "objdump", "ar", "nm", "readelf")
CROSS = "aarch64-linux-gnu"
PACKAGES = {
    **dict.fromkeys(BINUTILS, "binutils"),
    **{f"{CROSS}-{name}": f"binutils-{CROSS}" for name in BINUTILS},
    "cc": "gcc",
    "gcc": "gcc",
    "g++": "g++",
    "clang": "clang",
    "clang++": "clang",
    f"{CROSS}-gcc": f"gcc-{CROSS}",
    f"{CROSS}-g++": f"g++-{CROSS}",
    "s390x-linux-gnu-gcc": "gcc-s390x-linux-gnu",
    "x86_64-w64-mingw32-gcc": "gcc-mingw-w64-x86-64",
    "i686-linux-gnu-gcc": "gcc-i686-linux-gnu",
    "wine": "wine",
    "qemu-s390x": "qemu-user",
    "node": "nodejs",
    "qemu-system-x86_64": "qemu-system-x86",
    "qemu-aarch64": "qemu-user",
    "xwininfo": "x11-utils",
    "ffmpeg": "ffmpeg",
    "tesseract": "tesseract-ocr",
    "wasm-opt": "binaryen",
    "wasm2c": "wabt",
    "esbuild": "esbuild",
    "python3": "python3",
    "cargo": "cargo",
    "rustc": "rustc",
    "rustdoc": "rustc",
    "cargo-clippy": "rust-clippy",
}
SOURCES = {
    "rt": 'it is the command of the Rattle toolchain, which README.md tells of under "Build it"',
    **{name: f"install the package {package}" for name, package in PACKAGES.items()},
}
# Linux' prctl: the signal that a process gets when the one that has started it ends.
SET_PARENT_DEATH_SIGNAL = 1
# The same: who is the parent of a process whose own parent has ended.
SET_CHILD_SUBREAPER = 36
# A word of a command line.
Word = Union[str, Path]
Words = Sequence[Word]
Item = TypeVar("Item")
Made = TypeVar("Made")
# What is told the last whole line that a program has said, again and again while it works.
Hearer = Callable[[str], None]


# The programs that run, of all threads; and whether these are to start no more of them.
_under_way: set["subprocess.Popen[bytes]"] = set()
_are_ending = Event()


def end_all() -> None:
    """Asks all programs to end that run now, until the threads have ended that have begun them.

    Their readers come to the end of what they write, and start no others.
    """
    _are_ending.set()
    for process in list(_under_way):
        process.terminate()


@contextmanager
def _signals_held() -> Iterator[None]:
    """Keeps the signals back that end a tool while a program is started: Python loses one that
    comes amid a fork."""
    came: list[int] = []
    held: dict[int, Any] = {}
    if threading.current_thread() is threading.main_thread():
        held = {
            number: handler
            for number in ending_signals()
            if callable(handler := signal.getsignal(number))
        }
    for number in held:
        signal.signal(number, lambda number, _: came.append(number))
    try:
        yield
    finally:
        for number, handler in held.items():
            signal.signal(number, handler)
        for number in came[:1]:
            held[number](number, None)


@contextmanager
def started(words: Words, asking: float = 0, **given: Any) -> Iterator[subprocess.Popen[bytes]]:
    """A program that runs in a group of its own, with nothing on standard input; the group has
    ended afterwards.

    `asking` is how many seconds it gets to end by itself, once it is asked to, before it is killed.
    `given` goes to `Popen`; a program that can't be started is a Trouble.
    """
    process: Optional[subprocess.Popen[bytes]] = None
    if _are_ending.is_set():
        raise Trouble("the tool has been ended", str(words[0]))
    try:
        with _signals_held():
            try:
                given = {"stdin": subprocess.DEVNULL, "start_new_session": IS_POSIX, **given}
                process = subprocess.Popen([str(word) for word in words], **given)
            except (OSError, ValueError) as error:
                raise Trouble(
                    getattr(error, "strerror", None) or str(error), str(words[0])
                ) from error
            except subprocess.SubprocessError as error:
                raise Trouble(
                    "the system doesn't set these limits for it", str(words[0])
                ) from error
        _under_way.add(process)
        if _are_ending.is_set():
            process.terminate()
        yield process
    finally:
        if process is not None:
            _under_way.discard(process)
            end(process, asking)
            for stream in (process.stdout, process.stderr):
                if stream is not None:
                    stream.close()


def end_with_parent() -> None:
    """Has the system end this process when its parent is killed, and can't end it itself."""
    if IS_LINUX:
        ctypes.CDLL(None).prctl(SET_PARENT_DEATH_SIGNAL, signal.SIGKILL)


def adopt_orphans() -> None:
    """Has this process become the parent of those whose own parent ends, below it."""
    if IS_LINUX:
        ctypes.CDLL(None).prctl(SET_CHILD_SUBREAPER, 1)


def end_children() -> None:
    """Ends all children of this process, and those that become its children then, on Linux."""
    while IS_LINUX and (numbers := _children()):
        for number in numbers:
            with suppress(ProcessLookupError, ChildProcessError):
                os.kill(number, signal.SIGKILL)
                os.waitpid(number, 0)


def _children() -> list[int]:
    """The numbers of the children of this process."""
    listed = Path(f"/proc/self/task/{threading.get_native_id()}/children")
    with suppress(OSError):
        return [int(word) for word in listed.read_text("ascii").split()]
    return []


def end(process: subprocess.Popen[bytes], asking: float = 0) -> None:
    """Ends a command with all that it has started, unless its end was asked for: its number may be
    another's then.

    `asking` is how many seconds it gets to end by itself before it is killed: time to end what it
    has started in groups of their own.
    """
    for number in (signal.SIGTERM, signal.SIGKILL) if asking and IS_POSIX else (None,):
        if process.returncode is not None:
            return
        if not IS_POSIX:
            process.kill()
        else:
            with suppress(ProcessLookupError, PermissionError):
                os.killpg(process.pid, number or signal.SIGKILL)
        with suppress(subprocess.TimeoutExpired):
            process.wait(asking if number == signal.SIGTERM else None)


class Limits(NamedTuple):
    """What a command may take: seconds, and bytes on its standard output. Of its messages so many
    bytes are kept.

    With a limit of memory, in bytes, the system holds it to that and to its output: a write past it
    fails as on a full disk, and the command goes on.
    """

    seconds: float = 60
    output: int = 256 * MEBIBYTE
    messages: int = MEBIBYTE
    memory: Optional[int] = None

    def of_system(self) -> dict[str, Any]:
        """What `Popen` is given for the limits that the system holds a command to."""
        if self.memory is None:
            return {}
        import resource

        most = {
            resource.RLIMIT_CORE: 0,
            resource.RLIMIT_AS: self.memory,
            resource.RLIMIT_FSIZE: self.output,
        }

        def limit() -> None:
            for what, value in most.items():
                resource.setrlimit(what, (value, value))

        # Python ignores the signal of a file that has become too large, and so shall the command.
        return {"restore_signals": False, "preexec_fn": limit}


class Outcome(NamedTuple):
    """How a command ended: its status, or why it was ended."""

    status: Optional[int]
    reason: str = ""


@dataclass
class Streamed:
    """A command whose output is read as it comes: its status, and what it said at last, once that
    was read."""

    report: BinaryIO
    status: int = 0
    said: str = ""


@contextmanager
def streaming(words: Words, asking: float = 0, **given: Any) -> Iterator[Streamed]:
    """Runs a command, and gives its output as a stream. What isn't read is lost, and the command is
    told so. `asking` and `given` go to `started`."""
    with tempfile.TemporaryFile() as said:
        with started(words, asking, stdout=subprocess.PIPE, stderr=said, **given) as process:
            streamed = Streamed(cast(BinaryIO, process.stdout))
            with streamed.report:
                yield streamed
            streamed.status = process.wait()
        said.seek(max(0, said.seek(0, os.SEEK_END) - MOST_STREAMED))
        streamed.said = said.read().decode("utf-8", "replace")


def run_command(
    words: Words,
    output: Path,
    messages: Path,
    limits: Limits,
    is_ended: Event,
    hear: Callable[[], object] = bool,
    asking: float = 0,
    **given: Any,
) -> Outcome:
    """Runs a command with nothing on standard input, until it ends, or the event or a limit ends
    it.

    What it writes and says stands in two files then; `hear` is called meanwhile. Its whole process
    group has ended afterwards, however it ended itself. `asking` and `given` go to `started`.
    """
    until = time.monotonic() + limits.seconds
    too_much = f"the command wrote more than {limits.output // MEBIBYTE} MiB"
    with open(output, "wb") as written, open(messages, "ab") as said:
        said.truncate(0)

        def reason() -> str:
            if _size(said) > limits.messages:
                said.truncate(limits.messages)
            if _size(written) > limits.output:
                return too_much
            hear()
            if time.monotonic() >= until:
                return TOO_LONG
            return "it was ended" if is_ended.is_set() else ""

        given = {**limits.of_system(), **given}
        with started(words, asking, stdout=written, stderr=said, **given) as process:
            ended = _waited(process, reason)
        if reason() == too_much:
            written.truncate(limits.output)
            ended = too_much
    return Outcome(None if ended else process.returncode, ended)


def _waited(process: subprocess.Popen[bytes], reason: Callable[[], str]) -> str:
    """Waits until a command has ended, or until there is a reason to end it, which is the
    answer."""
    ended = ""
    pause = FIRST_PAUSE
    while not (ended or _has_ended(process)):
        time.sleep(pause)
        pause = min(2 * pause, LONGEST_PAUSE)
        ended = reason()
    return ended


def _size(file: BinaryIO) -> int:
    return os.fstat(file.fileno()).st_size


@contextmanager
def in_parallel(
    work: Callable[[Item], Made],
    items: Iterable[Item],
    jobs: int,
    is_ended: Event,
    ending: Callable[[], object] = bool,
) -> Iterator[Iterator[Made]]:
    """What comes of items in their order, so many at a time.

    The event tells the work to end, and `ending` is called then.
    """
    try:
        with ThreadPoolExecutor(jobs) as pool:
            try:
                yield pool.map(work, items)
            except BaseException:
                is_ended.set()
                pool.shutdown(wait=False, cancel_futures=True)
                ending()
                raise
    finally:
        _are_ending.clear()


def _has_ended(process: subprocess.Popen[bytes]) -> bool:
    """Whether a command has ended. Its number stays taken, so that its group can still be named."""
    if not hasattr(os, "waitid"):
        return process.poll() is not None
    return os.waitid(os.P_PID, process.pid, os.WEXITED | os.WNOWAIT | os.WNOHANG) is not None


def command_words(text: str) -> list[str]:
    """The words of a command that a user gives as one word of the shell."""
    try:
        words = shlex.split(text)
    except ValueError as error:
        raise Trouble(f"the command '{text}': {error}") from error
    if not words:
        raise Trouble("the command is empty")
    return words


class Failed(Trouble):
    """A program that has ended badly, or not in its time."""


class Done(NamedTuple):
    """How a program ended: its status, and the last part of what it wrote and said."""

    status: int
    output: bytes
    errors: bytes

    def said(self) -> str:
        """What it wrote and said at last, for messages."""
        return (self.output + self.errors).decode("utf-8", "replace")[-MOST_SAID:]


def check_program(name: str, instead: str = "") -> None:
    """Ends the work where a program is lacking: its source is told, and what works instead."""
    if shutil.which(name) is None:
        source = SOURCES.get(name)
        raise Trouble("it is not in the path" + (f": {source}" if source else "") + instead, name)


def captured(
    words: Words,
    folder: Optional[Path] = None,
    heard: Optional[Hearer] = None,
    seconds: Optional[float] = None,
    environment: Optional[Mapping[str, str]] = None,
    given: bytes = b"",
    is_ended: Optional[Event] = None,
) -> Done:
    """Runs a program to its end, and answers its status and what it writes.

    A Failed tells that it took more than it may, or that the event has ended it. Its temporary
    files lie in a folder of their own, which goes with them.
    """
    with tempfile.TemporaryDirectory(
        prefix="vga-tool-"
    ) as temporary, tempfile.TemporaryFile() as file:
        file.write(given)
        file.seek(0)
        output, errors = Path(temporary, "output"), Path(temporary, "errors")

        def hear() -> None:
            if heard is not None:
                heard(_last_line(errors) or _last_line(output))

        variables = {**os.environ, "TMPDIR": temporary, **(environment or {})}
        limits = Limits(seconds or math.inf, MOST_KEPT, MOST_KEPT)
        around: dict[str, Any] = {"cwd": folder, "env": variables, "stdin": file}
        # What a program said at last is heard too where it has ended at once.
        outcome = run_command(
            words, output, errors, limits, is_ended or Event(), hear, ENDING, **around
        )
        if outcome.status is None:
            late = f"it had not ended after {limits.seconds:.0f} seconds"
            raise Failed(late if outcome.reason == TOO_LONG else outcome.reason, str(words[0]))
        return Done(outcome.status, output.read_bytes(), errors.read_bytes())


def _last_line(path: Path) -> str:
    with open(path, "rb") as stream:
        stream.seek(max(0, _size(stream) - MOST_SAID))
        lines = stream.read(MOST_SAID).rpartition(b"\n")[0].splitlines()
    return lines[-1].decode("utf-8", "replace").strip() if lines else ""


def run(
    words: Words, folder: Optional[Path] = None, heard: Optional[Hearer] = None, **given: Any
) -> str:
    """Runs a program as `captured` does, and answers what it writes; a Failed tells how one ended
    badly."""
    return ended_well(words, folder, heard, **given).output.decode("utf-8", "replace")


def ended_well(
    words: Words, folder: Optional[Path] = None, heard: Optional[Hearer] = None, **given: Any
) -> Done:
    """The same, with its bytes, and with what it says on standard error."""
    name = str(words[0])
    check_program(name)
    done = captured(words, folder, heard, **given)
    if done.status:
        line = " ".join(str(word) for word in words)
        raise Failed(f"it ended with status {done.status}\n  {line}\n{done.said()}", name)
    return done


def tested(words: Words, folder: Optional[Path] = None, **given: Any) -> Done:
    """The same of a program that is tested: one that ends badly is a Wrong."""
    try:
        return ended_well(words, folder, **given)
    except Failed as failed:
        raise Wrong(str(failed)) from failed


def said_last(path: Path) -> str:
    """The end of what a program said into a file, as one line."""
    text = path.read_bytes()[-MOST_IN_LINE:].decode("utf-8", "replace") if path.exists() else ""
    return " ".join("".join(letter if letter.isprintable() else " " for letter in text).split())
