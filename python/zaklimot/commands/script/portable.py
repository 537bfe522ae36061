"""The portable program, and the library of the same sources in C: each is compiled once, and kept
in a folder of the user's cache."""

import hashlib
import os
import re
import shlex
import shutil
import stat
import sys
import tempfile
import time
from contextlib import contextmanager, suppress
from pathlib import Path
from typing import BinaryIO, Iterable, Iterator, NamedTuple, Optional, Sequence, Union

from zaklimot.commands import TOP
from zaklimot.commands.core.processes import Done, Word, captured
from zaklimot.commands.core.trouble import Trouble


try:
    import fcntl
except ImportError:
    # Windows has no such module.
    fcntl = None  # type: ignore[assignment]

SOURCES = tuple(
    TOP / place for place in ("portable/vga.c", "portable/zaklimot.c", "include/zaklimot.h")
)
FLAGS = ("-std=c99", "-O2")
# Where $CC names no compiler, the first of these in the path that can compile.
COMPILERS = ("cc", "gcc", "clang", "tcc")
# The names of what is compiled, in a folder that its digest names; and the names beside that: of
# folders in which something is being made, and of the lock.
NAME = "vga.exe" if os.name == "nt" else "vga"
LIBRARY_NAME = {"nt": "zaklimot.dll"}.get(os.name, "libzaklimot.so")
MAKING = "making-"
LOCK = "lock"
# So many seconds may a compilation take, and a run wait for that of another run; and between two
# looks.
MOST_SECONDS = 900
MOST_WAITING = 1000
PAUSE = 0.1
PAGE = "page/zaklimot.html runs scripts in a browser without one"
NO_COMPILER = (
    "there is no C compiler to make the program vga with: install Debian's package gcc, clang or"
    f" tcc, on macOS Xcode's command line tools (xcode-select --install), or name one by CC; {PAGE}"
)
COMPILES = (
    "{compiler} compiles {told} from portable/ into {folder} now, in about 30 seconds, and once:"
    " this {kind} is tested, not proved\n"
)
WAITS = "another run compiles from portable/ just now: this one waits for it\n"
# What a compiler tells without the C library's files, and what is told then.
NO_HEADER = re.compile(r"\.h'? (?:file )?not found|\.h: No such file|crt1\.o")
HEADERS = "the files of the C library are not here: install Debian's package libc6-dev"
UNKEPT = (
    "the compiled program can't be kept there: name a folder that can be written by XDG_CACHE_HOME"
)
# What this process has found, as open files: no other run removes them meanwhile.
_in_use: list[int] = []


class Product(NamedTuple):
    """What is compiled of the sources: the name of its file, what messages call it, and the
    compiler's words beside those that all have.

    A program is tried: it is run for its help. A library is loaded by those who want it.
    """

    name: str
    told: str
    flags: tuple[str, ...] = ()
    is_program: bool = True

    def sources(self) -> tuple[Path, ...]:
        """The files that are compiled: of a library the last source alone."""
        return SOURCES[:-1] if self.is_program else SOURCES[1:-1]


PROGRAM = Product(NAME, "the program vga")
LIBRARY = Product(LIBRARY_NAME, "the library", ("-shared", "-fPIC"), is_program=False)


def has_sources() -> bool:
    """Whether the sources are here."""
    return all(path.is_file() for path in SOURCES)


def portable_program() -> str:
    """The path of the program, which is compiled where that was not done yet; one line on standard
    error tells it.

    A Trouble tells what is lacking: a compiler, or a folder that can be written.
    """
    return _compiled(PROGRAM)


def portable_library() -> str:
    """The same of the library, which programs load."""
    return _compiled(LIBRARY)


def _compiled(product: Product) -> str:
    folder = cache_folder()
    places = [
        (compiler, folder / _digest(compiler, product) / product.name) for compiler in _compilers()
    ]
    path = _made_of(places)
    if path is None:
        try:
            folder.mkdir(parents=True, exist_ok=True)
            with _alone(folder):
                # Another run may have compiled it meanwhile.
                path = _made_of(places) or _compile_by_any(places, product)
        except OSError as error:
            raise Trouble(
                f"{error.strerror or error}; {UNKEPT}", error.filename or str(folder)
            ) from error
    _use(path)
    return str(path)


# Compilers, and where what each of them makes is kept.
Places = Sequence[tuple[list[str], Path]]


def _made_of(places: Places) -> Optional[Path]:
    """What one of the compilers has made already; None if none has."""
    return next((path for _, path in places if os.access(path, os.X_OK)), None)


def _compile_by_any(places: Places, product: Product) -> Path:
    """Compiles by the first compiler that can. If none can, a Trouble tells why the first can't."""
    first: Optional[Trouble] = None
    for compiler, path in places:
        try:
            _compile(compiler, path, product)
            return path
        except Trouble as trouble:
            first = first or trouble
    raise first or Trouble(NO_COMPILER)


def _compilers() -> list[list[str]]:
    """The compiler that CC names, or those that are in the path, each under one name."""
    try:
        words = shlex.split(os.environ.get("CC", ""))
    except ValueError as error:
        raise Trouble(f"CC names no compiler: {error}") from error
    if words and shutil.which(words[0]) is None:
        raise Trouble(f"CC names it as the C compiler, and it is not in the path; {PAGE}", words[0])
    found = {os.path.realpath(path): name for name, path in _in_path(reversed(COMPILERS))}
    if not (words or found):
        raise Trouble(NO_COMPILER)
    return [words] if words else [[name] for name in COMPILERS if name in found.values()]


def _in_path(names: Iterable[str]) -> Iterator[tuple[str, str]]:
    """The programs of these names that are in the path, with where they are."""
    for name in names:
        path = shutil.which(name)
        if path is not None:
            yield name, path


def cache_folder() -> Path:
    """The folder for what the tools make or fetch once: in the user's cache, or among temporary
    files where there is no home that can be written."""
    return cache_home() / "zaklimot"


def cache_home() -> Path:
    """The folder that has it, of which other programs may have others: what XDG_CACHE_HOME
    names."""
    named = os.environ.get("XDG_CACHE_HOME", "")
    # A path that is not absolute means nothing there.
    if os.path.isabs(named):
        return Path(named)
    with suppress(RuntimeError, OSError):
        home = Path.home() / ".cache"
        home.mkdir(parents=True, exist_ok=True)
        if os.access(home, os.W_OK):
            return home
    return _temporary_home()


def _temporary_home() -> Path:
    """A folder among temporary files that nobody else can write."""
    user = os.getuid() if hasattr(os, "getuid") else 0
    folder = Path(tempfile.gettempdir()) / f"zaklimot-{user}"
    folder.mkdir(mode=0o700, exist_ok=True)
    status = folder.lstat()
    is_own = stat.S_ISDIR(status.st_mode) and getattr(status, "st_uid", user) == user
    if not is_own or os.name == "posix" and status.st_mode & 0o022:
        raise Trouble(f"others can write there; {UNKEPT}", str(folder))
    return folder


def _digest(compiler: list[str], product: Product) -> str:
    words = shlex.join([*compiler, *FLAGS, *product.flags])
    made = hashlib.sha256(words.encode("utf-8", "surrogateescape"))
    for source in SOURCES:
        made.update(hashlib.sha256(source.read_bytes()).digest())
    return made.hexdigest()[:32]


def _is_locked(file: Union[int, BinaryIO], kind: int) -> bool:
    """Takes a lock, which ends with the file or the process; whether no other process has it. It is
    never waited for."""
    try:
        fcntl.flock(file, kind | fcntl.LOCK_NB)
    except BlockingIOError:
        return False
    except OSError:
        # A file system without locks.
        return True
    return True


@contextmanager
def _alone(folder: Path) -> Iterator[None]:
    """Keeps other runs from compiling meanwhile. One that takes too long is waited for no
    longer."""
    with open(folder / LOCK, "wb") as file:
        until = time.monotonic() + MOST_WAITING
        if fcntl is not None and not _is_locked(file, fcntl.LOCK_EX):
            _say(WAITS)
            while not _is_locked(file, fcntl.LOCK_EX) and time.monotonic() < until:
                time.sleep(PAUSE)
        yield


def _say(line: str) -> None:
    sys.stderr.write(line)
    sys.stderr.flush()


def _compile(compiler: list[str], path: Path, product: Product) -> None:
    """Compiles the program or the library, tries a program, and only then puts it in its place.
    Others of its name there are removed."""
    kind = "program" if product.is_program else "library"
    kept = path.parent
    given = {"compiler": shlex.join(compiler), "folder": kept.parent}
    _say(COMPILES.format(**given, told=product.told, kind=kind))
    # A run that was killed may have left its folder.
    for left in (kept, *kept.parent.glob(f"{MAKING}*")):
        shutil.rmtree(left, ignore_errors=True)
    with tempfile.TemporaryDirectory(prefix=MAKING, dir=kept.parent) as folder:
        made = Path(folder) / kept.name / product.name
        made.parent.mkdir()
        include = ("-I", SOURCES[-1].parent)
        words: list[Word] = [*compiler, *FLAGS, *product.flags, *include]
        words += ["-o", made, *product.sources()]
        reason = f"it can't compile {product.told}; CC may name another C compiler, and {PAGE}"
        _check(captured(words, seconds=MOST_SECONDS), reason, compiler[0])
        if product.is_program:
            tried = captured([made, "--help"], seconds=MOST_SECONDS)
            _check(tried, "what it makes doesn't run here", compiler[0])
        os.replace(made.parent, kept)
    for other in kept.parent.glob(f"*/{product.name}"):
        if other != path:
            _remove_unused(other)


def _check(done: Done, reason: str, name: str) -> None:
    if done.status:
        said = done.said()
        told = f"{HEADERS}; {reason}" if NO_HEADER.search(said) else reason
        raise Trouble(f"{told}\n{said}".rstrip(), name)


def _use(path: Path) -> None:
    """Marks a program as one that is in use, as long as this process runs."""
    with suppress(OSError):
        file = os.open(path, os.O_RDONLY)
        _in_use.append(file)
        if fcntl is not None:
            _is_locked(file, fcntl.LOCK_SH)


def _remove_unused(path: Path) -> None:
    with suppress(OSError), open(path, "rb") as file:
        # Windows itself keeps a program that runs.
        if fcntl is None or _is_locked(file, fcntl.LOCK_EX):
            shutil.rmtree(path.parent)
