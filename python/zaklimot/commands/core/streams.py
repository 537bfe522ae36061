"""Files by their names, where `-` is standard input or output; and what is told there. An input is
never an output."""

import io
import json
import os
import re
import stat
import sys
import tempfile
from contextlib import contextmanager
from pathlib import Path
from typing import BinaryIO, Callable, ContextManager, Iterator, Mapping, Optional, Union, cast

from .files import NO_NAME, STANDARD, check_folder, check_writable, files, may_be_replaced, name_of
from .trouble import Trouble

# Where a file that is filled in has a part.
PLACE = re.compile("@([A-Z_]+)@")
# So many bytes are dropped at a time.
DRAINED = 1 << 16


def to_read(path: str) -> str:
    """The name of a file that is read, or may be: from now on the run doesn't write it."""
    return files().reads(path)


def refuse_input(path: str) -> None:
    """Ends the work where what is to be written is a file that is read."""
    files().refuse_input(path)


def check_file(path: str) -> None:
    """Ends the work, before it begins, where a file can't be written."""
    files().check_file(path)


@contextmanager
def reading(path: str, is_drained: bool = True) -> Iterator[io.BufferedReader]:
    """A file that is read, as bytes. Standard input is drained, so that its writer doesn't fail,
    unless it may be endless."""
    if path == STANDARD:
        if sys.stdin is None:
            raise Trouble("it is closed", "standard input")
        stream = cast(io.BufferedReader, sys.stdin.buffer)
        files().reads_open(sys.stdin.fileno(), "standard input")
        yield stream
        while is_drained and not sys.stdin.isatty() and stream.read(DRAINED):
            pass
    elif not path:
        raise Trouble(NO_NAME)
    else:
        with open(path, "rb") as stream:
            files().reads(path)
            yield stream


def empty_folder(path: str) -> Path:
    """A folder for files that are to be written: a new one, or one that has none."""
    if path == STANDARD:
        raise Trouble("the files want a folder")
    check_folder(path)
    folder = files().make_folder(path)
    if any(folder.iterdir()):
        raise Trouble(
            "the folder has files, and none of them is to be lost: give one that is new or empty",
            path,
        )
    return folder


def bytes_of(path: Union[str, Path], most: int) -> bytes:
    """The bytes of a file of many, which may not have more than so many."""
    with open(path, "rb") as stream:
        return _taken(stream, most, str(path))


def read_at_most(path: str, most: int, told: str = "") -> bytes:
    """The bytes of a file, which may not have more than so many; else a Trouble, whose reason may
    be given."""
    with reading(path, is_drained=False) as stream:
        return _taken(stream, most, name_of(path), told)


def _taken(stream: BinaryIO, most: int, name: str, told: str = "") -> bytes:
    """All bytes of a stream, which may not have more than so many."""
    data = stream.read(most + 1)
    if len(data) > most:
        raise Trouble(told or f"it has more than {most:,} bytes", name)
    return data


@contextmanager
def writing(path: str) -> Iterator[BinaryIO]:
    """A file that is written, as bytes: a new one beside it that takes its place once it is
    whole."""
    if not path:
        raise Trouble(NO_NAME)
    refuse_input(path)
    if path == STANDARD:
        sys.stdout.flush()
        # Python's own stream has no buffer where the user wants none, and lines are many.
        with open(sys.stdout.fileno(), "wb", closefd=False) as stream:
            yield stream
        return
    check_writable(path)
    try:
        with _written_beside(Path(path)) if may_be_replaced(path) else _opened(path) as stream:
            yield stream
    except OSError as error:
        raise Trouble(error.strerror or str(error), path) from error


def _opened(path: str) -> ContextManager[BinaryIO]:
    return open(path, "wb")


@contextmanager
def _written_beside(path: Path) -> Iterator[BinaryIO]:
    # A link stays, and its file is replaced.
    place = Path(os.path.realpath(path))
    handle, beside = tempfile.mkstemp(prefix=f".{place.name[:100]}-", dir=place.parent)
    try:
        with open(handle, "wb") as stream:
            # The rights are those of the file that is replaced, or of a new one.
            mask = os.umask(0)
            os.umask(mask)
            os.chmod(
                beside, stat.S_IMODE(os.stat(place).st_mode) if place.exists() else 0o666 & ~mask
            )
            yield stream
        os.replace(beside, place)
    except BaseException:
        os.unlink(beside)
        raise


def write_file(path: str, data: bytes) -> None:
    """Writes a whole file."""
    with writing(path) as stream:
        stream.write(data)


def write_over(path: str, data: bytes, was: bytes) -> None:
    """Writes a file anew that was read, where the user has asked for that.

    If it has other bytes by now than those that were read, it stays as it is: a Trouble tells.
    """
    files().writes_over(path)
    with writing(path) as stream:
        stream.write(data)
        if Path(path).read_bytes() != was:
            raise Trouble("it has changed since it was read, so it isn't written: run again", path)


def filled(path: Path, **parts: str) -> str:
    """The text of a file, with these parts in the places that have their names, as `@NAME@`."""
    return with_parts(path.read_text("ascii"), **parts)


def with_parts(text: str, **parts: str) -> str:
    """A text with these parts in the places that have their names."""
    return PLACE.sub(lambda place: parts[place[1]], text)


def length_of(stream: BinaryIO) -> int:
    """How many bytes a file has; 0 where that can't be known, as of a pipe."""
    try:
        status = os.fstat(stream.fileno())
    except OSError:
        return 0
    return status.st_size if stat.S_ISREG(status.st_mode) else 0


def write(text: str) -> None:
    """Writes text on standard output. Names of files that are no text pass as the bytes that they
    are."""
    sys.stdout.buffer.write(text.encode("utf-8", "surrogateescape"))


def write_name(path: Union[str, Path]) -> None:
    """Writes the name of a file as a line, as its bytes are."""
    sys.stdout.buffer.write(os.fsencode(path) + b"\n")


def json_in_page(value: object) -> str:
    """JSON for an element of a page. No character of it ends the element, or begins another."""
    return json.dumps(value, separators=(",", ":")).replace("<", "\\u003c")


class JsonArray:
    """A JSON array that is written as it comes, with a line for each entry."""

    def __init__(self, stream: BinaryIO) -> None:
        self._stream = stream
        self._count = 0
        self._write("[")

    def _write(self, text: str) -> None:
        self._stream.write(text.encode("ascii"))

    def begin_entry(self) -> None:
        """Begins the next entry, which is written then."""
        self._write(",\n" if self._count else "\n")
        self._count += 1

    def add(self, entry: object) -> None:
        """Writes an entry."""
        self.begin_entry()
        self._write(json.dumps(entry))

    def end(self) -> None:
        """Ends the array."""
        self._write("\n]")


class JsonList:
    """A JSON object that is written as it comes: its first members, then a list of `entries`, and
    members behind it."""

    def __init__(self, stream: BinaryIO, name: str, front: Mapping[str, object]) -> None:
        self._stream = stream
        members = (f"{json.dumps(key)}: {json.dumps(value)}, " for key, value in front.items())
        self._write(f"{{{''.join(members)}{json.dumps(name)}: ")
        self.entries = JsonArray(stream)

    def _write(self, text: str) -> None:
        self._stream.write(text.encode("ascii"))

    def end(self, behind: Mapping[str, object]) -> None:
        """Ends the list and the object, with these members behind the list."""
        self.entries.end()
        for key, value in behind.items():
            self._write(f", {json.dumps(key)}: {json.dumps(value)}")
        self._write("}")


def counted(count: float, what: str, form: str = "") -> str:
    """How many there are, as `1 step` and `2 steps`, or `1 second` and `0.5 seconds`; the form is
    that of the number."""
    return f"{count:{form}} {what}{'s' * (count != 1)}"


def teller(*files: Optional[str]) -> Callable[[str], object]:
    """What writes text beside these files: on standard error where one of them goes to standard
    output."""
    return sys.stderr.write if STANDARD in files else write
