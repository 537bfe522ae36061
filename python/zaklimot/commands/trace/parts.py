"""The files of a recording's trace: parts that roll, each of whole lines and whole by itself.

What was recorded before a disk is full, or the computer stops, is in the parts before.
"""

import gzip
from contextlib import ExitStack
from pathlib import Path
from typing import BinaryIO, Optional, Sequence

# The trace in the folder of a recording: its first part; the others are numbered.
TRACE = "trace.gz"
# So many bytes of lines a part has, about two million cycles.
PART_LINES = 1 << 28
LEVEL = 6


def not_kept(error: OSError) -> str:
    """What is told of a trace that can't be written on."""
    return f"its trace can't be kept: {error.strerror or error}"


def part(folder: Path, number: int) -> Path:
    """The file of a part, counted from 1."""
    return folder / (TRACE if number == 1 else f"trace-{number:04}.gz")


def parts_of(folder: Path) -> Sequence[Path]:
    """The parts of a recording that are there, in their order."""
    found: list[Path] = []
    while (path := part(folder, len(found) + 1)).exists():
        found.append(path)
    return found


class Parts:
    """What lines are written into: a part is closed once it has so many bytes of lines.

    The same lines give the same bytes: a part has neither its name nor its time.
    """

    def __init__(self, folder: Path) -> None:
        self._folder = folder
        self._count = 0
        self._lines = 0
        self._before = 0
        self._rest = b""
        self._opened = ExitStack()
        self._file: Optional[BinaryIO] = None
        self._packed: Optional[gzip.GzipFile] = None
        self._begin()

    @property
    def kept(self) -> int:
        """How many bytes all parts have, as they are packed."""
        return self._before + (self._file.tell() if self._file is not None else 0)

    @property
    def has_lines(self) -> bool:
        """Whether anything was written."""
        return self._count > 1 or self._lines > 0

    def write(self, data: bytes) -> None:
        """Writes bytes. Where a part is full, its last line is its end."""
        lines, end, rest = data.rpartition(b"\n")
        if not end:
            self._rest += data
            return
        if self._lines >= PART_LINES:
            self._begin()
        self._write(self._rest + lines + end)
        self._rest = rest

    def close(self) -> None:
        """Ends the last part. A line that has no end is kept too."""
        try:
            self._write(self._rest)
        finally:
            self._rest = b""
            self._packed = None
            self._end()

    def drop(self) -> None:
        """Removes all parts, which are closed."""
        for number in range(1, self._count + 1):
            part(self._folder, number).unlink(missing_ok=True)

    def _write(self, data: bytes) -> None:
        if self._packed is not None and data:
            self._lines += len(data)
            self._packed.write(data)

    def _begin(self) -> None:
        self._end()
        self._count += 1
        self._lines = 0
        self._file = self._opened.enter_context(open(part(self._folder, self._count), "wb"))
        self._packed = self._opened.enter_context(
            gzip.GzipFile("", "wb", LEVEL, self._file, mtime=0)
        )

    def _end(self) -> None:
        """Ends the part under way. What its file has at last is known only then."""
        self._opened.close()
        self._file = None
        if self._count:
            self._before += part(self._folder, self._count).stat().st_size


class Chained:
    """Parts as one stream. Where they may be cut, the last may end anywhere."""

    def __init__(self, paths: Sequence[str], may_be_cut: bool = False) -> None:
        self._left = list(paths)
        self._may_be_cut = may_be_cut
        self._opened = ExitStack()
        self._stream: Optional[gzip.GzipFile] = None

    def __enter__(self) -> "Chained":
        return self

    def __exit__(self, *_: object) -> None:
        self._opened.close()

    def read1(self, most: int) -> bytes:
        """The next bytes, so many at most; none at the end of the last part."""
        while not (data := self._read1(most)) and self._left:
            self._opened.close()
            self._stream = self._opened.enter_context(gzip.open(self._left.pop(0), "rb"))
        return data

    def _read1(self, most: int) -> bytes:
        if self._stream is None:
            return b""
        try:
            return self._stream.read1(most)
        except EOFError:
            if not self._may_be_cut or self._left:
                raise
            self._opened.close()
            self._stream = None
            return b""
