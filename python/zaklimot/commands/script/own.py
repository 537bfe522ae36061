"""Scripts run by the library, in this process: the proved one, or that of the C file."""

from __future__ import annotations

import ctypes
import io
from contextlib import contextmanager, suppress
from pathlib import Path
from typing import Any, BinaryIO, Callable, Iterator, Optional, cast

import zaklimot
from zaklimot._file import PORTABLE, PROVED, kind_of
from zaklimot._scripts import disassembled
from zaklimot.format import FAULTS, HEADERS, MOST_BYTES, STATE, encoded, parse_line
from zaklimot.commands.core.processes import IS_LINUX, Streamed
from zaklimot.commands.core.streams import bytes_of
from zaklimot.commands.core.trouble import Trouble

from .library import kind_of_ready, ready_library, use_library
from .program import built_program

# A longer file is no font file.
MOST_FONTS = 1 << 16
# So much of a report is read at once.
BUFFER = 1 << 18
# What glibc's mallopt calls the size from which memory comes from the system, and goes back to it.
MMAP_THRESHOLD = -3
FROM_SYSTEM = 1 << 17
# What is told of a library by its kind, and of one of which no file says it.
KINDS = {PROVED: "which is proved", PORTABLE: "which is tested, not proved"}
UNTOLD = "and no file beside it says whether it is proved"


class _Parts(io.RawIOBase):
    """Bytes that come in parts, as a stream."""

    def __init__(self, parts: Iterator[bytes]) -> None:
        super().__init__()
        self._parts = parts
        self._rest = memoryview(b"")

    def readable(self) -> bool:
        """That it can be read."""
        return True

    def readinto(self, buffer: Any) -> int:
        """Fills a buffer with what comes next; how many bytes that are, 0 at the end."""
        if not self._rest:
            self._rest = memoryview(next(self._parts, b""))
        count = min(len(buffer), len(self._rest))
        buffer[:count] = self._rest[:count]
        self._rest = self._rest[count:]
        return count


class OwnProgram:
    """The library in the place of the program `vga`."""

    def __init__(self) -> None:
        _take_memory_from_system()
        # The bytes of scripts whose steps were printed, until they run.
        self._codes: dict[Path, bytes] = {}

    @contextmanager
    def running(
        self, script: Path, fonts: str, until: Optional[int], is_bytes: bool
    ) -> Iterator[Streamed]:
        """A run of a script, as text or as bytes. A fault is said as the program says it."""
        streamed = Streamed(io.BytesIO())
        code = self._codes.pop(script, None)
        parts = _reports(lambda: code or _code(script, is_bytes), fonts, until, streamed)
        # What `BufferedReader` asks of a stream, this has.
        streamed.report = cast(BinaryIO, io.BufferedReader(_Parts(parts), BUFFER))
        yield streamed

    def print_steps(self, script: Path, is_bytes: bool, printed: BinaryIO) -> None:
        """Prints the steps of a script as the library understands them; nothing where it has a
        fault."""
        use_library()
        try:
            code = _code(script, is_bytes)
            printed.write(disassembled(code))
            self._codes[script] = code
        except (zaklimot.Error, OSError, Trouble):
            # The run tells it.
            printed.truncate(0)


def _code(script: Path, is_bytes: bool) -> bytes:
    data = bytes_of(script, MOST_BYTES)
    return data if is_bytes else zaklimot.assemble(data)


def _take_memory_from_system() -> None:
    """Has the memory of each card come from the system, which gives zeros and takes it back: the C
    library would clear 10 MB each time, of which a short run needs little."""
    if IS_LINUX:
        # Only glibc has it.
        with suppress(AttributeError):
            ctypes.CDLL(None).mallopt(MMAP_THRESHOLD, FROM_SYSTEM)


def _reports(
    code_of: Callable[[], bytes], fonts: str, until: Optional[int], streamed: Streamed
) -> Iterator[bytes]:
    """The report of a run, part by part; a fault at its end is told of the run."""
    use_library()
    try:
        with zaklimot.Card(bytes_of(fonts, MOST_FONTS)) as card:
            code, taken = code_of(), 0
            for part in card.run_in_parts(code, 0, *(() if until is None else (until,))):
                taken += part.taken
                yield part.raw
            for number, step in enumerate(() if until is None else STATE, taken + 1):
                dump = card.run_on(HEADERS[1] + encoded(parse_line(step.split()))).raw
                yield b"%d%s" % (number, dump[1:])
    except (zaklimot.Error, OSError, Trouble) as error:
        streamed.status, streamed.said = 1, f"vga: {_fault(error)}\n"


def _fault(error: Exception) -> str:
    """An error as the program tells it: the exceptions have the names of the faults."""
    fault = FAULTS.get(type(error).__name__)
    if fault is None:
        return "F8 ReadFault" if isinstance(error, (OSError, Trouble)) else str(error)
    place = getattr(error, "place", None)
    return f"F{fault.number} {fault.name}" + ("" if place is None else f"({place})")


def own_program(named: Optional[str]) -> Optional[OwnProgram]:
    """The library in the place of a program. None if a program is named; or if one is built, and no
    proved library is here: a proved program goes before a library that is not."""
    if named is not None or (kind_of_ready() != PROVED and built_program() is not None):
        return None
    return OwnProgram()


def told_runner() -> str:
    """What runs scripts here, where no program is named."""
    if own_program(None) is None:
        return f"scripts run by the program {built_program()}"
    ready = ready_library()
    if ready is None:
        return "scripts run by the library of portable/zaklimot.c, which is tested, not proved"
    return f"scripts run by the library {ready}, {KINDS.get(kind_of(ready), UNTOLD)}"
