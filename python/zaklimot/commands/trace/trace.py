"""A trace, cycle by cycle: what software did to the VGA, by qemu's log or in the plain form.

What a trace may lack is found while its cycles pass: it is told, and nothing is put in its place.
"""

import gzip
import io
import os
import re
import zlib
from collections import defaultdict
from contextlib import contextmanager
from functools import partial
from itertools import islice
from pathlib import Path
from typing import Callable, Iterable, Iterator, NamedTuple, Optional, Protocol, cast

from zaklimot.format import MOST_BLOCK
from zaklimot.commands.core.files import name_of
from zaklimot.commands.core.streams import counted, reading, to_read
from zaklimot.commands.core.trouble import Trouble
from zaklimot.commands.explain.ports import MISC, SEQUENCER

from .folding import FOLDED
from .parts import Chained, parts_of

# Where a cycle goes: a port, display memory, or a port of the Bochs VBE extensions, which is none
# of a VGA's. A call of interrupt 10, which the adapter's own BIOS serves, stands for all of its
# cycles.
PORT = "port"
MEMORY = "memory"
VBE = "vbe"
CALL = "call"
# Memory while VBE is on, of which the window shows a part that is none of a VGA's.
VESA = "VBE memory"
NO_VGA = (VBE, VESA)
SIZES = (1, 2, 4, 8)
# Addresses above these are none.
MOST_PORT = 0xFFFF
MOST_ADDRESS = 0xFFFFFFFF
# Longer lines are none of a trace's, and no trace has more before its first cycle. A call's block
# has two digits a byte.
MOST_LINE = 1 << 18
MOST_BEFORE = 1 << 26
# So many bytes are read at a time.
CHUNK = 1 << 16
GZIP = b"\x1f\x8b"
# What each cycle of qemu's log has, of whatever device.
EVENT = b"memory_region_ops_"
QEMU_CYCLE = re.compile(
    rb"(?:\d+@(?P<time>\d+\.\d{6}):)?memory_region_ops_(?P<kind>read|write) cpu -?\d+ mr"
    rb" (?:0x[0-9a-f]+|\(nil\)) "
    rb"addr 0x(?P<address>[0-9a-f]+) value 0x(?P<value>[0-9a-f]+) size (?P<size>\d) name"
    rb" '(?P<place>[^']*)'\s*"
)
# The time of a line of it.
STAMP = re.compile(rb"\d+@(\d+)\.(\d{6})")
# Lines of it are alike in so many ways at most; a longer log is read more slowly.
MOST_LIKE = 1 << 10
# So many lines of ports are known as a whole.
MOST_KNOWN = 1 << 16
# The time of the plain form: microseconds, and the dots since the line before where they are known.
TIME = rb"\s*(?:-|(?P<time>[0-9]{1,18})(?:\+(?P<dots>[0-9]{1,12}))?)\s+"
PLAIN_CYCLE = re.compile(
    TIME + rb"(?P<kind>[rw])\s+(?P<place>[pm])\s+(?P<address>[0-9A-Fa-f]{1,8})\s+"
    rb"(?P<value>[0-9A-Fa-f]{1,16})\s+(?P<size>\d)\s*(?:;.*)?",
    re.DOTALL,
)
# A call of interrupt 10 in the plain form, and the end of a frame whose picture was kept.
PLAIN_CALL = re.compile(
    TIME + rb"int\s+(?P<registers>(?:[0-9A-Fa-f]{1,4}\s+){3}[0-9A-Fa-f]{1,4})"
    rb"(?:\s+(?P<block>(?:[0-9A-Fa-f]{2})+))?"
    rb"\s*(?:;.*)?",
    re.DOTALL,
)
PLAIN_FRAME = re.compile(TIME + rb"frame\s*(?:;.*)?", re.DOTALL)
# What the plain form's letters are, and the regions of qemu's VGA cards, and of a plugin that sees
# chain 4.
SPACES = {
    b"p": PORT,
    b"vga": PORT,
    b"cirrus-io": PORT,
    b"vbe": VBE,
    b"m": MEMORY,
    b"vga-lowmem": MEMORY,
    b"cirrus-low-memory": MEMORY,
    b"vga-chain4": MEMORY,
}
# The line of a log that tells where a screen was taken. The filter of the log keeps it with those
# of the VGA.
SCREEN = b"screen of 'vga-trace'"
# How the lines begin that `record` puts into a log.
OF_RECORDER = (SCREEN, b"polls ")
# A line of the plain form without a cycle: blanks, and a comment.
PASSED = re.compile(rb"\s*(?:;.*)?", re.DOTALL)
# What tells that a trace lacks something: registers of the VGA, and of the Bochs VBE extensions.
VBE_INDEX = 0x1CE
INDEX_OF = {0x3C5: SEQUENCER, 0x1CF: VBE_INDEX, 0x1D0: VBE_INDEX}
MAP_MASK = (SEQUENCER, 2)
MEMORY_MODE = (SEQUENCER, 4)
VBE_ENABLE = (VBE_INDEX, 4)
ALL_PLANES = 0x0F
CHAIN_4 = 0x08
# The ports that tell so and those of their indexes, and the ports before them, whose words reach
# them.
WATCHED = {port - at for port in INDEX_OF for at in range(3)}


class Stream(Protocol):
    """What a trace is read from."""

    def read1(self, most: int, /) -> bytes:
        """The next bytes, so many at most; none at the end."""


class Call(NamedTuple):
    """A call of interrupt 10: AX, BX, CX and DX, and the bytes of its block."""

    registers: tuple[int, ...]
    block: bytes = b""


class Cycle(NamedTuple):
    """A cycle of 1, 2, 4 or 8 bytes. The value is what was written or read; the time is in
    microseconds, if known.

    `dots` is how many dots the display has drawn since the cycle before, if that is known: the time
    is exact then. Of a call all else is 0.
    """

    is_write: bool
    space: str
    address: int
    value: int
    size: int
    time: Optional[int]
    dots: Optional[int] = None
    call: Optional[Call] = None

    def fault(self) -> Optional[str]:
        """Why there can't be such a cycle, if there can't."""
        if self.call is not None:
            is_long = len(self.call.block) > MOST_BLOCK
            return f"a call's block has {MOST_BLOCK:,} bytes at most" if is_long else None
        if self.size not in SIZES:
            return f"a cycle has 1, 2, 4 or 8 bytes, and not {self.size}"
        if self.value >> 8 * self.size:
            return f"the value {self.value:X} has more than {counted(self.size, 'byte')}"
        is_memory = self.space in (MEMORY, VESA)
        if self.address + self.size - 1 > (MOST_ADDRESS if is_memory else MOST_PORT):
            return f"there is no {self.space} of address {self.address:X}"
        return None


# Makes a cycle of all its parts in half the time that the class takes.
_made_cycle = cast(Callable[[Iterable[object]], Cycle], partial(tuple.__new__, Cycle))


class LineEnd(NamedTuple):
    """What the end of a line of qemu's log says of its cycle: the space, how many bytes, and the
    last address of the space."""

    space: str
    size: int
    most: int


class Trace:
    """The cycles of a trace that is read from a stream, and what was found of its lines and
    cycles."""

    def __init__(self, stream: Stream, name: str) -> None:
        self._stream = stream
        self.name = name
        self._is_plain: Optional[bool] = None
        self._first_other = 0
        self.line = 0
        # How many cycles came so far, and how many of them have no time; and how many polls were
        # folded while the trace was recorded, which are no cycles of it.
        self.count = 0
        self.untimed = 0
        self.polls = 0
        # How many cycles stand before each screen that was taken; and the dots until then since the
        # line before, if known.
        self.screens: list[int] = []
        self.screen_dots: list[Optional[int]] = []
        # Dots of screens since the last cycle; whether dots are told at all.
        self._dots = 0
        self.has_dots = False
        self._damaged = 0
        self._first_damaged = 0
        # The first write, where that is not one of power-on; and the first that turned VBE on; 0 if
        # never.
        self._begins_late: Optional[int] = None
        self._vbe_enabled = 0
        # Whether VBE is on, and how many cycles of memory came while it was.
        self._is_vesa = False
        self._left_out = 0
        # How lines of qemu's log begin, up to the address, and whether these are writes; how they
        # end, from the size on.
        self._heads: dict[bytes, bool] = {}
        self._ends: dict[bytes, LineEnd] = {}
        # The cycles of lines of ports, without their time; and how many bytes of lines came before
        # the first cycle.
        self._known: dict[bytes, Cycle] = {}
        self._passed_over = 0
        # Whether each cycle may tell what the trace lacks.
        self._is_told = True
        # Whether cycles have their times.
        self.wants_time = True
        self._know_no_ports()

    def _know_no_ports(self) -> None:
        """Begins with no port that was written."""
        # What was written to ports, and behind those of an index.
        self._ports: defaultdict[int, int] = defaultdict(int)
        self._registers: defaultdict[tuple[int, int], int] = defaultdict(int)
        self._is_chained = False
        # The cycle from which on chain 4 has had none of memory so far, and the first that ended
        # so; 0 if never.
        self._silent = 0
        self._first_silent = 0

    def cycles(self, most: Optional[int] = None) -> Iterator[Cycle]:
        """The cycles in their order, so many at most; a Trouble where there is none, or the trace
        can't be read on."""
        return islice(self._read(), most)

    def _read(self) -> Iterator[Cycle]:
        try:
            yield from self._cycles()
        except (EOFError, gzip.BadGzipFile, zlib.error) as error:
            where = " after this line" if self.line else ""
            raise self.trouble(f"its compressed bytes are damaged{where}: {error}") from error
        except OSError as error:
            raise self.trouble(error.strerror or str(error)) from error
        if self._is_plain is None:
            raise self._without_cycle(
                "it has no cycle, neither of qemu's log nor of the plain form"
            )

    def _cycles(self) -> Iterator[Cycle]:
        """The cycles of all lines. Traces are long: what most lines of qemu's log are is looked
        up."""
        known = self._known
        for line in self._lines():
            self.line += 1
            front, _, timed = line.partition(b":")
            cycle = known.get(timed) or self._alike(timed or line)
            is_told = self._is_told
            if cycle is None or timed and not (front[-7:-6] == b"." and front.count(b"@") == 1):
                cycle = self._cycle(line)
                is_told = True
            elif timed and self.wants_time:
                cycle = self._with_time(cycle, front) or self._cycle(line)
            if cycle is None:
                continue
            self.count += 1
            if is_told or cycle.address in WATCHED or cycle.size > 2:
                self._watch(cycle)
            if cycle.time is None:
                self.untimed += 1
            yield cycle

    def _lines(self) -> Iterator[bytes]:
        """The lines, without their ends."""
        rest = b""
        while chunk := self._stream.read1(CHUNK):
            *lines, rest = (rest + chunk).split(b"\n")
            yield from lines
            if len(rest) >= MOST_LINE:
                self.line += 1
                self._check_length(rest)
        if rest:
            yield rest

    def _with_time(self, cycle: Cycle, front: bytes) -> Optional[Cycle]:
        """A cycle with the time of its line; None where that is damaged."""
        stamp = STAMP.fullmatch(front)
        return None if stamp is None else cycle._replace(time=int(stamp[1] + stamp[2]))

    def _alike(self, line: bytes) -> Optional[Cycle]:
        """The cycle of a line of qemu's log, without its time, that begins and ends as others have;
        None of any other."""
        head, _, rest = line.partition(b" addr 0x")
        address, _, rest = rest.partition(b" value 0x")
        value, _, end = rest.partition(b" size ")
        is_write = self._heads.get(head)
        known = self._ends.get(end)
        if known is None or is_write is None or not (address.isalnum() and value.isalnum()):
            return None
        space, size, most = known
        try:
            at = int(address, 16)
            given = int(value, 16)
        except ValueError:
            return None
        if at + size - 1 > most or given >> 8 * size or space == MEMORY and self._is_vesa:
            return None
        cycle = _made_cycle((is_write, space, at, given, size, None, None, None))
        if space == PORT and len(self._known) < MOST_KNOWN:
            self._known[line] = cycle
        return cycle

    def trouble(self, reason: str) -> Trouble:
        """What ends the work at the line that was read last."""
        return Trouble(reason, self.name, self.line or None)

    def _without_cycle(self, reason: str) -> Trouble:
        """What ends the work where no line has a cycle: the first that is no comment is named,
        since it may be meant as one."""
        if self._first_other:
            return Trouble(
                f"{reason}; this line is the first that is no comment", self.name, self._first_other
            )
        return Trouble(reason, self.name)

    def _check_length(self, line: bytes) -> None:
        if len(line) >= MOST_LINE:
            raise self.trouble("the line is longer than any of a trace")
        if self._is_plain is None:
            self._passed_over += len(line) + 1
            if self._passed_over > MOST_BEFORE:
                raise self._without_cycle(f"it has no cycle in its first {MOST_BEFORE:,} bytes")

    def _cycle(self, line: bytes) -> Optional[Cycle]:
        """The cycle of a line, where it has one of a VGA. The first line that has one says which
        form it is."""
        self._check_length(line)
        if not self._is_plain and line.startswith(OF_RECORDER):
            self._note(line)
            return None
        if self._is_plain is None:
            self._is_plain = self._found_form(line)
        # A log has other lines too.
        if self._is_plain is None or not self._is_plain and EVENT not in line:
            return None
        found = (PLAIN_CYCLE if self._is_plain else QEMU_CYCLE).fullmatch(line)
        if found is None:
            return self._other(line)
        time, kind, place, address, value, size = found.group(
            "time", "kind", "place", "address", "value", "size"
        )
        if place not in SPACES:
            return None
        # A log has seconds with six digits behind the point.
        micros = None if time is None else int(time.replace(b".", b""))
        dots = self._passed(found["dots"]) if self._is_plain else None
        if not self._is_plain:
            self._remember(line, kind[:1] == b"w", SPACES[place], int(size))
        space = VESA if self._is_vesa and SPACES[place] == MEMORY else SPACES[place]
        cycle = Cycle(
            kind[:1] == b"w",
            space,
            int(address, 16),
            int(value, 16),
            int(size),
            micros,
            dots,
        )
        return self._judged(cycle)

    def _remember(self, line: bytes, is_write: bool, space: str, size: int) -> None:
        """Keeps how a good line of qemu's log begins and ends, for those that are like it."""
        front, _, timed = line.partition(b":")
        head = (timed or line).partition(b" addr 0x")[0]
        is_plain = space in (PORT, MEMORY) and size in SIZES
        if is_plain and len(self._heads) < MOST_LIKE and len(self._ends) < MOST_LIKE:
            self._heads[head] = is_write
            most = MOST_ADDRESS if space == MEMORY else MOST_PORT
            self._ends[line.rpartition(b" size ")[2]] = LineEnd(space, size, most)

    def _note(self, line: bytes) -> None:
        """Takes a line that `record` has put into qemu's log."""
        polls = FOLDED.fullmatch(line)
        if line.startswith(SCREEN):
            self._take_screen(None)
        elif polls is not None:
            self.polls += int(polls[1])

    def _judged(self, cycle: Cycle) -> Cycle:
        fault = cycle.fault()
        if fault is not None:
            raise self.trouble(fault)
        return cycle

    def _other(self, line: bytes) -> Optional[Cycle]:
        """What the plain form has beside cycles: calls, and frames. All else is passed."""
        call, frame = (
            form.fullmatch(line) if self._is_plain else None for form in (PLAIN_CALL, PLAIN_FRAME)
        )
        if frame is not None:
            self._take_screen(None if frame["dots"] is None else int(frame["dots"]))
        if call is None:
            if frame is None:
                self._pass(line)
            return None
        given = Call(
            tuple(int(word, 16) for word in call["registers"].split()),
            bytes.fromhex((call["block"] or b"").decode()),
        )
        micros = None if call["time"] is None else int(call["time"])
        return self._judged(Cycle(True, CALL, 0, 0, 0, micros, self._passed(call["dots"]), given))

    def _take_screen(self, dots: Optional[int]) -> None:
        self.screens.append(self.count)
        self.screen_dots.append(dots)
        self._dots += dots or 0

    def _passed(self, dots: Optional[bytes]) -> Optional[int]:
        """The dots since the cycle before, where a line tells those since the line before."""
        if dots is None:
            return None
        self.has_dots = True
        passed = int(dots) + self._dots
        self._dots = 0
        return passed

    def _pass(self, line: bytes) -> None:
        """Passes a line that is no cycle: one of a log is damaged, and the plain form has nothing
        else but comments."""
        if not self._is_plain:
            self._damaged += 1
            self._first_damaged = self._first_damaged or self.line
        elif PASSED.fullmatch(line) is None:
            raise self.trouble("it is no cycle: `TIME r|w p|m ADDRESS VALUE SIZE` is one")

    def _found_form(self, line: bytes) -> Optional[bool]:
        if EVENT in line:
            return False
        if PLAIN_CYCLE.fullmatch(line) is None and PLAIN_CALL.fullmatch(line) is None:
            if self._first_other == 0 and PASSED.fullmatch(line) is None:
                self._first_other = self.line
            return None
        if self._first_other:
            raise Trouble(
                "a line before the first cycle is neither a cycle nor a comment",
                self.name,
                self._first_other,
            )
        return True

    def _watch(self, cycle: Cycle) -> None:
        """Follows what a cycle tells of what the trace lacks."""
        self._follow(cycle)
        self._is_told = self._begins_late is None or bool(self._silent) or self._is_vesa

    def _follow(self, cycle: Cycle) -> None:
        space = cycle.space
        if space in (MEMORY, VESA):
            self._silent = 0
            self._left_out += space == VESA
        if not cycle.is_write:
            return
        if self._begins_late is None:
            self._begins_late = 0 if cycle.address == MISC or space == CALL else self.count
        if space == VBE:
            self._write(cycle.address, cycle.value)
        elif space == PORT:
            for at in range(cycle.size):
                self._write(cycle.address + at, cycle.value >> 8 * at & 0xFF)

    def _write(self, port: int, value: int) -> None:
        """Follows registers: under chain 4 with all planes an emulator may serve memory without
        telling."""
        if port not in INDEX_OF:
            self._ports[port] = value
            return
        registers = self._registers
        was_chained = self._is_chained
        registers[INDEX_OF[port], self._ports[INDEX_OF[port]]] = value
        self._is_vesa = registers[VBE_ENABLE] & 1 > 0
        if self._is_vesa:
            self._vbe_enabled = self._vbe_enabled or self.count
        self._is_chained = (
            registers[MAP_MASK] & ALL_PLANES == ALL_PLANES and registers[MEMORY_MODE] & CHAIN_4 != 0
        )
        if self._is_chained != was_chained:
            self._first_silent = self._first_silent or self._silent
            self._silent = self.count if self._is_chained else 0

    @property
    def lacking(self) -> str:
        """Why a picture may be another one here: what the cycles lack so far that a screen
        shows."""
        if self._vbe_enabled:
            return "VBE is on: what qemu shows is no VGA's"
        is_silent = self._silent and not self.has_dots
        return (
            "chain 4 is on, and no memory was recorded since: --chain-4 does so"
            if is_silent
            else ""
        )

    def warnings(self) -> Iterator[str]:
        """What the cycles up to now lack, a line each."""
        # What tells dots tells all cycles.
        silent = 0 if self.has_dots else self._first_silent or self._silent
        if self._damaged:
            lines = "line of cycles is" if self._damaged == 1 else "lines of cycles are"
            yield (
                f"{self._damaged:,} {lines} damaged and left out, line"
                f" {self._first_damaged:,} first"
            )
        # The first write of a video BIOS is that of miscellaneous output.
        if self._begins_late:
            yield (
                f"cycle {self._begins_late:,} writes first, and not port 3C2: the trace doesn't"
                " begin at power-on"
            )
        if self._vbe_enabled:
            is_one = self._left_out == 1
            memory = (
                f"{self._left_out:,} cycle{'s' * (not is_one)} of its memory"
                f" {'is' if is_one else 'are'} left out"
                if self._left_out
                else "its memory isn't traced"
            )
            told = f"cycle {self._vbe_enabled:,} turns VBE on: what follows is no VGA's"
            yield f"{told}, and {memory}"
        if silent:
            yield (
                f"chain 4 with map mask 0F has no cycle of memory, first from cycle {silent:,} on: "
                "qemu traces none there without the plugin"
            )


@contextmanager
def _chained(folder: Path, name: str, may_be_cut: bool) -> Iterator[Trace]:
    """The trace of a recording's folder, which messages call by a name."""
    parts = [to_read(str(part)) for part in parts_of(folder)]
    if not parts:
        raise Trouble("the folder has no trace of a recording", name)
    with Chained(parts, may_be_cut) as stream:
        yield Trace(stream, name)


@contextmanager
def opened(path: str, is_whole: bool = True, may_be_cut: bool = False) -> Iterator[Trace]:
    """The trace of a file, of a recording's folder, or of standard input, compressed by gzip
    or not.

    One that isn't read whole may be endless. Where one may be cut, its last part may end anywhere,
    as that of a recording does whose computer has stopped.
    """
    if os.path.isdir(path):
        with _chained(Path(path), path, may_be_cut) as trace:
            yield trace
        return
    with reading(path, is_drained=is_whole) as read:
        if read.peek(2)[:2] == GZIP:
            with gzip.open(read) as decoded:
                # What `BufferedReader` asks of a stream, this has too.
                yield Trace(io.BufferedReader(decoded), name_of(path))  # type: ignore[arg-type]
        else:
            yield Trace(read, name_of(path))
