"""Steps of a script: what cycles become, as bytes and as text."""

from functools import partial
from itertools import chain, count
from struct import Struct
from typing import Callable, Iterable, Iterator, NamedTuple, Optional, Sequence, cast

from zaklimot import format
from zaklimot.format import FORMS
from zaklimot.commands.explain.ports import COLOUR, MONOCHROME, STATUS

from .trace import MEMORY, NO_VGA, PORT, Call, Cycle

# The steps that cycles become, and those between them, by their opcodes.
CYCLES = ("out", "outw", "in", "inw", "put", "putw", "get", "getw")
NAMES = {FORMS[name].opcode: name for name in (*CYCLES, "advance", "frame", "int")}
OUT, OUTW, IN, INW, PUT, PUTW, GET, GETW, ADVANCE, FRAME, INT = NAMES
READS = (IN, INW, GET, GETW)
WRITES = (OUT, OUTW, PUT, PUTW, INT)
PORTS = (OUT, OUTW, IN, INW)
WORDS = (OUTW, INW, PUTW, GETW)
# Steps of which two may be one of a word.
HALVES = (PUT, GET)
# What packs an opcode with an address and a value, and with an address alone.
WRITING, READING = (
    {opcode: Struct("<B" + FORMS[NAMES[opcode]].coder.format.lstrip("<")).pack for opcode in some}
    for some in ((OUT, OUTW, PUT, PUTW), READS)
)
# Input status 1, with colour and without; bits 0 and 3 tell where the beam is.
STATUS_PORTS = (COLOUR + STATUS, MONOCHROME + STATUS)
BEAM_BITS = 0x09


class TraceStep(NamedTuple):
    """A step. `address` has the dots of `advance`; `value` is what was written or, in the trace,
    read.

    `cycle` is the number of its last cycle, from 1, and 0 of a step that is no cycle's. `dots` is
    how many dots pass from the step before to this one, a frame's own among them, if that is known.
    """

    opcode: int
    address: int = 0
    value: int = 0
    time: Optional[int] = None
    cycle: int = 0
    dots: Optional[int] = None
    call: Optional[Call] = None

    @property
    def is_status(self) -> bool:
        """Whether the step reads input status 1 alone."""
        return self.opcode == IN and self.address in STATUS_PORTS

    @property
    def step(self) -> format.Step:
        """The step of a script."""
        if self.call is not None:
            return format.Step(NAMES[self.opcode], *self.call)
        return format.Step(
            NAMES[self.opcode], (self.address, self.value)[: len(FORMS[NAMES[self.opcode]].fields)]
        )

    @property
    def size(self) -> int:
        """How many bytes it has in a script of bytes."""
        return FORMS[NAMES[self.opcode]].size + self.block_bytes

    @property
    def block_bytes(self) -> int:
        """How many bytes its block has, of a call."""
        return 0 if self.call is None else len(self.call.block)

    def data(self) -> bytes:
        """The step as bytes of a script."""
        opcode, address, value = self[:3]
        pack = WRITING.get(opcode)
        if pack is not None:
            return pack(opcode, address, value)
        pack = READING.get(opcode)
        return format.encoded(self.step) if pack is None else pack(opcode, address)

    def text(self) -> bytes:
        """The step as a line, as `vga dis` prints it; behind a read, what was read is what is
        expected."""
        line = format.printed(self.step)
        if self.opcode in READS and not self.is_status:
            line += f" ; = {self.value:0{4 if self.opcode in WORDS else 2}X}"
        return line.encode() + b"\n"


# Makes a step of all its parts in half the time that the class takes.
_made_step = cast(Callable[[Iterable[object]], TraceStep], partial(tuple.__new__, TraceStep))


def advances(dots: int) -> Iterator[TraceStep]:
    """The steps by which so many dots pass."""
    for left in range(dots, 0, -format.MOST_ADVANCE):
        yield TraceStep(ADVANCE, min(left, format.MOST_ADVANCE))


def _narrowed(number: int, cycle: Cycle) -> Sequence[TraceStep]:
    """The steps of a cycle: one of four or eight bytes becomes words, the lowest first; one of VBE
    becomes none."""
    is_write, space, address, value, size, time, dots, call = cycle
    if space not in (PORT, MEMORY):
        return () if space in NO_VGA else (TraceStep(INT, 0, 0, time, number, dots, call),)
    opcode = (OUT if space == PORT else PUT) + (0 if is_write else 2) + (size > 1)
    if size <= 2:
        return (_made_step((opcode, address, value, time, number, dots, None)),)
    return [
        TraceStep(
            opcode,
            address + at,
            value >> 8 * at & 0xFFFF,
            time,
            number,
            dots if at == 0 or dots is None else 0,
        )
        for at in range(0, size, 2)
    ]


def steps_of(cycles: Iterable[Cycle], apart: Sequence[int] = ()) -> Iterator[TraceStep]:
    """The steps of cycles. A byte of memory at an even address and the next one become a word, as
    software meant them.

    The two stay apart after cycles of some numbers, which may be found while the cycles pass; and
    where dots are known, since a trace that tells them tells the width as well.
    """
    held: Optional[TraceStep] = None
    for step in chain.from_iterable(map(_narrowed, count(1), cycles)):
        if held is not None:
            is_next = step.opcode == held.opcode and step.address == held.address + 1
            if is_next and step.dots is None and held.cycle not in apart:
                value = held.value | step.value << 8
                yield TraceStep(step.opcode + 1, held.address, value, held.time, step.cycle)
                held = None
                continue
            yield held
            held = None
        if step.opcode in HALVES and not step.address & 1:
            held = step
        else:
            yield step
    if held is not None:
        yield held


def without_polls(steps: Iterable[TraceStep]) -> Iterator[TraceStep]:
    """The steps, but of a row of reads of input status 1, with nothing between them, the first
    alone."""
    last = None
    dots = 0
    for step in steps:
        port = step.address if step.is_status else None
        if port is not None and port == last:
            dots += step.dots or 0
            continue
        yield step._replace(dots=(step.dots or 0) + dots) if dots else step
        last = port
        dots = 0
