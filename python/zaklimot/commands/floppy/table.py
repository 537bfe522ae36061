"""The table of steps that the floppy's interpreter reads: what a machine is to do, and which
answers come of it.

Each step is an opcode and its fields, low bytes first. The same table tells what to make of the
answers, so that an image, or what came over the serial port, stands alone.
"""

import struct
import zlib
from itertools import chain, islice, takewhile
from typing import Iterator, Mapping, NamedTuple, Optional, Sequence

from zaklimot import format
from zaklimot.format import MOST_STEPS, REGISTERS, Block, Script, Step
from zaklimot.format.script import Item
from zaklimot.commands.core.trouble import Trouble

# The opcodes; those of a script's steps have its numbers.
FINISH, OUT, OUTW, IN, INW, PUT, PUTW, GET, GETW, INT = range(10)
PASS_OVER, LOOK_AWAY, FILL, REPEAT, END, SCRIPT, END_OF_RESET = range(10, 17)
STEPS = {name: form.opcode for name, form in format.FORMS.items() if OUT <= form.opcode <= GETW}
FORMS = {
    opcode: struct.Struct(f"<{fields}")
    for opcode, fields in {
        OUT: "HB",
        OUTW: "HH",
        IN: "H",
        INW: "H",
        PUT: "HHB",
        PUTW: "HHH",
        GET: "HH",
        GETW: "HH",
        # ax, bx, cx, dx; where it looks for its block or table; the table's length, and the
        # block's.
        INT: "4HBHH",
        # The last value of miscellaneous output before a script, and the length of the script's
        # name.
        SCRIPT: "BB",
        PASS_OVER: "H",
        LOOK_AWAY: "HB",
        FILL: "HB",
        REPEAT: "H",
        END: "",
        END_OF_RESET: "",
        FINISH: "",
    }.items()
}
# The steps of a table that answer something, and may stand in a block.
ANSWERED = frozenset([*STEPS.values(), INT, PASS_OVER, LOOK_AWAY])
# Bytes of such a number stand behind the fields, the last of which is the number.
BEHIND = (INT, SCRIPT)
# The header before the steps: a name, the version of the forms, where the first script stands,
# behind the steps that reset the adapter; the length of all steps, and their check.
HEADER = struct.Struct("<4sHHII")
NAME = b"VGAT"
VERSION = 1

# Ports that a machine may be asked for: those of the adapter, without the printer's between them
# (3BC to 3BF), and without 3C3, by which a machine turns the adapter off.
PORTS = frozenset([*range(0x3B0, 0x3BC), *range(0x3C0, 0x3E0)]) - {0x3C3}
STATUS_PORTS = frozenset([0x3BA, 0x3DA])
MEMORY = range(0xA0000, 0xC0000)
# Longer blocks don't fit a segment wherever they begin.
MOST_BLOCK = 0xFFF0
MOST_NAME = 0xFF

# Where a service looks for its block, or writes its table.
AT_DX = 1
AT_BP = 2
TABLE_AT_DX = 4
PLACES = {
    0x1002: AT_DX,
    0x1012: AT_DX,
    0x1100: AT_BP,
    0x1110: AT_BP,
    0x1009: TABLE_AT_DX,
    0x1017: TABLE_AT_DX,
}
STRING = 0x13
PALETTE_LENGTH = 17
DAC_ENTRIES = 256

# What the steps of a report answer, and how many bytes of answers each has: a call more of them
# where it has a table.
DONE = "ok"
SKIPPED = "skipped"
BYTE = "byte"
WORD = "word"
CALL = "call"
ANSWER_LENGTHS = {DONE: 0, SKIPPED: 0, BYTE: 1, WORD: 2, CALL: 8}


def is_for_machine(step: Step) -> bool:
    """Whether a machine can do a step, and may: one that names the adapter's ports or its memory,
    or a call."""
    if step.name == "int":
        return len(step.block) <= MOST_BLOCK and _table_length(step.numbers) is not None
    if step.name not in STEPS:
        return False
    place = step.numbers[0]
    last = step.numbers[0] + step.name.endswith("w")
    decoded = PORTS if step.name.startswith(("in", "out")) else MEMORY
    return place in decoded and last in decoded


def _packed(opcode: int, *fields: int) -> bytes:
    return bytes([opcode]) + FORMS[opcode].pack(*fields)


def _packed_item(step: Item) -> bytes:
    """A block as the interpreter's, or a step: one of a machine, or one that it passes over."""
    if isinstance(step, Block):
        return _packed(REPEAT, step.count) + b"".join(map(_packed_item, step.steps)) + _packed(END)
    if not is_for_machine(step):
        return _packed(PASS_OVER, 1)
    if step.name == "int":
        ax = step.numbers[0]
        place = AT_BP if ax >> 8 == STRING else PLACES.get(ax, 0)
        return (
            _packed(INT, *step.numbers, place, _table_length(step.numbers) or 0, len(step.block))
            + step.block
        )
    opcode = STEPS[step.name]
    (place, *value) = step.numbers
    if opcode in (IN, INW) and STATUS_PORTS & {place, place + (opcode == INW)}:
        return _packed(LOOK_AWAY, place, opcode == INW)
    if opcode in (OUT, OUTW, IN, INW):
        return _packed(opcode, place, *value)
    return _packed(opcode, place >> 4, place & 15, *value)


def _table_length(registers: tuple[int, ...]) -> Optional[int]:
    """How many bytes a call answers behind its registers; None where they would go past the
    adapter's entries."""
    ax, bx, cx, _ = registers
    if ax == 0x1009:
        return PALETTE_LENGTH
    if ax == 0x1017:
        return 3 * cx if bx + cx <= DAC_ENTRIES else None
    return 0


def _indexed(port: int, values: Mapping[int, int]) -> bytes:
    """Writes of values to registers by their indexes, each by one word at the port of the index."""
    return b"".join(_packed(OUTW, port, value << 8 | index) for index, value in values.items())


def _written(port: int, *values: int) -> bytes:
    """Bytes that are written to a port, one after the other."""
    return b"".join(_packed(OUT, port, value) for value in values)


def _reach_planes() -> Iterator[bytes]:
    """Mode 3, and then registers by which a write reaches all planes, with the palette shown no
    more."""
    yield _packed(INT, 0x0003, 0, 0, 0, 0, 0, 0)
    yield _written(0x3C2, 0x03)
    yield _indexed(0x3D4, {0x11: 0})
    yield _indexed(0x3C4, {0: 3, 4: 6, 2: 0x0F})
    yield _indexed(0x3CE, {**dict.fromkeys(range(8), 0), 8: 0xFF})
    # Emulators have another memory of text: planes are reached in graphics alone.
    yield _indexed(0x3CE, {6: 5})
    yield _packed(LOOK_AWAY, 0x3DA, 0)
    yield _written(0x3C0, 0x10, 1)


def _clear_memory() -> Iterator[bytes]:
    """Planes, latches and the DAC's entries become 0."""
    yield _packed(FILL, 0xA000, 0)
    yield _packed(GET, 0xA000, 0)
    yield _written(0x3C6, 0xFF)
    yield _written(0x3C8, 0)
    yield _packed(REPEAT, 3 * DAC_ENTRIES)
    yield _written(0x3C9, 0)
    yield _packed(END)


def _clear_registers() -> Iterator[bytes]:
    """The registers get their values at power-on, and the indexes last."""
    yield _packed(LOOK_AWAY, 0x3DA, 0)
    yield from (_written(0x3C0, index, 0) for index in range(0x15))
    yield _written(0x3C0, 0)
    yield _packed(LOOK_AWAY, 0x3DA, 0)
    yield _indexed(0x3D4, {**dict.fromkeys(range(0x19), 0), 0x17: 3})
    yield _indexed(0x3C4, dict.fromkeys(range(1, 5), 0))
    yield _indexed(0x3CE, dict.fromkeys(range(9), 0))
    yield from (_written(port, 0) for port in (0x3C4, 0x3C8, 0x3CE, 0x3D4))


def reset_steps() -> bytes:
    """The steps that bring the adapter into its state at power-on, after a machine's BIOS or a
    script has used it.

    Two registers have another value then. The sequencer's reset register keeps 03: a real adapter
    whose sequencer stands still answers no cycle of memory. Miscellaneous output gets the value
    that stands with the script.
    """
    steps = chain(_reach_planes(), _clear_memory(), _clear_registers())
    return b"".join(steps) + _packed(END_OF_RESET)


def _has_call(item: Item) -> bool:
    return any(map(_has_call, item.steps)) if isinstance(item, Block) else item.name == "int"


def table_for(scripts: Mapping[str, Script]) -> bytes:
    """The whole table of scripts by their names, with its header.

    A script that calls services finds 03 in miscellaneous output, any other 00: a BIOS may write
    the CRT controller at 3D4 before it says that it is there.
    """
    parts = [reset_steps()]
    for name, script in scripts.items():
        named = name.encode("utf-8", "surrogateescape")
        if len(named) > MOST_NAME:
            raise Trouble(f"the name of a script has at most {MOST_NAME} bytes", name)
        parts += [_packed(SCRIPT, 3 if any(map(_has_call, script.items)) else 0, len(named)), named]
        parts += map(_packed_item, script.items)
    steps = b"".join(parts) + _packed(FINISH)
    return HEADER.pack(NAME, VERSION, len(parts[0]), len(steps), zlib.crc32(steps)) + steps


class TableStep(NamedTuple):
    """A step of a table: its opcode and its fields, and the bytes behind these: a block, or the
    name of a script."""

    opcode: int
    fields: tuple[int, ...]
    behind: bytes


class NamedScript(NamedTuple):
    """A script of a table, by its name; that of a single script is empty."""

    name: str
    script: Script


class Table:
    """A table that was read, from an image or from a record."""

    def __init__(self, data: bytes, name: str) -> None:
        if len(data) < HEADER.size or data[:4] != NAME:
            raise Trouble("it holds no table of steps of `zaklimot floppy`", name)
        _, version, self._first, length, self.check = HEADER.unpack_from(data)
        if version != VERSION:
            raise Trouble(
                f"its table is of version {version}, and this tool reads version {VERSION}", name
            )
        self._name = name
        self._steps = data[HEADER.size : HEADER.size + length]
        if len(self._steps) < length or zlib.crc32(self._steps) != self.check:
            raise Trouble("its table of steps is damaged", name)

    def scripts(self) -> list[NamedScript]:
        """Its scripts in their order.

        Their steps are called by what they answer; that of a call has its registers, and how long
        its table is.
        """
        names: list[str] = []
        items: list[list[Item]] = []
        steps = self._decoded()
        left = MOST_STEPS
        for step in steps:
            if step.opcode == SCRIPT:
                names.append(step.behind.decode("utf-8", "surrogateescape"))
                items.append([])
                left = MOST_STEPS
            elif step.opcode != FINISH:
                found = self._items(step, steps)
                left -= sum(
                    item.count * len(item.steps) if isinstance(item, Block) else 1 for item in found
                )
                if left < 0 or not names:
                    raise self._forged()
                items[-1].extend(found)
        return [NamedScript(name, Script(tuple(some))) for name, some in zip(names, items)]

    def _items(self, step: TableStep, steps: Iterator[TableStep]) -> Sequence[Item]:
        """The items of a step of the table, or of those up to the end of a block that it begins."""
        if step.opcode != REPEAT:
            return self._answers(step)
        inner = takewhile(lambda one: one.opcode != END, steps)
        answers = chain.from_iterable(map(self._answers, inner))
        # No block of a script has more steps.
        within = tuple(islice(answers, MOST_STEPS + 1))
        count = step.fields[0]
        if len(within) > MOST_STEPS or not count:
            raise self._forged()
        return [Block(count, within)]

    def _answers(self, step: TableStep) -> list[Step]:
        if step.opcode not in ANSWERED:
            raise self._forged()
        return _answers(step)

    def _forged(self) -> Trouble:
        return Trouble("its table of steps is none that `zaklimot floppy` makes", self._name)

    def answer_length(self) -> int:
        """How many bytes of answers the scripts have."""
        return sum(length_of(item) for one in self.scripts() for item in one.script.items)

    def _decoded(self) -> Iterator[TableStep]:
        at = self._first
        while at < len(self._steps):
            opcode = self._steps[at]
            form = FORMS.get(opcode)
            if form is None or at + 1 + form.size > len(self._steps):
                raise self._forged()
            fields = form.unpack_from(self._steps, at + 1)
            at += 1 + form.size
            length = fields[-1] if opcode in BEHIND else 0
            yield TableStep(opcode, fields, self._steps[at : at + length])
            at += length


def _answers(step: TableStep) -> list[Step]:
    """The steps of a report that a step of the table is, by what they answer."""
    opcode = step.opcode
    if opcode == INT:
        *registers, _, table_length, _ = step.fields
        return [Step(CALL, (*registers, table_length))]
    if opcode in (PASS_OVER, LOOK_AWAY):
        return [Step(SKIPPED)] * (step.fields[0] if opcode == PASS_OVER else 1)
    return [Step(BYTE if opcode in (IN, GET) else WORD if opcode in (INW, GETW) else DONE)]


def length_of(answer: Item) -> int:
    """How many bytes an answer has, or all those of a block."""
    if isinstance(answer, Block):
        return answer.count * sum(map(length_of, answer.steps))
    return ANSWER_LENGTHS[answer.name] + sum(answer.numbers[len(REGISTERS) :])
