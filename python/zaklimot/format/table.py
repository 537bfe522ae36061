"""The one table of the format: steps, dumps, blocks, answers, refusals, faults and limits.

docs/SCRIPT.md and docs/REPORT.md describe them. Everything else in this package goes by this table.
"""

from __future__ import annotations

import re
import struct
from dataclasses import dataclass
from functools import cached_property
from typing import NamedTuple, Optional, Union

MAGIC = b"VGAS"
# The header of a script in bytes, by its version.
HEADERS = {version: MAGIC + bytes([version]) for version in (1, 2)}
# The first line of a text of version 2. A text of version 1 has no such line.
FIRST_LINE = "version 2"

# The most bytes of a script, and of a text; and the most steps that a script may mean.
MOST_BYTES = MOST_STEPS = 16_777_216
# The most rounds of a block of steps, and the most bytes of a call's block.
MOST_COUNT = MOST_BLOCK = 65_535
# The bytes of a plane, and the most of them that one dump shows.
PLANE_BYTES, MOST_DUMPED = 65_536, 256
# The most dots of an advance. A longer one is a valid step, but refused.
MOST_ADVANCE = 16_777_216
FONT_BYTES = 9_728


@dataclass(frozen=True)
class Field:
    """A number of a step.

    `name` is its name in messages. `size` is how many bytes it has in a script in bytes. In a text
    it has at most `digits` hexadecimal digits, or is decimal if `digits` is 0. It is printed with
    at least `width` digits. It is from `least` to `most`. If it may be left out of a text, it is
    then `default`.
    """

    name: str
    size: int
    digits: int
    width: int
    least: int
    most: int
    default: Optional[int] = None

    def shown(self, value: int) -> str:
        """A value as messages show it, in the field's own base."""
        return f"{value:X}" if self.digits else str(value)

    def value(self, word: str) -> int:
        """The value that a word of a text spells. Raises ValueError if it spells none, or one out
        of range."""
        # `int` itself would also accept signs, underscores, the prefix 0x, and digits of other
        # alphabets.
        digits = word if self.digits else word.lstrip("0") or "0"
        if (
            len(digits) > (self.digits or 10)
            or not (word.isascii() and word.isalnum())
            or word[1:2] in ("x", "X")
        ):
            raise ValueError(word)
        value = int(digits, 16 if self.digits else 10)
        if not self.least <= value <= self.most:
            raise ValueError(word)
        return value


def decimal(digits: Union[str, bytes], most: int) -> Optional[int]:
    """The number that decimal digits spell; None of anything else, and of a number above `most`."""
    if not (digits.isascii() and digits.isdigit()):
        return None
    # Python's own reader ends the program at numbers of thousands of digits.
    if len(digits) > len(str(most)):
        # Of the same kind as the digits are.
        digits = digits.lstrip("0" if isinstance(digits, str) else b"0")  # type: ignore[arg-type]
    if len(digits) > len(str(most)):
        return None
    number = int(digits or "0")
    return number if number <= most else None


_SIZES = {1: "B", 2: "H", 4: "I"}


def _digits(
    name: str, size: int, width: int, most: Optional[int] = None, default: Optional[int] = None
) -> Field:
    """A field of hexadecimal digits: two for each byte, or fewer if `most` needs fewer."""
    digits = 2 * size if most is None else len(f"{most:X}")
    return Field(name, size, digits, width, 0, 256**size - 1 if most is None else most, default)


PORT, ADDRESS = _digits("PORT", 2, 3), _digits("ADDRESS", 4, 5)
BYTE, WORD = _digits("VALUE", 1, 2), _digits("VALUE", 2, 4)
DOTS, COUNT = Field("DOTS", 4, 0, 1, 0, 4_294_967_295), Field("N", 2, 0, 1, 1, MOST_COUNT)
INDEX, PLANE, OFFSET = _digits("INDEX", 1, 2), _digits("P", 1, 1, 3), _digits("OFFSET", 2, 4)
DUMPED = Field("COUNT", 2, 0, 1, 1, MOST_DUMPED)
# The registers of a call, in order. A register that a text leaves out is 0.
REGISTERS = ("ax", "bx", "cx", "dx")
BLOCK = "block"

# The kinds of answers: `ok`; a byte or a word that was read; registers and perhaps a block; a
# picture; a dump.
OK, READ_BYTE, READ_WORD, CALLED, PICTURE, DUMP = (
    "ok",
    "byte",
    "word",
    "registers",
    "picture",
    "dump",
)

# The refusals by their numbers, E1 to E13.
REFUSALS = {
    1: "NotDecoded",
    2: "NotInProfile",
    3: "NoMode",
    4: "BadFunction",
    5: "BadMode",
    6: "WrongKind",
    7: "BadPage",
    8: "Outside",
    9: "CountPast",
    10: "BadRegister",
    11: "BadBlock",
    12: "TooFar",
    13: "BadHeight",
}
_OF_CYCLE, _OF_CALL, _OF_ADVANCE, _OF_CELLS = (
    (1, 2),
    (3, 4, 5, 6, 7, 8, 9, 10, 11, 13),
    (12,),
    (3, 6),
)


@dataclass(frozen=True)
class Form:
    """The form of one kind of step.

    `name` is the word or the words that a line begins with. `code` is the opcode, followed by the
    kind for a dump. `fields` come after them, in a text and in bytes. `answer` is the kind of
    answer; `refusals` are the numbers of the refusals that may come in its place. A step with a
    block has its length and its bytes after the fields.
    """

    name: str
    code: bytes
    fields: tuple[Field, ...]
    answer: str
    refusals: tuple[int, ...] = ()
    has_block: bool = False

    @property
    def opcode(self) -> int:
        """The opcode, which is the first byte of such a step."""
        return self.code[0]

    @cached_property
    def coder(self) -> struct.Struct:
        """Packs the fields, and the length of a block as the last of them."""
        return struct.Struct(
            "<" + "".join(_SIZES[field.size] for field in self.fields) + "H" * self.has_block
        )

    @cached_property
    def template(self) -> str:
        """The printed form, for `str.format`. A block follows it."""
        between = [
            f"{field.name.lower()}=" if field.default is not None else "" for field in self.fields
        ]
        kinds = [f"0{field.width}X" if field.digits else "d" for field in self.fields]
        return " ".join(
            [self.name, *(f"{front}{{:{kind}}}" for front, kind in zip(between, kinds))]
        )

    @property
    def size(self) -> int:
        """How many bytes such a step has, without its block."""
        return len(self.code) + self.coder.size


_CALL = tuple(_digits(name, 2, 4, default=0) for name in REGISTERS)
# The steps by name, in the order of their opcodes and kinds.
FORMS = {
    form.name: form
    for form in (
        Form("out", b"\x01", (PORT, BYTE), OK, _OF_CYCLE),
        Form("outw", b"\x02", (PORT, WORD), OK, _OF_CYCLE),
        Form("in", b"\x03", (PORT,), READ_BYTE, _OF_CYCLE),
        Form("inw", b"\x04", (PORT,), READ_WORD, _OF_CYCLE),
        Form("put", b"\x05", (ADDRESS, BYTE), OK, _OF_CYCLE),
        Form("putw", b"\x06", (ADDRESS, WORD), OK, _OF_CYCLE),
        Form("get", b"\x07", (ADDRESS,), READ_BYTE, _OF_CYCLE),
        Form("getw", b"\x08", (ADDRESS,), READ_WORD, _OF_CYCLE),
        Form("int", b"\x09", _CALL, CALLED, _OF_CALL, has_block=True),
        Form("advance", b"\x0A", (DOTS,), OK, _OF_ADVANCE),
        Form("frame", b"\x0B", (), PICTURE),
        Form("show regs", b"\x0C\x00", (), DUMP),
        Form("show dac", b"\x0C\x01", (INDEX,), DUMP),
        Form("show beam", b"\x0C\x02", (), DUMP),
        Form("show latches", b"\x0C\x03", (), DUMP),
        Form("show plane", b"\x0C\x04", (PLANE, OFFSET, DUMPED), DUMP),
        Form("show bda", b"\x0C\x05", (), DUMP),
        Form("show cells", b"\x0C\x06", (), DUMP, _OF_CELLS),
    )
}
SHOW, INT, FRAME, ADVANCE = "show", "int", "frame", "advance"
# The dumps by what they show.
SHOWN = {name.partition(" ")[2]: form for name, form in FORMS.items() if name.startswith(SHOW)}
# The forms by code: an opcode, followed by the kind for a dump.
CODES = {form.code: form for form in FORMS.values()}
# The steps that answer a byte or a word.
READING = tuple(name for name, form in FORMS.items() if form.answer in (READ_BYTE, READ_WORD))
# What a limited run shows at its end, as if these steps came next.
STATE = ("show regs", "show beam", "show latches", "show bda")

# The lines of version 2: its first line, and the two ends of a block.
REPEAT, END = "repeat", "end"
BLOCK_LINES: dict[str, tuple[Field, ...]] = {
    "version": (Field("2", 1, 0, 1, 2, 2),),
    REPEAT: (COUNT,),
    END: (),
}
REPEAT_CODE, END_CODE = 0x0D, 0x0E
# The first words of all lines, by opcode.
OPCODES = {
    **{form.opcode: name.partition(" ")[0] for name, form in FORMS.items()},
    REPEAT_CODE: REPEAT,
    END_CODE: END,
}


class Fault(NamedTuple):
    """A fault, which ends a run: its number, its name, and what follows in parentheses, `at` or
    `line`."""

    number: int
    name: str
    place: str = ""


FAULTS = {
    fault.name: fault
    for fault in (
        Fault(1, "FontSize"),
        Fault(2, "BadMagic"),
        Fault(3, "BadVersion"),
        Fault(4, "BadStep", "at"),
        Fault(5, "Truncated", "at"),
        Fault(6, "TooLong"),
        Fault(7, "BadLine", "line"),
        Fault(8, "ReadFault"),
        Fault(9, "WriteFault"),
        Fault(10, "OutOfMemory"),
        Fault(11, "TooMany", "at"),
    )
}
# A fault as the program and a report write it: number, name and place.
FAULT = re.compile(r"F([1-9][0-9]?) ([A-Z][A-Za-z]*)(?:\(([0-9]{1,20})\))?")
# The line that the program writes to standard error for a fault.
LINE = re.compile(
    "vga: ((?:%s))\n"
    % "|".join(
        f"F{fault.number} {fault.name}" + (r"\([0-9]{1,20}\)" if fault.place else "")
        for fault in FAULTS.values()
    )
)


class ScriptFault(ValueError):
    """A fault of a script, as the program names it. `place` is an offset in bytes, a line from 1,
    or None."""

    def __init__(self, name: str, place: Optional[int] = None) -> None:
        self.fault = FAULTS[name]
        self.place = place
        super().__init__(self.answer)

    @property
    def answer(self) -> str:
        """The fault as the program writes it: `F7 BadLine(3)`."""
        return f"F{self.fault.number} {self.fault.name}" + (
            "" if self.place is None else f"({self.place})"
        )


def refusal_of(number: int) -> str:
    """A refusal as a report writes it: `E1 NotDecoded`. Raises KeyError if no refusal has this
    number."""
    return f"E{number} {REFUSALS[number]}"
