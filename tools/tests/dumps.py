"""What dumps tell, by which elements are witnessed: the answers of `show`, read as numbers.

A ValueError or a LookupError ends the reading of what is no such dump.
"""

from dataclasses import dataclass
from typing import Iterable, NamedTuple, Sequence

# How the lines of `show regs` begin, in their order.
GROUPS = ("misc", "seq", "crtc", "gfx", "attr", "dac")
# What comes next of the DAC, and of the attribute controller.
NEXT_COMPONENT = "rgb"
NEXT_DATA = "d"
# How many cursors a line of BIOS data has, one for each page.
CURSORS = 8


@dataclass(frozen=True)
class DumpedBank:
    """An index, and the registers behind it."""

    index: int
    registers: list[int]


@dataclass(frozen=True)
class DumpedDac:
    """The DAC without its entries: its index, the component that is next, its mask, and the red and
    the green that wait for blue."""

    index: int
    component: int
    mask: int
    waiting: list[int]


class DumpedRegisters(NamedTuple):
    """What `show regs` shows; `is_data` tells whether data is next of the attribute controller."""

    misc: int
    seq: DumpedBank
    crtc: DumpedBank
    gfx: DumpedBank
    attr: DumpedBank
    is_data: bool
    dac: DumpedDac


class DumpedBiosData(NamedTuple):
    """What `show bda` shows: numbers by their names, and a word for the cursor of each page."""

    numbers: dict[str, int]
    cursors: list[int]


def registers_in(lines: Sequence[str]) -> DumpedRegisters:
    """The registers in the lines of `show regs`."""
    parted = (line.partition(" ") for line in lines)
    words = {name: [word.rstrip(":") for word in rest.split()] for name, _, rest in parted}
    if tuple(words) != GROUPS:
        raise ValueError
    following = words["attr"].pop(1)
    seq, crtc, gfx, attr = (_bank(words[name]) for name in ("seq", "crtc", "gfx", "attr"))
    index, component, mask, *waiting = words["dac"]
    dac = DumpedDac(
        int(index, 16),
        NEXT_COMPONENT.index(component),
        int(mask, 16),
        [int(word, 16) for word in waiting],
    )
    misc = int(words["misc"][0], 16)
    return DumpedRegisters(misc, seq, crtc, gfx, attr, following == NEXT_DATA, dac)


def _bank(words: Sequence[str]) -> DumpedBank:
    index, *registers = (int(word, 16) for word in words)
    return DumpedBank(index, registers)


def beam_in(line: str) -> dict[str, int]:
    """The numbers of `show beam` by their names; the base alone is hexadecimal."""
    words = line.split(" ")
    named = dict(zip(words[1::2], words[2::2]))
    return {name: int(word, 16 if name == "base" else 10) for name, word in named.items()}


def bios_data_in(line: str) -> DumpedBiosData:
    """The numbers of `show bda`."""
    words = line.split(" ")
    at = words.index("at")
    behind = at + 1 + CURSORS
    names = (*words[1:at:2], *words[behind::2])
    numbers = (int(word, 16) for word in (*words[2:at:2], *words[behind + 1 :: 2]))
    cursors = [int(word, 16) for word in words[at + 1 : behind]]
    return DumpedBiosData(dict(zip(names, numbers)), cursors)


def latches_in(line: str) -> bytes:
    """The latches of `show latches`, that of plane 0 first."""
    return bytes.fromhex(line.partition(" ")[2])


def bytes_in(line: str) -> bytes:
    """The bytes of a line of `show plane` or `show dac`, behind the words that name them."""
    return bytes.fromhex(line.partition(": ")[2])


def all_bytes_in(lines: Iterable[str]) -> bytes:
    """The bytes of such lines, one after the other."""
    return bytes.fromhex(" ".join(line.partition(": ")[2] for line in lines))
