"""Loads of segments and far jumps in protected mode as Unicorn does them, for `processor.c`:
descriptors.py COUNT SEED > CASES

A table of descriptors is made at random: code and data of 16 and 32 bits, at many bases, some of
them absent, read-only, for others than the system, or of the system's own kinds. An instruction
loads a selector, or jumps to one; a load is followed by a read through the segment. Unicorn tells
registers, selectors, memory, and the number of a fault. It checks no limits: `manual.py` does.
"""

from __future__ import annotations

import random
import struct
import sys
from typing import Any, Iterator

from .cases import CODE, CODE_BYTES, MEMORY, REGISTERS, SEGMENTS, TABLES, Sample, pattern


try:
    from unicorn import UC_ARCH_X86, UC_HOOK_INTR, UC_MODE_32, Uc, UcError, x86_const as x86
except ImportError:
    x86 = None

ENTRIES = 16
NULL = 0x00
FLAT_CODE = 0x08
FLAT_DATA = 0x10
FIRST = 3
# Kinds of descriptors: data that is read-only, written, growing down; code that is read or not,
# conforming; a gate, a task.
DATA = (0x91, 0x93, 0x97)
CODE_KINDS = (0x99, 0x9B, 0x9F)
SYSTEM = (0x8C, 0x89, 0x82)
PRESENT = 0x80
LEVEL = 0x60
WIDE = 0x4
IN_PAGES = 0x8
LOADS = {0: "8EC0", 2: "8ED0", 3: "8ED8", 4: "8EE0", 5: "8EE8"}
PREFIXES = {0: "26", 2: "36", 3: "3E", 4: "64", 5: "65"}
POPS = {0: "07", 2: "17", 3: "1F", 4: "0FA1", 5: "0FA9"}
FAR_LOADS = {0: "C40B", 3: "C50B", 2: "0FB20B", 4: "0FB40B", 5: "0FB50B"}
STACK = 0x90000
POINTER = 0x50000
INVALID_TASK = 10


def descriptor(base: int, limit: int, access: int, flags: int) -> bytes:
    """The eight bytes of a descriptor."""
    return struct.pack(
        "<HHBBBB",
        limit & 0xFFFF,
        base & 0xFFFF,
        base >> 16 & 255,
        access,
        flags << 4 | limit >> 16,
        base >> 24,
    )


def _random_descriptor(rnd: random.Random) -> bytes:
    access = rnd.choice((*DATA, *CODE_KINDS, *DATA, *CODE_KINDS, rnd.choice(SYSTEM)))
    if rnd.random() < 0.1 and access & 0x10:
        access &= ~PRESENT
    if rnd.random() < 0.15:
        access |= LEVEL
    if rnd.random() < 0.3 and access & 0x18 == 0x10:
        # Data that was not accessed yet: the processor writes this bit. Unicorn leaves it out in
        # jumps to code.
        access &= ~1
    # Of one that grows down the places are those above the limit.
    limit = 0 if access & 0x1C == 0x14 else 0xFFFFF
    return descriptor(rnd.randrange(0, 0x60000), limit, access, IN_PAGES | rnd.choice((WIDE, 0)))


def _base(tables: bytes, selector: int) -> int:
    """The base of the descriptor that a selector names."""
    low, middle, high = struct.unpack_from("<xxHBxxB", tables, selector & ~7)
    return int(low | middle << 16 | high << 24)


def table(rnd: random.Random) -> bytes:
    """Descriptors: none, flat code, flat data, and others at random."""
    flat = descriptor(0, 0xFFFFF, 0x9B, IN_PAGES | WIDE) + descriptor(
        0, 0xFFFFF, 0x93, IN_PAGES | WIDE
    )
    return bytes(8) + flat + b"".join(_random_descriptor(rnd) for _ in range(ENTRIES - FIRST))


def _selector(rnd: random.Random) -> int:
    if rnd.random() < 0.1:
        return rnd.choice((0, 1, 3, ENTRIES * 8, 0x7FF8))
    return 8 * rnd.randrange(1, ENTRIES) | (rnd.choice((0, 0, 0, 0, 1, 3)))


class Instructions:
    """The instructions of a case: bytes of code, how many they are, and what memory they are
    given."""

    def __init__(self, rnd: random.Random) -> None:
        self.registers = [rnd.randrange(0x1000, 0x8000) for _ in REGISTERS]
        self.registers[4] = STACK
        self.given: list[tuple[int, bytes]] = []
        selector = _selector(rnd)
        which = rnd.choice(list(LOADS))
        self.selector = selector
        self.is_null = selector < 4
        make = rnd.choice(
            (
                self._load,
                self._load,
                self._pop,
                self._far_load,
                self._jump,
                self._call,
                self._return,
                self._memory,
            )
        )
        self.code, self.count = make(rnd, selector, which)

    def _read(self, which: int) -> str:
        """A read through a segment: its base shows. MOV EDX, [EDI]."""
        return f"{PREFIXES[which]}8B17"

    def _load(self, rnd: random.Random, selector: int, which: int) -> tuple[str, int]:
        self.registers[0] = selector | 0x12340000
        return LOADS[which] + self._read(which), 2

    def _pop(self, rnd: random.Random, selector: int, which: int) -> tuple[str, int]:
        self.given.append((STACK, struct.pack("<I", selector)))
        return POPS[which] + self._read(which), 2

    def _far_load(self, rnd: random.Random, selector: int, which: int) -> tuple[str, int]:
        self.registers[3] = POINTER
        self.given.append((POINTER, struct.pack("<IH", 0x1234, selector)))
        return FAR_LOADS[which] + self._read(which), 2

    def _jump(self, rnd: random.Random, selector: int, which: int) -> tuple[str, int]:
        return f"EA{struct.pack('<IH', 0x1234, selector).hex()}", 1

    def _call(self, rnd: random.Random, selector: int, which: int) -> tuple[str, int]:
        return f"9A{struct.pack('<IH', 0x1234, selector).hex()}", 1

    def _return(self, rnd: random.Random, selector: int, which: int) -> tuple[str, int]:
        is_interrupt = rnd.random() < 0.5
        selector = selector & ~3
        flags = struct.pack("<I", 0x202 | rnd.choice((0, 1, 0x40))) if is_interrupt else b""
        self.given.append((STACK, struct.pack("<II", 0x1234, selector) + flags))
        return ("CF" if is_interrupt else "CB"), 1

    def _memory(self, rnd: random.Random, selector: int, which: int) -> tuple[str, int]:
        self.registers[3] = POINTER
        self.given.append((POINTER, struct.pack("<IH", 0x1234, selector)))
        # A jump or a call by a pointer in memory.
        return rnd.choice(("FF2B", "FF1B")), 1


class Segmented:
    """Unicorn's processor in protected mode, with a table for each case."""

    def __init__(self) -> None:
        self.pattern = bytes(map(pattern, range(MEMORY)))
        self.fault: int | None = None

    def _begun(self, tables: bytes, one: Instructions) -> Any:
        uc = Uc(UC_ARCH_X86, UC_MODE_32)
        uc.mem_map(0, MEMORY)
        uc.mem_write(0, self.pattern)
        uc.mem_write(TABLES, tables)
        uc.mem_write(CODE, bytes.fromhex(one.code).ljust(CODE_BYTES, b"\0"))
        for place, data in one.given:
            uc.mem_write(place, data)
        uc.reg_write(x86.UC_X86_REG_GDTR, (0, TABLES, len(tables) - 1, 0))
        for name, selector in zip(
            SEGMENTS, (FLAT_DATA, FLAT_CODE, FLAT_DATA, FLAT_DATA, FLAT_DATA, FLAT_DATA)
        ):
            uc.reg_write(name, selector)
        for name, value in zip(REGISTERS, one.registers):
            uc.reg_write(name, value)
        uc.reg_write(x86.UC_X86_REG_EFLAGS, 2)
        uc.hook_add(UC_HOOK_INTR, self._fault)
        return uc

    def _fault(self, uc: Any, number: int, data: Any) -> None:
        self.fault = number
        uc.emu_stop()

    def case(self, rnd: random.Random) -> Sample | None:
        """A case; None where Unicorn leaves it to its caller."""
        tables = table(rnd)
        one = Instructions(rnd)
        if one.count > 1 and one.selector & ~7 < len(tables):
            # The pattern comes again each 65,536 bytes: what is read is to be one of its kind.
            one.given.append((_base(tables, one.selector) + one.registers[7], rnd.randbytes(4)))
        if one.is_null and one.count > 1:
            # Unicorn lets a read through no segment pass.
            return None
        uc = self._begun(tables, one)
        self.fault = None
        try:
            uc.emu_start(CODE, 0, 0, one.count)
        except UcError:
            if self.fault is None:
                return None
        if self.fault == INVALID_TASK:
            # The page's machine has no tasks.
            return None
        return self._found(uc, tables, one)

    def _found(self, uc: Any, tables: bytes, one: Instructions) -> Sample:
        memory = bytes(uc.mem_read(0, MEMORY))
        before = bytearray(self.pattern)
        before[TABLES : TABLES + len(tables)] = tables
        before[CODE : CODE + CODE_BYTES] = memory[CODE : CODE + CODE_BYTES]
        for place, data in one.given:
            before[place : place + len(data)] = data
        segments = tuple(uc.reg_read(name) for name in SEGMENTS)
        # Unicorn tells the place as one of all memory.
        place = uc.reg_read(x86.UC_X86_REG_EIP) - _base(tables, segments[1])
        written = (
            []
            if memory == before
            else [(i, memory[i]) for i in range(MEMORY) if memory[i] != before[i]]
        )
        return Sample(
            kind=2,
            registers=tuple(one.registers),
            flags=2,
            code=bytes.fromhex(one.code),
            after=tuple(uc.reg_read(name) & 0xFFFFFFFF for name in REGISTERS),
            flags_after=uc.reg_read(x86.UC_X86_REG_EFLAGS) & 0xFFFF,
            compared=0xFFFF,
            place=place & 0xFFFFFFFF,
            segments=segments,
            written=tuple(written),
            ports=(),
            instructions=one.count,
            tables=tables,
            given=tuple(one.given),
            fault=self.fault,
        )


def cases(count: int, seed: int) -> Iterator[Sample]:
    """So many cases."""
    rnd = random.Random(seed)
    processor = Segmented()
    made = 0
    while made < count:
        found = processor.case(rnd)
        if found is not None:
            made += 1
            yield found


def main() -> None:
    """Writes the cases."""
    count, seed = map(int, sys.argv[1:])
    for one in cases(count, seed):
        sys.stdout.buffer.write(one.packed())
        sys.stdout.buffer.flush()


if __name__ == "__main__":
    main()
