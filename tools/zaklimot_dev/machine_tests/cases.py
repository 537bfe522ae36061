"""Random instructions as Unicorn does them, for `processor.c`: cases.py COUNT SEED > CASES

Unicorn, whose processor is QEMU's, is Debian's package python3-unicorn. A case is a processor's
registers with the bytes of one instruction, and what the instruction leaves: registers, flags,
segments, bytes of memory, ports. Each third case is of protected mode with segments of 32 bits.
"""

from __future__ import annotations

import random
import struct
import sys
from typing import Any, Iterator, NamedTuple

try:
    from unicorn import (
        UC_ARCH_X86,
        UC_HOOK_INSN,
        UC_MODE_16,
        UC_MODE_32,
        Uc,
        UcError,
        x86_const as x86,
    )
except ImportError:
    # The cases of manual.py need none of it.
    x86 = None

MEMORY = 0x100000
CODE_SEGMENT = 0x1000
OFFSET = 0x100
CODE = 16 * CODE_SEGMENT + OFFSET
CODE_BYTES = 16
# Where tables of descriptors stand, and what is told where there is no fault.
TABLES = 0x40000
NO_FAULT = 0xFFFFFFFF
# Memory is compared in parts of so many bytes, and a case may change so many bytes.
PART = 4096
MOST_CHANGED = 400
PREFIXES = (0x26, 0x2E, 0x36, 0x3E, 0x64, 0x65, 0x66, 0x67, 0xF0, 0xF2, 0xF3)
REPEATS = (0xF2, 0xF3)
STRINGS = (0x6C, 0x6D, 0x6E, 0x6F, *range(0xA4, 0xA8), *range(0xAA, 0xB0))
COMPARING = (0xA6, 0xA7, 0xAE, 0xAF)
# What is left to a table by hand: halts, interrupts, and what no 386 has. x87 is lacking.
LEFT_OUT = {
    0x0F,
    0xF4,
    0xCC,
    0xCD,
    0xCE,
    0xCF,
    0x62,
    0x63,
    0x82,
    0xD6,
    0xF1,
    0x9B,
    *PREFIXES,
    *range(0xD8, 0xE0),
}
# In protected mode no segment is loaded: there are no descriptors.
LOADING = {0x8E, 0x07, 0x17, 0x1F, 0xC4, 0xC5, 0x9A, 0xEA, 0xCA, 0xCB}
LOADING_TWO = {0xA1, 0xA9, 0xB2, 0xB4, 0xB5}
TWO = (
    *range(0x80, 0xA2),
    *range(0xA3, 0xA6),
    *range(0xA8, 0xAA),
    *range(0xAB, 0xAE),
    *range(0xAF, 0xB8),
    *range(0xBA, 0xC2),
    *range(0xC8, 0xD0),
)
CPUID = 0xA2
REGISTERS, SEGMENTS = (
    tuple(getattr(x86, f"UC_X86_REG_{name}", 0) for name in names.split())
    for names in ("EAX ECX EDX EBX ESP EBP ESI EDI", "ES CS SS DS FS GS")
)
REAL = (0x3000, CODE_SEGMENT, 0x4000, 0x2000, 0x5000, 0x6000)
CARRY = 0x001
PARITY = 0x004
ADJUST = 0x010
ZERO = 0x040
SIGN = 0x080
OVERFLOW = 0x800
ALL = CARRY | PARITY | ADJUST | ZERO | SIGN | OVERFLOW
CONTROL = 0x700
VALUES = (0, 1, 0x7F, 0x80, 0xFF, 0x7FFF, 0x8000, 0xFFFF, 0x7FFFFFFF, 0x80000000, 0xFFFFFFFF)


class Instruction(NamedTuple):
    """An instruction's bytes, and those of it that its flags hang on."""

    code: bytes
    opcode: int
    modrm: int
    is_two: bool
    prefixes: frozenset[int]

    @property
    def is_repeated(self) -> bool:
        """Whether a prefix repeats it."""
        return not self.is_two and self.opcode in STRINGS and bool(self.prefixes & set(REPEATS))


def pattern(place: int) -> int:
    """The byte that memory has at a place, before anything is written."""
    return (place * 167 + (place >> 8) * 13) & 255


def read_port(port: int, size: int) -> int:
    """What a port answers."""
    return (port * 0x9E3779B1 ^ size * 0x85EBCA6B) & (1 << 8 * size) - 1


def instruction(rnd: random.Random, is_protected: bool) -> Instruction:
    """An instruction, each opcode as likely as another."""
    prefixes = {prefix for prefix, share in ((0x66, 0.3), (0x67, 0.12)) if rnd.random() < share}
    if rnd.random() < 0.15:
        prefixes.add(rnd.choice((0x26, 0x2E, 0x36, 0x3E, 0x64, 0x65)))
    is_two, opcode = _opcode(rnd, is_protected)
    if not is_two and opcode in STRINGS and rnd.random() < 0.5:
        prefixes.add(rnd.choice(REPEATS))
    tail = bytearray(rnd.randrange(256) for _ in range(12))
    _leave_to_the_manual(tail, opcode, is_two, prefixes, is_protected)
    if is_protected:
        _keep_inside(tail, 0x67 in prefixes)
    _keep_unicorn_alive(opcode, tail)
    code = bytes(
        [*rnd.sample(sorted(prefixes), len(prefixes)), *([0x0F] if is_two else []), opcode]
    ) + bytes(tail)
    return Instruction(code[:CODE_BYTES], opcode, tail[0], is_two, frozenset(prefixes))


def _opcode(rnd: random.Random, is_protected: bool) -> tuple[bool, int]:
    """Whether an opcode has two bytes, and the last of them; none that is left out."""
    while True:
        is_two = rnd.random() < 0.3
        opcode = rnd.choice(TWO) if is_two else rnd.randrange(256)
        is_left_out = opcode == CPUID if is_two else opcode in LEFT_OUT
        if not is_left_out and not (
            is_protected and opcode in (LOADING_TWO if is_two else LOADING)
        ):
            return is_two, opcode


def _leave_to_the_manual(
    tail: bytearray,
    opcode: int,
    is_two: bool,
    prefixes: set[int],
    is_protected: bool,
) -> None:
    """Turns what Unicorn does otherwise than Intel's manual says into what both do; `manual.h` has
    the rest.

    ENTER by operands of another size than the stack's, where it leaves half of EBP; RET by more
    than 32,767 bytes, which it takes for fewer. Of `pop`, and of `mov` with a constant, there is
    one form.
    """
    if is_two:
        if 0xC8 <= opcode < 0xD0 and is_protected == (0x66 in prefixes):
            # The bytes of a word: undefined.
            prefixes ^= {0x66}
    elif opcode == 0xC8:
        prefixes -= {0x66}
    elif opcode in (0xC2, 0xCA):
        tail[1] &= 0x7F
    elif opcode in (0x8F, 0xC6, 0xC7):
        tail[0] &= 0xC7


def _keep_inside(tail: bytearray, is_narrow: bool) -> None:
    """Makes displacements of 32 bits, wherever they stand, such that they lead into memory."""
    if is_narrow:
        return
    for place in range(4):
        if tail[place + 3] or tail[place + 2] > 7:
            tail[place + 2], tail[place + 3] = tail[place + 2] & 7, 0


def _keep_unicorn_alive(opcode: int, tail: bytearray) -> None:
    """Takes out what ends Unicorn's whole process, also where it only looks ahead: far jumps to a
    register."""
    before = opcode
    for place, byte in enumerate(tail):
        if before == 0xFF and byte >= 0xD8 and byte & 0x38 in (0x18, 0x28):
            tail[place] &= 0x7F
        before = tail[place]


def undefined_flags(one: Instruction, count: int) -> int:
    """The flags that Intel's manual leaves undefined after an instruction; `count` is CL."""
    opcode = one.opcode
    which = one.modrm >> 3 & 7
    if one.is_two:
        return _undefined_of_two(one, count)
    if opcode in (0xC0, 0xC1, 0xD0, 0xD1, 0xD2, 0xD3):
        by = 1 if opcode in (0xD0, 0xD1) else count if opcode in (0xD2, 0xD3) else None
        return _undefined_of_shift(which, by)
    if opcode in (0xF6, 0xF7):
        return {
            0: ADJUST,
            1: ADJUST,
            4: SIGN | ZERO | ADJUST | PARITY,
            5: SIGN | ZERO | ADJUST | PARITY,
            6: ALL,
            7: ALL,
        }.get(which, 0)
    if opcode in (0x80, 0x81, 0x83):
        return ADJUST if which in (1, 4, 6) else 0
    if opcode in (0x69, 0x6B):
        return SIGN | ZERO | ADJUST | PARITY
    if opcode < 0x40 and opcode & 7 < 6:
        return ADJUST if opcode >> 3 in (1, 4, 6) else 0
    return {
        0x84: ADJUST,
        0x85: ADJUST,
        0xA8: ADJUST,
        0xA9: ADJUST,
        0x27: OVERFLOW,
        0x2F: OVERFLOW,
        0x37: OVERFLOW | SIGN | ZERO | PARITY,
        0x3F: OVERFLOW | SIGN | ZERO | PARITY,
        0xD4: OVERFLOW | ADJUST | CARRY,
        0xD5: OVERFLOW | ADJUST | CARRY,
    }.get(opcode, 0)


def _undefined_of_shift(which: int, by: int | None) -> int:
    """The same of a shift or rotation by a count; None is a byte of the instruction, as large as
    any."""
    many = by is None or by & 31 != 1
    if which < 4:
        return OVERFLOW if many else 0
    return ADJUST | (OVERFLOW | CARRY if many else 0)


def _undefined_of_two(one: Instruction, count: int) -> int:
    if one.opcode in (0xA4, 0xA5, 0xAC, 0xAD):
        return ADJUST | OVERFLOW
    if one.opcode in (0xA3, 0xAB, 0xB3, 0xBB, 0xBA):
        return OVERFLOW | SIGN | ADJUST | PARITY
    if one.opcode in (0xBC, 0xBD):
        return ALL & ~ZERO
    return SIGN | ZERO | ADJUST | PARITY if one.opcode == 0xAF else 0


class Sample(NamedTuple):
    """The processor before an instruction, and what is left of it.

    The kind is 0 in real mode, 1 in protected mode whose segments are all of memory, and 2 by
    tables of descriptors: first those of segments, then those of interrupts. Bytes of memory may be
    given, and several instructions be done. Of a fault only the number counts.
    """

    kind: int
    registers: tuple[int, ...]
    flags: int
    code: bytes
    after: tuple[int, ...]
    flags_after: int
    compared: int
    place: int
    segments: tuple[int, ...]
    written: tuple[tuple[int, int], ...]
    ports: tuple[tuple[int, int, int], ...]
    instructions: int = 1
    tables: bytes = b""
    given: tuple[tuple[int, bytes], ...] = ()
    fault: int | None = None
    interrupts: bytes = b""

    def packed(self) -> bytes:
        """The bytes that `processor.c` reads."""
        given = [(place + i, byte) for place, data in self.given for i, byte in enumerate(data)]
        sizes = self.instructions, len(self.tables), len(self.interrupts), len(given)
        code = self.code.ljust(CODE_BYTES, b"\0")
        front = struct.pack("<I8II16s4I", self.kind, *self.registers, self.flags, code, *sizes)
        front += self.tables + self.interrupts + b"".join(struct.pack("<IB", *one) for one in given)
        fault = NO_FAULT if self.fault is None else self.fault
        left = struct.pack(
            "<8IIIII6H",
            *self.after,
            self.flags_after,
            self.compared,
            self.place,
            fault,
            *self.segments,
        )
        counts = struct.pack("<HH", len(self.written), len(self.ports))
        written = b"".join(struct.pack("<IB", *one) for one in self.written)
        return (
            front
            + left
            + counts
            + written
            + b"".join(struct.pack("<HBI", *one) for one in self.ports)
        )


class Processor:
    """Unicorn's processor in one mode, with memory that is the pattern before each case."""

    def __init__(self, is_protected: bool) -> None:
        self.is_protected = is_protected
        self.uc = Uc(UC_ARCH_X86, UC_MODE_32 if is_protected else UC_MODE_16)
        self.pattern = bytes(map(pattern, range(MEMORY)))
        self.uc.mem_map(0, MEMORY)
        self.uc.mem_write(0, self.pattern)
        self.ports: list[tuple[int, int, int]] = []
        # A hook of memory's writes would spoil the processor: it loses what a register of its own
        # has.
        self.uc.hook_add(UC_HOOK_INSN, self._read, None, 1, 0, x86.UC_X86_INS_IN)
        self.uc.hook_add(UC_HOOK_INSN, self._write, None, 1, 0, x86.UC_X86_INS_OUT)

    def _read(self, uc: Any, port: int, size: int, data: Any) -> int:
        return read_port(port, size)

    def _write(self, uc: Any, port: int, size: int, value: int, data: Any) -> None:
        self.ports.append((port, size, value & (1 << 8 * size) - 1))

    def case(self, rnd: random.Random) -> Sample | None:
        """A case; None where the instruction can't be done, or goes on for long."""
        uc = self.uc
        one = instruction(rnd, self.is_protected)
        registers = self._registers(rnd, one)
        flags = 2 | rnd.getrandbits(12) & 0xCD5
        for name, value in zip(REGISTERS, registers):
            uc.reg_write(name, value)
        if not self.is_protected:
            for name, value in zip(SEGMENTS, REAL):
                uc.reg_write(name, value)
        uc.reg_write(x86.UC_X86_REG_EFLAGS, flags)
        uc.mem_write(CODE, one.code.ljust(CODE_BYTES, b"\0"))
        uc.ctl_remove_cache(CODE, CODE + CODE_BYTES)
        self.ports.clear()
        start = CODE if self.is_protected else OFFSET
        try:
            self._run(start, one)
            found = self._found(one, registers, flags)
        except UcError:
            found = None
        self.uc.mem_write(0, self.pattern)
        return found

    def _run(self, start: int, one: Instruction) -> None:
        base = 0 if self.is_protected else 16 * CODE_SEGMENT
        if not one.is_repeated:
            self.uc.emu_start(base + start, 0, 0, 1)
            return
        # Each turn is an instruction for Unicorn: it goes on to the instruction behind.
        end = base + start + len(one.prefixes) + 1
        self.uc.emu_start(base + start, end, 0, 1000)

    def _registers(self, rnd: random.Random, one: Instruction) -> tuple[int, ...]:
        def value() -> int:
            if self.is_protected and rnd.random() < 0.6:
                return rnd.randrange(0x20000, 0xE0000)
            return rnd.choice(
                (rnd.getrandbits(32), rnd.getrandbits(16), rnd.getrandbits(8), rnd.choice(VALUES))
            )

        found = [value() for _ in REGISTERS]
        found[4] = (0x90000 if self.is_protected else 0x8000) + 4 * rnd.randrange(0x100)
        if one.is_repeated:
            found[1] = rnd.randrange(40)
            if self.is_protected:
                found[6], found[7] = (rnd.randrange(0x20000, 0xE0000) for _ in range(2))
        return tuple(found)

    def _found(self, one: Instruction, registers: tuple[int, ...], flags: int) -> Sample | None:
        uc = self.uc
        changed = self._changed()
        if len(changed) > MOST_CHANGED:
            return None
        compared = (ALL | CONTROL) & ~undefined_flags(one, registers[1])
        segments = (0,) * 6 if self.is_protected else tuple(uc.reg_read(name) for name in SEGMENTS)
        place = uc.reg_read(x86.UC_X86_REG_EIP)
        if place in (CODE, OFFSET):
            # A fault: Unicorn leaves it to its caller.
            return None
        # In real mode the place is told as one of all memory.
        place -= 16 * segments[1]
        return Sample(
            kind=int(self.is_protected),
            registers=registers,
            flags=flags,
            code=one.code,
            after=tuple(uc.reg_read(name) & 0xFFFFFFFF for name in REGISTERS),
            flags_after=uc.reg_read(x86.UC_X86_REG_EFLAGS) & 0xFFFF,
            compared=compared,
            place=place & 0xFFFFFFFF,
            segments=segments,
            written=changed,
            ports=tuple(self.ports),
        )

    def _changed(self) -> tuple[tuple[int, int], ...]:
        """The bytes of memory that aren't those of the pattern any longer, but for the
        instruction's own."""
        memory = bytearray(self.uc.mem_read(0, MEMORY))
        found = []
        memory[CODE : CODE + CODE_BYTES] = self.pattern[CODE : CODE + CODE_BYTES]
        for part in range(0, MEMORY, PART):
            now = memory[part : part + PART]
            old = self.pattern[part : part + PART]
            if now != old:
                found += [(part + i, byte) for i, byte in enumerate(now) if byte != old[i]]
        return tuple(found)


def cases(count: int, seed: int) -> Iterator[Sample]:
    """So many cases, of which each third is of protected mode."""
    rnd = random.Random(seed)
    processors = (Processor(False), Processor(False), Processor(True))
    made = 0
    while made < count:
        found = processors[made % 3].case(rnd)
        if found is not None:
            made += 1
            yield found


def main() -> None:
    """Writes the cases."""
    count, seed = map(int, sys.argv[1:])
    for one in cases(count, seed):
        # Unicorn ends the whole process on some instructions: what it did before is there then.
        sys.stdout.buffer.write(one.packed())
        sys.stdout.buffer.flush()


if __name__ == "__main__":
    main()
