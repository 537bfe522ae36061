"""Instructions as Intel's manual has them, where Unicorn does otherwise or leaves them to its
caller.

The manual is the 80386 Programmer's Reference Manual: chapter 17 for each instruction, section 14.7
for the interrupts of real mode. An instruction stands at 1000:0100, the stack at 4000:8000.
"""

from __future__ import annotations

from itertools import product
from typing import Iterator, Mapping, NamedTuple

from .cases import (
    ADJUST,
    ALL,
    CARRY,
    CODE,
    CODE_SEGMENT,
    CONTROL,
    OFFSET,
    OVERFLOW,
    PARITY,
    REAL,
    SIGN,
    ZERO,
    Sample,
    pattern,
)
from .descriptors import FLAT_CODE, FLAT_DATA, descriptor


NAMES = ("eax", "ecx", "edx", "ebx", "esp", "ebp", "esi", "edi")
STACK = 0x8000
STACK_SEGMENT = 0x4000
DATA_SEGMENT = 0x2000
FLAGS = 0x0002
INTERRUPT = 0x0200
TRAP = 0x0100
EVERY = ALL | CONTROL


def word_at(place: int) -> int:
    """The word of the pattern at a place."""
    return pattern(place) | pattern(place + 1) << 8


def long_at(place: int) -> int:
    """The double word of the pattern at a place."""
    return word_at(place) | word_at(place + 2) << 16


class Left(NamedTuple):
    """What is left after an instruction: registers, place, flags, segments and words of the stack
    that are others."""

    length: int = 0
    registers: Mapping[str, int] = {}
    flags: int = FLAGS
    compared: int = EVERY
    place: int | None = None
    segments: Mapping[int, int] = {}
    pushed: tuple[tuple[int, int, int], ...] = ()


class Tables(NamedTuple):
    """Tables of descriptors for a case, how many instructions it has, and the number of a fault
    that it ends with."""

    segments: bytes = b""
    interrupts: bytes = b""
    instructions: int = 1
    fault: int | None = None


def case(
    code: str,
    given: Mapping[str, int],
    left: Left,
    flags: int = FLAGS,
    is_protected: bool = False,
    tables: Tables = Tables(),
) -> Sample:
    """A case of an instruction, whose bytes are spelt in hexadecimal."""
    before = {"esp": 0x90000 if is_protected else STACK, **given}
    after = {**before, **left.registers}
    start = CODE if is_protected else OFFSET
    return Sample(
        kind=2 if tables.segments else int(is_protected),
        registers=tuple(before.get(name, 0) for name in NAMES),
        flags=flags,
        code=bytes.fromhex(code),
        after=tuple(after.get(name, 0) for name in NAMES),
        flags_after=left.flags,
        compared=left.compared,
        place=start + left.length if left.place is None else left.place,
        segments=_segments(left, is_protected, bool(tables.segments)),
        written=_written(left),
        ports=(),
        instructions=tables.instructions,
        tables=tables.segments,
        fault=tables.fault,
        interrupts=tables.interrupts,
    )


def _segments(left: Left, is_protected: bool, has_tables: bool) -> tuple[int, ...]:
    """The segment registers after an instruction."""
    segments = [0] * 6 if is_protected else list(REAL)
    if has_tables:
        segments = [FLAT_CODE if index == 1 else FLAT_DATA for index in range(6)]
    for index, value in left.segments.items():
        segments[index] = value
    return tuple(segments)


def _written(left: Left) -> tuple[tuple[int, int], ...]:
    """The bytes that an instruction has changed by pushing, with their places."""
    written = {
        place + at: value >> 8 * at & 255
        for place, value, size in left.pushed
        for at in range(size)
    }
    return tuple((place, byte) for place, byte in sorted(written.items()) if byte != pattern(place))


def interrupted(
    number: int, flags: int, back: int, compared: int = EVERY, **registers: int
) -> Left:
    """What an interrupt of real mode leaves: flags, CS and IP on the stack, and both from its
    vector."""
    base = 16 * STACK_SEGMENT + STACK
    return Left(
        registers={"esp": STACK - 6, **registers},
        flags=flags & ~(INTERRUPT | TRAP),
        compared=compared,
        place=word_at(4 * number),
        segments={1: word_at(4 * number + 2)},
        pushed=((base - 2, flags, 2), (base - 4, CODE_SEGMENT, 2), (base - 6, back, 2)),
    )


def interrupts() -> Iterator[Sample]:
    """INT, INT3, INTO and BOUND; the faults of a divide and of an opcode that is none, which come
    back to it."""
    asked = FLAGS | INTERRUPT | CARRY
    yield case("CD21", {}, interrupted(0x21, asked, OFFSET + 2), asked)
    yield case("CC", {}, interrupted(3, FLAGS, OFFSET + 1))
    yield case("CE", {}, interrupted(4, FLAGS | OVERFLOW, OFFSET + 1), FLAGS | OVERFLOW)
    yield case("CE", {}, Left(1))
    # BOUND: the bounds are words of the data segment.
    low = 16 * DATA_SEGMENT + 0x10
    place = next(
        at
        for at in range(low, low + 4096)
        if word_at(at) < word_at(at + 2) < 0x8000 and word_at(at + 2) - word_at(at) > 2
    )
    offset = place - 16 * DATA_SEGMENT
    within = word_at(place) + 1
    above = word_at(place + 2) + 4
    bound = "6206" + offset.to_bytes(2, "little").hex()
    yield case(bound, {"eax": within}, Left(4))
    yield case(bound, {"eax": above}, interrupted(5, FLAGS, OFFSET, eax=above))
    for code in ("F6F1", "F7F1", "66F7F1", "F6F9", "F7F9", "66F7F9"):
        yield case(code, {"eax": 7}, interrupted(0, FLAGS, OFFSET, CONTROL))
    yield case("D400", {"eax": 7}, interrupted(0, FLAGS, OFFSET, CONTROL))
    yield case("F7F9", {"edx": 0x8000, "ecx": 0xFFFF}, interrupted(0, FLAGS, OFFSET, CONTROL))
    least = {"edx": 0x80000000, "ecx": 0xFFFFFFFF}
    yield case("66F7F9", least, interrupted(0, FLAGS, OFFSET, CONTROL))
    yield case("0FFF", {}, interrupted(6, FLAGS, OFFSET))


def returns() -> Iterator[Sample]:
    """IRET; RET by more than half of a segment; PUSH SP; CALL SP; HLT."""
    top = 16 * STACK_SEGMENT + STACK
    # Of the flags that it takes, those of a 386 in real mode.
    yield case(
        "CF",
        {},
        Left(
            registers={"esp": STACK + 6},
            flags=word_at(top + 4),
            place=word_at(top),
            segments={1: word_at(top + 2)},
        ),
    )
    yield case(
        "C2EFE1",
        {},
        Left(registers={"esp": 0x90004 + 0xE1EF}, place=long_at(0x90000)),
        is_protected=True,
    )
    yield case("54", {}, Left(1, {"esp": STACK - 2}, pushed=((top - 2, STACK, 2),)))
    yield case(
        "FFD4",
        {},
        Left(registers={"esp": STACK - 2}, place=STACK, pushed=((top - 2, OFFSET + 2, 2),)),
    )
    yield case("F4", {}, Left(1))


def frames() -> Iterator[Sample]:
    """ENTER by a nest, and by operands of another size than the stack's; BP goes by the size of
    operands."""
    base = 16 * STACK_SEGMENT
    top = 16 * STACK_SEGMENT + STACK
    given = {"ebp": 0x7000}
    old = [
        (top - 2, 0x7000, 2),
        (top - 4, word_at(base + 0x6FFE), 2),
        (top - 6, word_at(base + 0x6FFC), 2),
    ]
    left = Left(
        4, {"ebp": STACK - 2, "esp": STACK - 8 - 16}, pushed=(*old, (top - 8, STACK - 2, 2))
    )
    yield case("C8100003", given, left)
    wide = (
        (top - 4, 0x10007000, 4),
        (top - 8, long_at(base + 0x6FFC), 4),
        (top - 12, STACK - 4, 4),
    )
    yield case(
        "66C8100002",
        {"ebp": 0x10007000},
        Left(5, {"ebp": STACK - 4, "esp": STACK - 12 - 16}, pushed=wide),
    )
    yield case(
        "66C8100000",
        {"ebp": 0x12345678},
        Left(
            5,
            {"ebp": 0x1234FFFE, "esp": 0x90000 - 2 - 16},
            pushed=((0x8FFFE, 0x5678, 2),),
        ),
        is_protected=True,
    )


def others() -> Iterator[Sample]:
    """Opcodes that are others' doubles, prefixes twice, LOCK, shifts by 32 and more."""
    for carry in (0, CARRY):
        yield case("D6", {}, Left(1, {"eax": 0xFF if carry else 0}, FLAGS | carry), FLAGS | carry)
    yield case("82C001", {"eax": 1}, Left(3, {"eax": 2}))
    yield case("666640", {"eax": 0xFFFF}, Left(3, {"eax": 0x10000}, FLAGS | PARITY | ADJUST))
    place = 16 * DATA_SEGMENT + 0x40
    raised = word_at(place) + 1 & 0xFFFF
    yield case("F0FF064000", {}, Left(5, compared=CARRY | CONTROL, pushed=((place, raised, 2),)))
    set_flags = FLAGS | CARRY | ZERO | SIGN
    yield case("D3E0", {"eax": 1, "ecx": 32}, Left(2, flags=set_flags), set_flags)
    yield case("D3E0", {"eax": 1, "ecx": 33}, Left(2, {"eax": 2}, compared=ALL & ~ADJUST))


# A small segment, one that grows down, and code of 16 bits: what a case has beside flat segments.
BASE = 0x20000
SMALL = 0x18
DOWN = 0x20
NARROW_CODE = 0x28
SEGMENTS = bytes(8) + b"".join(
    (
        descriptor(0, 0xFFFFF, 0x9B, 0xC),
        descriptor(0, 0xFFFFF, 0x93, 0xC),
        descriptor(BASE, 0xFF, 0x93, 4),
        descriptor(BASE, 0xFFF, 0x97, 4),
        descriptor(0x10000, 0xFFFF, 0x9B, 0),
    )
)


def limits() -> Iterator[Sample]:
    """Reads and writes at a segment's end, of one that grows down, and of none."""
    for selector, read, place, is_inside in (
        (SMALL, "268B17", 0xFC, True),
        (SMALL, "268B17", 0xFD, False),
        (SMALL, "268A17", 0xFF, True),
        (SMALL, "268A17", 0x100, False),
        (SMALL, "268917", 0xFD, False),
        (SMALL, "26668B17", 0xFE, True),
        (SMALL, "26668B17", 0xFF, False),
        (SMALL, "268B17", 0xFFFFFFFE, False),
        (DOWN, "268B17", 0x1000, True),
        (DOWN, "268B17", 0xFFD, False),
        (DOWN, "268A17", 0xFFF, False),
        (0, "268A17", 0, False),
        (3, "268A17", 0x100, False),
    ):
        given = {"eax": selector, "edi": place}
        bytes_read = 1 if "8A" in read else 2 if "66" in read else 4
        value = long_at(BASE + place) & (1 << 8 * bytes_read) - 1
        left = (
            Left(2 + len(read) // 2, {"edx": value}, segments={0: selector})
            if is_inside
            else Left()
        )
        tables = Tables(SEGMENTS, instructions=2, fault=None if is_inside else 13)
        yield case(f"8EC0{read}", given, left, is_protected=True, tables=tables)


# What the flags are when an interrupt is asked for; where its gate leads; and where the stack
# begins there.
ASKED = FLAGS | INTERRUPT | TRAP | CARRY
GATED = 0x23456
TOP_OF_STACK = 0x90000


def _gate(kind: int, selector: int = FLAT_CODE) -> bytes:
    """A table of interrupts whose gate for interrupt 21 is of this kind."""
    place = GATED.to_bytes(4, "little")
    front = bytes(8 * 0x21) + place[:2] + selector.to_bytes(2, "little")
    return front + bytes([0, kind]) + place[2:]


def _gated(kind: int, code: int, back: int, old: int) -> Left:
    """What an interrupt leaves by a gate of this kind, to code of a segment: it comes back to a
    place of an old one."""
    size = 4 if kind & 8 else 2
    values = ASKED, old, back
    return Left(
        registers={"esp": TOP_OF_STACK - 3 * size},
        flags=ASKED & ~TRAP if kind & 1 else ASKED & ~(TRAP | INTERRUPT),
        compared=EVERY,
        place=GATED if size == 4 else GATED & 0xFFFF,
        segments={1: code},
        pushed=tuple(
            (TOP_OF_STACK - size * number, value, size) for number, value in enumerate(values, 1)
        ),
    )


def gates() -> Iterator[Sample]:
    """INT by gates of both widths, which keep interrupts or not."""
    for kind, selector in product((0x8E, 0x8F, 0x86, 0x87), (FLAT_CODE, NARROW_CODE)):
        wanted = _gated(kind, selector, CODE + 2, FLAT_CODE)
        yield case("CD21", {}, wanted, ASKED, True, Tables(SEGMENTS, _gate(kind, selector)))


def gates_of_narrow_code() -> Iterator[Sample]:
    """The same from code of 16 bits, to which a jump leads first."""
    jump = f"EA{(OFFSET + 7).to_bytes(4, 'little').hex()}{NARROW_CODE:02X}00CD21"
    for kind in (0x8E, 0x86):
        wanted = _gated(kind, FLAT_CODE, OFFSET + 9, NARROW_CODE)
        yield case(jump, {}, wanted, ASKED, True, Tables(SEGMENTS, _gate(kind), 2))


def bad_gates() -> Iterator[Sample]:
    """INT by a gate that is absent, or none, or past the table's end."""
    for interrupts_of, fault in (
        (_gate(0x0E), 11),
        (_gate(0x8C), 13),
        (_gate(0x93), 13),
        (_gate(0x8E)[:-1], 13),
        (_gate(0x8E, 0), 13),
        (_gate(0x8E, FLAT_DATA), 13),
    ):
        yield case("CD21", {}, Left(), ASKED, True, Tables(SEGMENTS, interrupts_of, 1, fault))


def cases() -> list[Sample]:
    """All of them."""
    parts = (
        interrupts,
        returns,
        frames,
        others,
        limits,
        gates,
        gates_of_narrow_code,
        bad_gates,
    )
    return [sample for part in parts for sample in part()]
