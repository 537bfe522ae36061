"""Inputs: scripts and texts that are at hand, changed at random; and new ones.

Their steps have numbers at random, and those at the ends of what a step may hold.
"""

from random import Random
from typing import NamedTuple, Optional, Sequence

from zaklimot.format import (
    END,
    FIRST_LINE,
    FORMS,
    MOST_COUNT,
    PLANE_BYTES,
    REGISTERS,
    REPEAT,
    SHOWN,
    Block,
    Field,
    Script,
    Step,
    encode,
)
from zaklimot.format.script import Item

# So many steps has a new script at most, and so many changes are made to one that is at hand.
MOST_STEPS = 60
MOST_CHANGES = 8
# A longer input is cut: a script that is at hand may be long, and a change may double a part of it.
MOST_BYTES = 1 << 16
# Words and bytes that a text or a script may get in the place of others.
HOSTILE_BYTES = (0x00, 0xFF, 0x0A, 0x0D, 0x20, 0x3B, 0x7F, 0x80, 0x09, 0x0C, 0x0E, 0x02)
HOSTILE_WORDS = (
    b"0",
    b"00",
    b"FF",
    b"100",
    b"FFFF",
    b"10000",
    b"FFFFFFFF",
    b"100000000",
    b"4294967296",
    b"99999999999999999999",
    b"ax=",
    b"=",
    b"block",
    b"frame",
    b"show",
    b"int",
    b"-1",
    b"0x3C4",
    b";",
    b"\r",
    b"\x00",
    b"version 2",
    b"repeat",
    b"repeat 2",
    b"end",
    b"65536",
)
DUMPED = FORMS["show plane"].fields[-1]

# The steps of ports and memory.
CYCLES = [form for form in FORMS.values() if form.opcode < FORMS["int"].opcode]
# How often a block that has steps is taken; and so many short steps mean more than a script may,
# taken as often as can be.
COUNTS = (1, 2, 3, 7)
TOO_MANY = 257

BYTES = (0x00, 0xFF, 0x01, 0x80, 0x55, 0x20)
PORTS = (
    0x3C0,
    0x3C0,
    0x3C2,
    0x3C4,
    0x3C5,
    0x3C6,
    0x3C7,
    0x3C8,
    0x3C9,
    0x3CE,
    0x3CF,
    0x3D4,
    0x3D5,
    0x3DA,
    0x3B4,
    0x3BA,
)
# Ports whose word is an index and its data.
PAIRS = (0x3C4, 0x3CE, 0x3D4, 0x3B4)
ADDRESSES = (0x9FFFF, 0xA0000, 0xAFFFF, 0xB0000, 0xB7FFF, 0xB8000, 0xBFFFF, 0xC0000, 0xFFFFFFFF, 0)
FUNCTIONS = (
    0,
    0,
    1,
    2,
    3,
    5,
    6,
    7,
    8,
    9,
    0x0A,
    0x0C,
    0x0D,
    0x0E,
    0x0F,
    0x10,
    0x10,
    0x11,
    0x12,
    0x13,
    0x1A,
)
MODES = (0x03, 0x07, 0x0D, 0x10, 0x12, 0x13)
PALETTE = (0x00, 0x01, 0x02, 0x03, 0x07, 0x08, 0x09, 0x10, 0x12, 0x15, 0x17, 0x18, 0x19)
GLYPHS = (0x10, 0x11, 0x12, 0x14)
# Heights of characters, in BH.
HEIGHTS = (0x0800, 0x0E00, 0x1000)
DOTS = (0, 1, 8, 9, 899, 900, 404_100, 16_777_216, 16_777_217, 0xFFFFFFFF)
# So long are blocks at random, at most.
MOST_BLOCK = 40


class Feed(NamedTuple):
    """What the program is fed with: the bytes of a script, or those of a text."""

    is_text: bool
    data: bytes
    made: str


def _change(random: Random, data: bytearray, is_text: bool) -> None:
    """Changes one place: a bit, a byte, some bytes that come in, go or come once more, the end, or
    a word of a text."""
    at = random.randrange(len(data))
    kind = random.randrange(8 if is_text else 6)
    part = slice(at, at + random.choice((1, 2, 3, 5, 11, 100, 1000)))
    behind = random.randint(0, len(data))
    if kind == 0:
        data[at] ^= 1 << random.randrange(8)
    elif kind == 1:
        data[at] = random.choice((random.choice(HOSTILE_BYTES), random.getrandbits(8)))
    elif kind == 2:
        data[behind:behind] = random.randbytes(random.choice((1, 1, 2, 5, 40)))
    elif kind == 3:
        del data[part]
    elif kind == 4:
        data[behind:behind] = data[part]
    elif kind == 5:
        del data[at:]
    else:
        words = data.split(b" ")
        words[random.randrange(len(words))] = bytearray(random.choice(HOSTILE_WORDS))
        data[:] = b" ".join(words)


def _changed(random: Random, data: bytes, others: Sequence[bytes], is_text: bool) -> bytes:
    """A script or a text, changed here and there; perhaps with the end of another."""
    result = bytearray(data)
    if random.random() < 0.2:
        other = random.choice(others)
        result[random.randint(0, len(result)) :] = other[random.randint(0, len(other)) :]
    for _ in range(random.randint(1, MOST_CHANGES)):
        if result:
            _change(random, result, is_text)
    return bytes(result)


def _new(random: Random, is_text: bool) -> bytes:
    """A script of either version: steps at random, and in version 2 blocks of them."""
    version = random.choice((1, 2))
    items: tuple[Item, ...] = tuple(
        block(random) if version == 2 and random.random() < 0.2 else step(random)
        for _ in range(random.randint(1, MOST_STEPS))
    )
    return _text_of(Script(items, version), random) if is_text else encode(Script(items, version))


def _text_of(script: Script, random: Random) -> bytes:
    """A script as a text, not as `vga dis` prints it, but spelled as people may."""
    lines = [FIRST_LINE] if script.version == 2 else []
    for item in script.items:
        if isinstance(item, Block):
            lines += [f"{REPEAT} {item.count}", *(spelled(one, random) for one in item.steps), END]
        else:
            lines.append(spelled(item, random))
    return "".join(f"{line}\n" for line in lines).encode("ascii")


def make(random: Random, texts: Sequence[bytes], scripts: Sequence[bytes]) -> Feed:
    """An input, by a choice at random of the way in which it is made."""
    is_text = random.random() < 0.5
    at_hand = texts if is_text else scripts
    kind = random.random()
    if kind < 0.4:
        data = _new(random, is_text)
        made = "new"
    elif kind < 0.6:
        data = _changed(random, _new(random, is_text), at_hand, is_text)
        made = "new, changed"
    elif kind < 0.97:
        data = _changed(random, random.choice(at_hand), at_hand, is_text)
        made = "changed"
    else:
        data = random.randbytes(random.choice((0, 1, 5, 100, 5000)))
        made = "random"
    return Feed(is_text, data[:MOST_BYTES], f"{made} {'text' if is_text else 'script'}")


def _number(random: Random, ends: tuple[int, ...], bits: int) -> int:
    """One of some numbers, or any of so many bits."""
    return random.choice(ends) if random.random() < 0.7 else random.getrandbits(bits)


def _field(random: Random, field: Field, is_word: bool) -> int:
    """A field of a cycle: a port, an address, or a value that is written."""
    if field.name == "PORT":
        return _number(random, PAIRS if is_word else PORTS, 16)
    if field.name == "ADDRESS":
        return (
            random.randrange(0xA0000, 0xC0000)
            if random.random() < 0.6
            else _number(random, ADDRESSES, 32)
        )
    return (
        random.getrandbits(8) << 8 | random.randrange(0x20)
        if field.size == 2
        else _number(random, BYTES, 8)
    )


def _call(random: Random) -> Step:
    function = random.choice(FUNCTIONS) if random.random() < 0.95 else random.getrandbits(8)
    part = _number(
        random, {0: MODES, 0x10: PALETTE, 0x11: GLYPHS, 0x13: (0, 1, 2, 3)}.get(function, BYTES), 8
    )
    bx, dx = (random.getrandbits(16) & random.choice((0x0F0F, 0x7FF, 0xFFFF)) for _ in range(2))
    cx = random.choice((0, 1, random.randrange(12), random.randrange(2000), random.getrandbits(16)))
    if function == 0x11:
        bx, dx = _number(random, HEIGHTS, 16), _number(random, BYTES, 8)
    taken = {(0x10, 0x02): 17, (0x10, 0x12): 3 * cx, (0x11, 0x10): cx * (bx >> 8)}
    needed = taken.get((function, part), cx << (part >> 1 & 1))
    takes_block = function in (0x10, 0x11, 0x13)
    length = needed if takes_block and needed <= 4096 else random.randrange(MOST_BLOCK)
    has_block = random.random() < (0.95 if takes_block else 0.05)
    return Step(
        "int", (function << 8 | part, bx, cx, dx), random.randbytes(length) if has_block else b""
    )


def _dump(random: Random) -> Step:
    form = random.choice(list(SHOWN.values()))
    if DUMPED in form.fields:
        offset = random.getrandbits(16)
        return Step(
            form.name,
            (
                random.randrange(4),
                offset,
                random.randint(1, min(DUMPED.most, PLANE_BYTES - offset)),
            ),
        )
    return Step(form.name, tuple(random.randint(field.least, field.most) for field in form.fields))


def _cycle(random: Random) -> Step:
    form = random.choice(CYCLES)
    return Step(
        form.name, tuple(_field(random, field, form.name.endswith("w")) for field in form.fields)
    )


def step(random: Random) -> Step:
    """A step."""
    kind = random.random()
    if kind < 0.6:
        return _cycle(random)
    if kind < 0.85:
        return _call(random)
    if kind < 0.92:
        return Step("advance", (_number(random, DOTS, 11),))
    return Step("frame") if kind < 0.95 else _dump(random)


def block(random: Random) -> Block:
    """A block of a few steps that is taken a few times, or of none that is taken often."""
    steps = [step(random) for _ in range(random.randrange(5))]
    count = random.choice(COUNTS) if steps else random.randint(1, MOST_COUNT)
    if random.random() < 0.03:
        steps = [Step("frame")] * TOO_MANY
        count = MOST_COUNT
    return Block(count, tuple(steps))


def spelled(given: Step, random: Optional[Random] = None) -> str:
    """A step as a line with as few digits as will do, where `vga dis` prints all; letters are of
    either case."""
    texts = [field.shown(number) for field, number in zip(given.form.fields, given.numbers)]
    if given.form.has_block:
        texts = [f"{name}={text}" for name, text in zip(REGISTERS, texts)]
        texts += ["block", given.block.hex()] if given.block else []
    line = " ".join([given.name, *texts])
    return line.lower() if random is not None and random.random() < 0.2 else line
