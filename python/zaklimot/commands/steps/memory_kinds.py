"""Elements of display memory: writes by write mode, reads by read mode, each by the three ways to
spread addresses over planes; and words."""

from functools import partial

from zaklimot.format import Step
from zaklimot.commands.explain.ports import ENABLE_MEMORY, WINDOWS

from .adapter import SteppedCard
from .chance import Chance
from .parts import Parts
from .wishes import ElementKind, Wish

PARTS = ("misc", "seq", "gfx", "latches", "planes")
CHAIN_4 = "chain 4"
ODD_EVEN = "odd/even"
PLANAR = "planar"
SPREADS = (CHAIN_4, ODD_EVEN, PLANAR)
# Bits of miscellaneous output that change nothing here.
OTHER_BITS = 0xED
# Bits of memory mode: odd/even is off, and chain 4. Of graphics mode: read compare, odd/even, and
# 256 colours. Of miscellaneous: graphics, and chain odd/even.
ODD_EVEN_OFF = 0x04
CHAIN = 0x08
READ_COMPARE = 0x08
ODD_EVEN_READ = 0x10
PACKED = 0x40
GRAPHICS = 0x01
CHAIN_ODD_EVEN = 0x02
MOST_ADDRESS = 0xFFFFFFFF
# How many of the three bits of odd/even are set: all of them every other time.
ALL_BITS = 0b111


def _odd_even(chance: Chance, spread: str) -> int:
    """Which of the three bits of odd/even are on: that of writes, of reads, and of offsets."""
    if spread == PLANAR:
        return 0
    if spread == CHAIN_4:
        return chance.bits(3)
    return ALL_BITS if chance.one_in(2) else 1 + chance.below(ALL_BITS)


def registers(chance: Chance, spread: str, write_mode: int, read_mode: int) -> Parts:
    """Registers by which memory is written and read."""
    bits = _odd_even(chance, spread)
    memory = (0 if bits & 1 else ODD_EVEN_OFF) | (CHAIN if spread == CHAIN_4 else 0)
    has_others = chance.one_in(4)
    mode = write_mode | read_mode * READ_COMPARE | (ODD_EVEN_READ if bits & 2 else 0)
    mode |= PACKED if has_others and chance.one_in(2) else 0
    misc = chance.bits(2) << 2 | (CHAIN_ODD_EVEN if bits & 4 else 0)
    misc |= GRAPHICS if chance.one_in(2) else 0
    others = [chance.bits(2), chance.bits(6) & 0x3D, chance.bits(6)] if has_others else [3, 1, 0]
    other_bits = chance.bits(8) & OTHER_BITS if has_others else 1
    return {
        "misc": other_bits | (0 if chance.one_in(40) else ENABLE_MEMORY),
        "seq": [others[0], others[1], chance.cut(4), others[2], memory | 2 * chance.bits(1)],
        "gfx": [
            chance.cut(4),
            chance.cut(4),
            chance.cut(4),
            chance.bits(5) if chance.one_in(2) else 0,
            chance.bits(2),
            mode,
            misc,
            chance.cut(4),
            0xFF if chance.one_in(4) else chance.byte(),
        ],
        "latches": chance.many(4),
    }


def address(chance: Chance, gfx: list[int], is_word: bool = False) -> int:
    """An address: in the window more often than not, or at its ends, or beside it."""
    first, size = WINDOWS[gfx[6] >> 2]
    kind = chance.below(20)
    if kind >= 5:
        return first + chance.below(size)
    if kind == 4:
        # Where offsets wrap from FFFF to 0, in the window of 128 KiB.
        return first + size // 2 + chance.among((-2, -1, 0, 1))
    edges = (first, first + 1, first + size - 1, first + size - 2 + 2 * is_word)
    far = (first - 1 - chance.bits(16), first + size + chance.bits(16))
    beside: tuple[int, ...] = (first - 1, first + size, *far)
    if is_word:
        # A byte of it is in the window, or at address 0.
        beside = (*beside, first - 1, MOST_ADDRESS)
    places = (edges, edges, edges, (*beside, 0, MOST_ADDRESS))[kind]
    return chance.among(places)


def offsets_near(place: int, seq: list[int], gfx: list[int]) -> list[int]:
    """The offsets that an address may lead to, by any of the three ways, in order."""
    offset = place - WINDOWS[gfx[6] >> 2].first & 0xFFFF
    ways = {offset, offset & 0xFFFE, offset & 0xFFFC}
    # Chain 4 takes every fourth byte of a plane. An adapter that packs them goes to another place.
    if seq[4] & CHAIN:
        ways.add(offset >> 2)
    return sorted(ways)


def _with_places(chance: Chance, state: Parts, *addresses: int) -> Parts:
    """The state with bytes of the planes where these addresses may lead."""
    found = {
        offset for place in addresses for offset in offsets_near(place, state["seq"], state["gfx"])
    }
    return {**state, "planes": [[offset, *chance.many(4)] for offset in sorted(found)]}


def _write(chance: Chance, _: SteppedCard, mode: int, spread: str) -> Wish:
    state = registers(chance, spread, mode, chance.bits(1))
    place = address(chance, state["gfx"])
    name = f"write mode {mode}, {spread}, map mask {state['seq'][2]}"
    return Wish(name, _with_places(chance, state, place), Step("put", (place, chance.byte())))


def _read(chance: Chance, _: SteppedCard, mode: int, spread: str) -> Wish:
    state = registers(chance, spread, chance.bits(2), mode)
    place = address(chance, state["gfx"])
    picked = f"read map {state['gfx'][4]}" if mode == 0 else f"compare {state['gfx'][2]}"
    made = _with_places(chance, state, place)
    if mode and chance.one_in(2):
        _match(chance, made)
    return Wish(f"read mode {mode}, {spread}, {picked}", made, Step("get", (place,)))


def _match(chance: Chance, state: Parts) -> None:
    """Gives some bits of each place the colour that is compared: of random ones few match."""
    colour = [0xFF * (state["gfx"][2] >> plane & 1) for plane in range(4)]
    for place in state["planes"]:
        bits = chance.byte()
        pairs = zip(place[1:], colour)
        place[1:] = [byte & ~bits | wanted & bits for byte, wanted in pairs]


def _word(chance: Chance, _: SteppedCard, is_write: bool) -> Wish:
    spread = chance.among(SPREADS)
    state = registers(chance, spread, chance.bits(2), chance.bits(1))
    place = address(chance, state["gfx"], is_word=True)
    made = _with_places(chance, state, place, place + 1)
    if is_write:
        value = chance.byte() << 8 | chance.byte()
        name = f"write of a word, write mode {state['gfx'][5] & 3}, {spread}"
        return Wish(name, made, Step("putw", (place, value)))
    name = f"read of a word, read mode {state['gfx'][5] >> 3 & 1}, {spread}"
    return Wish(name, made, Step("getw", (place,)))


def _file(what: str, mode: int, spread: str) -> str:
    return f"{what}-mode-{mode}-{spread.replace(' ', '-').replace('/', '-')}"


def _kind(what: str, mode: int, spread: str) -> ElementKind:
    make = partial(_write if what == "write" else _read, mode=mode, spread=spread)
    return ElementKind(_file(what, mode, spread), f"{what} mode {mode}, {spread}", PARTS, make)


def memory_kinds() -> list[ElementKind]:
    """All kinds of memory."""
    return [
        *(_kind("write", mode, spread) for mode in range(4) for spread in SPREADS),
        *(_kind("read", mode, spread) for mode in range(2) for spread in SPREADS),
        ElementKind("write-words", "words that are written", PARTS, partial(_word, is_write=True)),
        ElementKind("read-words", "words that are read", PARTS, partial(_word, is_write=False)),
    ]
