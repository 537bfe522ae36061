"""The rules of HOST-PATH.md that elements of memory show."""

from functools import partial

from .seen import READS, WRITES, Branch, SeenElement, ShownRule

PAGE = "docs/HOST-PATH.md#"
ANY = (*WRITES, *READS)
FUNCTIONS = ("replace", "AND", "OR", "XOR")


def _is_done(e: SeenElement) -> bool:
    return not e.refused


def _map(e: SeenElement, number: int, first: int = 0, size: int = 1 << 17) -> bool:
    """Whether an address is in a window, and in this part of it."""
    at = e.address - e.window.first
    return _is_done(e) and e.gfx[6] >> 2 == number and first <= at < first + size


def _end(e: SeenElement, offset: int) -> bool:
    """Whether the address is so far from the window's first, or after its last."""
    first, size = e.window
    return bool(e.misc & 2) and e.address == (
        first + offset if offset >= 0 else first + size + offset
    )


def _beside(e: SeenElement, is_before: bool) -> bool:
    """Whether the address is before the window, or after it, in memory that is decoded."""
    first, size = e.window
    is_there = e.address < first if is_before else e.address >= first + size
    return bool(e.misc & 2) and is_there and e.refused == "NotDecoded"


def _chain(e: SeenElement) -> bool:
    return bool(e.seq[4] & 8)


def _is_partial(mask: int) -> bool:
    """Whether a mask of eight bits has ones and zeros."""
    return mask not in (0, 0xFF)


def _mode(e: SeenElement, *modes: int) -> bool:
    """Whether a write is done in one of these modes and reaches a plane."""
    return _is_done(e) and e.write_mode in modes and bool(e.reached)


def _does(e: SeenElement, mode: int, function: int) -> bool:
    """Whether a write in this mode has this function, and bits for it."""
    return _mode(e, mode) and e.function == function and e.gfx[8] != 0


def _functions(mode: int) -> dict[str, Branch]:
    return {
        f"mode {mode}, {name}": partial(_does, mode=mode, function=number)
        for number, name in enumerate(FUNCTIONS)
    }


def _compares(e: SeenElement) -> bool:
    return _is_done(e) and bool(e.gfx[5] & 8)


def _picks(e: SeenElement) -> bool:
    return _is_done(e) and not e.gfx[5] & 8


def _combination(e: SeenElement, bits: int) -> bool:
    """Whether the three bits of odd/even are these: of writes, reads and offsets."""
    own = (not e.seq[4] & 4) | bool(e.gfx[5] & 0x10) << 1 | bool(e.gfx[6] & 2) << 2
    return _is_done(e) and not _chain(e) and own == bits


RULES = (
    ShownRule(
        "enable RAM",
        PAGE + "the-registers-that-it-uses",
        ANY,
        {
            "it is 0: refused": lambda e: not e.misc & 2 and e.refused == "NotDecoded",
            "it is 1: done": lambda e: e.misc & 2 and _is_done(e),
        },
        ("refused",),
    ),
    ShownRule(
        "no other register stops memory",
        PAGE + "the-registers-that-it-uses",
        ANY,
        {
            "reset": lambda e: _is_done(e) and e.seq[0] != 3,
            "clocking mode": lambda e: _is_done(e) and e.seq[1] & 0x3C,
            "clock, page and sync of miscellaneous output": lambda e: _is_done(e) and e.misc & 0xEC,
            "extended memory is 0": lambda e: _is_done(e) and not e.seq[4] & 2,
            "256 colours": lambda e: _is_done(e) and e.gfx[5] & 0x40,
        },
        ("refused",),
    ),
    ShownRule(
        "windows",
        PAGE + "windows",
        ANY,
        {
            "128 KiB, lower half": partial(_map, number=0, size=0x10000),
            "128 KiB, upper half": partial(_map, number=0, first=0x10000),
            "64 KiB": partial(_map, number=1),
            "32 KiB at B0000": partial(_map, number=2),
            "32 KiB at B8000": partial(_map, number=3),
            "first address": partial(_end, offset=0),
            "last address": partial(_end, offset=-1),
            "before the window": partial(_beside, is_before=True),
            "after the window": partial(_beside, is_before=False),
        },
        (
            "refused",
            "planes",
            "latches",
        ),
    ),
    ShownRule(
        "a write keeps the latches",
        PAGE + "planes-and-latches",
        WRITES,
        {"done": lambda e: _is_done(e) and any(e.latches) and not e.has_changed("latches")},
        ("latches",),
    ),
    ShownRule(
        "a read loads all latches",
        PAGE + "planes-and-latches",
        READS,
        {
            "they change": lambda e: _is_done(e) and e.has_changed("latches"),
            "refused: they stay": lambda e: e.refused and any(e.latches),
        },
        ("latches",),
    ),
    ShownRule(
        "write mode 0: set/reset",
        PAGE + "a-write-bit-by-bit",
        WRITES,
        {
            "enabled for a plane that is reached": lambda e: _mode(e, 0) and e.gfx[1] & e.reached,
            "not enabled for one": lambda e: _mode(e, 0) and ~e.gfx[1] & e.reached,
        },
        ("planes",),
    ),
    ShownRule(
        "the byte is rotated",
        PAGE + "a-write-bit-by-bit",
        WRITES,
        {
            "write mode 0": lambda e: _mode(e, 0) and e.gfx[3] & 7 and ~e.gfx[1] & e.reached,
            "write mode 3": lambda e: _mode(e, 3) and e.gfx[3] & 7,
            "not in write mode 2": lambda e: _mode(e, 2) and e.gfx[3] & 7,
        },
        ("planes",),
    ),
    ShownRule(
        "write mode 1 stores the latches",
        PAGE + "a-write-bit-by-bit",
        WRITES,
        {
            "with any registers": lambda e: _mode(e, 1),
            "whatever the bit mask is": lambda e: _mode(e, 1) and e.gfx[8] != 0xFF,
            "whatever set/reset is": lambda e: _mode(e, 1) and e.gfx[1] & e.reached,
            "whatever the function is": lambda e: _mode(e, 1) and e.function,
        },
        ("planes",),
    ),
    ShownRule(
        "write mode 2: a bit of the byte for each plane",
        PAGE + "a-write-bit-by-bit",
        WRITES,
        {
            "it is 1": lambda e: _mode(e, 2) and e.numbers[1] & e.reached,
            "it is 0": lambda e: _mode(e, 2) and ~e.numbers[1] & e.reached,
            "set/reset has no part": lambda e: _mode(e, 2) and e.gfx[1] & e.reached,
        },
        ("planes",),
    ),
    ShownRule(
        "write mode 3: the byte narrows the mask",
        PAGE + "a-write-bit-by-bit",
        WRITES,
        {
            "bit mask FF": lambda e: _mode(e, 3) and e.gfx[8] == 0xFF,
            "both masks": lambda e: _mode(e, 3)
            and _is_partial(e.gfx[8])
            and _is_partial(e.value & 0xFF),
            "enable set/reset is ignored": lambda e: _mode(e, 3) and ~e.gfx[1] & e.reached,
        },
        ("planes",),
    ),
    ShownRule(
        "the bit mask",
        PAGE + "a-write-bit-by-bit",
        WRITES,
        {
            "a part of the bits": lambda e: _mode(e, 0, 2, 3) and _is_partial(e.gfx[8]),
            "all bits": lambda e: _mode(e, 0, 2, 3) and e.gfx[8] == 0xFF,
            "no bit: the latches are stored": lambda e: _mode(e, 0, 2, 3) and e.gfx[8] == 0,
        },
        ("planes",),
    ),
    ShownRule(
        "the function select",
        PAGE + "a-write-bit-by-bit",
        WRITES,
        {**_functions(0), **_functions(2), **_functions(3)},
        ("planes",),
    ),
    ShownRule(
        "read mode 0",
        PAGE + "a-read",
        READS,
        {"done": _picks},
        ("answer",),
    ),
    ShownRule(
        "read mode 1: colour compare",
        PAGE + "a-read",
        READS,
        {
            "no plane is compared": lambda e: _compares(e) and e.gfx[7] == 0,
            "all are": lambda e: _compares(e) and e.gfx[7] == 15,
            "some are": lambda e: _compares(e) and 0 < e.gfx[7] < 15,
            "no bit matches": lambda e: _compares(e) and e.answer == 0,
            "some match": lambda e: _compares(e) and _is_partial(e.answer),
            "all match": lambda e: _compares(e) and e.answer == 0xFF and e.gfx[7],
        },
        ("answer",),
    ),
    ShownRule(
        "the offset in a plane",
        PAGE + "the-three-ways-to-spread-addresses-over-planes",
        ANY,
        {
            "chain 4, a byte of a plane's four": lambda e: _is_done(e)
            and _chain(e)
            and not e.place & 3,
            "chain 4 clears two bits": lambda e: _is_done(e) and _chain(e) and e.place & 3,
            "chain odd/even clears bit 0": lambda e: _is_done(e)
            and not _chain(e)
            and e.gfx[6] & 2
            and e.place & 1,
            "chain odd/even, even": lambda e: _is_done(e)
            and not _chain(e)
            and e.gfx[6] & 2
            and not e.place & 1,
            "every address its own": lambda e: _is_done(e) and not _chain(e) and not e.gfx[6] & 2,
        },
        (
            "planes",
            "latches",
        ),
    ),
    ShownRule(
        "the planes that a write reaches",
        PAGE + "the-three-ways-to-spread-addresses-over-planes",
        WRITES,
        {
            "chain 4, plane 0": lambda e: _is_done(e) and _chain(e) and e.reached == 1,
            "chain 4, plane 1": lambda e: _is_done(e) and _chain(e) and e.reached == 2,
            "chain 4, plane 2": lambda e: _is_done(e) and _chain(e) and e.reached == 4,
            "chain 4, plane 3": lambda e: _is_done(e) and _chain(e) and e.reached == 8,
            "chain 4, not in the map mask": lambda e: _is_done(e) and _chain(e) and not e.reached,
            "odd/even, even address": lambda e: _is_done(e)
            and not e.seq[4] & 12
            and not e.place & 1
            and e.reached,
            "odd/even, odd address": lambda e: _is_done(e)
            and not e.seq[4] & 12
            and e.place & 1
            and e.reached,
            "all of the map mask": lambda e: _is_done(e) and e.seq[4] & 12 == 4 and e.reached,
            "none": lambda e: _is_done(e) and e.seq[4] & 12 == 4 and not e.reached,
        },
        ("planes",),
    ),
    ShownRule(
        "the plane that a read picks",
        PAGE + "the-three-ways-to-spread-addresses-over-planes",
        READS,
        {
            "chain 4": lambda e: _picks(e) and _chain(e),
            "odd/even, low pair": lambda e: _picks(e)
            and not _chain(e)
            and e.gfx[5] & 0x10
            and not e.gfx[4] & 2,
            "odd/even, high pair": lambda e: _picks(e)
            and not _chain(e)
            and e.gfx[5] & 0x10
            and e.gfx[4] & 2,
            "read map select": lambda e: _picks(e) and not _chain(e) and not e.gfx[5] & 0x10,
        },
        ("answer",),
    ),
    ShownRule(
        "chain 4 is looked at first",
        PAGE + "the-three-ways-to-spread-addresses-over-planes",
        ANY,
        {
            "odd/even of writes is on too": lambda e: _is_done(e)
            and _chain(e)
            and not e.seq[4] & 4,
            "odd/even of reads is on too": lambda e: _is_done(e) and _chain(e) and e.gfx[5] & 16,
            "chain odd/even is on too": lambda e: _is_done(e) and _chain(e) and e.gfx[6] & 2,
        },
    ),
    ShownRule(
        "each bit of odd/even answers its own question",
        PAGE + "the-three-ways-to-spread-addresses-over-planes",
        ANY,
        {
            "writes alone": partial(_combination, bits=1),
            "reads alone": partial(_combination, bits=2),
            "offsets alone": partial(_combination, bits=4),
            "all but offsets": partial(_combination, bits=3),
            "all three": partial(_combination, bits=7),
        },
    ),
    ShownRule(
        "words of memory",
        PAGE + "words",
        ("putw", "getw"),
        {
            "two bytes": _is_done,
            "from an odd address": lambda e: _is_done(e) and e.address & 1,
            "its second byte is past the window": partial(_end, offset=-1),
            "its first byte is before the window": lambda e: e.refused
            and e.misc & 2
            and e.address + 1 == e.window.first,
            "the last address of all": lambda e: e.address == 0xFFFFFFFF,
        },
    ),
)
