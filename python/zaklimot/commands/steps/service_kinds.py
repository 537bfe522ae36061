"""Elements of the video BIOS: the registers, the BIOS data and the memory that a service touches,
for each function, and mode sets."""

from functools import partial
from typing import Callable, Mapping, NamedTuple, Optional, Sequence

from zaklimot.format import Step
from zaklimot.commands.explain.ports import GRAPHICS, SEQUENCER, WINDOWS

from .adapter import SteppedCard
from .chance import Chance
from .parts import CURSORS, PAGES, Parts
from .port_kinds import controller, small_frame
from .reaching import services, steps_to
from .wishes import ElementKind, Wish

TEXTS = (3, 7)
PLANAR_MODES = (0x0D, 0x10, 0x12)
PACKED_MODES = (0x13,)
PIXELS = (*PLANAR_MODES, *PACKED_MODES)
MODES = (*TEXTS, *PIXELS)


class ModeShape(NamedTuple):
    """The columns of a mode, its last row, and its pages."""

    columns: int
    last_row: int
    pages: int


SHAPES = {
    3: ModeShape(80, 24, 8),
    7: ModeShape(80, 24, 8),
    0x0D: ModeShape(40, 24, 8),
    0x10: ModeShape(80, 24, 2),
    0x12: ModeShape(80, 29, 1),
    0x13: ModeShape(40, 24, 1),
}
# The width and the height of pictures.
DOTS = {0x0D: (320, 200), 0x10: (640, 350), 0x12: (640, 480), 0x13: (320, 200)}
# The last row of text in characters of so many lines.
LAST_ROWS = {16: 24, 14: 27, 8: 49}
ONE_PAGE = (0x12, 0x13)
NO_DATA: Parts = {"mode": 0, CURSORS: [0] * PAGES}
# A service that touches more places than this has the sums of all memory instead, and so many of
# its places.
MOST_PLACES = 200
FEW_PLACES = 6
PORTS = ("misc", "bda")
CURSOR = ("misc", "crtc_index", "crtc", "bda")
MEMORY = ("misc", "seq_index", "seq", "gfx_index", "gfx", "latches", "planes", "bda")
TYPING = ("misc", "seq_index", "seq", "gfx_index", "gfx", "crtc_index", "crtc", *MEMORY[5:])
COLOURS = (
    "misc",
    "attr_index",
    "attr_is_data",
    "attr",
    "dac_index",
    "dac_component",
    "dac_mask",
    "dac_waiting",
    "colours",
    "bda",
)
LOADING = (*TYPING[:7], "planes", "bda")
EVERYTHING = (*TYPING[:7], *COLOURS[1:-1], "latches", "planes", "bda")


class Called(NamedTuple):
    """The registers of a call, and its block where that is not of the length that it takes."""

    ax: int
    bx: int = 0
    cx: int = 0
    dx: int = 0
    block: Optional[bytes] = None


# What chooses the registers of a call on a machine with these BIOS data.
Choice = Callable[[Chance, Parts], Called]


def _last_row(bda: Parts) -> int:
    return LAST_ROWS[bda["height"]] if bda["mode"] in TEXTS else SHAPES[bda["mode"]].last_row


def _pages(bda: Parts) -> int:
    return 4 if bda["mode"] in TEXTS and bda["height"] != 16 else SHAPES[bda["mode"]].pages


def _place(chance: Chance, bda: Parts) -> int:
    """A cursor position: in the page more often than not, at its last row and column often."""
    columns = SHAPES[bda["mode"]].columns
    last = _last_row(bda)
    row = last if chance.one_in(4) else chance.below(last + 1)
    column = chance.among((0, columns - 1)) if chance.one_in(3) else chance.below(columns)
    if chance.one_in(16):
        row, column = chance.among(((row, columns), (last + 1, column), (chance.bits(8), column)))
    return row << 8 | column


def data(chance: Chance, modes: Sequence[int] = MODES) -> Parts:
    """BIOS data as calls can leave them."""
    mode = chance.among(modes)
    bda: Parts = {"mode": mode, "height": 16}
    if mode in TEXTS and chance.one_in(4):
        bda["height"] = chance.among((8, 14))
    pages = _pages(bda)
    kept = 1 if mode in ONE_PAGE else pages
    bda[CURSORS] = [_place(chance, bda) if page < kept else 0 for page in range(PAGES)]
    bda["cursor_type"] = chance.bits(16) if chance.one_in(4) else 0x0D0E
    bda["page"] = chance.below(pages) if chance.one_in(3) else 0
    return bda


def _page(chance: Chance, bda: Parts) -> int:
    """A page: one that the mode has, or often the active one, or sometimes none."""
    if chance.one_in(16):
        return chance.among((_pages(bda), 8, 0xFF, chance.bits(8)))
    return int(bda["page"]) if chance.one_in(2) else chance.below(_pages(bda))


def _choose_01(chance: Chance, bda: Parts) -> Called:
    ends = (0x2000, 0x0D0E, 0x000F, 0x1F1F)
    return Called(0x0100, cx=chance.among(ends) if chance.one_in(4) else chance.bits(16))


def _choose_02(chance: Chance, bda: Parts) -> Called:
    return Called(0x0200, _page(chance, bda) << 8, 0, _place(chance, bda))


def _choose_03(chance: Chance, bda: Parts) -> Called:
    return Called(0x0300, _page(chance, bda) << 8 | chance.bits(8), chance.bits(16))


def _choose_05(chance: Chance, bda: Parts) -> Called:
    return Called(0x0500 | _page(chance, bda), chance.bits(16))


def _window(chance: Chance, bda: Parts) -> tuple[int, int]:
    """The corners of a window: a small one, or one that is cut, or none at all."""
    columns = SHAPES[bda["mode"]].columns
    last = _last_row(bda)
    tall = chance.between(1, 3)
    wide = chance.between(1, 4)
    row = chance.below(last - tall + 2)
    column = chance.below(columns - wide + 1)
    low = row + tall - 1
    right = column + wide - 1
    kind = chance.below(24)
    if kind == 0:
        row, low, right = last - 1, 0xFF, min(right, columns - 1)
    elif kind == 1:
        column, right = columns - 2, 0xFF
    elif kind == 2:
        row, low = low + 1, row
    elif kind == 3:
        column, right = right + 1, column
    elif kind == 4 and chance.one_in(16):
        row, column, low, right = 0, 0, last, columns - 1
    return row << 8 | column, low << 8 | right


def _choose_scroll(chance: Chance, bda: Parts, function: int) -> Called:
    upper, lower = _window(chance, bda)
    rows = chance.among((0, 1, 1, 1, 2, 3, 4, 0xFF))
    return Called(function << 8 | rows, chance.byte() << 8, upper, lower)


def _choose_08(chance: Chance, bda: Parts) -> Called:
    return Called(0x0800 | chance.bits(8), _page(chance, bda) << 8)


def _choose_cells(chance: Chance, bda: Parts, function: int) -> Called:
    count = chance.among((0, 1, 1, 2, 3))
    count = 0xFFFF if chance.one_in(32) else count
    colour = chance.byte()
    return Called(function << 8 | chance.bits(8), _page(chance, bda) << 8 | colour, count)


def _choose_pixel(chance: Chance, bda: Parts, function: int) -> Called:
    wide, high = DOTS.get(bda["mode"], (320, 200))
    x = chance.among((0, wide - 1, 7, 8)) if chance.one_in(4) else chance.below(wide)
    y = chance.among((0, high - 1)) if chance.one_in(4) else chance.below(high)
    if chance.one_in(16):
        x, y = chance.among(((wide, y), (x, high), (0xFFFF, y), (x, chance.bits(16))))
    return Called(function << 8 | chance.byte(), _page(chance, bda) << 8, x, y)


def _choose_0e(chance: Chance, bda: Parts) -> Called:
    character = chance.among((7, 8, 0x0A, 0x0D)) if chance.one_in(3) else chance.bits(8)
    return Called(0x0E00 | character, chance.byte())


def _choose_none(chance: Chance, bda: Parts, function: int) -> Called:
    return Called(function << 8 | chance.bits(8), chance.bits(16), chance.bits(16), chance.bits(16))


def _choose_10(chance: Chance, bda: Parts) -> Called:
    part = chance.among((0, 1, 2, 3, 7, 8, 9, 0x10, 0x12, 0x15, 0x17, 0x18, 0x19))
    part = chance.bits(8) if chance.one_in(24) else part
    bx, cx, dx = chance.bits(16), chance.bits(16), chance.bits(16)
    if part in (0, 3, 7):
        bx = chance.bits(8) << 8 | chance.below((0x10, 2)[part == 3] + chance.one_in(8))
    if part in (0x10, 0x12, 0x15, 0x17):
        bx = chance.among((0, 0xFF, chance.bits(8), chance.bits(8), 0x100 + chance.bits(4)))
    if part in (0x12, 0x17):
        bx = bx if bx > 0xFF else min(bx, 0xFC + chance.below(5))
        cx = chance.below(4) + (0x100 if chance.one_in(24) else 0)
    return Called(0x1000 | part, bx, cx, dx)


def _choose_11(chance: Chance, bda: Parts) -> Called:
    part = chance.among((0x11, 0x12, 0x14)) if chance.one_in(24) else 0x10
    part = chance.bits(8) if chance.one_in(24) else part
    height = chance.among((8, 14, 16)) if not chance.one_in(16) else chance.bits(4)
    first = chance.among((0, 0xFF, 0x100, 0x101, 0xFE)) if chance.one_in(4) else chance.bits(8)
    load = 1 + chance.bits(2) if chance.one_in(32) else 0
    return Called(0x1100 | part, height << 8 | load, chance.below(4), first)


def _choose_12(chance: Chance, bda: Parts) -> Called:
    part = chance.bits(8) if chance.one_in(4) else 0x10
    return Called(0x1200 | chance.bits(8), chance.bits(8) << 8 | part, chance.bits(16))


def _choose_13(chance: Chance, bda: Parts) -> Called:
    part = chance.bits(8) if chance.one_in(24) else chance.bits(2)
    place = _place(chance, bda)
    count = chance.below(4)
    letters = bytes(
        chance.among((7, 8, 0x0A, 0x0D)) if chance.one_in(5) else chance.bits(8)
        for _ in range(count * (2 if part & 2 else 1))
    )
    return Called(
        0x1300 | part, _page(chance, bda) << 8 | chance.byte(), count, place, letters or None
    )


def _choose_1a(chance: Chance, bda: Parts) -> Called:
    return Called(0x1A00 | (chance.bits(8) if chance.one_in(4) else 0), chance.bits(16))


UNKNOWN = (4, 0x0B, 0x14, 0x1B, 0x1C, 0x4F, 0x10, 0x11, 0x12, 0x13, 0x1A)


def _choose_unknown(chance: Chance, bda: Parts) -> Called:
    function = chance.among(UNKNOWN) if chance.one_in(2) else 0x1B + chance.below(0xE5)
    return Called(function << 8 | 0x40 | chance.bits(6), chance.bits(16), 0, chance.bits(16))


def _choose_mode(chance: Chance, bda: Parts) -> Called:
    mode = chance.bits(7) if chance.one_in(16) else chance.among(MODES)
    return Called(mode | (0x80 if chance.one_in(3) else 0), chance.bits(16))


class VideoFunction(NamedTuple):
    """A function of the video BIOS: its kind's name, what it does, the parts that it touches, how a
    call is chosen, and in which modes most calls come."""

    name: str
    told: str
    parts: tuple[str, ...]
    choose: Choice
    modes: tuple[int, ...] = MODES


FUNCTIONS = (
    VideoFunction("service-00-mode-sets", "sets a mode", EVERYTHING, _choose_mode),
    VideoFunction("service-01", "the cursor's scan lines", CURSOR, _choose_01),
    VideoFunction("service-02", "the cursor position", CURSOR, _choose_02),
    VideoFunction("service-03", "reads the cursor", PORTS, _choose_03),
    VideoFunction("service-05", "shows a page", CURSOR, _choose_05),
    VideoFunction("service-06", "scrolls up", MEMORY, partial(_choose_scroll, function=6)),
    VideoFunction("service-07", "scrolls down", MEMORY, partial(_choose_scroll, function=7)),
    VideoFunction("service-08", "reads a cell", MEMORY, _choose_08),
    VideoFunction("service-09", "writes cells", MEMORY, partial(_choose_cells, function=9)),
    VideoFunction(
        "service-0a",
        "writes cells, and leaves attributes",
        MEMORY,
        partial(_choose_cells, function=0x0A),
    ),
    VideoFunction(
        "service-0c", "writes a dot", MEMORY, partial(_choose_pixel, function=0x0C), PIXELS
    ),
    VideoFunction(
        "service-0d", "reads a dot", MEMORY, partial(_choose_pixel, function=0x0D), PIXELS
    ),
    VideoFunction("service-0e", "types a character", TYPING, _choose_0e),
    VideoFunction("service-0f", "reads the mode", PORTS, partial(_choose_none, function=0x0F)),
    VideoFunction("service-10", "palette and DAC", COLOURS, _choose_10),
    VideoFunction("service-11", "loads glyphs", LOADING, _choose_11, TEXTS),
    VideoFunction("service-12", "reads the adapter", PORTS, _choose_12),
    VideoFunction("service-13", "writes a string", TYPING, _choose_13),
    VideoFunction("service-1a", "reads the display", PORTS, _choose_1a),
    VideoFunction(
        "service-unknown", "functions and parts that there are not", PORTS, _choose_unknown
    ),
)
# Bits that a share of the elements change in the registers by which services write memory.
CHANGES = (
    ("gfx", 8),
    ("gfx", 3),
    ("gfx", 4),
    ("gfx", 0),
    ("gfx", 1),
    ("gfx", 2),
    ("seq", 2),
    ("misc", 0),
)


def _changed(chance: Chance, state: Parts) -> None:
    """Changes a register of those that a service uses as it finds them."""
    name, index = chance.among(CHANGES)
    if name == "misc":
        state["misc"] ^= chance.among((0x01, 0x02))
    elif name in state:
        state[name][index] = chance.byte() & (0xFF if (name, index) == ("gfx", 8) else 0x0F)


def _touched(cycles: Sequence[Step], state: Parts) -> list[int]:
    """The offsets of the planes that cycles of memory reach, as the registers say at each."""
    seq = list(state["seq"])
    gfx = list(state["gfx"])
    indexes = {SEQUENCER: 0, GRAPHICS: 0}
    banks = {SEQUENCER: seq, GRAPHICS: gfx}
    found: set[int] = set()
    for step in cycles:
        place = step.numbers[0]
        if step.name in ("put", "get"):
            offset = place - WINDOWS[gfx[6] >> 2].first & 0xFFFF
            found.add(offset & 0xFFFC if seq[4] & 8 else offset & 0xFFFE if gfx[6] & 2 else offset)
        elif step.name == "out" and place in indexes:
            indexes[place] = step.numbers[1]
        elif step.name == "out" and place - 1 in banks and indexes[place - 1] < 9:
            banks[place - 1][indexes[place - 1]] = step.numbers[1]
    return sorted(found)


def _fill(chance: Chance, offsets: Sequence[int], is_text: bool) -> list[list[int]]:
    """Bytes for these offsets: many of them alike, as on a screen."""
    blank = [0x20, 0x07, 0, 0] if is_text else [0, 0, 0, 0]
    kind = chance.below(3)
    some = chance.many(4)
    return [
        [offset, *(chance.many(4) if kind == 0 else some if kind == 1 else blank)]
        for offset in offsets
    ]


def _with_block(chance: Chance, card: SteppedCard, called: Called) -> Step:
    """The step of a call, with a block of the length that it takes, or sometimes of another."""
    numbers = called[:4]
    length = card.block_length(numbers)
    # No function of these elements takes more, unless its count is wrong.
    length = length if length <= 1024 else 0
    if length and chance.one_in(10):
        length += chance.among((-1, 1))
    block = called.block if called.block is not None else bytes(chance.many(length))
    given = (block + bytes(length))[:length] if length else b""
    return Step("int", numbers, given)


def _state(chance: Chance, card: SteppedCard, function: VideoFunction, bda: Parts) -> Parts:
    """The state in which a mode set and other calls leave the parts of a function."""
    card.power_on()
    card.run(services(bda))
    names = [name for name in function.parts if name not in ("planes", "colours", "sums")]
    entries = [chance.bits(8) for _ in range(2)] if "colours" in function.parts else []
    state = card.read(names, {})
    state["bda"] = {**state["bda"], **({} if bda["mode"] else NO_DATA)}
    if entries:
        state["colours"] = [
            [entry, *(byte & 63 for byte in chance.many(3))] for entry in sorted({*entries})
        ]
    if "latches" in state:
        state["latches"] = chance.many(4)
    return state


def _entries(called: Called) -> list[int]:
    """The entries of the DAC that function 10 touches."""
    if called.ax >> 8 != 0x10 or called.bx > 0xFF:
        return []
    count = {0x10: 1, 0x15: 1, 0x12: called.cx, 0x17: called.cx}.get(called.ax & 0xFF, 0)
    return [called.bx + number for number in range(min(count, 8)) if called.bx + number < 256]


def _service(chance: Chance, card: SteppedCard, function: VideoFunction) -> Wish:
    is_other = function.modes != MODES and chance.one_in(24)
    has_mode = not chance.one_in(40)
    bda = data(chance, MODES if is_other else function.modes) if has_mode else NO_DATA
    called = function.choose(chance, bda if has_mode else data(chance, function.modes))
    state = _state(chance, card, function, bda)
    if chance.one_in(8):
        _changed(chance, state)
    if "colours" in state:
        known = {*_entries(called), *(place[0] for place in state["colours"])}
        state["colours"] = [
            [entry, *(byte & 63 for byte in chance.many(3))] for entry in sorted(known)
        ]
    step = _with_block(chance, card, called)
    name = _name(function, bda, step)
    if "planes" not in function.parts:
        return Wish(name, state, step)
    return _with_memory(chance, card, Wish(name, state, step))


def _name(function: VideoFunction, bda: Parts, step: Step) -> str:
    mode = f"mode {bda['mode']}" if bda["mode"] else "no mode"
    return f"service {function.name.split('-')[1]}, ax {step.numbers[0]}, {mode}"


def _with_memory(chance: Chance, card: SteppedCard, wish: Wish) -> Wish:
    """The wish with the bytes that its call touches, or with some of them and the sums of all."""
    state = wish.state
    card.power_on()
    card.run(steps_to(state, {}))
    cycles = card.cycles(wish.step)
    touched = _touched(cycles or (), state)
    has_sums = cycles is None or len(touched) > MOST_PLACES
    if has_sums:
        # Some of the page's places, which lie at even offsets in text, and at every fourth byte of
        # mode 13.
        touched = sorted({chance.bits(15) & 0x7FFC for _ in range(FEW_PLACES)})
    state["planes"] = _fill(chance, touched, state["bda"]["mode"] in TEXTS)
    return wish._replace(has_sums=has_sums)


def _mode_set(chance: Chance, card: SteppedCard, function: VideoFunction) -> Wish:
    """A mode set from a mode or from none, and from any registers."""
    bda = data(chance) if chance.one_in(2) else NO_DATA
    state = _state(chance, card, function, bda)
    if chance.one_in(2):
        _any_registers(chance, state)
    offsets = sorted({chance.bits(16), chance.bits(13), chance.bits(15) & 0x7FFC})
    state["planes"] = [[offset, *chance.many(4)] for offset in offsets]
    called = function.choose(chance, bda)
    step = Step("int", called[:4])
    is_known = called.ax & 0x7F in MODES
    return Wish(_name(function, bda, step), state, step, has_sums=is_known)


def _any_registers(chance: Chance, state: Parts) -> None:
    """Gives a state any registers, of which the adapter keeps what it keeps."""
    crtc = small_frame(chance) if chance.one_in(2) else controller(chance, chance.one_in(2))
    gfx = chance.many(9)
    gfx[5] &= ~0x20
    state.update(misc=chance.bits(8), seq=chance.many(5), gfx=gfx, crtc=crtc, attr=chance.many(21))
    state.update(dac_index=chance.bits(8), dac_component=chance.below(3), dac_mask=chance.byte())
    state.update(attr_index=chance.bits(6), attr_is_data=chance.bits(1))


def service_kinds() -> list[ElementKind]:
    """All kinds of services."""
    makers: Mapping[str, Callable[..., Wish]] = {FUNCTIONS[0].name: _mode_set}
    return [
        ElementKind(
            one.name, one.told, one.parts, partial(makers.get(one.name, _service), function=one)
        )
        for one in FUNCTIONS
    ]
