"""Elements of dots: the registers and the bytes of a scan line, and the line's dots, as 18-bit
colours and as entries of the DAC."""

from functools import partial
from typing import Iterator

from zaklimot.format import Step
from zaklimot.commands.explain.ports import DAC_DATA, DAC_WRITE
from zaklimot.commands.explain.raster import (
    BYTE_MODE,
    COUNTER,
    DOUBLE_WORD,
    LAST_LINE,
    MODE_CONTROL,
    SHOWN_CHARACTERS,
    UNDERLINE,
    WRAPS_AT_15,
    character_dots,
    character_maps,
    fetch_address,
    first_counter,
    line_characters,
    map_begin,
    preset_scan,
)

from .adapter import SteppedCard
from .chance import Chance
from .clock_kinds import EIGHT_DOTS, MOST_DOTS
from .parts import LINE, Parts
from .port_kinds import frame_dots, small_frame
from .reaching import out, steps_to
from .wishes import ElementKind, Wish

PARTS = ("seq", "gfx", "crtc", "attr_index", "attr", "dac_mask", "colours", "planes", "beam")
TEXT = "text"
PLANES_16 = "16 colours"
PACKED_256 = "256 colours"
# Bits: 256 colours; the screen is off; the palette is shown.
PACKED = 0x40
SCREEN_OFF = 0x20
SHOWN = 0x20
MONOCHROME = 0x02
LINE_GRAPHICS = 0x04
BLINK = 0x08
PAN_RESET = 0x20
SELECT = 0x80
CURSOR_START = 0x0A
CURSOR_END = 0x0B
GLYPH_ROWS = 32
FRAMES = 32
# The step. It goes to the end of the line, and has no numbers.
TO_LINE_END = Step(LINE)


def _sequencer(chance: Chance) -> list[int]:
    clocking = chance.bits(1) | (SCREEN_OFF if chance.one_in(32) else 0)
    return [3, clocking, 0x0F, chance.bits(6) if chance.one_in(2) else 0, 0x02]


def _graphics(kind: str) -> list[int]:
    mode, misc = {TEXT: (0x10, 0x0E), PLANES_16: (0, 0x05), PACKED_256: (PACKED, 0x05)}[kind]
    return [0, 0, 0, 0, 0, mode, misc, 0x0F, 0xFF]


def _attributes(chance: Chance, kind: str) -> list[int]:
    palette = [chance.bits(6) for _ in range(16)] if chance.one_in(3) else list(range(16))
    mode = chance.bits(8) & 0xEF
    if kind == TEXT:
        mode |= LINE_GRAPHICS * chance.bits(1)
    enabled = chance.bits(4) if chance.one_in(4) else 0x0F
    pan = (8 if chance.one_in(2) else chance.bits(4)) if chance.one_in(2) else 0
    return [*palette, mode, chance.byte(), enabled, pan, chance.bits(4)]


def _controller(chance: Chance, kind: str) -> list[int]:
    crtc = small_frame(chance)
    if kind == TEXT:
        crtc[CURSOR_START] = chance.below(16) | (0x20 if chance.one_in(8) else 0)
        crtc[CURSOR_END] = chance.bits(5)
        crtc[UNDERLINE] = chance.below(16)
    fetching = chance.below(6)
    crtc[UNDERLINE] |= DOUBLE_WORD if fetching == 0 else 0
    wraps = chance.among((0, WRAPS_AT_15))
    crtc[MODE_CONTROL] = 0x83 | (BYTE_MODE if fetching in (1, 2) else 0) | wraps
    return crtc


def counters_of(state: Parts, beam: Parts) -> list[int]:
    """The counters of the characters that a line shows, and of the one after them."""
    base = beam["base"]
    if not (beam["line"] or beam["dot"] or beam["character"]):
        # The first dot of a frame takes the start address.
        base = first_counter(state["crtc"])
    return [base + number & COUNTER for number in range(state["crtc"][SHOWN_CHARACTERS] + 2)]


def _text_planes(chance: Chance, state: Parts, beam: Parts) -> dict[int, list[int]]:
    """Characters, attributes and the rows of their glyphs."""
    found = dict[int, list[int]]()
    for counter in counters_of(state, beam):
        place = found.setdefault(fetch_address(state["crtc"], counter), [0, 0, 0, 0])
        # Codes of line graphics, and those beside them, more often than others.
        place[0] = chance.among((0xC0, 0xC0, 0xE0, 0, 0, 0)) + chance.bits(5)
        place[0] = chance.bits(8) if place[0] < 0xC0 else place[0]
        place[1] = chance.among((0x01, 0x09, 0x81)) if chance.one_in(3) else chance.byte()
    scan = beam["scan"] if beam["line"] else preset_scan(state["crtc"])
    for place in list(found.values()):
        offset = _glyph_row(state["seq"], place[0], place[1], scan)
        found.setdefault(offset, [0, 0, 0, 0])[2] = chance.byte()
    return found


def _glyph_row(seq: list[int], character: int, attribute: int, scan: int) -> int:
    """The offset of the row of a character's glyph, by the character map select."""
    maps = character_maps(seq)
    begin = map_begin(maps.a if attribute & 8 else maps.b)
    return begin + GLYPH_ROWS * character + scan & 0xFFFF


def _graphics_planes(chance: Chance, state: Parts, beam: Parts) -> dict[int, list[int]]:
    """Bytes of all planes."""
    counters = counters_of(state, beam)
    return {fetch_address(state["crtc"], counter): chance.many(4) for counter in counters}


def _place_cursor(chance: Chance, state: Parts, beam: Parts) -> None:
    """The cursor stands in the line more often than elsewhere, and where scan lines show it."""
    counters = counters_of(state, beam)
    place = chance.bits(16) if chance.one_in(4) else chance.among(counters[:-1])
    crtc = state["crtc"]
    crtc[0x0E], crtc[0x0F] = place >> 8, place & 0xFF
    scan = beam["scan"] if beam["line"] else preset_scan(crtc)
    if not chance.one_in(4):
        # Its first line and its last are this one, or the line beside it, more often than others.
        start, end = chance.among(
            (
                (scan, scan + chance.below(32 - scan)),
                (chance.below(scan + 1), scan),
                (scan + 1, 31),
                (chance.below(scan + 1), scan - 1),
            )
        )
        crtc[CURSOR_START] = start & 31 | (0x20 if chance.one_in(8) else 0)
        crtc[CURSOR_END] = end & 31
    if not chance.one_in(3):
        crtc[UNDERLINE] = crtc[UNDERLINE] & ~31 | scan


def _state(chance: Chance, kind: str) -> tuple[Parts, Parts]:
    """Registers of a small frame, and the dots that lead to the beginning of one of its lines."""
    crtc = _controller(chance, kind)
    state: Parts = {
        "seq": _sequencer(chance),
        "gfx": _graphics(kind),
        "crtc": crtc,
        "attr": _attributes(chance, kind),
        "attr_index": chance.bits(5) | (0 if chance.one_in(32) else SHOWN),
        "dac_mask": chance.byte() if chance.one_in(3) else 0xFF,
        "beam": {},
    }
    width = character_dots(state["seq"])
    whole = frame_dots(crtc, width)
    line = line_characters(crtc) * width
    displayed = crtc[LAST_LINE] + (2 if chance.one_in(4) else 1)
    # The line that the step draws is one more.
    frames = min(FRAMES, MOST_DOTS // whole - 1)
    dots = chance.below(frames) * whole + chance.below(displayed) * line
    return state, {"dots": dots}


def _own_colours() -> Iterator[Step]:
    """Gives each entry of the DAC a colour of its own, which isn't black: its low bits are the
    entry's number."""
    yield out(DAC_WRITE, 0)
    numbers = (value for entry in range(256) for value in (1, entry >> 6, entry & 0x3F))
    yield from (out(DAC_DATA, value) for value in numbers)


def _entries_of(card: SteppedCard, state: Parts, reach: Parts) -> list[int]:
    """The entry of the DAC that each dot takes, and -1 for a dot that is black whatever the DAC
    has. Each entry has a colour of its own here, by which it is known."""
    card.bring_to("a colour for each entry", _own_colours())
    card.run(steps_to(state, reach))
    return [dot & 0xFF if dot else -1 for dot in card.line()]


def _other_colour(chance: Chance, used: set[int]) -> int:
    """A colour of 18 bits that is none of these."""
    colour = chance.bits(18)
    while colour in used:
        colour = chance.bits(18)
    return colour


def _colours(chance: Chance, entries: list[int]) -> list[list[int]]:
    """A colour for each entry that dots take; no two of them have the same, and none is black."""
    used = set[int]({0})
    made = list[list[int]]()
    for entry in sorted({*entries} - {-1}):
        colour = _other_colour(chance, used)
        used.add(colour)
        made.append([entry, colour >> 12, colour >> 6 & 0x3F, colour & 0x3F])
    return made


def _dots(chance: Chance, card: SteppedCard, kind: str) -> Wish:
    state, reach = _state(chance, kind)
    card.power_on()
    card.run(steps_to(state, reach))
    beam = card.read(("beam",), {})["beam"]
    if kind == TEXT:
        _place_cursor(chance, state, beam)
    fill = _text_planes if kind == TEXT else _graphics_planes
    places = fill(chance, state, beam)
    state["planes"] = [[offset, *places[offset]] for offset in sorted(places)]
    state["colours"] = _colours(chance, _entries_of(card, state, reach))
    dots = "eight" if state["seq"][1] & EIGHT_DOTS else "nine"
    name = f"{kind}, characters of {dots} dots, panning {state['attr'][0x13]}"
    return Wish(name, state, TO_LINE_END, reach)


def dot_kinds() -> list[ElementKind]:
    """All kinds of dots."""
    return [
        ElementKind("dots-text", "a scan line of text", PARTS, partial(_dots, kind=TEXT)),
        ElementKind(
            "dots-16-colours", "a scan line of 16 colours", PARTS, partial(_dots, kind=PLANES_16)
        ),
        ElementKind(
            "dots-256-colours", "one of 256 colours", PARTS, partial(_dots, kind=PACKED_256)
        ),
    ]
