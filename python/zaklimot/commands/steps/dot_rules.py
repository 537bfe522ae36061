"""The rules of RASTER.md that elements of dots, of the clock and of input status 1 show."""

from functools import partial
from typing import Any, Callable, NamedTuple, Optional

from zaklimot.commands.explain.ports import RETRACE_END
from zaklimot.commands.explain.raster import (
    BYTE_MODE,
    DOUBLE_WORD,
    MODE_CONTROL,
    RETRACE_START,
    UNDERLINE,
    WRAPS_AT_15,
    byte_panning,
    character_dots,
    character_maps,
    fetch_address,
    frame_lines,
    is_doubled,
    is_graphics,
    last_scan,
    line_characters,
    line_compare,
    preset_scan,
    underline_scan,
)

from .dot_kinds import BLINK, LINE_GRAPHICS, MONOCHROME, PACKED_256, PAN_RESET, PLANES_16, SELECT
from .dot_kinds import CURSOR_END, CURSOR_START, SCREEN_OFF, SHOWN, TEXT, counters_of
from .parts import LINE
from .seen import SeenElement, ShownRule

PAGE, REGISTERS = "docs/RASTER.md#", "docs/REGISTERS.md#"
LINES = (LINE,)
CLOCK = ("advance",)
CURSOR_OFF = 0x20
HALF_OF_CURSOR = 8
HALF_OF_BLINK = 16


class Cell(NamedTuple):
    """A character of a line of text, by its counter."""

    counter: int
    character: int
    attribute: int


def _shown(e: SeenElement) -> bool:
    """Whether the line has dots that come from memory."""
    answer: Any = e.answer
    return bool(answer["entries"]) and not e.seq[1] & SCREEN_OFF and bool(e.attr_index & SHOWN)


def _kind(e: SeenElement) -> str:
    if not is_graphics(e.gfx):
        return TEXT
    return PACKED_256 if e.gfx[5] & 0x40 else PLANES_16


def _is(e: SeenElement, kind: str) -> bool:
    return _shown(e) and _kind(e) == kind


def _cells(e: SeenElement) -> list[Cell]:
    """The characters of the line, if it is text."""
    if not _is(e, TEXT):
        return []
    planes = {place[0]: place for place in e.planes}
    found = []
    for counter in counters_of(e.initial, e.beam)[:-1]:
        place = planes.get(fetch_address(e.crtc, counter), (0, 0, 0, 0, 0))
        found.append(Cell(counter, place[1], place[2]))
    return found


def _scan(e: SeenElement) -> int:
    """The scan line of the row: that of a frame's first line is the preset one."""
    is_first = not (e.beam["line"] or e.beam["character"] or e.beam["dot"])
    return int(preset_scan(e.crtc) if is_first else e.beam["scan"])


def _map(cell: Cell, e: SeenElement) -> int:
    """The number of the character map that a cell takes."""
    maps = character_maps(e.seq)
    return maps.a if cell.attribute & 8 else maps.b


def _has_cell(e: SeenElement, **wanted: bool) -> bool:
    """Whether a cell of the line has these attributes: map A, high maps, a line of graphics, an
    underline, one that blinks away, and the cursor."""
    return any(
        all(CELLS[name](cell, e) == value for name, value in wanted.items()) for cell in _cells(e)
    )


def _is_blinked_away(cell: Cell, e: SeenElement) -> bool:
    is_away = e.beam["frame"] >= HALF_OF_BLINK
    return bool(e.attr[0x10] & BLINK and cell.attribute & 0x80 and is_away)


def _is_cursor(cell: Cell, e: SeenElement) -> bool:
    """Whether the cursor stands in a cell, and this line is one of its own."""
    first, last = e.crtc[CURSOR_START] & 31, e.crtc[CURSOR_END] & 31
    return bool(_is_cursor_place(cell, e) and first <= _scan(e) <= last)


def _is_cursor_place(cell: Cell, e: SeenElement) -> bool:
    return bool(cell.counter == e.crtc[0x0E] << 8 | e.crtc[0x0F])


def _has_edge(e: SeenElement, register: int, beyond: int) -> bool:
    """Whether the line is the cursor's first or last, by its register, or one beyond that, where a
    cell of it has the cursor, which is on and is shown in this frame."""
    is_on = not e.crtc[CURSOR_START] & CURSOR_OFF and not e.beam["frame"] & HALF_OF_CURSOR
    is_one = (e.crtc[CURSOR_START] & 31) <= (e.crtc[CURSOR_END] & 31)
    is_edge = _scan(e) == (e.crtc[register] & 31) + beyond
    return bool(is_on and is_one and is_edge) and _has_cell(e, cursor_place=True)


CELLS: dict[str, Callable[[Cell, SeenElement], bool]] = {
    "map_a": lambda cell, e: bool(cell.attribute & 8),
    "high_map": lambda cell, e: _map(cell, e) > 3,
    "is_line": lambda cell, e: 0xC0 <= cell.character <= 0xDF,
    "is_beside_lines": lambda cell, e: cell.character >= 0xE0,
    "underlined": lambda cell, e: cell.attribute & 0x77 == 1
    and bool(e.attr[0x10] & MONOCHROME)
    and _scan(e) == underline_scan(e.crtc),
    "blinks": lambda cell, e: bool(cell.attribute & 0x80),
    "away": _is_blinked_away,
    "cursor_place": _is_cursor_place,
    "cursor": lambda cell, e: _is_cursor(cell, e) and not e.crtc[0x0A] & CURSOR_OFF,
    "hidden_cursor": lambda cell, e: _is_cursor(cell, e) and bool(e.crtc[0x0A] & CURSOR_OFF),
}


def _pans(e: SeenElement) -> Optional[str]:
    """The row of the table of panning that a line takes."""
    if not _shown(e):
        return None
    if e.beam["split"] and e.attr[0x10] & PAN_RESET:
        return "below the line compare"
    if _kind(e) == PACKED_256:
        return PACKED_256
    if character_dots(e.seq) == 8:
        return "eight dots"
    return "nine dots, 8" if e.attr[0x13] == 8 else "nine dots"


def _panned(e: SeenElement, row: str) -> bool:
    return _pans(e) == row


def _fetches(e: SeenElement, kind: str) -> bool:
    if not _shown(e):
        return False
    if e.crtc[UNDERLINE] & DOUBLE_WORD:
        return kind == "double word"
    if e.crtc[MODE_CONTROL] & BYTE_MODE:
        return kind == "byte"
    return kind == ("word, bit 15" if e.crtc[MODE_CONTROL] & WRAPS_AT_15 else "word, bit 13")


def _ends(e: SeenElement) -> str:
    """What happens at the end of the element's line, by the first row that applies."""
    if e.beam["line"] == line_compare(e.crtc):
        return "line compare"
    if is_doubled(e.crtc) and not e.beam["half"]:
        return "double scan"
    return "the row goes on" if _scan(e) < last_scan(e.crtc) else "the next row"


def _numbered(e: SeenElement, is_selected: bool) -> bool:
    """Whether colour select gives two bits or four of a colour's number."""
    is_packed = _kind(e) == PACKED_256
    return _shown(e) and not is_packed and bool(e.attr[0x10] & SELECT) == is_selected


def _position(e: SeenElement) -> int:
    """Which dot of its line the beam is at."""
    return int(e.beam["character"]) * character_dots(e.seq) + int(e.beam["dot"])


def _line_dots(e: SeenElement) -> int:
    """How many dots a line has."""
    return line_characters(e.crtc) * character_dots(e.seq)


def _ends_once(e: SeenElement) -> bool:
    """Whether the clock runs past the end of the line under way, and past no other."""
    if e.step == LINE:
        return True
    dots, position = _line_dots(e), _position(e)
    return position < dots <= position + e.address < 2 * dots


def _line_ends(e: SeenElement, how: str) -> bool:
    """Whether a line ends in this way, and the frame goes on."""
    goes_on = e.final["beam"]["line"] == e.beam["line"] + 1
    return goes_on and _ends_once(e) and _ends(e) == how


def _status(e: SeenElement, value: int) -> bool:
    return e.address == e.base + 6 and e.answer == value


def _retrace(e: SeenElement, count: int) -> bool:
    """Whether the retrace lasts so many lines, and the beam is in it."""
    lines = (e.crtc[RETRACE_END] - e.crtc[RETRACE_START] - 1) % 16 + 1
    return e.answer in (8, 9) and lines == count


RULES = (
    ShownRule(
        "panning",
        PAGE + "where-a-dot-comes-from",
        LINES,
        {
            "reset below the line compare": partial(_panned, row="below the line compare"),
            "256 colours": partial(_panned, row=PACKED_256),
            "characters of eight dots": partial(_panned, row="eight dots"),
            "characters of nine dots": partial(_panned, row="nine dots"),
            "characters of nine dots, 8": partial(_panned, row="nine dots, 8"),
            "split without the reset": lambda e: _shown(e)
            and e.beam["split"]
            and not e.attr[0x10] & PAN_RESET,
        },
        ("answer",),
    ),
    ShownRule(
        "the fetch address",
        PAGE + "where-a-dot-comes-from",
        LINES,
        {
            "double word mode": partial(_fetches, kind="double word"),
            "byte mode": partial(_fetches, kind="byte"),
            "word mode, counter bit 15": partial(_fetches, kind="word, bit 15"),
            "word mode, counter bit 13": partial(_fetches, kind="word, bit 13"),
        },
        ("answer",),
    ),
    ShownRule(
        "the first dot of a frame",
        PAGE + "one-dot",
        LINES,
        {
            "start address": lambda e: _shown(e) and not e.beam["line"],
            "byte panning": lambda e: _shown(e) and not e.beam["line"] and byte_panning(e.crtc),
            "preset row scan": lambda e: _is(e, TEXT)
            and not e.beam["line"]
            and preset_scan(e.crtc),
        },
    ),
    ShownRule(
        "character maps",
        PAGE + "text",
        LINES,
        {
            "map A": partial(_has_cell, map_a=True),
            "map B": partial(_has_cell, map_a=False),
            "maps 0 to 3": partial(_has_cell, high_map=False),
            "maps 4 to 7": partial(_has_cell, high_map=True),
        },
        ("answer",),
    ),
    ShownRule(
        "the ninth dot",
        PAGE + "text",
        LINES,
        {
            "repeats the eighth": lambda e: character_dots(e.seq) == 9
            and e.attr[0x10] & LINE_GRAPHICS
            and _has_cell(e, is_line=True),
            "line graphics is off": lambda e: character_dots(e.seq) == 9
            and not e.attr[0x10] & LINE_GRAPHICS
            and _has_cell(e, is_line=True),
            "of codes E0 to FF": lambda e: character_dots(e.seq) == 9
            and e.attr[0x10] & LINE_GRAPHICS
            and _has_cell(e, is_beside_lines=True),
            "of other characters": lambda e: character_dots(e.seq) == 9
            and _has_cell(e, is_line=False),
            "of graphics is 0": lambda e: character_dots(e.seq) == 9
            and (_is(e, PLANES_16) or _is(e, PACKED_256)),
        },
        ("answer",),
    ),
    ShownRule(
        "underline",
        PAGE + "text",
        LINES,
        {
            "it is shown": partial(_has_cell, underlined=True),
            "not over what is blinked away": partial(_has_cell, underlined=True, away=True),
        },
        ("answer",),
    ),
    ShownRule(
        "blink",
        PAGE + "text",
        LINES,
        {
            "frames 16 to 31": partial(_has_cell, away=True),
            "frames 0 to 15": lambda e: e.attr[0x10] & BLINK
            and e.beam["frame"] < HALF_OF_BLINK
            and _has_cell(e, blinks=True),
            "off: bit 7 is a colour": lambda e: not e.attr[0x10] & BLINK
            and _has_cell(e, blinks=True),
        },
        ("answer",),
    ),
    ShownRule(
        "cursor",
        PAGE + "text",
        LINES,
        {
            "first 8 of 16 frames": lambda e: e.beam["frame"] & HALF_OF_CURSOR == 0
            and _has_cell(e, cursor=True),
            "other frames": lambda e: e.beam["frame"] & HALF_OF_CURSOR
            and _has_cell(e, cursor=True),
            "it is off": lambda e: e.beam["frame"] & HALF_OF_CURSOR == 0
            and _has_cell(e, hidden_cursor=True),
            "over what is blinked away": partial(_has_cell, cursor=True, away=True),
            "its first line": partial(_has_edge, register=CURSOR_START, beyond=0),
            "the line before its first": partial(_has_edge, register=CURSOR_START, beyond=-1),
            "its last line": partial(_has_edge, register=CURSOR_END, beyond=0),
            "the line after its last": partial(_has_edge, register=CURSOR_END, beyond=1),
        },
        ("answer",),
    ),
    ShownRule(
        "graphics",
        PAGE + "graphics",
        LINES,
        {
            "16 colours": partial(_is, kind=PLANES_16),
            "256 colours": partial(_is, kind=PACKED_256),
        },
        ("answer",),
    ),
    ShownRule(
        "the colour of a dot",
        PAGE + "colour",
        LINES,
        {
            "screen off": lambda e: e.seq[1] & SCREEN_OFF and e.answer["entries"],
            "the palette is not shown": lambda e: not e.attr_index & SHOWN
            and not e.seq[1] & SCREEN_OFF
            and e.answer["entries"],
            "256 colours": partial(_is, kind=PACKED_256),
            "by the palette": lambda e: _shown(e) and _kind(e) != PACKED_256,
            "the mask of the DAC": lambda e: _shown(e) and e.dac_mask != 0xFF,
        },
        ("answer",),
    ),
    ShownRule(
        "a colour's number",
        REGISTERS + "attribute-controller",
        LINES,
        {
            "two bits of colour select": partial(_numbered, is_selected=False),
            "four bits of colour select": partial(_numbered, is_selected=True),
            "planes that are not enabled": lambda e: _shown(e)
            and _kind(e) != PACKED_256
            and e.attr[0x12] & 15 != 15,
        },
        ("answer",),
    ),
    ShownRule(
        "lines that are not displayed",
        PAGE + "a-frame",
        LINES,
        {"no dot": lambda e: not e.answer["entries"]},
        ("answer",),
    ),
    ShownRule(
        "the end of a line",
        PAGE + "the-end-of-a-line",
        (*LINES, *CLOCK),
        {
            "line compare": partial(_line_ends, how="line compare"),
            "the first of two lines": partial(_line_ends, how="double scan"),
            "the row goes on": partial(_line_ends, how="the row goes on"),
            "the next row": partial(_line_ends, how="the next row"),
            "the split begins": lambda e: e.final["beam"]["split"] and not e.beam["split"],
        },
        ("beam",),
    ),
    ShownRule(
        "the move of the beam",
        PAGE + "one-dot",
        CLOCK,
        {
            "within a character": lambda e: e.final["beam"]["character"] == e.beam["character"]
            and e.final["beam"]["line"] == e.beam["line"]
            and e.address > 0,
            "into another character": lambda e: e.final["beam"]["character"] != e.beam["character"],
            "into another line": lambda e: e.final["beam"]["line"] != e.beam["line"],
            "into another frame": lambda e: e.final["beam"]["frame"] != e.beam["frame"],
            "frame 31 is followed by 0": lambda e: e.beam["frame"] == 31
            and e.final["beam"]["frame"] == 0,
            "no dot": lambda e: e.address == 0,
            "to the end of a line": lambda e: e.final["beam"]["character"] == 0
            and e.final["beam"]["dot"] == 0
            and e.address > 0,
        },
    ),
    ShownRule(
        "registers that are lowered",
        PAGE + "one-dot",
        CLOCK,
        {
            "the line ends with this character": lambda e: e.beam["character"]
            >= line_characters(e.crtc)
            and e.address > 0,
            "the frame ends with this line": lambda e: e.beam["line"] >= frame_lines(e.crtc)
            and e.address > 0,
            "the character ends with this dot": lambda e: e.beam["dot"] >= character_dots(e.seq)
            and e.address > 0,
        },
    ),
    ShownRule(
        "a frame's start is read once",
        PAGE + "one-dot",
        CLOCK,
        {
            "changed since": lambda e: "crtc" in e.reach
            and e.reach["crtc"][0x0C:0x0E] != e.crtc[0x0C:0x0E]
            and _position(e) + e.beam["line"] > 0,
        },
    ),
    ShownRule(
        "one advance",
        PAGE + "many-dots",
        CLOCK,
        {
            "more than one line": lambda e: e.address > _line_dots(e),
            "more than one frame": lambda e: e.address > _line_dots(e) * frame_lines(e.crtc),
        },
    ),
    ShownRule(
        "input status 1",
        REGISTERS + "input-status-1",
        ("in",),
        {
            "a display dot": partial(_status, value=0),
            "none": partial(_status, value=1),
            "a display dot in the retrace": partial(_status, value=8),
            "none in the retrace": partial(_status, value=9),
            "past the characters": lambda e: _status(e, 1)
            and e.beam["character"] > e.crtc[1]
            and e.beam["line"] <= e.crtc[0x12],
            "past the lines": lambda e: _status(e, 1) and e.beam["line"] > e.crtc[0x12],
        },
        ("answer",),
    ),
    ShownRule(
        "how long the retrace lasts",
        PAGE + "input-status-1",
        ("in",),
        {
            "a line": partial(_retrace, count=1),
            "16 lines": partial(_retrace, count=16),
        },
        ("answer",),
    ),
    ShownRule(
        "input status 1 makes the next write an index",
        REGISTERS + "attribute-controller",
        ("in",),
        {
            "data was next": lambda e: e.address == e.base + 6
            and not e.refused
            and e.attr_is_data == 1
            and e.final["attr_is_data"] == 0,
            "an index was next": lambda e: e.address == e.base + 6
            and not e.refused
            and e.attr_is_data == 0,
        },
        ("attr_is_data",),
    ),
)
