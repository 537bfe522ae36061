"""The rules of SERVICES.md and MODES.md that elements of the video BIOS show."""

from functools import partial
from typing import NamedTuple

from .seen import Branch, SeenElement, ShownRule
from .service_kinds import MODES, ONE_PAGE, PACKED_MODES, PLANAR_MODES, SHAPES, TEXTS

PAGE, MODE_PAGE = "docs/SERVICES.md#", "docs/MODES.md#"
INT = ("int",)
# The functions that this adapter has.
KNOWN = (0, 1, 2, 3, 5, 6, 7, 8, 9, 0x0A, 0x0C, 0x0D, 0x0E, 0x0F, 0x10, 0x11, 0x12, 0x13, 0x1A)
CONTROLS = (7, 8, 0x0A, 0x0D)


def _done(e: SeenElement, *functions: int, modes: tuple[int, ...] = MODES) -> bool:
    """Whether a call of one of these functions is done, in one of these modes."""
    return e.ah in functions and not e.refused and e.bda["mode"] in modes


def _refused(e: SeenElement, function: int, reason: str) -> bool:
    return e.ah == function and e.refused == reason


def _in_modes(*functions: int) -> dict[str, Branch]:
    """The branches of functions that text, 16 colours and 256 colours do in their own ways."""
    return {
        "text": lambda e: _done(e, *functions, modes=TEXTS),
        "16 colours": lambda e: _done(e, *functions, modes=PLANAR_MODES),
        "mode 13": lambda e: _done(e, *functions, modes=PACKED_MODES),
    }


def _refusals(function: int, *reasons: str) -> dict[str, Branch]:
    return {
        f"refused: {reason}": partial(_refused, function=function, reason=reason)
        for reason in reasons
    }


def _part(e: SeenElement, part: int) -> bool:
    return _done(e, 0x10) and e.al == part


def _sets(e: SeenElement, mode: int) -> bool:
    return e.ah == 0 and not e.refused and e.al & 0x7F == mode


def _cursor(e: SeenElement) -> tuple[int, int]:
    """Row and column of the cursor on the active page."""
    row, column = divmod(e.bda["cursor_places"][e.bda["page"]], 256)
    return row, column


def _columns(e: SeenElement) -> int:
    return SHAPES[e.bda["mode"]].columns


def _typed(e: SeenElement, character: int) -> bool:
    return _done(e, 0x0E) and e.al == character


class CalledWindow(NamedTuple):
    """A window of cells: its first and its last row, and its first and its last column."""

    top: int
    low: int
    left: int
    right: int


def _window(e: SeenElement) -> CalledWindow:
    """The window of functions 6 and 7 as the registers name it."""
    cx, dx = e.numbers[2:4]
    return CalledWindow(cx >> 8, dx >> 8, cx & 0xFF, dx & 0xFF)


def _scrolls(e: SeenElement, function: int, rows: str) -> bool:
    """Whether a window scrolls by a part of its rows, or becomes blank."""
    if not _done(e, function):
        return False
    top, low, left, right = _window(e)
    height = min(low, e.bda["last_row"]) - top + 1
    if height < 1 or left > min(right, _columns(e) - 1):
        return rows == "no window"
    return rows == ("some" if 0 < e.al < height else "all")


def _is_cut(e: SeenElement) -> bool:
    window = _window(e)
    return _done(e, 6, 7) and bool(window.low > e.bda["last_row"] or window.right >= _columns(e))


def _is_last_row(e: SeenElement) -> bool:
    return bool(_cursor(e)[0] == e.bda["last_row"])


def _breaks(e: SeenElement) -> bool:
    """Whether a character is typed in the last column."""
    return _done(e, 0x0E) and e.al not in CONTROLS and _cursor(e)[1] == _columns(e) - 1


def _text(e: SeenElement) -> bool:
    return e.bda["mode"] in TEXTS


def _string(e: SeenElement, part: int) -> bool:
    return _done(e, 0x13) and e.al == part


def _page_of(e: SeenElement) -> int:
    """The page that a call names in BH."""
    return e.numbers[1] >> 8


def _by_xor(e: SeenElement, function: int) -> bool:
    """Whether a colour's bit 7 asks for XOR, in 16 colours."""
    colour = e.al if function == 0x0C else e.numbers[1] & 0xFF
    return _done(e, function, modes=PLANAR_MODES) and bool(colour & 0x80)


def _height(e: SeenElement, height: int) -> bool:
    return _done(e, 0x11) and e.final["bda"]["height"] == height


RULES = (
    ShownRule(
        "no mode is set",
        PAGE + "refusals",
        INT,
        {
            "refused": lambda e: e.refused == "NoMode",
            "before an unknown function": lambda e: e.refused == "NoMode" and e.ah not in KNOWN,
            "a mode set is done": lambda e: e.ah == 0 and not e.refused and not e.bda["mode"],
        },
        ("refused",),
    ),
    ShownRule(
        "unknown functions",
        PAGE + "refusals",
        INT,
        {
            "no such function": lambda e: e.refused == "BadFunction" and e.ah not in KNOWN,
            "no such part of function 10": partial(_refused, function=16, reason="BadFunction"),
            "no such part of function 11": partial(_refused, function=17, reason="BadFunction"),
            "no such part of function 12": partial(_refused, function=18, reason="BadFunction"),
            "no such part of function 13": partial(_refused, function=19, reason="BadFunction"),
            "no such part of function 1A": partial(_refused, function=26, reason="BadFunction"),
        },
        ("refused",),
    ),
    ShownRule(
        "00 sets a mode",
        PAGE + "00-set-a-mode",
        INT,
        {
            **{f"mode {mode:02X}": partial(_sets, mode=mode) for mode in MODES},
            "the memory is kept": lambda e: e.ah == 0 and not e.refused and e.al & 0x80,
            "from another mode": lambda e: e.ah == 0
            and not e.refused
            and e.bda["mode"] not in (0, e.al & 0x7F),
            **_refusals(0, "BadMode"),
        },
    ),
    ShownRule(
        "a mode set leaves latches and beam",
        MODE_PAGE + "what-else-a-mode-set-leaves",
        INT,
        {
            "latches": lambda e: e.ah == 0
            and not e.refused
            and any(e.latches)
            and not e.has_changed("latches")
        },
        ("latches", "beam"),
    ),
    ShownRule(
        "01 sets the cursor's scan lines",
        PAGE + "01-set-the-cursors-scan-lines",
        INT,
        {
            "done": lambda e: _done(e, 1) and not e.numbers[2] & 0x2000,
            "no cursor": lambda e: _done(e, 1) and e.numbers[2] & 0x2000,
            **_refusals(1, "NoMode"),
        },
    ),
    ShownRule(
        "02 sets the cursor position",
        PAGE + "02-set-the-cursor-position",
        INT,
        {
            "of the active page, in text": lambda e: _done(e, 2, modes=TEXTS)
            and _page_of(e) == e.bda["page"],
            "of another page, in text": lambda e: _done(e, 2, modes=TEXTS)
            and _page_of(e) != e.bda["page"],
            "in graphics": lambda e: _done(e, 2) and not _text(e),
            "outside the page": lambda e: _done(e, 2)
            and (e.numbers[3] >> 8 > e.bda["last_row"] or e.numbers[3] & 0xFF >= _columns(e)),
            "modes of one page take any": lambda e: _done(e, 2, modes=ONE_PAGE) and _page_of(e),
            **_refusals(2, "BadPage"),
        },
    ),
    ShownRule(
        "03 reads the cursor",
        PAGE + "03-read-the-cursor",
        INT,
        {"done": lambda e: _done(e, 3), **_refusals(3, "BadPage")},
    ),
    ShownRule(
        "05 shows a page",
        PAGE + "05-show-a-page",
        INT,
        {
            "text": lambda e: _done(e, 5, modes=TEXTS),
            "graphics": lambda e: _done(e, 5) and not _text(e),
            **_refusals(5, "BadPage"),
        },
    ),
    ShownRule(
        "06 and 07 scroll a window",
        PAGE + "06-and-07-scroll-a-window",
        INT,
        {
            **_in_modes(6, 7),
            "up": partial(_scrolls, function=6, rows="some"),
            "down": partial(_scrolls, function=7, rows="some"),
            "up, all blank": partial(_scrolls, function=6, rows="all"),
            "down, all blank": partial(_scrolls, function=7, rows="all"),
            "no window": lambda e: _scrolls(e, 6, "no window") or _scrolls(e, 7, "no window"),
            "cut to the page": _is_cut,
        },
    ),
    ShownRule(
        "08 reads a cell",
        PAGE + "08-read-a-cell",
        INT,
        {**_in_modes(8), **_refusals(8, "BadPage", "Outside")},
    ),
    ShownRule(
        "09 and 0A write cells",
        PAGE + "09-and-0a-write-cells",
        INT,
        {
            **_in_modes(9, 0x0A),
            "0A leaves attributes": lambda e: _done(e, 0x0A, modes=TEXTS) and e.numbers[2],
            "by XOR": lambda e: _by_xor(e, 9) or _by_xor(e, 0x0A),
            "no cell": lambda e: _done(e, 9, 0x0A) and not e.numbers[2],
            **_refusals(9, "BadPage", "Outside", "CountPast"),
            "0A, refused": lambda e: e.ah == 0x0A and e.refused,
        },
    ),
    ShownRule(
        "0C writes a dot",
        PAGE + "0c-write-a-dot",
        INT,
        {
            "16 colours": lambda e: _done(e, 0x0C, modes=PLANAR_MODES),
            "by XOR": partial(_by_xor, function=0x0C),
            "mode 13": lambda e: _done(e, 0x0C, modes=PACKED_MODES),
            **_refusals(0x0C, "WrongKind", "BadPage", "Outside"),
        },
    ),
    ShownRule(
        "0D reads a dot",
        PAGE + "0d-read-a-dot",
        INT,
        {
            "16 colours": lambda e: _done(e, 0x0D, modes=PLANAR_MODES),
            "mode 13": lambda e: _done(e, 0x0D, modes=PACKED_MODES),
            **_refusals(0x0D, "WrongKind", "BadPage", "Outside"),
        },
    ),
    ShownRule(
        "0E types a character",
        PAGE + "0e-type-a-character",
        INT,
        {
            **_in_modes(0x0E),
            "bell": partial(_typed, character=7),
            "backspace": partial(_typed, character=8),
            "backspace in column 0": lambda e: _typed(e, 8) and not _cursor(e)[1],
            "line feed": lambda e: _typed(e, 0x0A) and not _is_last_row(e),
            "line feed on the last row": lambda e: _typed(e, 0x0A) and _is_last_row(e),
            "carriage return": partial(_typed, character=0x0D),
            "in the last column": lambda e: _breaks(e) and not _is_last_row(e),
            "in the last cell": lambda e: _breaks(e) and _is_last_row(e),
            **_refusals(0x0E, "Outside"),
        },
    ),
    ShownRule(
        "0F reads the mode",
        PAGE + "0f-read-the-mode",
        INT,
        {"done": lambda e: _done(e, 0x0F), **_refusals(0x0F, "NoMode")},
    ),
    ShownRule(
        "10 sets and reads palette and DAC",
        PAGE + "10-palette-and-dac",
        INT,
        {
            **{
                f"part {part:02X}": partial(_part, part=part)
                for part in (0, 1, 2, 3, 7, 8, 9, 0x10, 0x12, 0x15, 0x17, 0x18, 0x19)
            },
            "entries, none of them": lambda e: _done(e, 0x10)
            and e.al in (0x12, 0x17)
            and not e.numbers[2],
            **_refusals(0x10, "BadRegister", "BadBlock"),
        },
    ),
    ShownRule(
        "11 loads glyphs",
        PAGE + "11-load-glyphs",
        INT,
        {
            "of a block": lambda e: _done(e, 0x11) and e.al == 0x10 and e.numbers[2],
            "none": lambda e: _done(e, 0x11) and e.al == 0x10 and not e.numbers[2],
            "a font": lambda e: _done(e, 0x11) and e.al != 0x10,
            "8 scan lines": partial(_height, height=8),
            "14 scan lines": partial(_height, height=14),
            "16 scan lines": partial(_height, height=16),
            **_refusals(0x11, "WrongKind", "CountPast", "BadBlock", "BadHeight"),
        },
    ),
    ShownRule(
        "12 reads the adapter",
        PAGE + "12-read-the-adapter",
        INT,
        {
            "a colour mode": lambda e: _done(e, 0x12) and e.bda["mode"] != 7,
            "mode 7": lambda e: _done(e, 0x12, modes=(7,)),
        },
    ),
    ShownRule(
        "13 writes a string",
        PAGE + "13-write-a-string",
        INT,
        {
            **_in_modes(0x13),
            **{f"part {part:02X}": partial(_string, part=part) for part in range(4)},
            "no character": lambda e: _done(e, 0x13) and not e.numbers[2],
            "control characters": lambda e: _done(e, 0x13) and {*e.block} & {*CONTROLS},
            **_refusals(0x13, "BadPage", "Outside", "BadBlock"),
        },
    ),
    ShownRule(
        "1A reads the display",
        PAGE + "1a-read-the-display",
        INT,
        {"done": lambda e: _done(e, 0x1A), **_refusals(0x1A, "NoMode")},
    ),
    ShownRule(
        "services use registers as they find them",
        PAGE + "characters-and-blanks",
        INT,
        {
            "bit mask": lambda e: e.ah
            and not e.refused
            and "gfx" in e.initial
            and e.gfx[8] != 0xFF
            and e.bda["mode"],
            "memory is not decoded": lambda e: e.ah
            and not e.refused
            and e.bda["mode"]
            and "planes" in e.initial
            and not e.misc & 2,
            "the CRT controller is at the other base": lambda e: e.ah
            and not e.refused
            and "crtc" in e.initial
            and e.bda["mode"]
            and e.base != e.bda["crtc_address"],
        },
    ),
)
