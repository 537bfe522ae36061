"""What a card tells of itself, and what is told of a text. The fields have the names of
include/zaklimot.h."""

from __future__ import annotations

import builtins
from enum import IntEnum
from typing import Any, NamedTuple

from . import _structs as s
from ._errors import BY_NUMBER, Error
from ._pictures import Colour


class Why(IntEnum):
    """Why a step is refused: the kinds of reasons. `numbers` are the names of the numbers that tell
    more."""

    numbers: tuple[str, ...]

    def __new__(cls, value: int, *numbers: str) -> Why:
        made = int.__new__(cls, value)
        made._value_ = value
        made.numbers = numbers
        return made

    NO_PORT = 1, "port"
    """no part of the adapter decodes the port"""
    OTHER_CRT_CONTROLLER = 2, "port", "base", "there"
    """the CRT controller is at port `base` now, and `port` is `there`"""
    READ_ONLY = 3, "port"
    PORT_LEFT_OUT = 4, "port", "part"
    """the port would be a `Part`"""
    NO_REGISTER = 5, "group", "index", "last"
    """the last register of the `Group` is `last`"""
    BIT_LEFT_OUT = 6, "group", "index", "bit", "value"
    """the bit, 0 to 7, must be 0 in this register; `value` is the byte for it"""
    FIELD_LEFT_OUT = 7, "group", "index", "highest", "lowest", "wanted"
    """bits `highest` to `lowest` of this register must be `wanted`"""
    MEMORY_OFF = 8, "address"
    OUTSIDE_WINDOW = 9, "address", "map", "first", "last"
    """by the memory map, 0 to 3, the adapter decodes the addresses `first` to `last`"""
    LAST_PORT = 10
    """a word at port FFFF (hexadecimal) has no second byte"""
    LAST_ADDRESS = 11
    """nor has one at address FFFFFFFF"""
    NO_MODE_SET = 12, "function"
    NO_SERVICE = 13, "function", "al", "bl"
    """the video BIOS has no such function, or not with AL and BL"""
    NO_SUCH_MODE = 14, "mode"
    NO_PIXELS = 15, "mode"
    """the mode is text, and the call wants graphics"""
    NO_CHARACTER_MAP = 16, "mode"
    """the mode is graphics, and the call wants text"""
    NO_PAGE = 17, "page", "pages"
    """the mode has so many pages, numbered from 0"""
    CURSOR_OUTSIDE = 18, "page", "cell", "cells"
    """the page's cursor is at a cell, counted from 0, behind the last of `cells`"""
    POSITION_OUTSIDE = 19, "row", "column", "rows", "columns"
    PIXEL_OUTSIDE = 20, "x", "y", "width", "height"
    CELLS_PAST = 21, "count", "first", "cells"
    """`count` cells from `first` on go past the last of `cells`"""
    GLYPHS_PAST = 22, "count", "first"
    """`count` glyphs from character `first` on go past character FF (hexadecimal)"""
    NO_PALETTE_REGISTER = 23, "register"
    NO_BLINKING = 24, "value"
    """blinking is set by 1 and cleared by 0, and not by this value"""
    NO_ENTRY = 25, "entry"
    """the DAC has no such entry"""
    NO_ENTRIES = 26, "count", "first"
    """`count` entries from `first` on go past the DAC's last"""
    WRONG_BLOCK = 27, "length", "wanted"
    """the block has `length` bytes, and the call takes `wanted`"""
    NO_HEIGHT = 28, "height", "mode"
    """glyphs have no such number of scan lines in the mode"""
    TOO_MANY_DOTS = 29, "dots", "most"
    NO_CELLS_YET = 30
    """no mode is set, so there are no cells to show"""
    NO_CELLS = 31, "mode"
    """the mode is graphics, which has no cells to show"""


class Group(IntEnum):
    """Registers behind one index."""

    SEQUENCER = 0
    GRAPHICS_CONTROLLER = 1
    CRT_CONTROLLER = 2
    ATTRIBUTE_CONTROLLER = 3


class Part(IntEnum):
    """A part of the VGA that docs/PROFILE.md leaves out."""

    INPUT_STATUS_0 = 0
    SUBSYSTEM_ENABLE = 1
    DAC_STATE = 2
    FEATURE_CONTROL = 3


class Reason(NamedTuple):
    """Why the card would refuse a step."""

    refusal: type[Error]
    """the exception that the step's call would raise, such as `zaklimot.NotDecoded`"""
    why: Why
    numbers: dict[str, int]
    """the numbers that decide it, under the names of `why.numbers`"""
    is_high: bool
    """whether it is the high byte of a word that is refused"""
    text: str
    """a sentence, such as `No part of the adapter decodes port 060.`"""


_NAMED = {"group": Group, "part": Part}


def reason_of(told: s.zak_reason, text: str) -> Reason:
    """The reason of a call that would be refused."""
    why = Why(told.kind)
    numbers = {name: _NAMED.get(name, int)(value) for name, value in zip(why.numbers, told.numbers)}
    return Reason(BY_NUMBER[told.status], why, numbers, told.is_high, text)


class DotSource(NamedTuple):
    """Where the colour of a dot comes from, by the registers and the memory as they are now.

    What memory makes of the dot is told even if something else decides its colour. If
    `is_screen_off`, the dot is black. Otherwise, if not `is_palette_shown`, `number` is the
    overscan colour. In text `is_cursor` decides first, then `is_blinked_away`, `is_underlined` and
    `is_glyph_dot`.
    """

    counter: int
    """counter of the character that the dot comes from, 0 to FFFF (hexadecimal)"""
    address: int
    """where it is fetched in each plane, 0 to FFFF (hexadecimal)"""
    glyph_address: int
    """where the row of the glyph is in plane 2; 0 in graphics"""
    is_display: bool
    """whether the picture shows the dot"""
    panning: int
    """dots by which the picture is panned left, 0 to 8"""
    dot: int
    """the dot of the character, 0 to 8, after panning"""
    bytes: builtins.bytes
    """the bytes of planes 0 to 3 at the address"""
    is_text: bool
    character: int
    """the character of the cell, 0 to 255; 0 in graphics"""
    attribute: int
    """the attribute of the cell, 0 to 255; 0 in graphics"""
    map: int
    """the character map, 0 to 7; 0 in graphics"""
    glyph_row: int
    """the row of the glyph, whose left dot is bit 7; 0 in graphics"""
    is_cursor: bool
    """whether it is a dot of the cursor"""
    is_blinked_away: bool
    """whether its character blinks and is away now"""
    is_underlined: bool
    is_glyph_dot: bool
    is_foreground: bool
    """whether it has the foreground colour of its cell; False in graphics"""
    has_palette: bool
    """whether the palette registers count: always but in 256 colours"""
    nibble: int
    """the four bits of the dot; 0 in 256 colours, as are the next six"""
    palette_register: int
    """the four bits without those of planes that are not enabled"""
    palette_value: int
    """what that palette register holds, 0 to 63"""
    is_colour_select_wide: bool
    """whether colour select gives bits 5 and 4 of the number, too"""
    middle: int
    """bits 5 and 4 of the number, 0 to 3"""
    high: int
    """bits 7 and 6 of the number, 0 to 3"""
    is_palette_shown: bool
    """False where the overscan colour is shown instead"""
    number: int
    """the number of the colour, 0 to 255"""
    mask: int
    """the DAC's mask"""
    entry: int
    """the DAC's entry: the number, masked"""
    is_screen_off: bool
    colour: Colour
    """the colour, with six bits per component"""


_NUMBERS_OF_DOT = {
    "counter",
    "address",
    "glyph_address",
    "panning",
    "dot",
    "character",
    "attribute",
    "map",
    "glyph_row",
    "nibble",
    "palette_register",
    "palette_value",
    "middle",
    "high",
    "number",
    "mask",
    "entry",
}


def dot_source_of(told: s.zak_dot_source) -> DotSource:
    """The source of a dot as an object."""
    values: dict[str, Any] = {
        name: getattr(told, name) if name in _NUMBERS_OF_DOT else bool(getattr(told, name))
        for name in DotSource._fields
        if name not in ("bytes", "colour")
    }
    colour = Colour(told.colour.red, told.colour.green, told.colour.blue)
    return DotSource(bytes=bytes(told.bytes), colour=colour, **values)


class WriteStages(NamedTuple):
    """What a write of a byte does on its way to the planes. `data`, `combined`, `before` and
    `written` have the byte of each plane.

    In write mode 1 the planes get the latches, so `rotated`, `data`, `combined` and `mask` do not
    matter.
    """

    in_window: int
    """the address's offset in the window, 0 to FFFF (hexadecimal)"""
    offset: int
    """the offset in each plane"""
    write_mode: int
    """0 to 3"""
    rotated: int
    """the byte, rotated right"""
    data: bytes
    """what goes into the function: the rotated byte, or that of set/reset"""
    combined: bytes
    """what comes out of the function with the latches"""
    mask: int
    """the bits that may change; the others are those of the latches"""
    planes: int
    """bit p is 1 if the write reaches plane p"""
    before: bytes
    """what the planes hold before"""
    written: bytes
    """what the planes get that the write reaches"""


class ReadStages(NamedTuple):
    """What a read of a byte does on its way from the planes."""

    in_window: int
    """the address's offset in the window, 0 to FFFF (hexadecimal)"""
    offset: int
    """the offset in each plane"""
    loaded: bytes
    """what the latches get: the byte of each plane"""
    is_compare: bool
    """whether it is read mode 1, which compares colours"""
    plane: int
    """the plane that read mode 0 reads, 0 to 3"""
    value: int
    """the byte that the read returns"""


class Rebuilt(NamedTuple):
    """A script that leads from power-on to the state of a card."""

    script: bytes
    """the script, of version 1; `zaklimot.disassemble` gives its text"""
    are_dots_other: bool
    """whether the dots of the frame under way were drawn otherwise until now; all else is the
    same"""


class MistakeKind(IntEnum):
    """Kinds of mistakes in a text."""

    CHARACTER = 1
    """a character that no line has outside comments"""
    COMMENT = 2
    """a comment that begins as in another language"""
    STEP = 3
    """a first word that begins no line"""
    FORM = 4
    """a word too few or too many"""
    NUMBER = 5
    SHOW = 6
    """what `show` is to show"""
    CALL = 7
    """a register of `int`"""
    BLOCK = 8
    """the block of `int`"""
    ORDER = 9
    """a good line that may not stand there"""
    UNKNOWN = 10
    LONG_TEXT = 11
    """more than 16,777,216 bytes of text"""
    LONG_SCRIPT = 12
    """more than 16,777,216 bytes of script"""


class Mistake(NamedTuple):
    """What is wrong in a text that is no script."""

    line: int
    """number of the line, from 1; 0 if the mistake is in none"""
    start: int
    """where the wrong part of the line begins, from 0: counted in characters of a str, in bytes of
    bytes"""
    length: int
    """how long that part is; 0 where something is lacking at the line's end, and 1 before its
    comment"""
    kind: MistakeKind
    sentence: str
    """what is wrong, in lower case with no full stop"""
