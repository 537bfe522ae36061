"""What registers say of a frame and of text: its lines and rows, where bytes are fetched, and where
glyphs stand.

docs/RASTER.md and docs/REGISTERS.md have the rules. Registers come as sequences, by their numbers:
`crtc` those of the CRT controller, `seq` of the sequencer, `gfx` of the graphics controller.
"""

from typing import NamedTuple, Sequence

# Registers of the CRT controller.
TOTAL = 0x00
SHOWN_CHARACTERS = 0x01
LINES = 0x06
OVERFLOW = 0x07
PRESET_SCAN = 0x08
MOST_SCAN = 0x09
START_HIGH = 0x0C
START_LOW = 0x0D
RETRACE_START = 0x10
LAST_LINE = 0x12
OFFSET = 0x13
UNDERLINE = 0x14
MODE_CONTROL = 0x17
LINE_COMPARE = 0x18
# Bits of maximum scan line, underline location and mode control; and the bits of a scan line in the
# registers that name one.
DOUBLE_SCAN = 0x80
DOUBLE_WORD = 0x40
WRAPS_AT_15 = 0x20
BYTE_MODE = 0x40
SCAN = 0x1F
# Registers of the sequencer and of the graphics controller.
CLOCKING = 1
MAP_SELECT = 3
MISCELLANEOUS = 6
# Counters, and offsets in a plane, have 16 bits.
COUNTER = 0xFFFF
# The bytes of plane 2 from a character map to the next of the first four; the others lie half as
# far above these.
MAP_BYTES = 0x4000


def is_graphics(gfx: Sequence[int]) -> bool:
    """Whether graphics are shown, and not text."""
    return bool(gfx[MISCELLANEOUS] & 1)


def character_dots(seq: Sequence[int]) -> int:
    """How many dots a character has, 8 or 9."""
    return 8 if seq[CLOCKING] & 1 else 9


def line_characters(crtc: Sequence[int]) -> int:
    """How many characters a line has, those that aren't displayed among them."""
    return crtc[TOTAL] + 5


def frame_lines(crtc: Sequence[int]) -> int:
    """How many lines a frame has, those that aren't displayed among them."""
    bits = crtc[OVERFLOW]
    return crtc[LINES] + ((bits & 0x01) << 8) + ((bits & 0x20) << 4) + 2


def last_line(crtc: Sequence[int]) -> int:
    """The last line that is displayed, if the frame has so many."""
    bits = crtc[OVERFLOW]
    return crtc[LAST_LINE] | (bits & 0x02) << 7 | (bits & 0x40) << 3


def retrace_start(crtc: Sequence[int]) -> int:
    """The line in which vertical retrace begins."""
    bits = crtc[OVERFLOW]
    return crtc[RETRACE_START] | (bits & 0x04) << 6 | (bits & 0x80) << 2


def line_compare(crtc: Sequence[int]) -> int:
    """The line after which memory is shown from its beginning on."""
    return crtc[LINE_COMPARE] | (crtc[OVERFLOW] & 0x10) << 4 | (crtc[MOST_SCAN] & 0x40) << 3


def preset_scan(crtc: Sequence[int]) -> int:
    """The scan line, counted from 0, with which the first row of a frame begins."""
    return crtc[PRESET_SCAN] & SCAN


def last_scan(crtc: Sequence[int]) -> int:
    """The last scan line of a row, counted from 0."""
    return crtc[MOST_SCAN] & SCAN


def underline_scan(crtc: Sequence[int]) -> int:
    """The scan line of a row in which characters are underlined, if the row has so many."""
    return crtc[UNDERLINE] & SCAN


def is_doubled(crtc: Sequence[int]) -> bool:
    """Whether each scan line of a row is two lines of a frame."""
    return bool(crtc[MOST_SCAN] & DOUBLE_SCAN)


def row_scans(crtc: Sequence[int]) -> int:
    """How many scan lines a row has."""
    return last_scan(crtc) + 1


def row_lines(crtc: Sequence[int]) -> int:
    """How many lines of a frame a row has."""
    return row_scans(crtc) * (2 if is_doubled(crtc) else 1)


def start_address(crtc: Sequence[int]) -> int:
    """The counter of the first character, without byte panning."""
    return crtc[START_HIGH] << 8 | crtc[START_LOW]


def byte_panning(crtc: Sequence[int]) -> int:
    """By how many counters the picture is shifted, 0 to 3."""
    return crtc[PRESET_SCAN] >> 5 & 3


def first_counter(crtc: Sequence[int]) -> int:
    """The counter of the first character, with byte panning."""
    return start_address(crtc) + byte_panning(crtc) & COUNTER


def fetch_address(crtc: Sequence[int], counter: int) -> int:
    """The offset in each plane at which the bytes of a counter are fetched."""
    if crtc[UNDERLINE] & DOUBLE_WORD:
        return 4 * counter & COUNTER
    if crtc[MODE_CONTROL] & BYTE_MODE:
        return counter
    wrapped = counter >> (15 if crtc[MODE_CONTROL] & WRAPS_AT_15 else 13) & 1
    return 2 * counter & COUNTER | wrapped


class CharacterMaps(NamedTuple):
    """The numbers of the two character maps, 0 to 7: that of characters with attribute bit 3, and
    that of the others."""

    a: int
    b: int


def character_maps(seq: Sequence[int]) -> CharacterMaps:
    """The maps that character map select chooses."""
    select = seq[MAP_SELECT]
    return CharacterMaps(
        (select >> 5 & 1) << 2 | select >> 2 & 3, (select >> 4 & 1) << 2 | select & 3
    )


def map_begin(number: int) -> int:
    """The offset in plane 2 at which a character map begins."""
    return (number & 3) * MAP_BYTES + (number >> 2) * (MAP_BYTES // 2)
