"""What registers say of lines, rows, fetches and glyphs: tables of registers, with what the
reference says of each. No number here comes of the code."""

import unittest
from typing import Callable, Iterator, Mapping, NamedTuple, Sequence

from zaklimot.commands.explain import raster
from zaklimot.commands.steps.dot_kinds import counters_of

from .tools import want_library
from .tracing import text_screen

# How many registers the CRT controller, the sequencer and the graphics controller have.
CRTC = 25
SEQ = 5
GFX = 9


def filled(count: int, named: Mapping[int, int], other: int = 0) -> list[int]:
    """So many registers: those that are named, and this value in all others."""
    return [named.get(number, other) for number in range(count)]


def with_others(count: int, named: Mapping[int, int]) -> Iterator[list[int]]:
    """Registers among others that are all 00, and all FF: those have no part in the answer."""
    return (filled(count, named, other) for other in (0x00, 0xFF))


class Told(NamedTuple):
    """What the named registers of the CRT controller say by a rule."""

    rule: Callable[[Sequence[int]], int]
    named: Mapping[int, int]
    wanted: int


# Where a field is in several registers, each of its high bits stands alone once, and all other bits
# of their registers once without them.
TOLD = (
    # The horizontal total is five less than the characters of a line.
    Told(raster.line_characters, {0x00: 0x00}, 5),
    Told(raster.line_characters, {0x00: 0x5F}, 100),
    Told(raster.line_characters, {0x00: 0xFF}, 260),
    # The vertical total is two less than the lines of a frame; overflow 0 and 5 are its bits 8 and
    # 9.
    Told(raster.frame_lines, {0x06: 0x00, 0x07: 0x00}, 2),
    Told(raster.frame_lines, {0x06: 0x34, 0x07: 0x01}, 0x134 + 2),
    Told(raster.frame_lines, {0x06: 0x34, 0x07: 0x20}, 0x234 + 2),
    Told(raster.frame_lines, {0x06: 0x34, 0x07: 0xDE}, 0x034 + 2),
    Told(raster.frame_lines, {0x06: 0xFF, 0x07: 0xFF}, 0x3FF + 2),
    # The vertical display enable end is the last displayed line; overflow 1 and 6.
    Told(raster.last_line, {0x12: 0x00, 0x07: 0x00}, 0x000),
    Told(raster.last_line, {0x12: 0x56, 0x07: 0x02}, 0x156),
    Told(raster.last_line, {0x12: 0x56, 0x07: 0x40}, 0x256),
    Told(raster.last_line, {0x12: 0x56, 0x07: 0xBD}, 0x056),
    Told(raster.last_line, {0x12: 0xFF, 0x07: 0xFF}, 0x3FF),
    # The vertical retrace start; overflow 2 and 7.
    Told(raster.retrace_start, {0x10: 0x00, 0x07: 0x00}, 0x000),
    Told(raster.retrace_start, {0x10: 0x78, 0x07: 0x04}, 0x178),
    Told(raster.retrace_start, {0x10: 0x78, 0x07: 0x80}, 0x278),
    Told(raster.retrace_start, {0x10: 0x78, 0x07: 0x7B}, 0x078),
    Told(raster.retrace_start, {0x10: 0xFF, 0x07: 0xFF}, 0x3FF),
    # The line compare; overflow 4, and bit 6 of maximum scan line.
    Told(raster.line_compare, {0x18: 0x00, 0x07: 0x00, 0x09: 0x00}, 0x000),
    Told(raster.line_compare, {0x18: 0x9A, 0x07: 0x10, 0x09: 0x00}, 0x19A),
    Told(raster.line_compare, {0x18: 0x9A, 0x07: 0x00, 0x09: 0x40}, 0x29A),
    Told(raster.line_compare, {0x18: 0x9A, 0x07: 0xEF, 0x09: 0xBF}, 0x09A),
    Told(raster.line_compare, {0x18: 0xFF, 0x07: 0xFF, 0x09: 0xFF}, 0x3FF),
    # The preset row scan, the maximum scan line and the underline location have five bits each.
    Told(raster.preset_scan, {0x08: 0x00}, 0),
    Told(raster.preset_scan, {0x08: 0x1F}, 31),
    Told(raster.preset_scan, {0x08: 0xF0}, 16),
    Told(raster.preset_scan, {0x08: 0xE1}, 1),
    Told(raster.last_scan, {0x09: 0x00}, 0),
    Told(raster.last_scan, {0x09: 0x1F}, 31),
    Told(raster.last_scan, {0x09: 0xF0}, 16),
    Told(raster.underline_scan, {0x14: 0x1F}, 31),
    Told(raster.underline_scan, {0x14: 0x50}, 16),
    Told(raster.underline_scan, {0x14: 0xE2}, 2),
    # The maximum scan line is one less than the scan lines of a row.
    Told(raster.row_scans, {0x09: 0x00}, 1),
    Told(raster.row_scans, {0x09: 0x4F}, 16),
    Told(raster.row_scans, {0x09: 0x1F}, 32),
    Told(raster.row_scans, {0x09: 0xE0}, 1),
    # Double scan shows each of them in two lines.
    Told(raster.is_doubled, {0x09: 0x7F}, False),
    Told(raster.is_doubled, {0x09: 0x80}, True),
    Told(raster.row_lines, {0x09: 0x00}, 1),
    Told(raster.row_lines, {0x09: 0x6F}, 16),
    Told(raster.row_lines, {0x09: 0x80}, 2),
    Told(raster.row_lines, {0x09: 0xC7}, 16),
    Told(raster.row_lines, {0x09: 0xFF}, 64),
    # The start address is of 16 bits, and bits 6-5 of preset row scan are beside it.
    Told(raster.start_address, {0x0C: 0x12, 0x0D: 0x34}, 0x1234),
    Told(raster.start_address, {0x0C: 0x00, 0x0D: 0xFF}, 0x00FF),
    Told(raster.start_address, {0x0C: 0xFF, 0x0D: 0x00}, 0xFF00),
    Told(raster.byte_panning, {0x08: 0x9F}, 0),
    Told(raster.byte_panning, {0x08: 0x20}, 1),
    Told(raster.byte_panning, {0x08: 0x40}, 2),
    Told(raster.byte_panning, {0x08: 0xE0}, 3),
    Told(raster.first_counter, {0x0C: 0x12, 0x0D: 0x34, 0x08: 0x00}, 0x1234),
    Told(raster.first_counter, {0x0C: 0x12, 0x0D: 0x34, 0x08: 0x20}, 0x1235),
    Told(raster.first_counter, {0x0C: 0x12, 0x0D: 0x34, 0x08: 0x40}, 0x1236),
    Told(raster.first_counter, {0x0C: 0x12, 0x0D: 0x34, 0x08: 0x60}, 0x1237),
    Told(raster.first_counter, {0x0C: 0x12, 0x0D: 0x34, 0x08: 0x1F}, 0x1234),
    Told(raster.first_counter, {0x0C: 0x12, 0x0D: 0xFF, 0x08: 0x20}, 0x1300),
    # A counter has 16 bits.
    Told(raster.first_counter, {0x0C: 0xFF, 0x0D: 0xFE, 0x08: 0x60}, 0x0001),
)


class ModeFrame(NamedTuple):
    """The CRT controller and clocking mode of a mode, and what its frame is by them."""

    crtc: str
    clocking: int
    dots: int
    characters: int
    lines: int
    last_line: int
    retrace: int
    row_lines: int


# IBM's values for the modes 3, D, 10, 12 and 13. Of all but mode 12 a frame has 449 lines, of which
# 400 or 350 are displayed, and of mode 12 525, of which 480 are.
MODES = {
    0x03: ModeFrame(
        "5F 4F 50 82 55 81 BF 1F 00 4F 0D 0E 00 00 00 00 9C 8E 8F 28 1F 96 B9 A3 FF",
        *(0x00, 9, 100, 449, 399, 412, 16),
    ),
    0x0D: ModeFrame(
        "2D 27 28 90 2B 80 BF 1F 00 C0 00 00 00 00 00 00 9C 8E 8F 14 00 96 B9 E3 FF",
        *(0x09, 8, 50, 449, 399, 412, 2),
    ),
    0x10: ModeFrame(
        "5F 4F 50 82 54 80 BF 1F 00 40 00 00 00 00 00 00 83 85 5D 28 0F 63 BA E3 FF",
        *(0x01, 8, 100, 449, 349, 387, 1),
    ),
    0x12: ModeFrame(
        "5F 4F 50 82 54 80 0B 3E 00 40 00 00 00 00 00 00 EA 8C DF 28 00 E7 04 E3 FF",
        *(0x01, 8, 100, 525, 479, 490, 1),
    ),
    0x13: ModeFrame(
        "5F 4F 50 82 54 80 BF 1F 00 41 00 00 00 00 00 00 9C 8E 8F 28 40 96 B9 A3 FF",
        *(0x01, 8, 100, 449, 399, 412, 2),
    ),
}


class Frames(unittest.TestCase):
    def test_fields_of_the_controller(self) -> None:
        for told in TOLD:
            for registers in with_others(CRTC, told.named):
                with self.subTest(told.rule.__name__, named=told.named):
                    self.assertEqual(told.rule(registers), told.wanted)

    def test_eight_dots_by_the_lowest_bit_of_clocking_mode_alone(self) -> None:
        # The others are shift load, half the clock, shift four, and screen off.
        for clocking, dots in ((0x00, 9), (0x3C, 9), (0x3E, 9), (0x01, 8), (0x09, 8), (0x3D, 8)):
            for registers in with_others(SEQ, {1: clocking}):
                self.assertEqual(raster.character_dots(registers), dots, f"{clocking:02X}")

    def test_graphics_by_the_lowest_bit_of_miscellaneous_alone(self) -> None:
        # 256 colours, bit 6 of graphics mode, make no graphics of text.
        for bits, is_graphics in ((0x00, False), (0x0E, False), (0x01, True), (0x05, True)):
            for registers in with_others(GFX, {6: bits}):
                self.assertIs(raster.is_graphics(registers), is_graphics, f"{bits:02X}")

    def test_frames_of_modes(self) -> None:
        for mode, wanted in MODES.items():
            crtc = bytes.fromhex(wanted.crtc)
            with self.subTest(f"mode {mode:02X}"):
                dots = raster.character_dots(filled(SEQ, {1: wanted.clocking}))
                self.assertEqual(dots, wanted.dots)
                self.assertEqual(raster.line_characters(crtc), wanted.characters)
                self.assertEqual(raster.frame_lines(crtc), wanted.lines)
                self.assertEqual(raster.last_line(crtc), wanted.last_line)
                self.assertEqual(raster.retrace_start(crtc), wanted.retrace)
                self.assertEqual(raster.row_lines(crtc), wanted.row_lines)
                # No mode splits its screen: the line compare is past each frame.
                self.assertEqual(raster.line_compare(crtc), 1023)


class Fetch(NamedTuple):
    """Underline location and mode control, a counter, and the offset at which it is fetched."""

    underline: int
    control: int
    counter: int
    wanted: int


FETCHES = (
    # Double word mode, which comes before byte mode: its two lowest bits are 0, and others go past
    # the end.
    Fetch(0x40, 0xA3, 0x0001, 0x0004),
    Fetch(0x5F, 0xE3, 0x0001, 0x0004),
    Fetch(0x40, 0xA3, 0x3FFF, 0xFFFC),
    Fetch(0x40, 0x83, 0x4001, 0x0004),
    Fetch(0x40, 0xE3, 0xFFFF, 0xFFFC),
    # Byte mode, with address wrap or without it.
    Fetch(0x00, 0xC3, 0x0001, 0x0001),
    Fetch(0x1F, 0xE3, 0xBEEF, 0xBEEF),
    Fetch(0x00, 0xC3, 0xFFFF, 0xFFFF),
    # Word mode without address wrap: bit 13 of the counter becomes the lowest, and bit 15 is lost.
    Fetch(0x1F, 0x83, 0x0001, 0x0002),
    Fetch(0x00, 0x83, 0x1FFF, 0x3FFE),
    Fetch(0x00, 0x83, 0x2000, 0x4001),
    Fetch(0x00, 0x83, 0x4000, 0x8000),
    Fetch(0x00, 0x83, 0x8000, 0x0000),
    Fetch(0x00, 0x83, 0xA003, 0x4007),
    # Word mode with address wrap: bit 15 becomes the lowest, and bit 13 is one of the others.
    Fetch(0x1F, 0xA3, 0x0001, 0x0002),
    Fetch(0x00, 0xA3, 0x2000, 0x4000),
    Fetch(0x00, 0xA3, 0x7FFF, 0xFFFE),
    Fetch(0x00, 0xA3, 0x8000, 0x0001),
    Fetch(0x00, 0xA3, 0xA003, 0x4007),
    Fetch(0x00, 0xA3, 0xFFFF, 0xFFFF),
)


class Fetches(unittest.TestCase):
    def test_where_a_counter_is_fetched(self) -> None:
        for fetch in FETCHES:
            named = {0x14: fetch.underline, 0x17: fetch.control}
            for registers in with_others(CRTC, named):
                with self.subTest(fetch):
                    self.assertEqual(raster.fetch_address(registers, fetch.counter), fetch.wanted)

    def test_counters_of_a_line_and_of_the_character_after_it(self) -> None:
        crtc = filled(CRTC, {0x01: 2, 0x08: 0x40, 0x0C: 0xFF, 0x0D: 0xFD})
        begin = dict.fromkeys(("line", "character", "dot"), 0)
        # A frame's first dot takes the start address; those after it have the base of the beam.
        for beam, wanted in (
            ({**begin, "base": 0x1234}, [0xFFFF, 0, 1, 2]),
            ({**begin, "dot": 1, "base": 0x1234}, [0x1234, 0x1235, 0x1236, 0x1237]),
            ({**begin, "line": 1, "base": 0xFFFE}, [0xFFFE, 0xFFFF, 0, 1]),
        ):
            self.assertEqual(counters_of({"crtc": crtc}, beam), wanted, beam)


class Rows(NamedTuple):
    """Registers of the CRT controller beside those of SHAPE, and the offsets at which the cells of
    each row that is shown are fetched."""

    what: str
    named: Mapping[int, int]
    wanted: Sequence[Sequence[int]]


# A frame of 62 lines, of which 12 are displayed, two characters each; four scan lines a row; rows
# are eight counters apart, which are bytes; the line compare is past the frame.
SHAPE = {0x00: 20, 0x01: 1, 0x06: 60, 0x09: 0x43, 0x12: 11, 0x13: 4, 0x17: 0xC3, 0x18: 0xFF}
ROWS = (
    Rows("three rows", {}, [[0, 1], [8, 9], [16, 17]]),
    Rows("a start", {0x0C: 0x20, 0x0D: 5}, [[0x2005, 0x2006], [0x200D, 0x200E], [0x2015, 0x2016]]),
    Rows("byte panning", {0x08: 0x60}, [[3, 4], [11, 12], [19, 20]]),
    Rows("a start that wraps", {0x0C: 0xFF, 0x0D: 0xFF}, [[0xFFFF, 0], [7, 8], [15, 16]]),
    Rows("rows that wrap", {0x0C: 0xFF, 0x0D: 0xF6}, [[0xFFF6, 0xFFF7], [0xFFFE, 0xFFFF], [6, 7]]),
    Rows("another offset", {0x13: 40}, [[0, 1], [80, 81], [160, 161]]),
    Rows("no offset", {0x13: 0}, [[0, 1], [0, 1], [0, 1]]),
    Rows("words", {0x17: 0xA3}, [[0, 2], [16, 18], [32, 34]]),
    Rows("double words", {0x14: 0x40}, [[0, 4], [32, 36], [64, 68]]),
    Rows("three characters", {0x01: 2}, [[0, 1, 2], [8, 9, 10], [16, 17, 18]]),
    # A line has no more characters than its total, and a frame no more lines.
    Rows(
        "more than a line has",
        {0x00: 0, 0x01: 9},
        [[0, 1, 2, 3, 4], [*range(8, 13)], [*range(16, 21)]],
    ),
    Rows("more than a frame has", {0x06: 4}, [[0, 1], [8, 9]]),
    Rows("a part of a row", {0x12: 8}, [[0, 1], [8, 9], [16, 17]]),
    Rows("no part of a row", {0x12: 7}, [[0, 1], [8, 9]]),
    Rows("six scan lines", {0x09: 0x45}, [[0, 1], [8, 9]]),
    # The first row lacks as many scan lines as are preset: two rows are whole, and two aren't.
    Rows("preset row scan", {0x08: 2}, [[0, 1], [8, 9], [16, 17], [24, 25]]),
    # A scan line past the last one of a row ends it with line 0.
    Rows("preset past a row", {0x08: 0x10}, [[0, 1], [8, 9], [16, 17], [24, 25]]),
    # Lines 0 to 7 show the first row, and 8 to 11 half of the next.
    Rows("double scan", {0x09: 0xC3}, [[0, 1], [8, 9]]),
    Rows("double scan, rows of four lines", {0x09: 0xC1}, [[0, 1], [8, 9], [16, 17]]),
    Rows("double scan up to a row's end", {0x09: 0xC3, 0x12: 7}, [[0, 1]]),
    # Lines 0 to 3 show the scan lines 2 and 3.
    Rows("double scan, preset", {0x08: 2, 0x09: 0xC3, 0x12: 4}, [[0, 1], [8, 9]]),
    # After lines 0 to 5 of memory from 800 on, its beginning: lines 6 to 9, and 10 to 11.
    Rows(
        "line compare",
        {0x0C: 8, 0x09: 0x03, 0x18: 5},
        [[0x800, 0x801], [0x808, 0x809], [0, 1], [8, 9]],
    ),
    # Line 3 ends both the row and the part above: the next is memory's first row.
    Rows(
        "line compare at a row's end",
        {0x0C: 8, 0x09: 0x03, 0x18: 3},
        [[0x800, 0x801], [0, 1], [8, 9]],
    ),
    # Line 0 is the first of two that show a scan line, and line 1 the second. Either may be the
    # last one above: eight lines of memory's first row come next.
    Rows(
        "line compare at the first of two lines",
        {0x0C: 8, 0x09: 0x83, 0x12: 9, 0x18: 0},
        [[0x800, 0x801], [0, 1], [8, 9]],
    ),
    Rows(
        "line compare at the second of two lines",
        {0x0C: 8, 0x09: 0x83, 0x12: 9, 0x18: 1},
        [[0x800, 0x801], [0, 1]],
    ),
)


class Shown(unittest.TestCase):
    def setUp(self) -> None:
        want_library()

    def test_where_rows_of_text_are_fetched(self) -> None:
        # The character and the attribute of a cell are its offset.
        words = range(1 << 16)
        for rows in ROWS:
            crtc = filled(CRTC, {**SHAPE, **rows.named})
            cells = text_screen(dict(enumerate(crtc)), words).cells()
            found = [[cell.attribute << 8 | cell.character for cell in row] for row in cells]
            self.assertEqual(found, rows.wanted, rows.what)


class Select(NamedTuple):
    """Character map select, and the numbers of both maps."""

    select: int
    a: int
    b: int


SELECTS = (
    Select(0x00, 0, 0),
    # Map B, of attributes without bit 3: bits 1 and 0, and bit 4 as its high bit.
    Select(0x01, 0, 1),
    Select(0x02, 0, 2),
    Select(0x10, 0, 4),
    Select(0x13, 0, 7),
    # Map A, of attributes with bit 3: bits 3 and 2, and bit 5 as its high bit.
    Select(0x04, 1, 0),
    Select(0x08, 2, 0),
    Select(0x20, 4, 0),
    Select(0x2C, 7, 0),
    Select(0x1E, 3, 6),
    Select(0x3F, 7, 7),
    # The two highest bits choose nothing.
    Select(0xC0, 0, 0),
)
# Where IBM has the eight maps, in their order: the first four at each 16 KiB, the others 8 KiB past
# them.
MAPS = (0x0000, 0x4000, 0x8000, 0xC000, 0x2000, 0x6000, 0xA000, 0xE000)


class Glyphs(unittest.TestCase):
    def test_maps_that_are_selected(self) -> None:
        for select in SELECTS:
            for registers in with_others(SEQ, {3: select.select}):
                maps = raster.character_maps(registers)
                self.assertEqual((maps.a, maps.b), (select.a, select.b), f"{select.select:02X}")

    def test_where_maps_begin(self) -> None:
        self.assertEqual(tuple(map(raster.map_begin, range(8))), MAPS)
