"""Random steps on random cards: what is told of a step before it is taken is what it then answers,
and the numbers of a reason are the card's."""

from __future__ import annotations

import unittest
from collections import Counter
from random import Random
from typing import Callable, Iterable, NamedTuple

from zaklimot import BiosData, Card, Group, Reason, Registers, Why
from zaklimot.format import Step, parse_line

STEPS = 100_000
STEPS_OF_A_CARD = 200
# How often each reason is met at least.
LEAST = 100
MODES = (3, 7, 0x0D, 0x10, 0x12, 0x13)
EDGES = (0x9FFFF, 0xA0000, 0xAFFFF, 0xB0000, 0xB7FFF, 0xB8000, 0xBFFFF, 0xC0000, 0xFFFF_FFFF)
# Registers whose bits and values the profile leaves out, by the ports of their indexes.
LEFT_OUT = ((0x3CE, 5), (0x3D4, 0x14), (0x3D4, 0x17), (0x3B4, 0x14), (0x3B4, 0x17))
# Functions of the video BIOS, with the parts that AL chooses, if it chooses one.
FUNCTIONS = (1, 2, 3, 5, 6, 7, 8, 9, 0x0A, 0x0C, 0x0D, 0x0E, 0x0F, 0x12, 0x13, 0x1A, 0x1B, 0x4F)
PARTS = (0x1000, 0x1002, 0x1003, 0x1010, 0x1012, 0x1017, 0x1100, 0x1110, 0x1112, 0x1130)


def _port(random: Random) -> int:
    return random.choice((random.randrange(0x3B0, 0x3E0), random.randrange(0x10000), 0x3C4, 0xFFFF))


def _address(random: Random) -> int:
    return random.choice((random.choice(EDGES), random.randrange(0x98000, 0xC8000)))


def _byte(random: Random) -> int:
    return random.choice((random.randrange(256), random.randrange(32)))


def _word(random: Random) -> int:
    return _byte(random) << 8 | _byte(random)


def _call(random: Random) -> str:
    ax = random.choice((_word(random), random.choice(PARTS), random.choice(FUNCTIONS) << 8))
    if random.randrange(4) == 0:
        ax = random.choice((*MODES, random.randrange(256)))
    bx, cx, dx = (random.choice((_word(random), random.randrange(4))) for _ in range(3))
    length = random.choice((0, 0, 16, 17, 3 * (cx & 0xFF), (bx >> 8) * (cx & 0xFF)))
    block = f" block {random.randbytes(length).hex()}" if length else ""
    return f"int ax={ax:X} bx={bx:X} cx={cx:X} dx={dx:X}{block}"


def _mode(random: Random) -> str:
    return f"int ax={random.choice((*MODES, 3)):X}"


def _at_cursor(random: Random) -> str:
    """A cursor is moved, within the page or past it, or something is done where it is."""
    page = random.randrange(3) << 8
    if random.randrange(2):
        return f"int ax=200 bx={page:X} dx={random.randrange(60) << 8 | random.randrange(90):X}"
    function = random.choice((8, 9, 0x0A, 0x0E)) << 8
    return f"int ax={function | 0x41:X} bx={page:X} cx={random.randrange(3000):X}"


def _glyphs(random: Random) -> str:
    """Glyphs of any height are loaded, from any character on."""
    height, count = random.choice((8, 14, 16, 0, 9, 32)), random.randrange(12)
    first = random.choice((random.randrange(256), random.randrange(240, 260)))
    part = random.choice((0x1100, 0x1110))
    block = random.randbytes(height * count).hex()
    return f"int ax={part:X} bx={height << 8:X} cx={count:X} dx={first:X} block {block or '00'}"


def _register(random: Random) -> str:
    port, index = random.choice(LEFT_OUT)
    return f"outw {port:X} {_byte(random) << 8 | index:X}"


def _advance(random: Random) -> str:
    return f"advance {random.choice((random.randrange(2000), 16_777_215 + random.randrange(3)))}"


MAKES: tuple[Callable[[Random], str], ...] = (
    lambda random: f"out {_port(random):X} {_byte(random):X}",
    lambda random: f"outw {_port(random):X} {_word(random):X}",
    lambda random: f"in {_port(random):X}",
    lambda random: f"inw {_port(random):X}",
    lambda random: f"put {_address(random):X} {_byte(random):X}",
    lambda random: f"putw {_address(random):X} {_word(random):X}",
    lambda random: f"get {_address(random):X}",
    lambda random: f"getw {_address(random):X}",
    lambda random: f"out 3C2 {random.choice((0x67, _byte(random) | 2)):X}",
    lambda random: random.choice(("show cells", "show cells", "show regs", "show plane 3 FFFF 1")),
    _call,
    _call,
    _call,
    _mode,
    _at_cursor,
    _at_cursor,
    _glyphs,
    _register,
    _advance,
)


class Asked(NamedTuple):
    """A step that is asked about, and the card when it is."""

    step: Step
    registers: Registers
    bios: BiosData
    reason: Reason

    def number(self, name: str) -> int:
        """A number of the reason."""
        return self.reason.numbers[name]

    @property
    def place(self) -> int:
        """The port or the address of the byte that is refused."""
        return self.step.numbers[0] + self.reason.is_high

    @property
    def data(self) -> int:
        """The byte that is refused."""
        return self.step.numbers[1] >> (8 if self.reason.is_high else 0) & 0xFF

    @property
    def base(self) -> int:
        """The port of the CRT controller's index."""
        return 0x3D4 if self.registers.misc & 1 else 0x3B4

    @property
    def call(self) -> tuple[int, ...]:
        """AH, AL, BH, BL, CX and DX of a call."""
        ax, bx, cx, dx = self.step.numbers
        return ax >> 8, ax & 0xFF, bx >> 8, bx & 0xFF, cx, dx

    @property
    def cells(self) -> int:
        """How many cells a page has."""
        return (self.bios.last_row + 1) * self.bios.columns

    def selected(self) -> int:
        """The register that the index names, or the low byte of the word."""
        registers = self.registers
        ports = {0x3C4: 7, 0x3CE: 0x0F, self.base: 0x1F}
        first = self.step.numbers[0]
        if self.reason.is_high and first in ports and self.step.name == "outw":
            return self.step.numbers[1] & ports[first]
        indexes = {
            Group.SEQUENCER: registers.seq_index,
            Group.GRAPHICS_CONTROLLER: registers.gfx_index,
            Group.CRT_CONTROLLER: registers.crtc_index,
            Group.ATTRIBUTE_CONTROLLER: registers.attr_index & 0x1F,
        }
        return indexes[Group(self.number("group"))]

    def is_cursor(self, cell: int, pages: Iterable[int]) -> bool:
        """Whether the cursor of one of these pages is at a cell."""
        places = (self.bios.cursors[page] for page in pages if page < 8)
        return any(place.row * self.bios.columns + place.column == cell for place in places)


def _is_port(asked: Asked) -> bool:
    return asked.number("port") == asked.place


def _is_elsewhere(asked: Asked) -> bool:
    other = (asked.base, asked.number("port") ^ 0x60)
    return _is_port(asked) and (asked.number("base"), asked.number("there")) == other


def _is_register(asked: Asked) -> bool:
    return asked.number("index") == asked.selected()


def _is_no_register(asked: Asked) -> bool:
    groups = (asked.registers.seq, asked.registers.gfx, asked.registers.crtc, asked.registers.attr)
    last = len(groups[asked.number("group")]) - 1
    return _is_register(asked) and last == asked.number("last") < asked.number("index")


def _is_bit(asked: Asked) -> bool:
    is_set = asked.data >> asked.number("bit") & 1 == 1
    return _is_register(asked) and is_set and asked.number("value") == asked.data


def _is_field(asked: Asked) -> bool:
    highest, lowest = asked.number("highest"), asked.number("lowest")
    value = asked.data >> lowest & (1 << highest - lowest + 1) - 1
    return _is_register(asked) and value != asked.number("wanted")


def _is_outside(asked: Asked) -> bool:
    first, last = asked.number("first"), asked.number("last")
    windows = ((0xA0000, 0xBFFFF), (0xA0000, 0xAFFFF), (0xB0000, 0xB7FFF), (0xB8000, 0xBFFFF))
    address, map_ = asked.number("address"), asked.number("map")
    is_map = map_ == asked.registers.gfx[6] >> 2 & 3 and windows[map_] == (first, last)
    return is_map and address == asked.place and not first <= address <= last


def _is_mode(asked: Asked) -> bool:
    return asked.number("mode") == asked.bios.mode


def _is_position(asked: Asked) -> bool:
    bios, (function, *_, dx) = asked.bios, asked.call
    at = divmod(dx, 256) if function == 0x13 else bios.cursors[bios.page]
    size = (bios.last_row + 1, bios.columns)
    found = (asked.number("row"), asked.number("column"))
    told = (asked.number("rows"), asked.number("columns"))
    return found == tuple(at) and told == size and (found[0] >= size[0] or found[1] >= size[1])


def _is_cursor(asked: Asked) -> bool:
    cell, cells = asked.number("cell"), asked.number("cells")
    return cells == asked.cells <= cell and asked.is_cursor(cell, (asked.number("page"),))


def _is_pixel(asked: Asked) -> bool:
    x, y, width, height = asked.reason.numbers.values()
    *_, cx, dx = asked.call
    size = {0x0D: (320, 200), 0x10: (640, 350), 0x12: (640, 480), 0x13: (320, 200)}
    is_outside = x >= width or y >= height
    return (x, y, width, height) == (cx, dx, *size[asked.bios.mode]) and is_outside


def _are_cells(asked: Asked) -> bool:
    count, first, cells = asked.reason.numbers.values()
    is_count = count == asked.call[4] > cells - first
    return is_count and cells == asked.cells and asked.is_cursor(first, range(8))


def _is_no_mode_set(asked: Asked) -> bool:
    return asked.bios.mode == 0 and asked.number("function") == asked.call[0]


def _is_no_service(asked: Asked) -> bool:
    function, al, bl = asked.reason.numbers.values()
    return (function, al, bl) == (*asked.call[:2], asked.call[3])


def _is_page(asked: Asked) -> bool:
    page, pages = asked.reason.numbers.values()
    return page in asked.call[1:3] and page >= pages > 0


def _are_glyphs(asked: Asked) -> bool:
    count, first = asked.reason.numbers.values()
    return (count, first) == asked.call[4:] and first + count > 256


def _are_entries(asked: Asked) -> bool:
    count, first = asked.reason.numbers.values()
    return (count, first) == (asked.call[4], asked.step.numbers[1]) and first + count > 256


def _is_block(asked: Asked) -> bool:
    length, wanted = asked.reason.numbers.values()
    return length == len(asked.step.block) != wanted


def _are_dots(asked: Asked) -> bool:
    dots, most = asked.reason.numbers.values()
    return dots == asked.step.numbers[0] > most == 16_777_216


# What is true of a card and a step where a reason of this kind is told.
TRUTHS: dict[Why, Callable[[Asked], bool]] = {
    Why.NO_PORT: _is_port,
    Why.OTHER_CRT_CONTROLLER: _is_elsewhere,
    Why.READ_ONLY: lambda asked: _is_port(asked) and asked.step.name.startswith("out"),
    Why.PORT_LEFT_OUT: _is_port,
    Why.NO_REGISTER: _is_no_register,
    Why.BIT_LEFT_OUT: _is_bit,
    Why.FIELD_LEFT_OUT: _is_field,
    Why.MEMORY_OFF: lambda asked: asked.registers.misc & 2 == 0,
    Why.OUTSIDE_WINDOW: _is_outside,
    Why.LAST_PORT: lambda asked: asked.step.numbers[0] == 0xFFFF,
    Why.LAST_ADDRESS: lambda asked: asked.step.numbers[0] == 0xFFFF_FFFF,
    Why.NO_MODE_SET: _is_no_mode_set,
    Why.NO_SERVICE: _is_no_service,
    Why.NO_SUCH_MODE: lambda asked: asked.number("mode") == asked.call[1] & 0x7F not in MODES,
    Why.NO_PIXELS: lambda asked: _is_mode(asked) and asked.bios.mode in (3, 7),
    Why.NO_CHARACTER_MAP: lambda asked: _is_mode(asked) and asked.bios.mode not in (3, 7),
    Why.NO_PAGE: _is_page,
    Why.CURSOR_OUTSIDE: _is_cursor,
    Why.POSITION_OUTSIDE: _is_position,
    Why.PIXEL_OUTSIDE: _is_pixel,
    Why.CELLS_PAST: _are_cells,
    Why.GLYPHS_PAST: _are_glyphs,
    Why.NO_PALETTE_REGISTER: lambda asked: asked.number("register") == asked.call[3] > 15,
    Why.NO_BLINKING: lambda asked: asked.number("value") == asked.call[3] > 1,
    Why.NO_ENTRY: lambda asked: asked.number("entry") == asked.step.numbers[1] > 255,
    Why.NO_ENTRIES: _are_entries,
    Why.WRONG_BLOCK: _is_block,
    Why.NO_HEIGHT: lambda asked: asked.number("height") == asked.call[2] not in (8, 14, 16),
    Why.TOO_MANY_DOTS: _are_dots,
    Why.NO_CELLS_YET: lambda asked: asked.bios.mode == 0,
    Why.NO_CELLS: lambda asked: _is_mode(asked) and asked.bios.mode not in (3, 7),
}
# How the numbers of a reason stand in its sentence, where they do.
SHOWN: dict[Why, str] = {
    Why.NO_PORT: "{port:03X}",
    Why.OTHER_CRT_CONTROLLER: "{base:03X}|{port:03X} is {there:03X}",
    Why.READ_ONLY: "{port:03X}",
    Why.PORT_LEFT_OUT: "{port:03X}",
    Why.NO_REGISTER: "is {index:02X}|end at {last:02X}",
    Why.OUTSIDE_WINDOW: "map is {map} |{first:05X} to {last:05X}|{address:05X} lies outside",
    Why.NO_SERVICE: "function {function:02X}|AL {al:02X}|BL {bl:02X}",
    Why.NO_SUCH_MODE: "no mode {mode:02X}",
    Why.NO_PIXELS: "Mode {mode:02X}",
    Why.NO_CHARACTER_MAP: "Mode {mode:02X}",
    Why.NO_PAGE: "no page {page:02X}",
    Why.CURSOR_OUTSIDE: "page {page:02X}|cell {cell},|has {cells} cells",
    Why.POSITION_OUTSIDE: "Column {column} of row {row},|{columns} by {rows} cells",
    Why.PIXEL_OUTSIDE: "Column {x} of line {y},|{width} by {height} pixels",
    Why.CELLS_PAST: "writes {count}.",
    Why.GLYPHS_PAST: "loads {count} glyph| from {first_word} on",
    Why.NO_PALETTE_REGISTER: "register {register:02X}",
    Why.NO_BLINKING: "BL is {value:02X}",
    Why.NO_ENTRY: "no entry {entry:04X}",
    Why.NO_ENTRIES: "names {count} from",
    Why.WRONG_BLOCK: "has {length} byte|takes {wanted}",
    Why.NO_HEIGHT: "BH is {height:02X}",
    Why.NO_CELLS: "Mode {mode:02X}",
}


def _shown_word(number: int) -> str:
    """A word as a sentence writes it: its two digits, or four if it needs them."""
    return f"{number:0{2 if number < 0x100 else 4}X}"


class Reasons(unittest.TestCase):
    most_seconds = 600

    def setUp(self) -> None:
        self.seen: Counter[Why] = Counter()
        self.done = 0

    def take(self, card: Card, words: str) -> None:
        """Asks about a step, and takes it."""
        reason = card.explain_step(words)
        before = (card.registers(), card.bios_data())
        (step,) = card.run_on(words, 0, 1)
        self.assertIs(step.refusal, None if reason is None else reason.refusal)
        if reason is None:
            self.done += 1
            return
        self.seen[reason.why] += 1
        asked = Asked(parse_line(words.lower().split()), *before, reason)
        self.assertTrue(TRUTHS[reason.why](asked), reason)
        first_word = _shown_word(reason.numbers.get("first", 0))
        shown = SHOWN.get(reason.why, "").format(**reason.numbers, first_word=first_word)
        for part in shown.split("|"):
            self.assertIn(part, reason.text)

    def test_random_steps(self) -> None:
        random = Random(20_261_130)
        for _ in range(STEPS // STEPS_OF_A_CARD):
            with Card() as card:
                for _ in range(STEPS_OF_A_CARD):
                    words = random.choice(MAKES)(random)
                    with self.subTest(words):
                        self.take(card, words)
        self.assertEqual(set(TRUTHS), set(Why))
        self.assertGreater(self.done, STEPS // 3)
        rare = {why.name: self.seen[why] for why in Why if self.seen[why] < LEAST}
        self.assertEqual(rare, {})


if __name__ == "__main__":
    unittest.main()
