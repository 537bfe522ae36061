"""Where dots come from, held against pictures, and what bytes become on their way, held against
what cycles do."""

from __future__ import annotations

import unittest
from random import Random
from typing import Any, Mapping, NamedTuple

import zaklimot
from cards import calls, card_in
from zaklimot import Beam, Card, DotSource

# Cells of many characters and attributes, bright backgrounds and blinking among them.
CELLS = bytes(value for at in range(4096) for value in (at * 7 & 0xFF, at * 31 & 0xFF))
CURSOR = "int ax=200 dx=102\nint ax=100 cx=20D\n"
PIXELS = bytes(at * at >> 5 & 0xFF for at in range(0x10000))
# The windows of display memory, by the memory map: the first address, and how many there are.
WINDOWS = ((0xA0000, 1 << 17), (0xA0000, 1 << 16), (0xB0000, 1 << 15), (0xB8000, 1 << 15))


class Case(NamedTuple):
    """A frame: what stands before it, what is written at the first dot of some of its lines, and
    the lines that are asked about dot by dot."""

    name: str
    mode: int
    before: str = ""
    at_lines: Mapping[int, str] = {}
    lines: tuple[int, ...] = (0, 17, 29, 30, 60, 61, 100, 101, 199, 398, 399, 420)
    frames: int = 0


def attribute(index: int, value: int, status: int = 0x3DA) -> str:
    """Writes a register of the attribute controller, with the palette shown afterwards."""
    return f"in {status:X}\nout 3C0 {index:X}\nout 3C0 {value:X}\nout 3C0 20\n"


# Line compare: 100, with its higher bits 0; 16 scan lines in a row of characters.
SPLIT = "outw 3D4 6418\noutw 3D4 0F07\noutw 3D4 0F09\n"
# The same for modes that show each line twice.
SPLIT_TWICE = "outw 3D4 6418\noutw 3D4 0F07\noutw 3D4 8009\n"
CASES = (
    Case("text with a cursor that shows", 3, CURSOR, frames=2),
    Case("text with a cursor that is away, and blinking text that is away", 3, CURSOR, frames=24),
    Case("text with bright backgrounds", 3, "int ax=1003\n" + CURSOR),
    Case("text with underlines", 7, "int ax=100 cx=C0D\n", lines=(11, 13, 14, 15, 31, 47)),
    Case(
        "text panned by three dots, and down by five lines", 3, attribute(0x13, 2) + "outw 3D4 508"
    ),
    Case("text of nine dots that is not panned", 3, attribute(0x13, 8)),
    Case(
        "text below line compare, where panning ends",
        3,
        SPLIT + attribute(0x10, 0x2C) + attribute(0x13, 4) + "outw 3D4 10C",
    ),
    Case("text by two character maps", 3, "outw 3C4 403\n"),
    Case("16 colours", 0x12, lines=(0, 1, 100, 101, 479, 480)),
    Case(
        "16 colours from three planes, by wide colour select",
        0x0D,
        attribute(0x12, 0x0B) + attribute(0x10, 0x81) + attribute(0x14, 0x0E),
    ),
    Case(
        "16 colours panned by five dots below a split",
        0x0D,
        SPLIT_TWICE + attribute(0x13, 5) + "outw 3D4 200C\n",
    ),
    Case(
        "a screen that is off for some lines",
        0x10,
        at_lines={50: "outw 3C4 2101", 80: "outw 3C4 101"},
        lines=(0, 49, 50, 79, 80, 349),
    ),
    Case(
        "a palette that is looked away from for some lines",
        0x10,
        attribute(0x11, 0x3B) + "out 3C6 3F",
        {60: "in 3DA\nout 3C0 0", 90: "in 3DA\nout 3C0 20"},
        (0, 59, 60, 89, 90, 349),
    ),
    Case("256 colours", 0x13),
    Case("256 colours panned by a dot, through a mask", 0x13, attribute(0x13, 2) + "out 3C6 5F"),
    Case("256 colours with a page flip amid the frame", 0x13, "", {100: "outw 3D4 400C"}),
    Case(
        "256 colours after a page flip",
        0x13,
        "outw 3D4 400C\nadvance 1000\noutw 3D4 000C",
        frames=1,
    ),
    Case(
        "colours that change from line to line",
        0x13,
        "",
        {29: "out 3C8 0\nout 3C9 3F\nout 3C9 0\nout 3C9 1", 61: "out 3C6 0F"},
    ),
)


def fill(card: Card) -> None:
    """Fills memory with dots of many colours, or with cells."""
    mode = card.bios_data().mode
    if mode in (3, 7):
        card.put_bytes(0xB8000 if mode == 3 else 0xB0000, CELLS)
        return
    for plane in range(4 if mode != 0x13 else 1):
        if mode != 0x13:
            card.out_word(0x3C4, 0x100 << plane | 2)
        card.put_bytes(0xA0000, PIXELS[977 * plane :] + PIXELS[: 977 * plane])
    if mode != 0x13:
        card.out_word(0x3C4, 0x0F02)


def card_of(case: Case) -> Card:
    """A card at the first dot of a case's frame."""
    card = card_in(case.mode)
    fill(card)
    card.run_on(case.before)
    card.skip_frame()
    for _ in range(case.frames):
        card.skip_frame()
    return card


class Walk(NamedTuple):
    """The dots of a line, as the card tells them one by one."""

    beams: list[Beam]
    sources: list[DotSource]

    @property
    def shown(self) -> bytes:
        """The components of the dots that the picture shows."""
        return bytes(value for one in self.sources if one.is_display for value in one.colour)


def walked(case: Case) -> dict[int, Walk]:
    """The lines of a case that are asked about."""
    found = {}
    with card_of(case) as card:
        clock = card.clock()
        for line in range(clock.lines):
            card.run_on(case.at_lines.get(line, ""))
            if line not in case.lines:
                card.advance(clock.line_dots)
                continue
            walk = found[line] = Walk([], [])
            for _ in range(clock.line_dots):
                walk.beams.append(card.beam())
                walk.sources.append(card.explain_dot())
                card.advance(1)
    return found


def drawn(case: Case) -> list[bytes]:
    """The lines of the picture of a case, as a frame draws it; one without a dot is empty."""
    with card_of(case) as card:
        clock = card.clock()
        before = 0
        for line, steps in sorted(case.at_lines.items()):
            card.advance((line - before) * clock.line_dots)
            card.run_on(steps)
            before = line
        rows = bytes(card.frame().pixels.cast("B"))
        lines = []
        for width in card.peek().widths[: clock.lines]:
            lines.append(rows[: 3 * width])
            rows = rows[3 * width :]
        return lines


class Dots(unittest.TestCase):
    most_seconds = 300

    def test_dots_are_those_of_the_picture(self) -> None:
        shown: set[bytes] = set()
        for case in CASES:
            with self.subTest(case.name):
                lines = drawn(case)
                for line, walk in walked(case).items():
                    self.assertEqual(walk.shown, lines[line], line)
                    shown.add(lines[line])
        self.assertGreater(len(shown), 10 * len(CASES) // 2)

    def test_each_kind_of_source_is_met(self) -> None:
        sources = [one for case in CASES for walk in walked(case).values() for one in walk.sources]
        for name in DotSource._fields:
            values = {getattr(one, name) for one in sources}
            self.assertGreater(len(values), 1, name)

    def test_a_dot_that_was_drawn(self) -> None:
        case = CASES[0]
        with card_of(case) as card:
            card.run_on("advance 100000")
            for walk in walked(case).values():
                for beam, source in zip(walk.beams[::7], walk.sources[::7]):
                    self.assertEqual(card.explain_dot(beam), source)
                    self.assertEqual(card.explain_dot(beam._replace(rows=3)), source)

    def test_parts_of_a_source(self) -> None:
        for case in CASES:
            with self.subTest(case.name), card_of(case) as card:
                registers, palette = card.registers(), card.palette()
                planes = [card.plane(plane) for plane in range(4)]
                for dots in (0, 1, 5, 330, 4321, 98765):
                    card.advance(dots)
                    self.check(card.explain_dot(), registers, palette, planes)

    def check(
        self,
        source: DotSource,
        registers: zaklimot.Registers,
        palette: list[zaklimot.Colour],
        planes: list[bytes],
    ) -> None:
        """Holds a source against the registers and the memory."""
        self.assertEqual(source.bytes, bytes(plane[source.address] for plane in planes))
        self.assertEqual(source.mask, registers.dac_mask)
        self.assertEqual(source.is_palette_shown, bool(registers.attr_index & 0x20))
        if source.is_palette_shown and source.has_palette:
            self.assertEqual(source.palette_register, source.nibble & registers.attr[0x12])
            self.assertEqual(source.palette_value, registers.attr[source.palette_register])
        if not source.is_palette_shown:
            self.assertEqual(source.number, registers.attr[0x11])
        self.assertEqual(source.entry, source.number & source.mask)
        self.assertEqual(source.is_screen_off, bool(registers.seq[1] & 0x20))
        colour = (0, 0, 0) if source.is_screen_off else palette[source.entry]
        self.assertEqual(source.colour, colour)
        if source.is_text:
            cell = (source.character, source.attribute)
            self.assertEqual(cell, tuple(source.bytes[:2]))
            self.assertEqual(source.glyph_row, planes[2][source.glyph_address])

    def test_nothing_changes(self) -> None:
        with card_of(CASES[0]) as card:
            card.advance(12_345)
            state = card.save()
            card.explain_dot()
            card.explain_dot(card.beam()._replace(line=0, character=0, dot=0))
            self.assertEqual(card.save(), state)

    def test_beams_out_of_bounds(self) -> None:
        with card_in(3) as card:
            beam = card.beam()

            def ask(**numbers: Any) -> None:
                card.explain_dot(beam._replace(**numbers))

            most = {"line": 1024, "character": 259, "dot": 8, "scan": 31, "frame": 31}
            for name, value in most.items():
                ask(**{name: value})
                with self.assertRaises(zaklimot.BadArgument):
                    ask(**{name: value + 1})
            for name in ("line", "base", "frame"):
                for wrong in (-1, 1 << 16):
                    with self.assertRaises(ValueError):
                        ask(**{name: wrong})
            with self.assertRaises(TypeError):
                ask(line="1")


def rotated(value: int, count: int) -> int:
    """A byte, rotated right."""
    return (value << 8 | value) >> count & 0xFF


class Stages(unittest.TestCase):
    """Random registers, and a cycle of each kind by them."""

    def setUp(self) -> None:
        self.random = Random(4321)
        self.card = card_in(0x12)
        self.addCleanup(self.card.__exit__)

    def set_registers(self) -> int:
        """Writes registers on which cycles of memory hang; an address that is decoded."""
        random, card = self.random, self.card
        for index, most in enumerate((16, 16, 16, 32, 4, 4, 16, 16, 256)):
            value = random.randrange(most) | (random.choice((0, 8, 0x10)) if index == 5 else 0)
            card.out_word(0x3CE, value << 8 | index)
        card.out_word(0x3C4, random.randrange(16) << 8 | 2)
        card.out_word(0x3C4, random.randrange(8) << 9 | 4)
        first, size = WINDOWS[card.registers().gfx[6] >> 2]
        return first + random.randrange(size)

    def planes(self) -> list[bytes]:
        """All bytes of the planes."""
        return [self.card.plane(plane) for plane in range(4)]

    def test_puts(self) -> None:
        modes = set()
        for _ in range(400):
            address, value = self.set_registers(), self.random.randrange(256)
            card, before = self.card, self.planes()
            latches, registers = card.latches(), card.registers()
            stages = card.explain_put(address, value)
            self.assertEqual((self.planes(), card.latches()), (before, latches))
            card.put(address, value)
            self.assertEqual(stages.before, bytes(plane[stages.offset] for plane in before))
            for number, (plane, after) in enumerate(zip(before, self.planes())):
                wanted = bytearray(plane)
                if stages.planes >> number & 1:
                    wanted[stages.offset] = stages.written[number]
                self.assertEqual(after, wanted)
            self.assertEqual(stages.write_mode, registers.gfx[5] & 3)
            self.assertEqual(stages.rotated, rotated(value, registers.gfx[3] & 7))
            modes.add(stages.write_mode)
            if stages.write_mode == 1:
                self.assertEqual(stages.written, latches)
                continue
            self.assertEqual(
                stages.written,
                bytes(
                    new & stages.mask | old & ~stages.mask
                    for new, old in zip(stages.combined, latches)
                ),
            )
        self.assertEqual(modes, {0, 1, 2, 3})

    def test_functions(self) -> None:
        """The function combines the data with the latches."""
        for _ in range(200):
            stages = self.card.explain_put(self.set_registers(), self.random.randrange(256))
            latches, function = self.card.latches(), self.card.registers().gfx[3] >> 3
            pairs = zip(stages.data, latches)
            wanted = bytes(
                (data, data & old, data | old, data ^ old)[function] for data, old in pairs
            )
            if stages.write_mode != 1:
                self.assertEqual(stages.combined, wanted)

    def test_gets(self) -> None:
        compared = set()
        for _ in range(400):
            address, card = self.set_registers(), self.card
            card.put(address, self.random.randrange(256))
            before = self.planes(), card.latches()
            stages = card.explain_get(address)
            self.assertEqual((self.planes(), card.latches()), before)
            self.assertEqual(card.get(address), stages.value)
            self.assertEqual(card.latches(), stages.loaded)
            self.assertEqual(stages.loaded, bytes(plane[stages.offset] for plane in before[0]))
            if not stages.is_compare:
                self.assertEqual(stages.value, stages.loaded[stages.plane])
            compared.add(stages.is_compare)
        self.assertEqual(compared, {False, True})

    def test_offsets(self) -> None:
        with card_in(0x13) as card:
            put, get = card.explain_put(0xA1235, 0x5A), card.explain_get(0xA1235)
        self.assertEqual((put.in_window, put.offset, put.planes), (0x1235, 0x1234, 2))
        self.assertEqual((get.in_window, get.offset, get.plane), (0x1235, 0x1234, 1))

    def test_refused(self) -> None:
        with Card() as card:
            for call in calls(
                lambda: card.explain_put(0xA0000, 1), lambda: card.explain_get(0xA0000)
            ):
                with self.assertRaises(zaklimot.NotDecoded):
                    call()
        with self.assertRaises(zaklimot.NotDecoded):
            self.card.explain_get(0xB8000)


if __name__ == "__main__":
    unittest.main()
