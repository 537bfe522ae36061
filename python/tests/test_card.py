"""Each call of the header through the package, with what it answers."""

from __future__ import annotations

import array
import copy
import pickle
import struct
import unittest
import zlib
from fractions import Fraction
from random import Random
from typing import Any, Callable

import zaklimot
from cards import Call, calls, card_in
from zaklimot import Card, Picture
from zaklimot._library import Fonts


def component(picture: Picture, *place: int) -> int:
    """A component of a picture, by the row, the column and its number in the dot. Types of the
    standard library know memory of one dimension only."""
    pixels: Any = picture.pixels
    return int(pixels[place])


# A cycle at a place.
Cycle = Callable[[int], object]


def decodes(cycle: Cycle, at: int) -> bool:
    """Whether the adapter takes a cycle."""
    try:
        cycle(at)
    except zaklimot.Refusal:
        return False
    return True


class Cycles(unittest.TestCase):
    def setUp(self) -> None:
        self.card = card_in(0x13)
        self.addCleanup(self.card.__exit__)

    def test_memory(self) -> None:
        self.card.put(0xA0000, 0x12)
        self.card.put_word(0xA0001, 0x5634)
        self.assertEqual([self.card.get(0xA0000 + at) for at in range(3)], [0x12, 0x34, 0x56])
        self.assertEqual(self.card.get_word(0xA0000), 0x3412)

    def test_ports(self) -> None:
        self.card.out(0x3C4, 2)
        self.assertEqual(self.card.inp(0x3C4), 2)
        self.card.out_word(0x3CE, 0x0F08)
        self.assertEqual(self.card.inp_word(0x3CE), 0x0F08)

    def test_refusals_and_their_numbers(self) -> None:
        card = self.card
        for call in calls(
            lambda: card.out(0x60, 0),
            lambda: card.out_word(0xFFFF, 0),
            lambda: card.inp(0x60),
            lambda: card.inp_word(0xFFFF),
            lambda: card.put(0x9FFFF, 0),
            lambda: card.put_word(0xFFFF_FFFF, 0),
            lambda: card.get(0x9FFFF),
            lambda: card.get_word(0x9FFFF),
        ):
            with self.assertRaises(zaklimot.NotDecoded) as caught:
                call()
            self.assertEqual(caught.exception.number, 1)
        with self.assertRaises(zaklimot.NotInProfile):
            card.inp(0x3C7)

    def test_refused_calls_of_the_bios(self) -> None:
        card = self.card
        refused: tuple[tuple[type[zaklimot.Refusal], Call], ...] = (
            (zaklimot.BadFunction, lambda: card.int10(0xFF00)),
            (zaklimot.BadMode, lambda: card.int10(0x0099)),
            (zaklimot.WrongKind, lambda: card.int10(0x1112)),
            (zaklimot.BadPage, lambda: card.int10(0x0501)),
            (zaklimot.Outside, lambda: card.int10(0x0C00, 0, 320, 0)),
            (zaklimot.BadBlock, lambda: card.int10(0x1300, 0, 3, 0, block=b"ab")),
        )
        for kind, call in refused:
            with self.subTest(kind), self.assertRaises(kind) as caught:
                call()
            self.assertIsInstance(caught.exception, zaklimot.Refusal)

    def test_the_clock(self) -> None:
        self.assertEqual(self.card.beam()[:3], (0, 0, 0))
        self.card.advance(801)
        self.assertEqual(self.card.beam()[:3], (1, 0, 1))
        self.card.advance(zaklimot.MOST_DOTS)
        with self.assertRaises(zaklimot.TooFar):
            self.card.advance(zaklimot.MOST_DOTS + 1)
        with self.assertRaises(zaklimot.TooFar):
            self.card.advance(0xFFFF_FFFF)


class Transfers(unittest.TestCase):
    """Calls for many bytes: each leaves and answers what its single cycles do."""

    def setUp(self) -> None:
        self.card = card_in(0x13)
        self.addCleanup(self.card.__exit__)

    def test_a_screen_at_once(self) -> None:
        screen = bytes(x * y & 0xFF for y in range(200) for x in range(320))
        self.assertEqual(self.card.put_bytes(0xA0000, screen), 64_000)
        with card_in(0x13) as other:
            for at, value in enumerate(screen):
                other.put(0xA0000 + at, value)
            self.assertEqual(other.save(), self.card.save())
        read = self.card.get_bytes(0xA0000, 64_000)
        self.assertEqual((read, read.decoded), (screen, 64_000))
        self.assertEqual(self.card.latches(), screen[-4:])

    def test_buffers(self) -> None:
        for given in (
            b"abc",
            bytearray(b"abc"),
            memoryview(b"-a-b-c")[1::2],
            array.array("B", b"abc"),
        ):
            self.card.fill(0xA0000, 0, 4)
            self.assertEqual(self.card.put_bytes(0xA0000, given), 3)  # type: ignore[arg-type]
            self.assertEqual(self.card.get_bytes(0xA0000, 4), b"abc\0")
        room = bytearray(b"-----")
        self.assertEqual(self.card.get_bytes(0xA0000, memoryview(room)[1:4]), 3)
        self.assertEqual(room, b"-abc-")
        words = array.array("H", [0, 0])
        self.assertEqual(self.card.get_bytes(0xA0000, words), 4)  # type: ignore[call-overload]
        self.assertEqual(words.tobytes(), b"abc\0")
        self.assertEqual(
            (self.card.get_bytes(0xA0000, 0), self.card.get_bytes(0xA0000, bytearray())), (b"", 0)
        )
        self.assertEqual((self.card.put_bytes(0xA0000, b""), self.card.fill(0xA0000, 1, 0)), (0, 0))

    def test_what_is_read_keeps_its_number(self) -> None:
        read = self.card.get_bytes(0xAFFFE, 4)
        self.assertEqual((read, read.decoded), (b"\0\0\xff\xff", 2))
        for other in (copy.copy(read), pickle.loads(pickle.dumps(read))):
            self.assertEqual((other, other.decoded), (read, 2))
        self.assertIs(type(read[1:]), bytes)

    def test_what_is_not_decoded(self) -> None:
        self.assertEqual(self.card.put_bytes(0x9FFFF, b"\1\2\3"), 2)
        self.assertEqual(self.card.put_bytes(0xAFFFF, b"\4\5", down=True), 1)
        self.assertEqual((self.card.get(0xA0000), self.card.get(0xAFFFF)), (2, 4))
        self.assertEqual(self.card.fill(0xC0000, 1, 1000), 0)
        buffer = bytearray(3)
        self.assertEqual((self.card.get_bytes(0x9FFFF, buffer), buffer), (2, b"\xff\2\3"))
        self.assertEqual(self.card.move(0xA0000, 0xAFFFF, 2), 3)
        self.assertEqual(self.card.move(0xC0000, 0xD0000, 9), 0)

    def test_moves_by_the_latches(self) -> None:
        with card_in(0x12) as card:
            for plane, value in enumerate((1, 2, 3, 4)):
                card.out_word(0x3C4, 256 << plane | 2)
                card.put(0xA0000, value)
            card.out_word(0x3C4, 0x0F02)
            card.out_word(0x3CE, 0x0105)
            self.assertEqual(card.move(0xA0000, 0xA0001, 3), 6)
            self.assertEqual(
                [card.plane(plane, 0, 5) for plane in range(4)],
                [bytes(4 * [1 + at] + [0]) for at in range(4)],
            )

    def test_up_and_down(self) -> None:
        self.card.put_bytes(0xA0000, b"abcd")
        self.card.move(0xA0000, 0xA0001, 3, down=True)
        self.assertEqual(self.card.get_bytes(0xA0000, 4), b"aabc")
        self.card.put_bytes(0xA0000, b"abcd", True)
        self.card.move(0xA0000, 0xA0001, 3)
        self.assertEqual(self.card.get_bytes(0xA0000, 4), b"aaaa")
        self.card.put_bytes(0xA0000, b"abcd")
        self.card.get_bytes(0xA0001, 3, down=True)
        self.assertEqual(self.card.latches(), b"abcd")
        self.card.put_bytes(0xA0004, b"efgh")
        for down, latches in ((False, b"efgh"), (True, b"abcd")):
            self.assertEqual(self.card.get_bytes(0xA0000, 8, down=down), b"abcdefgh")
            self.assertEqual(self.card.latches(), latches)

    def test_the_last_write_stays(self) -> None:
        # The window has 128 KB, and A0000 and B0000 are one byte of memory.
        self.card.out_word(0x3CE, 0x0106)
        data = b"1" + bytes(0xFFFF) + b"2"
        for down, value in ((False, b"2"), (True, b"1")):
            self.assertEqual(self.card.put_bytes(0xA0000, data, down), 0x10001)
            self.assertEqual(self.card.get_bytes(0xA0000, 1), value)

    def test_each_is_its_cycles(self) -> None:
        """Two cards with the same pseudo-random registers: one takes the transfers, the other their
        cycles."""
        random = Random(1)
        with card_in(0x12) as other:
            self.card.int10(ax=0x12)
            for _ in range(300):
                word = random.choice((0x3CE, 0x3C4)), random.randrange(256) << 8 | random.choice(
                    (2, 4, 5, 8)
                )
                for card in (self.card, other):
                    try:
                        card.out_word(*word)
                    except zaklimot.Refusal:
                        pass
                self.transfer(random, other)
            self.assertEqual(self.card.save(), other.save())

    def transfer(self, random: Random, other: Card) -> None:
        """A transfer, and its cycles on the other card; what they answer is compared."""
        begin, count = 0xA0000 + random.randrange(-20, 0x10000), random.randrange(40)
        target, down = begin + random.randrange(-30, 30), random.random() < 0.5
        value = random.randrange(256)
        order = range(count)[::-1] if down else range(count)
        data = random.getrandbits(8 * 40).to_bytes(40, "little")[:count]
        read = bytearray(b"\xff" * count)

        def get(at: int) -> None:
            read[at] = other.get(begin + at)

        # A call, and the cycles of which it is made for the byte at a place.
        card = self.card
        kinds: tuple[tuple[Call, tuple[Cycle, ...]], ...] = (
            (
                lambda: card.put_bytes(begin, data, down),
                (lambda at: other.put(begin + at, data[at]),),
            ),
            (
                lambda: card.fill(begin, value, count, down),
                (lambda at: other.put(begin + at, value),),
            ),
            (lambda: card.get_bytes(begin, count, down), (get,)),
            (
                lambda: card.move(begin, target, count, down),
                (get, lambda at: other.put(target + at, read[at])),
            ),
        )
        call, cycles = random.choice(kinds)
        told = call()
        decoded = sum(decodes(cycle, at) for at in order for cycle in cycles)
        if isinstance(told, zaklimot.ReadBytes):
            self.assertEqual((told, told.decoded), (read, decoded))
        else:
            self.assertEqual(told, decoded)


class Clock(unittest.TestCase):
    def setUp(self) -> None:
        self.card = card_in(0x13)
        self.addCleanup(self.card.__exit__)

    def test_a_mode(self) -> None:
        clock = self.card.clock()
        self.assertEqual((clock.line_dots, clock.lines, clock.frame_dots), (800, 449, 359_200))
        self.assertEqual(
            (clock.to_frame, clock.to_display, clock.to_retrace), (359_200, 640, 412 * 800)
        )
        self.assertEqual(clock.dots_per_second, 25_175_000)
        self.assertEqual(round(clock.dots_per_second / clock.frame_dots, 2), Fraction(7009, 100))
        self.assertEqual(self.card.clock(), clock)

    def test_what_it_tells_comes_then_and_not_before(self) -> None:
        for name, mask in (("to_retrace", 8), ("to_display", 1)):
            for _ in range(5):
                dots, before = getattr(self.card.clock(), name), self.card.inp(0x3DA) & mask
                self.card.advance(dots - 1)
                self.assertEqual(
                    (self.card.inp(0x3DA) & mask, getattr(self.card.clock(), name)), (before, 1)
                )
                self.card.advance(1)
                self.assertEqual(self.card.inp(0x3DA) & mask, mask - before)
        frame = self.card.beam().frame
        self.card.advance(self.card.clock().to_frame - 1)
        self.assertEqual(self.card.beam().frame, frame)
        self.card.advance(1)
        self.assertEqual(self.card.beam()[:3] + (self.card.beam().frame,), (0, 0, 0, frame + 1))

    def test_never(self) -> None:
        with Card() as card:
            self.assertEqual(card.clock()[:3], (90, 9, None))
        # Each character of each line is displayed, and the retrace would begin past the last line.
        for word in (0x0011, 0xFF01, 0xFF12, 0xFF07, 0xFF10):
            self.card.out_word(0x3D4, word)
        self.assertEqual(self.card.clock()[1:3], (None, None))

    def test_rates(self) -> None:
        for misc, mode, rate in (
            (0x63, 0x01, 25_175_000),
            (0x67, 0x01, 28_322_000),
            (0x63, 0x09, 12_587_500),
            (0x67, 0x08, 14_161_000),
        ):
            self.card.out(0x3C2, misc)
            self.card.out_word(0x3C4, mode << 8 | 1)
            clock = self.card.clock()
            self.assertIsInstance(clock.dots_per_second, Fraction)
            self.assertEqual(clock.dots_per_second, rate)


class Frames(unittest.TestCase):
    def setUp(self) -> None:
        self.card = card_in(0x13)
        self.addCleanup(self.card.__exit__)
        self.card.put(0xA0000 + 320 * 199 + 319, 0x0E)

    def test_a_picture(self) -> None:
        picture = self.card.frame()
        self.assertEqual((picture.width, picture.height, len(picture.data)), (640, 400, 768_000))
        self.assertEqual(picture[639, 399], (63, 63, 21))
        self.assertEqual(picture[637, 399], (0, 0, 0))
        self.assertEqual(picture.pixels.shape, (400, 640, 3))
        self.assertEqual(component(picture, 399, 638, 2), 21)
        rows = list(picture.rows())
        self.assertEqual((len(rows), bytes(rows[399][-3:])), (400, bytes((63, 63, 21))))
        for place in ((640, 0), (0, 400), (-1, 0)):
            with self.assertRaises(IndexError):
                picture[place]

    def test_it_is_lent_and_copies_stay(self) -> None:
        first = self.card.frame()
        kept = first.copy()
        self.card.put(0xA0000, 0x0F)
        second = self.card.frame()
        self.assertEqual(
            (first[0, 0], second[0, 0], kept[0, 0]), ((63, 63, 63), (63, 63, 63), (0, 0, 0))
        )
        self.assertNotEqual(second, kept)
        self.assertEqual(second, second.copy())
        self.card.close()
        self.assertEqual(second[0, 0], (63, 63, 63))

    def test_copies_are_pickled(self) -> None:
        lent = self.card.frame()
        for picture in (lent, lent.copy()):
            for other in (pickle.loads(pickle.dumps(picture)), copy.deepcopy(picture)):
                self.assertEqual((other, other[639, 399]), (lent, (63, 63, 21)))
        words = self.card.frame_words(bytearray(4 * 330 * 200), pitch=330, opaque=True)
        rows = [list(row) for row in words.rows()]
        for kept in (words.copy(), pickle.loads(pickle.dumps(words)), copy.copy(words.copy())):
            self.assertEqual([list(row) for row in kept.rows()], rows)
            told = (kept.width, kept.height, kept.pitch, kept.across, kept.down)
            self.assertEqual((*told, kept[319, 199]), (320, 200, 320, 2, 2, 0xFFFF_FF55))
        # The steps of a report keep their pictures.
        report = zaklimot.run("int ax=13\nframe")
        self.assertEqual(report[1].picture, self.card_at_power_on())
        other = pickle.loads(pickle.dumps(report))
        self.assertEqual((other.raw, other[1]), (report.raw, report[1]))

    def card_at_power_on(self) -> zaklimot.Picture:
        """The picture of a card in which mode 13 (hexadecimal) is set and nothing is drawn."""
        with card_in(0x13) as card:
            return card.frame().copy()

    def test_copies_of_words_stay(self) -> None:
        lent = self.card.frame_words()
        kept = lent.copy()
        self.card.put(0xA0000, 0x0F)
        self.card.frame_words()
        self.assertEqual((lent[0, 0], kept[0, 0], kept[319, 199]), (0x00FF_FFFF, 0, 0x00FF_FF55))

    def test_x_and_y(self) -> None:
        picture = self.card.frame()
        place, other = (639, 399), (637, 399)
        for x, y in (place, other):
            red_green_blue = tuple(component(picture, y, x, part) for part in range(3))
            self.assertEqual(picture[x, y], red_green_blue)
        self.assertNotEqual(picture[place], picture[other])

    def test_a_buffer_of_the_callers(self) -> None:
        buffer = bytearray(b"\xee" * 768_001)
        picture = self.card.frame(into=buffer)
        self.assertEqual((buffer[767_997:768_000], buffer[768_000]), (bytes((63, 63, 21)), 0xEE))
        self.assertEqual(picture, self.card.frame())
        short = bytearray(b"\xee" * 9)
        with self.assertRaises(zaklimot.NoRoom):
            self.card.frame(into=short)
        with self.assertRaises(zaklimot.NoRoom):
            self.card.frame(into=bytearray())
        self.assertEqual(short, b"\xee" * 9)

    def test_words(self) -> None:
        picture = self.card.frame_xrgb()
        self.assertEqual(
            (picture.width, picture.height, picture.pitch), (640, 400, zaklimot.WIDEST)
        )
        self.assertEqual((picture[639, 399], picture[0, 0]), (0x00FF_FF55, 0))
        rows = list(picture.rows())
        self.assertEqual((len(rows), len(rows[0]), rows[399][638]), (400, 640, 0x00FF_FF55))
        with self.assertRaises(IndexError):
            picture[0, 400]

    def test_words_in_a_buffer_of_the_callers(self) -> None:
        buffer = bytearray(b"\xee" * (4 * 641 * 400))
        picture = self.card.frame_xrgb(into=buffer, pitch=641)
        words = memoryview(buffer).cast("I")
        self.assertEqual((words[639], words[640], words[641]), (0, 0xEEEE_EEEE, 0))
        self.assertEqual(picture[639, 399], 0x00FF_FF55)
        for pitch in (639, 642, 0xFFFF_FFFF):
            with self.assertRaises(zaklimot.NoRoom):
                self.card.frame_xrgb(into=buffer, pitch=pitch)

    def test_the_palette_has_the_colour_of_each_number(self) -> None:
        words = self.card.frame_xrgb()
        picture = self.card.frame_indexed()
        self.assertEqual((picture.width, picture.height), (640, 400))
        self.assertEqual(len(set(picture.palette)), len(picture.palette))
        for row, numbers in zip(words.rows(), picture.rows()):
            self.assertEqual(row.tolist(), [picture.palette[number] for number in numbers])
        self.assertEqual((picture.palette[picture[0, 0]], picture[0, 0]), (words[0, 0], 0))
        with self.assertRaises(IndexError):
            picture[640, 0]
        copy = pickle.loads(pickle.dumps(picture))
        self.assertEqual(
            (bytes(copy.numbers), copy.palette), (bytes(picture.numbers), picture.palette)
        )

    def test_numbers_in_a_buffer_of_the_callers(self) -> None:
        buffer = bytearray(b"\xee" * (640 * 400 + 1))
        picture = self.card.frame_indexed(into=buffer)
        self.assertEqual((buffer[0], buffer[-1], len(picture.numbers)), (0, 0xEE, 640 * 400))
        with self.assertRaises(zaklimot.NoRoom):
            self.card.frame_indexed(into=bytearray(640 * 400 - 1))

    def test_a_picture_with_too_many_colours_for_a_palette(self) -> None:
        self.card.out(0x3C8, 0)
        for colour in range(256):
            for component in (colour % 64, colour // 64, 0):
                self.card.out(0x3C9, component)
        self.card.put_bytes(0xA0000, bytes(range(256)))
        self.card.put_bytes(0xA0000 + 320 * 199, bytes(range(256)))
        self.assertEqual(len(self.card.frame_indexed().palette), 256)
        self.card.advance(100_000)
        self.card.out(0x3C8, 7)
        for component in (63, 63, 63):
            self.card.out(0x3C9, component)
        with self.assertRaises(zaklimot.ManyColours):
            self.card.frame_indexed()
        self.assertEqual(self.card.peek().widths[0], 640)

    def test_words_of_pixels_that_stand_once(self) -> None:
        whole = self.card.frame_xrgb()
        known = [whole[x, y] for y in range(0, 400, 2) for x in range(0, 640, 2)]
        for opaque, above in ((False, 0), (True, 0xFF00_0000)):
            picture = self.card.frame_words(opaque=opaque)
            self.assertEqual(
                (picture.width, picture.height, picture.across, picture.down), (320, 200, 2, 2)
            )
            self.assertEqual(
                [word for row in picture.rows() for word in row], [above + word for word in known]
            )
        picture = self.card.frame_words(once=False)
        self.assertEqual(
            (picture.width, picture.height, picture.across, picture.down), (640, 400, 1, 1)
        )

    def test_words_of_pixels_in_a_buffer_of_the_callers(self) -> None:
        buffer = bytearray(b"\xee" * (4 * 321 * 200))
        self.card.frame_words(into=buffer, pitch=321, opaque=True)
        words = memoryview(buffer).cast("I")
        self.assertEqual(
            (words[319], words[320], words[-1]), (0xFF00_0000, 0xEEEE_EEEE, 0xEEEE_EEEE)
        )
        for pitch in (319, 322):
            with self.assertRaises(zaklimot.NoRoom):
                self.card.frame_words(into=buffer, pitch=pitch)

    def test_rows_that_change_in_a_buffer(self) -> None:
        buffer = bytearray(b"\xee" * (4 * 321 * 200))
        picture, rows = self.card.frame_update(buffer, 321)
        told = (picture.width, picture.height, picture.pitch, picture.across, picture.down)
        self.assertEqual((*told, rows), (320, 200, 321, 2, 2, range(200)))
        words = memoryview(buffer).cast("I")
        self.assertEqual((words[319], words[320], picture[319, 199]), (0, 0xEEEE_EEEE, 0x00FF_FF55))
        self.assertEqual(self.card.frame_update(buffer, 321)[1], range(0))
        self.card.put(0xA0000 + 320 * 7, 0x0F)
        self.card.put(0xA0000 + 320 * 100 + 319, 0x0F)
        picture, rows = self.card.frame_update(into=buffer, pitch=321)
        self.assertEqual((rows, picture[0, 7], words[321 * 7]), (range(7, 101), 0xFFFFFF, 0xFFFFFF))
        # What somebody else writes is changed too, but not beside the picture.
        words[321 * 150 + 3] = words[321 * 199 + 320] = 9
        self.assertEqual(self.card.frame_update(buffer, 321)[1], range(150, 151))
        self.assertEqual((words[321 * 150 + 3], words[321 * 199 + 320]), (0, 9))
        self.assertEqual(self.card.frame_update(buffer, 321, opaque=True)[1], range(200))
        whole = array.array("I", bytes(4 * 640 * 400))
        self.assertEqual(self.card.frame_update(whole, 640, once=False)[1], range(14, 400))

    def test_a_buffer_for_changed_rows_that_has_no_room(self) -> None:
        buffer = bytearray(b"\xee" * (4 * 321 * 200))
        for pitch in (319, 322, 0xFFFF_FFFF):
            with self.assertRaises(zaklimot.NoRoom):
                self.card.frame_update(buffer, pitch)
        self.card.advance(100_000)
        for word in (0x0011, 0x2001):
            self.card.out_word(0x3D4, word)
        with self.assertRaises(zaklimot.Ragged):
            self.card.frame_update(buffer, 321)
        self.assertEqual(buffer, b"\xee" * (4 * 321 * 200))

    def test_lines_as_they_end(self) -> None:
        whole = self.card.frame_xrgb()
        known = [[whole[x, y] for x in range(640)] for y in range(400)]
        for number in range(449):
            line = self.card.line()
            self.assertEqual((line.number, line.ends_frame), (number, number == 448))
            self.assertEqual(list(line.words), known[number] if number < 400 else [])
        self.assertEqual(self.card.line(opaque=True).words[0], 0xFF00_0000 + known[0][0])

    def test_lines(self) -> None:
        whole = bytes(self.card.frame().data)
        lines = self.card.lines()
        self.assertEqual((lines.widths[0], lines.widths[399], lines.widths[400]), (640, 640, 0))
        self.assertEqual((len(lines.widths), len(lines), len(list(lines))), (1024, 400, 400))
        self.assertEqual(b"".join(lines), whole)
        self.assertEqual(
            (bytes(lines.line(399)[-3:]), len(lines.line(400))), (bytes((63, 63, 21)), 0)
        )
        with self.assertRaises(IndexError):
            lines.line(1024)

    def test_what_is_drawn_until_now_is_the_beginning_of_the_frame(self) -> None:
        self.card.frame()
        self.card.advance(100_000)
        before = self.card.save()
        drawn = self.card.peek()
        self.assertEqual((drawn.widths[0], drawn.widths[399]), (640, 0))
        bytes_so_far = b"".join(drawn)
        self.assertEqual(self.card.save(), before)
        self.assertTrue(bytes_so_far)
        self.assertTrue(b"".join(self.card.lines()).startswith(bytes_so_far))

    def test_a_skipped_frame_leaves_what_a_frame_leaves(self) -> None:
        with card_in(0x13) as other:
            other.put(0xA0000 + 320 * 199 + 319, 0x0E)
            for card in (self.card, other):
                card.advance(123_456)
            self.card.frame()
            other.skip_frame()
            self.assertEqual(other.save(), self.card.save())
            self.assertEqual(other.beam().frame, self.card.beam().frame)
            self.assertEqual(bytes(other.frame().data), bytes(self.card.frame().data))

    def test_a_ragged_frame_has_lines(self) -> None:
        def make_ragged() -> None:
            self.card.out_word(0x3D4, 0x4F01)
            self.card.advance(100_000)
            self.card.out_word(0x3D4, 0x2001)

        self.card.out_word(0x3D4, 0x0011)  # registers 0 to 7 may be written
        make_ragged()
        with self.assertRaises(zaklimot.Ragged):
            self.card.frame()
        make_ragged()
        with self.assertRaises(zaklimot.Ragged):
            self.card.frame_xrgb()
        make_ragged()
        self.assertEqual({width for width in self.card.lines().widths if width}, {640, 264})

    def test_files(self) -> None:
        picture = self.card.frame()
        self.assertEqual(picture.ppm(), b"P6\n640 400\n63\n" + bytes(picture.data))
        png = picture.png()
        self.assertEqual(struct.unpack(">II", png[16:24]), (640, 400))
        at = png.index(b"IDAT")
        length = struct.unpack(">I", png[at - 4 : at])[0]
        rows = zlib.decompress(png[at + 4 : at + 4 + length])
        self.assertEqual((len(rows), rows[-3:]), (400 * 1921, bytes((255, 255, 85))))

    def test_arrays_of_numpy_share_the_memory(self) -> None:
        told = self.card.frame().__array_interface__
        self.assertEqual((told["shape"], told["typestr"]), ((400, 640, 3), "|u1"))
        words = self.card.frame_xrgb().__array_interface__
        self.assertEqual((words["shape"], words["strides"]), ((400, 640), (9216, 4)))
        try:
            import numpy
        except ImportError:
            self.skipTest("numpy is not here")
        picture, xrgb = self.card.frame(), self.card.frame_xrgb()
        array, wide = numpy.asarray(picture), numpy.asarray(xrgb)
        self.assertEqual(
            (array[399, 639].tolist(), int(wide[399, 639])), ([63, 63, 21], 0x00FF_FF55)
        )
        self.card.put(0xA0000, 0x0F)
        self.card.frame()
        self.assertEqual(array[0, 0].tolist(), [63, 63, 63])


class Bios(unittest.TestCase):
    def setUp(self) -> None:
        self.card = card_in(0x03)
        self.addCleanup(self.card.__exit__)

    def test_what_a_call_reads(self) -> None:
        self.assertEqual(self.card.block(0x1301, cx=5), (5, False))
        self.assertEqual(self.card.block(ax=0x1012, bx=3, cx=5), (15, True))
        self.assertEqual(self.card.block(0x0003).len, 0)
        self.card.int10(0x1301, bx=7, cx=5, block=b"HELLO")
        with self.assertRaises(zaklimot.BadBlock):
            self.card.int10(0x1301, bx=7, cx=5, block=b"HELLO!")

    def test_registers_and_tables(self) -> None:
        answer = self.card.int10(ax=0x1017, bx=7, cx=2)
        self.assertEqual(answer, (0x1017, 7, 2, 0, bytes((42, 42, 42, 0, 0, 21))))
        self.assertEqual(answer.table[:3], bytes(self.card.colour(7)))
        with self.assertRaises(zaklimot.BadRegister):
            self.card.int10(ax=0x1017, bx=255, cx=2)

    def test_the_cycles_of_a_call(self) -> None:
        self.card.int10(ax=0x0003)
        before = self.card.save()
        script = self.card.cycles(0x0E41, bx=7)
        self.assertEqual(self.card.save(), before)
        self.assertEqual(zaklimot.disassemble(script).splitlines()[0], "put B8000 41")
        with zaklimot.Card() as other:
            other.restore(before)
            other.run_on(script)
            self.card.int10(0x0E41, bx=7)
            self.assertEqual(other.registers(), self.card.registers())
            self.assertEqual(other.get(0xB8000), 0x41)
        # More than fit at first: a mode set clears the memory.
        self.assertGreater(len(self.card.cycles(0x0012)), 65536)
        with self.assertRaises(zaklimot.BadMode):
            self.card.cycles(0x0099)

    def test_a_block(self) -> None:
        self.card.int10(ax=0x1300, bx=0x1E, cx=2, dx=0x0203, block=bytearray(b"Hi"))
        self.assertEqual(self.card.cell(2, 4), (ord("i"), 0x1E))

    def test_text(self) -> None:
        for letter in b"Hello\r\n\x01":
            self.card.int10(ax=0x0E00 + letter)
        self.assertEqual(self.card.text(), ["Hello", "☺", *23 * [""]])
        self.assertEqual(self.card.cells()[0][0], zaklimot.Cell(ord("H"), 7))
        self.assertEqual(self.card.cursor(), zaklimot.Position(1, 1))
        data = self.card.bios_data()
        self.assertEqual(
            (data.mode, data.columns, data.cursors[0], data.last_row), (3, 80, (1, 1), 24)
        )

    def test_the_screen(self) -> None:
        self.assertEqual(self.card.screen(), zaklimot.Screen(0, 0, 80, 25, 3, True, 0, 8))
        self.assertIs(self.card.screen().is_text, True)
        for call in calls(
            lambda: self.card.cell(25, 0),
            lambda: self.card.cell(0, 80),
            lambda: self.card.cell(0, 0, page=8),
            lambda: self.card.pixel(0, 0),
            lambda: self.card.cursor(8),
        ):
            with self.assertRaises(zaklimot.BadArgument):
                call()

    def test_a_screen_of_pixels(self) -> None:
        self.card.int10(ax=0x12)
        self.card.int10(ax=0x0C05, cx=639, dx=479)
        self.assertEqual((self.card.pixel(639, 479), self.card.pixel(638, 479)), (5, 0))
        for call in calls(
            lambda: self.card.pixel(640, 0),
            lambda: self.card.pixel(0, 480),
            lambda: self.card.cell(0, 0),
        ):
            with self.assertRaises(zaklimot.BadArgument):
                call()
        with self.assertRaises(zaklimot.WrongKind):
            self.card.text()

    def test_no_screen(self) -> None:
        with Card() as card:
            for call in calls(
                card.screen,
                lambda: card.cell(0, 0),
                lambda: card.pixel(0, 0),
                card.cursor,
            ):
                with self.assertRaises(zaklimot.NoScreen):
                    call()
            for call in calls(card.cells, card.text, lambda: card.int10(ax=0x0E41)):
                with self.assertRaises(zaklimot.NoMode):
                    call()


class State(unittest.TestCase):
    def setUp(self) -> None:
        self.card = card_in(0x12)
        self.addCleanup(self.card.__exit__)

    def test_registers(self) -> None:
        self.card.out(0x3C4, 2)
        self.card.out(0x3CE, 5)
        registers = self.card.registers()
        self.assertEqual((registers.seq_index, registers.gfx_index), (2, 5))
        parts = (registers.seq, registers.crtc, registers.gfx, registers.attr)
        self.assertEqual([len(part) for part in parts], [5, 25, 9, 21])
        self.assertEqual(registers.misc, self.card.inp(0x3CC))
        self.assertIs(registers.attr_is_data, False)
        self.card.out(0x3C0, 0x30)
        self.assertIs(self.card.registers().attr_is_data, True)

    def test_planes_and_latches(self) -> None:
        self.card.out_word(0x3C4, 0x0202)
        self.card.put(0xAFFFF, 0x5A)
        self.card.get(0xAFFFF)
        self.assertEqual(self.card.latches(), bytes((0, 0x5A, 0, 0)))
        self.assertEqual(self.card.plane(1, 0xFFFE), b"\0\x5a")
        self.assertEqual((len(self.card.plane(1)), self.card.plane(1, 0xFFFF, 0)), (65_536, b""))
        with self.assertRaises(zaklimot.BadArgument):
            self.card.plane(1, 0xFFFF, 2)

    def test_the_beam(self) -> None:
        self.assertIs(self.card.beam().half, False)
        self.card.advance(800 * 33 + 11)
        beam = self.card.beam()
        self.assertEqual((beam.line, beam.character, beam.dot, beam.rows), (33, 1, 3, 34))

    def test_the_palette(self) -> None:
        for value in (1, 2, 3):
            self.card.out(0x3C8, 9) if value == 1 else None
            self.card.out(0x3C9, value)
        self.assertEqual(self.card.colour(9), (1, 2, 3))
        self.assertEqual(self.card.palette()[9], zaklimot.Colour(1, 2, 3))

    def test_dumps_are_those_of_a_run(self) -> None:
        for mode in (0x03, 0x12):
            self.card.int10(ax=mode)
            script = (
                f"int ax={mode:X}\nshow regs\nshow beam\nshow latches\nshow bda\nshow dac 7\nshow"
                " plane 3 FFFE 2\n" + ("show cells" if mode == 3 else "")
            )
            dumps = [
                self.card.show_regs(),
                self.card.show_beam(),
                self.card.show_latches(),
                self.card.show_bda(),
                self.card.show_dac(7),
                self.card.show_plane(3, 0xFFFE, 2),
            ]
            dumps += [self.card.show_cells()] if mode == 3 else []
            told = (
                zaklimot.run("int ax=12\n" + script)[2:] if mode == 3 else zaklimot.run(script)[1:]
            )
            self.assertEqual([step.answer + "\n" for step in told][-len(dumps) :], dumps)


class Opening(unittest.TestCase):
    def test_fonts(self) -> None:
        self.assertEqual(len(zaklimot.default_fonts()), zaklimot.FONTS_SIZE)
        wrong: tuple[Fonts, ...] = (b"", bytes(zaklimot.FONTS_SIZE + 1), __file__)
        for fonts in wrong:
            with self.assertRaises(zaklimot.FontSize):
                Card(fonts)
        with Card(bytes(zaklimot.FONTS_SIZE)) as card:
            card.int10(ax=0x03)
            self.assertEqual(card.plane(2), bytes(65_536))
        with self.assertRaises(FileNotFoundError):
            Card("no-such-file")

    def test_version(self) -> None:
        self.assertGreaterEqual(zaklimot.version(), (1, 2))
        self.assertIn("libzaklimot", zaklimot.library_path())


if __name__ == "__main__":
    unittest.main()
