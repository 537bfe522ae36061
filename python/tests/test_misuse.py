"""Misuse: what is called in a wrong way raises, and nothing ends the program."""

from __future__ import annotations

import copy
import gc
import inspect
import os
import pickle
import subprocess
import sys
import threading
import unittest
import weakref
from typing import Any, Callable, Iterator

import zaklimot
from zaklimot import Card

# The methods that call the card, each with numbers that it takes.
CALLS: dict[str, tuple[Any, ...]] = {
    "out": (0x3C4, 2),
    "out_word": (0x3C4, 2),
    "inp": (0x3CC,),
    "inp_word": (0x3C4,),
    "put": (0xA0000, 1),
    "put_word": (0xA0000, 1),
    "get": (0xA0000,),
    "get_word": (0xA0000,),
    "put_bytes": (0xA0000, b"ab"),
    "fill": (0xA0000, 1, 2),
    "get_bytes": (0xA0000, 2),
    "move": (0xA0000, 0xA0002, 2),
    "advance": (1,),
    "clock": (),
    "frame": (),
    "frame_xrgb": (),
    "frame_words": (),
    "frame_update": (bytearray(4 * 320 * 200), 320),
    "line": (),
    "lines": (),
    "skip_frame": (),
    "peek": (),
    "frame_indexed": (),
    "block": (0x1301,),
    "cycles": (0x0E41,),
    "int10": (0x13,),
    "registers": (),
    "beam": (),
    "colour": (0,),
    "palette": (),
    "latches": (),
    "plane": (0,),
    "bios_data": (),
    "screen": (),
    "cell": (0, 0),
    "pixel": (0, 0),
    "cursor": (),
    "cells": (),
    "text": (),
    "show_regs": (),
    "show_beam": (),
    "show_latches": (),
    "show_bda": (),
    "show_cells": (),
    "show_dac": (0,),
    "show_plane": (0, 0, 1),
    "save": (),
    "save_into": (bytearray(1),),
    "save_size": (),
    "restore": (b"",),
    "save_fixed": (1,),
    "save_fixed_into": (bytearray(1),),
    "restore_fixed": (b"",),
    "run_on": ("frame",),
    "run_in_parts": ("frame",),
    "explain_step": ("frame", 0),
    "explain_dot": (),
    "explain_put": (0xA0000, 1),
    "explain_get": (0xA0000,),
    "rebuild": (),
    "close": (),
}
# The most that each number may be; one more is out of range. What a page, a row, a column, x or y
# may be, the screen says.
MOST = {
    "out": (0xFFFF, 0xFF),
    "out_word": (0xFFFF, 0xFFFF),
    "inp": (0xFFFF,),
    "inp_word": (0xFFFF,),
    "put": (0xFFFF_FFFF, 0xFF),
    "put_word": (0xFFFF_FFFF, 0xFFFF),
    "get": (0xFFFF_FFFF,),
    "get_word": (0xFFFF_FFFF,),
    "fill": (0xFFFF_FFFF, 0xFF, 0xFFFF_FFFF),
    "get_bytes": (0xFFFF_FFFF, 0xFFFF_FFFF),
    "move": (0xFFFF_FFFF, 0xFFFF_FFFF, 0xFFFF_FFFF),
    "advance": (0xFFFF_FFFF,),
    "int10": (0xFFFF, 0xFFFF, 0xFFFF, 0xFFFF),
    "block": (0xFFFF, 0xFFFF, 0xFFFF, 0xFFFF),
    "cycles": (0xFFFF, 0xFFFF, 0xFFFF, 0xFFFF),
    "colour": (0xFF,),
    "plane": (3, 0xFFFF, 65_536),
    "cell": (0xFF, 0xFF, 0xFF),
    "pixel": (0xFFFF, 0xFFFF, 0xFF),
    "cursor": (0xFF,),
    "show_dac": (0xFF,),
    "show_plane": (3, 0xFFFF, 256),
    "explain_put": (0xFFFF_FFFF, 0xFF),
    "explain_get": (0xFFFF_FFFF,),
}
# No numbers: of each method's, one is replaced by one of these.
NO_NUMBERS = (1.0, 1.5, "1", b"1", None, [1], 1j, object(), float("nan"), float("inf"))


def called(card: Card, name: str, values: tuple[Any, ...]) -> None:
    """Calls a method of a card; parts are taken."""
    done = getattr(card, name)(*values)
    if isinstance(done, Iterator):
        for _ in done:
            pass


class Closed(unittest.TestCase):
    def test_each_method_has_its_place_here(self) -> None:
        methods = {
            name
            for name, _ in inspect.getmembers(Card, inspect.isfunction)
            if not name.startswith("_")
        }
        self.assertEqual(methods, set(CALLS))

    def test_a_closed_card_raises(self) -> None:
        card = Card()
        card.close()
        self.assertFalse(card.is_open)
        for name, values in CALLS.items():
            with self.subTest(name), self.assertRaises(zaklimot.Closed) as caught:
                called(card, name, values)
            self.assertEqual(caught.exception.number, 20)
        with self.assertRaises(zaklimot.Closed), card:
            pass

    def test_closing_within_with(self) -> None:
        with Card() as card:
            card.close()
        with self.assertRaises(zaklimot.Closed):
            card.close()

    def test_a_card_that_is_forgotten_is_closed(self) -> None:
        card = Card()
        struct, gone = card._struct, weakref.ref(card)
        self.assertTrue(struct.is_open)
        del card
        gc.collect()
        self.assertIsNone(gone())
        self.assertFalse(struct.is_open)

    def test_a_card_that_was_not_opened(self) -> None:
        card = Card.__new__(Card)
        for name, values in CALLS.items():
            with self.subTest(name), self.assertRaises(AttributeError):
                called(card, name, values)

    def test_cards_are_not_copied(self) -> None:
        with Card() as card:
            ways: tuple[Callable[[Card], object], ...] = (copy.copy, copy.deepcopy, pickle.dumps)
            for way in ways:
                with self.assertRaises(TypeError):
                    way(card)

    def test_many_cards(self) -> None:
        cards = [Card() for _ in range(40)]
        for number, card in enumerate(cards):
            card.int10(ax=0x13)
            card.put(0xA0000, number)
        self.assertEqual([card.get(0xA0000) for card in cards], list(range(40)))
        for card in cards:
            card.close()


class Broken(unittest.TestCase):
    """A library that was compiled wrongly closes the card in a call, and answers status 29 once."""

    def broken(self) -> Card:
        """A card whose next call is such a one."""
        card = Card()
        calls, close = card._calls, card._calls["close"]

        def call(*_: Any) -> int:
            if not card._struct.is_open:
                return 20
            close(card._card)
            return 29

        card._calls = {other: call for other in calls}
        cycles = ("put", "put_word", "get", "get_word", "out", "out_word", "in", "in_word")
        for quick in (*cycles, "advance"):
            setattr(card, f"_{quick}", call)
        return card

    def test_each_method_tells_it(self) -> None:
        for name in sorted(set(CALLS) - {"close"}):
            with self.subTest(name), self.broken() as card:
                with self.assertRaises(zaklimot.Broken) as caught:
                    called(card, name, CALLS[name])
                self.assertEqual((caught.exception.number, card.is_open), (29, False))
                self.assertRaises(zaklimot.Closed, card.put, 0xA0000, 1)


class Numbers(unittest.TestCase):
    def setUp(self) -> None:
        self.card = Card()
        self.card.int10(ax=0x13)
        self.addCleanup(self.card.__exit__)

    def assert_raises(self, kinds: Any, name: str, values: tuple[Any, ...]) -> None:
        state = self.card.save()
        with self.subTest(name, values=values), self.assertRaises(kinds):
            getattr(self.card, name)(*values)
        self.assertEqual(self.card.save(), state)

    def test_out_of_range(self) -> None:
        for name, mosts in MOST.items():
            right = (*CALLS[name], *len(mosts) * [0])[: len(mosts)]
            for at, most in enumerate(mosts):
                # Cut to as many bits as the call takes, some of these would be right.
                cut = (
                    right[at] + most + 1,
                    right[at] - most - 1,
                    right[at] + 2**32,
                    right[at] + 2**64,
                )
                for wrong in (-1, most + 1, *cut, -(2**63), 10**30):
                    self.assert_raises(ValueError, name, (*right[:at], wrong, *right[at + 1 :]))

    def test_no_numbers(self) -> None:
        for name, mosts in MOST.items():
            for at in range(len(mosts)):
                for wrong in NO_NUMBERS:
                    if (name, at, wrong) != ("plane", 2, None):
                        values = (*(len(mosts) * [1])[:at], wrong, *(len(mosts) * [1])[at + 1 :])
                        self.assert_raises(TypeError, name, values)

    def test_numbers_of_other_kinds(self) -> None:
        class Index:
            def __init__(self, value: int) -> None:
                self.value = value

            def __index__(self) -> int:
                return self.value

        self.card.put(Index(0xA0000), Index(0x41))  # type: ignore[arg-type]
        read = self.card.get(Index(0xA0000))  # type: ignore[arg-type]
        self.assertEqual((read, self.card.get(0xA0000)), (0x41, 0x41))
        self.card.put(0xA0000, True)
        self.assertEqual(self.card.get_word(Index(0xA0000)), 1)  # type: ignore[arg-type]
        with self.assertRaises(ValueError):
            self.card.put(Index(0xA0000), Index(256))  # type: ignore[arg-type]

    def test_addresses_past_the_last(self) -> None:
        kept = bytearray(b"-")
        for name, values in (
            ("put_bytes", (0xFFFF_FFFD, b"abc")),
            ("put_bytes", (0xFFFF_FFFF, b"a", True)),
            ("fill", (0xA0000, 1, 0xFFF6_0000)),
            ("fill", (1, 1, 0xFFFF_FFFF, True)),
            ("get_bytes", (1, 0xFFFF_FFFF)),
            ("get_bytes", (0xFFFF_FFFF, 1)),
            ("get_bytes", (0xFFFF_FFFF, kept, True)),
            ("move", (0xA0000, 0xFFFF_FFFE, 2)),
            ("move", (0xFFFF_FFFE, 0xA0000, 2, True)),
            ("move", (1, 1, 0xFFFF_FFFF)),
        ):
            self.assert_raises(zaklimot.BadArgument, name, values)
        self.assertEqual(kept, b"-")
        self.assertEqual(self.card.put_bytes(0xFFFF_FFFC, b"abc"), 0)
        self.assertEqual(self.card.get_bytes(0xFFFF_FFFE, 1), b"\xff")

    def test_no_bytes(self) -> None:
        for address in (-1, 2**32, 10**30):
            self.assert_raises(ValueError, "put_bytes", (address, b"ab"))
        self.assert_raises(TypeError, "put_bytes", (1.5, b"ab"))
        for wrong in (None, 5, "ab", [1, 2], 1.5):
            self.assert_raises(TypeError, "restore", (wrong,))
            self.assert_raises(TypeError, "put_bytes", (0xA0000, wrong))
            with self.assertRaises(TypeError):
                self.card.int10(ax=0x1300, block=wrong)  # type: ignore[arg-type]
            if not isinstance(wrong, str):
                with self.assertRaises(TypeError):
                    zaklimot.run(wrong)
                with self.assertRaises(TypeError):
                    self.card.run_on(wrong)
                with self.assertRaises(TypeError):
                    self.card.run_in_parts(wrong)

    def test_buffers(self) -> None:
        drawing: tuple[Callable[..., object], ...] = (
            self.card.frame,
            self.card.frame_xrgb,
            self.card.frame_words,
        )
        for wrong in (b"bytes", "text", 5, memoryview(bytearray(8))[::2]):
            for call in drawing:
                with self.subTest(wrong), self.assertRaises(TypeError):
                    call(into=wrong)
            self.assert_raises(TypeError, "frame_update", (wrong, 1))
            for name in ("save_into", "save_fixed_into"):
                self.assert_raises(TypeError, name, (wrong,))
            if wrong != 5:
                self.assert_raises(TypeError, "get_bytes", (0xA0000, wrong))
        odd = memoryview(bytearray(4 * 640 * 400 + 1))[1:]
        with self.assertRaises(ValueError):
            self.card.frame_xrgb(into=odd, pitch=640)
        for pitch in (-1, 2**32, 2**70, zaklimot.WIDEST + 1):
            for call in drawing[1:]:
                with self.assertRaises(ValueError):
                    call(pitch=pitch)
        with self.assertRaises(TypeError):
            self.card.frame_xrgb(pitch=1.5)  # type: ignore[arg-type]
        self.assert_raises(TypeError, "frame_update", (None, 320))
        self.assert_raises(ValueError, "frame_update", (odd, 320))
        for pitch in (-1, 2**32, 2**70):
            self.assert_raises(ValueError, "frame_update", (bytearray(8), pitch))

    def test_buffers_grow_where_an_error_is_handled(self) -> None:
        calls: dict[str, tuple[Any, ...]] = {
            "save_into": (),
            "save_fixed_into": (),
            "restore": (),
            "restore_fixed": (),
            "get_bytes": (0xFFFF_FFFF,),
            "put_bytes": (0xFFFF_FFFF,),
            "frame": (),
            "frame_xrgb": (),
            "frame_words": (),
            "frame_update": (),
            "frame_indexed": (),
        }
        for name, front in calls.items():
            room = bytearray(8)
            behind = (320,) if name == "frame_update" else ()
            with self.subTest(name):
                try:
                    getattr(self.card, name)(*front, room, *behind)
                    self.fail("it is too short")
                except zaklimot.Error:
                    room.extend(b"more")

    def test_slices_out_of_range(self) -> None:
        for first, most in ((-1, 1), (0, -1), (2**32, 1), (0, 2**32)):
            for name in ("run_on", "run_in_parts"):
                self.assert_raises(ValueError, name, ("frame", first, most))
        for name in ("run_on", "run_in_parts"):
            self.assert_raises(TypeError, name, ("frame", 1.5, 1))


class Threads(unittest.TestCase):
    def test_two_threads_with_one_card(self) -> None:
        """Calls of many threads come one after the other, also where one closes the card in
        between."""
        card, raised = Card(), []
        card.int10(ax=0x13)

        def work() -> None:
            try:
                for at in range(3000):
                    card.put(0xA0000 + at, at & 0xFF)
                    if at % 100 == 0:
                        card.frame()
                        card.restore(card.save())
                        card.run_on("frame", 0, 1)
            except zaklimot.Closed:
                raised.append(True)

        threads = [threading.Thread(target=work) for _ in range(8)]
        for thread in threads:
            thread.start()
        threads[0].join(0.3)
        card.close()
        for thread in threads:
            thread.join()
        self.assertFalse(card.is_open)

    def test_a_card_a_thread(self) -> None:
        red = {}

        def draw(value: int) -> None:
            with Card() as card:
                card.int10(ax=0x13)
                for _ in range(20):
                    card.put(0xA0000, value)
                    red[value] = card.frame()[0, 0].red

        threads = [threading.Thread(target=draw, args=(value,)) for value in (0, 4, 15)]
        for thread in threads:
            thread.start()
        for thread in threads:
            thread.join()
        self.assertEqual(red, {0: 0, 4: 42, 15: 63})

    def test_closing_from_two_threads(self) -> None:
        for _ in range(50):
            card, closed = Card(), []

            def close() -> None:
                try:
                    card.close()
                except zaklimot.Closed:
                    closed.append(True)

            threads = [threading.Thread(target=close) for _ in range(2)]
            for thread in threads:
                thread.start()
            for thread in threads:
                thread.join()
            self.assertLessEqual(len(closed), 1)
            self.assertFalse(card.is_open)


class Forks(unittest.TestCase):
    def test_a_process_that_forks_keeps_its_pictures(self) -> None:
        with Card() as card:
            card.int10(ax=0x13)
            picture = card.frame()
            child = os.fork()
            if not child:
                card.put(0xA0000, 0x0F)
                card.frame()
                os._exit(0 if picture[0, 0] == (63, 63, 63) else 1)
            self.assertEqual(os.waitpid(child, 0)[1], 0)
            self.assertEqual(picture[0, 0], (0, 0, 0))
            self.assertEqual(card.frame()[0, 0], (0, 0, 0))


class Ending(unittest.TestCase):
    def test_a_program_that_closes_nothing_ends_well(self) -> None:
        program = (
            "import zaklimot; card = zaklimot.Card(); card.int10(ax=0x13); picture = card.frame();"
            " card.me = card"
        )
        done = subprocess.run([sys.executable, "-c", program], capture_output=True, timeout=60)
        self.assertEqual((done.returncode, done.stderr), (0, b""))


if __name__ == "__main__":
    unittest.main()
