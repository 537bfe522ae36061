"""States: saved, restored, and written into the caller's memory."""

from __future__ import annotations

import array
import ctypes
import tracemalloc
import unittest
import zlib
from typing import Any

import zaklimot
from cards import card_in
from zaklimot import Card


def numbers_of_numpy() -> list[Any]:
    """What makes arrays of numpy of a buffer, where numpy is here: of bytes, and of rows of
    numbers."""
    try:
        import numpy
    except ImportError:
        return []
    return [
        lambda room: numpy.frombuffer(room, numpy.uint8),
        lambda room: numpy.frombuffer(room, ">u4").reshape(2, -1),
    ]


class Snapshots(unittest.TestCase):
    def setUp(self) -> None:
        self.card = card_in(0x13)
        self.addCleanup(self.card.__exit__)

    def test_another_card_goes_on(self) -> None:
        self.card.put(0xA0000, 0x0F)
        self.card.advance(12_345)
        state = self.card.save()
        self.assertGreater(len(state), 265_086)
        self.assertEqual(self.card.save_size(), len(state))
        with Card() as other:
            other.restore(bytearray(state))
            self.assertEqual(other.save(), state)
            self.assertEqual(other.frame().copy(), self.card.frame())
            self.assertEqual(len(other.save()), 265_086)

    def test_states_of_one_size(self) -> None:
        self.card.put(0xA0000, 0x0F)
        states = []
        for dots in (0, 12_345, 100_000):
            self.card.advance(dots)
            states.append((self.card.save(), self.card.save_fixed(1_100_000)))
        with Card() as other:
            for state, fixed in states:
                self.assertEqual((len(fixed), fixed[: len(state)]), (1_100_000, state))
                self.assertEqual(zlib.adler32(fixed[:-4]), int.from_bytes(fixed[-4:], "little"))
                other.restore_fixed(bytearray(fixed))
                self.assertEqual(other.save(), state)
            for at in (0, 40, 1_099_995, 1_099_999):
                damaged = bytearray(fixed)
                damaged[at] ^= 4
                with self.assertRaises(zaklimot.StateChecksum) as caught:
                    other.restore_fixed(damaged)
                self.assertEqual((caught.exception.number, other.save()), (34, state))
        with self.assertRaises(zaklimot.NoRoom):
            self.card.save_fixed(len(self.card.save()) + 3)
        self.assertEqual(
            len(self.card.save_fixed(len(self.card.save()) + 4)), len(self.card.save()) + 4
        )

    def test_into_a_buffer_of_the_callers(self) -> None:
        self.card.put(0xA0000, 0x0F)
        for dots in (0, 12_345):
            self.card.advance(dots)
            state = self.card.save()
            kinds: list[Any] = [bytearray, memoryview, array.array("H"), array.array("Q"), "ctypes"]
            for kind in kinds + numbers_of_numpy():
                room, view = self.room(kind, 8 * (len(state) // 8 + 2))
                self.assertEqual(self.card.save_into(room), len(state))
                self.assertEqual(view[: len(state)], state)
                self.assertEqual(set(view[len(state) :]), {0xEE})
                self.assertEqual(self.card.save_fixed_into(room), len(view))
                self.assertEqual(view, self.card.save_fixed(len(view)))
                with Card() as other:
                    other.restore_fixed(room)
                    self.assertEqual(other.save(), state)
                    other.restore(view[: len(state)])
                    self.assertEqual(other.save(), state)

    def room(self, kind: Any, length: int) -> tuple[Any, memoryview]:
        """A buffer of a kind with so many bytes, and its bytes."""
        filled = bytearray(b"\xee" * length)
        if isinstance(kind, array.array):
            kind.frombytes(filled)
            return kind, memoryview(kind).cast("B")
        if kind == "ctypes":
            lent = (ctypes.c_uint32 * (length // 4)).from_buffer(filled)
            return lent, memoryview(filled)
        room = filled if kind is bytearray else kind(filled)
        return room, memoryview(room).cast("B")

    def test_buffers_that_are_too_short(self) -> None:
        self.card.advance(12_345)
        length = len(self.card.save())
        for call, short in (
            (self.card.save_into, length - 1),
            (self.card.save_fixed_into, length + 3),
            (self.card.save_into, 0),
            (self.card.save_fixed_into, 0),
        ):
            room = bytearray(b"\xee" * short)
            with self.assertRaises(zaklimot.NoRoom):
                call(room)
            self.assertEqual(room, b"\xee" * short)
        self.assertEqual(self.card.save_into(bytearray(length)), length)
        self.assertEqual(self.card.save_fixed_into(bytearray(length + 4)), length + 4)

    def test_buffers_that_are_no_room(self) -> None:
        for wrong in (b"", bytes(300_000), memoryview(bytearray(600_000))[::2]):
            for call in (self.card.save_into, self.card.save_fixed_into):
                with self.assertRaisesRegex(TypeError, "^a buffer is to be writable and contig"):
                    call(wrong)

    def test_a_snapshot_a_frame_allocates_nothing(self) -> None:
        rooms = [bytearray(zaklimot.FIRST_STATE), bytearray(zaklimot.FIRST_STATE + 4)]

        def snapshot() -> None:
            self.card.skip_frame()
            self.assertEqual(self.card.save_into(rooms[0]), zaklimot.FIRST_STATE)
            self.card.save_fixed_into(rooms[1])
            self.card.restore(rooms[0])
            self.card.restore(memoryview(rooms[0]))
            self.card.restore_fixed(rooms[1])

        snapshot()
        tracemalloc.start()
        self.addCleanup(tracemalloc.stop)
        tracemalloc.reset_peak()
        before = tracemalloc.get_traced_memory()[0]
        snapshot()
        self.assertLess(tracemalloc.get_traced_memory()[1] - before, 10_000)
        # The numbers that this stands on see a state that is made anew.
        tracemalloc.reset_peak()
        self.card.restore(self.card.save())
        self.assertGreater(tracemalloc.get_traced_memory()[1] - before, zaklimot.FIRST_STATE)

    def test_other_bytes_are_refused(self) -> None:
        state = self.card.save()

        def damaged(at: int, value: int) -> bytes:
            return state[:at] + bytes((value,)) + state[at + 1 :]

        for kind, number, given in (
            (zaklimot.StateMagic, 30, b""),
            (zaklimot.StateMagic, 30, zaklimot.default_fonts()),
            (zaklimot.StateVersion, 31, damaged(4, 2)),
            (zaklimot.StateLength, 32, state[:-1]),
            (zaklimot.StateLength, 32, state + b"\0"),
            (zaklimot.StatePart, 33, damaged(40, 0xFF)),
        ):
            with self.subTest(kind), self.assertRaises(kind) as caught:
                self.card.restore(given)
            self.assertEqual(caught.exception.number, number)
            self.assertIsInstance(caught.exception, (zaklimot.StateError, ValueError))
        self.assertEqual(self.card.save(), state)


if __name__ == "__main__":
    unittest.main()
