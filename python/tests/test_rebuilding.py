"""Scripts that rebuild a card's state, held against the state that they lead to."""

from __future__ import annotations

import unittest
from random import Random
from typing import Any

import zaklimot
from cards import card_in
from test_reasons import MAKES
from zaklimot import Card, Rebuilt

CARDS = 40


def parts(card: Card) -> tuple[Any, ...]:
    """All of a card's state but the dots of the frame under way, of which the beam counts rows."""
    beam = card.beam()._replace(rows=0)
    planes = [card.plane(plane) for plane in range(4)]
    return (card.registers(), card.palette(), card.latches(), beam, card.bios_data(), planes)


class Rebuilding(unittest.TestCase):
    most_seconds = 300

    def check(self, card: Card) -> Rebuilt:
        """Rebuilds a card's state on a new one, and compares."""
        state = card.save()
        rebuilt = card.rebuild()
        self.assertEqual(card.save(), state)
        with Card() as other:
            report = other.run_on(rebuilt.script)
            self.assertFalse([step for step in report if step.refusal])
            self.assertEqual(parts(other), parts(card))
            self.assertEqual(other.save() != state, rebuilt.are_dots_other)
            with Card() as restored:
                restored.restore(other.save())
                card.skip_frame()
                restored.skip_frame()
                self.assertEqual(restored.frame(), card.frame())
        return rebuilt

    def test_power_on(self) -> None:
        with Card() as card:
            self.assertFalse(self.check(card).are_dots_other)

    def test_each_mode(self) -> None:
        for mode in (3, 7, 0x0D, 0x10, 0x12, 0x13):
            with self.subTest(mode), card_in(mode) as card:
                for letter in b"Hello":
                    card.int10(0x0E00 | letter, 7)
                card.advance(123_456)
                self.assertFalse(self.check(card).are_dots_other)

    def test_what_the_bios_keeps(self) -> None:
        with card_in(3) as card:
            card.int10(0x1112)
            card.int10(0x0200, 0x0100, 0, 0x1234)
            card.int10(0x0100, 0, 0x0307)
            card.int10(0x0501)
            self.check(card)

    def test_a_frame_whose_registers_changed(self) -> None:
        with card_in(0x13) as card:
            card.fill(0xA0000, 0x0F, 320)
            card.advance(100_000)
            card.out(0x3C8, 0x0F)
            for _ in range(3):
                card.out(0x3C9, 0x15)
            self.assertTrue(self.check(card).are_dots_other)

    def test_a_mode_set_amid_the_frame_of_power_on(self) -> None:
        """Its line compare is 0, so the beam has passed it by line 1."""
        for dots in (1, 44, 45, 46, 89, 90, 226):
            with self.subTest(dots), Card() as card:
                card.advance(dots)
                card.int10(0x12)
                self.check(card)

    def test_a_state_that_no_steps_lead_to(self) -> None:
        with card_in(3) as card:
            state = bytearray(card.save())
            # Mode control of the CRT controller, of which the adapter takes other values alone.
            state[41 + 0x17] = 0xA0
            card.restore(state)
            with self.assertRaises(zaklimot.NotRebuilt) as caught:
                card.rebuild()
            self.assertEqual((caught.exception.number, card.save()), (36, state))

    def test_random_cards(self) -> None:
        random, kinds = Random(99), set()
        for number in range(CARDS):
            with self.subTest(number), Card() as card:
                for _ in range(random.randrange(10, 120)):
                    card.run_on(random.choice(MAKES)(random), 0, 1)
                kinds.add(self.check(card).are_dots_other)
        self.assertEqual(kinds, {False, True})

    def test_the_script_is_one(self) -> None:
        with card_in(3) as card:
            script = card.rebuild().script
        self.assertEqual(zaklimot.assemble(zaklimot.disassemble(script)), script)


if __name__ == "__main__":
    unittest.main()
