"""Why a step is refused, as the card tells it."""

from __future__ import annotations

import unittest
from typing import NamedTuple, Optional

import zaklimot
from cards import card_in
from zaklimot import Card, Group, Part, Why
from zaklimot.format import REFUSALS

NO_MODE = "No mode is set yet. `int ax=3` sets text of 80 by 25 cells, `int ax=13` 256 colours."


class Case(NamedTuple):
    """A step that is refused after others, and what is told of it."""

    before: str
    step: str
    why: Why
    numbers: tuple[int, ...]
    text: str
    is_high: bool = False

    def refusal(self) -> Optional[type[zaklimot.Error]]:
        """The refusal of the step."""
        with Card() as card:
            card.run_on(self.before)
            return card.run_on(self.step)[0].refusal


CASES = (
    Case("", "out 60 1", Why.NO_PORT, (0x60,), "No part of the adapter decodes port 060."),
    Case("", "in ABCD", Why.NO_PORT, (0xABCD,), "No part of the adapter decodes port ABCD."),
    Case(
        "int ax=3",
        "out 3B4 1",
        Why.OTHER_CRT_CONTROLLER,
        (0x3B4, 0x3D4, 0x3D4),
        "The CRT controller is at 3D4 now, since bit 0 of miscellaneous output is 1. There, port"
        " 3B4 is 3D4.",
    ),
    Case(
        "",
        "in 3DA",
        Why.OTHER_CRT_CONTROLLER,
        (0x3DA, 0x3B4, 0x3BA),
        "The CRT controller is at 3B4 now, since bit 0 of miscellaneous output is 0. There, port"
        " 3DA is 3BA.",
    ),
    Case("", "out 3CC 1", Why.READ_ONLY, (0x3CC,), "Port 3CC can't be written."),
    Case(
        "",
        "in 3C2",
        Why.PORT_LEFT_OUT,
        (0x3C2, Part.INPUT_STATUS_0),
        "Port 3C2 would be input status 0, which is left out of the adapter.",
    ),
    Case(
        "",
        "out 3C3 1",
        Why.PORT_LEFT_OUT,
        (0x3C3, Part.SUBSYSTEM_ENABLE),
        "Port 3C3 would be subsystem enable, which is left out of the adapter.",
    ),
    Case(
        "",
        "inw 3C6",
        Why.PORT_LEFT_OUT,
        (0x3C7, Part.DAC_STATE),
        "Port 3C7 would be the DAC state, which is left out of the adapter.",
        is_high=True,
    ),
    Case(
        "int ax=3",
        "out 3DA 1",
        Why.PORT_LEFT_OUT,
        (0x3DA, Part.FEATURE_CONTROL),
        "Port 3DA would be feature control, which is left out of the adapter.",
    ),
    Case(
        "",
        "outw 3C4 105",
        Why.NO_REGISTER,
        (Group.SEQUENCER, 5, 4),
        "The index of the sequencer is 05, and its registers end at 04.",
        is_high=True,
    ),
    Case(
        "out 3C0 15",
        "in 3C1",
        Why.NO_REGISTER,
        (Group.ATTRIBUTE_CONTROLLER, 0x15, 0x14),
        "The index of the attribute controller is 15, and its registers end at 14.",
    ),
    Case(
        "",
        "outw 3CE E505",
        Why.BIT_LEFT_OUT,
        (Group.GRAPHICS_CONTROLLER, 5, 5, 0xE5),
        "Bit 5 of graphics mode, shift register mode, is left out of the adapter, so it can't be"
        " 1.",
        is_high=True,
    ),
    Case(
        "out 3B4 14",
        "out 3B5 20",
        Why.BIT_LEFT_OUT,
        (Group.CRT_CONTROLLER, 0x14, 5, 0x20),
        "Bit 5 of underline location, count by four, is left out of the adapter, so it can't be 1.",
    ),
    Case(
        "int ax=3\nout 3D4 17",
        "out 3D5 A2",
        Why.FIELD_LEFT_OUT,
        (Group.CRT_CONTROLLER, 0x17, 3, 0, 3),
        "In mode control of the CRT controller bits 0 and 1 must be 1, and bits 2 and 3 must be"
        " 0.",
    ),
    Case(
        "",
        "get B8000",
        Why.MEMORY_OFF,
        (0xB8000,),
        "Display memory is off: enable RAM, bit 1 of miscellaneous output, is 0.",
    ),
    Case(
        "int ax=13",
        "putw AFFFF 1234",
        Why.OUTSIDE_WINDOW,
        (0xB0000, 1, 0xA0000, 0xAFFFF),
        "Memory map is 1 (graphics controller 6, bits 3-2), and it decodes A0000 to AFFFF. B0000"
        " lies outside.",
        is_high=True,
    ),
    Case(
        "int ax=3",
        "get 12345678",
        Why.OUTSIDE_WINDOW,
        (0x1234_5678, 3, 0xB8000, 0xBFFFF),
        "Memory map is 3 (graphics controller 6, bits 3-2), and it decodes B8000 to BFFFF."
        " 12345678 lies outside.",
    ),
    Case(
        "",
        "outw FFFF 0",
        Why.LAST_PORT,
        (),
        "Port FFFF is the last: a word has two bytes.",
        is_high=True,
    ),
    Case(
        "int ax=3",
        "getw FFFFFFFF",
        Why.LAST_ADDRESS,
        (),
        "Address FFFFFFFF is the last: a word has two bytes.",
        is_high=True,
    ),
    Case("", "int ax=E41", Why.NO_MODE_SET, (0x0E,), NO_MODE),
    Case(
        "int ax=3",
        "int ax=12AB bx=31",
        Why.NO_SERVICE,
        (0x12, 0xAB, 0x31),
        "The video BIOS has no function 12, or not with AL AB and BL 31.",
    ),
    Case(
        "",
        "int ax=99",
        Why.NO_SUCH_MODE,
        (0x19,),
        "There is no mode 19. The modes are 03, 07, 0D, 10, 12 and 13; bit 7 of AL keeps the"
        " memory.",
    ),
    Case(
        "int ax=7",
        "int ax=C0F",
        Why.NO_PIXELS,
        (7,),
        "Mode 07 is text, and this call wants graphics.",
    ),
    Case(
        "int ax=13",
        "int ax=1112",
        Why.NO_CHARACTER_MAP,
        (0x13,),
        "Mode 13 is graphics, and this call wants text.",
    ),
    Case(
        "int ax=D",
        "int ax=508",
        Why.NO_PAGE,
        (8, 8),
        "There is no page 08: the pages of this mode are 00 to 07.",
    ),
    Case(
        "int ax=3\nint ax=200 bx=200 dx=1905",
        "int ax=800 bx=200",
        Why.CURSOR_OUTSIDE,
        (2, 25 * 80 + 5, 2000),
        "The cursor of page 02 is at cell 2005, counted from 0, and a page has 2000 cells.",
    ),
    Case(
        "int ax=3\nint ax=200 dx=1905",
        "int ax=E41",
        Why.POSITION_OUTSIDE,
        (25, 5, 25, 80),
        "Column 5 of row 25, counted from 0, is outside a page of 80 by 25 cells.",
    ),
    Case(
        "int ax=13",
        "int ax=C0F cx=140 dx=12",
        Why.PIXEL_OUTSIDE,
        (320, 18, 320, 200),
        "Column 320 of line 18, counted from 0, is outside a page of 320 by 200 pixels.",
    ),
    Case(
        "int ax=3\nint ax=200 dx=1800",
        "int ax=941 bx=7 cx=51",
        Why.CELLS_PAST,
        (81, 24 * 80, 2000),
        "From the cursor on the page has 80 cells, and this call writes 81.",
    ),
    Case(
        "int ax=3",
        f"int ax=1110 bx=1000 cx=2 dx=FF block {'00' * 32}",
        Why.GLYPHS_PAST,
        (2, 0xFF),
        "The characters end at FF, and this call loads 2 glyphs from FF on.",
    ),
    Case(
        "int ax=3",
        "int ax=1000 bx=110",
        Why.NO_PALETTE_REGISTER,
        (0x10,),
        "There is no palette register 10: they are 00 to 0F.",
    ),
    Case(
        "int ax=3",
        "int ax=1003 bx=2",
        Why.NO_BLINKING,
        (2,),
        "Blinking is cleared with BL 00 and set with BL 01, and BL is 02.",
    ),
    Case(
        "int ax=3",
        "int ax=1010 bx=100",
        Why.NO_ENTRY,
        (0x100,),
        "The DAC has no entry 0100: its entries are 00 to FF.",
    ),
    Case(
        "int ax=3",
        "int ax=1012 bx=FF cx=2 block 000000000000",
        Why.NO_ENTRIES,
        (2, 0xFF),
        "The entries of the DAC end at FF, and this call names 2 from FF on.",
    ),
    Case(
        "int ax=3",
        "int ax=1300 cx=3 block 6162",
        Why.WRONG_BLOCK,
        (2, 3),
        "The block has 2 bytes, and this call takes 3.",
    ),
    Case(
        "int ax=3",
        f"int ax=1110 bx=900 cx=1 block {'00' * 9}",
        Why.NO_HEIGHT,
        (9, 3),
        "Glyphs have 8, 14 or 16 scan lines (08, 0E, 10), and BH is 09.",
    ),
    Case(
        "",
        "advance 16777217",
        Why.TOO_MANY_DOTS,
        (16_777_217, 16_777_216),
        "An advance has at most 16,777,216 dots.",
    ),
    Case("", "show cells", Why.NO_CELLS_YET, (), NO_MODE),
    Case(
        "int ax=13",
        "show cells",
        Why.NO_CELLS,
        (0x13,),
        "Mode 13 is graphics, which has no cells to show.",
    ),
)


class Reasons(unittest.TestCase):
    def test_each_kind_of_refusal(self) -> None:
        for case in CASES:
            with self.subTest(case.step, before=case.before), Card() as card:
                self.assertFalse(any(step.refusal for step in card.run_on(case.before)))
                state = card.save()
                for _ in "before and after the refusal":
                    reason = card.explain_step(case.step)
                    assert reason is not None
                    told = (reason.why, tuple(reason.numbers.values()), reason.text)
                    self.assertEqual(told, (case.why, case.numbers, case.text))
                    self.assertEqual(tuple(reason.numbers), case.why.numbers)
                    self.assertEqual(reason.is_high, case.is_high)
                    self.assertIs(card.run_on(case.step)[0].refusal, reason.refusal)
                    self.assertEqual(card.save(), state)

    def test_no_kind_is_without_a_case(self) -> None:
        self.assertEqual({case.why for case in CASES}, set(Why))
        refusals = {case.refusal() for case in CASES}
        self.assertEqual({kind.__name__ for kind in refusals if kind}, set(REFUSALS.values()))

    def test_groups_and_parts_are_told_as_such(self) -> None:
        with Card() as card:
            register, port = card.explain_step("outw 3C4 105"), card.explain_step("in 3C2")
        assert register is not None and port is not None
        self.assertIsInstance(register.numbers["group"], Group)
        self.assertIsInstance(port.numbers["part"], Part)

    def test_a_step_that_would_be_done(self) -> None:
        with card_in(0x13) as card:
            for step in ("put A0000 1", "frame", "int ax=3", "show regs", "advance 16777216"):
                self.assertIsNone(card.explain_step(step))
            self.assertEqual(card.screen().mode, 0x13)


if __name__ == "__main__":
    unittest.main()
