"""The script that a program writes: each of its steps is one that the library takes, and does what
Card does."""

from __future__ import annotations

import inspect
import unittest

import zaklimot
from cards import calls
from zaklimot import CRTC, GFX, SEQ, Card, Script, _script
from zaklimot.format import FORMS


# What these registers keep, and the profile has, where 01 is not.
VALUES = {SEQ.MEMORY_MODE: 0x02, CRTC.MODE_CONTROL: 0xE3}


def whole() -> Script:
    """A script with each step."""
    script = Script()
    script.int10(ax=0x03)
    script.type("HÉ")
    script.out(0x3C4, 2)
    script.out(SEQ.MAP_MASK, 0x0F)
    script.out_word(0x3CE, 0xFF08)
    script.inp(0x3CC)
    script.inp(GFX.BIT_MASK)
    script.inp_word(0x3C4)
    script.put(0xB8000, 0x41)
    script.put_word(0xB8002, 0x1E42)
    script.get(0xB8000)
    script.get_word(0xB8002)
    script.int10(ax=0x1300, bx=0x1E, cx=1, dx=0x0101, block=b"\x01")
    for dump in (
        script.show_regs,
        script.show_beam,
        script.show_latches,
        script.show_bda,
        script.show_cells,
    ):
        dump()
    script.show_dac(255)
    script.show_plane(3, 0xFFFF, 1)
    with script.repeat(3):
        script.advance(5)
        script.out(CRTC.START_ADDRESS_LOW, 1)
    script.frame()
    return script


class Scripts(unittest.TestCase):
    def test_each_step_is_one_of_a_script(self) -> None:
        script = whole()
        code = zaklimot.assemble(script.text())
        self.assertEqual(bytes(script), code)
        spelled = {line.partition(" ")[0] for line in script.text().splitlines()}
        self.assertEqual(
            spelled, {line.partition(" ")[0] for line in zaklimot.disassemble(code).splitlines()}
        )
        own = {name.partition(" ")[0] for name in FORMS}
        self.assertEqual(spelled, own | {"version", "repeat", "end"})
        self.assertEqual(set(_script.STEPS.values()), set(FORMS))
        self.assertEqual(sum(line.startswith("show ") for line in script.text().splitlines()), 7)

    def test_its_answers(self) -> None:
        report = whole().run()
        self.assertEqual([step.refusal for step in report if step.refusal], [])
        self.assertEqual(len(report), 29)
        values = [step.value for step in report if step.value is not None]
        self.assertEqual(values, [0x67, 0xFF, 0x0F02, 0x41, 0x1E42])
        self.assertTrue(report[19].answer.startswith("row 00: 4107 421E"))
        self.assertEqual(report[-1].picture and report[-1].picture.width, 720)
        with Card() as card:
            self.assertEqual(card.run_on(whole()).raw, report.raw)
        self.assertEqual(zaklimot.run(whole()).raw, report.raw)

    def test_it_has_the_names_of_cards(self) -> None:
        own = {
            name
            for name, _ in inspect.getmembers(Script, inspect.isfunction)
            if not name.startswith("_")
        }
        self.assertEqual(own - {"repeat", "text", "run", "type"}, set(_script.STEPS))
        for name in _script.STEPS:
            parameters = list(inspect.signature(getattr(Script, name)).parameters)
            wanted = [
                one
                for one in inspect.signature(getattr(Card, name)).parameters
                if one not in ("into",)
            ]
            self.assertEqual(parameters, wanted, name)

    def test_registers_by_name(self) -> None:
        kinds = {SEQ: (0x3C4, "seq"), GFX: (0x3CE, "gfx"), CRTC: (0x3D4, "crtc")}
        with Card() as card:
            card.int10(ax=0x03)
            card.out_word(0x3D4, 0x0011)
            for kind, (port, field) in kinds.items():
                for register in kind:
                    card.run_on(f"out {port:X} {register.word:X}")
                    script, value = Script(), VALUES.get(register, 0x01)
                    script.out(register, value)
                    self.assertEqual(card.run_on(script)[0].answer, "ok", register)
                    self.assertEqual(
                        getattr(card.registers(), field)[register.word], value, register
                    )

    def test_what_is_out_of_range(self) -> None:
        script = Script()
        for call in calls(
            lambda: script.out(0x10000, 0),
            lambda: script.out(SEQ.MAP_MASK, 256),
            lambda: script.put(2**32, 0),
            lambda: script.advance(-1),
            lambda: script.show_plane(0, 0xFFFF, 2),
            lambda: script.show_plane(0, 0, 0),
            lambda: script.int10(0x10000),
            lambda: script.int10(0, block=bytes(65_536)),
            lambda: script.type("\u4e00"),
        ):
            with self.assertRaises(ValueError):
                call()
        for times in (0, 65_536):
            with self.assertRaises(ValueError), script.repeat(times):
                pass
        with self.assertRaises(ValueError), script.repeat(2), script.repeat(2):
            pass
        with self.assertRaises(TypeError):
            script.put(0xA0000, 1.5)  # type: ignore[arg-type]
        script = Script()
        script.int10(0x1300, block=bytes(65_535))
        self.assertEqual(len(bytes(script)), 5 + 11 + 65_535)


if __name__ == "__main__":
    unittest.main()
