"""Scripts: runs, slices, texts and bytes, and the reports of them."""

from __future__ import annotations

import unittest
from typing import Optional
from unittest import mock

import zaklimot
from cards import Call
from zaklimot import Card, Report
from zaklimot._card import PART_ROOM
from zaklimot._running import parts

TEXT = (
    "int ax=13\nput A0000 0F\nget A0000\nframe\nin 60\ngetw A0000\nint ax=1017 cx=1\nshow"
    " regs\nshow latches"
)


class Runs(unittest.TestCase):
    def test_the_answers_of_steps(self) -> None:
        report = zaklimot.run(TEXT)
        self.assertEqual(
            (len(report), report.taken, [step.number for step in report]),
            (9, 9, list(range(1, 10))),
        )
        self.assertEqual(report[0].registers, (0x13, 0, 0, 0, b""))
        self.assertEqual((report[1].answer, report[1].value, report[1].refusal), ("ok", None, None))
        self.assertEqual((report[2].value, report[5].value), (0x0F, 0x000F))
        self.assertEqual((report[4].refusal, report[4].value), (zaklimot.NotDecoded, None))
        self.assertEqual(report[6].registers, (0x1017, 0, 1, 0, bytes(3)))
        self.assertEqual(
            (len(report[7].answer.splitlines()), report[8].answer), (6, "latches 0F 00 00 00")
        )
        self.assertEqual([step.number for step in report[1:3]], [2, 3])

    def test_pictures(self) -> None:
        report = zaklimot.run(TEXT)
        picture = report[3].picture
        assert picture is not None
        self.assertEqual(
            (picture.width, picture.height, picture[1, 1], picture[2, 0]),
            (640, 400, (63, 63, 63), (0, 0, 0)),
        )
        self.assertEqual(report[3].answer, f"picture {len(picture.ppm())}")
        self.assertEqual(report.pictures, [picture])
        with Card() as card:
            card.int10(ax=0x13)
            card.put(0xA0000, 0x0F)
            self.assertEqual(card.frame(), picture)

    def test_a_long_report(self) -> None:
        report = zaklimot.run("version 2\nint ax=12\nrepeat 60\nframe\nend\nin 3CC")
        self.assertGreater(len(report.raw), 1 << 25)
        self.assertEqual((len(report.pictures), report[61].value), (60, 0xE3))

    def test_no_steps(self) -> None:
        self.assertEqual(list(zaklimot.run("")), [])
        self.assertEqual(list(zaklimot.run(b"VGAS\x01")), [])

    def test_a_ragged_frame(self) -> None:
        script = "int ax=13\noutw 3D4 0011\nadvance 100000\noutw 3D4 2001\nframe"
        self.assertEqual(zaklimot.run(script)[4], (5, "ragged", None))

    def test_fonts(self) -> None:
        script = "int ax=3\nshow plane 2 820 4"
        self.assertEqual(
            zaklimot.run(script, fonts=bytes(9728))[1].answer, "plane 2 0820: 00 00 00 00"
        )
        self.assertNotEqual(zaklimot.run(script)[1].answer, "plane 2 0820: 00 00 00 00")
        with self.assertRaises(zaklimot.FontSize):
            zaklimot.run(script, fonts=b"")
        fonts = zaklimot.default_fonts()
        with self.assertRaises(zaklimot.BadMagic):
            zaklimot.run(fonts, fonts=fonts)


class Forms(unittest.TestCase):
    def test_texts_and_bytes(self) -> None:
        code = zaklimot.assemble(TEXT)
        self.assertEqual(zaklimot.assemble(TEXT.encode()), code)
        self.assertEqual(zaklimot.assemble(zaklimot.disassemble(code)), code)
        self.assertEqual(zaklimot.disassemble(b"VGAS\x01\x0b"), "frame\n")
        for form in (code, bytearray(code), memoryview(code), TEXT):
            self.assertEqual(zaklimot.run(form).raw, zaklimot.run(TEXT).raw)

    def test_faults(self) -> None:
        faults: tuple[tuple[type[zaklimot.ScriptError], int, Optional[int], Call], ...] = (
            (zaklimot.BadLine, 107, 2, lambda: zaklimot.assemble("frame\nmove 3C4 02")),
            (zaklimot.BadLine, 107, 3, lambda: zaklimot.run("; é\n\nframe 2")),
            (zaklimot.BadStep, 104, 5, lambda: zaklimot.run(b"VGAS\x01\x63")),
            (zaklimot.Truncated, 105, 6, lambda: zaklimot.run(b"VGAS\x01\x0b\x01\x00")),
            (zaklimot.Truncated, 105, 4, lambda: zaklimot.disassemble(b"VGAS")),
            (zaklimot.BadMagic, 102, None, lambda: zaklimot.run(b"")),
            (zaklimot.BadVersion, 103, None, lambda: zaklimot.disassemble(b"VGAS\x07")),
            (
                zaklimot.TooMany,
                111,
                17,
                lambda: zaklimot.disassemble(
                    b"VGAS\x02" + b"\x0d\xff\xff" + 300 * b"\x0b" + b"\x0e"
                ),
            ),
        )
        for kind, number, place, call in faults:
            with self.subTest(kind), self.assertRaises(kind) as caught:
                call()
            fault = caught.exception
            self.assertIsInstance(fault, zaklimot.ScriptError)
            self.assertEqual(fault.number, number)
            if kind is not zaklimot.TooMany:
                self.assertEqual(fault.place, place)
            self.assertEqual(str(fault.place) in str(fault), fault.place is not None)
            # A message is for who has no page at hand: it names no field of its own.
            self.assertNotIn("`place`", str(fault))

    def test_too_long(self) -> None:
        with self.assertRaises(zaklimot.TooLong):
            zaklimot.assemble(b" " * (1 << 24) + b" ")


class Slices(unittest.TestCase):
    def test_they_make_the_whole(self) -> None:
        whole, code = zaklimot.run(TEXT), zaklimot.assemble(TEXT)
        for most in (1, 2, 5, 9, 0xFFFF_FFFF):
            raw, first = b"", 0
            with Card() as card:
                while True:
                    part = card.run_on(code, first, most)
                    raw, first = raw + part.raw, first + part.taken
                    if part.taken < most:
                        break
            self.assertEqual((raw, first), (whole.raw, 9))

    def test_parts_make_the_whole(self) -> None:
        """Whatever time a part has. A part's report has no more bytes than one step's may have."""
        text = "version 2\nint ax=12\nrepeat 9\nout 3C4 0F\nframe\nend\nrepeat 2000\nget A0000\nend"
        whole = zaklimot.run(text)
        with Card() as card:
            card.run_on(text)
            state = card.save()
        for seconds in (0.0, 0.001, 1e6):
            with Card() as card:
                parts = list(card.run_in_parts(text, seconds=seconds))
                self.assertEqual(b"".join(part.raw for part in parts), whole.raw)
                self.assertEqual(sum(part.taken for part in parts), whole.taken)
                self.assertTrue(all(len(part.raw) <= PART_ROOM for part in parts))
                self.assertEqual(card.save(), state)

    def test_how_long_parts_are(self) -> None:
        """To pass over steps may take long: no part is the shorter for it."""
        for passing, of_step, length, lowest, highest in (
            (0.0, 0.0, 10, 10, 14),
            (0.5, 0.0, 10, 10, 14),
            (0.5, 1e-6, 10, 10, 14),
            (0.0, 1e-3, 10, 1000, 1100),
            (0.5, 1e-3, 10, 40, 60),
            (0.0, 1.0, 10, 99_900, 100_000),
            (0.0, 0.0, 1 << 20, 33_333, 50_100),
            (0.0, 0.0, 1 << 22, 100_000, 100_000),
        ):
            now, written = 0.0, memoryview(bytes(PART_ROOM))

            def take(first: int, most: int) -> Report:
                nonlocal now
                now += passing + most * of_step
                if most > 1 and most * length > PART_ROOM:
                    raise zaklimot.NoRoom
                return Report(written[: most * length], most)

            with self.subTest((passing, of_step, length)):
                with mock.patch("time.monotonic", lambda: now):
                    taken = [one.taken for one in parts(take, 0, 100_000, 0.1, PART_ROOM)]
                self.assertEqual(sum(taken), 100_000)
                self.assertTrue(lowest <= len(taken) <= highest, len(taken))

    def test_parts_of_some_steps(self) -> None:
        code = zaklimot.assemble(TEXT)
        for first, most in ((0, 0), (0, 3), (2, 5), (8, 9), (9, 1), (50, 2)):
            with Card() as card, Card() as other:
                for done in (card, other):
                    done.run_on(code, 0, first)
                raw = b"".join(part.raw for part in card.run_in_parts(code, first, most))
                self.assertEqual(raw, other.run_on(code, first, most).raw)

    def test_a_fault_ends_the_parts(self) -> None:
        """What was taken before it is told, and the card is left there."""
        with Card() as card, self.assertRaises(zaklimot.BadStep) as caught:
            for part in card.run_in_parts(b"VGAS\x01\x0b\x63"):
                self.fail(f"{part.raw!r} is told")
        self.assertEqual(caught.exception.place, 6)

    def test_a_slice_longer_than_its_room_is_taken_once(self) -> None:
        script = "version 2\nint ax=12\nrepeat 12\nframe\nend\nshow beam"
        with Card() as card:
            report = card.run_on(script)
            self.assertEqual(report.raw, zaklimot.run(script).raw)
            self.assertEqual(card.show_beam().split()[1:3], report[13].answer.split()[1:3])
            self.assertIn("beam frame 12 ", report[13].answer)

    def test_a_fault_leaves_the_card(self) -> None:
        with Card() as card:
            card.int10(ax=0x03)
            state = card.save()
            for most in (1, 2):
                with self.assertRaises(zaklimot.BadStep) as caught:
                    card.run_on(b"VGAS\x01\x0b\x63", 0, most)
                self.assertEqual(caught.exception.place, 6)
                self.assertEqual(card.save(), state)

    def test_calls_between_slices(self) -> None:
        with Card() as card:
            card.run_on("int ax=13")
            card.put(0xA0000, 9)
            self.assertEqual(card.run_on("frame\nget A0000", 1)[0], (2, "09", None))


if __name__ == "__main__":
    unittest.main()
