"""What is wrong in a text, by its place and in words."""

from __future__ import annotations

import unittest
from random import Random
from typing import Any, NamedTuple

import zaklimot
from zaklimot import MistakeKind

NAMES = "out, outw, in, inw, put, putw, get, getw, advance, frame, int, show, version, repeat, end"


class Case(NamedTuple):
    """A text, and where its mistake is; the part of the line that is wrong."""

    text: str
    line: int
    part: str
    kind: MistakeKind
    sentence: str


CASES = (
    Case(
        "out 3c4\u00a02",
        1,
        "\u00a0",
        MistakeKind.CHARACTER,
        "the character U+00A0 that looks like a blank is none; blanks are the space and the tab",
    ),
    Case(
        "frame\nframe é ; é",
        2,
        "é",
        MistakeKind.CHARACTER,
        "the character U+00E9 stands in no step; blanks are the space and the tab",
    ),
    Case("frame\n\n// a picture", 3, "//", MistakeKind.COMMENT, "comments begin with ;"),
    Case("frmae", 1, "frmae", MistakeKind.STEP, f"there is no step 'frmae'; the steps are {NAMES}"),
    Case(
        "frame\n  OUT3c4 2",
        2,
        "OUT3c4",
        MistakeKind.STEP,
        "a blank stands between words: write out 3c4",
    ),
    Case(
        "frame,",
        1,
        "frame,",
        MistakeKind.STEP,
        "nothing stands after the name of a step but blanks: write frame",
    ),
    Case(
        "version 3",
        1,
        "3",
        MistakeKind.STEP,
        "there is no such version: write version 2, or nothing for version 1",
    ),
    Case("frame\nout 3c4 ; note", 2, " ", MistakeKind.FORM, "VALUE is lacking: out PORT VALUE"),
    Case("out 3c4", 1, "", MistakeKind.FORM, "VALUE is lacking: out PORT VALUE"),
    Case("out 3c4 1 2", 1, "2", MistakeKind.FORM, "a word too many: out PORT VALUE"),
    Case("frame frame", 1, "frame", MistakeKind.FORM, "a word too many: one step stands on a line"),
    Case(
        "out 0x3c4 1",
        1,
        "0x3c4",
        MistakeKind.NUMBER,
        "numbers are hexadecimal digits alone: write 3C4",
    ),
    Case(
        "put A0000 100",
        1,
        "100",
        MistakeKind.NUMBER,
        "VALUE has 3 digits, and 2 digits are the most",
    ),
    Case("advance 4G", 1, "4G", MistakeKind.NUMBER, "DOTS is a decimal number"),
    Case(
        "out 3c4 g",
        1,
        "g",
        MistakeKind.NUMBER,
        "VALUE is a hexadecimal number, and 'g' is no digit of one",
    ),
    Case(
        "show",
        1,
        "",
        MistakeKind.SHOW,
        "what is to be shown is lacking: regs, dac, beam, latches, plane, bda, cells",
    ),
    Case("show plane 0 FFFF 2", 1, "2", MistakeKind.SHOW, "from FFFF on the plane has 1 byte"),
    Case(
        "int al=3",
        1,
        "al=3",
        MistakeKind.CALL,
        "a call takes ax, bx, cx and dx; its halves are no registers of their own: write ax",
    ),
    Case("int ax=3 ax=4", 1, "ax=4", MistakeKind.CALL, "ax stands twice"),
    Case(
        "int 10",
        1,
        "10",
        MistakeKind.CALL,
        "a call is always interrupt 10, and its numbers stand after their registers: ax=3",
    ),
    Case(
        "int ax=1300 block 123",
        1,
        "123",
        MistakeKind.BLOCK,
        "a block has two digits for each byte, and these are 3",
    ),
    Case(
        "frame\nend",
        2,
        "end",
        MistakeKind.ORDER,
        "repeats are of version 2: write version 2 before every other line",
    ),
    Case(
        "version 2\nrepeat 2 ; é\nframe",
        2,
        "repeat 2 ; é",
        MistakeKind.ORDER,
        "the repeat has no end",
    ),
    Case("version 2\nend", 2, "end", MistakeKind.ORDER, "no repeat is open here"),
    Case(
        "version 2\nrepeat 2\nrepeat 3\nend\nend",
        3,
        "repeat 3",
        MistakeKind.ORDER,
        "a repeat contains no other, and the one of line 2 is open here",
    ),
)
# Lines that are good, and what random texts are made of beside them.
LINES = (
    "out 3C4 02",
    "frame ; a picture",
    "int ax=3 bx=1 block 0102",
    "show plane 0 0 16",
    "",
    "repeat 2",
    "end",
    "advance 12",
)
LETTERS = " \t;=0123456789ABCDEFabcdefoutinpgshwrmevlx,.#$'\"\u00a0é\x00"


class Mistakes(unittest.TestCase):
    def test_each_kind(self) -> None:
        for case in CASES:
            with self.subTest(case.text):
                mistake = zaklimot.explain_text(case.text)
                assert mistake is not None
                told = (mistake.line, mistake.kind, mistake.sentence)
                self.assertEqual(told, (case.line, case.kind, case.sentence))
                line = case.text.split("\n")[case.line - 1]
                self.assertEqual(line[mistake.start :][: mistake.length], case.part)

    def test_places_in_bytes(self) -> None:
        text = "frame\nframe é ; é".encode("utf-8")
        mistake = zaklimot.explain_text(text)
        assert mistake is not None
        self.assertEqual((mistake.line, mistake.start, mistake.length), (2, 6, 2))
        whole = zaklimot.explain_text("version 2\nrepeat 2 ; é".encode("utf-8"))
        assert whole is not None
        self.assertEqual((whole.start, whole.length), (0, 13))

    def test_bytes_that_are_no_text(self) -> None:
        mistake = zaklimot.explain_text(b"frame \xff")
        assert mistake is not None
        self.assertEqual((mistake.start, mistake.length), (6, 1))
        self.assertIn("byte FF", mistake.sentence)

    def test_texts_that_are_too_long(self) -> None:
        for text, kind in (
            (b" " * (1 << 24) + b"\n", MistakeKind.LONG_TEXT),
            (b"int\n" * 1_600_000, MistakeKind.LONG_SCRIPT),
        ):
            mistake = zaklimot.explain_text(text)
            assert mistake is not None
            self.assertEqual(mistake[:4], (0, 0, 0, kind))
            self.assertIn("16,777,216 bytes are the most", mistake.sentence)

    def test_random_texts(self) -> None:
        random, good, kinds = Random(5), 0, set()
        for _ in range(4000):
            lines = [random.choice(LINES) for _ in range(random.randrange(1, 6))]
            if random.randrange(2):
                lines.insert(0, "version 2")
            for _ in range(random.randrange(3)):
                at = random.randrange(len(lines))
                cut = random.randrange(len(lines[at]) + 1)
                rest = lines[at][cut + random.randrange(2) :]
                lines[at] = lines[at][:cut] + random.choice(LETTERS) + rest
            text = "\n".join(lines)
            with self.subTest(text):
                mistake = zaklimot.explain_text(text)
                if mistake is None:
                    zaklimot.assemble(text)
                    good += 1
                    continue
                with self.assertRaises(zaklimot.BadLine) as caught:
                    zaklimot.assemble(text)
                self.assertEqual(mistake.line, caught.exception.place)
                self.assertLessEqual(mistake.start + mistake.length, len(lines[mistake.line - 1]))
                kinds.add(mistake.kind)
        self.assertGreater(good, 500)
        self.assertGreaterEqual(len(kinds), 8)

    def test_good_texts(self) -> None:
        texts: tuple[Any, ...] = ("", "\n\n", "frame", b"VERSION 2\nrepeat 2\nframe ; x\nend\n")
        for text in texts:
            self.assertIsNone(zaklimot.explain_text(text))

    def test_no_text(self) -> None:
        for wrong in (None, 5, ["frame"]):
            with self.assertRaises(TypeError):
                zaklimot.explain_text(wrong)  # type: ignore[arg-type]


if __name__ == "__main__":
    unittest.main()
