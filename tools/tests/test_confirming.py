"""How elements are confirmed by the reports of their scripts: what is told of their states, and
which reports are none of a script."""

from __future__ import annotations

import unittest
from typing import Any, Iterator

from zaklimot.format import Step, decode
from zaklimot.commands.steps.comparing import differences
from zaklimot.commands.steps.kinds import KINDS
from zaklimot.commands.steps.parts import ANSWER, FINAL, INITIAL, PLACES, SUMS, Element
from zaklimot.commands.steps.reading import read_elements
from zaklimot.commands.steps.scripts import REGISTERS_SHOWN, reached, scripted

from .confirming import FRAME, answers_in, confirming, report_of
from .stepping import STEPS_EXAMPLES
from .tools import takes_long

# Kinds of which each number of a state differs in turn: with places, entries of the DAC, the beam,
# BIOS data, and the sums of all memory.
CHANGED = ("write-words", "dac-writes", "dots-text", "service-06", "service-00-mode-sets")
# A list with more has places; no registers are so many. Where the sums of all memory are told, each
# number takes a tenth of a second.
MOST_NUMBERS = 32
MOST_NUMBERS_BESIDE_SUMS = 5
# Dumped registers without the values of most, and a picture of one dot.
SHOWN = "misc 00\nseq 00: 00\ncrtc 00: 00\ngfx 00: 00\nattr 00 i: 00\ndac 00 r FF 00 00"
PICTURE = b"P6\n1 1\n63\n\1\2\3"


def examples(kind: str) -> Iterator[Element]:
    """The examples of a kind."""
    return read_elements(str(STEPS_EXAMPLES / f"{kind}.json.gz"))


def numbers_in(value: Any, most: int = MOST_NUMBERS) -> Iterator[tuple[Any, Any]]:
    """Each number in what JSON gives: the list or the object that has it, and its place there. Of a
    list with more than so many these are the first and the last one."""
    keys = list(value if isinstance(value, dict) else range(len(value)))
    is_long = isinstance(value, list) and len(keys) > most
    for key in (keys[0], keys[-1]) if is_long else keys:
        if isinstance(value[key], (dict, list)):
            yield from numbers_in(value[key], most)
        else:
            yield value, key


@takes_long
class Confirming(unittest.TestCase):
    def test_the_script_is_that_of_the_element(self) -> None:
        for kind in KINDS:
            for element in examples(kind):
                steps = list(decode(confirming(element).script).steps())
                leading = reached(element)
                self.assertEqual(steps[: len(leading)], leading)
                others = [
                    step for step in steps[len(leading) :] if not step.name.startswith("show")
                ]
                self.assertEqual([step for step in others if step != FRAME], [scripted(element)])

    def test_each_number_is_told(self) -> None:
        for kind in CHANGED:
            # Those of whom the most is told: with sums, if any has them, and without.
            found = sorted(examples(kind), key=self.variety)
            summed = [element for element in found if SUMS in element[FINAL]]
            listed = [element for element in found if SUMS not in element[FINAL]]
            for element in (*summed[-1:], *listed[-1:]):
                self.hold_numbers(element)

    @staticmethod
    def variety(element: Element) -> tuple[int, int]:
        """How many numbers that are not 0 the places of an element have afterwards, and how many
        different ones its sums: those of planes that are all 0 are one."""
        places = element[FINAL].get("planes", ())
        return len({*element[FINAL].get(SUMS, ())}), sum(any(place[1:]) for place in places)

    def hold_numbers(self, element: Element) -> None:
        """Changes each number of the states and the answer in turn, and holds the report of the
        element's script against what comes of that."""
        report = report_of(confirming(element).script)
        self.assertEqual([*differences(element, confirming(element).read(report))], [])
        has_sums = SUMS in element[FINAL]
        names = (FINAL, ANSWER) if has_sums else (INITIAL, FINAL, ANSWER)
        members = {name: element[name] for name in names if name in element}
        most = MOST_NUMBERS_BESIDE_SUMS if has_sums else MOST_NUMBERS
        for value, key in numbers_in(members, most):
            # By the first number of a place it is looked for.
            if isinstance(value, list) and key == 0 and self.is_place(value, element):
                continue
            value[key] ^= 1
            self.assertTrue(self.told(element, report), (element["name"], key))
            value[key] ^= 1

    @staticmethod
    def told(element: Element, report: bytes) -> list[str]:
        """What is told of an element whose script has this report; or that it is another's."""
        try:
            return [*differences(element, confirming(element).read(report))]
        except ValueError as error:
            return [str(error)]

    @staticmethod
    def is_place(value: list[Any], element: Element) -> bool:
        """Whether a list is a place of a state."""
        states = (element[INITIAL], element[FINAL])
        return any(
            value is one for state in states for name in PLACES for one in state.get(name, ())
        )

    def test_places_are_dumped_together_and_apart(self) -> None:
        """Runs that are longer than a dump, and places far from one another."""
        offsets = [*range(300), 400, 401, 65535]
        planes = [[at, at & 255, at >> 8, at * 7 & 255, 255 - (at & 255)] for at in offsets]
        colours = [[entry, entry & 63, entry >> 2, 63 - (entry & 63)] for entry in (0, 1, 77, 255)]
        state = {**next(examples("write-words"))[INITIAL], "planes": planes, "colours": colours}
        element: Element = {"name": "a read", INITIAL: state, "in": [0x3CC], FINAL: state}
        run = confirming(element)
        told = run.read(report_of(run.script))
        self.assertEqual([told[INITIAL], told[FINAL]], [state, state])
        dumps = [step for step in decode(run.script).steps() if step.name == "show plane"]
        self.assertEqual(
            [step.numbers[1:] for step in dumps[:16:4]], [(0, 256), (256, 44), (400, 2), (65535, 1)]
        )


class Answers(unittest.TestCase):
    """Answers are cut out of reports, and a report of another form is told."""

    STEPS = (Step("out", (0x3C4, 2)), REGISTERS_SHOWN, Step("in", (0x3CC,)), REGISTERS_SHOWN)
    REPORT = f"1 ok\n2 {SHOWN}\n3 55\n4 {SHOWN}\n"

    def test_lines(self) -> None:
        found = answers_in(self.REPORT.encode(), self.STEPS)
        self.assertEqual((found.lines, found.picture), (self.REPORT.splitlines(), None))

    def test_a_picture(self) -> None:
        text = f"{self.REPORT}5 picture {len(PICTURE)}\n".encode() + PICTURE
        found = answers_in(text + b"\n", (*self.STEPS, FRAME))
        assert found.picture is not None
        self.assertEqual((found.lines, found.picture.row(0)), (self.REPORT.splitlines(), b"\1\2\3"))
        found = answers_in(f"{self.REPORT}5 ragged\n".encode(), (*self.STEPS, FRAME))
        self.assertEqual((found.lines, found.picture), (self.REPORT.splitlines(), None))

    def test_reports_of_another_form(self) -> None:
        other, damaged = "its answers are not those of the script's steps", "^line "
        lines = self.REPORT.splitlines()

        def joined(*lines: str) -> str:
            return "".join(f"{line}\n" for line in lines)

        for report, told in (
            ("", other),
            (joined(*lines[:-1]), other),
            (joined(*lines, "5 ok"), other),
            (joined(lines[0], *lines[2:]), damaged),
            (joined("1 ok", *lines), damaged),
            (joined("2 ok", *lines[1:]), damaged),
            (joined("1  ok", *lines[1:])[:-1], damaged),
            (joined("1", *lines[1:]), damaged),
            (self.REPORT.replace("1 ok", "1 ok\r"), damaged),
            (self.REPORT.replace("ok", "\x7f"), damaged),
            (self.REPORT.replace("ok", "\xe9"), damaged),
            # A dump with one line too many.
            (joined(*lines[:7], "extra", *lines[7:]), other),
            (self.REPORT.replace("3 55", "4 55"), damaged),
        ):
            with self.subTest(report), self.assertRaisesRegex(ValueError, told):
                answers_in(report.encode("latin-1"), self.STEPS)
        picture = f"5 picture {len(PICTURE)}\n".encode() + PICTURE
        for behind in (b"", picture, picture + b"\n6 ok\n", b"6 ok\n", picture[:-1]):
            with self.subTest(behind), self.assertRaises(ValueError):
                answers_in(self.REPORT.encode() + behind, (*self.STEPS, FRAME))
