"""Scripts of elements that read the state by cycles, and the answers that they expect. And what is
told where two elements differ."""

from __future__ import annotations

import unittest
from typing import Any
from xml.etree import ElementTree

from zaklimot.format import REGISTERS
from zaklimot.commands.steps.checking import (
    BranchCounts,
    BranchName,
    Branches,
    FirstDiffering,
    HeldFile,
    _junit_text,
    ranked,
    worst,
)
from zaklimot.commands.steps.comparing import differences
from zaklimot.commands.steps.kinds import KINDS
from zaklimot.commands.steps.parts import BDA, BEAM, FINAL, INITIAL, Element
from zaklimot.commands.steps.readback import readback_lines
from zaklimot.commands.steps.reading import fault_of, read_elements
from zaklimot.commands.steps.rules import RULES

from .stepping import GOOD, STEPS_EXAMPLES, steps
from .tools import Folder, hold


# A state of one colour whose values are 0 and others, and the cycles that read it up to its memory.
STATE: Element = {
    "misc": 0x66,
    "seq_index": 0,
    "seq": [3, 0],
    "crtc": [0],
    "attr_index": 0,
    "attr": [9],
    "dac_mask": 0,
    "dac_index": 5,
    "latches": [0, 1, 0, 2],
    "planes": [[5, 0, 0, 7, 0]],
    "colours": [[0, 0, 63, 0]],
}
CYCLES = """in 3C6 ; = 00
in 3C8 ; = 05
in 3C0 ; = 00
in 3C4 ; = 00
out 3C4 00
in 3C5 ; = 03
out 3C4 01
in 3C5 ; = 00
out 3B4 00
in 3B5 ; = 00
in 3BA
out 3C0 00
in 3C1 ; = 09
in 3CC ; = 66""".splitlines()
# What it expects of the latches and of a place, plane by plane, and of an entry.
READ = ["00", "00", "01", "00", "00", "07", "02", "00"]
ENTRY = ["out 3C7 00", "in 3C9 ; = 00", "in 3C9 ; = 3F", "in 3C9 ; = 00"]
REFUSED: Element = {**GOOD, "refused": "NotDecoded"}
CALLED: Element = {**GOOD, "answer": {"ax": 3, "block": [1, 2, 3]}}


def element(name: str, **more: Any) -> Element:
    """The good element by another name, and with other members."""
    return {**GOOD, "name": name, **more}


class Read(Folder):
    def test_what_is_0_is_expected_too(self) -> None:
        lines = list(readback_lines({**GOOD, FINAL: STATE}))
        self.assertEqual(lines[: len(CYCLES)], CYCLES)
        self.assertEqual(lines[-4:], ENTRY)
        memory = [line.split(" ; = ")[1] for line in lines if line.startswith("get ")]
        self.assertEqual(memory, READ)

    def test_kinds_are_told_without_their_parts(self) -> None:
        status, output, said = steps("kinds")
        width = max(map(len, KINDS))
        wanted = [f"{name:{width}}  {kind.told}" for name, kind in KINDS.items()]
        self.assertEqual((status, output.splitlines(), said), (0, wanted, ""))


class Answered(unittest.TestCase):
    def test_what_is_skipped_and_what_tells_nothing(self) -> None:
        element = {**GOOD, "final": {"misc": 3}}

        def counts(answer: Element) -> tuple[int, int, int]:
            held = HeldFile("some")
            held.judge(element, answer, 0)
            return held.agree, held.differ, held.skipped

        final = {"final": {"misc": 3}}
        hold(
            self,
            counts,
            (
                ({"skipped": True}, (0, 0, 1)),
                ({"skipped": True, **final}, (0, 0, 1)),
                ({"skipped": False, **final}, (1, 0, 0)),
                ({}, (0, 1, 0)),
                # A part that the element hasn't is none of its state.
                ({"final": {"dac_mask": 255}}, (0, 1, 0)),
                ({"final": {"dac_mask": 255, "misc": 3}}, (1, 0, 0)),
            ),
        )


class Blocks(unittest.TestCase):
    def test_as_many_bytes_as_a_block_may_have(self) -> None:
        registers: Element = dict.fromkeys(REGISTERS, 0)

        def fault(*counts: int) -> str:
            step, answer = ({**registers, "block": [0] * count} for count in counts)
            called = {"name": "a call", "int": step, "answer": answer, INITIAL: {}, FINAL: {}}
            return fault_of(called)

        most = 0xFFFF
        hold(
            self,
            fault,
            (
                (0, most, ""),
                (most, 0, ""),
                (most + 1, 0, "its step int has not the numbers that it takes"),
                (0, most + 1, "its answer is none of the step int"),
            ),
        )


class Counted(unittest.TestCase):
    """Rules of files, by how many elements agree and differ."""

    NAMES = [rule.name for rule in RULES[:3]]

    def held(self, *counts: tuple[int, str, int, int]) -> HeldFile:
        """A file whose elements show branches of rules, by the numbers of these."""
        held = HeldFile("some")
        for number, branch, agree, differ in counts:
            name = BranchName(self.NAMES[number], branch)
            held.counts[name] = BranchCounts(agree, differ)
        return held

    def test_all_files_count(self) -> None:
        files = [self.held((0, "a", agree, differ)) for agree, differ in ((1, 2), (30, 4))]
        self.assertEqual(ranked(files), [Branches(self.NAMES[0], "a", 31, 6)])

    def test_of_rules_for_which_as_much_speaks_that_of_more_elements_is_first(self) -> None:
        # One of one and two of six weigh as much.
        held = self.held((0, "a", 0, 1), (1, "b", 4, 2), (2, "c", 5, 0))
        self.assertEqual([one.rule for one in worst([held])], [self.NAMES[1], self.NAMES[0]])

    def test_rules_that_agree_do_not_fail(self) -> None:
        held = self.held((0, "a", 0, 1), (0, "b", 3, 0), (1, "c", 3, 0))
        held.first = FirstDiffering(7, "a write", ["misc: 2, not 3"])
        suite = ElementTree.fromstring(_junit_text([held]).partition("\n")[2])[0]
        failed = {case.get("name"): [one.text for one in case] for case in suite}
        self.assertEqual((suite.get("failures"), failed[self.NAMES[1]]), ("1", []))
        (text,) = failed[self.NAMES[0]]
        front = "the first of the file that differs: element 7, a write\nmisc: 2, not 3"
        place = RULES[0].place
        self.assertEqual(text, f"        1 of 1  {self.NAMES[0]}: a ({place})\n{front}")

    def test_a_report_for_test_runners_is_xml_whatever_is_told(self) -> None:
        held = self.held((0, "a", 0, 1))
        held.name = "caf\udce9\x1b.json"
        held.first = FirstDiffering(0, "\x00 read", ["answer: \x01\ud800, not 3"])
        suite = ElementTree.fromstring(_junit_text([held]).encode("utf-8"))[0]
        self.assertEqual((suite.get("name"), suite[0].get("classname")), ("caf??.json",) * 2)
        told = ["the first of the file that differs: element 0, ? read", "answer: ??, not 3"]
        self.assertEqual((suite[0].findtext("failure") or "").split("\n")[-2:], told)


class Differences(Folder):
    def test_answers_and_refusals(self) -> None:
        number: Element = {**GOOD, "answer": 0}
        hold(
            self,
            lambda *both: list(differences(*both)),
            (
                (REFUSED, {}, ["refused: it is done, not NotDecoded"]),
                (GOOD, {"refused": "NotDecoded"}, ["refused: NotDecoded, not done"]),
                (
                    REFUSED,
                    {"refused": "NotInProfile", "answer": 5},
                    ["refused: NotInProfile, not NotDecoded"],
                ),
                (number, {"answer": 0}, []),
                (number, {}, ["answer: none, not 0"]),
                (CALLED, {"answer": {"ax": 3, "block": [1, 2, 3]}}, []),
                (
                    CALLED,
                    {"answer": {"ax": 4, "bx": 0, "block": [1, 9, 3]}},
                    [
                        "answer ax: 4, not 3",
                        "answer block 1: 9, not 2",
                        "answer bx: 0, not none",
                    ],
                ),
                (CALLED, {"answer": 3}, ["answer: 3, not {'ax': 3, 'block': [1, 2, 3]}"]),
                # So much of a value is told.
                (number, {"answer": "x" * 60}, [f"answer: {'x' * 60}, not 0"]),
                (number, {"answer": "x" * 61}, [f"answer: {'x' * 60}.., not 0"]),
            ),
        )

    def test_dots_may_be_colours_alone_or_entries_and_not_neither(self) -> None:
        dots: Element = {**GOOD, "answer": {"colours": [1, 2], "entries": [-1, 3]}}
        hold(
            self,
            lambda given: list(differences(dots, {"answer": given})),
            (
                ({"colours": [1, 2]}, []),
                ({"entries": [-1, 3]}, []),
                ({"colours": [1, 2], "entries": [-1, 4]}, ["answer entries 1: 4, not 3"]),
                (
                    {},
                    ["answer colours: none, not [1, 2]", "answer entries: none, not [-1, 3]"],
                ),
            ),
        )

    def test_a_line_has_as_many_entries_as_colours(self) -> None:
        dots = next(iter(read_elements(str(STEPS_EXAMPLES / "dots-text.json.gz"))))
        self.assertEqual(fault_of(dots), "")
        for name in ("colours", "entries"):
            answer = {**dots["answer"], name: dots["answer"][name][1:]}
            told = fault_of({**dots, "answer": answer})
            self.assertEqual(told, "its answer is none of the step line")

    def test_places_come_in_any_order(self) -> None:
        final: Element = {
            "planes": [[5, 1, 2, 3, 4], [6, 0, 0, 0, 9], [70, 7, 7, 7, 7]],
            "colours": [[0, 1, 2, 3], [9, 3, 2, 1]],
        }
        turned = {name: places[::-1] for name, places in final.items()}
        # A byte that isn't listed is 0, and an entry of the DAC may have any colour.
        more = {"planes": [[80, 0, 0, 0, 0], *turned["planes"]], "colours": final["colours"]}
        more["colours"] = [[200, 1, 1, 1], *more["colours"]]
        hold(
            self,
            lambda given: list(differences({**GOOD, FINAL: final}, {FINAL: given})),
            (
                (turned, []),
                (more, []),
                (
                    {**more, "planes": [[80, 0, 0, 5, 0], *turned["planes"]]},
                    ["planes 80: [0, 0, 5, 0], not [0, 0, 0, 0]"],
                ),
                (
                    {"planes": [[70, 7, 7, 7, 8], *turned["planes"][1:]]},
                    ["planes 70: [7, 7, 7, 8], not [7, 7, 7, 7]"],
                ),
            ),
        )

    def test_a_field_that_is_left_out_differs(self) -> None:
        structs = {"beam": BEAM, "bda": BDA}
        for part, fields in structs.items():
            whole: dict[str, Any] = {name: number for number, name in enumerate(fields, 1)}
            for name in fields:
                given = {one: value for one, value in whole.items() if one != name}
                found = list(differences({**GOOD, FINAL: {part: whole}}, {FINAL: {part: given}}))
                self.assertEqual(found, [f"{part} {name}: none, not {whole[name]}"])

    def test_parts_of_a_state(self) -> None:
        beam = dict.fromkeys(BEAM, 4)
        final: Element = {"misc": 3, "beam": beam, "seq": [1, 2, 3], "colours": [[7, 1, 2, 3]]}
        hold(
            self,
            lambda given: list(differences({**GOOD, FINAL: final}, {FINAL: given})),
            (
                # Parts that an adapter leaves out make no difference.
                ({"seq": [1, 2, 3]}, []),
                ({"beam": {**beam, "line": 9}, "misc": 3}, ["beam line: 9, not 4"]),
                ({"seq": [1, 9, 9]}, ["seq 1: 9, not 2, and 1 more"]),
                ({"seq": [1, 2]}, ["seq: 2 of them, not 3"]),
                ({"misc": 0}, ["misc: 0, not 3"]),
                ({"misc": [3]}, ["misc: [3], not 3"]),
                ({"colours": [[7, 1, 2, 0]]}, ["colours 7: [1, 2, 0], not [1, 2, 3]"]),
                ({"colours": []}, ["colours 7: none, not [1, 2, 3]"]),
            ),
        )
