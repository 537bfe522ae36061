"""Single-step tests: how their files are made, what their scripts tell, and which rules they
show."""

from __future__ import annotations

import gzip
import importlib
import json
import os
import re
import sys
import tempfile
import unittest
import zlib
from collections import Counter
from itertools import product
from pathlib import Path
from typing import Any, Optional
from unittest import mock

from zaklimot.format import Step, decode
from zaklimot.commands.steps.adapter import SteppedCard
from zaklimot.commands.steps.arrays import ArrayReader
from zaklimot.commands.steps.chance import Chance
from zaklimot.commands.steps.comparing import differences
from zaklimot.commands.steps.kinds import KINDS
from zaklimot.commands.steps.library import load
from zaklimot.commands.steps.parts import BDA, BEAM, FINAL, INITIAL, ORDER, Element
from zaklimot.commands.steps.readback import readback_lines
from zaklimot.commands.steps.reading import STEPS, fault_of, read_elements
from zaklimot.commands.steps.rules import RULES, branches_shown
from zaklimot.commands.steps.schema import schema
from zaklimot.commands.steps.scripts import expected_answer, reached, text_lines
from zaklimot_dev.release.coverage import counted_file, seldom_shown
from zaklimot.commands.script.words import FONTS

from . import branches
from .confirming import confirming, differing
from .stepping import COUNT, GOOD, Made, SEED, STEPS_EXAMPLES, steps, told
from .tools import PROGRAM, TOP, Folder, hold, hold_refused, hold_undone, run_tool, want_program


PAGE = TOP / "docs" / "STEPS.md"
# Registers of a plain write to all planes.
REGISTERS = {"seq": [3, 1, 15, 0, 6], "gfx": [0, 0, 0, 0, 0, 0, 5, 15, 255], "latches": [0] * 4}
# The loaders that it shows, by the languages.
LOADERS = {"python": "loader.py", "c": "loader.c", "cpp": "loader.cpp", "rust": "loader.rs"}


class Making(Made):
    def test_each_kind_has_a_file_of_elements(self) -> None:
        self.assertEqual(set(self.files), set(KINDS))
        for name, path in self.files.items():
            with self.subTest(name):
                found = list(read_elements(str(path)))
                self.assertEqual(len(found), COUNT)
                # What is read line by line is a JSON array too.
                self.assertEqual(found, json.loads(told(path)))
                for number, element in enumerate(found):
                    self.assertTrue(element["name"].endswith(f": {number}"))
                    self.assertEqual([*element[INITIAL]], self.parts(name))
                    self.assertEqual([*element[FINAL]][: len(self.parts(name))], self.parts(name))

    @staticmethod
    def parts(kind: str) -> list[str]:
        return [part for part in ORDER if part in KINDS[kind].parts]

    def test_the_same_words_make_the_same_bytes(self) -> None:
        for kind in ("write-words", "dots-text", "clock", "service-0e"):
            made = []
            for folder, words in (
                ("a", ()),
                ("b", ("--jobs", 2)),
                ("c", ("--plain",)),
                ("d", ("--seed", SEED + 1)),
            ):
                given = ("--count", COUNT, "--seed", SEED, *words, "--only", kind)
                status, output, said = steps("make", self.folder / folder, *given)
                self.assertEqual((status, said), (0, ""))
                made.append(Path(output.split()[0]))
            self.assertEqual(made[0].read_bytes(), made[1].read_bytes())
            self.assertEqual(told(made[0]), told(self.files[kind]))
            self.assertEqual((made[2].suffix, told(made[2])), (".json", told(made[0])))
            self.assertNotEqual(told(made[3]), told(made[0]))

    def test_each_file_is_made_once(self) -> None:
        for jobs in (1, 2):
            for more, ending in ((), ".json.gz"), (("--plain",), ".json"):
                # Names of which one begins the other.
                words = ("--count", 2, "--only", "clock", "--jobs", jobs, *more)
                status, output, said = steps("make", self.folder / f"{jobs}{ending}", *words)
                self.assertEqual((status, said), (0, ""))
                names = sorted(Path(line).name for line in output.splitlines())
                self.assertEqual(names, [f"clock-changed{ending}", f"clock{ending}"])

    def test_a_file_has_no_time(self) -> None:
        for path in self.files.values():
            self.assertEqual(path.read_bytes()[:9], b"\x1f\x8b\x08\0\0\0\0\0\x02")

    def test_the_examples_are_what_the_tool_makes(self) -> None:
        # Who names an element by its seed and its number finds it again in a later release. If you
        # change what a seed makes, tell of it in CHANGELOG.md.
        made = self.folder / "made"
        words = ("--count", COUNT, "--seed", SEED, "--jobs", 4)
        self.assertEqual(steps("make", made, *words)[0], 0)
        names = {path.name for path in STEPS_EXAMPLES.glob("*.json.gz")}
        self.assertEqual(names, {path.name for path in made.glob("*.json.gz")})
        for name in sorted(names):
            self.assertEqual(told(STEPS_EXAMPLES / name), told(made / name), name)

    def test_what_cannot_be_made(self) -> None:
        hold_undone(self, steps("make", "x", "--only", "y"), "no kind has a name as --only wants")
        hold_undone(self, steps("make", self.write("file", "")), "it is not a folder")
        hold_undone(self, steps("make", "x", "--count", "0"), "'0' .* from 1 to ")
        with_library = {"ZAKLIMOT_LIBRARY": self.write("library", "no library")}
        with mock.patch.dict(os.environ, with_library):
            hold_undone(self, steps("make", self.folder / "x"), "it is no library of the adapter")

    def test_kinds_are_listed(self) -> None:
        status, output, _ = steps("kinds", "--parts")
        self.assertEqual((status, [line.split()[0] for line in output.splitlines()]), (0, [*KINDS]))
        self.assertIn("(misc, seq, gfx, latches, planes)", output)


class Clock(Made):
    """Elements of the clock come to the corners of a frame."""

    # So many elements are looked at. About every other one ends at one of nine corners, so each of
    # these comes some sixteen times; others come seldom.
    MANY = 300
    LEAST_OF_ENDS = 9
    LEAST = 4

    @staticmethod
    def ends(element: Element) -> tuple[int, int, int]:
        """After how many dots the character, the line and the frame of an element end."""
        state = element[INITIAL]
        crtc, beam = state["crtc"], state["beam"]
        width = 8 if state["seq"][1] & 1 else 9
        line = (crtc[0] + 5) * width
        to_line = line - beam["character"] * width - beam["dot"]
        # No small frame has 256 lines.
        to_frame = to_line + (crtc[6] + 1 - beam["line"]) * line
        return width - beam["dot"], to_line, to_frame

    def test_the_ends_of_characters_lines_and_frames(self) -> None:
        counts: Counter[tuple[int, int]] = Counter()
        first = last = wrapped = 0
        for element in self.elements("clock", self.MANY):
            ends = self.ends(element)
            beams = element[INITIAL]["beam"], element[FINAL]["beam"]
            first += not any(beams[0][name] for name in ("line", "character", "dot"))
            last += ends == (1, 1, 1)
            wrapped += beams[0]["frame"] == 31 and beams[1]["frame"] == 0
            (dots,) = element["advance"]
            counts.update(
                (number, dots - end) for number, end in enumerate(ends) if abs(dots - end) < 2
            )
        # A dot less, all of them, and one more.
        for corner in product(range(3), (-1, 0, 1)):
            self.assertGreaterEqual(counts[corner], self.LEAST_OF_ENDS, corner)
        self.assertGreaterEqual(min(first, last, wrapped), self.LEAST, (first, last, wrapped))

    def test_the_beam_past_ends_that_have_moved(self) -> None:
        counts: Counter[str] = Counter()
        for element in self.elements("clock-changed", self.MANY):
            told = element["name"].partition("other ")[2].partition(" since")[0]
            to_character, to_line, to_frame = self.ends(element)
            counts[told] += 1
            counts["past the line"] += told == "characters" and to_line <= 0
            counts["past the frame"] += told == "lines" and to_frame < to_line
            # The ninth dot, in a character of eight.
            counts["past the character"] += told == "width" and to_character == 0
        kinds = ("lines", "characters", "width", "rows", "compare", "start", "offset")
        past = ("past the line", "past the frame", "past the character")
        self.assertEqual(set(counts), {*kinds, *past})
        self.assertGreaterEqual(min(counts.values()), self.LEAST, counts)


class Scripts(Made):
    """The script of each element tells what stands in it."""

    def test_the_answer_that_the_last_line_expects(self) -> None:
        call = {"ax": 0x1015, "bx": 7, "cx": 0, "dx": 0}
        answered = {"ax": 0x1015, "bx": 7, "cx": 0x0A0B, "dx": 0xC00}
        expected: tuple[tuple[Element, Optional[str]], ...] = (
            ({"get": [0xA0000], "answer": 0}, "00"),
            ({"in": [0x3CC], "answer": 0x0C}, "0C"),
            ({"inw": [0x3C4], "answer": 0x0C}, "000C"),
            ({"getw": [0xA0000], "answer": 0xABCD}, "ABCD"),
            ({"get": [0xA0000], "refused": "NotDecoded"}, "E1 NotDecoded"),
            ({"put": [0xA0000, 5]}, None),
            ({"int": call, "answer": answered}, "ax=1015 bx=0007 cx=0A0B dx=0C00"),
            (
                {"int": call, "answer": {**answered, "block": [0, 0x1F]}},
                "ax=1015 bx=0007 cx=0A0B dx=0C00 block 001F",
            ),
        )
        hold(self, expected_answer, expected)

    def test_reports_of_scripts_confirm_all(self) -> None:
        for kind, path in self.files.items():
            for number, element in enumerate(read_elements(str(path))):
                self.assertEqual(differing(element), [], (kind, number))

    def test_bytes_that_are_not_listed_are_0(self) -> None:
        with SteppedCard(load(), Path(FONTS).read_bytes()) as card:
            for kind in ("write-words", "read-mode-0-planar", "dots-text", "service-0c"):
                element = next(read_elements(str(self.files[kind])))
                card.power_on()
                card.run(reached(element))
                planes = [bytearray(1 << 16) for _ in range(4)]
                for place in element[INITIAL]["planes"]:
                    for plane, value in zip(planes, place[1:]):
                        plane[place[0]] = value
                sums = card.read(("sums",), {})["sums"]
                self.assertEqual(sums[:4], [zlib.crc32(plane) for plane in planes], kind)

    def test_the_places_of_both_bytes_of_a_word_are_listed(self) -> None:
        firsts = (0xA0000, 0xA0000, 0xB0000, 0xB8000)
        for kind, name in (("write-words", "putw"), ("read-words", "getw")):
            for element in self.elements(kind, 40):
                for state in (element[INITIAL], element[FINAL]):
                    begin = element[name][0] - firsts[state["gfx"][6] >> 2 & 3]
                    places = {begin + at & 0xFFFF for at in range(2)}
                    listed = {place[0] for place in state["planes"]}
                    self.assertLessEqual(places, listed, element["name"])

    def test_entries_that_are_not_listed_are_as_a_mode_set_leaves_them(self) -> None:
        with SteppedCard(load(), Path(FONTS).read_bytes()) as card:
            for mode in (0, 3, 0x12, 0x13):
                card.power_on()
                card.run([Step("int", (mode, 0, 0, 0))] if mode else [])
                bare = card.read(("sums",), {})["sums"][4]
                found = self.sums_of(card, mode)
                self.assertEqual(found, {bare}, mode)

    def sums_of(self, card: SteppedCard, mode: int) -> set[int]:
        """The sums of the DAC in which elements of services begin whose mode this is, and which
        list no entry of it."""
        found = set()
        for kind in ("service-06", "service-09", "service-0e", "service-0d"):
            for element in read_elements(str(self.files[kind])):
                if element[INITIAL]["bda"]["mode"] == mode:
                    card.power_on()
                    card.run(reached(element))
                    found.add(card.read(("sums",), {})["sums"][4])
        return found

    def test_a_script_ends_in_the_step(self) -> None:
        for kind, ending in (
            ("write-mode-0-planar", r"put [0-9A-F]{5,8} [0-9A-F]{2}( ; = E1 NotDecoded)?"),
            ("read-words", r"getw [0-9A-F]{5,8} ; = ([0-9A-F]{4}|E1 NotDecoded)"),
            ("service-0f", r"int ax=0F\S+ bx=\S+ cx=\S+ dx=\S+ ; = (ax=.*|E3 NoMode)"),
            ("dots-text", r"advance \d+"),
        ):
            status, output, said = steps("script", self.files[kind], 3)
            self.assertEqual((status, said), (0, ""))
            lines = output.splitlines()
            # The name ends with the number.
            self.assertRegex(lines[0], "^; .*: 3$")
            self.assertRegex(lines[-1], f"^{ending}$")

    def test_the_latches_come_from_the_last_offset_that_is_not_listed(self) -> None:
        cases: list[tuple[list[int], str]] = [
            ([], "AFFFF"),
            ([3, 0xFFFD], "AFFFF"),
            ([0xFFFE, 0xFFFF], "AFFFD"),
            ([0xFFFD, 0xFFFF], "AFFFE"),
        ]
        for offsets, address in cases:
            planes = [[offset, 1, 2, 3, 4] for offset in offsets]
            state = {"latches": [5, 6, 7, 8], "planes": planes}
            lines = list(text_lines({**GOOD, INITIAL: state}))
            self.assertEqual([line for line in lines if line[:3] == "get"], [f"get {address}"])
            self.assertIn(f"put {address} 08", lines)
            self.assertIn(f"put {address} 00", lines)

    def test_the_clock_is_reached_in_as_few_advances_as_may_be(self) -> None:
        cases: list[tuple[int, list[int]]] = [
            (0, []),
            (5, [5]),
            (16_777_216, [16_777_216]),
            (2 * 16_777_216 + 1, [16_777_216, 16_777_216, 1]),
        ]
        for dots, advances in cases:
            lines = text_lines({**GOOD, "reach": {"dots": dots}})
            found = [line for line in lines if line.startswith("advance")]
            self.assertEqual(found, [f"advance {number}" for number in advances])

    def test_cycles_read_the_state(self) -> None:
        """What can be read by ports and addresses is as expected, step by step."""
        want_program()
        for kind in ("write-mode-3-chain-4", "read-words", "attribute-controller", "dac-writes"):
            for kind_of in (kind, "crt-controller", "graphics-controller", "service-0e"):
                path = self.folder / f"{kind_of}.vga"
                words = ("script", self.files[kind_of], 5, path, "--then", "reads")
                self.assertEqual(steps(*words), (0, "", ""))
                done = run_tool("zaklimot", "run", path, "--vga", PROGRAM, "--quiet")
                self.assertEqual(done[0], 0, (kind_of, done))
                self.assertGreater(path.read_text().count("; = "), 3)

    def test_dumps_follow(self) -> None:
        status, output, _ = steps("script", self.files["clock"], 0, "--then", "dumps")
        self.assertEqual((status, output.splitlines()[-2:]), (0, ["show regs", "show beam"]))

    def test_an_element_that_is_not_there(self) -> None:
        done = steps("script", self.files["clock"], COUNT)
        hold_undone(self, done, f"it has {COUNT} elements, and no element {COUNT}$")


class Rules(Made):
    def test_each_stands_under_a_heading_of_its_page(self) -> None:
        for rule in RULES:
            name, _, anchor = rule.place.partition("#")
            headings = re.findall(r"^##+ (.*)$", (TOP / name).read_text("utf-8"), re.M)
            anchors = [
                re.sub(r"[^a-z0-9 -]", "", one.lower()).replace(" ", "-") for one in headings
            ]
            self.assertIn(anchor, anchors, rule.name)

    def test_no_two_have_one_name(self) -> None:
        names = [rule.name for rule in RULES]
        self.assertEqual(len(names), len(set(names)))

    def test_the_palette_has_sixteen_registers(self) -> None:
        # Those behind it change while it is shown, too.
        rule = next(one for one in RULES if "locks the palette" in one.name)
        behind = "10 to 14 change at any time"
        indexes: dict[bool, set[int]] = {False: set(), True: set()}
        for element in self.elements("attribute-controller", 1000):
            index = element[INITIAL]["attr_index"] & 0x1F
            for one, branch in branches_shown(element):
                if one is rule:
                    indexes[branch == behind].add(index)
        self.assertEqual(indexes, {False: set(range(0x10)), True: set(range(0x10, 0x15))})

    def test_elements_show_each_rule(self) -> None:
        shown = {
            rule.name
            for path in self.files.values()
            for element in read_elements(str(path))
            for rule, _ in branches_shown(element)
        }
        self.assertEqual({rule.name for rule in RULES} - shown, set())

    def test_the_examples_show_each_branch_as_often_as_was_told(self) -> None:
        """A rule that is looked at otherwise is seen here: its counts are looked through anew."""
        wanted = json.loads(branches.FILE.read_text("ascii"))
        self.assertEqual(branches.counted(), wanted, "tests/branches.py writes them anew")

    def test_a_branch_that_is_shown_too_seldom_is_told(self) -> None:
        put = {**GOOD, "initial": {**GOOD["initial"], **REGISTERS}}
        put["final"] = {**GOOD["final"], **REGISTERS}
        beyond = {**put, "put": [0xB0000, 7], "refused": "NotDecoded", "final": put["initial"]}
        files = dict[str, list[Element]]()
        files.update(seldom=[put, beyond, beyond], often=[put, put, beyond], empty=[])
        for name, found in files.items():
            self.write(name, "[\n" + ",\n".join(map(json.dumps, found)) + "\n]\n")
        paths = [self.folder / name for name in files]
        for given in (paths, paths[::-1]):
            told = list(seldom_shown(given, 1))
            self.assertGreater(len(told), 100)
            counts = counted_file(paths[1])
            shown = [": ".join(name) for name, count in counts.branches.items() if count == 2]
            self.assertEqual((counts.elements, bool(shown)), (3, True))
            self.assertFalse([one for one in told if one.startswith(tuple(shown))])
            # Two of three is the most that any file has.
            told = list(seldom_shown(given, 1, 6_667))
            self.assertIn(f"{shown[0]}: 6667 of 10,000 in often", told)


def change(chance: Chance, value: Any) -> None:
    """Changes a value in what JSON gives: a number, or a member that goes or gets another."""
    while isinstance(value, (list, dict)) and value:
        keys: list[Any] = list(value) if isinstance(value, dict) else list(range(len(value)))
        key = chance.among(keys)
        inner = value[key]
        if not isinstance(inner, (list, dict)) or not inner or chance.one_in(10):
            kind = chance.below(8)
            if kind == 0:
                del value[key]
            elif kind == 1:
                value[key] = chance.among((None, [], {}, "x", -1, 1 << 40, 2.5, [[1]]))
            else:
                value[key] = chance.bits(chance.among((1, 3, 8, 16)))
            return
        value = inner


class Files(Folder):
    def read(self, text: str | bytes) -> list[Element]:
        return list(read_elements(self.write("file", text)))

    def test_what_is_no_file_of_elements(self) -> None:
        good = json.dumps(GOOD)
        packed = gzip.compress(f"[\n{good}\n]\n".encode())
        hold_refused(
            self,
            self.read,
            (
                ("", "file:1: it is no file of elements: it doesn't begin with \\[$"),
                ("x", "file:1: it is no file of elements: it doesn't begin with \\[$"),
                ("[\n", "file:1: it ends before its array does$"),
                (f"[\n{good}", "file:2: it ends before its array does$"),
                (f"[\n{good},\n", "file:2: it ends before its array does$"),
                (f"[\n{good[:-9]}", "file:2: it is no JSON: |file:2: it ends before its array"),
                (f"[\n{good}\n{good}]", "file:3: neither , nor \\] stands after an element$"),
                (f"[\n{good},\n]", "file:3: it is no JSON: Expecting value at column 1$"),
                ("[\n{\n]", "file:3: it is no JSON: Expecting property name .* at column 1$"),
                ("[\n" + "[" * 100_000 + "\n]", "file:2: it is no JSON: "),
                (f"[{'9' * 5_000}]", "file:1: it is no "),
                ("[\n5\n]", "file:2: it is no object$"),
                (f"[\n{good},\n\n\n{{}}]", "file:5: one member is its step"),
                (f"[\n{good}\n]\n{good}", "file:4: something stands after the array$"),
                (b'[\n\n"\xff', "file:3: it is no UTF-8$"),
                (packed[:-20], "file: it is damaged: "),
                (packed[:30] + b"x" * 30, "file: it is damaged: "),
                ("[\n" + " " * (1 << 23) + "\n]", "file:1: an element has 4,194,304 characters "),
                ("[\n[" + "1," * (1 << 21), "file:2: an element has 4,194,304 characters or mor"),
            ),
        )
        self.assertEqual(self.read(packed), [GOOD])
        self.assertEqual(self.read("[\n]\n"), [])
        self.assertEqual(self.read(f"[\n{good},\n{good}\n]\n"), [GOOD, GOOD])

    def test_the_schema_takes_what_is_read_and_nothing_else(self) -> None:
        try:
            jsonschema: Any = importlib.import_module("jsonschema")
        except ImportError:
            self.skipTest("this Python has no jsonschema: install python3-jsonschema")
        form = schema()
        judge = jsonschema.Draft202012Validator(form)
        judge.check_schema(form)
        chance, bad = Chance("schema"), 0
        for path in sorted(STEPS_EXAMPLES.glob("*.json.gz")):
            element = next(iter(read_elements(str(path))))
            self.assertEqual([*judge.iter_errors([element])], [], path)
            for _ in range(8):
                other = json.loads(json.dumps(element))
                change(chance, other)
                # What the schema refuses, a reader of files refuses too.
                if not judge.is_valid([other]):
                    bad += 1
                    self.assertTrue(fault_of(other), other)
        self.assertGreater(bad, 100)

    def test_any_layout_is_read(self) -> None:
        # So many that they are read part by part.
        many = [{**GOOD, "name": f'{number} {{["\\'} for number in range(2_000)]
        layouts: tuple[dict[str, Any], ...] = (
            {},
            {"separators": (",", ":")},
            {"indent": 4},
            {"indent": "\t", "separators": ("\r\n,", "\n : ")},
        )
        for layout in layouts:
            text = json.dumps(many, **layout)
            for whole in (text, f"\n \t{text}\r\n", "\ufeff" + text):
                self.assertEqual(self.read(whole.encode()), many, layout)
        self.assertEqual(self.read(" [ ] ".encode()), [])

    def test_a_pipe_that_gives_little_at_a_time(self) -> None:
        text = json.dumps([GOOD, GOOD], indent=1).encode()
        told: list[object] = []
        reading, writing = os.pipe()
        with open(reading, "rb") as stream, open(writing, "wb", buffering=0) as given:
            values = ArrayReader(stream, "pipe").values()
            half = text.index(b"},\n {") + 2
            given.write(text[:half])
            told.append(next(values))
            given.write(text[half:])
            given.close()
            told += values
        self.assertEqual(told, [GOOD, GOOD])

    def test_what_is_no_element(self) -> None:
        def changed(**members: Any) -> Element:
            return {**GOOD, **members}

        read = {**{name: GOOD[name] for name in GOOD if name != "put"}, "get": [0xA0005]}
        hold(
            self,
            lambda element: fault_of(element).partition(":")[0],
            (
                (GOOD, ""),
                (changed(get=[1]), "one member is its step, " + ", ".join(STEPS)),
                ({**GOOD, "name": 5}, "it has no name"),
                (
                    {name: GOOD[name] for name in ("name", "put", "final")},
                    "it has no initial state",
                ),
                (changed(put=[1]), "its step put has not the numbers that it takes"),
                (changed(put=[1 << 32, 0]), "its step put has not the numbers that it takes"),
                (changed(put=[True, 0]), "its step put has not the numbers that it takes"),
                (changed(refused="Nothing"), "there is no refusal Nothing"),
                (changed(refused=None), "there is no refusal None"),
                (changed(refused="NotDecoded", answer=5), "its answer is none of the step put"),
                ({**read, "answer": 5}, ""),
                (read, "its answer is none of the step get"),
                ({**read, "refused": "NotDecoded"}, ""),
                (
                    {**read, "refused": "NotDecoded", "answer": 5},
                    "its answer is none of the step get",
                ),
                (changed(answer=5), "its answer is none of the step put"),
                (changed(reach=[]), "its reach is no object"),
                (changed(reach={"dots": -1}), "its reach has no such member, or one out of range"),
                (
                    changed(reach={"gfx": [0] * 9}),
                    "its reach has no such member, or one out of range",
                ),
            ),
        )

    def test_what_is_no_state(self) -> None:
        state: dict[str, Any] = GOOD["initial"]
        parts: tuple[dict[str, Any], ...] = (
            {"misc": 256},
            {"seq_index": 8},
            {"gfx_index": 16},
            {"crtc_index": 32},
            {"attr_index": 64},
            {"attr_is_data": 2},
            {"dac_index": 256},
            {"dac_component": 3},
            {"dac_mask": 256},
            {"seq": [0] * 4},
            {"gfx": [0, 0, 0, 0, 0, 0, 16, 0, 0]},
            {"planes": [[1, 2, 3, 4]]},
            {"planes": [[2, 0, 0, 0, 0], [1, 0, 0, 0, 0]]},
            {"planes": [[1, 0, 0, 0, 0], [1, 0, 0, 0, 0]]},
            {"colours": [[256, 0, 0, 0]]},
            {"colours": [[255, 0, 64, 0]]},
            {"planes": [[256, 0, 0, 0, 256]]},
            {"beam": {"line": 0}},
            {"bda": {**dict.fromkeys(BDA, 0)}},
            {"sums": [0] * 4},
            {"other": 1},
        )
        told = "its initial state has no such part, or one out of range"
        for part in parts:
            with self.subTest(part):
                element = {**GOOD, "initial": {**state, **part}}
                self.assertEqual(fault_of(element).partition(":")[0], told)
        beam = {**GOOD, "initial": {"beam": dict.fromkeys(BEAM, 0)}}
        self.assertEqual(fault_of(beam), "")

    def test_each_command_tells_the_line(self) -> None:
        path = self.write("bad.json", "[\n5\n]\n")
        for words in (
            ("script", path, "0"),
            ("check", "cat", path),
        ):
            with self.subTest(words):
                hold_undone(self, steps(*words), "^zaklimot: .*bad.json:2: it is no object$")

    def test_no_element_ends_the_tools(self) -> None:
        """Elements that are changed at random are refused, or are counted and written as any."""
        chance, good = Chance("change"), 0
        for path in sorted(STEPS_EXAMPLES.glob("*.json.gz")):
            for element in read_elements(str(path)):
                other = json.loads(json.dumps(element))
                for _ in range(1 + chance.below(3)):
                    change(chance, other)
                if fault_of(other):
                    continue
                good += 1
                list(branches_shown(other))
                list(text_lines(other))
                list(readback_lines(other))
                self.assertTrue(decode(confirming(other).script).items)
        self.assertGreater(good, 200)

    def test_differences_are_told_by_field(self) -> None:
        other = json.loads(json.dumps(GOOD))
        other["final"]["planes"][0][1] = 9
        other["answer"] = 5
        found = list(differences(GOOD, other))
        self.assertEqual(found, ["answer: 5, not none", "planes 5: [9, 7, 7, 7], not [7, 7, 7, 7]"])
        # A script that leads to another state is told, whatever comes after it.
        before = {**GOOD, "initial": {**GOOD["initial"], "misc": 99}}
        self.assertEqual([*differences(GOOD, before)], ["before the step, misc: 99, not 3"])

    def test_reading_the_palette_leaves_it_shown_or_hidden(self) -> None:
        for shown in (0, 0x20):
            state: Element = {"attr": [0] * 21, "attr_index": shown | 3}
            lines = readback_lines({**GOOD, FINAL: state})
            indexes = [line for line in lines if line.startswith("out 3C0 ")]
            self.assertEqual(indexes, [f"out 3C0 {index | shown:02X}" for index in range(21)])

    def test_a_byte_beside_the_places_of_an_element_is_told(self) -> None:
        place = GOOD[FINAL]["planes"][0]
        final = {**GOOD[FINAL], "colours": [[1, 2, 3, 4]]}
        text: Element = {"bda": {"mode": 7}}
        graphics: Element = {"bda": {"mode": 0x13}}
        cases: list[tuple[Element, list[int], Optional[list[int]]]] = [
            ({}, [9, 0, 0, 0, 0], None),
            ({}, [9, 0, 1, 0, 0], [0, 0, 0, 0]),
            ({}, [9, 0, 0, 1, 0], [0, 0, 0, 0]),
            (graphics, [9, 0, 0, 1, 0], [0, 0, 0, 0]),
            # The glyphs of a text mode.
            (text, [9, 0, 0, 1, 0], None),
            (text, [9, 0, 0, 1, 8], [0, 0, 1, 0]),
            ({"sums": [0] * 5}, [9, 1, 1, 1, 1], None),
        ]
        for more, row, wrong in cases:
            wanted = {**final, **more}
            given = {**wanted, "planes": [row, place], "colours": [[9, 9, 9, 9], [1, 2, 3, 4]]}
            found = [*differences({**GOOD, FINAL: wanted}, {**GOOD, FINAL: given})]
            told = [] if wrong is None else [f"planes 9: {row[1:]}, not {wrong}"]
            self.assertEqual(found, told, (more, row))

    def test_places_that_are_none_are_told(self) -> None:
        for planes in ([[[5], 7, 7, 7, 7]], [[None]], [{}, 5, [], "5"], {"5": 7}, 5):
            found = [*differences(GOOD, {**GOOD, FINAL: {"planes": planes}})]
            self.assertEqual(len(found), 1, planes)
            self.assertTrue(found[0].startswith("planes"), found)

    def test_a_line_may_be_told_by_colours_or_entries_alone(self) -> None:
        dots = {"colours": [5, 6, 7], "entries": [1, 2, 3]}
        expected = {**GOOD, "answer": dots}
        for name, other in (("colours", [5, 0, 0]), ("entries", [1, 9, 9])):
            given = {**GOOD, "answer": {name: dots[name]}}
            self.assertEqual([*differences(expected, given)], [])
            found = [*differences(expected, {**GOOD, "answer": {name: other}})]
            told = f"answer {name} 1: {other[1]}, not {dots[name][1]}, and 1 more"
            self.assertEqual(found, [told])
            found = [*differences(expected, {**GOOD, "answer": {name: other[:2]}})]
            self.assertEqual(found, [f"answer {name}: 2 of them, not 3"])

    def test_choices_depend_on_the_seed_alone(self) -> None:
        chance = Chance("1 a")
        found = [chance.below(10), chance.bits(16), chance.byte(), chance.between(3, 5)]
        self.assertEqual(found, [Chance("1 a").below(10), *found[1:]])
        self.assertEqual({Chance(str(number)).below(3) for number in range(50)}, {0, 1, 2})


class Page(unittest.TestCase):
    def test_its_example_is_an_element(self) -> None:
        text = PAGE.read_text("utf-8")
        found = re.search(r"(?ms)^    (\{\"name\".*?\n)\n", text)
        assert found is not None
        path = STEPS_EXAMPLES / "write-mode-3-planar.json.gz"
        self.assertEqual(json.loads(found[1]), list(read_elements(str(path)))[3])

    def test_it_has_the_loaders(self) -> None:
        shown = re.findall(r"(?ms)^```(\w+)\n(.*?)^```", PAGE.read_text("utf-8"))
        self.assertEqual([language for language, _ in shown], [*LOADERS])
        for language, text in shown:
            file = (STEPS_EXAMPLES / LOADERS[language]).read_text("utf-8")
            # That in Python lacks how it is started alone.
            self.assertTrue(text == file or language == "python" and text in file, language)

    def test_it_counts_the_rules(self) -> None:
        text = PAGE.read_text("utf-8")
        counts = [len(RULES), sum(len(rule.branches) for rule in RULES)]
        told = re.search(r"the (\d+) rules and (\d+)\nbranches", text)
        assert told is not None
        self.assertEqual([int(told[1]), int(told[2])], counts)

    def test_what_it_shows_of_check_is_what_is_told(self) -> None:
        text = PAGE.read_text("utf-8")
        form = r"    \$ sed 's/(.*)/(.*)/' (\S+) > wrong\.py\n    \$ .* 'python3 wrong\.py' (\S+)\n"
        found = re.search(rf"(?m)^{form}((?:    .*\n)+)", text)
        assert found is not None
        was, now, toy, file, shown = found.groups()
        with tempfile.TemporaryDirectory() as folder:
            wrong = Path(folder) / "wrong.py"
            wrong.write_text(re.sub(was, now, (TOP / toy).read_text("utf-8")))
            status, output, _ = steps("check", f"{sys.executable} {wrong}", TOP / file)
        told_there = "".join(line[4:] for line in shown.splitlines(keepends=True))
        self.assertEqual((status, output.replace(f"{TOP}/", "")), (1, told_there))

    def test_it_tells_each_kind_part_and_step(self) -> None:
        text = PAGE.read_text("utf-8")
        for name in (*KINDS, *ORDER, *STEPS, *BEAM, *BDA):
            self.assertIn(f"`{name}`", text, name)
