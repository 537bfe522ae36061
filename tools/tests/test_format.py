"""The format of scripts and reports: its one table, against the pages and the copies in other
languages, and what goes by it."""

import doctest
import re
import unittest
from unittest import mock

from zaklimot import format
from zaklimot.format import (
    BLOCK_LINES,
    FAULT,
    FAULTS,
    FORMS,
    HEADERS,
    MOST_BYTES,
    MOST_STEPS,
    OPCODES,
    REFUSALS,
    SHOWN,
    Answer,
    Block,
    Report,
    ReportError,
    Script,
    ScriptFault,
    Step,
    decode,
    encode,
    is_answer_to,
    items_in,
    parse_text,
    print_text,
    read,
)
from zaklimot.format.table import CODES
from zaklimot.commands.report.cases import read_cases
from zaklimot.commands.report.places import SUITE

from .tools import TOP, hold, stream


DOCS = TOP / "docs"
CRATES = TOP / "crates"


def page(name: str) -> str:
    """A page of docs/."""
    return (DOCS / name).read_text("utf-8")


def fault_of(data: bytes, reader: object = decode) -> str:
    """The fault of a script, or nothing."""
    try:
        reader(data)  # type: ignore[operator]
    except ScriptFault as fault:
        return fault.answer
    return ""


class Table(unittest.TestCase):
    """The table is that of the pages, and of the copies that cannot read it."""

    def test_the_steps_as_bytes(self) -> None:
        rows = re.findall(
            r"^\| `(0[0-9A-F])` \| (\w+) \| (.*?) ?\| (\d+)?", page("SCRIPT.md"), re.M
        )
        self.assertEqual([int(opcode, 16) for opcode, *_ in rows], list(range(1, 15)))
        for opcode, name, fields, size in rows:
            self.assertEqual(OPCODES[int(opcode, 16)], name)
            sizes = [int(one) for one in re.findall(r" (\d)(?:,|$)", fields)]
            if name in FORMS:
                form = FORMS[name]
                own = [field.size for field in form.fields] + [2] * form.has_block
                self.assertEqual((sizes, int(size)), (own, form.size), name)
            elif name in BLOCK_LINES:
                self.assertEqual(sizes, [field.size for field in BLOCK_LINES[name]], name)

    def test_the_dumps(self) -> None:
        told = re.search(r"The kinds of `show`: (.*?)\. Every", page("SCRIPT.md"), re.S)
        assert told is not None
        parts = [
            part.strip().strip("`").replace("` ", " ")
            for part in told[1].replace("\n", " ").split(";")
        ]
        self.assertEqual([part[3:].split(",")[0] for part in parts], list(SHOWN))
        self.assertEqual(
            [int(part[:2], 16) for part in parts], [form.code[1] for form in SHOWN.values()]
        )
        for part, form in zip(parts, SHOWN.values()):
            self.assertEqual(
                [int(size) for size in re.findall(r" (\d)(?:,|$)", part)],
                [one.size for one in form.fields],
            )

    def test_the_steps_as_text(self) -> None:
        rows = re.findall(
            r"^\| `((?:show )?\w+)((?: [\w=]+)*)` \| (.*?) ?\|",
            page("SCRIPT.md").split("- **`show`**")[0],
            re.M,
        )
        told = {name: (fields.split(), widths) for name, fields, widths in rows if name in FORMS}
        self.assertEqual(list(told), list(FORMS))
        for name, (fields, widths) in told.items():
            form = FORMS[name]
            usage = [
                f"{one.name}=N" if one.default is not None else one.name for one in form.fields
            ]
            self.assertEqual(fields, usage + ["block", "BYTES"] * form.has_block)
            digits = [int(one) for one in re.findall(r"\b(\d)\b", widths)]
            own = [one.digits for one in form.fields if one.digits]
            self.assertEqual(own, digits * 4 if form.has_block else digits, name)

    def test_the_refusals_and_the_faults(self) -> None:
        told = re.findall(r"^\| `E(\d+) (\w+)` \|", page("REPORT.md"), re.M)
        self.assertEqual([(int(number), name) for number, name in told], list(REFUSALS.items()))
        faults = re.findall(r"^\| `F(\d+) (\w+)(?:\((\w+)\))?` \|", page("REPORT.md"), re.M)
        self.assertEqual(
            [(int(number), name, place) for number, name, place in faults], list(FAULTS.values())
        )
        self.assertEqual(
            (
                len(FAULTS),
                "one of the eleven faults" in (TOP / "tools" / "README.md").read_text("utf-8"),
            ),
            (11, True),
        )

    def test_the_sources_of_the_program(self) -> None:
        opcodes = (CRATES / "vga_script" / "src" / "opcode.rt").read_text("utf-8")
        constants = {
            name: int(value, 16)
            for name, value in re.findall(r"const (\w+): u8 = (0x\w+);", opcodes)
        }
        own = {
            re.sub("^(out|in|put|get)w$", r"\1_word", name).upper(): code
            for code, name in OPCODES.items()
        }
        words = {"regs": "REGISTERS", "bda": "BIOS_DATA"}
        own.update(
            {f"SHOW_{words.get(name, name.upper())}": form.code[1] for name, form in SHOWN.items()}
        )
        self.assertEqual(constants, own)
        reading = (CRATES / "vga_script" / "src" / "numeric_steps.rt").read_text("utf-8")
        arms = re.findall(r"([A-Z_]+) => (\w+) \{ (.*?) \},", reading)
        sizes = {"one": 1, "two": 2, "four": 4, "dots": 4}
        for opcode, name, fields in arms:
            form = CODES[bytes([constants[opcode]])]
            self.assertEqual(name.replace("Word", "w").lower(), form.name)
            kinds = re.findall(r": (\w+)", fields)
            self.assertEqual([sizes[kind] for kind in kinds], [one.size for one in form.fields])
        self.assertEqual(len(arms), 9)
        bits = CRATES / "vga_bits" / "src"
        refusals = re.findall(r'=> "E(\d+) (\w+)"', (bits / "refusal.rt").read_text("utf-8"))
        self.assertEqual([(int(number), name) for number, name in refusals], list(REFUSALS.items()))
        faults = re.findall(
            r'name_with(?:out)?_number\("F(\d+) (\w+)(\(?)"', (bits / "fault.rt").read_text("utf-8")
        )
        self.assertEqual(
            [(int(number), name, bool(place)) for number, name, place in faults],
            [(fault.number, fault.name, bool(fault.place)) for fault in FAULTS.values()],
        )

    def test_the_copy_in_c(self) -> None:
        header, source = (
            (TOP / "examples" / "c" / f"script.{end}").read_text("ascii") for end in "hc"
        )
        words = {"_WORD": "w", "INT10": "int"}

        def name_of(given: str) -> str:
            for word, name in words.items():
                given = given.replace(word, name)
            return given.lower()

        kinds = {
            name_of(name): int(code, 16)
            for name, code in re.findall(r"STEP_(\w+) = (0x\w+)", header)
        }
        self.assertEqual(
            kinds, {name: code for code, name in OPCODES.items() if name not in ("repeat", "end")}
        )
        shown = re.search(r"enum step_shown \{(.*?)\}", header, re.S)
        assert shown is not None
        self.assertEqual(
            [name.lower() for name in re.findall(r"SHOW_(\w+)", shown[1])], list(SHOWN)
        )
        for name, place, value in re.findall(r"\[STEP_(\w+)\] = \{(\d), (\d)\}", source):
            own = [one.size for one in FORMS[name_of(name)].fields]
            self.assertEqual([int(size) for size in (place, value) if size != "0"], own, name)
        defined = dict(re.findall(r"#define (\w+) (\w+)", source + header))
        self.assertEqual(int(defined["HEADER_BYTES"]), len(HEADERS[1]))
        self.assertEqual(
            OPCODES[int(defined["REPEAT"], 16)] + OPCODES[int(defined["END"], 16)], "repeatend"
        )
        self.assertEqual(int(defined["SCRIPT_MOST"].rstrip("u")), MOST_BYTES)

    def test_the_copy_of_the_page(self) -> None:
        source = (TOP / "page" / "script" / "grammar.js").read_text("utf-8")
        for name in (
            *SHOWN,
            *BLOCK_LINES,
            *(name for name in FORMS if " " not in name and name != "int"),
        ):
            self.assertRegex(source, rf"\b{name}: \[", name)
        self.assertEqual(set(map(int, re.findall(r"MOST_\w+ = (\d+);", source))), {MOST_STEPS})


ROW = ":" + 80 * " 4107"
# Right answers of steps, and the same with bytes of them changed.
ANSWERS: dict[str, tuple[list[str], list[str]]] = {
    "out 3C2 1": (
        ["ok", "E1 NotDecoded", "E2 NotInProfile"],
        ["oK", "okk", "E3 NoMode", "E1 NotInProfile", "00"],
    ),
    "in 3DA": (["00", "FF", "E2 NotInProfile"], ["ok", "0G", "ff", "000", "0000", "E12 TooFar"]),
    "getw A0000": (["0000", "FF00"], ["00", "00000", "FF0g"]),
    "int ax=3": (
        ["ax=0003 bx=0000 cx=0000 dx=0000", "E5 BadMode", "E13 BadHeight"],
        [
            "ok",
            "ax=0003 bx=0000 cx=0000 dx=000",
            "ax=0003 bx=0000 cx=0000 dx=0000 block 00",
            "E1 NotDecoded",
            "E5 Badmode",
        ],
    ),
    "int ax=1017 bx=0 cx=1": (
        ["ax=1017 bx=0000 cx=0001 dx=0000 block 010203"],
        ["ax=1017 bx=0000 cx=0001 dx=0000", "ax=1017 bx=0000 cx=0001 dx=0000 block 0102"],
    ),
    "advance 5": (["ok"], ["E12 TooFar", "05"]),
    "advance 16777217": (["E12 TooFar"], ["ok"]),
    "frame": (["ragged"], ["ok", "raggef", "E1 NotDecoded"]),
    "show dac 01": (
        ["entry 01: 00 2A 3F"],
        ["entry 02: 00 2A 3F", "entry 01: 00 2A 4F", "entry 01: 00 2A", "ok"],
    ),
    "show plane 2 0820 4": (
        ["plane 2 0820: 00 18 3C 66"],
        ["plane 1 0820: 00 18 3C 66", "plane 2 0820: 00 18 3C"],
    ),
    "show latches": (["latches 00 55 00 00"], ["latches 00 55 00", "latches 00 55 00 0"]),
    "show beam": (
        ["beam frame 0 line 111 char 11 dot 1 base 01E0 scan 15 half 0 split 0 rows 112"],
        ["beam frame 0 line 111 char 11 dot 1 base 01E0 scan 15 half 2 split 0 rows 112"],
    ),
    "show cells": (
        ["E3 NoMode", "E6 WrongKind", "\n".join(f"row {row:02X}{ROW}" for row in range(25))],
        ["row 00: 4107", "\n".join(f"row {row:02X}{ROW}" for row in range(24)), "E7 BadPage"],
    ),
}


# Bad lines of version 2 that the page has.
BAD_LINES = (
    "version 2",
    "version 1",
    "version 02",
    "repeat 0",
    "repeat 65536",
    "repeat 1F",
    "repeat",
    "end",
    "end 3",
)


class Scripts(unittest.TestCase):
    def test_a_text_and_its_bytes_are_one_script(self) -> None:
        text = (
            b"version 2\nOUT 3c4 2 ; a comment\r\n\nrepeat 03\nputw A0000 1234\n\tshow plane 1 FFFF"
            b" 1\nend\nint bx=0001 dx=ffff block 0aFf\nadvance 0000000004294967295\n"
        )
        data = (
            b"VGAS\2\1\xc4\3\2\x0d\3\0\6\0\0\x0a\0\x34\x12\x0c\4\1\xff\xff\1\0\x0e"
            b"\x09\0\0\1\0\0\0\xff\xff\2\0\x0a\xff\x0a\xff\xff\xff\xff"
        )
        script = Script(
            (
                Step("out", (0x3C4, 2)),
                Block(3, (Step("putw", (0xA0000, 0x1234)), Step("show plane", (1, 0xFFFF, 1)))),
                Step("int", (0, 1, 0, 0xFFFF), b"\x0a\xff"),
                Step("advance", (0xFFFFFFFF,)),
            ),
            2,
        )
        self.assertEqual((parse_text(text), decode(data), encode(script)), (script, script, data))
        self.assertEqual((script.count, len(list(script.steps())), script.size), (9, 9, len(data)))
        printed = (
            "version 2\nout 3C4 02\nrepeat 3\nputw A0000 1234\nshow plane 1 FFFF 1\nend\n"
            "int ax=0000 bx=0001 cx=0000 dx=FFFF block 0AFF\nadvance 4294967295\n"
        )
        self.assertEqual(print_text(script), printed)
        self.assertEqual(parse_text(printed), script)
        self.assertEqual(read(b""), Script())
        # Items come before a fault that stands after them.
        self.assertEqual(tuple(items_in(data)), script.items)
        cut = items_in(data[:-1])
        self.assertEqual([next(cut) for _ in range(3)], list(script.items[:3]))
        self.assertEqual(fault_of(b"", lambda _: next(cut)), f"F5 Truncated({len(data) - 5})")

    def test_what_the_page_shows_of_faults(self) -> None:
        rows = re.findall(r"^\| .*\| `([0-9A-F ]+)` \| `(F\d+ .*)` \|$", page("SCRIPT.md"), re.M)
        self.assertGreater(len(rows), 15)
        hold(self, lambda digits: fault_of(bytes.fromhex(digits)), rows)
        many = b"VGAS\2\x0d\xff\xff" + b"\x0b" * 257 + b"\x0e"
        self.assertEqual((fault_of(many), fault_of(many[:-2] + b"\x0e")), ("F11 TooMany(5)", ""))
        one_more = encode(Script((Block(4096, (Step("frame"),) * 4096), Step("frame")), 2))
        self.assertEqual(fault_of(one_more), f"F11 TooMany({len(one_more) - 1})")
        self.assertEqual(fault_of(bytes(MOST_BYTES + 1)), "F6 TooLong")

    def test_the_bad_lines_of_the_page(self) -> None:
        _, first, second = page("SCRIPT.md").split("| Line | Why |")
        bad = [
            line
            for row in re.findall(r"^\| (`.*?) \|", first.split("In version 2")[0], re.M)
            for line in re.findall(r"`(.*?)`", row)
        ]
        self.assertGreaterEqual(len(bad), 20)
        for line in bad:
            self.assertEqual(
                fault_of(f"frame\n{line}\n".encode(), parse_text), "F7 BadLine(2)", line
            )
        for line in BAD_LINES:
            self.assertIn(f"`{line}`", second)
            self.assertEqual(
                fault_of(f"version 2\n{line}\n".encode(), parse_text), "F7 BadLine(2)", line
            )
        hold(
            self,
            lambda text: fault_of(f"version 2\n{text}".encode(), parse_text),
            (
                ("repeat 2\nrepeat 2\nend\nend", "F7 BadLine(3)"),
                ("repeat 2\nfr\n", "F7 BadLine(3)"),
                ("repeat 2\nframe\n", "F7 BadLine(2)"),
                ("repeat 65535\n" + "frame\n" * 257 + "end", "F7 BadLine(2)"),
                ("repeat 4096\n" + "frame\n" * 4096 + "end\nframe", "F7 BadLine(4100)"),
            ),
        )
        with mock.patch("zaklimot.format.text.MOST_BYTES", 1000):
            self.assertEqual(
                [fault_of(b"int\n" * count, parse_text) for count in (90, 91)], ["", "F6 TooLong"]
            )

    def test_each_case_of_the_suite_has_its_fault_or_none(self) -> None:
        seen = 0
        for case in read_cases(str(SUITE)):
            expected = FAULT.match(case.expected.read_text("ascii", "replace"))
            # A font file is none of a script's, a file that doesn't begin as bytes do is a text,
            # and one case is long.
            if (
                case.expected.stat().st_size > 100_000
                or expected
                and expected[0] in ("F1 FontSize", "F2 BadMagic")
            ):
                continue
            if case.source.stat().st_size < 1000 and "*65" in case.source.read_text(
                "utf-8", "replace"
            ):
                continue
            with self.subTest(case.name):
                script = case.script()
                self.assertEqual(fault_of(script, read), expected[0] if expected else "")
                if expected is None and case.source.stat().st_size < 100_000:
                    self.assertEqual(read(encode(read(script))), read(script))
                seen += expected is not None
        self.assertGreater(seen, 100)

    def test_its_own_examples(self) -> None:
        self.assertEqual(doctest.testmod(format).failed, 0)


class Answers(unittest.TestCase):
    def is_answer(self, line: str, answer: str) -> bool:
        """Whether the step of a line may have an answer."""
        (step,) = parse_text(line).items
        assert isinstance(step, Step)
        first, *others = answer.split("\n")
        return is_answer_to(step, Answer(1, 1, first, tuple(others)))

    def test_answers_of_steps(self) -> None:
        for line, (right, wrong) in ANSWERS.items():
            hold(self, self.is_answer, ((line, answer, True) for answer in right))
            hold(self, self.is_answer, ((line, answer, False) for answer in wrong))

    def test_the_dumps_of_the_page(self) -> None:
        rows = dict(re.findall(r"^\| `(show \w+[^`]*)` \| `([^`]*)`", page("REPORT.md"), re.M))
        hold(
            self,
            self.is_answer,
            ((line, answer, True) for line, answer in rows.items() if line != "show cells"),
        )
        self.assertGreaterEqual(len(rows), 5)

    def test_one_of_a_slice_begins_behind_the_first_step(self) -> None:
        def numbers(first: int) -> list[int]:
            report = Report(stream(b"7 ok\n8 E1 NotDecoded\n9 00\n"), first=first)
            found = [answer.number for answer in report.answers()]
            self.assertEqual(report.count, len(found))
            return found

        self.assertEqual(numbers(7), [7, 8, 9])
        for first in (1, 8):
            self.assertRaises(ReportError, numbers, first)
