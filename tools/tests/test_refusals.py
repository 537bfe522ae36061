"""Why steps are refused, why lines are no steps and texts no scripts: in the adapter's words, for
the cases of the page."""

import json
import re
import unittest
from pathlib import Path
from typing import Callable, Optional, Sequence
from unittest import mock

import zaklimot
from zaklimot.format import REFUSALS, Answer, refusal_of
from zaklimot.commands import TOP
from zaklimot.commands.core.trouble import Trouble
from zaklimot.commands.explain import mistakes, reasons
from zaklimot.commands.explain.faults import explained
from zaklimot.commands.explain.mistakes import Mistake, marked_lines, mistake_in
from zaklimot.commands.explain.reasons import Reasons, bytes_of

from .tools import Folder, hold, run_texts, want_library


HERE = Path(__file__).parent
# Scripts whose last step is refused, the answer, and why; the page's tests read them too.
CASES = json.loads((HERE / "refusals.json").read_text("utf-8"))
# The bad lines and texts with their reasons, which the page's tests read too: so both tell the
# same.
TABLE = json.loads((HERE / "mistakes.json").read_text("utf-8"))
# The modes of the BIOS.
MODES = (0x03, 0x07, 0x0D, 0x10, 0x12, 0x13)
# A word of the table that stands for this many digits.
LONG = "LONG"
DIGITS = "0" * 131_072
# A bad line, the part of it that is marked (nothing: the place behind it), and what is said.
LINES = [
    (row["line"].replace(LONG, DIGITS), row["part"].replace(LONG, DIGITS), row["reason"])
    for row in TABLE["lines"]
]
# Others, at the bounds of what is told: words that are cut, numbers of one digit too many, the last
# byte of a plane.
HEX, COMMENT = "numbers are hexadecimal digits alone: write ", "comments begin with ;"
DOTS, GLUED = "DOTS is decimal digits alone: write ", "a blank stands between words: write "
BLOCK_DIGITS = "a block is hexadecimal digits alone, two for each byte"
ALONE = "nothing stands after the name of a step but blanks: write "
ONE_STEP, DIGITS_MOST = "a word too many: one step stands on a line", "and 2 digits are the most"
ALWAYS = "a call is always interrupt 10, and its numbers stand after their registers"
BOUNDS: tuple[tuple[str, str, str], ...] = (
    ("frame,", "frame,", f"{ALONE}frame"),
    ("in: 3DA", "in:", f"{ALONE}in"),
    ("outw3C4 0202", "outw3C4", f"{GLUED}outw 3C4"),
    ("getwA0000", "getwA0000", f"{GLUED}getw A0000"),
    ("in3D", "in3D", f"{GLUED}in 3D"),
    ("in3", "in3", "there is no step 'in3'; did you mean in?"),
    *((f"int {text} ax=3", text, f"{ALWAYS}: ax=3") for text in ("10", "0x10", "$10", "10h")),
    ("in 3DA OUT", "OUT", ONE_STEP),
    ("in 3DA Frame 1", "Frame", ONE_STEP),
    ("note this", "note", COMMENT),
    ("!x", "!x", COMMENT),
    ("out 3C4 000", "000", f"VALUE has 3 digits, {DIGITS_MOST}: write 0"),
    ("out 3C4 010", "010", f"VALUE has 3 digits, {DIGITS_MOST}: write 10"),
    ("out 3C4 123", "123", f"VALUE has 3 digits, {DIGITS_MOST}"),
    ("show plane 00 0 1", "00", "P has 2 digits, and 1 digit is the most: write 0"),
    ("show plane 4 0 1", "4", "P is from 0 to 3"),
    ("show plane 3 0 0", "0", "COUNT is from 1 to 256"),
    ("show plane 3 0 257", "257", "COUNT is from 1 to 256"),
    ("show plane 3 FFF0 17", "17", "from FFF0 on the plane has 16 bytes"),
    ("out 0x3c4 02", "0x3c4", f"{HEX}3C4"),
    ("out l0 1", "l0", f"{HEX}10"),
    ("out 3C4 oO", "oO", f"{HEX}00"),
    *((f"advance {text}", text, f"{DOTS}1000") for text in ("1'000", "1_000", "1,000", "1000.")),
    ("repeat 0", "0", "N is from 1 to 65535"),
    ("int ax=3 ax=4", "ax=4", "ax stands twice"),
    *(
        (f"int ax {text} bx=4", "ax", "no blank stands around =: write ax=3")
        for text in ("= 3", "=3")
    ),
    *(
        (f"int block {text}", text, f"{BLOCK_DIGITS}: write ABCD")
        for text in ("0xabcd", "ab,cd", "$ABcd")
    ),
    ("int block 5", "5", "a block has two digits for each byte, and these are 1"),
    (f"int block {'5' * 131_072}", "5" * 131_072, "a block has at most 65535 bytes"),
    *(
        (f"show {word}", word, f"nothing of the state has the name '{shown}'; there are ")
        for word, shown in (("x" * 24, "x" * 24), ("x" * 25, "x" * 22 + ".."))
    ),
)
GOOD = ("show plane 3 FF00 256", "show plane 3 FFFF 1", f"int block {'5' * 131_070}", "out 03C4 2")
# Whole texts whose first line shows what is wrong with all of it, and what is said.
TEXTS = [(bytes.fromhex(row["hex"]), row["reason"]) for row in TABLE["texts"]]

# What a step answers that was done.
DONE = Answer(1, 1, "ok")


def reasons_behind(lines: Sequence[str]) -> Reasons:
    """What tells why steps are refused, after some that were done."""
    behind = Reasons()
    for line in lines:
        behind.why_of(line, DONE)
    return behind


def refused_as(number: int) -> Answer:
    """The answer of a step that is refused with a number."""
    return Answer(1, 1, refusal_of(number))


def mistake_of(line: str) -> Optional[Mistake]:
    """What is wrong in a text of one line."""
    return mistake_in(line.encode("utf-8", "surrogateescape"))


class Refusals(unittest.TestCase):
    def setUp(self) -> None:
        want_library()

    def test_each_is_told_as_the_adapter_tells_it(self) -> None:
        for case in CASES:
            with self.subTest(case["text"]):
                *before, last = case["text"].split("\n")
                answer = Answer(1, 1, case["answer"])
                self.assertEqual(reasons_behind(before).why_of(last, answer), case["told"])

    def test_there_is_one_of_each(self) -> None:
        self.assertEqual(
            {case["answer"] for case in CASES},
            {f"E{number} {name}" for number, name in REFUSALS.items()},
        )

    def test_the_modes_are_named(self) -> None:
        told = Reasons().why_of("int ax=99", refused_as(5))
        named = re.findall(r"\b[0-9A-F]{2}\b", told.partition("The modes are ")[2])
        self.assertEqual(named, [f"{mode:02X}" for mode in MODES])

    def test_what_the_adapter_does_not_refuse_so(self) -> None:
        behind = reasons_behind(["int ax=3", "out 3C0 1F", "in 3DA", "in 3DA", "out 3C0 5"])
        hold(
            self,
            lambda words, number: behind.why_of(words, refused_as(number)),
            [
                *(
                    (words, at, "")
                    for words in ("frame", "show regs", "advance 5", "int ax=3", "move 1")
                    for at in (1, 2)
                ),
                ("out 3C0 1F", 1, ""),
                ("in 3C1", 2, ""),
                # A refusal with another number is another program's.
                ("in 60", 2, ""),
            ],
        )
        # The same step is refused for another reason once the state is another.
        words = "in 3B4"
        answer = refused_as(1)
        told = [
            behind.why_of(words, answer),
            behind.why_of("out 3C2 66", DONE),
            behind.why_of(words, answer),
        ]
        self.assertEqual([bool(one) for one in told], [True, False, False])

    def test_what_a_step_means_by_its_bits(self) -> None:
        shift = "Bit 5 of graphics mode, shift register mode, is left out of the adapter"
        count = "Bit 5 of underline location, count by four, is left out of the adapter"
        ends = "The index of the {} is {}, and its registers end at {}.".format
        rows: tuple[tuple[str, str, int, str], ...] = (
            # An index has fewer bits than a byte.
            ("", "outw 3CE 2015", 2, f"{shift}, so it can't be 1."),
            ("", "outw 3CE 0019", 2, ends("graphics controller", "09", "08")),
            ("", "outw 3C4 010D", 2, ends("sequencer", "05", "04")),
            ("", "outw 3B4 2034", 2, f"{count}, so it can't be 1."),
            ("", "OUTW 3b4 0099", 2, ends("CRT controller", "19", "18")),
            # Bit 7 of a mode asks to keep the memory, and is no part of its number.
            ("", "int ax=0084", 5, "04"),
            ("int ax=0087", "int ax=0C01", 6, "Mode 07 is text, and this call wants graphics."),
            ("INT AX=0092", "int ax=1112", 6, "Mode 12 "),
            ("int ax=0007", "int ax=0509", 7, "There is no page 09: "),
        )
        for before, words, number, told in rows:
            with self.subTest(words):
                why = reasons_behind(before.splitlines()).why_of(words, refused_as(number))
                self.assertTrue(why == told if told.endswith(".") else told in why, why)
        ran = run_texts({words: f"{before}\n{words}\n".encode() for before, words, *_ in rows})
        for before, words, number, _ in rows:
            answer = ran[words].report.decode("ascii").splitlines()[-1].split()[1]
            self.assertEqual(answer, f"E{number}", words)

    def test_steps_before_a_refusal_are_kept(self) -> None:
        """However many they are."""
        with mock.patch.object(reasons, "MOST_TAKEN", 50):
            behind = reasons_behind(["int ax=3", *["outw 3CE 0506", "out 3CE 5"] * 40])
            for _ in "12":
                told = behind.why_of("get B8000", refused_as(1))
                self.assertTrue(told.startswith("Memory map is 1 "), told)
                self.assertEqual(behind.why_of("out 3CF 0", DONE), "")

    def test_a_run_without_a_refusal_needs_no_library(self) -> None:
        lacking = mock.Mock(side_effect=Trouble("there is no compiler\nand more"))
        with mock.patch.object(reasons, "use_library", lacking):
            behind = reasons_behind(["int ax=3", "out 3CE 5"])
            lacking.assert_not_called()
            for _ in "12":
                told = behind.why_of("in 60", refused_as(1))
                self.assertEqual(told, "The reason is not told: there is no compiler.")
            lacking.assert_called_once()

    def test_bytes_of_a_step(self) -> None:
        self.assertEqual(bytes_of("OUT 3c4 2").hex(), "01c40302")
        self.assertEqual((bytes_of("move 1"), bytes_of("")), (b"", b""))

    def test_the_program_refuses_each(self) -> None:
        ran = run_texts({case["text"]: case["text"].encode() + b"\n" for case in CASES})
        for case in CASES:
            answer = ran[case["text"]].report.decode("ascii").splitlines()[-1].partition(" ")[2]
            self.assertEqual(answer, case["answer"], case["text"])


class Mistakes(unittest.TestCase):
    def setUp(self) -> None:
        want_library()

    def test_each_is_told_below_its_word_and_good_lines_have_none(self) -> None:
        for line, part, said in LINES:
            with self.subTest(line[:60]):
                mistake = mistake_of(line)
                assert mistake is not None
                self.assertEqual(mistake.reason, said)
                if part:
                    self.assertEqual(line[mistake.at : mistake.at + mistake.width], part)
                else:
                    self.assertEqual(mistake.at, len(line.partition(";")[0].rstrip()))
        self.assertGreaterEqual(len(LINES), 60)
        hold(self, mistake_of, ((line, None) for line in TABLE["good"]))

    def test_each_is_told_at_its_bounds(self) -> None:
        for line, part, said in BOUNDS:
            with self.subTest(line[:60]):
                mistake = mistake_of(line)
                assert mistake is not None
                reason = mistake.reason[: len(said)] if said.endswith(" ") else mistake.reason
                self.assertEqual(reason, said)
                self.assertEqual(line[mistake.at : mistake.at + mistake.width], part)
        hold(self, mistake_of, ((line, None) for line in GOOD))
        ran = run_texts(
            {line: line.encode() + b"\n" for line in (*GOOD, *(row[0] for row in BOUNDS))}
        )
        for line, done in ran.items():
            said = "" if line in GOOD else "vga: F7 BadLine(1)\n"
            self.assertEqual((done.status, done.said), (int(line not in GOOD), said), line[:60])

    def test_a_long_line_is_shown_around_the_mistake(self) -> None:
        # 100 characters of it, of which 50 stand before the mistake.
        line = "".join(f"{at:4} " for at in range(61))
        hold(
            self,
            lambda line, at, width: list(marked_lines(line, Mistake(1, at, width, ""))),
            (
                (line[:100], 98, 2, [line[:100].rstrip(), 98 * " " + "^^"]),
                (line[:101], 3, 1, [line[:100].rstrip() + "..", "   ^"]),
                (line[:300], 251, 3, [".." + line[201:300].rstrip(), 52 * " " + "^^^"]),
                (line[:302], 251, 3, [".." + line[201:301].rstrip() + "..", 52 * " " + "^^^"]),
                # The mark ends with what is shown.
                ("x" * 300, 0, 300, ["x" * 100 + "..", "^" * 100]),
                ("x" * 300, 150, 150, [".." + "x" * 100 + "..", 52 * " " + 50 * "^"]),
                ("\tout\t0x3C4", 5, 5, [" out 0x3C4", "     ^^^^^"]),
                # A line that is wrong as a whole has no mark.
                ("end ; of nothing", 0, 0, ["end ; of nothing"]),
            ),
        )

    def test_the_program_refuses_each(self) -> None:
        texts = {f"line-{at}": line.encode() + b"\n" for at, (line, _, _) in enumerate(LINES)}
        texts.update({f"text-{at}": text for at, (text, _) in enumerate(TEXTS)})
        hold(
            self, run_texts(texts).get, ((name, (1, b"", "vga: F7 BadLine(1)\n")) for name in texts)
        )


# Faults, the file that is named, the reason, and the script and the font file.
TOLD_LENGTH = "bytes, and 9,728 are right"
TOLD_MOST = "16,777,216 bytes are the most"
FAULTS_TOLD = (
    *(("F7 BadLine(1)", "s:1", reason, text) for text, reason in TEXTS),
    (
        "F7 BadLine(1)",
        "s:1",
        "this is not a script, but a font file",
        (TOP / "fonts" / "zaklimot.fnt").read_bytes(),
    ),
    # Bytes that are as many as a font file has, or one more.
    *(
        ("F7 BadLine(1)", "s:1", f"this is not a script{what}", bytes(count))
        for what, count in (
            (", but a font file", 9728),
            (": it has bytes that no text has", 9729),
        )
    ),
    # A mark stands below a line.
    (
        "F7 BadLine(2)",
        "s:2",
        ("numbers are hexadecimal digits alone: write 3C4\n  out 0x3C4 02\n     " " ^^^^^"),
        b"frame\nout 0x3C4 02\n",
    ),
    # A carriage return is a blank, also before and behind the only line.
    (
        "F7 BadLine(1)",
        "s:1",
        "numbers are hexadecimal digits alone: write 3C4\n  out 0x3C4 02\n      ^^^^^",
        b"out 0x3C4 02\r",
    ),
    (
        "F7 BadLine(1)",
        "s:1",
        "numbers are hexadecimal digits alone: write 3C4\n   out 0x3C4 02\n       ^^^^^",
        b"\rout 0x3C4 02",
    ),
    # Of lines with both the newlines part them.
    (
        "F7 BadLine(1)",
        "s:1",
        "numbers are hexadecimal digits alone: write 3C4\n  out 0x3C4 02\n      ^^^^^",
        b"out 0x3C4 02\r\nframe\r\n",
    ),
    (
        "F7 BadLine(1)",
        "s:1",
        "the text is UTF-16, of two bytes a letter: save it as UTF-8 or ASCII",
        b"\xfe\xff" + "frame\n".encode("utf-16-be"),
    ),
    (
        "F7 BadLine(2)",
        "s:2",
        "repeats are of version 2: write version 2 before every other line\n  end",
        b"frame\nend\n",
    ),
    # Another repeat has an end.
    (
        "F7 BadLine(5)",
        "s:5",
        "the repeat has no end\n  repeat 3",
        b"version 2\nrepeat 2\nframe\nend\nrepeat 3\nframe\n",
    ),
    # A program need not name the place.
    (
        "F11 TooMany",
        "s",
        "with the repeat or step the script means more than 16,777,216 steps",
        b"VGAS\2",
    ),
    *(
        (
            f"F7 BadLine({row['number']})",
            f"s:{row['number']}",
            f"{row['reason']}\n  {row['text'].splitlines()[row['number'] - 1]}",
            row["text"].encode(),
        )
        for row in TABLE["blocks"]
    ),
    *((row["fault"], "s", row["reason"], bytes.fromhex(row["hex"])) for row in TABLE["scripts"]),
    # What is not known.
    ("F7 BadLine(1)", "s:1", "refused, and I can't say why\n  frame", b"frame\n"),
    ("F14 Strange(3)", "s", "refused, and I can't say why", b""),
    # What the system refuses the program.
    (
        "F9 WriteFault",
        "s",
        "what the program writes could not be written: the disk may be full",
        b"",
    ),
    ("F10 OutOfMemory", "s", "the system gave the program no more memory", b""),
    # Fonts of another length.
    ("F1 FontSize", "f", f"the font file has 3 {TOLD_LENGTH}", b"", b"123"),
    (
        "F1 FontSize",
        "f",
        f"the font file has 5 {TOLD_LENGTH}; it is a script of bytes",
        b"",
        b"VGAS\x01",
    ),
    *(
        (
            "F1 FontSize",
            "f",
            f"the font file has {256 * rows:,} {TOLD_LENGTH}; a font of {rows} rows alone has so"
            " many, and a font file has those of 8, 14 and 16 rows",
            b"",
            bytes(256 * rows),
        )
        for rows in (8, 14, 16)
    ),
    ("F1 FontSize", "f", f"the font file has 2,304 {TOLD_LENGTH}", b"", bytes(2304)),
    ("F1 FontSize", "f", f"the font file has 16,777,216 {TOLD_LENGTH}", b"", bytes(16_777_216)),
    # What is too long.
    ("F6 TooLong", "s", f"the text has more bytes, and {TOLD_MOST}", bytes(16_777_217)),
    (
        "F6 TooLong",
        "s",
        f"the file has more bytes, and {TOLD_MOST}",
        b"VGAS".ljust(16_777_217),
    ),
    (
        "F6 TooLong",
        "s",
        f"the steps of the text have more bytes, and {TOLD_MOST}",
        b"int\n" * 1_600_000,
    ),
    # What the library knows nothing of.
    ("F6 TooLong", "s", "refused, and I can't say why", b"int\n"),
    ("F7 BadLine(2)", "s:2", "refused, and I can't say why\n  frame", b"move\nframe\n"),
)


class Faults(Folder):
    def setUp(self) -> None:
        super().setUp()
        want_library()

    def told(self, fault: str, data: bytes, fonts: bytes = bytes(9728)) -> str:
        """What is told of a fault of these files."""
        return explained("vga: " + fault, self.write("s", data), self.write("f", fonts))

    def test_what_is_told(self) -> None:
        hold(
            self,
            self.told,
            (
                (fault, *files, f"{self.folder / name}: {fault}: {reason}")
                for fault, name, reason, *files in FAULTS_TOLD
            ),
        )

    def test_what_no_text_has_is_looked_for_at_the_front_and_told_of_the_first_line(self) -> None:
        no_text = "this is not a script: it has bytes that no text has"
        here = "the character U+0001 stands in no step"
        for number, data, told in (
            (1, b"move" + b" " * 195 + b"\1\n", no_text),
            (1, b"move" + b" " * 196 + b"\1\n", here),
            (2, b"frame\nmove \1\n", here),
            # Some of them stand in texts, though in no step; other bytes are told as they are.
            (1, b"frame \v\f\t\r\n", "the character U+000B "),
            (1, b"frame \x7f\n", "the character U+007F "),
            (1, b"frame \xc3\xa9\n", "the character U+00E9 "),
            (1, b"frame \xe9\n", "the character byte E9 "),
            (1, b"frame \x80\n", "the character byte 80 "),
        ):
            fault = f"F7 BadLine({number})"
            front = f"{self.folder / 's'}:{number}: {fault}: {told}"
            self.assertEqual(self.told(fault, data)[: len(front)], front)

    def test_without_a_library(self) -> None:
        lacking = mock.Mock(side_effect=Trouble("there is no compiler\nand more"))
        with mock.patch.object(mistakes, "use_library", lacking):
            told = self.told("F7 BadLine(1)", b"move\n")
        reason = "F7 BadLine(1): the reason is not told: there is no compiler\n  move"
        self.assertEqual(told, f"{self.folder / 's'}:1: {reason}")

    def test_files_that_cannot_be_read(self) -> None:
        script = self.folder / "s"
        fonts = Path(self.write("f", bytes(9728)))
        ways: tuple[tuple[Callable[[], object], Path, str], ...] = (
            (bool, script, "the script can't be read: No such file or directory"),
            (script.mkdir, script, "the script can't be read: Is a directory"),
            (fonts.unlink, fonts, "the font file can't be read: No such file or directory"),
        )
        for make, path, reason in ways:
            make()
            told = explained("vga: F8 ReadFault", str(script), str(fonts))
            self.assertEqual(told, f"{path}: F8 ReadFault: {reason}")


class OfProcessors(unittest.TestCase):
    def test_a_line_of_a_processor_is_told(self) -> None:
        want_library()
        for line, is_told in (
            ("in al, 3DA", 1),
            ("IN AX,DX", 1),
            ("out 3C2, al", 1),
            ("in 3DX", 0),
        ):
            found = mistake_in(line.encode())
            assert found is not None
            self.assertEqual(found.reason == mistakes.NO_STEP, bool(is_told), line)


class Modes(unittest.TestCase):
    """The adapter's modes are those of docs/MODES.md."""

    PAGE = (TOP / "docs/MODES.md").read_text("utf-8")
    ROWS = {
        row[1]: [cell.strip() for cell in row[2].split("|")]
        for row in re.finditer(r"(?m)^\| ([^|]*) \|(.*)\|$", PAGE)
    }

    def setUp(self) -> None:
        want_library()

    def test_the_dots_of_a_frame(self) -> None:
        told = [int(cell.replace(",", "")) for cell in self.ROWS["dots of a frame"]]
        dots = []
        for mode in MODES:
            with zaklimot.Card() as card:
                card.int10(mode)
                dots.append(card.clock().frame_dots)
        self.assertEqual(dots, told)

    def test_the_registers(self) -> None:
        crtc = re.search(r"(?s)\*\*CRT controller\*\*(.*)\*\*Attribute controller", self.PAGE)
        assert crtc is not None
        names = re.findall(r"(?m)^\| ([0-9A-F]+ [^|]*) \|", crtc[1])
        self.assertEqual(len(names), 25)
        for column, mode in enumerate(MODES):
            with zaklimot.Card() as card:
                card.int10(mode)
                left = card.registers()
            told = bytes(int(self.ROWS[name][column], 16) for name in names)
            self.assertEqual(left.crtc, told)
            misc, clocking, window = (
                int(self.ROWS[name][column], 16)
                for name in ("miscellaneous output", "1 clocking mode", "6 miscellaneous")
            )
            self.assertEqual((left.misc, left.seq[1], left.gfx[6]), (misc, clocking, window))
