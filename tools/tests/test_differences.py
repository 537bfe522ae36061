"""Reports: read, whole and damaged; compared with others and with what is expected; and dumps."""

import hashlib
import io
import unittest
from typing import Iterable, Optional
from unittest import mock

from zaklimot.format import Answer, Picture
from zaklimot.commands.core.progress import Progress
from zaklimot.commands.report.expecting import differing, what_differs
from zaklimot.commands.report.report import Comparison, Expected, Report

from .tools import BLACK, RED, WHITE, Folder, hold, ppm, refused, report, stream


DUMP = "misc 00\nseq 00: 00"
PICTURE = ppm(3, 2, RED * 2 + BLACK * 4)
CRTC = "crtc 00: " + " ".join(["00"] * 25)
REGISTERS = "misc 00\nseq 00: 00\ncrtc 00: 00\ngfx 00: 00\nattr 00 i: 00\ndac 00 r FF 00 00"


def steps_of(data: bytes) -> list[Answer]:
    """The steps of a report."""
    return list(Report(stream(data), "r").steps())


def first(data: bytes, others: Iterable[Answer]) -> Optional[str]:
    """How a report differs from other answers first."""
    difference = next(Comparison().differences(iter(steps_of(data)), iter(others)), None)
    return difference and difference.told()


def against(data: bytes, expected: str) -> Optional[str]:
    """How a report differs from an expected one."""
    return first(data, Expected(stream(expected.encode()), "e").steps())


ALIKE = (b"", report("ok", "55", DUMP, PICTURE, "E1 NotDecoded"), b"F2 BadMagic\n")
# Two reports, and the first step in which they differ.
FIRST_DIFFERENCES = [
    *((data, data, None) for data in ALIKE),
    (report("ok", "55", "55"), report("ok", "54", "54"), "step 2: 55, not 54"),
    (
        report("E1"),
        report("E1 NotDecoded"),
        "step 1: E1 (read), not E1 NotDecoded (refused)",
    ),
    (
        report("ok"),
        report("E2 NotInProfile"),
        "step 1: ok, not E2 NotInProfile (refused)",
    ),
    (report("ok"), report("ok", "ok"), "step 2: the end, not ok"),
    (report("ok", "55"), report("ok"), "step 2: 55, not the end"),
    (
        report(DUMP),
        report(DUMP.replace("seq 00: 00", "seq 00: 01")),
        "step 1: seq 00: 00, not seq 00: 01",
    ),
    (report(DUMP), report("misc 00"), "step 1: seq 00: 00, not the end"),
    (report(PICTURE), report("ragged"), "step 1: picture 28, not ragged"),
    (b"F2 BadMagic\n", b"F3 BadVersion\n", "the run: F2 BadMagic, not F3 BadVersion"),
    (b"F2 BadMagic\n", report("ok"), "step 1: F2 BadMagic (fault), not ok"),
    (b"", b"F2 BadMagic\n", "the run: the end, not F2 BadMagic"),
    (
        report(PICTURE),
        report(ppm(3, 2, RED * 2 + BLACK * 2 + WHITE * 2)),
        "step 1: 2 of 6 dots differ, the first is dot 1 of row 1: 000000, not 3F3F3F",
    ),
    (
        report(PICTURE),
        report(ppm(3, 2, RED * 2 + WHITE + BLACK + WHITE * 2)),
        "step 1: 3 of 6 dots differ, the first is dot 2 of row 0: 000000, not 3F3F3F",
    ),
    (
        report(PICTURE),
        report(ppm(2, 3, BLACK * 6)),
        "step 1: picture 28 3x2, not picture 28 2x3",
    ),
]


class Reports(unittest.TestCase):
    def test_the_first_difference(self) -> None:
        hold(
            self,
            lambda data, other: first(data, steps_of(other)),
            FIRST_DIFFERENCES,
        )

    def test_all_differences_and_what_was_skipped(self) -> None:
        comparison = Comparison()
        steps, others = report("00", "skipped", "02", PICTURE, "04"), report(
            "01", "01", "02", "skipped", "05"
        )
        found = comparison.differences(iter(steps_of(steps)), iter(steps_of(others)))
        self.assertEqual([difference.number for difference in found], [1, 5])
        self.assertEqual(comparison.text(), "5 steps, 1 picture, 2 skipped")
        # What follows the shorter report is one.
        short, long = (iter(steps_of(report(*answers))) for answers in (("ok",), ("ok",) * 3))
        self.assertEqual([found.number for found in Comparison().differences(short, long)], [2])

    def test_what_is_counted(self) -> None:
        def counts(one: bytes, other: bytes, **given: bool) -> tuple[int, int, int, int]:
            comparison = Comparison(**given)
            list(comparison.differences(iter(steps_of(one)), iter(steps_of(other))))
            return comparison.steps, comparison.skipped, comparison.answers, comparison.differing

        refusal = "E1 NotDecoded"
        call, without_bios = "ax=0003 bx=0000 cx=0000 dx=0000", {"ends_at_call": True}
        bus, machine = {"has_refusals": False}, {"has_refusals": False, "is_machine": True}
        rows: Iterable[tuple[Iterable[str], Iterable[str], dict[str, bool], tuple[int, ...]]] = (
            # Answers are those that are expected, but for `ok`.
            (("55", "55"), ("ok", "55"), {}, (2, 0, 1, 1)),
            (("ok", "ok"), ("54", "55"), {}, (2, 0, 2, 2)),
            # The end of the shorter report differs too.
            (("ok",), ("ok", "55", "55"), {}, (1, 0, 0, 1)),
            (("ok", "55", "55"), ("ok",), {}, (1, 0, 0, 1)),
            # A refusal that is answered as it is expected is compared.
            ((refusal, "FF"), (refusal, refusal), {}, (2, 0, 2, 1)),
            ((refusal, "FF"), (refusal, refusal), bus, (2, 1, 1, 0)),
            # After a call that is skipped nothing is compared, but after another step.
            (("skipped", "FF"), (call, "55"), without_bios, (2, 2, 0, 0)),
            (("skipped", "FF"), (call, "55"), {}, (2, 1, 1, 1)),
            (("skipped", "FF"), ("55", "55"), without_bios, (2, 1, 1, 1)),
            # A machine goes on from a state of its own.
            (("55", "FF", "00"), ("55", refusal, "01"), machine, (3, 2, 1, 0)),
            (("55",), ("55", refusal, "01"), machine, (3, 2, 1, 0)),
            (("54",), ("55", refusal, "01"), machine, (3, 2, 1, 1)),
        )
        for one, other, given, wanted in rows:
            with self.subTest(one=one, other=other, **given):
                self.assertEqual(counts(report(*one), report(*other), **given), wanted)
        comparison = Comparison()
        steps = (iter(steps_of(report(*answers))) for answers in (("skipped",), ("55",)))
        self.assertEqual(list(comparison.differences(*steps)), [])
        self.assertEqual(comparison.text(), "1 step, 0 pictures, 1 skipped")

    def test_as_expected_and_otherwise(self) -> None:
        digest = hashlib.md5(PICTURE).hexdigest()
        other = 32 * "0"
        hold(
            self,
            lambda answers, expected: against(report(*answers), expected),
            [
                ((), "", None),
                (("ok",) * 12, "1-12 ok\n", None),
                (("ok", "55", "ok"), "1-1 ok\n2 55\n3-3 ok\n", None),
                (("ok", "ok", "55", "ok"), "1-2 ok\n3 55\n4 ok\n", None),
                ((DUMP, "ok", "ok"), "1 misc 00\nseq 00: 00\n2-3 ok\n", None),
                ((PICTURE, "ok"), f"1 picture 28 3x2 {digest}\n2 ok\n", None),
                ((PICTURE, "ok"), "1 picture 28 3x2\n3F0000*2 000000\n000000*3\n2 ok\n", None),
                ((PICTURE,), "1 picture 28 3x2\n3F0000 3F0000 000000\n000000 000000*2\n", None),
                (("ragged", DUMP), "1 ragged\n2 misc 00\nseq 00: 00\n", None),
                (("ok", "ok"), "1-3 ok\n", "step 3: the end, not ok"),
                (("5f",), "1 5F\n", "step 1: 5f, not 5F (read): digits are upper case in a report"),
                (
                    (PICTURE,),
                    f"1 picture 28 3x2 {other}\n",
                    f"step 1: picture 28 3x2 {digest}, not picture 28 3x2 {other}",
                ),
            ],
        )
        self.assertIsNone(against(b"F7 BadLine(3)\n", "F7 BadLine(3)\n"))

    def test_mistakes_in_what_is_expected(self) -> None:
        def told(expected: str) -> str:
            return refused(lambda: list(Expected(stream(expected.encode()), "e").steps()))

        hold(
            self,
            told,
            [
                ("1-3 ok\n5 ok\n", "e:2: step 4 is to come, and not '5 ok'"),
                *(
                    (f"1 ok\n{steps}\n", f"e:2: steps from 2 on are to come, and not '{steps}'")
                    for steps in ("3-4 ok", "2-1 ok")
                ),
                ("1 ok", "e:1: the report ends within a line"),
                ("; a comment\n", "e:1: step 1 is to come, and not '; a comment'"),
                ("1 picture 28 3x2\n3F0000*2\n000000*3\n", "e:2: no row of 3 dots: '3F0000*2'"),
                ("1 picture 28 3x2\n3F0000*3\n", "e:3: the report ends within a line"),
                ("1 picture 28 3x2\n3F0000*3\n00 00 00\n", "e:3: no row of 3 dots: '00 00 00'"),
                ("1 picture 28 3x2\n400000*3\n000000*3\n", "e:2: a dot has a component above 3F"),
                (
                    "1 picture 29 3x2\n3F0000*3\n000000*3\n",
                    "e:3: a picture of 3x2 dots has 28 bytes, and not 29",
                ),
            ],
        )


class Progresses(Folder):
    def told(self, stream: io.BufferedReader) -> list[str]:
        """What a terminal shows while a report is read."""
        progress = mock.create_autospec(Progress, instance=True)
        progress.is_due.return_value = True
        list(Report(stream, "r", progress).steps())
        return [call.args[0] for call in progress.tell.call_args_list]

    def test_how_far_a_report_was_read_is_told(self) -> None:
        data = report(*["ok"] * 20_000)
        with open(self.write("r", data), "rb") as file:
            shares = self.told(file)
        self.assertGreater(len(shares), 1)
        numbers = [int(share[len("r: ") : -len(" %")]) for share in shares]
        self.assertEqual(shares, [f"r: {number} %" for number in numbers])
        self.assertEqual(
            (numbers, 0 <= numbers[0], numbers[-1] <= 100), (sorted(numbers), True, True)
        )
        self.assertGreater(numbers[-1], 50)
        # Of what has no length, as a pipe, the lines are counted.
        lines = self.told(stream(data))
        self.assertEqual(len(lines), len(shares))
        self.assertRegex(lines[-1], r"^r: \d+ lines$")


class Differing(unittest.TestCase):
    def test_each_kind_of_line(self) -> None:
        hold(
            self,
            lambda answer, wanted: differing(answer.split("|"), wanted.split("|")),
            (
                (CRTC, CRTC, []),
                (
                    CRTC[:9] + "5F" + CRTC[11:45] + "03" + CRTC[47:],
                    CRTC,
                    [
                        "crtc 00 horizontal total: 5F, not 00",
                        "crtc 0C start address high: 03, not 00",
                    ],
                ),
                (
                    "seq 02: 03 00 03 00 02",
                    "seq 01: 03 00 03 00 06",
                    ["seq index: 02, not 01", "seq 04 memory mode: 02, not 06"],
                ),
                ("row 03: 4107 2007", "row 03: 4107 2107", ["row 03 column 1: 2007, not 2107"]),
                ("entry 01: 00 2A 3F", "entry 01: 00 2A 00", ["entry 01 blue: 3F, not 00"]),
                ("plane 2 0820: 00 18", "plane 2 0820: 00 19", ["plane 2 0821: 18, not 19"]),
                ("latches 00 55 00 00", "latches 00 55 00 01", ["latch of plane 3: 00, not 01"]),
                ("beam frame 0 line 111", "beam frame 0 line 112", ["beam line: 111, not 112"]),
                ("misc 67", "misc 63", ["misc: 67, not 63"]),
                ("ok", "row 00: 4107", ["'ok', not 'row 00: 4107'"]),
                # Lines that are lacking, and many.
                ("a", "a|b", ["no line, not 'b'"]),
                ("a|b", "a", ["'b', not the end"]),
                (
                    "row 00:" + 40 * " 4107",
                    "row 00:" + 40 * " 2007",
                    [
                        *(f"row 00 column {column}: 4107, not 2007" for column in range(8)),
                        "and 32 more",
                    ],
                ),
            ),
        )

    def test_what_stands_before_the_numbers_of_a_line(self) -> None:
        hold(
            self,
            lambda answer, wanted: differing([answer], [wanted]),
            (
                ("row 03: 4107", "row 04: 4107", ["row index: 03, not 04"]),
                (
                    "entry 01: 00 2A 3F",
                    "entry 01: 01 2B 3F",
                    ["entry 01 red: 00, not 01", "entry 01 green: 2A, not 2B"],
                ),
                ("attr 20 i: 00 01", "attr 20 d: 00 01", ["attr state: i, not d"]),
                (
                    "attr 20 i: 00 01",
                    "attr 11 i: 00 02",
                    ["attr index: 20, not 11", "attr 01 palette 1: 01, not 02"],
                ),
                ("bda mode 03 rows 19", "bda mode 03 rows 18", ["bda rows: 19, not 18"]),
                ("seq 00: 00", "seq 00: 00 00", ["'seq 00: 00', not 'seq 00: 00 00'"]),
            ),
        )

    def test_what_of_an_answer_differs(self) -> None:
        refused, latches = Answer(1, 1, "E1 NotDecoded"), Answer(1, 1, "latches 00 55 00 00")
        dump = Answer(1, 1, "misc 00", ("seq 00: 00",))
        sums = "2 lines " + 32 * "0"
        byte = "{} is a byte that is read here; the refusal is written E1 NotDecoded".format
        alike = "the lines below it agree, and its digest is that of others"
        hold(
            self,
            what_differs,
            (
                # A number alone is a byte, where one is read.
                (refused, "E1", "in", (), [byte("E1")]),
                (refused, "ea", "getw", (), [byte("ea")]),
                (refused, "E1", "out", (), []),
                (refused, "E0", "in", (), []),
                (refused, "E10", "in", (), []),
                (refused, "E2 NotInProfile", "in", (), []),
                # Dumps of one kind that are told whole.
                (latches, "latches 00 54 00 00", "show", (), ["latch of plane 1: 55, not 54"]),
                (latches, "latches 00 54...", "show", (), []),
                (latches, "beam frame 0 line 1", "show", (), []),
                (latches, "latches 00 54 00 00", "get", (), []),
                # Lines that stand below.
                (dump, sums, "show", ("misc 01", "seq 00: 00"), ["misc: 00, not 01"]),
                (dump, sums, "show", ("misc 00", "seq 00: 00"), [alike]),
                (dump, sums, "show", (), []),
                (dump, "misc 01", "show", (), []),
            ),
        )

    def test_one_more_than_are_named_is_counted(self) -> None:
        found = differing(["row 00:" + 9 * " 4107"], ["row 00:" + 9 * " 2007"])
        self.assertEqual((len(found), found[-1]), (9, "and 1 more"))


class Answers(unittest.TestCase):
    def seen(self, data: bytes) -> list[tuple[object, ...]]:
        """The number, the line, the kind and the lines of each step of a report, which are all of
        it."""
        steps = steps_of(data)
        self.assertEqual("".join(step.text() for step in steps).encode(), data)
        return [(step.number, step.line, step.kind, *step.lines) for step in steps]

    def test_each_answer_is_a_step(self) -> None:
        kinds = {
            "ok": "",
            "9F": "read",
            "1E41": "read",
            "ragged": "",
            "latches 00 55 00 00": "",
            "ax=0003 bx=0000": "",
            # A refusal is no byte that was read.
            "E1 NotDecoded": "refused",
            "E1": "read",
            "E12 TooFar": "refused",
            "E123": "read",
            "skipped": "",
        }
        longest = "ax=1017 bx=0000 cx=0100 dx=0000 block " + 65535 * "0F"
        hold(
            self,
            self.seen,
            (
                (b"", []),
                (
                    report(*kinds),
                    [(at, at, kind, one) for at, (one, kind) in enumerate(kinds.items(), 1)],
                ),
                (report(REGISTERS, "ok"), [(1, 1, "", *REGISTERS.split("\n")), (2, 7, "", "ok")]),
                # A fault stands in the place of a report.
                (b"F4 BadStep(9)\n", [(0, 1, "fault", "F4 BadStep(9)")]),
                (report(longest), [(1, 1, "", longest)]),
            ),
        )

    def test_a_picture_may_hold_any_bytes(self) -> None:
        dots = b"\n2 55\n3 44\n4"
        picture, after = steps_of(report(ppm(4, 1, dots), "ok"))
        assert isinstance(picture.picture, Picture)
        self.assertEqual((picture.picture.row(0), after), (dots, Answer(2, 2, "ok")))


# What stands in the place of a picture's length.
DAMAGED_LENGTHS = ("99999999999999", "0", "037", "-1", "3x", "", "37 9x1", "37 9x1 0123")
DAMAGED_PICTURES = [f"picture {length}".rstrip() for length in DAMAGED_LENGTHS]
DAMAGED_GOOD = ppm(2, 1, 6 * b"\x01")
# Reports, where and how they are damaged, and how many steps before that are good.
DAMAGED = [
    (b"1 ok\n2 o", "2: the report ends within a line", 1),
    (b"1 ok\n3 ok\n", "2: step 2 is to come, and not '3 ok'", 1),
    (b"01 ok\n", "1: step 1 is to come, and not '01 ok'", 0),
    (b"1 ok\nhello\n", "2: step 2 is to come, and not 'hello'", 1),
    (b"1\n", "1: step 1 is to come, and not '1'", 0),
    (b"1 ok\n\n", "2: the line is empty, or has bytes that no answer has", 1),
    (b"1 \x1b[2J\n", "1: the line is empty, or has bytes that no answer has", 0),
    (b"1 \xff\n", "1: the line is empty, or has bytes that no answer has", 0),
    (
        b"1 ok\r\n",
        ("1: the line ends with a carriage return: a report is bytes, not a" " system's text"),
        0,
    ),
    (b"1 " + bytes([0x30]) * 300000, "1: the line is longer than any answer", 0),
    (b"F2 BadMagic\n1 ok\n", "2: something stands after a fault", 0),
    *(
        (
            f"1 ok\n2 {picture}\n3 ok\n".encode(),
            f"2: step 2 has a picture of no length: '{picture}'",
            1,
        )
        for picture in DAMAGED_PICTURES
    ),
    *(
        (b"1 ok\n2 picture %d\n" % length + data, f"2: {message}", 1)
        for length, data, message in (
            (
                16,
                DAMAGED_GOOD[:12],
                "the picture of step 2 is cut off: of 16 bytes there are 12",
            ),
            (16, b"", "the picture of step 2 is cut off: of 16 bytes there are 0"),
            (
                16,
                DAMAGED_GOOD,
                "no newline stands after the 16 bytes of the picture of step 2",
            ),
            (
                15,
                DAMAGED_GOOD + b"\n",
                "no newline stands after the 15 bytes of the picture of step 2",
            ),
            (
                15,
                DAMAGED_GOOD[:-1] + b"\n",
                "step 2: a picture of 2x1 dots has 16 bytes, and not 15",
            ),
            (
                16,
                DAMAGED_GOOD.replace(b"63", b"31") + b"\n",
                (
                    "step 2: the picture doesn't begin as a PPM of the kind P6,"
                    " width, height and 63"
                ),
            ),
            (
                16,
                DAMAGED_GOOD[:-1] + b"\x40\n",
                "step 2: a dot of the picture has a component above 63",
            ),
            (
                999999999999,
                b"",
                ("step 2 has a picture of 999999999999 bytes, and 67108864 are" " the most"),
            ),
        )
    ),
]


class Damage(unittest.TestCase):
    def damage(self, data: bytes) -> tuple[str, int]:
        """What is told of a damaged report, and how many good steps there are before."""
        steps = Report(stream(data), "r").steps()
        seen: list[Answer] = []
        return refused(lambda: seen.extend(steps)), len(seen)

    def test_what_is_told(self) -> None:
        hold(
            self,
            self.damage,
            ((data, (f"r:{message}", DAMAGED_GOOD)) for data, message, DAMAGED_GOOD in DAMAGED),
        )
