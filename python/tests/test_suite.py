"""The suite of cases (docs/SUITE.md) and the texts of examples/, through the package."""

from __future__ import annotations

import io
import sys
import unittest
from concurrent.futures import ProcessPoolExecutor
from multiprocessing import get_context
from typing import Optional

import harness
import header
import zaklimot

sys.path.insert(0, str(header.TOP / "python"))

from zaklimot.commands.report.cases import Case, read_cases  # noqa: E402
from zaklimot.commands.report.report import Comparison, Expected, Report  # noqa: E402

SUITE = header.TOP / "crates" / "vga_suite" / "data" / "list.txt"
EXAMPLES = sorted((header.TOP / "examples").glob("*.vga"))


def difference(report: bytes, case: Case) -> Optional[str]:
    """The first step in which a report differs from a case's."""
    with open(case.expected, "rb") as stream:
        # What `BufferedReader` asks of a stream, bytes in memory have too.
        read = io.BufferedReader(io.BytesIO(report))  # type: ignore[arg-type]
        own = Report(read, "the report").steps()
        wanted = Expected(stream, str(case.expected)).steps()
        for found in Comparison().differences(own, wanted):
            return found.told()
    return None


def fonts_of(case: Case) -> bytes:
    """The font file of a case."""
    return case.fonts.read_bytes() if case.fonts else zaklimot.default_fonts()


def judged(case: Case) -> Optional[str]:
    """What is wrong with a case, or None. Texts go by a call for each step, bytes by whole runs."""
    by = harness.report_by_runs if case.is_bytes else harness.report_by_calls
    told = difference(by(case.script(), fonts_of(case), case.until), case)
    return told and f"{case.name}: {told}"


class Suite(unittest.TestCase):
    def test_each_case_agrees(self) -> None:
        cases = list(read_cases(str(SUITE)))
        self.assertGreater(len(cases), 900)
        with ProcessPoolExecutor(mp_context=get_context("fork")) as pool:
            wrong = [told for told in pool.map(judged, cases, chunksize=8) if told]
        self.assertEqual(wrong, [])

    def test_a_case_that_differs_is_told(self) -> None:
        texts = (
            case for case in read_cases(str(SUITE)) if not case.is_bytes and case.until is None
        )
        reports = ((case, harness.report_by_calls(case.script(), fonts_of(case))) for case in texts)
        case, report = next(
            (case, report) for case, report in reports if report.startswith(b"1 ok\n")
        )
        self.assertIsNone(difference(report, case))
        self.assertIsNotNone(difference(report.replace(b"1 ok", b"1 00", 1), case))

    def test_examples_answer_the_same_by_calls_runs_and_slices(self) -> None:
        fonts = zaklimot.default_fonts()
        for path in EXAMPLES:
            with self.subTest(path.name):
                text = path.read_bytes()
                whole = zaklimot.run(zaklimot.assemble(text)).raw
                self.assertTrue(harness.report_by_calls(text, fonts) == whole)
        self.assertGreater(len(EXAMPLES), 15)


if __name__ == "__main__":
    unittest.main()
