"""Whether all that ran was right, however the tests and cases ended."""

from __future__ import annotations

import argparse
import contextlib
import io
import unittest

from zaklimot.commands.core.progress import Progress
from zaklimot_dev.testing import checking
from zaklimot_dev.testing.running import Counts

from .tools import hold, patched


class Counted(unittest.TestCase):
    def test_whether_all_is_right(self) -> None:
        def status(suite: Counts, tests: Counts) -> int:
            given = {
                "portable_program": lambda: "vga",
                "check_suite": lambda _: suite,
                "run_tests": lambda *_: tests,
            }
            words = argparse.Namespace(modules=[])
            with patched(checking, given), contextlib.redirect_stdout(io.StringIO()):
                return checking.check(words, Progress(False))

        hold(
            self,
            status,
            (
                (Counts(2, 0, 1), Counts(3, 0, 1), 0),
                (Counts(2, 1), Counts(3), 1),
                (Counts(2), Counts(3, 1), 1),
                # Where all are skipped, nothing was tested.
                (Counts(0, 0, 2), Counts(0, 0, 3), 1),
            ),
        )
