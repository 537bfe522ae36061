"""Some tests in a process of their own: how each ends, within limits of time and memory. What it
leaves running is ended."""

from __future__ import annotations

import os
import signal
import sys
import tempfile
import unittest
from collections import deque
from functools import partial
from typing import Callable, NamedTuple, Optional, Sequence

from zaklimot.commands.core.processes import IS_LINUX, adopt_orphans, end_children
from zaklimot.commands.core.signals import ending_signals

# So many seconds may a test take, or what sets its class up, and so much memory each process of it.
# A class of tests that needs more has `most_seconds` or `most_memory`.
MOST_SECONDS = 300
MOST_MEMORY = 1 << 31
# How a test ends.
PASSED = "passed"
FAILED = "failed"
SKIPPED = "skipped"


class Conclusion(NamedTuple):
    """How a test ended: its name, why it failed or was skipped, and how many seconds it has taken a
    processor, with what set it up."""

    test: str
    how: str
    told: str = ""
    seconds: float = 0


class TookTooLong(Exception):
    """A test that hasn't ended in its time."""


def _end_test(seconds: float, *_: object) -> None:
    raise TookTooLong(f"the test takes more than {seconds:g} seconds")


def _limit_time(seconds: float) -> None:
    """Ends what runs now after so many seconds; never after 0."""
    if hasattr(signal, "setitimer"):
        signal.signal(signal.SIGALRM, partial(_end_test, seconds))
        signal.setitimer(signal.ITIMER_REAL, seconds)


def _limit_memory(most: int) -> None:
    """Limits the memory of this process, and of those that it starts."""
    if IS_LINUX:
        import resource

        # The limit of the system stays: a test that needs more may raise this one.
        _, hard = resource.getrlimit(resource.RLIMIT_DATA)
        soft = most if hard == resource.RLIM_INFINITY else min(most, hard)
        resource.setrlimit(resource.RLIMIT_DATA, (soft, hard))


def _limit(test: unittest.TestCase) -> None:
    """Limits a test, or what sets it up."""
    _limit_memory(getattr(test, "most_memory", MOST_MEMORY))
    _limit_time(getattr(test, "most_seconds", MOST_SECONDS))


def _processor_seconds() -> float:
    """How long this process and those that it has started and that have ended took a processor."""
    taken = os.times()
    return taken.user + taken.system + taken.children_user + taken.children_system


class _Result(unittest.TestResult):
    """Tells how each test ended as soon as it has."""

    def __init__(
        self, tests: Sequence[unittest.TestCase], tell: Callable[[Conclusion], object]
    ) -> None:
        super().__init__()
        self._left = deque(tests)
        self._tell = tell
        self._taken = _processor_seconds()

    def startTest(self, test: unittest.TestCase) -> None:
        """Tells of the tests before this one that could not be set up, and limits this one."""
        super().startTest(test)
        self._tell_until(test)
        _limit(test)

    def stopTest(self, test: unittest.TestCase) -> None:
        """Tells how a test ended. What it has left running is ended."""
        super().stopTest(test)
        _limit_time(0)
        end_children()
        self._tell_of(self._left.popleft().id())
        self._forget()
        # The next class is set up within limits, too.
        if self._left:
            _limit(self._left[0])

    def finish(self) -> None:
        """Tells what nobody was told yet: why tests were not set up, or what came of cleaning."""
        _limit_time(0)
        self._tell_until(None)

    def _tell_until(self, test: Optional[unittest.TestCase]) -> None:
        """Tells of what stands before a test and did not run; or of the cleaning before it."""
        if self._left and self._left[0] is not test:
            while self._left and self._left[0] is not test:
                self._tell_of(self._left.popleft().id())
        elif self.errors:
            self._tell_of("what cleans up")
        self._forget()

    def _tell_of(self, name: str) -> None:
        bad = [text for _, text in (*self.errors, *self.failures)]
        before, self._taken = self._taken, _processor_seconds()
        seconds = self._taken - before
        if bad:
            self._tell(Conclusion(name, FAILED, "\n".join(bad), seconds))
        elif self.skipped:
            self._tell(Conclusion(name, SKIPPED, self.skipped[0][1], seconds))
        else:
            self._tell(Conclusion(name, PASSED, "", seconds))

    def _forget(self) -> None:
        for told in (self.errors, self.failures, self.skipped):
            told.clear()


def run_limited(
    tests: Sequence[unittest.TestCase], output: int, tell: Callable[[Conclusion], object]
) -> None:
    """Runs tests, in a process that was forked for them. What they print goes to this file, and
    they read nothing."""
    sys.stdout.flush()
    for stream, file in ((0, os.open(os.devnull, os.O_RDONLY)), (1, output), (2, output)):
        os.dup2(file, stream)
    for number in ending_signals():
        signal.signal(number, signal.SIG_DFL)
    signal.signal(signal.SIGINT, signal.default_int_handler)
    # The folder is that of the tests, whatever the process before had asked for.
    tempfile.tempdir = None
    adopt_orphans()
    result = _Result(tests, tell)
    _limit(tests[0])
    unittest.TestSuite(tests).run(result)
    result.finish()
