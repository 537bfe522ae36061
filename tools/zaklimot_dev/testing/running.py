"""Runs the tests of the tools by the standard library: all or some, some at a time, each class in a
process of its own."""

from __future__ import annotations

import argparse
import multiprocessing
import os
import tempfile
import time
import unittest
from collections import Counter, deque
from contextlib import suppress
from multiprocessing.connection import Connection, wait
from pathlib import Path
from typing import Iterable, Iterator, NamedTuple, Sequence

from zaklimot.commands import TOP
from zaklimot.commands.core.processes import adopt_orphans, end_children
from zaklimot.commands.core.progress import Progress
from zaklimot.commands.core.trouble import AGREED, DIFFERED, Trouble
from zaklimot.commands.script.portable import cache_home, portable_library, portable_program
from zaklimot.commands.script.program import PROGRAM

from .limiting import FAILED, PASSED, SKIPPED, Conclusion, run_limited

TOOLS = TOP / "tools"
HERE = TOOLS / "tests"
# The program that is tested, as it is named to the processes of tests; and the variable that the
# gate sets once the program is built: a test that finds none fails then.
TESTED = "ZAKLIMOT_TESTED_PROGRAM"
BUILT = "ZAKLIMOT_PROGRAM_IS_BUILT"
# So many processes run at a time at most, and so many seconds may all tests take.
MOST_WORKERS = 4
MOST_SECONDS = 7200
# Seconds between two looks whether a process has ended that no longer tells anything.
PAUSE = 0.2
# So many tests that took longest are told, if they took a processor as many seconds.
MOST_LONGEST = 5
LEAST_LONGEST = 3
# So much is shown of what tests print that have failed.
MOST_SHOWN = 1 << 14
FORKING = multiprocessing.get_context("fork")

# Tests that run one after the other in one process.
Batch = list[unittest.TestCase]


class Counts(NamedTuple):
    """How many tests, or cases of the suite, have passed, failed and were skipped."""

    passed: int = 0
    failed: int = 0
    skipped: int = 0

    def beside(self, other: Counts) -> Counts:
        """These and others together."""
        return Counts(*(one + more for one, more in zip(self, other)))

    def __str__(self) -> str:
        return f"{self.passed} passed, {self.failed} failed" + (
            f", {self.skipped} skipped" if self.skipped else ""
        )


def _is_long(test: unittest.TestCase) -> bool:
    """Whether a test is marked as one that takes long, and so is begun first."""
    method = getattr(type(test), getattr(test, "_testMethodName", ""), None)
    return bool(getattr(test, "is_long", False) or getattr(method, "is_long", False))


def _flat(suite: Iterable[object]) -> Iterator[unittest.TestCase]:
    for one in suite:
        if isinstance(one, unittest.TestCase):
            yield one
        elif isinstance(one, unittest.TestSuite):
            yield from _flat(one)


def _named(loader: unittest.TestLoader, name: str) -> unittest.TestSuite:
    """The tests of a name. A module that is skipped as a whole is one test."""
    try:
        return loader.loadTestsFromName(name)
    except unittest.SkipTest as skipped:
        methods = {name: unittest.skip(str(skipped))(lambda test: None)}
        return unittest.TestSuite([type("ModuleSkipped", (unittest.TestCase,), methods)(name)])


def _found(names: Sequence[str]) -> Batch:
    """The tests of modules, classes and methods of these names, or all."""
    loader = unittest.TestLoader()
    if names:
        return list(_flat(_named(loader, name) for name in names))
    return list(_flat(loader.discover(str(HERE), top_level_dir=str(TOOLS))))


def _setting_up(test: unittest.TestCase) -> object:
    """What sets up the class of a test; nothing where that is what all classes have."""
    own, usual = type(test).setUpClass, unittest.TestCase.setUpClass
    made: object = getattr(own, "__func__", own)
    return None if made is getattr(usual, "__func__") else made


def _batches(tests: Iterable[unittest.TestCase]) -> list[Batch]:
    """The tests of a class run together, and with them those of other classes of its module that
    are set up alike. Long ones that share nothing run alone, and first."""
    made: dict[tuple[object, ...], Batch] = {}
    for test in tests:
        shared = _setting_up(test)
        alone = test.id() if shared is None and _is_long(test) else ""
        key = (type(test).__module__, shared or type(test), alone)
        made.setdefault(key, []).append(test)
    return sorted(made.values(), key=lambda batch: not _is_long(batch[0]))


class _Worker:
    """A process that runs some tests, and tells how each of them ended."""

    def __init__(self, batch: Batch, folder: Path) -> None:
        self._left = deque(batch)
        self._output = tempfile.TemporaryFile(dir=folder)
        self.receiver: Connection
        self.receiver, sender = FORKING.Pipe(duplex=False)
        words = (batch, self._output.fileno(), sender.send)
        self._process = FORKING.Process(target=run_limited, args=words)
        self._process.start()
        sender.close()

    def told(self) -> Iterator[Conclusion]:
        """What it has told since it was asked last."""
        try:
            while self.receiver.poll():
                one: Conclusion = self.receiver.recv()
                if self._left and self._left[0].id() == one.test:
                    self._left.popleft()
                yield one if one.how != FAILED else one._replace(told=one.told + self._shown())
        except EOFError:
            self._process.join()

    def has_ended(self) -> bool:
        return not self._process.is_alive()

    def left(self) -> Batch:
        """The tests that it has not told of."""
        return list(self._left)

    def crash(self) -> Conclusion:
        """What is told of the test that ended the process."""
        told = f"its process ended with status {self._process.exitcode}\n{self._shown()}"
        return Conclusion(self._left.popleft().id(), FAILED, told)

    def _shown(self) -> str:
        """The end of what the tests have printed."""
        file = self._output
        size = os.fstat(file.fileno()).st_size
        text = os.pread(file.fileno(), MOST_SHOWN, max(0, size - MOST_SHOWN))
        return text.decode("utf-8", "replace")

    def close(self) -> None:
        self.receiver.close()
        self._output.close()


def _run_all(batches: Iterable[Batch], jobs: int, folder: Path) -> Iterator[Conclusion]:
    """How the tests ended, as they do. Where a process ends amid its tests, another one takes those
    that are left."""
    waiting = deque(batches)
    workers: list[_Worker] = []
    until = time.monotonic() + MOST_SECONDS
    while waiting or workers:
        while waiting and len(workers) < jobs:
            workers.append(_Worker(waiting.popleft(), folder))
        wait([worker.receiver for worker in workers], PAUSE)
        for worker in list(workers):
            has_ended = worker.has_ended()
            yield from worker.told()
            if has_ended:
                workers.remove(worker)
                if worker.left():
                    yield worker.crash()
                if worker.left():
                    waiting.append(worker.left())
                worker.close()
        if time.monotonic() > until:
            raise Trouble(f"the tests take more than {MOST_SECONDS} seconds")


def _given(folder: Path, program: str, is_built: bool) -> dict[str, str]:
    """The variables of the tests' processes."""
    (folder / "temporary").mkdir()
    return {
        # The tools that tests start are compiled once, and not at each start.
        "PYTHONDONTWRITEBYTECODE": "",
        "PYTHONPYCACHEPREFIX": str(folder / "compiled"),
        "HYPOTHESIS_STORAGE_DIRECTORY": str(folder / "hypothesis"),
        # What an ended test leaves goes with the folder.
        "TMPDIR": str(folder / "temporary"),
        # What was compiled once is found wherever temporary files lie.
        "XDG_CACHE_HOME": str(cache_home()),
        TESTED: program,
        BUILT: "1" if is_built else "",
    }


def _class_of(name: str) -> str:
    """The class of a test, by the test's name; or the module, of one that is skipped as a whole."""
    whole = name.rpartition("ModuleSkipped.")[2]
    return name.rpartition(".")[0] if whole == name else whole


def _tell(conclusions: Iterable[Conclusion], total: int, progress: Progress) -> Counts:
    """Tells what failed as it comes, at the end what took longest and what was skipped; the
    counts."""
    counts: Counter[str] = Counter()
    skipped: Counter[tuple[str, str]] = Counter()
    longest: list[tuple[float, str]] = []
    for one in conclusions:
        counts[one.how] += 1
        if one.seconds >= LEAST_LONGEST:
            longest.append((one.seconds, one.test))
        if one.how == FAILED:
            progress.clear()
            print(f"failed  {one.test}\n{one.told.rstrip()}\n", flush=True)
        elif one.how == SKIPPED:
            skipped[_class_of(one.test), one.told] += 1
        if progress.is_due():
            failed = f", {counts[FAILED]} failed" if counts[FAILED] else ""
            progress.tell(f"{sum(counts.values())} of {total} tests{failed}: {one.test}")
    progress.clear()
    for seconds, name in sorted(longest, reverse=True)[:MOST_LONGEST]:
        print(f"longest  {name}: {seconds:.1f} seconds of a processor")
    for (name, reason), count in sorted(skipped.items()):
        print(
            f"skipped  {name}, {count} tests: {reason}"
            if count > 1
            else f"skipped  {name}: {reason}"
        )
    return Counts(counts[PASSED], counts[FAILED], counts[SKIPPED])


def run_tests(
    names: Sequence[str],
    program: str,
    progress: Progress,
    is_built: bool = False,
) -> Counts:
    """Runs the tests of these names, or all, over a program, and tells which failed and which were
    skipped. All that they have started has ended afterwards."""
    # The tests want the library too, and what they run must not tell that it is being compiled.
    with suppress(Trouble):
        portable_library()
    adopt_orphans()
    with tempfile.TemporaryDirectory(prefix="vga-tests-") as name:
        folder = Path(name)
        os.environ.update(_given(folder, program, is_built))
        tests = _found(names)
        if not tests:
            raise Trouble("there is no test", " ".join(names) or str(HERE))
        # One module takes one processor: the gate runs other work beside it.
        jobs = min(MOST_WORKERS, os.cpu_count() or 1, len(names) or MOST_WORKERS)
        try:
            counts = _tell(_run_all(_batches(tests), jobs, folder), len(tests), progress)
        finally:
            end_children()
    return counts


def _tested(parsed: argparse.Namespace) -> str:
    """The program that is tested: the proved one, or else the portable one. Where there is none,
    tests are skipped."""
    if parsed.built or os.access(PROGRAM, os.X_OK):
        return str(PROGRAM)
    try:
        return os.environ.get(TESTED) or portable_program()
    except Trouble as trouble:
        print(f"tests that want the program are skipped: {trouble}")
        return str(PROGRAM)


def run(parsed: argparse.Namespace, progress: Progress) -> int:
    """Runs tests; whether each has passed."""
    counts = run_tests(parsed.modules, _tested(parsed), progress, parsed.built)
    print(counts)
    return DIFFERED if counts.failed else AGREED
