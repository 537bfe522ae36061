"""Finds text that a trace shows at any time: when, and where on the screen."""

import argparse
from collections import Counter
from typing import Iterable, Iterator, NamedTuple, Sequence

from zaklimot.commands.core.files import name_of
from zaklimot.commands.core.progress import Progress
from zaklimot.commands.core.streams import counted
from zaklimot.commands.core.trouble import AGREED, DIFFERED

from .cells import TextScreen, code_page
from .following import Follower
from .moments import Steps
from .step import FRAME, WRITES
from .trace import opened


class Found(NamedTuple):
    """A text on the screen: when, its row and its column, from 0, and the whole row."""

    told: str
    row: int
    column: int
    text: str


def found_in(rows: Iterable[str], wanted: str, folds_case: bool) -> Iterator[tuple[int, int]]:
    """The rows and columns at which a text stands."""
    # A letter and its small one are one character here, so columns stay.
    wanted = "".join(map(_small, wanted)) if folds_case else wanted
    for number, row in enumerate(rows):
        row = "".join(map(_small, row)) if folds_case else row
        at = row.find(wanted)
        while at >= 0:
            yield number, at
            at = row.find(wanted, at + 1)


def _small(letter: str) -> str:
    small = letter.lower()
    return small if len(small) == 1 else letter


class Finder:
    """Looks for a text on one screen after the other. A row that was there before isn't told again,
    wherever it has moved, nor one that goes on behind the text."""

    def __init__(self, wanted: str, folds_case: bool) -> None:
        self._wanted = wanted
        self._folds_case = folds_case
        self._before: Counter[str] = Counter()

    def take(self, rows: Sequence[str], told: str) -> Iterator[Found]:
        """What is on a screen and was not on the one before."""
        places = [
            (row, column, rows[row][: column + len(self._wanted)])
            for row, column in found_in(rows, self._wanted, self._folds_case)
        ]
        fronts = Counter(front for *_, front in places)
        new = fronts - self._before
        self._before = fronts
        # Of rows that are alike the lower ones are new.
        for row, column, front in reversed(places):
            if new[front]:
                new[front] -= 1
                yield Found(told, row, column, rows[row].strip())


def find_text(words: argparse.Namespace, progress: Progress) -> int:
    """Tells when and where a trace shows a text; whether it does."""
    count = 0
    for count, found in enumerate(_all_found(words, progress), 1):
        progress.clear()
        if count == 1:
            print(" seconds  row  column  text")
        if words.most is None or count <= words.most:
            print(_line(found), flush=True)
    progress.clear()
    if words.most is not None and count > words.most:
        print(f"{count - words.most:,} more")
    if not count:
        print(f"{name_of(words.trace)}: no screen of text shows it")
    return AGREED if count else DIFFERED


def _all_found(words: argparse.Namespace, progress: Progress) -> Iterator[Found]:
    """Each place of the text that words name, screen by screen, and from the top to the bottom."""
    letters = code_page(words.code_page)
    finder = Finder(words.find, words.any_case)
    with opened(words.trace) as trace:
        for rows, told in _screens(Steps(trace), words, letters, progress):
            yield from sorted(finder.take(rows, told), key=lambda one: (one.row, one.column))


def _screens(
    steps: Steps, words: argparse.Namespace, letters: str, progress: Progress
) -> Iterator[tuple[Sequence[str], str]]:
    """The rows of text where frames end in which something was written, and when that is."""
    follower = Follower(words.fonts)
    screen = TextScreen(follower, name_of(words.trace))
    is_changed = False
    for step in steps.with_frames():
        if step.opcode != FRAME:
            follower.take(step)
            is_changed |= step.opcode in WRITES
        elif is_changed:
            is_changed = False
            if screen.is_text:
                yield screen.text(letters), steps.passed.told
        if progress.is_due():
            progress.tell(counted(steps.passed.cycles, "cycle", ","))


def _line(found: Found) -> str:
    return f"{found.told:>8}  {found.row:3}  {found.column:6}  {found.text}"
