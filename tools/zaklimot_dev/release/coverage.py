"""How often the elements of files show each branch of each rule."""

from collections import Counter
from concurrent.futures import ProcessPoolExecutor
from pathlib import Path
from typing import Iterator, NamedTuple, Sequence

from zaklimot.commands.steps.reading import read_elements
from zaklimot.commands.steps.rules import RULES, branches_shown

# So many of as many elements of one file are to show a branch.
FEWEST = 50
SHARE = 10_000


class CountedFile(NamedTuple):
    """How many elements a file has, and how many of them show each branch of each rule, by the
    names of both."""

    file: str
    elements: int
    branches: Counter[tuple[str, str]]

    def share(self, rule: str, branch: str) -> float:
        """How many of 10,000 of its elements show a branch."""
        return self.branches[rule, branch] * SHARE / max(1, self.elements)


def counted_file(path: Path) -> CountedFile:
    """The counts of a file."""
    elements = 0
    branches: Counter[tuple[str, str]] = Counter()
    for element in read_elements(str(path)):
        elements += 1
        branches.update((rule.name, branch) for rule, branch in branches_shown(element))
    return CountedFile(path.name, elements, branches)


def _counted_files(paths: Sequence[Path], jobs: int) -> list[CountedFile]:
    """The counts of files. Several jobs need semaphores, which a bare machine may lack."""
    if jobs == 1:
        return list(map(counted_file, paths))
    with ProcessPoolExecutor(jobs) as pool:
        return list(pool.map(counted_file, paths))


def seldom_shown(paths: Sequence[Path], jobs: int, fewest: int = FEWEST) -> Iterator[str]:
    """What is told of each branch that no file shows often enough."""
    counts = _counted_files(paths, jobs)
    for rule in RULES:
        for branch in rule.branches:
            best = max(counts, key=lambda one: one.share(rule.name, branch))
            share = best.share(rule.name, branch)
            if share < fewest:
                yield f"{rule.name}: {branch}: {share:.0f} of {SHARE:,} in {best.file}"
