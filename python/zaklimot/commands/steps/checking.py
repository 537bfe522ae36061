"""The command `check`: an adapter is held to elements, and what differs is told by the rules that
the elements show."""

import argparse
import json
import sys
from collections import defaultdict
from dataclasses import dataclass
from typing import Iterator, NamedTuple, Optional
from xml.etree import ElementTree

from zaklimot.commands.core.files import name_of
from zaklimot.commands.core.progress import Progress
from zaklimot.commands.core.streams import counted, teller, write_file
from zaklimot.commands.core.trouble import AGREED, DIFFERED
from zaklimot.commands.report.cases import printable

from .asking import SKIPPED, AskedAdapter, asked_adapter
from .comparing import differences, members_in
from .parts import FINAL, NAME, REFUSED, Element
from .reading import read_elements
from .rules import RULES, branches_shown

# So many differences of the first element that differs are told, and so many rules.
MOST_TOLD = 8
MOST_RULES = 3
# So many elements that agree are counted with those of each branch: what one or two elements show
# says little.
FEW = 4
NO_STATE = "final: the answer has none of its parts"
BY_NAME = {rule.name: rule for rule in RULES}
NUMBERS = {rule.name: number for number, rule in enumerate(RULES)}


class BranchName(NamedTuple):
    """A branch of a rule, by the names of both; without a name it is the rule as a whole."""

    rule: str
    branch: str


@dataclass
class BranchCounts:
    """How many elements agree, and how many differ."""

    agree: int = 0
    differ: int = 0


class Branches(NamedTuple):
    """How many elements that show a rule, or a branch of it, agree, and how many differ in what the
    rule governs."""

    rule: str
    branch: str
    agree: int
    differ: int

    @property
    def weight(self) -> float:
        """How much speaks for this rule: the share of those that differ, less where they are
        few."""
        return self.differ / (self.agree + self.differ + FEW)

    def told(self) -> str:
        """The counts, the rule, and where it stands."""
        many = f"{self.differ} of {self.agree + self.differ}"
        name = f"{self.rule}: {self.branch}" if self.branch else self.rule
        return f"{many:>14}  {name} ({BY_NAME[self.rule].place})"


class FirstDiffering(NamedTuple):
    """The first element of a file that differs: its number, its name, and what differs in it."""

    element: int
    name: str
    differences: list[str]


class HeldFile:
    """What came of the elements of a file."""

    def __init__(self, name: str) -> None:
        self.name = name
        self.agree = self.differ = self.skipped = 0
        self.first: Optional[FirstDiffering] = None
        self.left_out: dict[str, int] = {}
        self.counts: defaultdict[BranchName, BranchCounts] = defaultdict(BranchCounts)

    def judge(self, element: Element, given: Element, number: int) -> None:
        """Counts an element by what an adapter answered."""
        if given.get(SKIPPED):
            self.skipped += 1
            return
        found = list(differences(element, given))
        if not element[FINAL].keys() & given.get(FINAL, {}).keys():
            found.append(NO_STATE)
        self.agree += not found
        self.differ += bool(found)
        if found and self.first is None:
            self.first = FirstDiffering(number, element[NAME], found)
        for part in element[FINAL]:
            if part not in given.get(FINAL, {}):
                self.left_out[part] = self.left_out.get(part, 0) + 1
        self._count(element, members_in(found))

    def _count(self, element: Element, members: set[str]) -> None:
        """Counts an element that differs in these members for the rules that it shows."""
        branches = [BranchName(rule.name, branch) for rule, branch in branches_shown(element)]
        shown = {*branches, *(BranchName(one.rule, "") for one in branches)}
        for one in sorted(shown, key=lambda one: (NUMBERS[one.rule], one.branch)):
            governs = BY_NAME[one.rule].governs
            is_wrong = bool(members & {*governs} if governs else members)
            self.counts[one].agree += not is_wrong
            self.counts[one].differ += is_wrong

    def skip(self) -> None:
        """Counts an element that isn't asked for."""
        self.skipped += 1

    def branches(self) -> list[Branches]:
        """The branches that its elements show, those first that differ most."""
        return ranked([self])

    def lines(self) -> Iterator[str]:
        """What is told of the file."""
        counts = {"agree": self.agree, "differ": self.differ, "skipped": self.skipped}
        told = ", ".join(f"{count} {name}" for name, count in counts.items() if count)
        yield f"{self.name}: {told or 'no element'}"
        for part, count in self.left_out.items():
            yield f"  {part} is left out of {counted(count, 'answer')}"
        if self.first is not None:
            yield f"  the first that differs is element {self.first.element}, {self.first.name}"
            yield from (f"    {one}" for one in self.first.differences[:MOST_TOLD])
            yield from (f"  {one.told()}" for one in worst([self]))

    def told(self) -> dict[str, object]:
        """The same for machines."""
        return {
            "file": self.name,
            "agree": self.agree,
            "differ": self.differ,
            "skipped": self.skipped,
            "left_out": self.left_out,
            "first": self.first and self.first._asdict(),
            "rules": [one._asdict() for one in self.branches()],
        }


def ranked(held: list[HeldFile]) -> list[Branches]:
    """The branches that the elements of files show, those first for which most speaks."""
    counts: defaultdict[BranchName, BranchCounts] = defaultdict(BranchCounts)
    for name, of_file in (one for file in held for one in file.counts.items()):
        counts[name].agree += of_file.agree
        counts[name].differ += of_file.differ
    found = [
        Branches(name.rule, name.branch, count.agree, count.differ)
        for name, count in counts.items()
    ]
    return sorted(found, key=lambda one: (-one.weight, -one.differ))


def worst(held: list[HeldFile]) -> list[Branches]:
    """The rules for which most speaks, each by its branch or as a whole."""
    rules: dict[str, Branches] = {}
    for one in ranked(held):
        if one.differ:
            rules.setdefault(one.rule, one)
    return list(rules.values())[:MOST_RULES]


def check(words: argparse.Namespace, progress: Progress) -> int:
    """Holds a command to the elements of files."""
    tell = teller(words.json, words.junit)
    held = []
    for path in words.file:
        with asked_adapter(words.command, words.timeout) as adapter:
            held.append(_held(path, adapter, words, progress))
        progress.clear()
        tell("".join(f"{line}\n" for line in held[-1].lines()))
        # An adapter may be slow, and standard output a pipe.
        sys.stdout.flush()
        if words.fail_fast and held[-1].differ:
            break
    if words.json is not None:
        write_file(words.json, (json.dumps([one.told() for one in held]) + "\n").encode("ascii"))
    if words.junit is not None:
        write_file(words.junit, _junit_text(held).encode("utf-8"))
    differ = sum(one.differ for one in held)
    agree = sum(one.agree for one in held)
    total = agree + differ + sum(one.skipped for one in held)
    if sum(bool(one.differ) for one in held) > 1:
        tell("of all files\n" + "".join(f"  {one.told()}\n" for one in worst(held)))
    skipped = f", {total - agree - differ} skipped" if total > agree + differ else ""
    left = "; the others were not run" if words.fail_fast and differ else ""
    tell(f"{counted(total, 'element')}: {agree} agree, {differ} differ{skipped}{left}\n")
    return DIFFERED if differ or not agree else AGREED


def _held(
    path: str, adapter: AskedAdapter, words: argparse.Namespace, progress: Progress
) -> HeldFile:
    """What an adapter makes of the elements of a file. With --fail-fast the first that differs is
    the last."""
    held = HeldFile(name_of(path))
    for number, element in enumerate(read_elements(path)):
        if REFUSED in element and not words.refusals:
            held.skip()
        else:
            held.judge(element, adapter.answer(element, number), number)
        if progress.is_due():
            progress.tell(f"{held.name}: {counted(number + 1, 'element')}, {held.differ} differ")
        if words.fail_fast and held.differ:
            break
    return held


def _junit_text(held: list[HeldFile]) -> str:
    """A test case for each rule of each file."""
    suites = ElementTree.Element("testsuites")
    for file in held:
        _add_suite(suites, file)
    ElementTree.indent(suites)
    text = ElementTree.tostring(suites, "unicode")
    return '<?xml version="1.0" encoding="UTF-8"?>\n' + text + "\n"


def _add_suite(suites: ElementTree.Element, file: HeldFile) -> None:
    branches = file.branches()
    names = list(dict.fromkeys(one.rule for one in branches))
    failing = {one.rule for one in branches if one.differ}
    counts = {"tests": str(len(names)), "failures": str(len(failing)), "errors": "0"}
    # XML doesn't take all characters that names and answers may have.
    called = {"name": printable(file.name, "\n"), **counts}
    suite = ElementTree.SubElement(suites, "testsuite", called)
    for name in names:
        _add_case(suite, file, name, [one for one in branches if one.rule == name and one.differ])


def _add_case(suite: ElementTree.Element, file: HeldFile, name: str, wrong: list[Branches]) -> None:
    called = printable(file.name, "\n")
    case = ElementTree.SubElement(suite, "testcase", classname=called, name=name)
    if wrong and file.first is not None:
        failure = ElementTree.SubElement(case, "failure", message=wrong[0].told().strip())
        lines = [one.told() for one in wrong]
        first = f"element {file.first.element}, {file.first.name}"
        told = [f"the first of the file that differs: {first}", *file.first.differences]
        failure.text = printable("\n".join([*lines, *told[: MOST_TOLD + 1]]), "\n")
