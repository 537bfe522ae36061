"""What comes of the suite's cases, and the table of it, which is written as they come: as text, or
as JSON."""

import argparse
import sys
from contextlib import contextmanager
from dataclasses import dataclass, field
from typing import BinaryIO, Iterator, NamedTuple, Optional

from zaklimot.commands.core.files import STANDARD
from zaklimot.commands.core.streams import JsonList, counted, write, writing

from .cases import Case
from .report import Comparison

AGREES = "agrees"
SKIPPED = "skipped"
DIFFERS = "differs"
FAILED = "failed"
# The answers from the best to the worst, as they are counted. A rule has the worst answer of its
# cases.
COUNTED = {AGREES: "agree", SKIPPED: "skipped", DIFFERS: "differ", FAILED: "failed"}
ANSWERS = tuple(COUNTED)


class Rule(NamedTuple):
    """A rule that cases of a folder show."""

    folder: str
    text: str
    cases: list[Case]


def rules_of(cases: list[Case]) -> list[Rule]:
    """The rules that cases show, folder by folder, both in the order of the list."""
    folders: dict[str, dict[str, list[Case]]] = {}
    for case in cases:
        rules = folders.setdefault(case.name.rpartition("/")[0], {})
        rules.setdefault(case.rule(), []).append(case)
    return [
        Rule(folder, text, some)
        for folder, rules in folders.items()
        for text, some in rules.items()
    ]


class FirstDifference(NamedTuple):
    """The step that differs first, by its number, 0 where a fault stands in the place of steps; and
    both answers. The names are those of the JSON."""

    step: int
    answered: str
    expected: str


@dataclass
class Result:
    """What came of a case: its answer, why it doesn't agree, the step that differs first, and what
    was compared."""

    case: Case
    answer: str = AGREES
    reason: str = ""
    first: Optional[FirstDifference] = None
    comparison: Comparison = field(default_factory=Comparison)

    @property
    def is_wrong(self) -> bool:
        """Whether the case differs, or has failed."""
        return self.answer in (DIFFERS, FAILED)

    def described(self, rule: str) -> dict[str, object]:
        """The result as JSON has it, with the text of its rule."""
        counts = {
            name: getattr(self.comparison, name)
            for name in ("steps", "skipped", "answers", "differing")
        }
        described: dict[str, object] = {
            "name": self.case.name,
            "rule": rule,
            "answer": self.answer,
            **counts,
            **(self.first._asdict() if self.first is not None else {}),
        }
        return {**described, "reason": self.reason} if self.answer != AGREES else described


def _worst(results: list[Result]) -> str:
    return max((result.answer for result in results), key=ANSWERS.index)


def counts_of(results: list[Result]) -> dict[str, int]:
    """How many results have each answer."""
    return {answer: sum(result.answer == answer for result in results) for answer in ANSWERS}


class Table:
    """The results of a suite by their rules. Each rule is added once its cases have run."""

    def __init__(self, rules: list[Rule]) -> None:
        self._results: list[Result] = []
        self._count = sum(len(rule.cases) for rule in rules)

    def add(self, rule: Rule, results: list[Result]) -> None:
        """Adds a rule with what came of its cases, or of the first of them."""
        self._results += results

    def end(self) -> None:
        """Ends the table with the counts of all cases."""

    def counts(self) -> dict[str, int]:
        """How many cases have each answer."""
        return counts_of(self._results)

    @property
    def not_run(self) -> int:
        """How many cases were not run."""
        return self._count - len(self._results)


class _TextTable(Table):
    """The table as text."""

    def __init__(self, rules: list[Rule]) -> None:
        super().__init__(rules)
        self._in_folder: dict[str, int] = {}
        for rule in rules:
            self._in_folder[rule.folder] = self._in_folder.get(rule.folder, 0) + len(rule.cases)
        self._folder: Optional[str] = None
        self._begun = 0

    def add(self, rule: Rule, results: list[Result]) -> None:
        if rule.folder != self._folder:
            self._end_folder()
            self._folder = rule.folder
            self._begun = len(self._results)
            write(f"{rule.folder or '.'}\n")
        super().add(rule, results)
        write(f"  {_worst(results):8} {rule.text}\n")
        for result in results:
            if result.answer != AGREES:
                reason = result.reason.replace("\n", "\n           ")
                write(f"           {result.case.name}: {reason}\n")
        # A harness may be slow, and standard output a pipe.
        sys.stdout.flush()

    def _end_folder(self) -> None:
        # Of a single folder the last line says the same.
        if self._folder is not None and len(self._in_folder) > 1:
            results = self._results[self._begun :]
            write(f"  {_counts_text(results, self._in_folder[self._folder])}\n")

    def end(self) -> None:
        self._end_folder()
        write(f"{_counts_text(self._results, self._count)}\n")


def _counts_text(results: list[Result], count: int) -> str:
    parts = [f"{many} {COUNTED[answer]}" for answer, many in counts_of(results).items() if many]
    cases = counted(count, "case")
    return f"{cases if len(results) == count else f'{len(results)} of {cases}'}: " + ", ".join(
        parts
    )


class _JsonTable(Table):
    """The table as JSON, with a line for each case."""

    def __init__(self, rules: list[Rule], stream: BinaryIO, command: str) -> None:
        super().__init__(rules)
        self._stream = stream
        self._rules = JsonList(stream, "rules", {"command": command})

    def add(self, rule: Rule, results: list[Result]) -> None:
        super().add(rule, results)
        self._rules.entries.begin_entry()
        answer = _worst(results)
        head = {"rule": rule.text, "folder": rule.folder, "answer": answer}
        cases = JsonList(self._stream, "cases", head)
        for result in results:
            cases.entries.add(result.described(rule.text))
        cases.end({})
        self._stream.flush()

    def end(self) -> None:
        self._rules.end({"cases": self.counts(), "not_run": self.not_run})
        self._stream.write(b"\n")


@contextmanager
def opened_table(rules: list[Rule], words: argparse.Namespace) -> Iterator[Table]:
    """The table on standard output, which ends with its counts."""
    if words.json:
        with writing(STANDARD) as stream:
            table: Table = _JsonTable(rules, stream, words.command)
            yield table
            table.end()
    else:
        table = _TextTable(rules)
        yield table
        table.end()
