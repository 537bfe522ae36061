"""The suite's results on emulators as tables of a page, between two marks; what people wrote stays
around them."""

from __future__ import annotations

import argparse
import json
import re
from typing import Iterator, NamedTuple, Optional, Sequence

from zaklimot.format import MOST_BYTES
from zaklimot.commands.core.files import STANDARD, name_of
from zaklimot.commands.core.streams import read_at_most, write_over
from zaklimot.commands.core.trouble import Trouble
from zaklimot.commands.floppy.running import MACHINES
from zaklimot.commands.report.results import AGREES, DIFFERS, FAILED, SKIPPED


FIRST_MARK = (
    "<!-- What stands from here to the next mark is made by `tools/vga-emulators table`. -->"
)
LAST_MARK = "<!-- The end of what `tools/vga-emulators table` makes. -->"
ON = re.compile(r"--on[ =](\w+)")
BIOS = re.compile(r"--bios[ =](\w+)")
# Longer answers are cut.
MOST_ANSWER = 24
# What a rule's cell says where no case of it differs.
SAME = "same"
NOTHING = "not compared"
WORD_FAILED = "fails"


class CaseResult(NamedTuple):
    """What came of a case on an emulator: how many of its answers were compared and how many
    differ, and both answers of the first step that differs."""

    name: str
    rule: str
    folder: str
    answer: str
    answers: int
    differing: int
    answered: str
    expected: str


class Results(NamedTuple):
    """What `zaklimot suite --json` printed of `zaklimot floppy run` on an emulator."""

    name: str
    version: str
    cases: Sequence[CaseResult]

    def of(self, folder: str, rule: Optional[str] = None) -> list[CaseResult]:
        """The cases of a folder, or those of a rule in it."""
        return [case for case in self.cases if case.folder == folder and rule in (None, case.rule)]


def _read(path: str) -> Results:
    name = name_of(path)
    data = read_at_most(path, MOST_BYTES)
    try:
        found = json.loads(data)
        command = found["command"]
        on, bios = ON.search(command), BIOS.search(command)
        cases = [
            CaseResult(
                name=str(case["name"]),
                rule=str(rule["rule"]),
                folder=str(rule["folder"]),
                answer=str(case["answer"]),
                answers=int(case["answers"]),
                differing=int(case["differing"]),
                answered=str(case.get("answered", "")),
                expected=str(case.get("expected", "")),
            )
            for rule in found["rules"]
            for case in rule["cases"]
        ]
    except (ValueError, KeyError, TypeError, AttributeError) as error:
        raise Trouble("it isn't what `zaklimot suite --json` prints", name) from error
    if on is None or on[1] not in MACHINES:
        raise Trouble("its command is no `zaklimot floppy run --on` of an emulator", name)
    return Results(on[1], MACHINES[on[1]].full_version(bios[1] if bios else None), cases)


def write_results(words: argparse.Namespace, _: object) -> None:
    """Writes the suite's results, as the command line names them, into a page."""
    write_tables(words.page, words.results)


def write_tables(page: str, paths: Sequence[str]) -> None:
    """Writes the tables of results into a page."""
    if page == STANDARD:
        raise Trouble("a page is read and written again, so it is a file", "standard input")
    data = read_at_most(page, MOST_BYTES)
    text = data.decode("utf-8", "surrogateescape")
    before, first, rest = text.partition(FIRST_MARK)
    _, last, after = rest.partition(LAST_MARK)
    if not first or not last:
        raise Trouble(f"it lacks the marks: {FIRST_MARK} and {LAST_MARK}", page)
    results = [_read(path) for path in paths]
    compared = "Compared were " + ", ".join(result.version for result in results) + "."
    tables = ("\n".join(lines) for lines in (_counts(results), _folders(results), _rules(results)))
    made = "\n\n".join([compared, *tables])
    whole = f"{before}{first}\n\n{made}\n\n{last}{after}"
    write_over(page, whole.encode("utf-8", "surrogateescape"), data)


def _row(*cells: str) -> str:
    return "| " + " | ".join(cell.replace("|", "\\|") for cell in cells) + " |"


def _heading(results: Sequence[Results], *cells: str) -> Iterator[str]:
    names = [*cells, *(result.name for result in results)]
    yield _row(*names)
    yield "|" + "---|" * len(names)


def _counts(results: Sequence[Results]) -> Iterator[str]:
    told = {
        AGREES: "cases that agree",
        SKIPPED: "cases of which a part or all was skipped, and the rest agrees",
        DIFFERS: "cases that differ",
        FAILED: "cases whose run failed",
    }
    yield from _heading(results, "")
    for answer, text in told.items():
        counts = (sum(case.answer == answer for case in result.cases) for result in results)
        yield _row(text, *(f"{count:,}" for count in counts))
    compared = [sum(case.answers for case in result.cases) for result in results]
    differing = [sum(case.differing for case in result.cases) for result in results]
    yield _row("bytes, words and registers compared", *(f"{count:,}" for count in compared))
    yield _row(
        "of these as expected", *(f"{count - wrong:,}" for count, wrong in zip(compared, differing))
    )


def _folders(results: Sequence[Results]) -> Iterator[str]:
    yield from _heading(results, "Folder: cases that agree, are skipped, differ")
    for folder in dict.fromkeys(case.folder for result in results for case in result.cases):
        yield _row(f"`{folder}/`", *(_folder_cell(result.of(folder)) for result in results))


def _folder_cell(cases: Sequence[CaseResult]) -> str:
    kinds = ((AGREES,), (SKIPPED,), (DIFFERS, FAILED))
    return ", ".join(str(sum(case.answer in kind for case in cases)) for kind in kinds)


def _rules(results: Sequence[Results]) -> Iterator[str]:
    """The rules that one of the emulators doesn't follow, each with what it answers first."""
    yield from _heading(results, "Rule of the suite", "Case")
    for text, folder in dict.fromkeys(
        (case.rule, case.folder) for result in results for case in result.cases
    ):
        found = [result.of(folder, text) for result in results]
        wrong = [case for cases in found for case in cases if case.answer in (DIFFERS, FAILED)]
        if wrong:
            yield _row(text, f"`{wrong[0].name}`", *map(_rule_cell, found))


def _rule_cell(cases: Sequence[CaseResult]) -> str:
    """What an emulator makes of a rule: the first difference of its cases, if there is one."""
    for case in cases:
        if case.answer == DIFFERS:
            return _difference(case.answered, case.expected)
        if case.answer == FAILED:
            return WORD_FAILED
    return SAME if any(case.answers for case in cases) else NOTHING


def _difference(answered: str, expected: str) -> str:
    words = answered.split()
    others = expected.split()
    if len(words) == len(others) > 1:
        answered, expected = next(
            ((one, other) for one, other in zip(words, others) if one != other), ("", "")
        )
    cut = (
        text if len(text) <= MOST_ANSWER else text[:MOST_ANSWER] + ".."
        for text in (answered, expected)
    )
    return ", not ".join(cut)
