"""The command `suite`: each case is run, judged, and told by its rule; or its script is written."""

import argparse
import io
import re
import tempfile
from contextlib import closing, suppress
from itertools import islice
from pathlib import Path
from threading import Event
from typing import Generator, Iterator, Optional, Sequence

from zaklimot.format import FAULT, MOST_BYTES, Answer, Picture
from zaklimot.commands.core.files import name_of
from zaklimot.commands.core.processes import Limits, command_words, in_parallel, run_command
from zaklimot.commands.core.progress import Progress
from zaklimot.commands.core.streams import (
    bytes_of,
    counted,
    empty_folder,
    write_file,
    write_name,
)
from zaklimot.commands.core.trouble import AGREED, DIFFERED, TROUBLE, Trouble
from zaklimot.commands.core.words import MEBIBYTE
from zaklimot.commands.images.png import save_png

from .cases import Case, printable, read_cases
from .places import LIST
from .report import Comparison, Report
from .results import (
    AGREES,
    DIFFERS,
    FAILED,
    SKIPPED,
    FirstDifference,
    Result,
    Rule,
    Table,
    opened_table,
    rules_of,
)


# What messages call the report of a case.
REPORT_NAME = "its report"
PLACE = re.compile(r"\{(script|fonts|name)\}")
UNTIL = "{until}"
NO_ANSWERS = "all that it asks is a picture, a dump, a refusal or a fault of the script"
# So many of the first lines that a command says are shown, and of the last.
SHOWN_LINES = 10


class Command:
    """A command with places for a case's files."""

    def __init__(self, text: str) -> None:
        self._words = command_words(text)
        if not any("{script}" in word or "{name}" in word for word in self._words):
            raise Trouble(f"the command '{text}' has neither {{script}} nor {{name}}")
        self.can_stop = UNTIL in self._words

    def words(self, case: Case, script: Path) -> list[str]:
        """The command's words for a case."""
        if case.fonts is None and any("{fonts}" in word for word in self._words):
            raise Trouble(f"no line `fonts FILE` stands before {case.name} in the list")
        values = {"script": str(script), "fonts": str(case.fonts), "name": case.name}
        stop = [] if case.until is None else ["--until", str(case.until)]
        words = [
            stop if word == UNTIL else [PLACE.sub(lambda place: values[place[1]], word)]
            for word in self._words
        ]
        return [word for some in words for word in some]


def suite(words: argparse.Namespace, progress: Progress) -> int:
    """Holds a command to the suite, or writes its scripts."""
    if words.scripts is not None:
        return write_scripts(words)
    if words.keep is not None:
        empty_folder(words.keep)
    rules = rules_of(_chosen(words))
    with opened_table(rules, words) as table:
        _fill(table, rules, words, progress)
    return _status(table.counts())


def _fill(table: Table, rules: list[Rule], words: argparse.Namespace, progress: Progress) -> None:
    """Runs the cases, and adds each rule to the table once all of its cases have run."""
    with closing(_results(words, rules, progress)) as found:
        for rule in rules:
            results = list(islice(found, len(rule.cases)))
            progress.clear()
            if results:
                table.add(rule, results)


def _status(counts: dict[str, int]) -> int:
    """The exit status of so many answers: 2 where a case failed, else 1 where one differs or none
    agrees."""
    if counts[FAILED]:
        return TROUBLE
    return DIFFERED if counts[DIFFERS] or not counts[AGREES] else AGREED


def _chosen(words: argparse.Namespace) -> list[Case]:
    wanted = tuple(words.only) or ""
    unwanted = tuple(words.except_)
    cases = [
        case
        for case in read_cases(words.list)
        if case.name.startswith(wanted) and not case.name.startswith(unwanted)
    ]
    if not cases:
        raise Trouble("no case has a name as --only and --except want it", name_of(words.list))
    return cases


def _results(
    words: argparse.Namespace, rules: list[Rule], progress: Progress
) -> Generator[Result, None, None]:
    """What comes of each case, in the order of the rules. With --fail-fast it ends with the first
    case that doesn't agree."""
    is_ended = Event()
    commands = [None if given is None else Command(given) for given in (words.command, words.bytes)]
    cases = [case for rule in rules for case in rule.cases]

    def run_one(case: Case) -> Result:
        return _run_case(case, commands[case.is_bytes], words, is_ended)

    wrong = 0
    with in_parallel(run_one, cases, words.jobs, is_ended) as found:
        for count, result in enumerate(found, 1):
            wrong += result.is_wrong
            if progress.is_due():
                do_not = "doesn't" if wrong == 1 else "don't"
                cases_run = f"{count} of {counted(len(cases), 'case')}"
                progress.tell(f"{cases_run}, {wrong} {do_not} agree: {result.case.name}")
            yield result
            if wrong and words.fail_fast:
                return


def _run_case(
    case: Case, command: Optional[Command], words: argparse.Namespace, is_ended: Event
) -> Result:
    if command is None:
        return Result(case, SKIPPED, "the script is bytes, and --bytes has no command")
    if case.is_bytes and case.until is not None and not command.can_stop:
        return Result(case, SKIPPED, f"the command of --bytes has no {UNTIL}")
    if words.machine and not case.has_answers_of_machine():
        return Result(case, SKIPPED, NO_ANSWERS)
    result = Result(case, comparison=Comparison(words.refusals, words.machine, True))
    limits = Limits(words.timeout, words.output * MEBIBYTE)
    with tempfile.TemporaryDirectory(prefix="zaklimot-") as name:
        script, report, messages = (
            Path(name, file) for file in (f"script{case.suffix}", "report", "messages")
        )
        script.write_bytes(case.handed(words.machine, command.can_stop))
        outcome = run_command(command.words(case, script), report, messages, limits, is_ended)
        if outcome.status is None:
            result.answer = FAILED
            result.reason = outcome.reason + _said_text(messages)
        else:
            _judge(result, outcome.status, report, messages)
        # One that was ended since another has failed says nothing.
        if words.keep is not None and result.is_wrong and not is_ended.is_set():
            _keep(
                Path(words.keep, case.name),
                case,
                {case.suffix: script, ".report": report, ".said": messages},
            )
    return result


def _judge(result: Result, status: int, report: Path, messages: Path) -> None:
    """Judges a command that has ended with this status: a fault that it has said is its report
    where it wrote none."""
    has_report = not status or report.stat().st_size > 0
    fault = None if has_report else FAULT.search((said_lines(messages) or [""])[-1])
    if has_report:
        with open(report, "rb") as stream:
            _compare(result, stream)
    elif fault is not None:
        line = io.BytesIO(f"{fault[0]}\n".encode())
        # What `BufferedReader` asks of a stream, bytes in memory have too.
        _compare(result, io.BufferedReader(line))  # type: ignore[arg-type]
    if status and fault is None and not (has_report and result.is_wrong):
        result.answer = FAILED
        result.reason = f"the command ended with status {status}" + _said_text(messages)


def _compare(result: Result, report: io.BufferedReader) -> None:
    comparison = result.comparison
    try:
        for difference in comparison.differences(
            Report(report, REPORT_NAME).steps(), result.case.expected_steps()
        ):
            # The first is told, and the others are counted.
            if result.first is None:
                result.first = FirstDifference(difference.number, *difference.answers())
                place = result.case.place_of(difference.number)
                result.answer = DIFFERS
                result.reason = difference.told() + (f" ({place})" if place else "")
    except Trouble as trouble:
        if trouble.name != REPORT_NAME:
            raise
        if result.first is None:
            result.answer = FAILED
            result.reason = str(trouble)
            return
    if result.first is None and comparison.skipped:
        result.answer = SKIPPED
        result.reason = (
            f"{comparison.skipped} of {comparison.steps} steps are skipped, the others agree"
        )


def said_lines(messages: Path) -> list[str]:
    """The lines that a command said on standard error, as text that no terminal takes for more."""
    said = messages.read_bytes().decode("utf-8", "replace").split("\n") if messages.exists() else []
    return [printable(line.strip()) for line in said if line.strip()]


def _said_text(messages: Path) -> str:
    lines = said_lines(messages)
    if len(lines) > 2 * SHOWN_LINES:
        lines = [
            *lines[:SHOWN_LINES],
            f".. {counted(len(lines) - 2 * SHOWN_LINES, 'line')} ..",
            *lines[-SHOWN_LINES:],
        ]
    if len(lines) < 2:
        return "".join(f": {line}" for line in lines)
    return ", and said\n" + "\n".join("  " + line for line in lines)


def _keep(stem: Path, case: Case, files: dict[str, Path]) -> None:
    stem.parent.mkdir(parents=True, exist_ok=True)
    for end, file in files.items():
        write_file(f"{stem}{end}", file.read_bytes())
    expected = dict(_pictures_in(case.expected_steps()))
    for number, picture in _pictures_of(files[".report"]):
        save_png(f"{stem}-{number:04}.png", picture)
        if number in expected and expected[number].ppm != picture.ppm:
            save_png(f"{stem}-{number:04}-differing.png", picture, other=expected[number])
    for number, picture in expected.items():
        save_png(f"{stem}-{number:04}-expected.png", picture)


def _pictures_of(report: Path) -> Iterator[tuple[int, Picture]]:
    with open(report, "rb") as stream, suppress(Trouble):
        yield from _pictures_in(Report(stream, "").steps())


def _pictures_in(steps: Iterator[Answer]) -> Iterator[tuple[int, Picture]]:
    return ((step.number, step.picture) for step in steps if isinstance(step.picture, Picture))


def write_scripts(words: argparse.Namespace) -> int:
    """Writes the scripts of the suite's cases into a folder, as `suite` hands them to a command."""
    cases = _chosen(words)
    folder = empty_folder(words.scripts)
    fonts: dict[Optional[Path], str] = {None: "-"}
    lines = []
    for case in cases:
        if words.machine and not case.has_answers_of_machine():
            continue
        path = folder / (case.name + case.suffix)
        path.parent.mkdir(parents=True, exist_ok=True)
        # Nothing but its end stops a text.
        write_file(str(path), case.handed(words.machine, case.is_bytes))
        write_name(path)
        if case.fonts is not None and case.fonts not in fonts:
            fonts[case.fonts] = _copied(case.fonts, folder, list(fonts.values()))
        lines.append(f"{case.name}{case.suffix} {fonts[case.fonts]}\n")
    write_file(str(folder / LIST), "".join(lines).encode("utf-8", "surrogateescape"))
    write_name(folder / LIST)
    return AGREED


def _copied(font: Path, folder: Path, taken: Sequence[str]) -> str:
    name = f"fonts/{font.name}"
    name = name if name not in taken else f"fonts/{len(taken) - 1}-{font.name}"
    (folder / "fonts").mkdir(exist_ok=True)
    write_file(str(folder / name), bytes_of(font, MOST_BYTES))
    return name
