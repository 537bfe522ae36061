"""Feeds the program with one input, in each way that it takes one, within limits; and what is wrong
with its end."""

from __future__ import annotations

import io
from pathlib import Path
from threading import Event
from typing import Callable, NamedTuple, Optional

from zaklimot.format import LINE, Script, ScriptFault, decode, is_answer_to, parse_text
from zaklimot.commands.core.processes import Limits, Words, run_command
from zaklimot.commands.core.trouble import Trouble, Wrong
from zaklimot.commands.report.report import Report

from .making import Feed


DONE = "done"
WRITE_FAULT = "F9 WriteFault"
OUT_OF_MEMORY = "F10 OutOfMemory"
# So much of what a program says on standard error is read.
MOST_SAID = 4096


class Fed(NamedTuple):
    """How a run ended: its status, or None where it took too long; its report and what it said."""

    status: Optional[int]
    report: bytes
    said: str
    is_report_full: bool = False

    @property
    def answer(self) -> str:
        """`done`, or the fault that ended the run; a Wrong where it has ended otherwise."""
        line = LINE.fullmatch(self.said)
        if self.status == 0 and not self.said:
            return DONE
        if self.status == 1 and line is not None:
            return line[1]
        if self.status is None:
            raise Wrong("it has not ended in time")
        ended = (
            f"signal {-self.status} has ended it" if self.status < 0 else f"status {self.status}"
        )
        raise Wrong(f"{ended}, and it says {self.said[:100]!r}")


class Assembled(NamedTuple):
    """How a text was assembled, and its script, if it is one."""

    fed: Fed
    script: Optional[bytes]


def meant_by(read: Callable[[bytes], Script], data: bytes) -> tuple[str, Script]:
    """What the program is to answer to bytes or a text that are read so, a fault or `done`; and the
    script that they are."""
    try:
        return DONE, read(data)
    except ScriptFault as fault:
        return fault.answer, Script()


def _check_report(report: bytes, script: Script, is_whole: bool) -> None:
    """A Wrong where some bytes are no report of a script, or not the whole lines of one's front."""
    meant = script.steps()
    try:
        # What `BufferedReader` asks of a stream, bytes in memory have too.
        read = io.BufferedReader(io.BytesIO(report))  # type: ignore[arg-type]
        for answered in Report(read, "report").steps():
            if answered.number == 0:
                raise Wrong("a fault stands on standard output")
            step = next(meant, None)
            if step is None:
                raise Wrong(f"step {answered.number} is answered, and the script has none")
            if not is_answer_to(step, answered):
                raise Wrong(
                    f"step {answered.number}, {step.name}, answers {answered.answer[:60]!r}"
                )
    except Trouble as trouble:
        raise Wrong(str(trouble)) from trouble
    if is_whole and next(meant, None) is not None:
        raise Wrong("the report ends before the script")


def check(outcome: Fed, script: Optional[Script]) -> None:
    """A Wrong where something is wrong with a run. What it writes is the report of a script, or has
    no form here."""
    answer = outcome.answer
    if answer == WRITE_FAULT:
        if not outcome.is_report_full:
            raise Wrong(f"{answer}, and each write was taken")
    elif script is not None and answer in (DONE, OUT_OF_MEMORY):
        _check_report(outcome.report, script, is_whole=answer == DONE)
    elif answer != DONE and outcome.report:
        raise Wrong(f"{len(outcome.report)} bytes are written before {answer}")


def run(words: Words, folder: Path, limits: Limits) -> Fed:
    """Runs a program. A write past the limit of output fails, as one on a full disk does."""
    report = folder / "report"
    said = folder / "said"
    status = run_command(words, report, said, limits, Event()).status
    with open(said, "rb") as stream:
        message = stream.read(MOST_SAID).decode("ascii", "backslashreplace")
    data = report.read_bytes()
    return Fed(status, data, message, len(data) >= limits.output)


class Program:
    """The program `vga`, run over one font file in a folder of its own."""

    def __init__(self, path: str, fonts: str, folder: Path, limits: Limits) -> None:
        self.path = path
        self._fonts = fonts
        self._folder = folder
        self._limits = limits

    def feed(self, given: Feed) -> str:
        """The answer of an input's run, a Wrong if anything is wrong.

        A text answers what its script does, and a script what its printed text does, which spells
        it again.
        """
        file = self._file("input", given.data)
        first = "go" if given.is_text else "run"
        wanted, meant = meant_by(parse_text if given.is_text else decode, given.data)
        ran = self._ran(first, file, wanted, meant)
        if given.is_text:
            made, script = self._asm(file)
            if script is None:
                _agree(first, ran, "asm", made)
                return ran.answer
            if meant_by(decode, script)[1] != meant:
                raise Wrong("vga asm: the script has other steps than the text")
            file = self._file("input", script)
            _agree(first, ran, "run", self._ran("run", file, wanted, meant))
        printed = self._done("dis", file)
        if printed.answer != DONE:
            _agree(first, ran, "dis", printed)
            return ran.answer
        if self.assembled(printed.report) != file.read_bytes():
            raise Wrong("vga asm: what vga dis prints spells another script")
        again = self._ran("go", self._file("printed", printed.report), DONE, meant)
        _agree(first, ran, "go of what vga dis prints", again)
        return ran.answer

    def assembled(self, text: bytes) -> Optional[bytes]:
        """The script of a text, if it is one."""
        return self._asm(self._file("text", text)).script

    def _asm(self, file: Path) -> Assembled:
        script = self._folder / "script"
        # What an input before has left is no script of this one.
        script.unlink(missing_ok=True)
        made = self._done("asm", file, script)
        if made.answer != DONE:
            return Assembled(made, None)
        if not script.exists():
            raise Wrong("vga asm: status 0, and it has written no script")
        return Assembled(made, script.read_bytes())

    def _file(self, name: str, data: bytes) -> Path:
        path = self._folder / name
        path.write_bytes(data)
        return path

    def _done(self, command: str, *words: str | Path, script: Optional[Script] = None) -> Fed:
        """How a command ended, where nothing is wrong with it. What it writes is the report of a
        script, if one is given."""
        outcome = run([self.path, command, *words], self._folder, self._limits)
        try:
            check(outcome, script)
        except Wrong as wrong:
            raise Wrong(f"vga {command}: {wrong}") from wrong
        return outcome

    def _ran(self, command: str, file: Path, wanted: str, meant: Script) -> Fed:
        """How a script is run: twice, with the same answers, which are to end as it is wanted."""
        once, again = (
            self._done(command, file, "--fonts", self._fonts, script=meant) for _ in range(2)
        )
        _agree(command, once, f"{command} once more", again)
        if once.answer not in (wanted, WRITE_FAULT, OUT_OF_MEMORY):
            raise Wrong(f"vga {command} answers {once.answer}, and not {wanted}")
        return once


def _agree(first: str, one: Fed, second: str, other: Fed) -> None:
    """Two runs of the same script answer the same. Want of memory or of room may stop one before
    the other."""
    answers = one.answer, other.answer
    if {WRITE_FAULT, OUT_OF_MEMORY} & set(answers):
        return
    if answers[0] != answers[1]:
        raise Wrong(f"vga {first} answers {answers[0]}, vga {second} {answers[1]}")
    if one.report != other.report:
        raise Wrong(f"vga {first} and vga {second} have reports that differ")
