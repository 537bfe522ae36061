"""The program `vga`, and how a script is run by it."""

import io
import os
import shutil
import tempfile
from dataclasses import dataclass
from pathlib import Path
from typing import BinaryIO, ContextManager, Optional, Sequence

from zaklimot.format import FAULT
from zaklimot.commands import TOP
from zaklimot.commands.core.processes import Streamed, streaming
from zaklimot.commands.core.streams import to_read
from zaklimot.commands.core.trouble import Trouble

from .portable import has_sources, portable_program


CRATE = TOP / "crates" / "vga"
PROGRAM = CRATE / "out" / "vga"
# The program of an unpacked release, and the command that finds a program as this does.
RELEASED = TOP / "bin" / "vga"
LAUNCHER = TOP / "tools" / "vga"
# No script is printed in more bytes: none of its steps has a line that is seven times as long as
# its bytes.
MOST_PRINTED = 7 << 24
CHUNK = 1 << 16
# So much of a first line is told that is none of a report.
MOST_SHOWN = 60
# A script of a step, and its report: miscellaneous output as it is at power-on.
ONE_STEP = b"in 3CC\n"
ITS_REPORT = b"1 00\n"
NO_PROGRAM = "there is no program vga, and portable/ has no sources of it: "
# What a user can do without a program: of a command that takes one by name.
NAME_ONE = "--vga names one"


def fault_of(run: Streamed) -> str:
    """The fault that ended a run, or else what was said last."""
    found = FAULT.search(run.said)
    return found[0] if found else (run.said.strip().splitlines() or [""])[-1]


def check_ended(run: Streamed, program: str) -> None:
    """Ends the work where a run has ended badly."""
    if run.status:
        raise Trouble(f"it ended with status {run.status}: {fault_of(run)}", program)


def _in_path() -> Optional[str]:
    """The program `vga` of the path, but for this repository's own command of that name."""
    for folder in os.environ.get("PATH", os.defpath).split(os.pathsep):
        found = shutil.which("vga", path=folder) if folder else None
        if found is not None and not (LAUNCHER.exists() and os.path.samefile(found, LAUNCHER)):
            return found
    return None


def _named_program(name: str) -> str:
    """Where the program of this name is, which lies in the path if the name has no folder."""
    if not name:
        raise Trouble("the name of the program is empty")
    path = shutil.which(name) or name
    if os.path.isdir(path):
        raise Trouble("it is a folder, and no program", path)
    if os.path.exists(path) and not os.access(path, os.X_OK):
        raise Trouble("it is no program: there is no permission to run it", path)
    return path


def built_program(named: Optional[str] = None) -> Optional[str]:
    """Where a program is that is built already: as it is named, else proved and built here, a
    release's, or in the path; None if there is none."""
    if named is not None:
        return to_read(_named_program(named))
    for built in (PROGRAM, RELEASED):
        if os.access(built, os.X_OK):
            return to_read(str(built))
    found = _in_path()
    return None if found is None else to_read(found)


def found_program(named: Optional[str] = None, instead: str = NAME_ONE) -> str:
    """Where the program is: as it is named, else proved and built here, a release's, in the path,
    or the portable one.

    The portable one is compiled where that was not done yet. Where there is none, a Trouble says
    what to do instead.
    """
    found = built_program(named)
    if found is None and not has_sources():
        raise Trouble(NO_PROGRAM + instead)
    return portable_program() if found is None else found


def _words(script: str, fonts: str, until: Optional[int], is_bytes: bool) -> list[str]:
    stop = [] if until is None else ["--until", str(until)]
    # A name may begin as an option does.
    path = os.path.join(os.curdir, script) if script.startswith("-") and script != "-" else script
    return ["run" if is_bytes else "go", path, "--fonts", fonts, *stop]


@dataclass
class BuiltProgram:
    """The program as it was built."""

    path: str

    def running(
        self, script: Path, fonts: str, until: Optional[int], is_bytes: bool
    ) -> ContextManager[Streamed]:
        """A run of a script, as text or as bytes."""
        return streaming([self.path, *_words(str(script), fonts, until, is_bytes)])

    def print_steps(self, script: Path, is_bytes: bool, printed: BinaryIO) -> None:
        """Prints the steps of a script as the program understands them; nothing where it has a
        fault."""
        with tempfile.TemporaryDirectory(prefix="zaklimot-") as name:
            made = script if is_bytes else Path(name) / "script"
            is_good = is_bytes or self._writes(["asm", str(script), str(made)], io.BytesIO())
            if is_good and not self._writes(["dis", str(made)], printed):
                printed.truncate(0)

    def _writes(self, words: Sequence[str], output: BinaryIO) -> bool:
        left = MOST_PRINTED
        with streaming([self.path, *words]) as outcome:
            while chunk := outcome.report.read(CHUNK):
                left -= len(chunk)
                if left < 0:
                    raise Trouble(f"vga {words[0]} writes more than any script takes", self.path)
                output.write(chunk)
        return outcome.status == 0


def check_program_runs(program: str, fonts: str) -> None:
    """Ends the work, before it is long, where a program doesn't run a script of one step as `vga`
    does, or not with this font file."""
    with tempfile.TemporaryDirectory(prefix="vga-trying-") as name:
        script = Path(name) / "script"
        script.write_bytes(ONE_STEP)
        with BuiltProgram(program).running(script, fonts, None, False) as outcome:
            report = outcome.report.read(CHUNK)
    if outcome.status or report != ITS_REPORT:
        written = report.split(b"\n")[0].decode("ascii", "replace")[:MOST_SHOWN]
        told = fault_of(outcome) or (f"it writes {written!r}" if report else "it says nothing")
        raise Trouble(f"it runs no script with {fonts}: {told}", program)


def tried_program(named: Optional[str], fonts: str) -> str:
    """Where the program is, as `found_program` has it, once it has run a script with this font
    file."""
    program = found_program(named)
    check_program_runs(program, fonts)
    return program
