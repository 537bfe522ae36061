"""The command `run`: a script beside its answers."""

import argparse
import os
import tempfile
from contextlib import contextmanager
from pathlib import Path
from typing import BinaryIO, Iterator, Optional, Union, cast

from zaklimot.commands.core.cli import say
from zaklimot.commands.core.files import STANDARD, name_of
from zaklimot.commands.core.progress import Progress
from zaklimot.commands.core.streams import teller
from zaklimot.commands.core.trouble import AGREED, DIFFERED, Trouble
from zaklimot.commands.explain.faults import read_script
from zaklimot.commands.script.own import OwnProgram, own_program
from zaklimot.commands.script.program import BuiltProgram, found_program

from .expecting import why_never
from .folders import run_several
from .listing import RunScript, tallied
from .modes import Tell, mode_of
from .words import is_several

# What to do where there is no program.
BUILD_ONE = "README.md says how it is built, and --vga names another"
# What the file of a text is called, and what is told where bytes are in it.
TEXT_NAME = ".vga"
LOST_TEXT = (
    "zaklimot: {}: the file contains bytes, but has the name of a text. "
    "If you named it twice, `vga asm` has written over the text\n"
)


@contextmanager
def _files(script: str, fonts: str) -> Iterator[tuple[str, bytes, str]]:
    """The path and the bytes of a script, and the path of its font file, by names that the program
    takes.

    The script of a pipe becomes a file, since it is read more than once. What is wrong with a name
    the program says.
    """
    is_there = script in (STANDARD, "") or os.path.exists(script)
    data = read_script(script) if is_there else b""
    with tempfile.TemporaryDirectory(prefix="zaklimot-") as folder:
        # The program's own standard input is another one than that which `/dev/stdin` names here.
        is_file = os.path.isfile(script) and not script.startswith(("/dev/", "/proc/"))
        if is_there and not (is_file and _is_text(script)):
            script = os.path.join(folder, "script")
            Path(script).write_bytes(data)
        if not _is_text(fonts):
            link = Path(folder) / "fonts"
            link.symlink_to(os.path.abspath(fonts))
            fonts = str(link)
        yield script, data, fonts


def _is_text(name: str) -> bool:
    """Whether a name is one that the program takes: it reads its words as UTF-8."""
    return not any("\ud800" <= letter <= "\udfff" for letter in name)


def run(words: argparse.Namespace, progress: Progress) -> int:
    """Runs a script, or each one of a folder, and shows each step beside its line and its
    answer."""
    program = own_program(words.vga) or BuiltProgram(found_program(words.vga, BUILD_ONE))

    def run_one(one: argparse.Namespace, tell: Tell, warn: Tell, json: Optional[BinaryIO]) -> int:
        return run_script(one, program, Progress(False), tell, warn, json)

    if is_several(words):
        return run_several(words, run_one, progress)
    return run_script(words, program, progress, teller(words.json), say)


def run_script(
    words: argparse.Namespace,
    program: Union[BuiltProgram, OwnProgram],
    progress: Progress,
    tell: Tell,
    warn: Tell,
    json: Optional[BinaryIO] = None,
) -> int:
    """Runs a script, and shows it as its words ask; the exit status. `json` is a stream that takes
    what --json tells, in the place of the file that it names."""
    shown = name_of(words.script)
    with tallied(shown, json or words.json) as tally:
        with _files(words.script, words.fonts) as found, tempfile.TemporaryFile() as printed:
            path, data, fonts = found
            script = RunScript(path, data, program, shown, cast(BinaryIO, printed))
            # What is lost where a script is bytes.
            if script.is_bytes and shown.endswith(TEXT_NAME):
                warn(LOST_TEXT.format(shown))
            mode = mode_of(words, tell, data, progress)
            mode.check(script)
            tells_why = mode.tells_why or json is not None or words.json is not None
            for row in script.rows(fonts, words.until, progress, words.strict, tells_why):
                if not tally.steps:
                    mode.begin(script.width)
                is_wrong = tally.count(row)
                mode.take(row, is_wrong)
                never = why_never(row.expected or "", row.words) if is_wrong else ""
                if never and not words.bless:
                    raise Trouble(never, shown, row.line)
            progress.clear()
        tells_differences = mode.end(tally)
    return DIFFERED if tally.wrong and tells_differences else AGREED
