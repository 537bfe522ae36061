"""The scripts of a folder, run one beside the other: what is told of each, and of all as JSON and
as XML for test runners."""

import argparse
import shutil
import sys
import tempfile
import time
from contextlib import nullcontext
from pathlib import Path
from threading import Event
from typing import BinaryIO, Callable, ContextManager, Iterator, NamedTuple, Optional
from xml.etree.ElementTree import Element, SubElement, indent, tostring

from zaklimot.commands.core.cli import ended_by, say
from zaklimot.commands.core.files import STANDARD, name_of
from zaklimot.commands.core.processes import end_all, in_parallel
from zaklimot.commands.core.progress import Progress
from zaklimot.commands.core.streams import (
    JsonArray,
    counted,
    refuse_input,
    teller,
    to_read,
    write_file,
    writing,
)
from zaklimot.commands.core.trouble import AGREED, DIFFERED, TROUBLE, Trouble

from .cases import printable
from .modes import Tell

# How the names of a folder's scripts end.
ENDINGS = (".vga", ".bin")
# So much of what is told of a script is kept for a report of all.
MOST_LINES = 1 << 16
# Runs a script by its words: with what takes its output and its warnings, and the stream of its
# JSON, if that is wanted.
RunOne = Callable[[argparse.Namespace, Tell, Tell, Optional[BinaryIO]], int]


class Ran(NamedTuple):
    """A script that was run: its exit status, what was written and said, its seconds, and the file
    of its JSON, if there is one."""

    script: Path
    status: int
    output: str
    said: str
    seconds: float
    json: Optional[Path]


def scripts_in(folder: str) -> list[Path]:
    """The scripts of a folder and of those below it; none of a file."""
    return sorted(
        path for path in Path(folder).rglob("*") if path.suffix in ENDINGS and path.is_file()
    )


def run_several(words: argparse.Namespace, run_one: RunOne, progress: Progress) -> int:
    """Runs the scripts of a folder, or one script as if it were in one; the exit status of all."""
    paths = _scripts(words.script)
    for path in paths:
        to_read(str(path))
    for file in (words.json, words.junit):
        refuse_input(file or STANDARD)
    tell = teller(words.json, words.junit)
    ran = []
    with tempfile.TemporaryDirectory(prefix="zaklimot-") as name:
        for one in _runs(words, paths, run_one, Path(name), progress):
            progress.clear()
            # The answers alone are asked for, where they differ.
            tell("" if words.quiet and one.status == AGREED else one.output)
            sys.stdout.flush()
            say(one.said)
            ran.append(one._replace(output=one.output[:MOST_LINES]))
        if words.json is not None:
            _write_json(words.json, ran)
    if words.junit is not None:
        text = _junit_text(name_of(words.script), ran)
        write_file(words.junit, text.encode("utf-8", "xmlcharrefreplace"))
    differ, failed = (sum(one.status == status for one in ran) for status in (DIFFERED, TROUBLE))
    parts = [counted(len(ran), "script"), f"{differ} differ{'s' * (differ == 1)}"]
    tell(", ".join(parts + ([f"{failed} can't be run"] if failed else [])) + "\n")
    return TROUBLE if failed else DIFFERED if differ else AGREED


def _scripts(script: str) -> list[Path]:
    if script == STANDARD:
        raise Trouble("--junit wants a file or a folder, and not standard input")
    paths = scripts_in(script) if Path(script).is_dir() else [Path(script)]
    if not paths:
        raise Trouble(f"it has no script: their names end with {' or '.join(ENDINGS)}", script)
    return paths


def _runs(
    words: argparse.Namespace, paths: list[Path], run_one: RunOne, folder: Path, progress: Progress
) -> Iterator[Ran]:
    is_ended = Event()

    def run(number: int) -> Ran:
        one = {**vars(words), "script": str(paths[number]), "quiet": True, "json": None}
        # The JSON of a step takes as long as all else of it.
        json = None if words.json is None else folder / str(number)
        return _ran(paths[number], argparse.Namespace(**one), run_one, json)

    with in_parallel(run, range(len(paths)), words.jobs, is_ended, end_all) as found:
        for count, ran in enumerate(found, 1):
            if progress.is_due():
                progress.tell(f"{count} of {len(paths)} scripts: {ran.script}")
            yield ran


def _ran(path: Path, words: argparse.Namespace, run_one: RunOne, json: Optional[Path]) -> Ran:
    """Runs a script. What keeps it from being run is told, as of a run of its own."""
    begun = time.monotonic()
    output: list[str] = []
    said: list[str] = []
    opened: ContextManager[Optional[BinaryIO]] = nullcontext()
    if json is not None:
        opened = open(json, "wb")
    with opened as stream:
        try:
            status = run_one(words, output.append, said.append, stream)
        except (Trouble, OSError, MemoryError) as error:
            status, reason = ended_by(error)
            said.append(f"zaklimot: {reason}\n")
    return Ran(path, status, "".join(output), "".join(said), time.monotonic() - begun, json)


def _write_json(path: str, ran: list[Ran]) -> None:
    """Writes what the scripts told as one list. One that was not even begun has its trouble
    alone."""
    with writing(path) as stream:
        scripts = JsonArray(stream)
        for one in ran:
            scripts.begin_entry()
            assert one.json is not None
            if not one.json.stat().st_size:
                stream.write(b"null")
            with open(one.json, "rb") as told:
                shutil.copyfileobj(told, stream)
        scripts.end()
        stream.write(b"\n")


def _junit_text(name: str, ran: list[Ran]) -> str:
    kinds = {DIFFERED: "failure", TROUBLE: "error"}
    counts = {
        f"{kind}s": str(sum(one.status == status for one in ran)) for status, kind in kinds.items()
    }
    time_of_all = f"{sum(one.seconds for one in ran):.3f}"
    shown = printable(name, "\n")
    suite = Element(
        "testsuite", {"name": shown, "tests": str(len(ran)), **counts, "time": time_of_all}
    )
    for one in ran:
        case_name = printable(str(one.script), "\n")
        seconds = f"{one.seconds:.3f}"
        case = SubElement(suite, "testcase", classname=shown, name=case_name, time=seconds)
        if one.status in kinds:
            # Characters that XML doesn't take are left out.
            text = printable(one.output if one.status == DIFFERED else one.said, "\n")
            SubElement(case, kinds[one.status], message=text.split("\n")[0]).text = text
    indent(suite)
    return '<?xml version="1.0" encoding="UTF-8"?>\n' + tostring(suite, "unicode") + "\n"
