"""Whether the page's processor does what a 386 does: by Intel's manual, and by another processor's
emulator."""

from __future__ import annotations

import argparse
import os
import re
import shutil
import tempfile
from functools import partial
from itertools import islice
from pathlib import Path
from threading import Event
from typing import NamedTuple, Optional

from zaklimot.commands import TOP
from zaklimot.commands.core.processes import Word, captured, check_program, in_parallel, run
from zaklimot.commands.core.progress import Progress
from zaklimot.commands.core.trouble import Trouble, Wrong
from zaklimot_dev.library_tests.compilers import make_check
from zaklimot_dev.page.machine import DEFINED, MACHINE, PROCESSOR, USUAL_INSTRUCTIONS, patched

from .manual import cases as manual_cases
from .words import CHECKS, OF_DESCRIPTORS, OF_MANUAL, OF_UNICORN


HERE = Path(__file__).resolve().parent
COMPILER = "cc"
# One process makes so many cases, since it may end amid them; and of descriptors so many are
# compared.
CHUNK = 2000
DESCRIBED = 2000
SECONDS = 600
COUNT = re.compile(
    r"^([0-9]+) cases: ([0-9]+) differ, ([0-9]+) lacking, ([0-9]+) beyond a segment's end$", re.M
)
UNICORN = "python3-unicorn"


def built_processor(folder: Path) -> Path:
    """The program that takes cases: libx86emu and the memory that the page has."""
    check_program(COMPILER)
    top = patched(folder)
    program = folder / "processor"
    sources = [HERE / "processor.c", MACHINE / "cpu" / "shifts.c", USUAL_INSTRUCTIONS]
    sources += [top / f"{name}.c" for name in (*PROCESSOR, "api", "mem")]
    words: list[Word] = [
        COMPILER,
        "-O2",
        "-w",
        *DEFINED,
        "-I",
        MACHINE / "cpu",
        "-I",
        top / "include",
        "-I",
        top,
        "-o",
        program,
        *sources,
    ]
    run(words, seconds=SECONDS)
    return program


class CaseCounts(NamedTuple):
    """How many cases were compared, differ, are lacking, and lie beyond a segment's end."""

    compared: int = 0
    differ: int = 0
    lacking: int = 0
    beyond: int = 0

    def beside(self, other: CaseCounts) -> CaseCounts:
        """These and others together."""
        return CaseCounts(*(one + more for one, more in zip(self, other)))


def judged(output: str) -> CaseCounts:
    """The counts that the processor's program tells; a Wrong tells the cases that differ."""
    found = COUNT.search(output)
    if found is None:
        raise Wrong(f"the processor's program told no count: {output[-400:]}")
    counts = CaseCounts(*map(int, found.groups()))
    if counts.differ or counts.lacking:
        raise Wrong(f"the processor does otherwise:\n{output.rstrip()}")
    return counts


def check_manual(program: Path) -> str:
    """The cases of Intel's manual, faults with them."""
    made = manual_cases()
    done = captured(
        [program, "faults"], given=b"".join(one.packed() for one in made), seconds=SECONDS
    )
    compared = judged(done.output.decode("ascii", "replace")).compared
    if compared != len(made):
        raise Wrong(f"{compared} of {len(made)} cases of the manual were compared")
    return f"{compared} cases of Intel's manual"


def python_with_unicorn() -> Optional[str]:
    """A Python that has Unicorn; none where it is lacking."""
    for name in ("python3", "/usr/bin/python3"):
        path = shutil.which(name)
        if path and captured([path, "-c", "import unicorn"], seconds=SECONDS).status == 0:
            return path
    return None


def _compared(
    program: Path,
    python: str,
    folder: Path,
    is_ended: Event,
    seed: int,
    module: str = "cases",
    chunk: int = CHUNK,
) -> CaseCounts:
    """A chunk of cases of a module. Unicorn may end the process amid them: those before count."""
    made = folder / f"{seed}.cases"
    words = [python, "-m", f"zaklimot_dev.machine_tests.{module}", str(chunk), str(seed)]
    with open(made, "wb") as stream:
        stream.write(captured(words, TOP / "tools", seconds=SECONDS, is_ended=is_ended).output)
    done = captured([program], given=made.read_bytes(), seconds=SECONDS, is_ended=is_ended)
    made.unlink()
    return judged(done.output.decode("ascii", "replace"))


def check_unicorn(program: Path, python: str, folder: Path, count: int, seed: int) -> str:
    """So many random instructions, one at a time."""
    total = CaseCounts()
    is_ended = Event()
    chunks = iter(range(seed, seed + 1 + 4 * count // CHUNK))
    jobs = os.cpu_count() or 1
    work = partial(_compared, program, python, folder, is_ended)
    while total.compared < count:
        seeds = list(islice(chunks, jobs))
        if not seeds:
            told = f"only {total.compared:,} cases came of Unicorn"
            raise Wrong(f"{told}, which ends its process too often")
        with in_parallel(work, seeds, jobs, is_ended) as found:
            for counts in found:
                total = total.beside(counts)
    told = f"{total.compared:,} instructions as Unicorn does them"
    return f"{told}; {total.beyond:,} beyond a segment's end are left out"


def check_descriptors(program: Path, python: str, folder: Path, seed: int) -> str:
    """Loads of segments, and far jumps, by tables of descriptors."""
    counts = _compared(program, python, folder, Event(), seed, "descriptors", DESCRIBED)
    compared = counts.compared
    if compared < DESCRIBED // 2:
        raise Wrong(f"only {compared:,} of {DESCRIBED:,} cases of descriptors came of Unicorn")
    return f"{compared:,} loads of segments and far jumps as Unicorn does them"


def run_checks(words: argparse.Namespace, _: Progress) -> None:
    """Makes the checks, and tells what each finds."""
    wanted = words.only or CHECKS
    of_unicorn = [name for name in (OF_UNICORN, OF_DESCRIPTORS) if name in wanted]
    python = python_with_unicorn() if of_unicorn else None
    if words.only and of_unicorn and python is None:
        raise Trouble(f"no Python has it: install the package {UNICORN}", "unicorn")
    with tempfile.TemporaryDirectory(prefix="vga-machine-tests-") as name:
        folder = Path(name)
        program = built_processor(folder)
        if OF_MANUAL in wanted:
            make_check(OF_MANUAL, partial(check_manual, program))
        for name in of_unicorn:
            if python is None:
                print(f"{name}: not tried: install the package {UNICORN}", flush=True)
            elif name == OF_UNICORN:
                make_check(
                    name, partial(check_unicorn, program, python, folder, words.cases, words.seed)
                )
            else:
                make_check(name, partial(check_descriptors, program, python, folder, words.seed))
