"""The repository's crates, and how far they are proved: their phases as one line on a terminal."""

import re
import time
from functools import cache
from typing import Callable

from zaklimot.commands import TOP
from zaklimot.commands.core.processes import Hearer
from zaklimot.commands.core.progress import Progress

# What Rattle says of a crate that is done.
DONE = re.compile(r"crate \w+: ")


@cache
def uses() -> dict[str, list[str]]:
    """What each crate of the repository uses, by `crates.txt`."""
    listed = (TOP / "crates.txt").read_text("ascii").splitlines()
    lines = [line for line in listed if line and not line.startswith("#")]
    return {line.partition(":")[0].split()[0]: line.partition(":")[2].split() for line in lines}


def below(name: str) -> list[str]:
    """The repository's crates below one, lowest first, each once."""
    found: dict[str, None] = {}
    for lower in uses()[name]:
        if lower in uses():
            found.update(dict.fromkeys([*below(lower), lower]))
    return list(found)


def phases(progress: Progress, crate: str = "vga_c") -> Callable[[str], Hearer]:
    """What begins a phase of work on a crate, that of the library or another, and answers what
    hears its program.

    It tells what is done, and at which crate it is, of this one and those below it, or else what is
    said.
    """
    crates = [*below(crate), crate]
    begun = time.monotonic()

    def begin(phase: str) -> Hearer:
        place = ""

        def hear(line: str) -> None:
            nonlocal place
            named = [word for word in re.findall(r"\w+", line) if word in crates]
            if named:
                done = ", is done" if DONE.match(line) else ""
                place = f"{named[-1]}, crate {crates.index(named[-1]) + 1} of {len(crates)}{done}"
            if progress.is_due():
                seconds = int(time.monotonic() - begun)
                told = place or line
                progress.tell(f"{seconds // 60}:{seconds % 60:02} {phase}{told and ': '}{told}")

        hear("")
        return hear

    return begin
