"""Files of single-step tests for the modules that test them: the examples."""

from __future__ import annotations

import contextlib
import gzip
import io
import os
import shutil
import unittest
from pathlib import Path
from typing import Any, Iterator

from zaklimot.commands.steps.adapter import SteppedCard
from zaklimot.commands.steps.kinds import KINDS
from zaklimot.commands.steps.library import load
from zaklimot.commands.steps.making import elements
from zaklimot.commands.steps.parts import Element
from zaklimot.commands.script.words import FONTS

from .tools import EXAMPLES, Folder, run_tool

STEPS_EXAMPLES = EXAMPLES / "steps"
# The seed of the examples, and how many elements of each kind they have. A release has another
# seed.
SEED = 2
COUNT = 20
NO_COMPILER = "there is no C compiler to make the library with"
GOOD: Element = {
    "name": "a write",
    "initial": {"misc": 3, "planes": [[5, 1, 2, 3, 4]]},
    "put": [0xA0005, 7],
    "final": {"misc": 3, "planes": [[5, 7, 7, 7, 7]]},
}


def steps(*words: Any) -> tuple[int, str, str]:
    """Status, output and messages of the tool."""
    status, output, said = run_tool("zaklimot", "steps", *map(str, words))
    return status, output.decode(), said


def told(path: Path) -> bytes:
    """A file, unpacked."""
    data = path.read_bytes()
    return gzip.decompress(data) if path.suffix == ".gz" else data


# The files of all kinds.
files = {path.name.partition(".")[0]: path for path in STEPS_EXAMPLES.glob("*.json.gz")}


def compile_library() -> None:
    """Compiles the library, unless it is, so that no run tells that it does."""
    if shutil.which(os.environ.get("CC") or "cc") is None:
        raise unittest.SkipTest(NO_COMPILER)
    with contextlib.redirect_stderr(io.StringIO()):
        load()


class Made(Folder):
    """A test with the files of all kinds, and with the library."""

    @classmethod
    def setUpClass(cls) -> None:
        compile_library()

    @property
    def files(self) -> dict[str, Path]:
        """The files, by their kinds."""
        return files

    def elements(self, kind: str, count: int) -> Iterator[Element]:
        """Elements of a kind."""
        with SteppedCard(load(), Path(FONTS).read_bytes()) as card:
            yield from elements(KINDS[kind], count, SEED, card)
