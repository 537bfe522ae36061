"""How the repository's Python is laid out, and whether its types fit."""

import argparse
import os
import shutil
from pathlib import Path
from typing import NamedTuple, Optional

from zaklimot.commands import TOP
from zaklimot.commands.core.processes import Word, captured
from zaklimot.commands.core.progress import Progress
from zaklimot.commands.core.trouble import AGREED as PASSED, DIFFERED as FAILED, Trouble

# The folders that have Python, and the settings of all but flake8, which finds its own. The package
# for Python has settings for its types.
FOLDERS = ("python", "tools", "javascript", "bench", "examples", "fonts")
SETTINGS = "tools/pyproject.toml"
PACKAGE = "python/pyproject.toml"
# Debian's programs lie here. Others of these names, as pip installs them, may judge otherwise.
SYSTEM = "/usr/bin"
MOST_SECONDS = 600
# The first lines of a command, which a shell reads and hands to Python.
PYTHON = b'#!/bin/sh\n""":"\n'


class Judge(NamedTuple):
    """A program that judges Python: its words, whether it wants to be told the files, and what it
    judges, if not all."""

    name: str
    words: tuple[str, ...]
    takes_files: bool = True
    of: str = ""


OF_MYPY = ("--no-error-summary", "--config-file")
JUDGES = (
    Judge("black", ("--quiet", "--diff", "--check", "--config", SETTINGS)),
    Judge("flake8", ()),
    Judge("mypy", (*OF_MYPY, SETTINGS), takes_files=False),
    Judge("mypy", (*OF_MYPY, PACKAGE), takes_files=False, of=" of python"),
)


def commands() -> list[str]:
    """The commands in Python whose names have no ending: judges of folders pass over them."""
    files = [TOP / "zaklimot", *sorted((TOP / "tools").iterdir())]
    found = (path for path in files if path.is_file() and path.read_bytes().startswith(PYTHON))
    return [str(path.relative_to(TOP)) for path in found]


def found(name: str) -> Optional[str]:
    """Where a judge is: Debian's, or else the one in the path."""
    return shutil.which(name, path=SYSTEM) or shutil.which(name)


def lacking() -> list[str]:
    """The judges that are not here. Debian's packages have their names."""
    return [name for name in dict.fromkeys(judge.name for judge in JUDGES) if found(name) is None]


def judged(judge: Judge) -> str:
    """What a judge finds wrong; nothing where all is well."""
    files = [*FOLDERS, *commands()] if judge.takes_files else []
    words: list[Word] = [found(judge.name) or judge.name, *judge.words, *files]
    # What mypy remembers of its last run goes with what the process leaves.
    environment = {"MYPY_CACHE_DIR": os.devnull}
    done = captured(words, Path(TOP), seconds=MOST_SECONDS, environment=environment)
    return done.said() or f"it ended with status {done.status}\n" if done.status else ""


def judge(words: argparse.Namespace, progress: Progress) -> int:
    """Judges the Python of the repository, and tells what is wrong."""
    missing = lacking()
    if missing:
        raise Trouble(f"this machine lacks {', '.join(missing)}: install Debian's packages")
    status = PASSED
    for one in () if words.ready else JUDGES:
        told = judged(one)
        heading = f"{'failed' if told else 'passed'}  {one.name}{one.of}"
        print(f"{heading}\n{told}", end="", flush=True)
        status = FAILED if told else status
    return status
