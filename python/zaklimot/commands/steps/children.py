"""A command over many files: each in a process of its own, so many at a time."""

import argparse
import sys
from threading import Event
from typing import Callable, Iterator, Sequence

from zaklimot.commands import HERE
from zaklimot.commands.core.files import STANDARD
from zaklimot.commands.core.processes import Done, captured, end_all, in_parallel
from zaklimot.commands.core.progress import Progress
from zaklimot.commands.core.trouble import TROUBLE, Trouble

# How a child begins: by the modules of this one.
BEGINNING = (
    "import sys; sys.path.insert(0, sys.argv.pop(1)); "
    "from zaklimot.commands.words import main; sys.exit(main())"
)
PREFIX = "zaklimot: "


def is_shared(words: argparse.Namespace) -> bool:
    """Whether the work on files is shared among processes, none of which has standard input."""
    return words.jobs > 1 and len(words.file) > 1 and STANDARD not in words.file


def in_children(
    commands: Sequence[Sequence[str]], jobs: int, progress: Progress, told: Callable[[int], str]
) -> Iterator[Done]:
    """What comes of command lines of this tool, in their order, each in a process of its own.

    A child that can't do its work ends all with what it says. `told` says what the progress is
    after so many of them.
    """
    is_ended = Event()

    def run_one(words: Sequence[str]) -> Done:
        begin = [sys.executable, "-S", "-c", BEGINNING, str(HERE.parents[1])]
        done = captured([*begin, "steps", *words], is_ended=is_ended)
        if done.status >= TROUBLE:
            raise Trouble(done.errors.decode("utf-8", "replace").strip().removeprefix(PREFIX))
        return done

    with in_parallel(run_one, commands, jobs, is_ended, end_all) as found:
        for count, done in enumerate(found, 1):
            if progress.is_due():
                progress.tell(told(count))
            yield done
    progress.clear()
