"""The command `tools/vga`: it becomes the program, wherever that is."""

import os
import sys
from typing import Optional, Sequence

from zaklimot.commands.core import cli
from zaklimot.commands.core.processes import IS_POSIX, started

from .program import found_program


NAME = "vga"
BUILD_ONE = "a clone and a release have them, and README.md says how it is built"


def main(words: Optional[Sequence[str]] = None) -> int:
    """Runs the program with these words, or those of the command line; its status. On POSIX it does
    not return."""

    def work() -> int:
        path = found_program(instead=BUILD_ONE)
        given = sys.argv[1:] if words is None else words
        sys.stdout.flush()
        if IS_POSIX:
            os.execv(path, [NAME, *given])
        with started([path, *given], stdin=None) as process:
            return process.wait()

    return cli.run(NAME, work)
