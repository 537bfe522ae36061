"""The words of the command line."""

import argparse
from functools import partial
from pathlib import Path

from zaklimot.commands.core import cli
from zaklimot.commands.core.cli import later
from zaklimot_dev.library.words import PROCESSORS
from zaklimot_dev.words import add_checks


# The processors that compilers for C are tried for: Rattle's, and others.
PORTABLE_PROCESSORS = (*PROCESSORS, "i386", "s390x", "windows")
# Those of a library, of the library that each compiler builds, and of the one C file.
CHECKS = (
    "header",
    "examples",
    "scripts",
    "installing",
    "pc",
    "names",
    "suite",
    "restored",
    "sliced",
    "joined",
    "state",
    "clock",
    "advances",
    "transfers",
    "pictures",
    "lines",
    "blocks",
    "cycles",
    "refusals",
    "dots",
    "stages",
    "rebuilding",
    "told",
    "misuse",
    "memory",
    "threads",
    "compilers",
    "checked",
    "dosbox",
    "qemu",
    "file",
    "one",
)
# What jobs of the command line are functions of.
_job = partial(later, "zaklimot_dev.library_tests.command")


def _parser() -> argparse.ArgumentParser:
    parser = cli.tool_parser(
        "vga-library-tests",
        "Tests the library for C, as both compilers of Rattle build it.",
        "tools/vga-library-tests --only header",
        "docs/LIBRARY-TESTS.md",
        cli.JUDGES,
    )
    parser.set_defaults(job=_job("run_checks"))
    told = (
        f"the processor; programs of another one than {PROCESSORS[0]} run in QEMU, and those for"
        " Windows in Wine"
    )
    cli.add(parser, "--target", told, choices=PORTABLE_PROCESSORS, default=PROCESSORS[0])
    told = (
        "tests the library as one C file instead; with --gated also that it is the file that the"
        " crate makes"
    )
    cli.add(parser, "--portable", told)
    cli.add(parser, "--ready", "tests nothing, and tells what this machine lacks for both")
    cli.add(
        parser, "--archive FILE", "takes this archive instead of those of both compilers", type=Path
    )
    add_checks(parser, CHECKS)
    return parser


# Runs a command line, and answers its exit status.
main = cli.runner(_parser)
