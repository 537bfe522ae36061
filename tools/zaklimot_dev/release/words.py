"""The words of the command line."""

import argparse
from functools import partial

from zaklimot.commands.core import cli
from zaklimot.commands.core.cli import later, rule
from zaklimot.commands.core.files import Input
from zaklimot.commands.core.words import number_to
from zaklimot_dev.library.words import PROCESSORS


# The archives of the C file, and of single-step tests, have these names.
PORTABLE = "portable"
STEPS = "steps"
# How many single-step tests of each kind a release has.
COUNT = 10_000
# What jobs of the command line are functions of.
_job = partial(later, "zaklimot_dev.release.command")


def _parser() -> argparse.ArgumentParser:
    parser = cli.tool_parser(
        "vga-release",
        "Packs a release of what is checked out.",
        "tools/vga-release release",
        "docs/RELEASES.md",
    )
    parser.add_argument("folder", metavar="FOLDER", help="where the archive goes")
    cli.add(
        parser,
        "--program FILE",
        "takes this program (default: `rt run` proves and builds one)",
        type=Input,
    )
    cli.add(
        parser,
        "--archive FILE",
        "takes this archive of the library (default: `rt lib` builds one)",
        type=Input,
    )
    cli.add(
        parser,
        f"--archive-{PROCESSORS[1]} FILE",
        f"the same of the library for {PROCESSORS[1]}",
        type=Input,
    )
    told = f"packs the archive of {PORTABLE}/zaklimot.c alone, for which nothing is built"
    cli.add(parser, f"--{PORTABLE}", told)
    told = "packs the archive of single-step tests alone, made by the C file's library"
    cli.add(parser, f"--{STEPS}", told)
    told = f"with --{STEPS}: so many elements of each kind (default: {COUNT})"
    cli.add(parser, "--count N", told, type=number_to(COUNT))

    _add_rules(parser)
    parser.set_defaults(job=_job("release"))
    return parser


def _add_rules(parser: argparse.ArgumentParser) -> None:
    """What the options ask of one another."""

    def is_given(words: argparse.Namespace) -> bool:
        return any((words.program, words.archive, words.archive_aarch64))

    for name in (PORTABLE, STEPS):
        rule(parser, name, is_given, f"--{name} takes nothing that is built")
    told = f"--{PORTABLE} and --{STEPS} pack an archive each: give one of them"
    rule(parser, STEPS, lambda words: words.portable, told)
    told = f"--count is for --{STEPS}: a release has {COUNT:,} elements of each kind"
    rule(parser, "count", lambda words: not words.steps, told)


# Runs a command line, and answers its exit status.
main = cli.runner(_parser)
