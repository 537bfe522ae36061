"""The words of the command line."""

import argparse
from functools import partial

from zaklimot.commands.core import cli
from zaklimot.commands.core.cli import add, later
from zaklimot.commands.core.files import Input
from zaklimot.commands.core.words import number_to, seconds


# The largest numbers of options: MiB that a run may take, and inputs.
MOST_MEBIBYTES = 1 << 16
MOST_NUMBER = 1 << 62
# What jobs of the command line are functions of.
_job = partial(later, "zaklimot_dev.fuzz.command")


def _parser() -> argparse.ArgumentParser:
    parser = cli.tool_parser(
        "vga-fuzz",
        "Feeds vga with scripts and texts made at random.",
        "tools/vga-fuzz --seed 1 --seconds 300 --keep found",
        "tools/README.md",
        cli.JUDGES,
    )
    told = (
        "the program (default: one built here, a release's, vga in the path, or one that is"
        " compiled)"
    )
    parser.add_argument("program", nargs="?", type=Input, help=told)
    told = "where the random numbers begin (default: 1)"
    add(parser, "--seed N", told, type=number_to(MOST_NUMBER, 0), default=1)
    told = "how many inputs are made at most (default: any number)"
    add(parser, "--inputs N", told, type=number_to(MOST_NUMBER, 0), default=0)
    told = "the number of the first input, to make one again"
    add(parser, "--first N", told, type=number_to(MOST_NUMBER), default=1)
    told = "how many MiB one run may take (default: 256)"
    add(parser, "--memory N", told, type=number_to(MOST_MEBIBYTES), default=256)
    told = "how many MiB one run may write (default: 64)"
    add(parser, "--output N", told, type=number_to(MOST_MEBIBYTES), default=64)
    told = "how long to make inputs, in seconds (default: 60)"
    add(parser, "--seconds SECONDS", told, type=seconds, default=60)
    told = "how long one run may take, in seconds (default: 60)"
    add(parser, "--timeout SECONDS", told, type=seconds, default=60)
    add(parser, "--keep FOLDER", "keeps the inputs that show something wrong in this folder")
    parser.set_defaults(job=_job("feed_program"))
    return parser


# Runs a command line, and answers its exit status.
main = cli.runner(_parser)
