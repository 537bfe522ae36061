"""The words of the command line."""

import argparse
from functools import partial

from zaklimot.commands.core import cli
from zaklimot.commands.core.cli import later


# What jobs of the command line are functions of.
_job = partial(later, "zaklimot_dev.testing.checking")


def _parser() -> argparse.ArgumentParser:
    parser = cli.tool_parser(
        "vga-check",
        (
            "Runs the suite and the tests of the tools over the portable program, which it compiles"
            " once."
        ),
        "tools/vga-check",
        "CONTRIBUTING.md",
        cli.JUDGES,
    )
    told = "of the tests these modules alone, such as tests.test_trace (default: all)"
    parser.add_argument("modules", nargs="*", metavar="MODULE", help=told)
    parser.set_defaults(job=_job("check"))
    return parser


# Runs a command line, and answers its exit status.
main = cli.runner(_parser)
