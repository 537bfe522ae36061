"""The words of the command line."""

import argparse
from functools import partial

from zaklimot.commands.core import cli
from zaklimot.commands.core.cli import later


# What jobs of the command line are functions of.
_job = partial(later, "zaklimot_dev.testing.running")


def _parser() -> argparse.ArgumentParser:
    parser = cli.tool_parser(
        "tests-of-tools",
        "Runs the tests of the tools, some at a time.",
        "tools/tests-of-tools tests.test_trace",
        "tools/README.md",
        cli.JUDGES,
    )
    told = "these modules, classes or tests alone, such as tests.test_trace (default: all)"
    parser.add_argument("modules", nargs="*", metavar="MODULE", help=told)
    cli.add(
        parser,
        "--built",
        "fails where the proved program isn't built; else the portable one is tested there",
    )
    parser.set_defaults(job=_job("run"))
    return parser


# Runs a command line, and answers its exit status.
main = cli.runner(_parser)
