"""The words of the command line."""

import argparse
from functools import partial

from zaklimot.commands.core import cli
from zaklimot.commands.core.cli import later
from zaklimot.commands.core.words import number_to


CHECKS = OF_MANUAL, OF_UNICORN, OF_DESCRIPTORS = ("manual", "unicorn", "descriptors")
# So many instructions are compared with another processor's, if the user doesn't say, and at most.
USUAL = 20_000
MOST_CASES = 10_000_000
# What jobs of the command line are functions of.
_job = partial(later, "zaklimot_dev.machine_tests.command")


def _parser() -> argparse.ArgumentParser:
    parser = cli.tool_parser(
        "vga-machine-tests",
        "Tests the processor of the page's machine, an instruction at a time.",
        "tools/vga-machine-tests --cases 200000",
        "tools/README.md",
        cli.JUDGES,
    )
    parser.set_defaults(job=_job("run_checks"))
    cli.add(
        parser,
        "--only",
        "this check alone; again and again",
        action="append",
        default=[],
        choices=CHECKS,
    )
    told = f"compares so many instructions with Unicorn's (default: {USUAL:,})"
    cli.add(parser, "--cases N", told, type=number_to(MOST_CASES), default=USUAL)
    cli.add(
        parser,
        "--seed N",
        "makes other instructions (default: 1)",
        type=number_to(MOST_CASES),
        default=1,
    )
    return parser


# Runs a command line, and answers its exit status.
main = cli.runner(_parser)
