"""The words of the command line."""

import argparse
from functools import partial

from zaklimot.commands.core import cli
from zaklimot.commands.core.cli import later
from zaklimot_dev.words import add_checks


CHECKS = OF_MODULE, OF_PAGE, OF_SUITE, OF_HEAP, OF_SCRIPTS, OF_OWN = (
    "module",
    "page",
    "suite",
    "heap",
    "scripts",
    "own",
)
# What jobs of the command line are functions of.
_job = partial(later, "zaklimot_dev.page_tests.command")


def _parser() -> argparse.ArgumentParser:
    parser = cli.tool_parser(
        "vga-page-tests",
        "Tests the page that runs scripts in a browser, and its module.",
        "tools/vga-page-tests --only page",
        "tools/README.md",
        cli.JUDGES,
    )
    parser.set_defaults(job=_job("run_checks"))
    cli.add(parser, "--module FILE", "takes this module (default: makes one)")
    add_checks(parser, CHECKS)
    cli.add(parser, "--ready", "tests nothing, and tells what this machine lacks")
    cli.add(parser, "--browser", "tests only the page as built, in Chromium, Firefox and WebKit")
    return parser


# Runs a command line, and answers its exit status.
main = cli.runner(_parser)
