"""The words of the command line."""

import argparse
from functools import partial

from zaklimot.commands.core import cli
from zaklimot.commands.core.cli import later


# What jobs of the command line are functions of.
_job = partial(later, "zaklimot_dev.testing.style")


def _parser() -> argparse.ArgumentParser:
    parser = cli.tool_parser(
        "vga-style",
        "Judges how the repository's Python is written: by black, flake8 and mypy.",
        "tools/vga-style",
        "CONTRIBUTING.md",
        cli.JUDGES,
    )
    cli.add(parser, "--ready", "judges nothing, and says which of the three are missing")
    parser.set_defaults(job=_job("judge"))
    return parser


# Runs a command line, and answers its exit status.
main = cli.runner(_parser)
