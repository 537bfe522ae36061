"""The words of the command line."""

import argparse
from functools import partial
from pathlib import Path

from zaklimot.commands.core import cli
from zaklimot.commands.core.cli import later
from zaklimot_dev.words import add_checks


CHECKS = ("python", "rust", "javascript", "rust-examples", "lints", "pages", "crate", "cmake")
# What jobs of the command line are functions of.
_job = partial(later, "zaklimot_dev.library_tests.bindings")


def _parser() -> argparse.ArgumentParser:
    parser = cli.tool_parser(
        "vga-bindings-tests",
        "Tests the packages for Python, Rust and JavaScript.",
        "tools/vga-bindings-tests --library kit --only python",
        "docs/LIBRARY-TESTS.md",
        cli.JUDGES,
    )
    parser.set_defaults(job=_job("run_checks"), archive=None)
    given = parser.add_mutually_exclusive_group()
    cli.add(
        given,
        "--library FOLDER",
        "takes a folder of `vga-library make` (default: makes one)",
        type=Path,
    )
    add_checks(parser, CHECKS, given)
    cli.add(parser, "--ready", "tests nothing, and tells what this machine lacks")
    return parser


# Runs a command line, and answers its exit status.
main = cli.runner(_parser)
