"""The words of the command line."""

import argparse
from functools import partial

from zaklimot.commands.core import cli
from zaklimot.commands.core.cli import later, rule
from zaklimot.commands.core.files import Input, Output
from zaklimot.commands.core.words import MEBIBYTE, number_to
from zaklimot_dev.words import add_proof


# The page has so many bytes at most, and the memory of a module so many MiB.
MOST_BYTES = 1_000_000
MOST_MEBIBYTES = 4096
# What jobs of the command line are functions of.
_job = partial(later, "zaklimot_dev.page.command")


def _parser() -> argparse.ArgumentParser:
    parser = cli.tool_parser(
        "vga-page",
        "Makes the page that runs scripts in a browser.",
        "tools/vga-page make page/zaklimot.html",
        "tools/README.md",
    )
    commands = parser.add_subparsers(required=True, metavar="COMMAND")
    told = f"makes the page: one file of at most {MOST_BYTES:,} bytes"
    usually = " (default: `rt check` proves)"
    example = "tools/vga-page make page/zaklimot.html"
    made = cli.command(commands, "make", _job("make"), told, example)
    cli.add(made, "FILE", "the page, page/zaklimot.html in the repository", type=Output)
    cli.add(made, "--module FILE", "takes this module (default: makes one)", type=Input)
    told = "--module takes a module as it is, so --gated proves nothing"
    rule(made, "module", lambda words: words.gated, told)
    add_proof(made, usually=usually)
    made.set_defaults(memory=None)
    told = "proves the library's crate, and makes a WebAssembly module of it alone"
    example = "tools/vga-page module zaklimot.wasm"
    made = cli.command(commands, "module", _job("make_module"), told, example)
    cli.add(made, "FILE", "the module", type=Output)
    told = "fixes the size of its memory, so that tests see it spent (default: it grows)"
    cli.add(
        made, "--memory MIB", told, type=lambda word: number_to(MOST_MEBIBYTES)(word) * MEBIBYTE
    )
    add_proof(made, usually=usually)
    made.set_defaults(module=None)
    told = "makes what the page has of python/zaklimot/commands/explain/wordings.json, as a module"
    example = "tools/vga-page wordings page/script/wordings.js"
    made = cli.command(commands, "wordings", _job("make_wordings"), told, example)
    cli.add(made, "FILE", "the module, page/script/wordings.js in the repository", type=Output)
    return parser


# Runs a command line, and answers its exit status.
main = cli.runner(_parser)
