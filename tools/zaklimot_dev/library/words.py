"""The words of the command line."""

import argparse
from functools import partial

from zaklimot.commands.core import cli
from zaklimot.commands.core.cli import add, later
from zaklimot.commands.core.files import Input, Output
from zaklimot_dev.words import add_proof


# The processors; Rattle's compilers, LLVM and one that is written in Rattle; and the archive of the
# crate that these make.
PROCESSORS = ("x86_64", "aarch64")
BACKENDS = ("llvm", "rattle")
ARCHIVE_NAME = "libvga_c.a"
# Where files go that a package names no other place for.
USUAL_PREFIX = "/usr/local"
# What jobs of the command line are functions of.
_job = partial(later, "zaklimot_dev.library.command")


def _add_archive(parser: argparse.ArgumentParser) -> None:
    add(
        parser,
        "--target",
        "the processor, with Linux (default: x86_64)",
        choices=PROCESSORS,
        default=PROCESSORS[0],
    )
    told = "the compiler: llvm, or rattle, which is written in Rattle (default: llvm)"
    add(parser, "--backend", told, choices=BACKENDS, default=BACKENDS[0])
    told = (
        f"takes this archive of the crate, as {ARCHIVE_NAME} (default: `rt lib` proves and"
        " builds it)"
    )
    add(parser, "--archive FILE", told, type=Input)


def _parser() -> argparse.ArgumentParser:
    parser = cli.tool_parser(
        "vga-library", "Makes the library for C.", "tools/vga-library make kit", "docs/LIBRARY.md"
    )
    commands = parser.add_subparsers(required=True, metavar="COMMAND")
    told = "makes the library in a folder, which you may move"
    made = cli.command(commands, "make", _job("make"), told, "tools/vga-library make kit")
    add(made, "FOLDER", "gets include/, lib/ and lib/pkgconfig/")
    _add_archive(made)
    told = "installs the library below a prefix, as packagers do; takes what `make` has made"
    example = 'tools/vga-library install --prefix "$HOME/.local"'
    note = "PREFIX and DESTDIR of the environment are the defaults of --prefix and --destdir."
    made = cli.command(commands, "install", _job("install"), told, example, note)
    add(made, "--prefix FOLDER", f"the prefix (default: {USUAL_PREFIX})")
    told = "stands before the prefix while files are installed (default: nothing)"
    add(made, "--destdir FOLDER", told)
    told = "the folder of libraries below the prefix (default: lib)"
    add(made, "--libdir NAME", told, default="lib")
    _add_archive(made)
    told = "makes the library as one C file, which any C compiler takes"
    example = "tools/vga-library one-file portable/zaklimot.c"
    note = "The file is made of the proved crate, by programs that no proof covers."
    made = cli.command(commands, "one-file", _job("make_one_file"), told, example, note)
    add(made, "FILE", "the C file, portable/zaklimot.c in the repository", type=Output)
    add_proof(made, usually=" (default: `rt check` proves)")
    return parser


# Runs a command line, and answers its exit status.
main = cli.runner(_parser)
