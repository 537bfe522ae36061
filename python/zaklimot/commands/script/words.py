"""The options of a command that runs the program."""

import argparse

from zaklimot.commands import TOP
from zaklimot.commands.core.cli import add
from zaklimot.commands.core.files import Input


FONTS = TOP / "fonts" / "zaklimot.fnt"


def add_program(parser: argparse.ArgumentParser) -> None:
    """The options of a command that runs the program."""
    add(
        parser,
        "--vga PROGRAM",
        (
            "runs this program (default: one built here, a release's, vga in the path, or one that"
            " is compiled)"
        ),
    )
    add_fonts(parser)


def add_fonts(parser: argparse.ArgumentParser) -> None:
    """The option that names a font file."""
    add(
        parser,
        "--fonts FILE",
        "uses this font file (default: the project's)",
        type=Input,
        default=str(FONTS),
    )
