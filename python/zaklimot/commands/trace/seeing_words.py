"""The words that tell what is in a trace: its text, and the moments at which it is looked at."""

import argparse
from functools import partial

from zaklimot.commands.core import cli
from zaklimot.commands.core.cli import add, later, rule
from zaklimot.commands.core.files import STANDARD, Input, Output
from zaklimot.commands.core.words import number_to, seconds
from zaklimot.commands.script.words import add_fonts

from .asked import FORMS, PLAIN, USUAL_PAGE

MOST_CYCLES = 1 << 40
MOST_SCREENS = 9999
MOST_PICTURES = 1 << 24
MOST_FOUND = 1 << 20
# The options that name a moment.
MOMENT = ("at", "cycle", "screen", "picture")
_seeing = partial(later, "zaklimot.commands.trace.seeing")
TRACE = (
    "qemu's log or lines of the plain form, also compressed by gzip, or the folder of a recording;"
    " - is standard input"
)
TYPED = "examples/typed-line.trace"


def add_moment(parser: argparse.ArgumentParser) -> None:
    """The options that name a moment of a trace."""
    one = parser.add_mutually_exclusive_group()
    told = "so many seconds after the first cycle (default: at the end)"
    add(one, "--at SECONDS", told, type=seconds)
    add(one, "--cycle N", "after so many cycles", type=number_to(MOST_CYCLES))
    told = "where `record` took this screen, counted from 1"
    add(one, "--screen N", told, type=number_to(MOST_SCREENS))
    told = "at this picture of those that `pictures` writes, counted from 1"
    add(one, "--picture N", told, type=number_to(MOST_PICTURES))


def has_moment(words: argparse.Namespace) -> bool:
    """Whether words name a moment."""
    return any(getattr(words, name) is not None for name in MOMENT)


def _add_code_page(parser: argparse.ArgumentParser) -> None:
    told = (
        "which characters the codes are: a code page of Python's, such as cp850"
        f" (default: {USUAL_PAGE})"
    )
    add(parser, "--code-page NAME", told, default=USUAL_PAGE)


def add_text(commands: cli.Commands) -> None:
    """Adds the command `text` to those of `trace`."""
    told = "writes the text that is shown at a moment, or tells when and where a text is shown"
    note = "With --find the exit status is 1 if no screen shows it. Rows and columns count from 0."
    example = f"zaklimot trace text {TYPED} --form ansi"
    made = cli.command(commands, "text", _seeing("show_text"), told, example, note)
    add(made, "TRACE", TRACE, type=Input)
    add_moment(made)
    add_fonts(made)
    told = "the text; - is standard output (default: -)"
    add(made, "OUTPUT", told, nargs="?", type=Output, default=STANDARD)
    told = (
        "as text alone, with the colours of a terminal of 24 bits, or as a page of HTML (default:"
        f" {PLAIN})"
    )
    add(made, "--form", told, choices=FORMS, default=PLAIN)
    _add_code_page(made)
    _add_find(made)


def _add_find(made: argparse.ArgumentParser) -> None:
    """The options that look for a text at all moments."""
    told = "tells when and where this text is shown, within a row, at any moment"
    add(made, "--find TEXT", told, type=_wanted)
    told = "--find looks at all moments, and writes no text: without a moment, OUTPUT and --form"
    rule(made, "find", lambda words: _is_of_one(words), told)
    add(made, "--any-case", "takes capital and small letters as alike")
    add(made, "--most N", "tells at most N places (default: all)", type=number_to(MOST_FOUND))
    for name in ("any_case", "most"):
        spelt = "--" + name.replace("_", "-")
        rule(made, name, lambda words: words.find is None, f"{spelt} is for --find")


def _is_of_one(words: argparse.Namespace) -> bool:
    """Whether words ask for the text of one moment."""
    return has_moment(words) or words.output != STANDARD or words.form != PLAIN


def _wanted(word: str) -> str:
    if not word.strip():
        raise argparse.ArgumentTypeError("there is nothing to look for")
    return word
