"""The command `zaklimot`: its commands, and the words of each."""

from __future__ import annotations

import argparse
import sys
from typing import Optional, Sequence

from zaklimot.commands.core import cli
from zaklimot.commands.core.cli import add, later, rule
from zaklimot.commands.core.files import Input, Output
from zaklimot.commands.core.words import MOST_STEP, number_to, seconds
from zaklimot.commands.floppy.words import add_floppy
from zaklimot.commands.images.words import IMAGES, add_shape, within
from zaklimot.commands.report.words import add_command
from zaklimot.commands.script.words import add_fonts
from zaklimot.commands.steps.words import add_steps
from zaklimot.commands.trace.asked import STILL
from zaklimot.commands.trace.words import add_trace


def _add_compare(parser: argparse.ArgumentParser) -> None:
    add(
        parser,
        "ONE",
        "a report, a trace, or the folder of a recording; - is standard input",
        type=Input,
    )
    told = "another one of the same kind; with --expected an expected report, with --step an image"
    add(parser, "OTHER", told, type=Input)
    add(parser, "--all", "tells all steps that differ, and not only the first")
    told = "writes the first picture that differs as PNG, with its differing dots marked"
    add(parser, "--picture FILE", told, type=Output)
    add(parser, "--expected", "OTHER is an expected report, as the suite has them")
    rule(
        parser,
        "expected",
        lambda words: words.all or words.picture is not None or words.step is not None,
        "--expected tells the first step that differs: without --all, --picture and --step",
    )
    told = f"compares the picture of this step with OTHER, {IMAGES}"
    add(parser, "--step N", told, type=number_to(MOST_STEP))
    rule(parser, "step", lambda words: words.all, "--step is of one picture: without --all")
    told = (
        "with --step: takes dots as alike whose components differ by N of 63, or in colours of 5, 6"
        " and 5 bits"
    )
    add(parser, "--within N|5-6-5", told, type=within)
    rule(parser, "within", lambda words: words.step is None, "--within is of a picture: --step N")
    told = (
        f"of traces: compares pictures that stand for so long without a write (default: {STILL:g})"
    )
    add(parser, "--still SECONDS", told, type=seconds)
    add_shape(parser)
    add_fonts(parser)


def _compare(commands: cli.Commands) -> None:
    told = "tells where two reports or recordings differ first, or a picture and an image"
    job = later("zaklimot.commands.comparing", "compare")
    example = "zaklimot compare ours theirs --picture differing.png"
    _add_compare(cli.command(commands, "compare", job, told, example))


def _runner() -> str:
    """What runs scripts. No other word of the command line wants the library."""
    from zaklimot.commands.script.own import told_runner

    return told_runner()


def parser(qemu: Sequence[str] = ()) -> argparse.ArgumentParser:
    """The parser of the command line; the words for qemu, behind `--` of `trace record`, are none
    of its own."""
    tool = cli.tool_parser(
        "zaklimot",
        "Runs scripts on a VGA adapter, and reads reports, traces and single-step tests. `-` is"
        " standard input or output in the place of any file.",
        "zaklimot run examples/lines-and-text.vga --show",
        "tools/README.md",
        cli.DIFFERS,
        _runner,
    )
    commands = tool.add_subparsers(required=True, metavar="COMMAND")
    add_command(commands, "run")
    add_command(commands, "suite")
    add_steps(commands)
    _compare(commands)
    add_command(commands, "pictures")
    add_trace(commands, qemu)
    add_command(commands, "page")
    add_floppy(commands)
    return tool


def main(words: Optional[Sequence[str]] = None) -> int:
    """Runs a command line, and answers its exit status. What stands behind `--` of `trace record`
    is for qemu."""
    given = sys.argv[1:] if words is None else list(words)
    is_recording = given[:2] == ["trace", "record"] and "--" in given
    end = given.index("--") if is_recording else len(given)
    return cli.runner(lambda: parser(given[end + 1 :]))(given[:end])
