"""The words of the command line, and what its options ask of one another."""

import argparse
import os
from functools import partial
from typing import Any, Callable, NamedTuple

from zaklimot.commands.core import cli
from zaklimot.commands.core.cli import add, later, rule
from zaklimot.commands.core.files import STANDARD, Input, Output, PictureFolder
from zaklimot.commands.core.words import MOST_JOBS, MOST_OUTPUT, MOST_STEP, number_to, seconds
from zaklimot.commands.images.words import add_shape
from zaklimot.commands.script.words import add_fonts, add_program

from .places import SUITE

# The words of the commands that have no option's name, and what each is.
FILES: dict[str, tuple[str, Callable[[str], object]]] = {
    "SCRIPT": ("the script, as text or bytes, or a folder of scripts", Input),
    "REPORT": ("the report of a run", Input),
}
COMMAND = """the command that runs a case, as one word of the shell. In it these places are filled:
{script} the file of the case's script, {fonts} the font file, {name} the case's name, and {until},
which becomes `--until N` where the run is to stop"""
MANY: dict[str, Any] = {"action": "append", "default": []}


def is_several(words: argparse.Namespace) -> bool:
    """Whether the scripts of a folder are run, or one as if it were in a folder."""
    return words.junit is not None or os.path.isdir(words.script)


def _has_pictures(words: argparse.Namespace) -> bool:
    return words.bless or words.pictures is not None or words.show


def _add_cases(parser: argparse.ArgumentParser) -> None:
    told = "reads this list of cases (default: the project's)"
    add(parser, "--list FILE", told, type=Input, default=str(SUITE))
    told = "takes only cases whose names begin with PREFIX; may be repeated"
    add(parser, "--only PREFIX", told, **MANY)
    told = "leaves out cases whose names begin with PREFIX; may be repeated"
    add(parser, "--except PREFIX", told, dest="except_", **MANY)


def _add_machine(parser: argparse.ArgumentParser) -> None:
    told = "cases that it can answer, each up to the first refused step"
    add(parser, "--machine", f"for a machine, which refuses nothing: {told}")


def _add_suite(parser: argparse.ArgumentParser) -> None:
    add(parser, "COMMAND", COMMAND, nargs="?")
    # What stands behind a command that isn't quoted is told.
    parser.add_argument("rest", nargs="*", help=argparse.SUPPRESS)
    told = "the command is one word of the shell: '{command} {rest[0]}'"
    rule(parser, "rest", lambda words: words.rest, told)
    told = "runs nothing, and writes the scripts into a new folder, as the command would get them"
    add(parser, "--scripts FOLDER", told)
    told = "name a command that runs a case, or by --scripts a folder for the scripts"
    rule(parser, "rest", lambda words: (words.command is None) == (words.scripts is None), told)
    add(parser, "--keep FOLDER", "keeps the reports and pictures of cases that don't agree")
    add(parser, "--bytes COMMAND", "the command for scripts as bytes; without it they are skipped")
    _add_cases(parser)
    _add_machine(parser)
    told = "counts a step as skipped where a refusal is expected"
    add(parser, "--no-refusals", told, dest="refusals", action="store_false")
    add(
        parser, "--timeout SECONDS", "the time of each case (default: 60)", type=seconds, default=60
    )
    told = "the most that a case's report may have (default: 256)"
    add(parser, "--output MIB", told, type=number_to(MOST_OUTPUT), default=256)
    told = "runs N commands at a time (default: 1)"
    add(parser, "--jobs N", told, type=number_to(MOST_JOBS), default=1)
    add(parser, "--fail-fast", "stops at the first case that differs or fails")
    add(parser, "--json", "prints the table as JSON")


def _add_run(parser: argparse.ArgumentParser) -> None:
    _add_files(parser, "SCRIPT")
    add_program(parser)
    told = "stops after N steps, and shows the state"
    add(parser, "--until N", told, type=number_to(MOST_STEP, 0))
    told = "shows only these steps, as 10-20,refused; also read, pictures, dumps, differs"
    add(parser, "--only WHICH", told)
    told = "writes the pictures of the steps that --only names, or of all, as NNNN.png"
    add(parser, "--pictures FOLDER", told, type=PictureFolder)
    add(parser, "--show", "shows pictures as blocks of colour")
    _add_blessing(parser)
    add(parser, "--strict", "counts a refusal that is not expected as a difference")
    add(parser, "--quiet", "shows only the answers that differ, and the last line")
    add(parser, "--json FILE", "writes steps, answers, digests and refusals as JSON", type=Output)
    _add_folders(parser)
    add_shape(parser)


def _add_blessing(parser: argparse.ArgumentParser) -> None:
    wanted = partial(rule, parser)
    add(parser, "--bless", "writes answers that are not as expected into the script")
    wanted(
        "bless",
        lambda words: words.script == STANDARD or words.until is not None,
        "--bless writes into the script, whole: it wants a file, and no --until",
    )
    told = "--bless lists its changes: without --json"
    wanted("bless", lambda words: words.json is not None, told)


def _add_folders(parser: argparse.ArgumentParser) -> None:
    told = "writes the result of each script as XML for test runners"
    add(parser, "--junit FILE", told, type=Output)
    told = "runs N scripts of a folder at a time (default: 1)"
    add(parser, "--jobs N", told, type=number_to(MOST_JOBS), default=1)
    rule(
        parser,
        "script",
        lambda words: is_several(words) and (_has_pictures(words) or words.only is not None),
        "a folder of scripts, and --junit, want none of --bless, --only, --pictures and --show",
    )


def _add_pictures(parser: argparse.ArgumentParser) -> None:
    wanted = partial(rule, parser)
    _add_files(parser, "REPORT")
    add(parser, "FOLDER", "where the files go", nargs="?", type=PictureFolder)
    told = "writes one picture that moves, each frame as long as it lasts"
    add(parser, "--apng FILE", told, type=Output)
    told = "takes the frames' times from this script (default: 70 frames a second)"
    add(parser, "--script SCRIPT", told, type=Input)
    add(parser, "--ppm", "writes the bytes as they are, as NNNN.ppm, instead of PNG")
    told = "--ppm gives the bytes as they are, with neither --scale nor --aspect"
    wanted("ppm", lambda words: words.scale != 1 or words.aspect, told)
    told = "the pictures want a folder, or --apng a file"
    wanted("report", lambda words: words.folder is None and words.apng is None, told)
    told = "--apng writes one file, with neither a folder nor --ppm"
    wanted("apng", lambda words: words.folder is not None or words.ppm, told)
    told = "writes only the picture of this step; may be repeated"
    add(parser, "--step N", told, type=number_to(MOST_STEP), **MANY)
    add_shape(parser)


def _add_files(parser: argparse.ArgumentParser, *names: str) -> None:
    for name in names:
        told, kind = FILES[name]
        add(parser, name, told + ("; - is standard input" if kind is Input else ""), type=kind)


class CommandWords(NamedTuple):
    """A command: the module of its job, what it does, what adds its words to a parser, and an
    example of them."""

    module: str
    does: str
    add_words: Callable[[argparse.ArgumentParser], object]
    example: str


def _add_page(parser: argparse.ArgumentParser) -> None:
    add(parser, "SCRIPT", "the script, as text or bytes; - is standard input", type=Input)
    add(parser, "PAGE", "the page, one file of HTML; - is standard output", type=Output)
    told = "tells the address that opens the page after N steps"
    add(parser, "--until N", told, type=number_to(MOST_STEP, 0))
    add_fonts(parser)


COMMANDS: dict[str, CommandWords] = {
    "run": CommandWords(
        "runs",
        "runs a script, or each one of a folder, and shows steps beside their lines and answers",
        _add_run,
        "examples/driver-test.vga --only refused,differs",
    ),
    "suite": CommandWords(
        "suite",
        "runs the cases of the suite by a command, such as an emulator's, and judges its reports",
        _add_suite,
        "'tools/vga go {script} --fonts {fonts} {until}' --only host/",
    ),
    "pictures": CommandWords(
        "reports",
        "writes the pictures of a report as files",
        _add_pictures,
        "report.txt pictures --scale 2",
    ),
    "page": CommandWords(
        "debugging",
        "writes a page that runs a script in a browser, step by step; nothing is run here",
        _add_page,
        "examples/hunt.vga page.html",
    ),
}


def add_command(commands: cli.Commands, name: str, is_whole: bool = True) -> None:
    """Adds a command of this part, with its words or by its name alone."""
    told = COMMANDS[name]
    job = later(f"zaklimot.commands.report.{told.module}", name)
    made = cli.command(commands, name, job, told.does, f"zaklimot {name} {told.example}")
    if is_whole:
        told.add_words(made)
