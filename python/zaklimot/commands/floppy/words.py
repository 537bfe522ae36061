"""The words of the command line."""

import argparse
from functools import partial

from zaklimot.commands.core import cli
from zaklimot.commands.core.cli import add, later
from zaklimot.commands.core.files import STANDARD, Input, Output, OutputOrFolder
from zaklimot.commands.core.words import seconds

from .asked import BIOSES, EMULATORS


# What jobs of the command line are functions of.
_job = partial(later, "zaklimot.commands.floppy.command")


def _add_script(parser: argparse.ArgumentParser) -> None:
    told = "the script, as text or bytes, or a folder of `suite --scripts`; - is standard input"
    add(parser, "SCRIPT", told, type=Input)


def _add_report(parser: argparse.ArgumentParser) -> None:
    told = "the report, or a folder for the reports of several scripts (default: standard output)"
    add(parser, "REPORT", told, nargs="?", default=STANDARD, type=OutputOrFolder)
    told = "tells all registers that a call leaves, and not only those in which the service answers"
    add(parser, "--all-registers", told)


def _add_make(commands: cli.Commands) -> None:
    told = "makes the image of a floppy or a stick that runs a script, or many"
    example = "zaklimot floppy make examples/asked-of-machines.vga floppy.img"
    made = cli.command(commands, "make", _job("make_image"), told, example)
    _add_script(made)
    add(made, "--disk", "writes a partition table, for a stick or a hard disk (default: a floppy)")
    add(made, "IMAGE", "the image, of 1,474,560 bytes; - is standard output", type=Output)


def _add_read(commands: cli.Commands) -> None:
    told = "gives the report of what a run has left"
    example = "zaklimot floppy read floppy.img"
    made = cli.command(commands, "read", _job("read_run"), told, example)
    add(made, "FILE", "the image, or with --serial the record; - is standard input", type=Input)
    add(made, "--serial", "FILE is what came over the serial port")
    told = "takes a record that ends too early: gives the report up to there"
    add(made, "--part", told)
    _add_report(made)


def _add_run(commands: cli.Commands) -> None:
    told = "runs a script on an emulator, and gives the report"
    example = "zaklimot floppy run --on qemu examples/asked-of-machines.vga"
    made = cli.command(commands, "run", _job("run_script"), told, example)
    add(made, "--on", "the emulator", required=True, choices=EMULATORS)
    told = "the video BIOS (default: sea on qemu, lgpl on bochs)"
    add(made, "--bios", told, choices=BIOSES)
    told = "how long it may take, without the time that it waits for a processor (default: 30)"
    add(made, "--seconds N", told, type=seconds, default=30)
    add(made, "--picture FILE", "writes the last screen as PNG", type=Output)
    _add_script(made)
    _add_report(made)


def add_floppy(commands: cli.Commands) -> None:
    """Adds the command `floppy`, with its own commands."""
    told = "runs scripts on machines: by a floppy on a PC, or on an emulator"
    example = "zaklimot floppy run --on dosbox examples/asked-of-machines.vga"
    made = cli.group(commands, "floppy", told, example, "docs/REAL-MACHINES.md")
    _add_make(made)
    _add_read(made)
    _add_run(made)
