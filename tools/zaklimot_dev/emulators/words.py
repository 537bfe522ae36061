"""The words of the command line."""

import argparse
from pathlib import Path

from zaklimot.commands.core import cli
from zaklimot.commands.core.cli import add, later
from zaklimot.commands.core.files import Input


# The modes in which a video BIOS draws, and the software that is recorded.
MODES = ("03", "07", "0d", "10", "12", "13")
SOFTWARE = (
    "grub-text",
    "grub-planar",
    "grub-planar-keys",
    *(f"calls-{mode}-{bios}" for bios in ("sea", "lgpl") for mode in MODES),
    "calls-13-cirrus",
    "linux",
    "linux-font",
    "memtest",
)
# What jobs of the command line are functions of.
JOBS = "zaklimot_dev.emulators"


def _parser() -> argparse.ArgumentParser:
    parser = cli.tool_parser(
        "vga-emulators",
        "Records software on qemu and replays it, and makes the tables of emulators.",
        "tools/vga-emulators record recordings grub-text",
        "tools/README.md",
        cli.JUDGES,
    )
    commands = parser.add_subparsers(required=True, metavar="COMMAND")
    told = "records software on qemu, replays it, and prints a row for each"
    job = later(f"{JOBS}.traces", "replay_all")
    example = "tools/vga-emulators record recordings grub-text"
    made = cli.command(commands, "record", job, told, example)
    add(made, "FOLDER", "where the recordings are, or go", type=Path)
    add(made, "NAMES", f"of {', '.join(SOFTWARE)} (default: all)", metavar="NAME", nargs="*")
    add(made, "--unpacked FOLDER", "packages of Debian, unpacked", type=Path)
    told = "writes the suite's results into a page"
    job = later(f"{JOBS}.table_page", "write_results")
    example = "tools/vga-emulators table docs/EMULATORS-TABLE.md kept/*.json"
    made = cli.command(commands, "table", job, told, example)
    add(made, "PAGE", "the page, with the marks between which they stand", type=Input)
    told = "what `zaklimot suite --json` printed of `zaklimot floppy run`"
    add(made, "RESULTS", told, nargs="+", type=Input)
    return parser


# Runs a command line, and answers its exit status.
main = cli.runner(_parser)
