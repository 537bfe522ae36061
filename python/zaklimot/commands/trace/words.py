"""The words of the command line, and what its options ask of one another."""

import argparse
import re
from functools import partial
from typing import Any, Sequence

from zaklimot.commands.core import cli
from zaklimot.commands.core.cli import add, later, rule
from zaklimot.commands.core.files import Input, Output, PictureFolder
from zaklimot.commands.core.words import number_to, seconds
from zaklimot.commands.images.words import add_shape
from zaklimot.commands.script.words import add_fonts, add_program

from .asked import CLOCK, END, FIRST, FLIP, KEEP, QUIET, SCREENS, SPEEDS, USUAL_SPEED, Deed
from .seeing_words import MOMENT, MOST_CYCLES, TRACE, add_moment, add_text


CONVERTING = "zaklimot trace convert examples/typed-line.trace script.bin"
MOST_KINDS = 1 << 20
# What jobs of the command line are functions of.
_job = partial(later, "zaklimot.commands.trace.command")


def _add_trace(parser: argparse.ArgumentParser) -> None:
    add(parser, "TRACE", TRACE, type=Input)
    numbers = {"type": number_to(MOST_CYCLES)}
    add(parser, "--to N", "takes only the first N cycles (default: all)", **numbers)
    told = "begins with the Nth cycle (default: 1)"
    add(parser, "--from N", told, dest="from_", default=1, **numbers)
    told = "--from {from_} is after --to {to}: no cycle is both"
    rule(parser, "to", lambda words: words.from_ > words.to, told)


def _add_listing(parser: argparse.ArgumentParser) -> None:
    add(parser, "--text", "makes a script as text, with the trace's reads as expected answers")
    told = "makes a script of version 1 (default: equal steps become repeats of version 2)"
    add(parser, "--no-repeat", told, dest="repeat", action="store_false")
    told = "keeps all reads of input status 1, or only the first of several (default: keep)"
    add(parser, "--polls", told, choices=[KEEP, FIRST], default=KEEP)
    add(parser, "--time", "lets the clock run by the trace's times, at most a frame for each pause")
    told = (
        "adds frames: only at the end, before each change of the start address, where `record` took"
        " a screen, in each frame of the dot clock with a write, or every SECONDS by the trace's"
        " times"
    )
    frames: dict[str, Any] = {
        "default": END,
        "type": lambda word: word if word in (END, FLIP, SCREENS, CLOCK) else seconds(word),
    }
    add(parser, "--frames end|flip|screens|clock|SECONDS", told, **frames)
    told = "frames by the clock have the time already: without --time"
    rule(parser, "time", lambda words: words.frames == CLOCK, told)
    _add_longest(parser)


def _add_longest(parser: argparse.ArgumentParser) -> None:
    told = "with frames by the clock: the longest time without writes (default: 1)"
    add(parser, "--longest SECONDS", told, type=seconds, default=1)


# The options of a recording by qemu that mean nothing to the page's machine, and those that mean
# nothing to qemu.
OF_QEMU = {
    "qemu": "what stands behind `--`",
    "chain_4": "--chain-4",
    "card": "--card",
    "polls": "--polls",
    "beam": "--beam",
}
OF_PAGE = ("speed", "rom", "start")


def _deed(word: str) -> Deed:
    """Reads keys, with their time or without: `2.5:ret`, `c,l,s,ret`."""
    time, colon, keys = word.rpartition(":")
    if not re.fullmatch("[a-z0-9_]+([-,][a-z0-9_]+)*", keys):
        raise argparse.ArgumentTypeError(
            f"'{word}' is no key of qemu's, as `ret`, `2.5:down,ret` or `ctrl-c`"
        )
    return Deed(seconds(time) if colon else None, tuple(keys.split(",")))


def _is_for_recording(words: argparse.Namespace) -> object:
    """Whether words have anything that a recording alone needs."""
    return words.in_page or words.deeds or any(getattr(words, name) for name in OF_QEMU)


def _add_record(parser: argparse.ArgumentParser) -> None:
    add(parser, "FOLDER", "a new folder, or an empty one")
    told = "qemu needs words after `--`, as `-- -cdrom disc.iso`; and the page's machine, "
    told += "--in-page FILE"
    rule(
        parser,
        "folder",
        lambda words: words.in_page is None and not words.qemu and not words.again,
        told,
    )
    _add_deeds(parser)
    _add_page_machine(parser)
    told = "takes the software as quiet after so long without a cycle (default: 3)"
    add(parser, "--quiet SECONDS", told, type=seconds, default=3)
    told = "ends the machine after so many seconds (default: 60)"
    add(parser, "--seconds SECONDS", told, type=seconds, default=60)
    add(parser, "--chain-4", "records mode 13 too, by a plugin for qemu 7.2 that gcc builds")
    add(parser, "--card DEVICE", "takes this VGA of qemu's devices (default: VGA)")
    told = (
        "keeps all reads of input status 1, or only the first of several, with the number of the"
        " others (default: keep)"
    )
    add(parser, "--polls", told, choices=[KEEP, FIRST])
    told = "has input status 1 tell where a beam would be, so that software can wait for it"
    add(parser, "--beam", told)
    add(parser, "--again", "judges once more what is recorded in the folder")
    told = "--again judges what is recorded, and takes --vga and --fonts alone"
    rule(parser, "again", _is_for_recording, told)
    add_program(parser)
    for name, called in OF_QEMU.items():
        told = f"{called} is for qemu, and not for --in-page"
        rule(parser, name, lambda words: words.in_page is not None, told)


def _add_deeds(parser: argparse.ArgumentParser) -> None:
    told = (
        "presses keys so many seconds after power-on, or once the software is quiet; may be"
        " repeated"
    )
    many: dict[str, Any] = {"dest": "deeds", "action": "append"}
    add(parser, "--key [SECONDS:]KEY,..", told, type=_deed, default=[], **many)
    told = (
        "dumps the screen, among the keys in the order of the words (default: at the end, once it"
        " is quiet)"
    )

    def screen(word: str) -> Deed:
        return Deed(None if word == QUIET else seconds(word))

    add(parser, "--screen quiet|SECONDS", told, type=screen, **many)


def _add_page_machine(parser: argparse.ArgumentParser) -> None:
    told = (
        "runs this file on the machine of the page, in node, instead of on qemu: a program for DOS,"
        " a floppy, a disk, a ZIP, or a run that the page has saved, whose keys come again. Seconds"
        " are the machine's then, and not the clock's"
    )
    add(parser, "--in-page FILE", told, type=Input)
    speeds = f"{', '.join(SPEEDS)} (default: {USUAL_SPEED})"
    told = f"the processor's speed in the page's machine: {speeds}"
    add(parser, "--speed NAME", told, choices=SPEEDS)
    told = "the ROM of a video BIOS, which serves interrupt 10 of the page's machine"
    add(parser, "--rom FILE", told, type=Input)
    told = "what the page's machine runs of a ZIP in which several files can run"
    add(parser, "--start NAME", told)
    for name in OF_PAGE:
        told = f"--{name} is for --in-page alone"
        rule(parser, name, lambda words: words.in_page is None, told)


def _add_pictures(parser: argparse.ArgumentParser) -> None:
    told = "the folder for PNG files, which are named by the second of each"
    add(parser, "FOLDER", told, nargs="?", type=PictureFolder)
    told = "name a folder for the pictures, or by --png, --apng or --video a file"
    rule(parser, "trace", lambda words: not (words.png or words.folder or _moves(words)), told)
    told = "writes the picture of one moment, by default of the end"
    add(parser, "--png FILE", told, type=Output)
    add_moment(parser)
    told = "--png writes one picture: without a folder, --apng, --video, --beam, --from and --to"
    rule(parser, "png", _asks_for_many, told)
    for name in MOMENT:
        told = f"--{name} is for --png, which writes the picture of one moment"
        rule(parser, name, lambda words: words.png is None, told)
    add(parser, "--apng FILE", "writes one picture that moves, in real time", type=Output)
    told = "writes a video, .mp4 or .webm, which ffmpeg makes"
    add(parser, "--video FILE", told, type=Output)
    told = "draws what changes within a frame where the beam was by the trace's times"
    add(parser, "--beam", told)
    add_shape(parser)
    _add_longest(parser)
    add_fonts(parser)


def _moves(words: argparse.Namespace) -> bool:
    """Whether words ask for pictures that move."""
    return bool(words.apng or words.video)


def _asks_for_many(words: argparse.Namespace) -> bool:
    """Whether words ask for the pictures of a trace or of a part of it."""
    is_part = words.to is not None or words.from_ != 1
    return bool(words.folder or _moves(words) or words.beam or is_part)


def _add_conversions(commands: cli.Commands) -> None:
    told = "makes a script of a trace"
    made = cli.command(commands, "convert", _job("convert_trace"), told, CONVERTING)
    _add_trace(made)
    add(made, "SCRIPT", "the script; - is standard output", type=Output)
    _add_listing(made)
    told = "compares a script's report with the trace; takes the options of convert"
    example = "zaklimot trace check examples/typed-line.trace report.txt"
    made = cli.command(commands, "check", _job("check_report"), told, example)
    _add_trace(made)
    add(made, "REPORT", "the report; - is standard input", type=Input)
    told = "tells at most N kinds of refusals, of reads, and of reads that differ (default: 40)"
    add(made, "--most N", told, type=number_to(MOST_KINDS), default=40)
    _add_listing(made)


def add_trace(commands: cli.Commands, qemu: Sequence[str] = ()) -> None:
    """Adds the command `trace`, with its own commands; the words for qemu, behind `--` of `record`,
    are none of them."""
    told = "records what software does to a VGA, makes scripts and pictures of it, and judges it"
    made = cli.group(commands, "trace", told, CONVERTING, "docs/TRACES.md")
    _add_recording(made, qemu)
    _add_conversions(made)
    told = "makes the pictures of a trace, in real time, or the picture of a moment"
    example = "zaklimot trace pictures examples/typed-line.trace --apng typed-line.png"
    pictures = cli.command(made, "pictures", _job("make_pictures"), told, example)
    _add_trace(pictures)
    _add_pictures(pictures)
    add_text(made)


def _add_recording(commands: cli.Commands, qemu: Sequence[str]) -> None:
    told = "records on qemu or on the page's machine, replays, and compares the screens of both"
    example = "zaklimot trace record recorded --key 2:ret -- -cdrom disc.iso"
    note = "After `--` stand qemu's words for what it boots."
    usage = (
        "zaklimot trace record [OPTION..] FOLDER -- QEMU-WORD..\n"
        "       zaklimot trace record [OPTION..] FOLDER --in-page FILE\n"
        "       zaklimot trace record FOLDER --again"
    )
    job = _job("record_software")
    made = cli.command(commands, "record", job, told, example, note, usage=usage)
    made.set_defaults(qemu=list(qemu) or None)
    _add_record(made)
