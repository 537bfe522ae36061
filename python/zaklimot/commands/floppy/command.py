"""What each command of `floppy` does."""

import argparse
import os
from pathlib import Path
from typing import Optional, Sequence

from zaklimot.format import MOST_BYTES, Script
from zaklimot.commands.core.files import STANDARD, name_of
from zaklimot.commands.core.progress import Progress
from zaklimot.commands.core.streams import (
    check_file,
    empty_folder,
    read_at_most,
    reading,
    write_file,
    writing,
)
from zaklimot.commands.core.trouble import Trouble
from zaklimot.commands.explain.faults import script_of
from zaklimot.commands.images.png import save_png
from zaklimot.commands.report.places import LIST

from .image import (
    IMAGE_SIZE,
    Run,
    image_for,
    read_image,
    read_record,
    report_lines,
    reports,
)
from .running import MACHINES, SeenRuns, UnseenRuns

# A longer file is no image and no record.
MOST_READ = 1 << 26


def _script(path: str) -> Script:
    with reading(path) as stream:
        return script_of(stream.read(MOST_BYTES + 1), name_of(path))


def scripts_of(path: str) -> dict[str, Script]:
    """The script of a file; or those of a folder, by the names that its list has."""
    if not os.path.isdir(path):
        return {"": _script(path)}
    if not os.path.exists(os.path.join(path, LIST)):
        raise Trouble(
            f"it is a folder without {LIST}, which `zaklimot suite --scripts` writes", path
        )
    listed = read_at_most(os.path.join(path, LIST), MOST_BYTES)
    names = [os.fsdecode(line.split(b" ")[0]) for line in listed.split(b"\n") if line]
    # The names in the list have the ends that tell text from bytes, and those of reports have none.
    return {os.path.splitext(name)[0]: _script(os.path.join(path, name)) for name in names}


def _reports_folder(
    words: argparse.Namespace, names: Sequence[str], what: str, name: str
) -> Optional[Path]:
    """The folder for the reports of scripts of these names; None where there is one report, which
    is a file. `what` stands before the number of scripts in what is told."""
    if words.report == STANDARD and len(names) != 1:
        raise Trouble(f"it has {what}{len(names)} scripts: name a folder for their reports", name)
    # A script of a folder has a name, and its report is a file of a folder too, be it the only one.
    if words.report == STANDARD or [*names] == [""]:
        check_file(words.report)
        return None
    return empty_folder(words.report)


def _write_report(words: argparse.Namespace, run: Run, name: str, folder: Optional[Path]) -> None:
    if folder is None:
        with writing(words.report) as stream:
            stream.writelines(report_lines(run, name, words.all_registers))
        return
    for report in reports(run, name, words.all_registers):
        path = folder / f"{report.name}.report"
        if ".." in path.parts or folder not in path.parents:
            raise Trouble(
                f"a script has the name of a file outside of a folder: '{report.name[:40]}'", name
            )
        path.parent.mkdir(parents=True, exist_ok=True)
        with writing(str(path)) as stream:
            stream.writelines(report.lines)


def make_image(words: argparse.Namespace, _: Progress) -> None:
    """Makes the image of a drive that runs a script, or many."""
    write_file(
        words.image, image_for(scripts_of(words.script), name_of(words.script), is_disk=words.disk)
    )


def read_run(words: argparse.Namespace, _: Progress) -> None:
    """Gives the report of what a run has left."""
    name = name_of(words.file)
    with reading(words.file) as stream:
        data = stream.read(MOST_READ if words.serial else IMAGE_SIZE)
    run = read_record(data, name) if words.serial else read_image(data, name)
    if not run.is_whole and not words.part:
        came = f"{len(run.answers):,} of {run.table.answer_length():,} bytes of answers came"
        raise Trouble(
            f"the record ends before the run did: {came}; --part gives the report so far", name
        )
    names = [one.name for one in run.table.scripts()]
    _write_report(words, run, name, _reports_folder(words, names, "the answers of ", name))


def run_script(words: argparse.Namespace, _: Progress) -> None:
    """Runs a script on an emulator, and gives the report."""
    scripts = scripts_of(words.script)
    name = name_of(words.script)
    # What is wrong with where reports go is told before the run.
    folder = _reports_folder(words, [*scripts], "", name)
    machine = MACHINES[words.on]
    if words.picture is None:
        run = UnseenRuns(machine, words.bios, words.seconds).run(scripts, name)
    else:
        run, picture = SeenRuns(machine, words.bios, words.seconds).run(scripts, name)
        # In the six bits of a component that the DAC has.
        save_png(words.picture, picture.picture(2 if picture.most == 255 else 0))
    _write_report(words, run, words.on, folder)
