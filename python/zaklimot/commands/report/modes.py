"""What is shown of a run: a class for each way, which is told each step as it comes."""

import argparse
import os
import shutil
import sys
from typing import Callable

from zaklimot.format import Picture
from zaklimot.commands.core.cli import say
from zaklimot.commands.core.files import STANDARD, files
from zaklimot.commands.core.progress import Progress
from zaklimot.commands.core.streams import counted, write, write_over
from zaklimot.commands.core.trouble import Trouble
from zaklimot.commands.images.png import Shape, block_lines, save_png

from .listing import Blessing, Row, RunScript, Tally, chosen, heading, listed

# What takes text that is told.
Tell = Callable[[str], object]
# So many reasons of refusals are told once each, and then again.
MOST_WHYS = 1000
# Lines of a terminal that a picture leaves to what stands around it.
AROUND = 4
# What COLORTERM says of a terminal with 24-bit colours; and what is told where it doesn't.
COLOURS = ("truecolor", "24bit")
WITHOUT_COLOURS = (
    "zaklimot: this terminal doesn't say that it has 24-bit colours (COLORTERM=truecolor). If the"
    " blocks look wrong, open the pictures that --pictures FOLDER writes\n"
)


class Summary:
    """The answers that differ, and a last line; and the pictures of the steps that are chosen, as
    files."""

    # Whether the reasons of refusals are shown.
    tells_why = False

    def __init__(self, words: argparse.Namespace, tell: Tell) -> None:
        self._tell = tell
        self._is_quiet = words.quiet
        self._folder = words.pictures
        self._shape = Shape(words.scale, words.aspect)
        self._is_chosen = None if words.only is None else chosen(words.only)

    def check(self, script: RunScript) -> None:
        """Ends the work where the script can't be shown so."""

    def begin(self, width: int) -> None:
        """Shows what stands above the first step. The steps have a column of this width."""
        if self._folder is not None:
            files().make_folder(self._folder)

    def take(self, row: Row, is_wrong: bool) -> None:
        """Takes a step, and shows it if it is chosen."""
        if self._folder is not None and self._is_shown(row):
            self._save(row)

    def end(self, tally: Tally) -> bool:
        """Tells what was seen; whether the run's exit status tells of differences."""
        for line in tally.differing():
            self._tell(line)
        front = f"{tally.shown}: " if self._is_quiet else ""
        self._tell(f"{front}{tally.text()}\n")
        return True

    def _is_shown(self, row: Row) -> bool:
        return self._is_chosen is None or self._is_chosen(row)

    def _save(self, row: Row) -> str:
        """Writes the picture of a step where that is wanted; its path, or nothing."""
        if self._folder is None or not isinstance(row.step.picture, Picture):
            return ""
        path = os.path.join(self._folder, f"{row.step.number:04}.png")
        save_png(path, row.step.picture, self._shape)
        return path


class StepList(Summary):
    """Each step beside its line and its answer."""

    tells_why = True

    def __init__(self, words: argparse.Namespace, tell: Tell, progress: Progress) -> None:
        super().__init__(words, tell)
        self._progress = progress
        self._shows = words.show
        self._whys: set[str] = set()
        self._width = 0

    def begin(self, width: int) -> None:
        super().begin(width)
        self._width = width
        write(heading(width) + "\n")

    def take(self, row: Row, is_wrong: bool) -> None:
        # A script may have millions of steps, and each call takes its time.
        if self._is_chosen is not None and not self._is_chosen(row):
            return
        path = self._save(row) if self._folder is not None else ""
        if self._progress.is_wanted:
            self._progress.clear()
        why = self._new_why(row.why) if row.why else ""
        write(listed(row, is_wrong, self._width, path and f"  {path}", why))
        if self._shows and isinstance(row.step.picture, Picture):
            size = shutil.get_terminal_size()
            lines = block_lines(row.step.picture, size.columns, size.lines - AROUND)
            write("".join(line + "\n" for line in lines))

    def end(self, tally: Tally) -> bool:
        is_shown = self._shows and tally.pictures and sys.stdout.isatty()
        if is_shown and os.environ.get("COLORTERM") not in COLOURS:
            say(WITHOUT_COLOURS)
        return super().end(tally)

    def _new_why(self, why: str) -> str:
        """Why a step was refused, where that was not told yet."""
        if why in self._whys:
            return ""
        if len(self._whys) < MOST_WHYS:
            self._whys.add(why)
        return why


class Blessed(Summary):
    """The answers that are not as expected, which are written into the script."""

    def __init__(self, words: argparse.Namespace, tell: Tell, data: bytes) -> None:
        super().__init__(words, tell)
        self._data = data
        self._blessing = Blessing(data)
        self._name = words.script

    def check(self, script: RunScript) -> None:
        if script.is_bytes:
            raise Trouble("a script of bytes has no comments for answers", self._name)

    def take(self, row: Row, is_wrong: bool) -> None:
        self._blessing.take(row)
        super().take(row, is_wrong)

    def end(self, tally: Tally) -> bool:
        changes = list(self._blessing.changes())
        for number, before, after in changes:
            self._tell(f"{self._name}:{number}: {before or 'nothing'} -> {after}\n")
        if changes:
            text = self._blessing.text().encode("utf-8", "surrogateescape")
            write_over(self._name, text, self._data)
        self._tell(f"{self._name}: {counted(len(changes), 'answer')} written\n")
        return False


def mode_of(words: argparse.Namespace, tell: Tell, data: bytes, progress: Progress) -> Summary:
    """The way in which these words have a run shown."""
    if words.bless:
        return Blessed(words, tell, data)
    is_listed = not words.quiet and words.json != STANDARD
    return StepList(words, tell, progress) if is_listed else Summary(words, tell)
