"""The files of a run: what it reads, what it writes, and the folders that it makes.

An input is never an output, under whatever name, and no two outputs are one file. A run learns both
before any work: the parser of its words marks them.
"""

import argparse
import os
import re
import stat
import sys
from contextlib import contextmanager, suppress
from pathlib import Path
from typing import Iterator, Optional, Union

from .trouble import Trouble


STANDARD = "-"
NO_NAME = "the name of a file is empty"
# How the pictures are called that a tool lays into a folder: by numbers, seconds, pages or planes.
PICTURE_NAME = re.compile(r"(?:[0-9]{4,}(?:\.[0-9]+)?|page-[0-9A-F]{4}|plane-[0-3])\.(?:png|ppm)")


class Input(str):
    """A word that names a file to be read; the type of an argument."""


class Output(str):
    """A word that names a file to be written."""


class OutputOrFolder(Output):
    """A word that names a file to be written, or a folder of several, which the input decides."""


class PictureFolder(Output):
    """A word that names a folder into which numbered pictures are laid."""


def name_of(path: str, standard: str = "standard input") -> str:
    """What messages call a file, an input or an output."""
    return standard if path == STANDARD else path


def status_of(place: Union[int, str]) -> Optional[os.stat_result]:
    """What is known of a regular file, named or open; None of anything else, and where there is
    none."""
    try:
        status = os.stat(place)
    except (OSError, ValueError):
        return None
    return status if stat.S_ISREG(status.st_mode) else None


def may_be_replaced(path: str) -> bool:
    """Whether another file may take the place of what has this name: not that of a device or a
    pipe."""
    try:
        return stat.S_ISREG(os.stat(path).st_mode)
    except (OSError, ValueError):
        return True


def _written_status(path: str) -> Optional[os.stat_result]:
    """What is known of the regular file that an output is; None of anything else. One of Python's
    own streams may be no file at all."""
    if path != STANDARD:
        return status_of(path)
    try:
        return status_of(sys.stdout.fileno())
    except (OSError, ValueError):
        return None


def _are_one(one: str, other: str) -> bool:
    """Whether two outputs are the same file. A device takes what both write."""
    if STANDARD in (one, other) and one == other:
        return True
    known = _written_status(one), _written_status(other)
    if known[0] is not None and known[1] is not None:
        return os.path.samestat(known[0], known[1])
    is_named = STANDARD not in (one, other) and may_be_replaced(one)
    return is_named and os.path.realpath(one) == os.path.realpath(other)


def _is_laid_into(path: str, folder: str) -> bool:
    """Whether a file has the name of a picture that is laid into a folder, which is no stream."""
    if STANDARD in (path, folder):
        return False
    place = os.path.realpath(path)
    is_there = os.path.dirname(place) == os.path.realpath(folder)
    return is_there and PICTURE_NAME.fullmatch(os.path.basename(place)) is not None


def check_folder(path: Union[str, Path]) -> None:
    """Ends the work, before it begins, where files can't be laid into a folder, be it there or to
    be made."""
    if not str(path):
        raise Trouble(NO_NAME)
    whole = Path(path).absolute()
    place = next(one for one in (whole, *whole.parents) if os.path.lexists(one))
    if not place.is_dir():
        raise Trouble("it is not a folder", str(path if place == whole else place))
    if not os.access(place, os.W_OK | os.X_OK):
        raise Trouble("there is no permission to write there", str(place))


def check_writable(path: str) -> None:
    """Ends the work where a file is there that may not be written, whoever asks."""
    status = status_of(path)
    if status is not None and not (status.st_mode & 0o222 and os.access(path, os.W_OK)):
        raise Trouble("it is read-only", path)


class Files:
    """The files of one run."""

    def __init__(self) -> None:
        # Where each input is found, and what messages call it.
        self._inputs: dict[Union[int, str], str] = {}
        self._outputs: list[str] = []
        # The folders that the run has made, each below those before it.
        self._made: list[Path] = []

    def take(self, words: argparse.Namespace) -> None:
        """Takes the files that words name. It ends the work where one has no name or can't be
        written, or where two of them are one."""
        values = [value if isinstance(value, list) else [value] for value in vars(words).values()]
        given = [one for some in values for one in some]
        inputs = [one for one in given if isinstance(one, Input)]
        if inputs.count(Input(STANDARD)) > 1:
            raise Trouble("standard input can be read once")
        for one in inputs:
            if not one:
                raise Trouble(NO_NAME)
            self.reads(one)
        # Each tool tells something there.
        self.refuse_input(STANDARD)
        for one in given:
            if isinstance(one, Output):
                self.writes(one)

    def reads(self, path: str) -> str:
        """Takes a file that is read, or may be: from now on it isn't written."""
        if path != STANDARD:
            self._inputs[path] = path
        return path

    def reads_open(self, number: int, name: str) -> None:
        """The same of a file that is open."""
        self._inputs[number] = name

    def writes(self, path: Output) -> None:
        """Takes a file that is written, or may be. What keeps it from that is told."""
        for other in self._outputs:
            self._refuse_both(other, path)
        self._outputs.append(path)
        if isinstance(path, PictureFolder) and path != STANDARD:
            check_folder(path)
        elif not (isinstance(path, OutputOrFolder) and os.path.isdir(path)):
            self.check_file(path)

    def writes_over(self, path: str) -> None:
        """Takes it that a file that was read is written anew, as the user has asked."""
        self._inputs.pop(path, None)

    def check_file(self, path: str) -> None:
        """Ends the work, before it begins, where a file can't be written."""
        self.refuse_input(path)
        if path == STANDARD:
            return
        if not path:
            raise Trouble(NO_NAME)
        if os.path.isdir(path):
            raise Trouble("it is a folder", path)
        check_writable(path)
        if may_be_replaced(path):
            folder = os.path.dirname(os.path.abspath(path))
            if not os.path.isdir(folder):
                raise Trouble("there is no such folder", os.path.dirname(path))
            check_folder(folder)

    def refuse_input(self, path: str) -> None:
        """Ends the work where what is to be written is a file that is read."""
        output = _written_status(path)
        # Other threads may add to them meanwhile.
        for place, name in list(self._inputs.items()):
            status = status_of(place)
            if output is not None and status is not None and os.path.samestat(output, status):
                raise Trouble(
                    f"it is read as {name}, so it isn't written", name_of(path, "standard output")
                )

    def make_folder(self, path: Union[str, Path]) -> Path:
        """Makes a folder, and those above it, where they aren't there."""
        folder = Path(path)
        lacking = [one for one in (folder, *folder.parents) if not one.exists()]
        folder.mkdir(parents=True, exist_ok=True)
        self._made.extend(reversed(lacking))
        return folder

    def drop_empty_folders(self) -> None:
        """Removes the folders that the run has made, and into which it has laid nothing."""
        for folder in reversed(self._made):
            with suppress(OSError):
                folder.rmdir()

    @staticmethod
    def _refuse_both(one: str, other: str) -> None:
        for folder, file in ((one, other), (other, one)):
            if isinstance(folder, PictureFolder) and _is_laid_into(file, folder):
                raise Trouble(f"a picture of {folder} would have this name", file)
        if _are_one(one, other):
            told = "two outputs have this name, and one would be lost"
            raise Trouble(told, name_of(other, "standard output"))


# The run that goes on.
_current = Files()


def files() -> Files:
    """The files of the run that goes on."""
    return _current


@contextmanager
def files_of_run() -> Iterator[Files]:
    """Begins a run, with no files yet. Where it fails, folders that it has made and not filled are
    gone."""
    global _current
    before = _current
    _current = Files()
    try:
        yield _current
    except BaseException:
        _current.drop_empty_folders()
        raise
    finally:
        _current = before
