"""What each command of `vga-library` does."""

import argparse
import os
import tempfile
from pathlib import Path
from typing import Optional

from zaklimot.commands.core.files import NO_NAME, check_folder
from zaklimot.commands.core.processes import check_program
from zaklimot.commands.core.progress import Progress
from zaklimot.commands.core.streams import write_file
from zaklimot.commands.core.trouble import Trouble
from zaklimot_dev.page.making import made_for_c
from zaklimot.commands.script.crates import phases

from .making import (
    MOVING,
    TARGETS,
    LibraryParts,
    Place,
    Target,
    built_archive,
    keep,
    kept,
    make_library,
    memory_part,
)
from .one_file import TRANSLATORS, one_file, written_by_wasm2c
from .words import USUAL_PREFIX


def check_given(*paths: Optional[str]) -> None:
    """Ends the work where one of these is given and is no file."""
    for path in paths:
        if path == "":
            raise Trouble(NO_NAME)
        if path is not None and not os.path.isfile(path):
            raise Trouble("there is no such file", path)


def _parts(
    words: argparse.Namespace, target: Target, takes_made: bool, progress: Progress, folder: Path
) -> LibraryParts:
    """The crate's archive, given, or made before of the same sources, or proved and built now; its
    memory's part."""
    if words.archive is not None:
        return LibraryParts(Path(words.archive), memory_part(target, folder))
    found = kept(words.backend, target) if takes_made else None
    if found is not None:
        return found
    heard = phases(progress)("proving and building the library")
    archive = built_archive(words.backend, target, heard)
    parts = LibraryParts(archive, memory_part(target, folder))
    progress.clear()
    return keep(words.backend, target, parts)


def _lay(
    words: argparse.Namespace,
    place: Place,
    prefix: str,
    progress: Progress,
    takes_made: bool = False,
) -> None:
    # What is wrong with words, programs and folders is told before the long work.
    check_given(words.archive)
    target = TARGETS[words.target]
    if words.archive is None and words.backend not in target.backends:
        raise Trouble(f"the toolchain has no compiler {words.backend} for it", target.name)
    for name in target.programs():
        check_program(name)
    for name in ("include", place.library_folder, "share"):
        check_folder(place.folder(name))
    with tempfile.TemporaryDirectory(prefix="vga-library-") as folder:
        for path in make_library(
            *_parts(words, target, takes_made, progress, Path(folder)), place, prefix, target
        ):
            print(path)


def make(words: argparse.Namespace, progress: Progress) -> None:
    """Makes the library in a folder."""
    check_folder(words.folder)
    _lay(words, Place(words.folder), MOVING, progress)


def install(words: argparse.Namespace, progress: Progress) -> None:
    """Installs the library below a prefix."""
    prefix = words.prefix
    if prefix is None:
        prefix = os.environ.get("PREFIX") or USUAL_PREFIX
    if not os.path.isabs(prefix):
        raise Trouble("a prefix begins with a slash", prefix)
    if os.path.isabs(words.libdir):
        raise Trouble("the folder of libraries is named from the prefix on", words.libdir)
    stage = words.destdir if words.destdir is not None else os.environ.get("DESTDIR", "")
    _lay(words, Place(prefix, words.libdir, stage), prefix, progress, takes_made=True)


def make_one_file(words: argparse.Namespace, progress: Progress) -> None:
    """Makes the library as one C file."""
    for name in TRANSLATORS:
        check_program(name)
    made = one_file(written_by_wasm2c(made_for_c(words, progress))).encode("ascii")
    write_file(words.file, made)
    print(f"{words.file}: {len(made):,} bytes")
