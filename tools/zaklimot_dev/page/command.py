"""What each command of `vga-page` does."""

from __future__ import annotations

import argparse
import sys
from pathlib import Path
from typing import Optional

from zaklimot.commands.core.files import STANDARD
from zaklimot.commands.core.progress import Progress
from zaklimot.commands.core.streams import read_at_most, refuse_input, write_file
from zaklimot.commands.report.debugging import PAGE

from .machine import made_or_kept
from .making import MOST_MODULE, check_module, made_module
from .package import write_files
from .page import make_page, protect_sources, read_sources, wordings_module


def _given_module(words: argparse.Namespace) -> Optional[bytes]:
    """The module that the words name; none where one is to be made. Here all is refused that can be
    at once."""
    # By now the sources of the page are read too.
    refuse_input(words.file)
    if words.module is None:
        return None
    module = read_at_most(words.module, MOST_MODULE)
    check_module(module)
    return module


def _write(path: str, data: bytes, told: str) -> None:
    """Writes what was made, and tells of it unless it goes to standard output itself."""
    write_file(path, data)
    if path != STANDARD:
        print(f"{path}: {told}")


def make(words: argparse.Namespace, progress: Progress) -> None:
    """Makes the page, and with that of the repository what else has its module."""
    protect_sources()
    module = _given_module(words)
    # What is wrong with the sources is told before the long work.
    sources = read_sources()
    machine = made_or_kept(PAGE, lambda told: print(told, file=sys.stderr))
    if module is None:
        module = made_module(words, progress)
    page = make_page(module, sources, machine)
    _write(words.file, page, f"{len(page):,} bytes; its module has {check_module(module)}")
    if words.file != STANDARD and Path(words.file).resolve() == PAGE:
        for name in write_files(module):
            print(f"{name}: made with the page")


def make_module(words: argparse.Namespace, progress: Progress) -> None:
    """Makes the page's module alone."""
    _given_module(words)
    module = made_module(words, progress)
    _write(words.file, module, check_module(module))


def make_wordings(words: argparse.Namespace, _: Progress) -> None:
    """Makes the page's copy of the tools' words."""
    _write(words.file, wordings_module().encode("utf-8"), "written")
