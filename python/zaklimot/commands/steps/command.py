"""What each command of `steps` does, but for those that have a module of their own."""

import argparse
import sys
from typing import Iterator

from zaklimot.format import printed
from zaklimot.commands.core.cli import say
from zaklimot.commands.core.files import name_of
from zaklimot.commands.core.progress import Progress
from zaklimot.commands.core.streams import counted, read_at_most, write, write_file, write_name
from zaklimot.commands.core.trouble import AGREED, Trouble
from zaklimot.commands.script.library import library_path
from zaklimot.commands.script.words import FONTS

from .adapter import SteppedCard
from .archive import Archive
from .children import in_children
from .checking import check
from .kinds import KINDS
from .library import load
from .making import elements
from .parts import FINAL, Element
from .readback import readback_lines
from .reading import read_elements, write_elements
from .scripts import dump_of, text_lines
from .wishes import ElementKind

__all__ = [
    "check",
    "list_kinds",
    "make",
    "write_script",
]
MOST_FONTS = 1 << 16


def _chosen(words: argparse.Namespace) -> list[ElementKind]:
    """The kinds whose names begin so; all without prefixes. A part is the kind of this name."""
    prefixes = tuple(words.only)
    found = [kind for kind in KINDS.values() if kind.name.startswith(prefixes or "")]
    if words.is_part:
        found = [KINDS[name] for name in prefixes]
    if not found:
        raise Trouble("no kind has a name as --only wants it: `zaklimot steps kinds` lists them")
    return found


def make(words: argparse.Namespace, progress: Progress) -> int:
    """Makes the files of kinds. Those that are there already, made by the same words, stay."""
    archive = Archive(words.folder, words.count, words.seed, words.plain)
    kinds = _chosen(words)
    lacking = [kind for kind in kinds if words.is_part or not archive.has(kind)]
    for kind in kinds:
        if kind not in lacking:
            write_name(archive.path(kind))
    if len(lacking) < len(kinds):
        there = f"{len(kinds) - len(lacking)} of {counted(len(kinds), 'file')}"
        say(f"zaklimot: {there} stayed: these words make the same\n")
    if words.jobs > 1 and len(lacking) > 1:
        _make_in_children(words, lacking, archive, progress)
    elif lacking:
        _make_here(words, lacking, archive, progress)
    if not words.is_part:
        archive.finish()
    return AGREED


def _make_here(
    words: argparse.Namespace, kinds: list[ElementKind], archive: Archive, progress: Progress
) -> None:
    """Makes the files of kinds, one after the other."""
    fonts = read_at_most(str(FONTS), MOST_FONTS)
    with SteppedCard(load(), fonts) as card:
        for kind in kinds:
            made = elements(kind, words.count, words.seed, card)
            write_elements(str(archive.path(kind)), _told(made, kind, progress))
            progress.clear()
            if not words.is_part:
                archive.add(kind)
            write_name(archive.path(kind))
            sys.stdout.flush()


def _told(made: Iterator[Element], kind: ElementKind, progress: Progress) -> Iterator[Element]:
    """The same elements, with the progress."""
    for count, element in enumerate(made, 1):
        if progress.is_due():
            progress.tell(f"{kind.name}: {counted(count, 'element')}")
        yield element


def _make_in_children(
    words: argparse.Namespace, kinds: list[ElementKind], archive: Archive, progress: Progress
) -> None:
    """Makes the files of kinds, each in a process of its own."""
    # Once, and not by each of them.
    library_path()
    given = ["make", "--part", "--count", str(words.count), "--seed", str(words.seed)]
    given += ["--plain"] if words.plain else []
    # Names of files and folders may begin with a dash.
    commands = [[*given, "--only", kind.name, "--", words.folder] for kind in kinds]
    done = in_children(commands, words.jobs, progress, lambda n: f"{n} of {len(commands)} files")
    for kind, one in zip(kinds, done):
        progress.clear()
        archive.add(kind)
        write(one.output.decode("utf-8", "surrogateescape"))
        sys.stdout.flush()


def list_kinds(words: argparse.Namespace, _: Progress) -> int:
    """Lists the kinds."""
    width = max(map(len, KINDS))
    for kind in KINDS.values():
        parts = f" ({', '.join(kind.parts)})" if words.parts else ""
        write(f"{kind.name:{width}}  {kind.told}{parts}\n")
    return AGREED


def _numbered(path: str, number: int) -> Element:
    """The element of a file that has this number, from 0."""
    count = 0
    for element in read_elements(path):
        if count == number:
            return element
        count += 1
    raise Trouble(f"it has {counted(count, 'element')}, and no element {number}", name_of(path))


def write_script(words: argparse.Namespace, _: Progress) -> int:
    """Writes an element as a script."""
    element = _numbered(words.file, words.n)
    lines = list(text_lines(element))
    if words.then == "dumps":
        lines += [printed(step) for step in dump_of(element[FINAL])]
    elif words.then == "reads":
        lines += readback_lines(element)
    write_file(words.script, "".join(f"{line}\n" for line in lines).encode("ascii", "replace"))
    return AGREED
