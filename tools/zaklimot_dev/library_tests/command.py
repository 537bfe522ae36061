"""The checks of the library, one after the other."""

import argparse
import tempfile
from contextlib import ExitStack
from functools import partial
from pathlib import Path
from typing import Callable, Mapping, Sequence, TypeVar

from zaklimot.commands.core.progress import Progress
from zaklimot.commands.core.trouble import Trouble
from zaklimot_dev.library.making import TARGETS, X86_64, Target
from zaklimot_dev.library.one_file import TRANSLATORS
from zaklimot_dev.page.making import made_for_c
from zaklimot_dev.words import refuse_to_check
from zaklimot.commands.script.crates import phases

from .checks import (
    COUNTED,
    WAYS,
    check_cases,
    check_counted,
    check_examples,
    check_header,
    check_installing,
    check_memory,
    check_misuse,
    check_names,
    check_pc,
    check_scripts,
    check_threads,
    check_told,
)
from .compilers import (
    PORTABLE_TARGETS,
    WINDOWS,
    Built,
    lacking,
    laid_library,
    make_check,
    not_there,
    tell_left_out,
)
from .one_file import Maker, check_file, checks_for, lacking_for, windows_in


Check = Callable[[Built, Path], str]
# Those of the library of each compiler, and those of one alone.
EACH: dict[str, Check] = {
    "names": check_names,
    **{way: partial(check_cases, way) for way in WAYS},
    **{name: partial(check_counted, name) for name in COUNTED},
    "told": check_told,
    "misuse": check_misuse,
    "memory": check_memory,
    "threads": check_threads,
}
ONCE: dict[str, Check] = {
    "header": check_header,
    "examples": check_examples,
    "scripts": check_scripts,
    "installing": check_installing,
    "pc": check_pc,
}
# Those that build programs by the words of other tools, which name this machine's own libraries.
OWN = ("installing", "pc")
# That the repository's C file is the one that the crate makes.
OF_FILE = "file"


Chosen = TypeVar("Chosen")


def _chosen(only: Sequence[str], there: Mapping[str, Chosen], target: Target) -> dict[str, Chosen]:
    """The checks that are wanted, of those that there are for a processor."""
    for name in only:
        if name not in there:
            raise Trouble(f"there is no such check for {target.name}", name)
    return {name: check for name, check in there.items() if not only or name in only}


def _run_portable(words: argparse.Namespace, progress: Progress) -> None:
    target = PORTABLE_TARGETS[words.target]
    there = checks_for(target)
    if words.gated:
        there = {OF_FILE: lambda _: check_file(made_for_c(words, progress)), **there}
    wanted = _chosen(words.only, there, target)
    refuse_to_check(lacking_for(target) + (not_there(TRANSLATORS) if words.gated else []))
    with tempfile.TemporaryDirectory(prefix="vga-library-tests-") as folder, ExitStack() as stack:
        if target == WINDOWS:
            stack.enter_context(windows_in(Path(folder)))
        maker = Maker(Path(folder), target)
        left_out = []
        for name, check in wanted.items():
            left_out += make_check(f"{name}, as one C file", partial(check, maker))
        tell_left_out(left_out)


def _wanted(only: Sequence[str], target: Target) -> dict[str, Check]:
    there = {
        name: check
        for name, check in {**ONCE, **EACH}.items()
        if target == X86_64 or name not in OWN
    }
    return _chosen(only, there, target)


def run_checks(words: argparse.Namespace, progress: Progress) -> None:
    """Makes the checks, and tells what each finds."""
    if words.ready:
        refuse_to_check([*lacking(X86_64), *not_there(TRANSLATORS)])
        return
    if words.portable:
        _run_portable(words, progress)
        return
    if words.target not in TARGETS:
        raise Trouble(
            "Rattle makes no library for it: --portable tests the one C file", words.target
        )
    target = TARGETS[words.target]
    wanted = _wanted(words.only, target)
    refuse_to_check(lacking(target))
    with tempfile.TemporaryDirectory(prefix="vga-library-tests-") as top:
        heard = phases(progress)("proving and building the library")
        backends = target.backends[:1] if words.archive else target.backends
        libraries = [laid_library(words, backend, target, Path(top), heard) for backend in backends]
        progress.clear()
        left_out = []
        for name, built in (
            (name, built) for name in wanted for built in libraries[: None if name in EACH else 1]
        ):
            with tempfile.TemporaryDirectory(prefix="vga-library-tests-") as folder:
                work = partial(wanted[name], built, Path(folder))
                left_out += make_check(f"{name}, {built.name}" if name in EACH else name, work)
        tell_left_out(left_out)
