"""Checks of the library as one C file: that it is the one that is made, and what it answers as
compilers build it."""

from __future__ import annotations

import os
import shlex
import shutil
import sys
from contextlib import contextmanager
from functools import partial
from pathlib import Path
from typing import Callable, Iterator, NamedTuple

from zaklimot.commands import TOP
from zaklimot.commands.core.processes import SOURCES as PACKAGES, Word, captured
from zaklimot.commands.core.streams import counted
from zaklimot.commands.core.trouble import Wrong
from zaklimot.commands.core.version import HEADER, calls_of
from zaklimot_dev.library.making import FONTS, X86_64, Target
from zaklimot_dev.library.one_file import C_FILE, PROGRAM, one_file, written_by_wasm2c
from zaklimot.commands.report.cases import read_cases
from zaklimot.commands.report.places import SUITE

from .checks import (
    COUNTED,
    MISUSES,
    SOURCES,
    WRAPPED,
    check_cases,
    check_counted,
    check_examples,
    check_misuse,
    check_threads,
    check_told,
    expect,
    names_in,
)
from .compilers import COMPILERS, RUNNERS, SANITIZED, Built, Compiler, build, not_there, run
from .emulators import check_dosbox, check_qemu

# All that a compiler may find in the file, but for conversions in what was generated, is an error.
STRICT = ("-std=c99", "-Wall", "-Wextra", "-Wpedantic", "-Werror")
USUAL = "-O2"
LEVELS = ("-O0", "-O1", "-O3")
# What the file may take of the C library.
OUTSIDE = frozenset(("calloc", "realloc", "free", "memcpy", "memmove", "memset", "memcmp"))
# Names that compilers may ask for on some processors.
HELPERS = ("__", "_GLOBAL_OFFSET_TABLE_")
# With these words the file ends the program at an access beside its memory, and a card has no
# memory to spare.
CHECKED = "-DZAKLIMOT_CHECKED"
TIGHT = "-DZAKLIMOT_TIGHT"
LEAST_REFUSED = 10


class Maker(NamedTuple):
    """Makes libraries and programs of the file in a folder, for a processor."""

    folder: Path
    target: Target

    @property
    def compilers(self) -> tuple[Compiler, ...]:
        """Those for the processor."""
        return COMPILERS[self.target]

    def library(self, compiler: Compiler, *flags: str) -> Built:
        """The library as a compiler makes it with these flags, made once."""
        name = " ".join((compiler.c, *flags))
        folder = self.folder / name.replace(" ", "_").replace("/", "_")
        built = Built(name, folder, folder / "zaklimot.o", self.target, (compiler,))
        if not built.static.exists():
            (folder / "lib").mkdir(parents=True)
            (folder / "include").mkdir()
            for header in (HEADER, HEADER.with_suffix(".hpp")):
                shutil.copyfile(header, folder / "include" / header.name)
            words: list[Word] = [compiler.c, *STRICT, *flags, "-I", HEADER.parent]
            run([*words, "-c", C_FILE, "-o", built.archive])
            run([self.target.tool("ar"), "rcs", built.static, built.archive])
        return built

    def usual(self) -> Built:
        """The library as the first compiler makes it for use."""
        return self.library(self.compilers[0], USUAL)

    def sanitized(self) -> Built:
        """The same under the sanitizers of addresses and of undefined behaviour."""
        # Places in a source of 100,000 lines would take longer to write than the rest.
        return self.library(self.compilers[0], "-O1", *(flag for flag in SANITIZED if flag != "-g"))

    def program(self, *flags: str) -> list[str | Path]:
        """Builds the program over the library with these flags, and answers the words that run
        it."""
        built = self.library(self.compilers[0], *(flags or (USUAL,)))
        return build(self.compilers[0].c, built, [PROGRAM], built.folder / "vga.exe", USUAL)


def check_file(module: bytes) -> str:
    """The file is the one that is made of the crate's module."""
    made = one_file(written_by_wasm2c(module))
    if made != C_FILE.read_text("ascii"):
        again = f"`tools/vga-library one-file {C_FILE.relative_to(TOP)}` makes it anew"
        raise Wrong(f"{C_FILE.name} is not the file that the crate makes: {again}")
    return f"{len(made):,} bytes, as the crate makes them"


def _misuse(built: Built, *flags: str) -> None:
    for name in MISUSES:
        made = built.folder / f"{name}.exe"
        words = build(built.own[0].c, built, [SOURCES / f"{name}.c"], made, *flags)
        expect(name, run([*words, FONTS]))


def check_compilers(maker: Maker) -> str:
    """The file is taken without a warning by each compiler at each level, and misuse is answered
    alike."""
    ways = [(compiler, level) for compiler in maker.compilers for level in (*LEVELS, USUAL)]
    for compiler, level in ways:
        _misuse(maker.library(compiler, level))
    return f"taken by {', '.join(compiler.c for compiler in maker.compilers)} in {len(ways)} ways"


def check_one(maker: Maker) -> str:
    """The file is taken without a warning, and misuse is answered as it should be."""
    _misuse(maker.usual())
    return f"taken by {maker.compilers[0].c}"


def check_names(maker: Maker) -> str:
    """The names that are seen of the file are the header's calls, and it wants few of the C
    library."""
    calls = set(calls_of(HEADER.read_text("ascii")))
    built = maker.usual()
    defined, wanted = (
        names_in(built, built.static, "-g", which)
        for which in ("--defined-only", "--undefined-only")
    )
    if defined != calls:
        raise Wrong(f"seen and not in the header, or not seen: {sorted(defined ^ calls)}")
    others = {name for name in wanted - OUTSIDE if not name.startswith(HELPERS)}
    if others:
        raise Wrong(f"it wants {sorted(others)}")
    return f"{len(calls)} names are seen, the header's, and {len(wanted)} are wanted"


def check_suite(maker: Maker, *flags: str) -> str:
    """Each case of the suite agrees, by the program over the file; bytes and faults too."""
    program = shlex.join(map(str, maker.program(*flags)))
    cases = read_cases(str(SUITE))
    texts, scripts = (
        f"{program} {job} {{script}} --fonts {{fonts}} {{until}}" for job in ("go", "run")
    )
    words = [texts, "--bytes", scripts, "--jobs", str(os.cpu_count() or 1)]
    done = captured([sys.executable, TOP / "zaklimot", "suite", *words])
    wanted = f"{counted(len(cases), 'case')}: {len(cases)} agree"
    table = done.output.decode("utf-8", "replace").splitlines()
    if done.status or table[-1:] != [wanted]:
        others = [line for line in table if not line.startswith("  agrees")][:20]
        raise Wrong(
            "\n".join([f"not `{wanted}`:", *others, done.errors.decode("utf-8", "replace")[-2000:]])
        )
    return f"{wanted}, by the program"


def check_memory(maker: Maker) -> str:
    """Each allocation is refused in turn, where a card has no memory to spare."""
    built = maker.library(maker.compilers[0], "-O1", TIGHT)
    words = build(
        built.own[0].c, built, [SOURCES / "memory.c"], built.folder / "memory.exe", "-g", WRAPPED
    )
    counts = {
        name: int(count)
        for name, count in map(str.split, run([*words, FONTS, "kept"]).splitlines())
    }
    if sum(counts.values()) < LEAST_REFUSED:
        raise Wrong(f"only {sum(counts.values())} allocations were refused")
    return f"{sum(counts.values())} allocations refused, in {sum(map(bool, counts.values()))} calls"


def _by(check: Callable[[Built, Path], str], is_sanitized: bool = False) -> Callable[[Maker], str]:
    def made(maker: Maker) -> str:
        built = maker.sanitized() if is_sanitized else maker.usual()
        return check(built, built.folder)

    return made


@contextmanager
def windows_in(folder: Path) -> Iterator[None]:
    """Wine keeps its files in this folder, and its server ends with the checks."""
    os.environ["WINEPREFIX"] = str(folder / "wine")
    try:
        yield
    finally:
        captured(["wineserver", "--kill"])


Check = Callable[[Maker], str]
# Those of every processor, and those of the machine's own alone.
EVERY: dict[str, Check] = {"one": check_one, "suite": check_suite, "threads": _by(check_threads)}
HOST: dict[str, Check] = {
    "compilers": check_compilers,
    "names": check_names,
    "suite": check_suite,
    # Each access to memory is looked at.
    "checked": lambda maker: check_suite(maker, USUAL, CHECKED),
    **{way: _by(partial(check_cases, way)) for way in ("restored", "sliced", "joined")},
    "misuse": _by(check_misuse, True),
    **{
        name: _by(partial(check_counted, name), program.flags == SANITIZED)
        for name, program in COUNTED.items()
    },
    "told": _by(check_told, True),
    "memory": check_memory,
    "threads": _by(check_threads),
    "examples": _by(check_examples),
    # Emulators that have the file in them.
    "dosbox": lambda maker: check_dosbox(maker.folder),
    "qemu": lambda maker: check_qemu(maker.folder),
}


def checks_for(target: Target) -> dict[str, Check]:
    """The checks of the file on a processor, by their names."""
    return HOST if target == X86_64 else EVERY


def lacking_for(target: Target) -> list[str]:
    """What this machine lacks for them, each with the package to install."""
    programs = [compiler.c for compiler in COMPILERS[target]] + [
        target.tool("ar"),
        target.tool("nm"),
    ]
    runners = [word for word in RUNNERS[target] if word in PACKAGES]
    return not_there([*programs, *runners])
