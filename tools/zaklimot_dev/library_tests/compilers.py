"""The compilers, what is lacking of them on this machine, and how libraries and checks are made."""

from __future__ import annotations

import argparse
import shutil
import tempfile
import time
from pathlib import Path
from typing import Any, Callable, Iterable, NamedTuple, Sequence

from zaklimot.commands.core.processes import BINUTILS, SOURCES, Hearer, Word, captured, tested
from zaklimot.commands.core.streams import counted
from zaklimot_dev.library.making import (
    AARCH64,
    MOVING,
    X86_64,
    Place,
    Target,
    built_archive,
    gated_archive,
    make_library,
    memory_part,
)


STRICT = ("-Wall", "-Wextra", "-Wpedantic", "-Wconversion", "-Werror")
# How that begins what a check tells which this machine can't make.
LEFT_OUT = "left out: "
SANITIZED = ("-g", "-fsanitize=address,undefined", "-fno-sanitize-recover=all")


class Compiler(NamedTuple):
    """A compiler of C and of C++, and the package of Debian that has its sanitizers."""

    c: str
    cpp: str
    sanitizers: str


# Those for which there is the library as one C file alone: none of Rattle's compilers makes files
# for them.
I386 = Target("i386", "i686-linux-gnu", (), "i686-linux-gnu-")
S390X = Target("s390x", "s390x-linux-gnu", (), "s390x-linux-gnu-")
WINDOWS = Target("windows", "x86_64-w64-mingw32", (), "x86_64-w64-mingw32-")
PORTABLE_TARGETS = {target.name: target for target in (X86_64, AARCH64, I386, S390X, WINDOWS)}
# What programs for a processor are built by, and the words that stand before one where it runs.
COMPILERS = {
    X86_64: (
        Compiler("gcc", "g++", "libgcc-12-dev"),
        Compiler("clang", "clang++", "libclang-rt-dev"),
    ),
    AARCH64: (Compiler(AARCH64.tool("gcc"), AARCH64.tool("g++"), "libgcc-12-dev-arm64-cross"),),
    I386: (Compiler(I386.tool("gcc"), I386.tool("g++"), "libgcc-12-dev-i386-cross"),),
    S390X: (Compiler(S390X.tool("gcc"), S390X.tool("g++"), "libgcc-12-dev-s390x-cross"),),
    WINDOWS: (Compiler(WINDOWS.tool("gcc"), WINDOWS.tool("g++"), ""),),
}
# The emulator takes the C library of the cross compiler. The sanitizers can't look for leaks in it,
# but for all else. They read their options where the system has those of the emulator.
RUNNERS = {
    X86_64: (),
    WINDOWS: ("env", "WINEDEBUG=-all", "wine"),
    I386: ("/usr/i686-linux-gnu/lib/ld-linux.so.2", "--library-path", "/usr/i686-linux-gnu/lib"),
    AARCH64: ("env", "ASAN_OPTIONS=detect_leaks=0", "qemu-aarch64", "-L", "/usr/aarch64-linux-gnu"),
    S390X: ("qemu-s390x", "-L", "/usr/s390x-linux-gnu"),
}


class Built(NamedTuple):
    """A library as it was laid into a folder, and the crate's archive that it was made of.

    Programs with it are built by the compilers of its target, or by its own alone.
    """

    name: str
    folder: Path
    archive: Path
    target: Target = X86_64
    own: tuple[Compiler, ...] = ()

    @property
    def compilers(self) -> tuple[Compiler, ...]:
        """Those that build programs with it."""
        return self.own or COMPILERS[self.target]

    @property
    def static(self) -> Path:
        """The library that a program has in it."""
        return self.folder / "lib" / "libzaklimot.a"

    @property
    def shared(self) -> Path:
        """The library that a program loads."""
        return self.folder / "lib" / "libzaklimot.so"


def run(words: Sequence[str | Path], **given: Any) -> str:
    """What a program writes that ends well, run as `captured` does. Else a Wrong tells how it
    ended."""
    return tested(words, **given).output.decode("utf-8", "surrogateescape")


def make_check(name: str, check: Callable[[], str]) -> list[str]:
    """Makes a check, and tells what came of it, and how many seconds it took. Answers its name if
    it was left out, and else none."""
    begun = time.monotonic()
    told = check()
    print(f"{name}: {told} ({time.monotonic() - begun:.0f} s)", flush=True)
    return [name] if told.startswith(LEFT_OUT) else []


def tell_left_out(names: Sequence[str]) -> None:
    """Counts the checks that were left out, if there are any."""
    if names:
        print(f"{counted(len(names), 'check')} left out: {', '.join(names)}", flush=True)


def not_there(programs: Iterable[str]) -> list[str]:
    """Those of some programs that are not in the path, each with the package of Debian that has
    it."""
    return [f"{name}: {SOURCES[name]}" for name in programs if not shutil.which(name)]


def lacking(target: Target) -> list[str]:
    """What this machine lacks to test the library for a processor, each with the package to
    install."""
    compilers = COMPILERS[target]
    runner = RUNNERS[target]
    emulators = [word for word in runner if word in SOURCES]
    built_by = [name for compiler in compilers for name in (compiler.c, compiler.cpp)]
    return not_there([*map(target.tool, BINUTILS), *emulators, *built_by]) + [
        f"the sanitizers of {compiler.c}: install the package {compiler.sanitizers}"
        for compiler in compilers
        if all(map(shutil.which, (compiler.c, *emulators)))
        and not _has_sanitizers(compiler, runner)
    ]


def _has_sanitizers(compiler: Compiler, runner: Sequence[str]) -> bool:
    with tempfile.TemporaryDirectory(prefix="vga-library-tests-") as name:
        source, made = Path(name) / "nothing.c", Path(name) / "nothing"
        source.write_text("int main(void) { return 0; }\n")
        words: list[Word] = [compiler.c, *SANITIZED, source, "-o", made]
        return captured(words).status == 0 and captured([*runner, made]).status == 0


def laid_library(
    words: argparse.Namespace, backend: str, target: Target, folder: Path, heard: Hearer
) -> Built:
    """Makes a library in a folder: of the archive that is given, over what the gate left, or proved
    and built anew."""
    built = Built(
        "given" if words.archive else backend, folder / backend, folder / f"{backend}.a", target
    )
    if words.gated:
        # One proof is enough for both compilers.
        gated_archive(backend, words.proof or folder / "proof", built.archive, target)
    else:
        # The next compiler's archive takes the place of this one.
        shutil.copyfile(words.archive or built_archive(backend, target, heard), built.archive)
    make_library(
        built.archive, memory_part(target, folder), Place(str(built.folder)), MOVING, target
    )
    return built


def build(
    compiler: str,
    built: Built,
    sources: Sequence[Path],
    made: Path,
    *flags: str,
    standard: str = "c99",
) -> list[Word]:
    """Builds a program with the static library, and answers the words that run it."""
    words: list[Word] = [f"-std={standard}", *STRICT, *flags, "-I", built.folder / "include"]
    if built.target == WINDOWS:
        # Wine finds neither a program without this ending nor the compiler's own libraries.
        words = [*words, "-static"]
        made = made.with_suffix(".exe")
    run([compiler, *words, *sources, built.static, "-o", made])
    return [*RUNNERS[built.target], made]
