"""The tests of the packages, over the proved library and over the portable one.

For Python and JavaScript: their own tests. For Rust: the crates' tests, examples, lints and pages.
"""

from __future__ import annotations

import argparse
import importlib.util
import re
import shutil
import sys
import tempfile
from functools import partial
from pathlib import Path
from typing import Callable, NamedTuple

from zaklimot._file import FILE, PORTABLE, PROVED, kind_of
from zaklimot.commands import TOP
from zaklimot.commands.core.processes import Word, captured, tested
from zaklimot.commands.core.progress import Progress
from zaklimot.commands.core.trouble import Trouble, Wrong
from zaklimot_dev.library.making import X86_64
from zaklimot_dev.library.words import BACKENDS
from zaklimot_dev.words import refuse_to_check
from zaklimot.commands.script.crates import phases

from .checks import PRINTED, REPORT, TEXT
from .compilers import laid_library, make_check, not_there, run
from .javascript import check_javascript
from .portable import check_cmake, check_crate, portable_library


PACKAGE = TOP / "python"
# How unittest ends, and what a test may be skipped for.
RAN = re.compile(r"^Ran (\d+) tests", re.M)
SKIPPED = re.compile(r"skipped '(.*)'")
MAY_BE_SKIPPED = "numpy is not here"
CRATES = "bindings/rust"
# The crates, and what they name outside.
COPIED = (CRATES, "include", "portable", "fonts")
DONE = re.compile(r"^test result: ok\. (\d+) passed; 0 failed; 0 ignored", re.M)
# The programs of the page, and the project that they become.
PROGRAM = re.compile(r"^```rust\n(.*?)^```$", re.M | re.S)
PROJECT = """[package]
name = "first"
version = "0.1.0"
edition = "2021"

[dependencies]
zaklimot = { path = "../bindings/rust/zaklimot" }
"""
# A program that tells which library it has, for each language.
TELLING = "import zaklimot; print(zaklimot.library().kind)"
TELLING_IN_RUST = """fn main() {
    println!("{:?}", zaklimot::library());
}
"""


class ExampleRun(NamedTuple):
    """A run of an example: the text of {script}, the words, the status, and what is written, or
    said of what can't be done."""

    text: bytes
    words: str
    status: int
    told: str


# Slices of one step, some that leave a rest, and all.
RUNS = (
    *(
        ExampleRun(TEXT, f"slices {{script}} {steps}", 0, "\n".join((*PRINTED, *REPORT, "")))
        for steps in (1, 4, 6, 1000)
    ),
    ExampleRun(
        b"frame\n\nmove 3C4 02\n",
        "slices {script} 1",
        1,
        "BadLine 3: This line of the text is bad.",
    ),
    ExampleRun(TEXT, "slices {script} 0", 2, "0: a slice has one step or more"),
    ExampleRun(
        TEXT,
        "picture no-such-folder/picture.ppm",
        1,
        "picture: no-such-folder/picture.ppm can't be written: ",
    ),
)
# Within so many seconds such a run ends.
SOON = 60
# The programs that the tests need of this machine. Clippy is one of cargo's.
PROGRAMS = (
    "python3",
    "cargo",
    "rustc",
    "rustdoc",
    "cargo-clippy",
    "ld",
    "objcopy",
    "ar",
    "cc",
    "node",
)


def check_python(library: Path, _: Path) -> str:
    """Each test passes, none is skipped but for want of numpy, and the library is told."""
    environment = {
        "ZAKLIMOT_DIR": str(library),
        "ZAKLIMOT_LIBRARY": "",
        "PYTHONPATH": str(PACKAGE),
    }
    check_kind(library, run([sys.executable, "-B", "-c", TELLING], environment=environment))
    words = [sys.executable, "-B", "-m", "unittest", "discover", "--verbose"]
    words += ["--start-directory", str(PACKAGE / "tests")]
    said = tested(words, environment=environment).errors.decode("utf-8", "replace")
    ran = RAN.search(said)
    skipped = SKIPPED.findall(said)
    if ran is None or set(skipped) - {MAY_BE_SKIPPED}:
        raise Wrong(f"tests were skipped: {', '.join(sorted(set(skipped)))}")
    return f"{ran[1]} tests, the suite among them" + ("; numpy is not here" if skipped else "")


def _kind(library: Path) -> str:
    """Of which kind the library of a folder is."""
    return kind_of(str(library / "lib" / FILE))


def check_kind(library: Path, told: str) -> None:
    """What a package tells of its library is what the library's folder tells."""
    if told.strip().lower() != _kind(library):
        kind = _kind(library)
        raise Wrong(f"the library is {kind}, and the package tells that it is {told.strip()}")


def _tree(folder: Path) -> Path:
    """A copy of the crates, so that nothing is left among the sources."""
    tree = folder / "tree"
    if not tree.exists():
        ignored = shutil.ignore_patterns("target", "Cargo.lock")
        for name in COPIED:
            shutil.copytree(TOP / name, tree / name, ignore=ignored)
    return tree


def _cargo(library: Path, folder: Path, *words: str, project: str = CRATES) -> str:
    """What cargo writes in a folder of a copy of the crates.

    The portable library it compiles itself, and a proved one it takes from its folder.
    """
    is_portable = _kind(library) == PORTABLE
    return run(
        ["cargo", *words],
        folder=_tree(folder) / project,
        environment={
            "ZAKLIMOT_DIR": "" if is_portable else str(library),
            "ZAKLIMOT_PORTABLE": str(int(is_portable)),
            "CARGO_TARGET_DIR": str(folder / "target"),
            "RUSTFLAGS": "-D warnings",
            "RUSTDOCFLAGS": "-D warnings",
        },
    )


def _project(folder: Path, name: str) -> Path:
    """A project that has the crate and programs of its own: the folder of these."""
    programs = _tree(folder) / name / "src" / "bin"
    programs.mkdir(parents=True, exist_ok=True)
    (_tree(folder) / name / "Cargo.toml").write_text(PROJECT, "ascii")
    return programs


def check_rust(library: Path, folder: Path) -> str:
    """Each test passes: those of the header, of the card, and of the pages."""
    output = _cargo(library, folder, "test", "--offline")
    (_project(folder, "telling") / "telling.rs").write_text(TELLING_IN_RUST, "ascii")
    check_kind(library, _cargo(library, folder, "run", "--offline", "--quiet", project="telling"))
    counts = [int(count) for count in DONE.findall(output)]
    if len(counts) < 5 or sum(counts) < 20:
        raise Wrong(f"cargo test runs {sum(counts)} tests:\n{output[-2000:]}")
    return f"{sum(counts)} tests"


def check_rust_examples(library: Path, folder: Path) -> str:
    """The first program draws what Python's draws, slices write the report of the whole, and
    mistakes are told."""
    _cargo(library, folder, "build", "--offline", "--examples")
    made = folder / "target" / "debug" / "examples"
    script = folder / "few.vga"
    pictures = []
    environment = {"ZAKLIMOT_DIR": str(library), "PYTHONPATH": str(PACKAGE)}
    python: list[Word] = [sys.executable, "-B", TOP / "examples" / "python" / "picture.py"]
    rust: list[Word] = [made / "picture"]
    for words in (rust, python):
        tested([*words, folder / "picture.ppm"], environment=environment)
        pictures.append((folder / "picture.ppm").read_bytes())
    if pictures[0] != pictures[1]:
        raise Wrong("the picture of Rust is not Python's")
    for one in RUNS:
        script.write_bytes(one.text)
        name, *rest = one.words.format(script=script).split()
        done = captured([made / name, *rest], folder, seconds=SOON)
        said = (done.output + done.errors).decode("utf-8", "replace")
        is_told = one.told in said if one.status else one.told == said
        if done.status != one.status or not is_told:
            ended = f"ends with status {done.status}, and says {said!r}"
            raise Wrong(f"in Rust, `{one.words}` {ended}")
    _check_page(library, folder)
    return "a picture, a script in slices, and the page's programs in a project of its own"


def programs_of_page() -> dict[str, str]:
    """The programs of docs/RUST.md, by the names that they have in a project."""
    found = PROGRAM.findall((TOP / "docs" / "RUST.md").read_text("utf-8"))
    return {f"program_{number}": program for number, program in enumerate(found)}


def _check_page(library: Path, folder: Path) -> None:
    """Each program of docs/RUST.md, in a project of its own, writes what its comments say."""
    programs = _project(folder, "first")
    for name, program in programs_of_page().items():
        (programs / f"{name}.rs").write_text(program, "utf-8")
        told = _cargo(
            library, folder, "run", "--offline", "--quiet", "--bin", name, project="first"
        ).splitlines()
        wanted = re.findall(r"println!\(.*\); // (.*)", program)
        if not wanted or told != wanted:
            raise Wrong(f"a program of docs/RUST.md writes {told}, and not {wanted}")


def _check_cargo(line: str, told: str, library: Path, folder: Path) -> str:
    _cargo(library, folder, *line.split())
    return told


def _check_crate(_: Path, folder: Path) -> str:
    return check_crate(_tree(folder) / CRATES, folder)


# Each check gets the folder of the library, and one for what it makes. The first are made with
# each library.
EACH: dict[str, Callable[[Path, Path], str]] = {
    "python": check_python,
    "rust": check_rust,
    "javascript": lambda library, _: check_javascript(library, PACKAGE),
}
CHECKS: dict[str, Callable[[Path, Path], str]] = {
    **EACH,
    "rust-examples": check_rust_examples,
    "lints": partial(
        _check_cargo, "clippy --offline --all-targets -- -D warnings", "clippy finds nothing"
    ),
    "pages": partial(
        _check_cargo, "doc --offline --no-deps", "the pages are made without a warning"
    ),
    "crate": _check_crate,
    "cmake": check_cmake,
}


def lacking() -> list[str]:
    """What this machine lacks, each with the package to install."""
    # What makes an environment of Python's has this in it.
    venv = (
        []
        if importlib.util.find_spec("ensurepip")
        else ["Python's venv: install the package python3-venv"]
    )
    return not_there(PROGRAMS) + venv


def _library(words: argparse.Namespace, folder: Path, progress: Progress) -> Path:
    if words.library is not None:
        if not (words.library / "lib").is_dir():
            raise Trouble("it is no folder of `vga-library make`", str(words.library))
        return Path(words.library).absolute()
    heard = phases(progress)("proving and building the library")
    built = laid_library(words, BACKENDS[0], X86_64, folder, heard)
    progress.clear()
    if _kind(built.folder) != PROVED:
        raise Wrong(f"{built.folder} doesn't tell that its library is proved")
    return built.folder


def _libraries(words: argparse.Namespace, folder: Path, progress: Progress) -> dict[str, Path]:
    """The folder of each library, by its kind: the proved one, or a given one; the portable one."""
    first = _library(words, folder, progress)
    libraries = {_kind(first): first}
    if PORTABLE not in libraries:
        libraries[PORTABLE] = portable_library(folder)
    return libraries


def run_checks(words: argparse.Namespace, progress: Progress) -> None:
    """Makes the checks, and tells what each finds."""
    refuse_to_check(lacking())
    if words.ready:
        return
    with tempfile.TemporaryDirectory(prefix="vga-bindings-tests-") as name:
        libraries = _libraries(words, Path(name), progress)
        for check in words.only or CHECKS:
            for kind, library in list(libraries.items())[: None if check in EACH else 1]:
                # What one of Rust's checks has built, the next takes.
                told = f"{check}, {kind}" if check in EACH else check
                make_check(told, partial(CHECKS[check], library, Path(name)))
