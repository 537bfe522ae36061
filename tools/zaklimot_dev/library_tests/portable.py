"""The library as a C compiler makes it of portable/zaklimot.c, and how others build it."""

from __future__ import annotations

import ctypes
import json
import os
import re
import shutil
import tarfile
from pathlib import Path
from typing import Mapping

from zaklimot._file import PORTABLE
from zaklimot.commands import TOP
from zaklimot.commands.core.trouble import Wrong
from zaklimot.commands.core.version import HEADER, version
from zaklimot_dev.library.making import MOVING, Place, described, make_library

from .checks import PICTURE, PROJECT, check_picture
from .compilers import run


SOURCE = TOP / "portable" / "zaklimot.c"
OPTIONS = ("-std=c99", "-O2", "-fPIC")
# So it is compiled in a third of the time, where how fast it runs counts for nothing.
QUICK = "-O0"
BELOW = Path(__file__).resolve().parent / "below"
# How a project takes it, and whether it asks for shared libraries.
WAYS = {"add_subdirectory": "OFF", "FetchContent": "ON"}
SYS = "zaklimot-sys"
SAFE = "zaklimot"
# What each packed crate has, beside its sources.
HAVING = ("Cargo.toml", "LICENSE", "README.md", "build.rs")
PACKED = {
    SYS: (*(f"portable/zaklimot.{ending}" for ending in ("c", "h", "fnt")), "tests/header.rs"),
    SAFE: (
        *(f"examples/{name}.rs" for name in ("bench", "picture", "slices")),
        *(f"tests/{name}.rs" for name in ("allocations", "card", "explained")),
    ),
}
# From this version on cargo packs a crate with another of the workspace that nobody has published.
WITH_OTHERS = (1, 90)
# A workspace of the packed crates alone, with a program of its own.
OUTSIDE = """[workspace]
resolver = "2"
members = [{members}, "using"]

[patch.crates-io]
{patches}

[profile.test]
opt-level = 1
"""
USING = """[package]
name = "using"
version = "0.1.0"
edition = "2021"

[dependencies]
zaklimot-sys = "{version}"
"""
CALLING = """fn main() {
    // SAFETY: it takes nothing.
    println!("{} {}", zaklimot_sys::KIND, unsafe { zaklimot_sys::zak_version() });
}
"""
TESTED = re.compile(r"^test result: ok\. (\d+) passed; 0 failed; 0 ignored", re.M)


def portable_library(folder: Path) -> Path:
    """Compiles the C file, and lays it into a folder as `vga-library make` lays the proved one."""
    made = folder / PORTABLE
    code = folder / "zaklimot.o"
    whole = folder / "portable.a"
    nothing = folder / "nothing.a"
    run(["cc", *OPTIONS, "-I", HEADER.parent, "-c", SOURCE, "-o", code])
    run(["ar", "rcsD", whole, code])
    # It takes its memory of the C library itself.
    run(["ar", "rcsD", nothing])
    make_library(whole, nothing, Place(str(made)), MOVING, kind=PORTABLE)
    return made


def number() -> int:
    """The version as zak_version() answers it."""
    return 65536 * version().major + version().minor


def _packs_with_others() -> bool:
    """Whether this cargo packs both crates."""
    told = re.match(r"cargo (\d+)\.(\d+)\.", run(["cargo", "--version"]))
    return told is not None and (int(told[1]), int(told[2])) >= WITH_OTHERS


def _unpacked(packed: Path, outside: Path) -> str:
    """Unpacks a crate, which is to have all that its users read and test: the folder's name."""
    with tarfile.open(packed) as archive:
        members = {member.name.partition("/")[2]: member for member in archive.getmembers()}
        crate = SYS if packed.name.startswith(SYS) else SAFE
        for name in (*HAVING, *PACKED[crate]):
            if name not in members or not members[name].isfile():
                raise Wrong(f"{packed.name} has no file {name}")
        for member in members.values():
            archive.extract(member, outside)
    return packed.name[: -len(".crate")]


def _lay_outside(outside: Path, crates: Mapping[str, str]) -> None:
    """Lays a workspace of the crates, whose folders are told by their names."""
    members = ", ".join(f'"{folder}"' for folder in crates.values())
    patches = "\n".join(f'{name} = {{ path = "{folder}" }}' for name, folder in crates.items())
    using = outside / "using"
    (using / "src").mkdir(parents=True)
    (outside / "Cargo.toml").write_text(OUTSIDE.format(members=members, patches=patches), "ascii")
    (using / "Cargo.toml").write_text(USING.format(version=version()), "ascii")
    (using / "src" / "main.rs").write_text(CALLING, "ascii")


def check_crate(tree: Path, folder: Path) -> str:
    """What `cargo package` packs of the crates is compiled, tested and called outside the
    repository."""
    quick = {
        "ZAKLIMOT_DIR": "",
        "ZAKLIMOT_PORTABLE": "1",
        "CFLAGS": QUICK,
        "CARGO_TARGET_DIR": str(folder / "packing"),
        "RUSTFLAGS": "-D warnings",
    }
    which = ["--workspace"] if _packs_with_others() else ["--package", SYS]
    words = ["--offline", "--allow-dirty", "--no-verify"]
    run(["cargo", "package", *words, *which], folder=tree, environment=quick)
    outside = folder / "outside"
    packed = sorted((folder / "packing" / "package").glob("*.crate"))
    crates = {
        SYS if path.name.startswith(SYS) else SAFE: _unpacked(path, outside) for path in packed
    }
    _lay_outside(outside, crates)
    program = ["cargo", "run", "--offline", "--quiet", "--package", "using"]
    told = run(program, folder=outside, environment=quick).strip()
    if told != f"{PORTABLE} {number()}":
        raise Wrong(f"a program with {crates[SYS]} writes {told}")
    output = run(
        ["cargo", "test", "--offline", "--workspace", "--all-targets"],
        folder=outside,
        environment=quick,
    )
    count = sum(map(int, TESTED.findall(output)))
    if count < (20 if SAFE in crates else 4):
        raise Wrong(f"in the packed crates {count} tests run:\n{output[-2000:]}")
    left = "" if SAFE in crates else f"; {SAFE} is left out, which cargo packs from 1.90 on"
    return f"{' and '.join(crates.values())} outside the repository: {count} tests{left}"


def check_cmake(_: Path, folder: Path) -> str:
    """The C file is built by CMake alone and below another project; what is installed is found."""
    if not shutil.which("cmake"):
        return "CMake is left out: install the package cmake"
    _check_options(folder)
    _check_installed(folder)
    for way, shared in WAYS.items():
        made = folder / way
        words = [f"-DZAKLIMOT={TOP}", f"-DWAY={way}", f"-DPICTURE={PICTURE}"]
        words.append(f"-DBUILD_SHARED_LIBS={shared}")
        _configure(BELOW, made, *words, f"-DCMAKE_C_FLAGS={QUICK}")
        run(["cmake", "--build", made])
        check_picture("picture", [made / "picture"], folder / "below.ppm", f"built by {way}")
        if ctypes.CDLL(str(made / "libcore.so")).core_version() != number():
            raise Wrong(f"by {way} the shared object has another library")
        run(["cmake", "--install", made, "--prefix", made / "prefix"])
        laid = [path.name for path in (made / "prefix").rglob("*") if path.is_file()]
        if laid != ["picture"]:
            raise Wrong(f"a project that has the library by {way} installs {laid}")
    return f"alone and installed, by {' and by '.join(WAYS)}"


def _configure(source: Path, made: Path, *words: str) -> None:
    # What the environment tells of types and flags is not what is checked here.
    kept = {"CFLAGS": "", "CMAKE_BUILD_TYPE": ""}
    run(["cmake", "-S", source, "-B", made, *words], environment={**os.environ, **kept})


def _check_options(folder: Path) -> None:
    """Without a build type the C file is optimised, and with one it is what that says."""
    for words, told in (
        ((), ["-O2"]),
        (("-DCMAKE_BUILD_TYPE=Debug",), []),
        (("-DCMAKE_BUILD_TYPE=Release",), ["-O3"]),
        (("-DCMAKE_C_FLAGS=-O1",), ["-O1"]),
    ):
        made = folder / "options"
        shutil.rmtree(made, ignore_errors=True)
        _configure(TOP, made, "-DCMAKE_EXPORT_COMPILE_COMMANDS=ON", *words)
        commands = {
            Path(entry["file"]).name: entry["command"].split()
            for entry in json.loads((made / "compile_commands.json").read_text("utf-8"))
        }
        levels = [word for word in commands[SOURCE.name] if re.fullmatch(r"-O\w+", word)]
        if levels != told or not {"-fPIC", "-std=c99"} <= set(commands[SOURCE.name]):
            raise Wrong(f"with {words} CMake compiles {' '.join(commands[SOURCE.name])}")


def _check_installed(folder: Path) -> None:
    """Each library is found below a prefix that was moved, with what pkg-config reads."""
    for shared in ("OFF", "ON"):
        made, first, moved, finding = (
            folder / f"{name}-{shared}" for name in ("alone", "first", "moved", "finding")
        )
        words = [f"-DBUILD_SHARED_LIBS={shared}", "-DCMAKE_INSTALL_LIBDIR=lib"]
        _configure(TOP, made, f"-DCMAKE_C_FLAGS={QUICK}", *words)
        run(["cmake", "--build", made])
        run(["cmake", "--install", made, "--prefix", first])
        first.rename(moved)
        wanted = next(iter(described(MOVING, "lib", version(), PORTABLE).values()))
        if (moved / "lib" / "pkgconfig" / "zaklimot.pc").read_text("ascii") != wanted:
            raise Wrong("zaklimot.pc as CMake writes it is not as vga-library does")
        _configure(PROJECT, finding, f"-DPICTURE={PICTURE}", f"-DCMAKE_PREFIX_PATH={moved}")
        run(["cmake", "--build", finding])
        needs = []
        for name in ("picture", "picture_static"):
            told = f"built by CMake as {name}"
            check_picture("picture", [finding / name], folder / "found.ppm", told)
            needed = run(["objdump", "-p", finding / name])
            needs.append(f"libzaklimot.so.{version().major}\n" in needed)
        if needs != [shared == "ON", False]:
            raise Wrong(f"with BUILD_SHARED_LIBS={shared} programs want shared libraries: {needs}")
