"""Makes the library's files, of the crate's archive for a processor and the functions that take its
memory, and lays them."""

from __future__ import annotations

import hashlib
import os
import shutil
import tempfile
from pathlib import Path, PurePosixPath
from typing import Iterable, Iterator, Mapping, NamedTuple, Optional

from zaklimot._file import PROVED
from zaklimot.commands import TOP
from zaklimot.commands.core.processes import Hearer, run
from zaklimot.commands.core.streams import filled, refuse_input, to_read
from zaklimot.commands.core.trouble import Trouble
from zaklimot.commands.core.version import HEADER, Version, version
from zaklimot.commands.script.crates import below, uses

from .words import ARCHIVE_NAME, BACKENDS, PROCESSORS


CRATE = TOP / "crates" / "vga_c"
ARCHIVE = CRATE / "out" / ARCHIVE_NAME
# A build that was stopped takes a library away, and what `rt ci` has kept hides that it is lacking.
AGAIN = (
    ". If rt ci has passed, a build was stopped since: remove the folders crates/*/out, and run it"
    " again"
)
# What every crate stands on, unnamed.
ALWAYS = "std"
# The memory's functions for processors for which the kit has none.
HEAP = Path(__file__).resolve().parent / "heap.c"
HEAP_OPTIONS = ("-std=c99", "-O2", "-fPIC", "-Wall", "-Wextra", "-Werror")
# Where `rt check` keeps its work.
KEPT = CRATE / "out" / "incremental"
NAME = "zaklimot"
# The name by which CMake finds it, and the files that it reads, with places for what is made.
CMAKE_NAME = "Zaklimot"
CMAKE = Path(__file__).resolve().parent / "cmake"
# The file that `pkg-config` reads, with such places.
PACKAGE = CMAKE.with_name(f"{NAME}.pc.in")
# The names that are seen of the library.
SEEN = "zak_*"
FONTS = TOP / "fonts" / f"{NAME}.fnt"
# The C++ header, which stands on the C one.
CPP_HEADER = HEADER.with_suffix(".hpp")
# In the place of a prefix: one that goes with the folder wherever it is moved.
MOVING = ""
# What is kept for `install`, for each processor in a folder of its own.
FOLDER = CRATE / "out" / "made"
# The crate's archive, the functions that take its memory, and what they were made of.
CRATES = "crates.a"
MEMORY = "memory.a"
MADE_OF = "made-of"


class Target(NamedTuple):
    """A processor with Linux: its name, Rattle's name of it, and the compilers of Rattle that a kit
    has for it.

    `prefix` begins the names of the programs that make files for it; it is empty where they are the
    machine's own.
    """

    name: str
    triple: str
    backends: tuple[str, ...]
    prefix: str = ""

    def tool(self, name: str) -> str:
        """The program of this name that makes files for it."""
        return f"{self.prefix}{name}"

    def compiler(self) -> str:
        """Its C compiler; for the machine's own processor as packagers name one."""
        return self.tool("gcc") if self.prefix else os.environ.get("CC") or "cc"

    def programs(self) -> list[str]:
        """All that is run to make the library for it, but for Rattle's own."""
        return [self.compiler(), *map(self.tool, ("ld", "objcopy", "ar"))]


X86_64 = Target(PROCESSORS[0], "x86_64-unknown-linux-gnu", BACKENDS)
AARCH64 = Target(PROCESSORS[1], "aarch64-unknown-linux-gnu", BACKENDS[:1], "aarch64-linux-gnu-")
TARGETS = {target.name: target for target in (X86_64, AARCH64)}


def kit_folder() -> Path:
    """The kit's folder."""
    return Path(run(["rt", "doc"]).strip()).parent


def kit_line() -> str:
    """The line by which the kit tells what it is."""
    return run(["rt", "version"]).strip()


def rlib(name: str) -> Path:
    """The library that `rt ci` built of a crate."""
    path = TOP / "crates" / name / "out" / "rlib" / f"{name}.rlib"
    if not path.exists():
        raise Trouble(f"it is not there: run rt ci first{AGAIN}", str(path))
    return path


def _libraries(kit: Path) -> list[str | Path]:
    own = below(CRATE.name)
    words: list[str | Path] = []
    for name in [ALWAYS, *(name for name in uses()[CRATE.name] if name not in uses())]:
        words += ["--extern", f"{name}={kit / 'rlibs' / name}.rlib"]
    words += ["-L", f"dependency={kit / 'rlibs'}"]
    for name in own:
        if name in uses()[CRATE.name]:
            words += ["--extern", f"{name}={rlib(name)}"]
    for name in own:
        words += ["-L", f"dependency={rlib(name).parent}"]
    return words


def proving_words(kit: Path, kept: str | Path) -> list[str | Path]:
    """What the compiler is told where it proves the crate, over what a folder keeps of its
    proof."""
    jobs = min(4, os.cpu_count() or 1)
    words = ["--crate-name", CRATE.name, "src/lib.rt", *_libraries(kit)]
    words += ["--antt-project", kit / "rattle" / "logic" / "antt-project.json"]
    words += ["--links", f"{CRATE.name}=", "--crate-type", "staticlib"]
    return [
        *words,
        "--logic-built",
        kit / "logic_built",
        "--jobs",
        str(jobs),
        "--incremental",
        kept,
    ]


def gated_archive(backend: str, kept: Path, made: Path, target: Target = X86_64) -> Path:
    """Proves the crate, keeps its proof in a folder, and builds the archive for a processor by one
    of the compilers.

    Where the folder has the proof already, it is not made again.
    """
    kit = kit_folder()
    words = [
        *proving_words(kit, kept.absolute()),
        "--toolchain",
        kit / "toolchain",
        "--backend",
        backend,
    ]
    run([kit / "bin" / "rattle", "build", *words, "--target", target.triple, "-o", made], CRATE)
    return made


def built_archive(backend: str, target: Target, heard: Optional[Hearer] = None) -> Path:
    """The crate's archive for a processor, proved and built. What is kept of its proof makes it
    quick."""
    if target == X86_64:
        run(
            ["rt", "lib", *([] if backend == BACKENDS[0] else ["--backend", backend])], CRATE, heard
        )
        return ARCHIVE
    # `rt lib` builds for the kit's own processor alone. The compiler proves the crate for the other
    # one too.
    run(["rt", "check"], CRATE, heard)
    return gated_archive(backend, KEPT, CRATE / "out" / f"lib{CRATE.name}-{target.name}.a", target)


def memory_part(target: Target, folder: Path) -> Path:
    """The functions that the crate takes its memory by: the kit's, or a file that is made in the
    folder."""
    if target == X86_64:
        return kit_folder() / "c" / "liblibc_c.a"
    made = folder / "heap.o"
    run([target.compiler(), *HEAP_OPTIONS, "-c", HEAP, "-o", made])
    return made


class Place(NamedTuple):
    """Where the files lie: below a prefix, which a packager first has below a folder of his own."""

    prefix: str
    library_folder: str = "lib"
    stage: str = ""

    def folder(self, name: str) -> Path:
        """The folder of this name below the prefix, as files are laid there."""
        if not self.stage:
            return Path(self.prefix) / name
        return Path(self.stage) / PurePosixPath(self.prefix).relative_to("/") / name


def described(
    prefix: str, library_folder: str, told: Version, kind: str = PROVED
) -> dict[str, str]:
    """What `pkg-config` and CMake read, by the names of the files below the folder of libraries.

    CMake finds the library from its files' own place, wherever that is, and so does `pkg-config`
    where it is MOVING. The packages for Python and Rust find the library's kind there.
    """
    cmake = f"cmake/{CMAKE_NAME}"
    version_words = {"VERSION": str(told), "MAJOR": str(told.major)}
    upwards, moving = (
        "/".join([".."] * len(Path(library_folder, name).parts)) for name in (cmake, "pkgconfig")
    )
    prefix = prefix or "${pcfiledir}/" + moving
    return {
        f"pkgconfig/{NAME}.pc": filled(
            PACKAGE, PREFIX=prefix, LIBRARY_FOLDER=library_folder, VERSION=str(told), KIND=kind
        ),
        f"{cmake}/{CMAKE_NAME}Config.cmake": filled(
            CMAKE / "config.cmake.in",
            UPWARDS=upwards,
            LIBRARY_FOLDER=library_folder,
            **version_words,
        ),
        f"{cmake}/{CMAKE_NAME}ConfigVersion.cmake": filled(
            CMAKE / "version.cmake.in", **version_words
        ),
    }


def joined_object(archive: Path, memory: Path, folder: Path, target: Target) -> Path:
    """One object of the crate's archive and of the functions that take its memory, of which the
    names of the header alone are seen."""
    made = folder / f"{NAME}.o"
    run(
        [
            target.tool("ld"),
            "-r",
            "-z",
            "noexecstack",
            "-o",
            made,
            "--whole-archive",
            archive,
            memory,
        ]
    )
    run([target.tool("objcopy"), "--wildcard", f"--keep-global-symbol={SEEN}", made])
    return made


def make_shared(whole: Path, folder: Path, told: Version, target: Target) -> None:
    """The shared library under its version, with the names by which programs and linkers look for
    it."""
    soname = f"lib{NAME}.so.{told.major}"
    file = f"lib{NAME}.so.{told}"
    options = [
        "-shared",
        f"-Wl,-soname,{soname}",
        "-Wl,-z,noexecstack",
        "-Wl,-z,defs",
        "-Wl,--build-id=none",
    ]
    # Names are looked for once, when a program starts; what holds their places is only read then.
    options += ["-Wl,-z,relro", "-Wl,-z,now"]
    run([target.compiler(), *options, "-o", folder / file, whole])
    for link in (soname, f"lib{NAME}.so"):
        (folder / link).symlink_to(file)


def make_library(
    archive: Path,
    memory: Path,
    place: Place,
    prefix: str,
    target: Target = X86_64,
    kind: str = PROVED,
) -> list[Path]:
    """Lays headers, libraries, fonts, and what `pkg-config` and CMake read. Answers what was laid.

    The archive and the functions that take its memory are for this processor. The file for
    `pkg-config` names this prefix, or one that goes with the folder where it is MOVING, and the
    library's kind.
    """
    told = version()
    include = place.folder("include")
    libraries = place.folder(place.library_folder)
    share = place.folder(f"share/{NAME}")
    read = described(prefix, place.library_folder, told, kind)
    texts = {libraries / file: text for file, text in read.items()}
    with tempfile.TemporaryDirectory(prefix="vga-library-") as name:
        made = Path(name) / "lib"
        made.mkdir()
        whole = joined_object(archive, memory, Path(name), target)
        # The static library has no times and no owners, so that it is the same each time.
        run([target.tool("ar"), "rcsD", made / f"lib{NAME}.a", whole])
        make_shared(whole, made, told, target)
        for path, text in texts.items():
            (Path(name) / path.name).write_text(text, "ascii")
        laid = {
            include / HEADER.name: HEADER,
            include / CPP_HEADER.name: CPP_HEADER,
            **{libraries / path.name: path for path in sorted(made.iterdir())},
            **{path: Path(name) / path.name for path in texts},
            share / FONTS.name: FONTS,
        }
        # All is made now, so that nothing is laid where something can't be made.
        _lay(laid)
    return list(laid)


def _lay(laid: Mapping[Path, Path]) -> None:
    """Copies files to their places, each in the place of what has its name; none over another of
    them."""
    for path, source in laid.items():
        to_read(str(source))
        refuse_input(str(path))
    for path, source in laid.items():
        path.parent.mkdir(parents=True, exist_ok=True)
        path.unlink(missing_ok=True)
        shutil.copyfile(source, path, follow_symlinks=False)


def _sources() -> Iterator[Path]:
    yield TOP / "crates.txt"
    for name in [*below(CRATE.name), CRATE.name]:
        for entry in sorted((TOP / "crates" / name).iterdir()):
            if entry.name != "out":
                yield from sorted(
                    path
                    for path in (entry.rglob("*") if entry.is_dir() else [entry])
                    if path.is_file()
                )


def made_of(backend: str, target: Target, parts: Iterable[Path]) -> str:
    """A line for the compiler, and for each source and part, with its digest."""
    named = {path: str(path.relative_to(TOP)) for path in _sources()}
    named.update({path: path.name for path in (*(() if target == X86_64 else (HEAP,)), *parts)})
    lines = (
        f"{hashlib.sha256(path.read_bytes()).hexdigest()} {name}\n" for path, name in named.items()
    )
    return f"backend {backend}\n" + "".join(lines)


class LibraryParts(NamedTuple):
    """What a library is made of: the crate's archive, and the functions that take its memory."""

    crates: Path
    memory: Path


def _parts(target: Target) -> LibraryParts:
    return LibraryParts(FOLDER / target.name / CRATES, FOLDER / target.name / MEMORY)


def keep(backend: str, target: Target, made: LibraryParts) -> LibraryParts:
    """Keeps both parts, and answers where."""
    parts = _parts(target)
    told = parts.crates.with_name(MADE_OF)
    told.parent.mkdir(parents=True, exist_ok=True)
    told.unlink(missing_ok=True)
    for source, place in zip(made, parts):
        shutil.copyfile(source, place)
    told.write_text(made_of(backend, target, parts), "utf-8")
    return parts


def kept(backend: str, target: Target) -> Optional[LibraryParts]:
    """Both parts, where they were made by this compiler of these sources; else None."""
    parts = _parts(target)
    try:
        return (
            parts
            if parts.crates.with_name(MADE_OF).read_text("utf-8") == made_of(backend, target, parts)
            else None
        )
    except FileNotFoundError:
        return None
