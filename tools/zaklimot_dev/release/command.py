"""What a release holds: files of the commit, what is built, the wheel, and pages.

Their links lead to what is in it. The archive hangs on nothing but its files and the commit's time.
The C file has an archive of its own, which needs no toolchain.
"""

import argparse
import gzip
import hashlib
import io
import posixpath
import re
import sys
import tarfile
import tempfile
from functools import partial
from pathlib import Path, PurePosixPath
from typing import (
    AbstractSet,
    BinaryIO,
    Mapping,
    Match,
    NamedTuple,
    Optional,
    Sequence,
    Union,
    cast,
)

from zaklimot.commands import TOP
from zaklimot.commands.core.files import check_folder
from zaklimot.commands.core.processes import Hearer, check_program, ended_well, run
from zaklimot.commands.core.progress import Progress
from zaklimot.commands.core.streams import write_file, writing
from zaklimot.commands.core.trouble import Trouble
from zaklimot.commands.core.version import version
from zaklimot_dev.library.command import check_given
from zaklimot_dev.library.making import (
    AARCH64,
    MOVING,
    X86_64,
    Place,
    Target,
    built_archive,
    kit_line,
    make_library,
    memory_part,
)
from zaklimot_dev.library.words import BACKENDS
from zaklimot.commands.script.crates import phases

from . import stepping
from .words import COUNT, PORTABLE, STEPS


PROGRAM = TOP / "crates" / "vga"
MACHINE = "x86_64-linux"
# The file beside the archive, which `sha256sum --check` reads.
SUM = "sha256"
EXECUTABLE = 0o100
PLAIN = 0o644
RUN = 0o755
LEVEL = 9


class File(NamedTuple):
    """A file of a release."""

    content: bytes
    is_executable: bool = False


# A file, or where a link leads.
Entry = Union[File, str]


class Commit(NamedTuple):
    """A commit's number, and its time in seconds since 1970."""

    number: str
    time: int


# The front page of a release is this one, and the repository's lies beside the other pages.
PAGE = "tools/zaklimot_dev/release/README.md"
FRONT = "README.md"
# What of the commit goes into a release, where it lies in the repository.
PATHS = (
    "CHANGELOG.md",
    "CMakeLists.txt",
    "LICENSE",
    FRONT,
    PAGE,
    "SECURITY.md",
    "bindings",
    "crates/vga_suite/data",
    "docs",
    "examples",
    "fonts",
    "include",
    "page/zaklimot.html",
    PORTABLE,
    "python",
    "share",
    "tools/README.md",
    "tools/vga",
    "zaklimot",
)
MOVED = {PAGE: FRONT, FRONT: f"docs/{FRONT}"}
# What is in the archive of the C file, all in one folder.
ALONE_PAGE = "tools/zaklimot_dev/release/PORTABLE.md"
ALONE = {
    ALONE_PAGE: FRONT,
    "LICENSE": "LICENSE",
    "fonts/zaklimot.fnt": "zaklimot.fnt",
    **{f"include/{name}": name for name in ("zaklimot.h", "zaklimot.hpp")},
    **{f"{PORTABLE}/{name}": name for name in ("CMakeLists.txt", "vga.c", "zaklimot.c")},
}
INSTALL = "install.sh"
# Other names of what is built, so that the commands of all pages run in a release as they stand.
LINKS: Mapping[str, Entry] = {
    "crates/vga/out/vga": "../../../bin/vga",
    "kit/include": "../include",
    "kit/lib": "../lib",
    "kit/share": "../share",
}
MADE_OF = "MADE-OF"
PACKAGE = "python"
# What the package is made of, where it lies in the repository.
SOURCES = (
    PACKAGE,
    "crates/vga_suite/data",
    "fonts",
    "include",
    "page/zaklimot.html",
    PORTABLE,
)
# The package's own backend makes the wheel, as it does for pip.
MAKING = "import sys, building; building.build_wheel(sys.argv[1])"
# What stands between fences, which has no links; or a link or an image that leads to a file of the
# repository.
LINK = re.compile(
    r"^```.*?^```$"
    r"|(?P<mark>!?)\[(?P<text>[^\[\]]*)\]"
    r"\((?!https?:|#)(?P<place>[^()\s#]+)(?P<anchor>#[^()\s]*)?\)",
    re.M | re.S,
)


def laid_files(folder: Path) -> dict[str, Entry]:
    """The files and the links below a folder, by their places in it."""
    return {
        str(path.relative_to(folder)): (
            str(path.readlink()) if path.is_symlink() else File(path.read_bytes())
        )
        for path in sorted(folder.rglob("*"))
        if path.is_symlink() or path.is_file()
    }


def library_files(files: Mapping[str, Entry], target: Target, archive: Path) -> dict[str, Entry]:
    """The library for a processor as it is laid into a folder, and the wheel with it.

    They lie in a folder of the processor's name, but for those of the program's own processor.
    """
    with tempfile.TemporaryDirectory(prefix="vga-release-") as name:
        library, making = Path(name) / "library", Path(name) / "wheel"
        making.mkdir()
        make_library(archive, memory_part(target, Path(name)), Place(str(library)), MOVING, target)
        wheel = wheel_of(files, library, making, target)
        made: dict[str, Entry] = {wheel.name: File(wheel.read_bytes())}
        made.update(laid_files(library))
    return (
        made
        if target == X86_64
        else {f"{target.name}/{place}": entry for place, entry in made.items()}
    )


def settled(entries: Mapping[str, Entry], moved: Mapping[str, str] = MOVED) -> dict[str, Entry]:
    """All that is in a release, by its place there: pages lead to no more than that."""
    names = [moved.get(place, place) for place in entries]
    places = {str(place) for name in names for place in (name, *PurePosixPath(name).parents)}
    done: dict[str, Entry] = {}
    for place, entry in entries.items():
        if place.endswith(".md") and isinstance(entry, File):
            links = partial(_link, place, places, moved)
            entry = File(LINK.sub(links, entry.content.decode("utf-8")).encode("utf-8"))
        done[moved.get(place, place)] = entry
    return done


def made_of(commit: Commit, toolchain: str, built: Mapping[str, Entry]) -> File:
    """The commit, the toolchain, and a checksum of each file that was built."""
    sums = (
        f"sha256 {hashlib.sha256(entry.content).hexdigest()} {path}\n"
        for path, entry in sorted(built.items())
        if isinstance(entry, File)
    )
    return File(
        (f"commit {commit.number}\ntoolchain {toolchain}\n" + "".join(sums)).encode("ascii")
    )


def release_entries(
    commit: Commit, program: Path, archives: Mapping[Target, Path]
) -> dict[str, Entry]:
    """All files of a release: among those that are built the program, and a library and a wheel for
    each processor."""
    files = files_of(commit, PATHS)
    built = dict[str, Entry]({"bin/vga": File(program.read_bytes(), True)})
    for target, archive in archives.items():
        built.update(library_files(files, target, archive))
    install = File((Path(__file__).parent / INSTALL).read_bytes(), True)
    with tempfile.TemporaryDirectory(prefix="vga-release-") as name:
        # The suite's scripts, each whole.
        run([sys.executable, TOP / "zaklimot", "suite", "--scripts", Path(name) / "scripts"])
        scripts = laid_files(Path(name))
    own: dict[str, Entry] = {INSTALL: install, MADE_OF: made_of(commit, kit_line(), built)}
    return settled({**files, **scripts, **built, **LINKS, **own})


def portable_entries(commit: Commit) -> dict[str, Entry]:
    """All files of the archive of the C file."""
    return settled(files_of(commit, tuple(ALONE)), ALONE)


def steps_entries(
    commit: Commit, built: Mapping[str, Entry], heard: Hearer, count: int
) -> dict[str, Entry]:
    """All files of the archive of single-step tests, with so many of each kind. The proved library
    makes them, if it is among what is built."""
    shared = (
        entry
        for place, entry in built.items()
        if place.startswith("lib/libzaklimot.so") and isinstance(entry, File)
    )
    with tempfile.TemporaryDirectory(prefix="vga-release-") as name:
        library = None
        for entry in shared:
            library = Path(name) / "libzaklimot.so"
            library.write_bytes(entry.content)
        made = stepping.make_steps(commit.number, library, heard, count)
    files = {place: File(content) for place, content in made.items()}
    return {**settled(files_of(commit, tuple(stepping.ALONE)), stepping.ALONE), **files}


def wheel_of(files: Mapping[str, Entry], library: Path, folder: Path, target: Target) -> Path:
    """Makes the wheel for a processor in a folder, of these files of the repository and a folder of
    the library's."""
    for place, file in files.items():
        if isinstance(file, File) and place.startswith(SOURCES):
            laid = folder / "sources" / place
            laid.parent.mkdir(parents=True, exist_ok=True)
            laid.write_bytes(file.content)
    made = folder / "made"
    made.mkdir()
    # As where Python itself is built for another processor.
    environment = {
        "ZAKLIMOT_DIR": str(library),
        "ZAKLIMOT_PORTABLE": "",
        "_PYTHON_HOST_PLATFORM": f"linux-{target.name}",
    }
    # With -B Python leaves nothing beside the sources, which would go into the wheel.
    run(
        [sys.executable, "-B", "-c", MAKING, made],
        folder / "sources" / PACKAGE,
        environment=environment,
    )
    return next(made.iterdir())


def _link(page: str, places: AbstractSet[str], moved: Mapping[str, str], found: Match[str]) -> str:
    """A link of a page of the repository, as it is in a release that has these places: words, if it
    leads elsewhere."""
    if found["place"] is None:
        return found[0]
    target = posixpath.normpath(posixpath.join(posixpath.dirname(page), found["place"]))
    place = moved.get(target, target)
    if place not in places:
        return found["text"]
    folder = posixpath.dirname(moved.get(page, page)) or "."
    there = posixpath.relpath(place, folder) + (found["anchor"] or "")
    return f"{found['mark']}[{found['text']}]({there})"


def clean_commit() -> Commit:
    """The commit that is checked out. Where a file differs from it, there is none to make a release
    from."""
    changed = (
        _git("status", "--porcelain", "--untracked-files=no")
        .decode("utf-8", "replace")
        .split("\n")[0]
    )
    if changed:
        raise Trouble(f"a release is made from a commit, and this is changed: {changed.strip()}")
    number, time = _git("log", "-1", "--format=%H %ct").decode("ascii").split()
    return Commit(number, int(time))


def files_of(commit: Commit, paths: Sequence[str]) -> dict[str, Entry]:
    """The files and the links of a commit below these paths."""
    files: dict[str, Entry] = {}
    with tarfile.open(
        fileobj=io.BytesIO(_git("archive", "--format=tar", commit.number, "--", *paths))
    ) as archive:
        for member in archive.getmembers():
            stream = archive.extractfile(member) if member.isfile() else None
            if stream is not None:
                files[member.name] = File(stream.read(), bool(member.mode & EXECUTABLE))
            elif member.issym():
                files[member.name] = member.linkname
    return files


def _git(*words: str) -> bytes:
    return ended_well(["git", "-C", str(TOP), *words]).output


def _member(name: str, entry: Optional[Entry], time: int) -> tarfile.TarInfo:
    """What an archive tells of a file, a link, or a folder, which has no entry: no owner, and the
    commit's time."""
    made = tarfile.TarInfo(name)
    made.mtime = time
    made.mode = RUN
    if isinstance(entry, File):
        made.size = len(entry.content)
        made.mode = RUN if entry.is_executable else PLAIN
    elif entry is None:
        made.type = tarfile.DIRTYPE
    else:
        made.type = tarfile.SYMTYPE
        made.linkname = entry
    return made


def pack(stream: BinaryIO, entries: Mapping[str, Entry], time: int) -> None:
    """Writes the archive: names in order, each folder before what lies in it."""
    folders = {str(folder) for path in entries for folder in PurePosixPath(path).parents} - {"."}
    with gzip.GzipFile(
        filename="", mode="wb", compresslevel=LEVEL, fileobj=stream, mtime=time
    ) as packed:
        written = cast(BinaryIO, packed)
        with tarfile.open(fileobj=written, mode="w", format=tarfile.PAX_FORMAT) as archive:
            for name in sorted({*entries, *folders}):
                entry = entries.get(name)
                content = io.BytesIO(entry.content) if isinstance(entry, File) else None
                archive.addfile(_member(name, entry, time), content)


def _built(words: argparse.Namespace, progress: Progress) -> tuple[Path, dict[Target, Path]]:
    tell = phases(progress)
    if words.program is None:
        # What is kept of its proof makes it quick.
        run(["rt", "run", "--", "--help"], PROGRAM, tell("proving and building the program"))
    program = Path(words.program or PROGRAM / "out" / "vga")
    archives = {}
    for target, given in ((X86_64, words.archive), (AARCH64, words.archive_aarch64)):
        heard = tell(f"proving and building the library for {target.name}")
        archives[target] = Path(given or built_archive(BACKENDS[0], target, heard))
    progress.clear()
    return program, archives


def write_archive(folder: Path, kind: str, entries: Mapping[str, Entry], time: int) -> None:
    """Writes an archive and its checksum into a folder, and prints their names."""
    # What the archive is called, and the folder that it holds.
    name = f"zaklimot-{version()}-{kind}"
    path = folder / f"{name}.tar.gz"
    with writing(str(path)) as stream:
        pack(stream, {f"{name}/{place}": entry for place, entry in entries.items()}, time)
    sums = path.with_name(f"{path.name}.{SUM}")
    write_file(
        str(sums), f"{hashlib.sha256(path.read_bytes()).hexdigest()}  {path.name}\n".encode("ascii")
    )
    print(path, sums, sep="\n")


def release(words: argparse.Namespace, progress: Progress) -> None:
    """Packs a release of what is checked out."""
    check_given(words.program, words.archive, words.archive_aarch64)
    check_folder(words.folder)
    commit = clean_commit()
    tell = phases(progress)("making the single-step tests")
    archives: dict[str, Mapping[str, Entry]] = {}
    if not words.steps:
        archives[PORTABLE] = portable_entries(commit)
    if not (words.portable or words.steps):
        for program in (*X86_64.programs(), *AARCH64.programs()):
            check_program(program)
        archives[MACHINE] = release_entries(commit, *_built(words, progress))
    if not words.portable:
        count = words.count or COUNT
        archives[STEPS] = steps_entries(commit, archives.get(MACHINE, {}), tell, count)
    progress.clear()
    folder = Path(words.folder)
    folder.mkdir(parents=True, exist_ok=True)
    for kind in sorted(archives, reverse=True):
        write_archive(folder, kind, archives[kind], commit.time)
