"""The backend by which pip builds the package (PEP 517, 660). It needs the standard library alone.

A wheel carries a library: the one of the folder that ZAKLIMOT_DIR names, as `vga-library make` lays
it, or else the one that the C compiler makes of zaklimot.c. With ZAKLIMOT_PORTABLE=1 it is the
latter in any case. With ZAKLIMOT_PORTABLE=0 nothing is compiled: without ZAKLIMOT_DIR the wheel has
no library then, and the package looks for one when it is used.

A wheel also carries what the commands read of the project: the program's sources in C, the font,
the page and the suite.
"""

from __future__ import annotations

import base64
import gzip
import hashlib
import importlib.util
import io
import os
import platform
import re
import runpy
import shlex
import shutil
import struct
import subprocess
import sys
import sysconfig
import tarfile
import tempfile
import zipfile
from pathlib import Path
from typing import Any, BinaryIO, Callable, Mapping, Optional, cast

HERE = Path(__file__).resolve().parent
PACKAGE = "zaklimot"
# What the package itself knows of library files.
FILES = runpy.run_path(str(HERE / PACKAGE / "_file.py"))
LIBRARY: str = FILES["FILE"]
FONTS: str = FILES["FONTS"]
NOTE: str = FILES["NOTE"]
# What tells which glibc a library needs, and what a wheel's name says of it.
NEEDS = runpy.run_path(str(HERE / "needs.py"))
Version = tuple[int, int]
GLIBC_OF: Callable[[bytes], Optional[Version]] = NEEDS["glibc_of"]
PLATFORMS: Callable[[str, Optional[Version]], str] = NEEDS["platforms"]
# What a library is made of, where it lies in the repository. A source distribution has all that it
# takes of the repository below one folder.
PARTS = {
    "zaklimot.c": "portable/zaklimot.c",
    "zaklimot.h": "include/zaklimot.h",
    FONTS: f"fonts/{FONTS}",
}
TOGETHER = "repository"
# What the commands read of the project, and where a wheel has it.
CARRIED = (
    "crates/vga_suite/data",
    f"fonts/{FONTS}",
    "include/zaklimot.h",
    "page/zaklimot.html",
    "portable/vga.c",
    "portable/zaklimot.c",
)
COMMANDS = f"{PACKAGE}/commands/carried"
# What a run or a build leaves among the sources, and never goes into a wheel.
MADE = {"__pycache__", "carried"}
LICENCE = "LICENSE"
FIELD, ITEM = re.compile(r'^([a-z-]+) = "(.*)"$', re.M), re.compile(r'"(.*?)"')
LIST = re.compile(r"^([a-z-]+) = \[(.*?)\]$", re.M | re.S)
SCRIPT = re.compile(r'^(\S+) = "([\w.]+:\w+)"$', re.M)
# The time of files in a wheel, the first that a ZIP can tell: the same sources make the same bytes.
TIME = (1980, 1, 1, 0, 0, 0)
OPTIONS = ("-std=c99", "-O2", "-fPIC", "-shared")
# Asks a library for its version, in a process of its own, which a wrong one may end.
ASKING = "import ctypes, sys; print(ctypes.CDLL(sys.argv[1]).zak_version())"
# Where Python is told what it builds for, it can't run that here.
OTHER_MACHINE = "_PYTHON_HOST_PLATFORM"
NO_COMPILER = """there is no C compiler {}. Install one, as Debian's packages gcc and libc6-dev, or
name yours in CC. If you have the library, name its folder in ZAKLIMOT_DIR: docs/PYTHON.md"""


class Lacking(SystemExit):
    """What a wheel is to be built of is not there. It ends the build with a reason alone."""


def section(name: str) -> str:
    """The text of a section of pyproject.toml."""
    text = (HERE / "pyproject.toml").read_text("utf-8")
    return text.partition(f"\n[{name}]\n")[2].partition("\n[")[0]


def project() -> dict[str, str]:
    """The single values of pyproject.toml, and the version."""
    fields = dict(FIELD.findall(section("project")))
    major, minor = numbers()
    return {**fields, "version": f"{major}.{minor}"}


def listed(name: str) -> list[str]:
    """The values of a list of pyproject.toml."""
    lists = dict(LIST.findall(section("project")))
    return ITEM.findall(lists[name])


def scripts() -> dict[str, str]:
    """The commands that pip makes, each with the function that it calls."""
    return dict(SCRIPT.findall(section("project.scripts")))


def numbers() -> tuple[int, int]:
    """The version of the interface that the package is written for."""
    told = (HERE / PACKAGE / "_version.py").read_text("utf-8")
    found = re.search(r"^API_MAJOR, API_MINOR = (\d+), (\d+)$", told, re.M)
    assert found is not None
    return int(found[1]), int(found[2])


def metadata() -> str:
    """What a wheel tells of the package."""
    fields = project()
    head = [
        ("Metadata-Version", "2.4"),
        ("Name", fields["name"]),
        ("Version", fields["version"]),
        ("Summary", fields["description"]),
        ("Keywords", ",".join(listed("keywords"))),
        ("License-Expression", fields["license"]),
        ("License-File", LICENCE),
        *(("Classifier", one) for one in listed("classifiers")),
        ("Requires-Python", fields["requires-python"]),
        *extras(),
        ("Description-Content-Type", "text/markdown"),
    ]
    lines = "".join(f"{name}: {value}\n" for name, value in head)
    return f"{lines}\n{(HERE / fields['readme']).read_text('utf-8')}"


def extras() -> list[tuple[str, str]]:
    """What a wheel tells of packages that make the commands do more."""
    lists = LIST.findall(section("project.optional-dependencies"))
    wanted = [(name, package) for name, packages in lists for package in ITEM.findall(packages)]
    return [("Provides-Extra", name) for name, _ in lists] + [
        ("Requires-Dist", f"{package}; extra == '{name}'") for name, package in wanted
    ]


def taken(place: str) -> Path:
    """A file or a folder of the repository: in this source distribution, or where it lies."""
    for path in (HERE / TOGETHER / place, HERE.parent / place):
        if path.exists():
            return path
    raise Lacking(
        f"there is no {place} of the repository in the folder above {HERE}. A pip before 21.3"
        " builds a copy that lies elsewhere: type `pip install --upgrade pip` first"
    )


def part(name: str) -> Path:
    """A file that a library is made of."""
    return taken(PARTS[name])


def machines() -> str:
    """The word for the machines that are built for."""
    return machine_word(sysconfig.get_platform(), platform.machine(), 8 * struct.calcsize("P"))


def platforms(library: bytes) -> str:
    """The part of a wheel's name for the machines that a library is for: the glibc that it needs,
    if pip takes wheels for one here."""
    version = GLIBC_OF(library)
    return PLATFORMS(machines(), version if version and takes(version) else None)


def takes(version: Version) -> bool:
    """Whether this Python's pip takes a wheel for a glibc, as PEP 600 says."""
    if os.environ.get(OTHER_MACHINE):
        return True
    # A system has this module whose libraries lie where no wheel expects them.
    if importlib.util.find_spec("_manylinux") is not None:
        return False
    try:
        told = re.match(r"glibc (\d+)\.(\d+)", os.confstr("CS_GNU_LIBC_VERSION") or "")
    except (AttributeError, OSError, ValueError):
        return False
    return told is not None and (int(told[1]), int(told[2])) >= version


def machine_word(told: str, machine: str, bits: int) -> str:
    """The same of what Python tells: of the platform, the machine, and the bits of a pointer."""
    if told.startswith("macosx-"):
        # Python may be for both of Apple's processors; what is compiled here is for one of them.
        _, release, kind = told.split("-", 2)
        kind = machine if kind == "universal2" else kind
        if kind == "arm64" and int(release.partition(".")[0]) < 11:
            release = "11.0"
        told = f"macosx-{release}-{kind}"
    elif bits == 32:
        told = {"linux-x86_64": "linux-i686", "linux-aarch64": "linux-armv8l"}.get(told, told)
    return re.sub("[-.]", "_", told)


def compiler_words(machine: str) -> list[str]:
    """The C compiler, $CC or else the system's, with the options for machines of this word."""
    own = shlex.split(os.environ.get("CC", "")) or ["gcc" if os.name == "nt" else "cc"]
    words = [*own, *OPTIONS]
    if machine.startswith("macosx_"):
        _, major, minor, kind = machine.split("_", 3)
        words += ["-arch", kind, f"-mmacosx-version-min={major}.{minor}"]
    return [*words, *shlex.split(os.environ.get("CFLAGS", ""))]


def compiled() -> bytes:
    """The library, compiled of zaklimot.c."""
    words = compiler_words(machines())
    source, header = part("zaklimot.c"), part("zaklimot.h")
    if not shutil.which(words[0]):
        raise Lacking(NO_COMPILER.format(words[0]))
    with tempfile.TemporaryDirectory(prefix="zaklimot-") as name:
        made = Path(name) / LIBRARY
        words += ["-I", str(header.parent), str(source), "-o", str(made)]
        print(f"This takes some 17 seconds: {shlex.join(words)}", file=sys.stderr, flush=True)
        done = subprocess.run(words, stdin=subprocess.DEVNULL, stderr=subprocess.PIPE)
        if done.returncode or not made.is_file():
            said = done.stderr.decode("utf-8", "replace").strip()
            raise Lacking(f"{words[0]} ended with status {done.returncode}, and said:\n{said}")
        check(made)
        return made.read_bytes()


def check(library: Path) -> None:
    """Ends the build where this Python can't load a library, or where it is an older one."""
    if os.environ.get(OTHER_MACHINE):
        return
    words = [sys.executable, "-c", ASKING, str(library)]
    done = subprocess.run(words, stdin=subprocess.DEVNULL, capture_output=True)
    if done.returncode:
        lines = done.stderr.decode("utf-8", "replace").strip().splitlines() or ["nothing"]
        raise Lacking(f"the compiler made a library that Python can't load: {lines[-1]}")
    (major, minor), told = numbers(), int(done.stdout)
    if told // 65536 != major or told % 65536 < minor:
        own = f"{told // 65536}.{told % 65536}"
        raise Lacking(f"zaklimot.c is of version {own}, and this package of {major}.{minor}")


def given(folder: str) -> dict[str, bytes]:
    """The library and its font of a folder, and of which kind it says that the library is."""
    library, fonts = Path(folder) / "lib" / LIBRARY, Path(folder) / "share" / PACKAGE / FONTS
    for file in (library, fonts):
        if not file.is_file():
            raise Lacking(
                f"ZAKLIMOT_DIR is {folder}, and there is no {file}: type tools/vga-library make"
                f" {folder}, or unset the variable, and zaklimot.c is compiled"
            )
    kind = FILES["kind_of"](str(library))
    return {LIBRARY: library.read_bytes(), FONTS: fonts.read_bytes(), NOTE: note(kind)}


def note(kind: str) -> bytes:
    """What a wheel tells of its library."""
    return f"kind={kind}\n".encode("ascii")


def carried() -> dict[str, bytes]:
    """The library, its kind and its font, by their names; or the font alone."""
    folder, wanted = os.environ.get("ZAKLIMOT_DIR"), os.environ.get("ZAKLIMOT_PORTABLE") or None
    if wanted not in (None, "0", "1"):
        raise Lacking(f"ZAKLIMOT_PORTABLE is {wanted}, and it is to be 0 or 1")
    if folder and wanted != "1":
        return given(folder)
    fonts = {FONTS: part(FONTS).read_bytes()}
    if wanted == "0":
        return fonts
    return {LIBRARY: compiled(), **fonts, NOTE: note(FILES["PORTABLE"])}


def files_below(path: Path) -> dict[str, bytes]:
    """The files of a folder and of those below it, or a file itself, by their places below the
    folder; none that is made there."""
    paths = sorted(path.rglob("*")) if path.is_dir() else [path]
    names = {one: one.relative_to(path) for one in paths if one.is_file()}
    return {
        name.as_posix(): one.read_bytes()
        for one, name in names.items()
        if not MADE & set(name.parts)
    }


def sources() -> dict[str, bytes]:
    """The files of the package, by their places in a wheel."""
    return {f"{PACKAGE}/{name}": data for name, data in files_below(HERE / PACKAGE).items()}


def of_repository() -> dict[str, bytes]:
    """What the commands read of the project, by its places there."""
    found: dict[str, bytes] = {}
    for place in CARRIED:
        for name, data in files_below(taken(place)).items():
            found[place if name == "." else f"{place}/{name}"] = data
    return found


def for_commands() -> dict[str, bytes]:
    """What the commands read, by its places in a wheel."""
    return {f"{COMMANDS}/{place}": read for place, read in of_repository().items()}


def _record(files: Mapping[str, bytes], place: str) -> str:
    """The list of a wheel's files, each with its digest and its length."""
    lines = []
    for name, data in files.items():
        digest = base64.urlsafe_b64encode(hashlib.sha256(data).digest()).decode("ascii").rstrip("=")
        lines.append(f"{name},sha256={digest},{len(data)}\n")
    return "".join([*lines, f"{place},,\n"])


def _information() -> str:
    """The folder of a wheel that tells of the package."""
    return f"{PACKAGE}-{project()['version']}.dist-info"


def _write_wheel(folder: str, files: Mapping[str, bytes], kind: str) -> str:
    """Writes a wheel of these files, and answers its name."""
    pure = "true" if kind.endswith("-any") else "false"
    told = f"Wheel-Version: 1.0\nGenerator: zaklimot\nRoot-Is-Purelib: {pure}\n"
    before, _, names = kind.rpartition("-")
    told += "".join(f"Tag: {before}-{name}\n" for name in names.split("."))
    commands = "".join(f"{name} = {at}\n" for name, at in scripts().items())
    whole = {
        **files,
        f"{_information()}/entry_points.txt": f"[console_scripts]\n{commands}".encode("ascii"),
        f"{_information()}/licenses/{LICENCE}": (HERE / LICENCE).read_bytes(),
        f"{_information()}/METADATA": metadata().encode("utf-8"),
        f"{_information()}/WHEEL": told.encode("ascii"),
    }
    record = f"{_information()}/RECORD"
    whole[record] = _record(whole, record).encode("utf-8")
    name = f"{PACKAGE}-{project()['version']}-{kind}.whl"
    with zipfile.ZipFile(Path(folder) / name, "w", zipfile.ZIP_DEFLATED) as wheel:
        for place, data in whole.items():
            entry = zipfile.ZipInfo(place, TIME)
            entry.external_attr, entry.compress_type = 0o644 << 16, zipfile.ZIP_DEFLATED
            wheel.writestr(entry, data)
    return name


def build_wheel(
    wheel_directory: str, config_settings: Any = None, metadata_directory: Optional[str] = None
) -> str:
    """PEP 517: a wheel of the package, with a library and its font."""
    own = carried()
    kind = f"py3-none-{platforms(own[LIBRARY]) if LIBRARY in own else 'any'}"
    library = {f"{PACKAGE}/carried/{name}": data for name, data in own.items()}
    return _write_wheel(wheel_directory, {**sources(), **library, **for_commands()}, kind)


def build_editable(
    wheel_directory: str, config_settings: Any = None, metadata_directory: Optional[str] = None
) -> str:
    """PEP 660: a wheel that names the sources where they lie, for `pip install --editable`.

    A library that is compiled goes among these sources, where the package looks for its own.
    """
    if not os.environ.get("ZAKLIMOT_DIR"):
        folder = HERE / PACKAGE / "carried"
        for name, data in carried().items():
            folder.mkdir(exist_ok=True)
            # The old file may be in use, and goes only when the new one is whole.
            (folder / f"{name}.new").write_bytes(data)
            os.replace(folder / f"{name}.new", folder / name)
    files = {f"{PACKAGE}.pth": f"{HERE}\n".encode()}
    return _write_wheel(wheel_directory, files, "py3-none-any")


def prepare_metadata_for_build_wheel(metadata_directory: str, config_settings: Any = None) -> str:
    """PEP 517: what a wheel will tell of the package, for which nothing need be compiled."""
    folder = Path(metadata_directory) / _information()
    folder.mkdir()
    (folder / "METADATA").write_text(metadata(), "utf-8")
    return folder.name


prepare_metadata_for_build_editable = prepare_metadata_for_build_wheel


def build_sdist(sdist_directory: str, config_settings: Any = None) -> str:
    """PEP 517: the sources, with all that a wheel is made of."""
    stem = f"{PACKAGE}-{project()['version']}"
    own = ("pyproject.toml", "building.py", "needs.py", "README.md", LICENCE)
    files = {name: (HERE / name).read_bytes() for name in own}
    files.update(sources())
    files.update({f"{TOGETHER}/{place}": data for place, data in of_repository().items()})
    files["PKG-INFO"] = metadata().encode("utf-8")
    with open(Path(sdist_directory) / f"{stem}.tar.gz", "wb") as stream:
        with gzip.GzipFile(filename="", mode="wb", fileobj=stream, mtime=0) as packed:
            written = cast(BinaryIO, packed)
            with tarfile.open(fileobj=written, mode="w", format=tarfile.PAX_FORMAT) as archive:
                for place, data in files.items():
                    entry = tarfile.TarInfo(f"{stem}/{place}")
                    entry.size = len(data)
                    archive.addfile(entry, io.BytesIO(data))
    return f"{stem}.tar.gz"
