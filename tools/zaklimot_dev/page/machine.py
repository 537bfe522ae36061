"""Makes the machine's modules: libx86emu's processor, patched, with the PC round it; and its reads
of the adapter.

libx86emu is no part of the repository. Its source is that of Debian's source package, which is
fetched and held to its sum. machine/ has our patches, and all that is ours.
"""

from __future__ import annotations

import hashlib
import os
import tarfile
import tempfile
from pathlib import Path
from typing import Callable, NamedTuple, Sequence

from zaklimot.commands import TOP
from zaklimot.commands.core.processes import Word, captured, check_program, run
from zaklimot.commands.core.streams import read_at_most
from zaklimot.commands.core.trouble import Trouble
from zaklimot.commands.report.debugging import MOST_PAGE, page_data
from zaklimot.commands.script.portable import cache_folder

from .making import kit_of, with_kit
from .packing import about, in_base64, packed, unzipped


PACKAGE = "libx86emu"
ARCHIVE = "libx86emu_3.5.orig.tar.gz"
SHA256 = "91da55f5da55017d5a80e2364de30f9520aa8df2744ff587a09ba58d6e3536c8"
# Where apt finds it, with lists of its own: nothing of the system's is changed.
SUITE = "http://deb.debian.org/debian bookworm main"
KEYRING = Path("/usr/share/keyrings/debian-archive-keyring.gpg")
MACHINE = TOP / "machine"
PROGRAMS = TOP / "examples" / "machine"
# The notice of libx86emu's licence, which goes with the module.
NOTICE = MACHINE / "NOTICE"
CLANG = "clang"
LINKER = "wasm-ld"
APT = "apt-get"
PATCH = "patch"
ASSEMBLER = "nasm"
# Seconds that a fetch may take, and a compilation.
FETCHING = 120
MAKING = 300
MOST_ARCHIVE = 1 << 20
# The parts of libx86emu that the machine has; of the others, machine/pc/library.c has what these
# ask for.
PROCESSOR = ("decode", "ops", "ops2", "prim_ops")
# The loop of the usual instructions, which has libx86emu's in it: compiled as that is.
USUAL_INSTRUCTIONS = MACHINE / "cpu" / "usual.c"
TARGET = (
    "--target=wasm32",
    "-std=gnu17",
    "-mbulk-memory",
    "-msign-ext",
    "-nostdlib",
    "-ffreestanding",
    "-fno-strict-aliasing",
    "-flto",
)
# What is done with most instructions is to be fast; all else is to be small.
USUAL = "-O3"
RARE = "-Os"
OFTEN = (
    "decode",
    "usual",
    "prim_ops",
    "shifts",
    "beam",
    "display",
    "memory",
    "records",
    "reads",
    "shown",
    "waits",
)
# Each browser that opens the page has them. They make a picture out of words three times as fast.
VECTORS = "-msimd128"
DEFINED = (
    "-DWITH_TSC=0",
    "-DWITH_IOPL=0",
    "-DX86EMU_OWN_SHIFTS",
    '-DX86EMU_MEMORY="memory.h"',
    "-DX86EMU_TELLS=is_told",
    "-DX86EMU_LOGS=0",
)
STRICT = ("-Wall", "-Wextra", "-Wno-parentheses", "-Werror")
STACK = 65536


class MachineModules(NamedTuple):
    """The modules: the processor with the PC round it, and its reads of the adapter."""

    cpu: bytes
    reads: bytes

    def packed(self) -> dict[str, str]:
        """Both as the page has them."""
        return {name: in_base64(packed(data)) for name, data in self._asdict().items()}


def _cache() -> Path:
    return cache_folder() / ARCHIVE


def _is_right(data: bytes) -> bool:
    return hashlib.sha256(data).hexdigest() == SHA256


def _fetch(folder: Path) -> bytes:
    """Has apt fetch the source into a folder."""
    check_program(APT, f"; put Debian's {ARCHIVE} at {_cache()}")
    lists = folder / "sources.list"
    for name in ("lists/partial", "cache/archives/partial"):
        (folder / name).mkdir(parents=True)
    signed = f"[signed-by={KEYRING}] " if KEYRING.exists() else ""
    lists.write_text(f"deb-src {signed}{SUITE}\n", "ascii")
    own = {
        "Dir::Etc::sourcelist": lists,
        "Dir::Etc::sourceparts": "/dev/null",
        "Dir::State::lists": folder / "lists",
        "Dir::Cache": folder / "cache",
        "APT::Sandbox::User": "root",
    }
    words = [
        APT,
        "-qq",
        *(word for name, value in own.items() for word in ("-o", f"{name}={value}")),
    ]
    for command in (["update"], ["source", "--download-only", "--tar-only", PACKAGE]):
        done = captured([*words, *command], folder, seconds=FETCHING)
        if done.status:
            lacking = (
                f"the source of Debian's package {PACKAGE} can't be fetched; {ARCHIVE} may lie at"
                f" {_cache()}"
            )
            raise Trouble(f"{lacking}\n{done.said().strip()}", APT)
    return read_at_most(str(folder / ARCHIVE), MOST_ARCHIVE)


def source() -> bytes:
    """The archive of libx86emu's source: kept from before, or fetched."""
    kept = _cache()
    if kept.exists():
        data = read_at_most(str(kept), MOST_ARCHIVE)
        if _is_right(data):
            return data
    with tempfile.TemporaryDirectory(prefix="vga-page-") as name:
        data = _fetch(Path(name))
    if not _is_right(data):
        raise Trouble(f"it has another sum than the one that is known: {SHA256}", ARCHIVE)
    kept.parent.mkdir(parents=True, exist_ok=True)
    part = kept.with_name(f"{kept.name}.{os.getpid()}")
    part.write_bytes(data)
    part.replace(kept)
    return data


def patched(folder: Path) -> Path:
    """libx86emu's source in a folder, with the patches of machine/patches/."""
    check_program(PATCH)
    archive = folder / ARCHIVE
    top = folder / "libx86emu"
    archive.write_bytes(source())
    with tarfile.open(archive) as opened:
        inside = [
            member for member in opened.getmembers() if member.isfile() and "/" in member.name
        ]
        for member in inside:
            member.name = member.name.partition("/")[2]
            if ".." in Path(member.name).parts:
                raise Trouble(f"it has a file outside of its folder: {member.name}", ARCHIVE)
            opened.extract(member, top)
    patches = MACHINE / "patches"
    for name in (patches / "series").read_text("ascii").split():
        run([PATCH, "--quiet", "--fuzz=0", "-p1", "-i", patches / name], top, seconds=MAKING)
    return top


def compiler_line() -> str:
    """The compiler's own line; a module made by another one has other bytes."""
    check_program(CLANG)
    check_program(LINKER)
    return " ".join(run([CLANG, "--version"], seconds=MAKING).splitlines()[0].split())[:100]


def _compiled(sources: Sequence[Path], folder: Path, *flags: str | Path) -> list[Path]:
    made = []
    for path in sources:
        made.append(folder / f"{path.parent.name}-{path.stem}.o")
        level = USUAL if path.stem in OFTEN else RARE
        run([CLANG, *TARGET, level, *flags, "-c", path, "-o", made[-1]], seconds=MAKING)
    return made


def _linked(objects: Sequence[Path], module: Path, *flags: str) -> bytes:
    words: list[Word] = [
        LINKER,
        "--no-entry",
        "-s",
        "--lto-O3",
        "-O2",
        "--gc-sections",
        *flags,
        *objects,
        "-o",
        module,
    ]
    run(words, seconds=MAKING)
    return with_kit(module.read_bytes(), compiler_line())


def made_machine() -> MachineModules:
    """The machine's modules, made of their sources. The same sources and compiler make the same
    bytes."""
    compiler_line()
    with tempfile.TemporaryDirectory(prefix="vga-page-") as name:
        folder = Path(name)
        top = patched(folder)
        if (top / "LICENSE").read_bytes() != NOTICE.read_bytes():
            raise Trouble("it is not the licence of the source", str(NOTICE))
        folders = [*(MACHINE / path for path in ("shim", "cpu", "pc")), top / "include", top]
        include = [f"-I{path}" for path in folders]
        processor = [*(top / f"{part}.c" for part in PROCESSOR), USUAL_INSTRUCTIONS]
        objects = _compiled(processor, folder, "-w", *DEFINED, *include)
        own = [MACHINE / "cpu" / "shifts.c", *sorted((MACHINE / "pc").glob("*.c"))]
        objects += _compiled(own, folder, *STRICT, *DEFINED, *include)
        cpu = _linked(
            objects, folder / "cpu.wasm", "-z", f"stack-size={STACK}", "--export=__heap_base"
        )
        reads = _compiled([MACHINE / "cpu" / "reads.c"], folder, VECTORS, *STRICT)
        return MachineModules(
            cpu, _linked(reads, folder / "reads.wasm", "--import-memory", "--allow-undefined")
        )


def is_of_this_compiler(machine: MachineModules) -> bool:
    """Whether modules were made by the compiler that is here."""
    return {kit_of(machine.cpu), kit_of(machine.reads)} == {compiler_line()}


def machine_in(page: bytes) -> MachineModules:
    """The modules that a page has in it."""
    data = page_data(page.decode("utf-8"))["machine"]
    return MachineModules(*(unzipped(data[name]) for name in MachineModules._fields))


def made_or_kept(page: Path, tell: Callable[[str], object]) -> MachineModules:
    """The machine's modules, made; where they can't be made here, those of the page as it was built
    before."""
    try:
        return made_machine()
    except Trouble as trouble:
        tell(f"the machine stays as it was built before: {trouble}")
    return machine_in(read_at_most(str(page), MOST_PAGE))


def programs(folder: Path = PROGRAMS) -> list[dict[str, str]]:
    """The programs of a folder, each by its name, with what it is about and its bytes."""
    check_program(ASSEMBLER)
    found = []
    with tempfile.TemporaryDirectory(prefix="vga-page-") as name:
        for path in sorted(folder.glob("*.asm")):
            made = Path(name, f"{path.stem}.com")
            run([ASSEMBLER, "-f", "bin", "-o", made, path.name], folder, seconds=MAKING)
            told = about(path.read_text("ascii"))
            found.append({"name": made.name, "about": told, "bytes": in_base64(made.read_bytes())})
    return found
