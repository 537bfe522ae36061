"""Checks of the library: its header and names; programs in C that call it; the suite by the
harness; the examples."""

from __future__ import annotations

import difflib
import os
import re
import shlex
import shutil
import sys
from itertools import product
from pathlib import Path
from typing import Any, NamedTuple, Optional, Sequence

from zaklimot.format import Picture
from zaklimot.commands import TOP
from zaklimot.commands.core.processes import Word, captured
from zaklimot.commands.core.streams import counted
from zaklimot.commands.core.trouble import Wrong
from zaklimot.commands.core.version import HEADER, calls_of, version
from zaklimot_dev.library.making import FONTS, MOVING, Place, make_library, memory_part
from zaklimot.commands.report.cases import read_cases
from zaklimot.commands.report.places import SUITE

from .compilers import SANITIZED, STRICT, Built, Compiler, build, run


SOURCES = Path(__file__).resolve().parent / "c"
LAYOUT = SOURCES / "layout.c"
OBJECTS = SOURCES / "objects.cpp"
C_STANDARDS = ("c99", "c11", "c17")
CPP_STANDARDS = ("c++11", "c++14", "c++17", "c++20")
# Those that the C++ header is for.
OBJECT_STANDARDS = ("c++17", "c++20")
# The form of C that has static asserts.
ASSERTING = ("c11", "c17")
# What the library may take of the C library.
OUTSIDE = frozenset(("malloc", "realloc", "free", "memcpy", "memmove", "memset", "memcmp", "bcmp"))
# Names that a linker gives each shared library, and those that a compiler may ask the start of a
# program for.
WEAK = frozenset(
    ("_ITM_deregisterTMCloneTable", "_ITM_registerTMCloneTable", "__cxa_finalize", "__gmon_start__")
)
LIBRARIES = "lib/x86_64-linux-gnu"
PICTURE = TOP / "examples" / "c" / "picture.c"
# A project that builds it with both libraries.
PROJECT = Path(__file__).resolve().parent / "cmake"
PC = TOP / "examples" / "pc"
PC_SOURCES = [
    PC / f"{name}.c"
    for name in ("pc", "machine", "bios", "display", "floppy", "keys", "window-files")
]
# Scripts whose answers hang on nothing but the adapter, so that the PC gives those of the harness.
SCRIPTS = ("text-by-services", "asked-of-machines")
PACKAGES = {"unicorn": "libunicorn-dev", "sdl2": "libsdl2-dev"}
ROMS = [
    Path("/usr/share") / place for place in ("vgabios/vgabios.bin", "seabios/vgabios-stdvga.bin")
]
# Boot sectors. One sets a mode and then loops; one halts with interrupts off, and a tick that
# waits.
LOOPS = "B8{mode:02X}00 CD10 EBFE"
HALTS = "FA BA0600 B9FFFF E2FE 4A 75F8 F4 EBFE"
# What the second one runs until it halts: six times 65,535 rounds of a loop are longer than a tick.
TO_HALT = 2 + 6 * (0xFFFF + 3) + 1
SECTOR = 512
FLOPPY = 1_474_560
BOOTS = b"\x55\xaa"
# Each of these modes has 70.1 frames a second, and so has the mode that the BIOS begins with.
MODES = (0x03, 0x0D, 0x13)
SECONDS = 3
FRAMES = range(209, 212)
TOLD = re.compile(r"^(\d+) instructions, (\d+) frames were shown$")
# A white bar at the end of mode 12, the first screen of the floppy, and its size.
BAR = 640 * 30 * b"\xff\xff\xff"
SIZE = b"P6\n640 480\n255\n"
# The sizes of its screens: mode 12, 13 and 3.
SCREENS = [SIZE, b"P6\n640 400\n255\n", b"P6\n720 400\n255\n"]


class CompilerWay(NamedTuple):
    """A compiler with a language, `c` or `c++`, and one of its standards."""

    program: str
    language: str
    standard: str

    def check_header(self, built: Built, alone: Path) -> None:
        """The header is taken without a warning, by itself and, where there are static asserts,
        with those about its structs."""
        has_asserts = self.language == "c++" or self.standard in ASSERTING
        include = ("-I", built.folder / "include")
        words: list[Word] = [self.program, "-x", self.language, f"-std={self.standard}"]
        words += [*STRICT, "-fsyntax-only", *include]
        for source in (alone, LAYOUT) if has_asserts else (alone,):
            run([*words, source])


def check_header(built: Built, folder: Path) -> str:
    """Compiles the header alone, and the asserts about its structs, as C and as C++; and the C++
    header."""
    alone = folder / "alone.c"
    # Twice, so that its guard is tried too.
    alone.write_text(2 * '#include "zaklimot.h"\n' + "int unused;\n")
    count = 0
    for compiler in built.compilers:
        ways = [CompilerWay(compiler.c, "c", standard) for standard in C_STANDARDS]
        ways += [CompilerWay(compiler.cpp, "c++", standard) for standard in CPP_STANDARDS]
        for way in ways:
            way.check_header(built, alone)
        for standard in OBJECT_STANDARDS:
            _check_objects(compiler, standard, built, folder)
        count += len(ways) + len(OBJECT_STANDARDS)
    return f"taken in {count} ways by {', '.join(compiler.c for compiler in built.compilers)}"


def _check_objects(compiler: Compiler, standard: str, built: Built, folder: Path) -> None:
    """The C++ header is taken, and a card by it answers, throws, moves and closes."""
    words = build(compiler.cpp, built, [OBJECTS], folder / "objects", *SANITIZED, standard=standard)
    run([*words, FONTS])


def names_in(built: Built, path: Path, *words: str) -> set[str]:
    """The names that `nm` lists of a library by these words."""
    told = run([built.target.tool("nm"), "--format=just-symbols", *words, path])
    return {line.partition("@")[0] for line in told.splitlines() if line and not line.endswith(":")}


def check_names(built: Built, _: Path) -> str:
    """The names that are seen of both libraries are the header's calls, and they want few of the C
    library."""
    calls = set(calls_of(HEADER.read_text("ascii")))
    for path, word in ((built.static, "-g"), (built.shared, "-D")):
        defined, wanted = (
            names_in(built, path, word, which) for which in ("--defined-only", "--undefined-only")
        )
        if defined != calls:
            raise Wrong(
                f"{path.name}: seen and not in the header: {sorted(defined - calls)}; "
                f"in the header and not seen: {sorted(calls - defined)}"
            )
        if not wanted - WEAK <= OUTSIDE:
            raise Wrong(f"{path.name} wants {sorted(wanted - WEAK - OUTSIDE)}")
    told = run([built.target.tool("readelf"), "--wide", "--dynamic", "--segments", built.shared])
    for word in (f"Library soname: [libzaklimot.so.{version().major}]", "Flags: NOW", "GNU_RELRO"):
        if word not in told:
            raise Wrong(f"{built.shared.name} has not {word}")
    return f"{len(calls)} names are seen, the header's"


# A line of misuse.txt that tells a call's status; functions of misuse.c make some.
CALL = re.compile(
    r"^(?:zak_\w+|restore_with|assemble|print|take|explain|explain_text|dot_at)\(", re.M
)
WRAPPED = "-Wl,--wrap=malloc,--wrap=calloc,--wrap=realloc,--wrap=free"


class CountingProgram(NamedTuple):
    """A program that writes how much it has compared: the flags that it is built with, its words,
    which say how much it is to try, and what is told behind the count."""

    flags: Sequence[str]
    words: Sequence[str]
    told: str


COUNTED = {
    # What is read of the state and of the screen says what the dumps say, so that structs are the
    # proved side's.
    "state": CountingProgram(SANITIZED, (), "readings are those of dumps and screens"),
    # What zak_clock tells comes after just so many dots, over pseudo-random registers.
    "clock": CountingProgram(
        ["-O2"],
        ["100000"],
        "settings of registers, each with an event that comes when it is told",
    ),
    # Dots that are left to be drawn after a cycle are those that are drawn one call after the
    # other.
    "advances": CountingProgram(
        SANITIZED,
        ["1000"],
        "advances, each the same with a read after it, and cycles among them",
    ),
    # Calls for many bytes leave and answer what their single cycles do, over pseudo-random
    # registers.
    "transfers": CountingProgram(SANITIZED, ["20000"], "transfers, each the same as its cycles"),
    # Pictures in words are those in bytes, in each form, over pseudo-random registers.
    "pictures": CountingProgram(SANITIZED, ["200"], "pictures in words, each that of the bytes"),
    # Lines of so many frames as they end are those of the whole frame, over pseudo-random
    # registers.
    "lines": CountingProgram(SANITIZED, ["100"], "lines as they end, each that of its frame"),
    # What zak_block tells is what interrupt 10 takes, over pseudo-random calls.
    "blocks": CountingProgram(
        SANITIZED, ["20011"], "calls of interrupt 10, each with its block or another"
    ),
    # What zak_cycles lists leaves what interrupt 10 leaves, over pseudo-random calls.
    "cycles": CountingProgram(
        SANITIZED, ["2000"], "calls of interrupt 10, each what its listed cycles are"
    ),
    # A step is refused if zak_explain_step says so, over pseudo-random steps and states.
    "refusals": CountingProgram(
        SANITIZED, ["5000"], "steps, each refused if a reason is told, and only then"
    ),
    # Each dot of a frame has the colour that is told, by what planes and registers hold.
    "dots": CountingProgram(["-O2"], ["300"], "dots, each drawn as it is explained"),
    # A cycle of memory does what its stages say, over pseudo-random registers.
    "stages": CountingProgram(SANITIZED, ["5000"], "cycles of memory, each as its stages say"),
    # The script that rebuilds a state leads there, over pseudo-random states.
    "rebuilding": CountingProgram(["-O2"], ["500"], "states, each rebuilt by its script"),
}
# Programs that write what is to be the text beside their sources: how misuse is answered. And those
# that write what a card tells of steps and of texts, the second of which tries so many texts more.
MISUSES = ("misuse", "misuse_explained")
TELLING: dict[str, tuple[str, ...]] = {"reasons": (), "mistakes": ("5000",)}


def expect(name: str, written: str) -> None:
    """What a program writes is to be the text beside its source."""
    wanted = (SOURCES / f"{name}.txt").read_text("ascii")
    written = written.replace("\r\n", "\n")
    if written != wanted:
        lines = difflib.unified_diff(
            wanted.splitlines(), written.splitlines(), "expected", "written", lineterm="", n=0
        )
        raise Wrong(f"{name} writes something else:\n" + "\n".join(lines))


def check_misuse(built: Built, folder: Path) -> str:
    """Calls that are wrong are answered by their statuses, and the sanitizers find nothing."""
    for compiler, name in product(built.compilers, MISUSES):
        made = folder / f"{name}-{compiler.c}"
        words = build(compiler.c, built, [SOURCES / f"{name}.c"], made, *SANITIZED)
        expect(name, run([*words, FONTS]))
    texts = [(SOURCES / f"{name}.txt").read_text("ascii") for name in MISUSES]
    count = sum(len(CALL.findall(text)) for text in texts)
    return f"{count} calls answered as they should be, with sanitizers"


def check_told(built: Built, folder: Path) -> str:
    """Each reason why a step is refused, and each mistake in a text, is told as it should be."""
    for name, more in TELLING.items():
        source = SOURCES / f"{name}.c"
        words = build(built.compilers[0].c, built, [source], folder / name, *SANITIZED)
        expect(name, run([*words, FONTS, *more]))
    return "each reason of a refusal and each mistake in a text, with sanitizers"


def check_counted(name: str, built: Built, folder: Path) -> str:
    """A program of COUNTED finds all as it is to be."""
    program = COUNTED[name]
    source = SOURCES / f"{name}.c"
    words = build(built.compilers[0].c, built, [source], folder / name, *program.flags)
    return f"{int(run([*words, FONTS, *program.words]))} {program.told}"


def check_threads(built: Built, folder: Path) -> str:
    """Cards in two threads, and one that moves, draw what one draws alone."""
    words = build(
        built.compilers[0].c, built, [SOURCES / "threads.c"], folder / "threads", "-O2", "-pthread"
    )
    expect("threads", run([*words, FONTS]))
    return "two cards in two threads, by cycles and by slices of scripts, and one that moves"


def check_memory(built: Built, folder: Path) -> str:
    """Each allocation is refused in turn."""
    words = build(
        built.compilers[0].c, built, [SOURCES / "memory.c"], folder / "memory", "-g", WRAPPED
    )
    counts = [line.split() for line in run([*words, FONTS]).splitlines()]
    return "allocations refused: " + ", ".join(f"{name} {count}" for name, count in counts)


# So many lines are told of cases that do not agree; what `zaklimot suite` begins them with.
MOST_TOLD = 20
OF_A_CASE = 11 * " "
# What the harness is given for a text, and for bytes; steps of a slice are so few that most cases
# have several.
TEXTS = "{script} {fonts} {until}"
BYTES = "--bytes {script} {fonts}"
SLICES = "--slices 7"


class HarnessWords(NamedTuple):
    """The words of the harness for a text, and for bytes."""

    texts: str
    scripts: str


# The ways in which the cases are run.
WAYS = {
    "suite": HarnessWords(TEXTS, BYTES),
    # Cards are saved and others restored, at pseudo-random steps and dots.
    "restored": HarnessWords(f"--restored {TEXTS}", BYTES),
    # In slices of a few steps, all on one card.
    "sliced": HarnessWords(f"{SLICES} {TEXTS}", f"{SLICES} --bytes {TEXTS}"),
    # Writes, and reads, of addresses that follow one another are one call.
    "joined": HarnessWords(f"--joined {TEXTS}", BYTES),
}
HARNESS = [TOP / "examples" / "c" / name for name in ("harness.c", "script.c")]


def harness(built: Built, folder: Path) -> list[str | Path]:
    """Builds the harness, and answers the words that run it."""
    return build(built.compilers[0].c, built, HARNESS, folder / f"harness-{built.name}", "-O2")


def check_cases(way: str, built: Built, folder: Path) -> str:
    """Each case agrees in a way of WAYS."""
    texts, scripts = WAYS[way]
    command = shlex.join(map(str, harness(built, folder)))
    cases = read_cases(str(SUITE))
    words = [
        f"{command} {texts}",
        "--bytes",
        f"{command} {scripts}",
        "--jobs",
        str(os.cpu_count() or 1),
    ]
    done = captured([sys.executable, TOP / "zaklimot", "suite", *words])
    # Cases of bytes that are to be stopped, which zak_run does not do.
    stopped = (
        sum(case.is_bytes and case.until is not None for case in cases) if scripts == BYTES else 0
    )
    wanted = (
        f"{counted(len(cases), 'case')}: {len(cases) - stopped} agree"
        + f", {stopped} skipped" * bool(stopped)
    )
    table = done.output.decode("utf-8", "replace").splitlines()
    if done.status or table[-1:] != [wanted]:
        told = [line for line in table if line.startswith(OF_A_CASE)][:MOST_TOLD] + table[-1:]
        raise Wrong("\n".join([f"not `{wanted}`:", *told, done.errors.decode("utf-8", "replace")]))
    return wanted


EXAMPLES = TOP / "examples"
# What programs draw: the 256 colours of mode 13, as by a script with a put for each pixel; and
# sixteen bars.
PICTURES = {
    "picture": "640x400 6b35295951c28e75ea5b9797d171904b",
    "core": "640x480 e4616bacd9e54c09502d9c64039bd566",
}
STEPPING = [EXAMPLES / "c" / name for name in ("debugger.c", "script.c")]
EXPLAINING = [EXAMPLES / "c" / name for name in ("explain.c", "script.c")]
# A text of few steps, the lines as which it is printed, and those of its report.
TEXT = (
    b"; blanks and cases\r\nversion 2\n int AX=3\nrepeat 2\nput b8000 41\nGET b8000\nend\n\nin 3cc"
)
PRINTED = (
    "version 2/int ax=0003 bx=0000 cx=0000 dx=0000/repeat 2/put B8000 41/get B8000/end/in 3CC"
).split("/")
REPORT = "1 ax=0003 bx=0000 cx=0000 dx=0000/2 ok/3 41/4 ok/5 41/6 67".split("/")
# A text of more steps than lie between two states that the debugger keeps. The beam moves, so each
# step has its own.
LONG = "version 2\nint ax=13\nrepeat 90\nadvance 12345\nshow beam\nin 3DA\nend\nframe\n"
LONG_STEPS = 272
FROM = 150
BACK = 45
# A text with steps that are refused, what is told of each, and of the dot at the end.
REFUSED = "int ax=3\nint ax=4\nout 60 1\nput B8000 DB\nint ax=508\nframe\n"
EXPLAINED = re.compile(
    r"step 2: E5: There is no mode 04\..*\nstep 3: E1: .* port 060\.\n"
    r"step 5: E7: There is no page 08: .*\n"
    r"(line 0: bytes DB 07 .. .. at 0000, character DB, attribute 07, entry 07: 42 42 42)\n"
)


def check_picture(
    name: str, words: Sequence[str | Path], ppm: Path, made_how: str, **given: Any
) -> None:
    """A program of the examples draws its picture, however it was made; it is run by these words as
    `run` does."""
    run([*words, FONTS, ppm], **given)
    try:
        picture = Picture.of_ppm(ppm.read_bytes())
    except ValueError as error:
        raise Wrong(f"{name}, {made_how}, draws no picture: {error}") from error
    ppm.unlink()
    if f"{picture.size} {picture.sum}" != PICTURES[name]:
        raise Wrong(f"{name}, {made_how}, draws another picture: {picture.size} {picture.sum}")


def check_examples(built: Built, folder: Path) -> str:
    """The first program draws its colours, as each compiler builds it, and the core in miniature
    draws its bars."""
    first, *others = [compiler.c for compiler in built.compilers]
    for name, compiler in [("core", first), *(("picture", one) for one in (first, *others))]:
        words = build(compiler, built, [EXAMPLES / "c" / f"{name}.c"], folder / name, "-O2")
        check_picture(name, words, folder / "picture.ppm", f"built by {compiler}")
    return f"pictures from C by {', '.join((first, *others))}, and a core's"


def check_scripts(built: Built, folder: Path) -> str:
    """Texts become bytes and bytes texts, and steps answer what whole runs do, also after a step
    back.

    What the debugger writes forward and back are lines of the report that the harness writes.
    """
    debugger = build(built.compilers[0].c, built, STEPPING, folder / "debugger", *SANITIZED)

    def session(script: Path, commands: bytes) -> list[str]:
        return run([*debugger, FONTS, script], given=commands).splitlines()

    few = folder / "few.vga"
    long = folder / "long.vga"
    few.write_bytes(TEXT)
    told = session(few, b"list\nstep 3\nback\nstep 4294967299\nback 9\nbeam\n")
    wanted = [
        *PRINTED,
        *REPORT[:3],
        "after step 2",
        *REPORT[2:],
        "after step 0",
        "line 0, character 0, dot 0",
    ]
    if told != wanted:
        raise Wrong(f"the debugger writes {told}")
    long.write_text(LONG, "ascii")
    lines = run([*harness(built, folder), long, FONTS]).splitlines()
    told = session(
        long, f"step {FROM}\nback {BACK}\nstep 1000\nback 1000\nstep {FROM}\n".encode("ascii")
    )
    again = [f"after step {FROM - BACK}", *lines[FROM - BACK : LONG_STEPS]]
    if told != [*lines[:FROM], *again, "after step 0", *lines[:FROM]]:
        raise Wrong("the debugger's answers are not the harness's")
    _check_explained(built, folder)
    return "the debugger forward and back, and a script that is explained and rebuilt"


def _check_explained(built: Built, folder: Path) -> None:
    """The example explains refused steps, a dot and a bad line. What it rebuilds is explained and
    rebuilt the same."""
    explain = build(built.compilers[0].c, built, EXPLAINING, folder / "explain", *SANITIZED)
    script, rebuilt, again = (folder / f"{name}.vga" for name in ("refused", "rebuilt", "again"))
    script.write_text(REFUSED, "ascii")
    told = run([*explain, FONTS, script, rebuilt])
    found = EXPLAINED.fullmatch(told)
    if found is None:
        raise Wrong(f"of refused steps the example writes\n{told}")
    told = run([*explain, FONTS, rebuilt, again])
    if told != f"{found[1]}\n" or again.read_text("ascii") != rebuilt.read_text("ascii"):
        raise Wrong(f"of a rebuilt state the example writes\n{told}")
    script.write_text("frame\nmove 3C4 02", "ascii")
    done = captured([*explain, FONTS, script])
    if done.status != 1 or not done.output.startswith(b"line 2, column 1: "):
        raise Wrong(f"of a bad line the example writes {done.output!r}")


def laid_files() -> list[str]:
    """What is laid below the prefix."""
    told = version()
    names = (
        "libzaklimot.a",
        "libzaklimot.so",
        f"libzaklimot.so.{told.major}",
        f"libzaklimot.so.{told}",
    )
    cmake = [f"cmake/Zaklimot/Zaklimot{name}.cmake" for name in ("Config", "ConfigVersion")]
    packages = [f"{LIBRARIES}/{name}" for name in (*names, "pkgconfig/zaklimot.pc", *cmake)]
    return sorted(
        ["include/zaklimot.h", "include/zaklimot.hpp", "share/zaklimot/zaklimot.fnt", *packages]
    )


def check_installing(built: Built, folder: Path) -> str:
    """The files lie where they should, name no folder of this machine, and a program is built and
    run with them."""
    words: list[Word] = ["install", "--libdir", LIBRARIES, "--archive", built.archive]
    prefix = folder / "stage" / "usr"
    environment = {**os.environ, "PREFIX": "/usr", "DESTDIR": str(prefix.parent)}
    run([sys.executable, TOP / "tools" / "vga-library", *words], environment=environment)
    found = sorted(str(path.relative_to(prefix)) for path in prefix.rglob("*") if not path.is_dir())
    if found != laid_files():
        raise Wrong(f"laid are {found}, and not {laid_files()}")
    package = (prefix / LIBRARIES / "pkgconfig" / "zaklimot.pc").read_text("ascii")
    if "prefix=/usr\n" not in package or str(folder) in package:
        raise Wrong(f"zaklimot.pc has\n{package}")
    made = folder / "picture"
    environment = {
        **os.environ,
        "LD_LIBRARY_PATH": str(prefix / LIBRARIES),
    }
    run([built.compilers[0].c, "-std=c99", *STRICT, PICTURE, *_flags(prefix), "-o", made])
    told = "built with the installed files"
    check_picture("picture", [made], folder / "picture.ppm", told, environment=environment)
    ways = [_check_pkg_config(built, folder), _check_cmake(prefix, folder)]
    return "; ".join(
        [
            f"{len(found)} files, and a program that is linked with the shared library",
            *filter(None, ways),
        ]
    )


def _check_pkg_config(built: Built, folder: Path) -> str:
    """A folder that was moved, with its libraries at a place of its own, is found from there."""
    if not shutil.which("pkg-config"):
        return "pkg-config is left out: install the package pkg-config"
    moved = folder / "moved" / "kit"
    make_library(
        built.archive,
        memory_part(built.target, folder),
        Place(str(folder / "first"), LIBRARIES),
        MOVING,
    )
    moved.parent.mkdir()
    (folder / "first").rename(moved)
    environment = {**os.environ, "PKG_CONFIG_PATH": str(moved / LIBRARIES / "pkgconfig")}
    for name, place in (
        ("prefix", ""),
        ("libdir", LIBRARIES),
        ("includedir", "include"),
        ("fonts", "share/zaklimot/zaklimot.fnt"),
    ):
        told = Path(
            run(["pkg-config", f"--variable={name}", "zaklimot"], environment=environment).strip()
        )
        if told.resolve() != (moved / place).resolve() or not told.exists():
            raise Wrong(f"from a folder that was moved, pkg-config tells {name} as {told}")
    return ""


def _check_cmake(prefix: Path, folder: Path) -> str:
    """A project of CMake finds the installed files, builds with either library, and its programs
    draw."""
    if not shutil.which("cmake"):
        return "CMake is left out: install the package cmake"
    made = folder / "cmake"
    # A packager's folder is no prefix of CMake's own.
    words: list[Word] = [
        "cmake",
        "-S",
        PROJECT,
        "-B",
        made,
        f"-DPICTURE={PICTURE}",
        "-DCMAKE_BUILD_TYPE=Release",
    ]
    run([*words, f"-DCMAKE_PREFIX_PATH={prefix}"])
    run(["cmake", "--build", made])
    for name in ("picture", "picture_static"):
        check_picture("picture", [made / name], folder / "cmake.ppm", f"built by CMake as {name}")
    needed = run(["objdump", "-p", made / "picture"])
    if f"NEEDED               libzaklimot.so.{version().major}\n" not in needed:
        raise Wrong("the program that CMake has linked doesn't want the library by its soname")
    return "a project of CMake"


def _flags(prefix: Path) -> list[str]:
    """The words for a compiler: those of `pkg-config` where it is, and else the same by hand."""
    if not shutil.which("pkg-config"):
        return [f"-I{prefix / 'include'}", f"-L{prefix / LIBRARIES}", "-lzaklimot"]
    environment = {**os.environ, "PKG_CONFIG_PATH": str(prefix / LIBRARIES / "pkgconfig")}
    root = f"--define-variable=prefix={prefix}"
    return run(
        ["pkg-config", root, "--cflags", "--libs", "zaklimot"], environment=environment
    ).split()


def flags_of(*packages: str) -> Optional[list[str]]:
    """The words for a compiler; None where one of these is lacking."""
    if not shutil.which("pkg-config"):
        return None
    done = captured(["pkg-config", "--cflags", "--libs", *packages])
    return done.output.decode().split() if done.status == 0 else None


def _build(built: Built, made: Path, sources: list[Path], flags: list[str]) -> None:
    # The interface of Unicorn takes functions as pointers to anything, which pedantic compilers
    # refuse.
    words: list[Word] = [
        built.compilers[0].c,
        "-std=c99",
        "-O2",
        "-Wall",
        "-Wextra",
        "-Werror",
        "-I",
        built.folder / "include",
    ]
    run([*words, *sources, built.static, *flags, "-o", made])


def _check_script(built: Built, pc: Path, folder: Path, name: str) -> None:
    """The answers that come back on the floppy are those of the harness, but for what a machine
    skips."""
    script = TOP / "examples" / f"{name}.vga"
    image = folder / f"{name}.img"
    floppy: list[Word] = [sys.executable, TOP / "zaklimot", "floppy"]
    run([*floppy, "make", script, image])
    run([pc, image, FONTS, "--keys", " ", "--seconds", "5"])
    came = [
        line for line in run([*floppy, "read", image]).splitlines() if not line.endswith(" skipped")
    ]
    wanted = run([*harness(built, folder), script, FONTS]).splitlines()
    others = [line for line in came if line not in wanted]
    if others or not came:
        raise Wrong(f"{name}: on the PC these answers are others: {others[:5]}")


def _screens(pc: Path, folder: Path, *words: str | Path) -> list[Path]:
    """The pictures of the screens that the PC shows of its own floppy."""
    pictures = folder / "pictures"
    image = folder / "demo.img"
    shutil.rmtree(pictures, ignore_errors=True)
    pictures.mkdir()
    shutil.copyfile(PC / "demo.img", image)
    run([pc, image, FONTS, *words, "--pictures", pictures])
    return sorted(pictures.iterdir())


def _check_demo(pc: Path, folder: Path, *rom: str | Path) -> None:
    last = _screens(pc, folder, "--seconds", "2", *rom)[-1].read_bytes()
    if not last.startswith(SIZE) or not last.endswith(BAR):
        raise Wrong(
            f"the PC's floppy shows another first screen{' with ' + str(rom[1]) if rom else ''}"
        )


def _told(pc: Path, folder: Path, code: str, *words: str) -> tuple[int, int]:
    """How many instructions a boot sector runs, and how many frames are shown."""
    image = folder / "boot.img"
    sector = bytes.fromhex(code)
    image.write_bytes(sector.ljust(SECTOR - len(BOOTS), b"\0") + BOOTS + bytes(FLOPPY - SECTOR))
    told = TOLD.match(run([pc, image, FONTS, *words]).strip())
    if told is None:
        raise Wrong("the PC does not tell what it ran")
    return int(told[1]), int(told[2])


def _check_time(pc: Path, folder: Path) -> None:
    """Frames come at their rate whatever the adapter's clock is, and what nothing can wake is
    switched off."""
    for mode in MODES:
        _, frames = _told(pc, folder, LOOPS.format(mode=mode), "--seconds", str(SECONDS))
        if frames not in FRAMES:
            raise Wrong(f"in {SECONDS} seconds of mode {mode:02X} the PC shows {frames} frames")
    instructions, _ = _told(pc, folder, HALTS)
    if instructions != TO_HALT:
        raise Wrong(f"the PC runs {instructions} instructions, and not to the halt")


def _check_keys(pc: Path, folder: Path) -> None:
    """The machine ends by itself where it waits for a key that will not come; each screen is in a
    picture."""
    sizes = [path.read_bytes()[: len(SIZE)] for path in _screens(pc, folder, "--keys", "  ")]
    if list(dict.fromkeys(sizes)) != SCREENS:
        raise Wrong(f"of the floppy's screens the PC shows {sizes}")


def check_pc(built: Built, folder: Path) -> str:
    """Builds the PC with and without a window, and runs the one without."""
    flags = flags_of("unicorn")
    if flags is None:
        return f"left out: install the packages pkg-config and {PACKAGES['unicorn']}"
    pc = folder / "pc"
    _build(built, pc, PC_SOURCES, flags)
    for name in SCRIPTS:
        _check_script(built, pc, folder, name)
    _check_demo(pc, folder)
    _check_time(pc, folder)
    _check_keys(pc, folder)
    roms = [rom for rom in ROMS if rom.is_file()]
    for rom in roms:
        _check_demo(pc, folder, "--rom", rom)
    told = (
        f"{len(SCRIPTS)} scripts from floppies, and a screen by the library's BIOS and"
        f" {len(roms)} ROMs"
    )
    both = flags_of("unicorn", "sdl2")
    if both is None:
        return f"{told}; the window is left out: install the package {PACKAGES['sdl2']}"
    _build(built, folder / "pc-sdl", [*PC_SOURCES[:-1], PC / "window-sdl.c"], both)
    return f"{told}; the one with a window is built"
