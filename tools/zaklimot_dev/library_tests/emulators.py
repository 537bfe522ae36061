"""Tests of the emulators of examples/ that have the library in them: DOSBox and QEMU, each built
anew of Debian's source."""

from __future__ import annotations

import json
import os
import re
import shlex
import shutil
import sys
from pathlib import Path
from typing import Mapping, Optional, Sequence

from zaklimot.commands import TOP
from zaklimot.commands.core.processes import Word, captured
from zaklimot.commands.core.trouble import Wrong
from zaklimot.commands.images.reading import Image, image_of

from .compilers import LEFT_OUT, run


EXAMPLES = TOP / "examples"
DOSBOX = EXAMPLES / "dosbox"
QEMU = EXAMPLES / "qemu"
# The programs and files that each is built by, with Debian's packages that have them.
FOR_BOTH = {"apt-get": "apt", "patch": "patch", "make": "make", "g++": "g++", "nasm": "nasm"}
FOR_DOSBOX = {
    **FOR_BOTH,
    "autoreconf": "autoconf",
    "automake": "automake",
    "sdl-config": "libsdl1.2-dev",
    "/usr/include/png.h": "libpng-dev",
}
FOR_QEMU = {
    **FOR_BOTH,
    "ninja": "ninja-build",
    "meson": "meson",
    "pkg-config": "pkg-config",
    "/usr/include/glib-2.0/glib.h": "libglib2.0-dev",
    "/usr/include/pixman-1/pixman.h": "libpixman-1-dev",
    "/usr/include/libfdt.h": "libfdt-dev",
    "/usr/share/seabios/vgabios-stdvga.bin": "seabios",
}
# Seconds that a build may take on a loaded machine, and that the programs may.
BUILDING = 3600
RUNNING = 900
# The DOS programs, in the order in which they run, and how many pictures each takes.
PROGRAMS = {
    "plasma": 1,
    "modex": 3,
    "planes": 1,
    "split": 3,
    "text50": 2,
    "modes": 17,
    "pixels": 1,
    "fills": 1,
    "flips": 1,
    "buffer": 1,
    "words": 1,
    "scroll": 1,
    "palette": 1,
    "bars": 1,
    "differ": 5,
}
# Pictures that DOSBox's own adapter draws otherwise, as examples/dosbox/README.md says.
DIFFERENT = {
    "differ-0": "text that is panned",
    "differ-1": "colour plane enable",
    "differ-2": "the map mask in text",
    "differ-3": "the overscan colour",
    "differ-4": "colours that change within a line",
}
MACHINES = ("vgaonly", "zaklimot")
CONFIGURATION = """[sdl]
output=surface
priority=lowest,lowest
[dosbox]
machine={machine}
captures={captures}
[cpu]
core=normal
cycles=fixed 20000
[mixer]
nosound=true
[autoexec]
mount c {folder}
c:
{programs}
exit
"""
# DOSBox's names of screenshots, and how DOSBox tells of a refused cycle.
SHOT = re.compile(r"(\w+)_(\d{3})\.png\Z")
REFUSED = re.compile(r"^ZAKLIMOT: .*$", re.M)
# What a mode set of DOSBox's INT 10 writes on the way, and the card refuses.
EXPECTED_REFUSAL = re.compile(r"out 3[BD]5 = 00, index 17: ")
# DOSBox draws most pictures with so many bits of red, green and blue.
BITS = (5, 6, 5)
KEPT = [bytes(byte >> 8 - bits << 8 - bits for byte in range(256)) for bits in BITS]


def _lacking(wanted: Mapping[str, str]) -> str:
    """Why a check is left out, empty where nothing is lacking."""
    packages = [
        package
        for name, package in wanted.items()
        if not (os.path.exists(name) if name.startswith("/") else shutil.which(name))
    ]
    return f"{LEFT_OUT}install the packages {', '.join(packages)}" if packages else ""


def _build(build: Path, folder: Path, *words: str | Path) -> Optional[str]:
    """Builds an emulator in a folder; tells why not where Debian's source can't be had."""
    environment = {"JOBS": str(os.cpu_count() or 1), **os.environ}
    done = captured([build, folder, *words], environment=environment, seconds=BUILDING)
    if done.status == 0:
        return None
    said = (done.output + done.errors).decode("utf-8", "replace")
    if not any(folder.glob("*.orig.tar.*")):
        return f"{LEFT_OUT}Debian's source can't be had"
    raise Wrong(f"{build.parent.name} isn't built:\n{said[-2000:]}")


def _alike(image: Image) -> Image:
    """An image in the colours that DOSBox draws with."""
    rows = []
    for row in image.rows:
        dots = bytearray(row)
        for part, kept in enumerate(KEPT):
            dots[part::3] = dots[part::3].translate(kept)
        rows.append(bytes(dots))
    return image._replace(rows=tuple(rows))


def _assemble(folder: Path) -> None:
    """The DOS programs, in a folder that becomes DOSBox's drive C."""
    for name in PROGRAMS:
        source = DOSBOX / "programs" / f"{name}.asm"
        include = f"-i{source.parent}{os.sep}"
        run(["nasm", "-f", "bin", include, source, "-o", folder / f"{name}.com"])


def _shown(program: Path, drive: Path, machine: str) -> tuple[dict[str, Image], str]:
    """The pictures that the programs take on a machine, and what DOSBox says."""
    folder = drive.parent / machine
    folder.mkdir()
    configuration = folder / "dosbox.conf"
    words = "\n".join(PROGRAMS)
    configuration.write_text(
        CONFIGURATION.format(machine=machine, captures=folder, folder=drive, programs=words)
    )
    environment = {
        **os.environ,
        "SDL_VIDEODRIVER": "dummy",
        "SDL_AUDIODRIVER": "dummy",
        "HOME": str(folder),
        "MEASURE_FAST": "1",
    }
    words_of_run: list[Word] = [program, "-conf", configuration]
    done = captured(words_of_run, environment=environment, seconds=RUNNING)
    said = (done.output + done.errors).decode("utf-8", "replace")
    if done.status:
        raise Wrong(f"DOSBox with machine={machine} ends with {done.status}:\n{said[-2000:]}")
    images = {}
    for path in folder.iterdir():
        found = SHOT.match(path.name)
        if found is not None:
            name = f"{found[1]}-{int(found[2])}"
            images[name] = _alike(image_of(path.read_bytes(), name))
    return images, said


def _compare(shown: Sequence[dict[str, Image]]) -> str:
    """Pictures of both machines are equal, but for those that are to differ."""
    wanted = {f"{name}-{number}" for name, count in PROGRAMS.items() for number in range(count)}
    for machine, images in zip(MACHINES, shown):
        if set(images) != wanted:
            raise Wrong(f"machine={machine} has other pictures: {sorted(set(images) ^ wanted)}")
    differing = {name for name in wanted if shown[0][name] != shown[1][name]}
    if differing != set(DIFFERENT):
        others = sorted(differing - set(DIFFERENT)), sorted(set(DIFFERENT) - differing)
        raise Wrong(f"pictures that differ and should not: {others[0]}; the reverse: {others[1]}")
    return f"{len(wanted) - len(differing)} pictures of {len(PROGRAMS)} programs"


def _check_refusals(said: str) -> None:
    """No cycle was refused but those that are known."""
    others = [line for line in REFUSED.findall(said) if not EXPECTED_REFUSAL.search(line)]
    if others or not REFUSED.search(said):
        raise Wrong(f"DOSBox tells of these refusals: {others}")


def check_dosbox(folder: Path) -> str:
    """Builds DOSBox, and compares the pictures of its own adapter and of the library."""
    lacking = _lacking(FOR_DOSBOX)
    if lacking:
        return lacking
    made = folder / "dosbox"
    why_not = _build(DOSBOX / "build", made, DOSBOX / "measure.patch")
    if why_not is not None:
        return why_not
    drive = made / "drive"
    drive.mkdir()
    _assemble(drive)
    program = made / "dosbox-0.74-3" / "src" / "dosbox"
    own, ours = (_shown(program, drive, machine) for machine in MACHINES)
    told = _compare((own[0], ours[0]))
    _check_refusals(ours[1])
    return f"{told} are those of DOSBox's own adapter, and {len(DIFFERENT)} differ as they should"


# The folders of cases that QEMU is held to: those of memory and ports. The others call the video
# BIOS, which is SeaBIOS's there, or ask for pictures.
CASES = ("host/", "words/", "ports/", "crtc/", "attribute/", "dac/")
# How many answers of them are compared at least. What no machine answers is skipped.
FEWEST = 600
WRAPPER = """#!/bin/sh
# Takes the place of Debian's QEMU: its card is the device that is tested.
for word do
    shift
    case $word in VGA,*) word=zaklimot-vga${{word#VGA}} ;; esac
    set -- "$@" "$word"
done
exec {program} -L /usr/share/seabios "$@"
"""


def check_qemu(folder: Path) -> str:
    """Builds QEMU, and holds its device to cases of the suite, from a floppy that boots on it."""
    lacking = _lacking(FOR_QEMU)
    if lacking:
        return lacking
    made = folder / "qemu"
    why_not = _build(QEMU / "build", made)
    if why_not is not None:
        return why_not
    program = made / "qemu-7.2.0" / "build" / "qemu-system-i386"
    return _hold_to_suite(program, made / "bin")


def _hold_to_suite(program: Path, folder: Path) -> str:
    """Holds the device of a QEMU to cases of the suite."""
    wrapper = folder / "qemu-system-i386"
    folder.mkdir()
    wrapper.write_text(WRAPPER.format(program=shlex.quote(str(program))))
    wrapper.chmod(0o755)
    environment = {**os.environ, "PATH": f"{folder}{os.pathsep}{os.environ['PATH']}"}
    command: list[Word] = [sys.executable, TOP / "zaklimot"]
    once = f"{shlex.join(map(str, command))} floppy run --on qemu --seconds 200 {{script}}"
    words: list[Word] = [*command, "suite", once, "--bytes", once, "--machine", "--json"]
    for case in CASES:
        words += ["--only", case]
    words += ["--timeout", str(RUNNING), "--jobs", str(os.cpu_count() or 1)]
    done = captured(words, environment=environment, seconds=BUILDING)
    if done.status:
        said = (done.output + done.errors).decode("utf-8", "replace")
        raise Wrong(f"QEMU's device differs from the suite:\n{said[-2000:]}")
    told = json.loads(done.output)
    compared = sum(case["answers"] for rule in told["rules"] for case in rule["cases"])
    if compared < FEWEST or told["cases"]["differs"] or told["cases"]["failed"]:
        raise Wrong(f"of {compared} answers of QEMU's device some differ: {told['cases']}")
    return f"{compared:,} answers of QEMU's device are those of the suite"
