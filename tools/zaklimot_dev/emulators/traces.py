"""Records software on qemu, replays it here, and holds what it read and its picture against qemu's.

    tools/vga-emulators record FOLDER [NAME...]

Without names it takes all the software that `--help` lists. Traces, screens, scripts and reports
stay in FOLDER, and what was recorded there before is replayed alone. It prints a row of a table for
each, and ends with status 1 where anything is otherwise than known. It needs the built program and,
of Debian 12, qemu-system-x86, seabios, vgabios, grub-common, grub-pc-bin, xorriso, mtools, and gcc
for mode 13. Software of packages that are unpacked with `dpkg -x` is taken from the folder of
`--unpacked`: the newest linux-image, busybox-static, console-setup-linux, memtest86+; Linux needs
cpio.
"""

import argparse
import gzip
import shutil
import sys
from dataclasses import dataclass
from functools import partial
from pathlib import Path
from typing import Callable, NamedTuple, Optional, Sequence

from zaklimot.format import FORMS, HEADERS
from zaklimot.commands.core.processes import ended_well, run
from zaklimot.commands.core.progress import Progress
from zaklimot.commands.core.trouble import AGREED, DIFFERED, Trouble
from zaklimot.commands.explain.faults import script_of
from zaklimot.commands.floppy.image import image_for
from zaklimot.commands.report.places import SUITE
from zaklimot.commands.script.program import BuiltProgram, found_program
from zaklimot.commands.script.words import FONTS
from zaklimot.commands.trace.asked import Deed
from zaklimot.commands.trace.parts import TRACE
from zaklimot.commands.trace.recording import QemuMachine, chain_4, record
from zaklimot.commands.trace.replaying import Replay, replay


HEADER = (
    "| Software | Cycles | Steps | Bytes | without repeats | Reads | differing | Refused | Picture"
    " |\n|---|---|---|---|---|---|---|---|---|"
)
GRUB_GRAPHICS = """insmod vga
insmod font
insmod gfxterm
loadfont /boot/grub/fonts/unicode.pf2
set gfxmode=640x480
terminal_output gfxterm
"""
GRUB_TEXT = "insmod vga_text\nterminal_output vga_text\n"
GRUB_MENU = """set timeout=-1
set menu_color_normal=yellow/blue
set menu_color_highlight=white/red
menuentry "Real software" { echo one; sleep 1 }
menuentry "on a planar screen" { echo two; sleep 1 }
menuentry "of sixteen colours" { echo three; sleep 1 }
"""
SEA = "/usr/share/seabios/vgabios-stdvga.bin"
LGPL = "/usr/share/vgabios/vgabios.bin"
# What Linux runs: lines in all colours, more than the screen has, and no cursor at the end.
INIT = """#!/bin/busybox sh
/bin/busybox mount -t devtmpfs dev /dev
exec >/dev/tty1 2>&1 </dev/tty1
[ -f /font ] && /bin/busybox loadfont </font
/bin/busybox printf '\\033%%G'
i=0
while [ $i -lt 40 ]; do
 /bin/busybox printf "\\033[3$((i%8));4$((7-i%8))m colour $i \\033[0m \
\\033[1;3$((i%8))m bright \\033[0m\\n"
 i=$((i+1))
done
/bin/busybox ls -l /
/bin/busybox printf 'Žluťoučký kůň, Ελλάδα, Россия\\ndone\\n\\033[?25l'
while true; do /bin/busybox sleep 1000; done
"""


@dataclass(frozen=True)
class Software:
    """Software: what makes its machine, of a folder for its discs and of one with unpacked packages
    if it is of these.

    So many cycles are known to be refused, and so many dots of its picture to differ from qemu's.
    """

    make: Callable[[Path, Optional[Path]], QemuMachine]
    is_unpacked: bool = False
    refused: int = 0
    dots: int = 0


def _card(rom: str) -> list[str]:
    return ["-device", f"VGA,romfile={rom}"]


def _disc(mode: int, folder: Path) -> list[str]:
    """A disc that lets the video BIOS draw in a mode: an image of `floppy make` with a script
    of the suite."""
    disc = folder / "calls.img"
    name = f"mode-{mode:02x}-cut-by-cell.vga"
    # Where mode 7 is set, the CRT controller isn't at 3B4 yet, and keeps what it had: that is to be
    # what text has.
    text = (b"int ax=3\n" if mode == 7 else b"") + (SUITE.parent / "screens" / name).read_bytes()
    disc.write_bytes(image_for({"": script_of(text, name)}, disc.name, is_disk=True))
    return ["-drive", f"file={disc},format=raw,if=ide", "-boot", "c"]


def _grub(is_graphics: bool, keys: Sequence[str], folder: Path, _: Optional[Path]) -> QemuMachine:
    root = folder / ("grub-planar" if is_graphics else "grub-text")
    disc = root.with_suffix(".iso")
    (root / "boot" / "grub").mkdir(parents=True, exist_ok=True)
    words = (GRUB_GRAPHICS if is_graphics else GRUB_TEXT) + GRUB_MENU
    (root / "boot" / "grub" / "grub.cfg").write_text(words, encoding="ascii")
    run(["grub-mkrescue", "-o", disc, root])
    deeds = [*(Deed(keys=(key,)) for key in keys), Deed()]
    return QemuMachine([*_card(SEA), "-cdrom", str(disc), "-boot", "d"], deeds, quiet=12, most=300)


def _calls(mode: int, rom: str, folder: Path, _: Optional[Path]) -> QemuMachine:
    """A video BIOS that draws in a mode. Of mode 13, which is chain 4, qemu tells by a plugin
    alone."""
    words = [*_card(rom), *_disc(mode, folder)]
    if mode == 0x13:
        words += chain_4(folder)
    return QemuMachine(words)


def _cirrus(folder: Path, _: Optional[Path]) -> QemuMachine:
    """Mode 13 on a card that tells of chain 4, with a VGA's video BIOS by the name that it looks
    for."""
    roms = folder / "roms"
    roms.mkdir(exist_ok=True)
    shutil.copy(LGPL, roms / "vgabios-cirrus.bin")
    return QemuMachine(["-L", str(roms), "-device", "isa-cirrus-vga", *_disc(0x13, folder)])


def _file(folder: Optional[Path], *names: str) -> Path:
    assert folder is not None
    for name in names:
        for found in sorted(folder.glob(name)):
            return found
    raise Trouble(f"there is no {names[0]}", str(folder))


def _linux(has_font: bool, folder: Path, unpacked: Optional[Path]) -> QemuMachine:
    root = folder / ("linux-font" if has_font else "linux")
    for name in ("bin", "dev"):
        (root / name).mkdir(parents=True, exist_ok=True)
    shutil.copy(_file(unpacked, "bin/busybox", "usr/bin/busybox"), root / "bin")
    (root / "init").write_text(INIT, "utf-8")
    (root / "init").chmod(0o755)
    if has_font:
        font = _file(unpacked, "usr/share/consolefonts/Uni2-VGA14.psf.gz").read_bytes()
        (root / "font").write_bytes(gzip.decompress(font))
    names = "".join(f"{path.relative_to(root)}\n" for path in sorted(root.rglob("*")))
    archive = root.with_suffix(".initrd")
    archive.write_bytes(
        ended_well(["cpio", "--create", "--format=newc"], root, given=names.encode()).output
    )
    kernel = _file(unpacked, "boot/vmlinuz-*")
    # Without its own drivers of the card the kernel's text console stays. While it unpacks itself,
    # no cycle comes.
    words = [
        "-kernel",
        str(kernel),
        "-initrd",
        str(archive),
        "-append",
        "nomodeset vga=normal consoleblank=0",
    ]
    return QemuMachine([*_card(SEA), *words], quiet=45, most=240)


def _memtest(_: Path, unpacked: Optional[Path]) -> QemuMachine:
    return QemuMachine(
        [*_card(SEA), "-kernel", str(_file(unpacked, "boot/memtest86+x64.bin"))], quiet=3, most=20
    )


# The dots of the cells of character B1, whose ninth dot qemu repeats.
B1 = 8 * 75
KEYS = ("down", "c", "h", "e", "l", "p", "ret")
# In mode 7 both video BIOSes write the CRT controller at 3B4 before they put it there: these cycles
# are refused.
SOFTWARE = {
    "grub-text": Software(partial(_grub, False, ())),
    "grub-planar": Software(partial(_grub, True, ())),
    "grub-planar-keys": Software(partial(_grub, True, KEYS)),
    **{
        f"calls-{mode:02x}-{name}": Software(partial(_calls, mode, rom), refused=refused, dots=dots)
        for name, rom, early in (("sea", SEA, 27), ("lgpl", LGPL, 52))
        for mode, refused, dots in (
            (0x03, 0, B1),
            (0x07, early, B1),
            (0x0D, 0, 0),
            (0x10, 0, 0),
            (0x12, 0, 0),
            (0x13, 0, 0),
        )
    },
    "calls-13-cirrus": Software(_cirrus),
    "linux": Software(partial(_linux, False), is_unpacked=True),
    # Of characters with attribute bit 3 qemu's text doesn't look at colour plane enable.
    "linux-font": Software(partial(_linux, True), is_unpacked=True, dots=333),
    "memtest": Software(_memtest, is_unpacked=True),
}


class TableRow(NamedTuple):
    """The row of a recording in the table, and whether it is as known."""

    line: str
    is_as_known: bool


def row(name: str, replayed: Replay, refused: int, dots: Optional[int]) -> TableRow:
    """The row of a recording of which so many cycles are known to be refused, and so many dots to
    be unlike qemu's."""
    written = replayed.written
    checked = replayed.checked
    differing = replayed.screens[0].held.differing
    plain = len(HEADERS[1]) + sum(FORMS[kind].size * count for kind, count in written.kinds.items())
    counts = [sum(kinds.values()) for kinds in (checked.reads, checked.differing, checked.refused)]
    picture = (
        "another size"
        if differing is None
        else f"{differing:,} dots differ"
        if differing
        else "the same"
    )
    figures = (replayed.listing.trace.count, written.steps, written.script_bytes, plain, *counts)
    is_as_known = (counts[1], counts[2], differing) == (0, refused, dots)
    told = f"| {name} | {' | '.join(f'{figure:,}' for figure in figures)} | {picture} |"
    return TableRow(told, is_as_known)


def replay_all(words: argparse.Namespace, progress: Progress) -> int:
    """Records what isn't there yet, replays all, and prints a row for each."""
    unknown = set(words.names) - set(SOFTWARE)
    if unknown:
        raise Trouble(f"there is no software {', '.join(sorted(unknown))}")
    status = AGREED
    program = found_program(instead="README.md says how it is built")
    print(HEADER, flush=True)
    for name in words.names or SOFTWARE:
        software = SOFTWARE[name]
        if software.is_unpacked and words.unpacked is None:
            _say(name, "left out, since --unpacked names no folder")
            continue
        _record(name, words, progress)
        replayed = replay(words.folder / name, BuiltProgram(program), str(FONTS), progress)
        for line in replayed.listing.warnings():
            _say(name, line)
        told = row(name, replayed, software.refused, software.dots)
        print(told.line, flush=True)
        status = status if told.is_as_known else DIFFERED
    return status


def _say(name: str, text: str) -> None:
    print(f"{name}: {text}", file=sys.stderr, flush=True)


def _record(name: str, words: argparse.Namespace, progress: Progress) -> None:
    """Records software, if it wasn't before."""
    folder = words.folder / name
    folder.mkdir(parents=True, exist_ok=True)
    if not (folder / TRACE).exists():
        machine = SOFTWARE[name].make(folder, words.unpacked)
        record(machine, folder, partial(_say, name), progress)
