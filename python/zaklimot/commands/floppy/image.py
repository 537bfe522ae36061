"""The image of a floppy or a disk: boot sector, interpreter, table of steps; and the reports of
what a run has left.

The layout is that of boot.asm; offsets and lengths are bytes. A run sends its answers over the
serial port too, as a record: `VGA-FLOPPY 1`, then lines of a letter, a number of six digits, bytes,
and the sum of the number's three bytes and these, all hexadecimal. T has bytes of the table, A of
the answers, each from this number on; P tells how many steps were begun; E, the last, has as its
number how many bytes of answers there are, and as its bytes their sum.
"""

import io
import re
import struct
from enum import IntEnum
from itertools import chain
from pathlib import Path
from typing import BinaryIO, Iterator, Mapping, NamedTuple, Optional

from zaklimot.format import REGISTERS, Script, Step
from zaklimot.commands.core.trouble import Trouble

from .table import BYTE, CALL, HEADER, WORD, Table, length_of, table_for


SECTOR = 512
IMAGE_SIZE = 2880 * SECTOR
CODE = Path(__file__).with_name("boot.bin")
# The boot sector and the interpreter, behind which the table stands.
CODE_SIZE = SECTOR + 3072
OEM_NAME = b"VGAFLOPY"
OEM_AT = 3
# What is written into the boot sector: how many sectors are loaded, and how the run ends.
LOADED_AT = 62
LOADED = struct.Struct("<HB")
# What a disk has and a floppy has not: a signature, which keeps others from writing one, and one
# partition, from sector 1 to the image's end. It is the one to boot; its kind says that it holds no
# file system. Then three that are empty.
PARTITIONS_AT = 440
PARTITIONS = struct.Struct("<4sH4B4BII48x")
SIGNATURE = b"VGAF"
ACTIVE = 0x80
NO_FILES = 0xDA
# The form of a floppy in its boot sector, which a disk has not: a machine would take the disk for a
# floppy.
FORM = slice(11, 62)
# So many sectors end where services may write.
MOST_LOADED = (0x70000 - 0x8000) // SECTOR
MARK_AT = 1023 * SECTOR
ANSWERS_AT = 1024 * SECTOR
# The mark: two names, the length and the sum of the answers, and the check of the table that they
# belong to.
MARK = struct.Struct("<4s4sHHI")
MARK_NAMES = (b"VGAF", b"DONE")
MOST_ANSWERS = 0xFFFF
# The first line of a record, its other lines, and their letters.
BEGIN = b"VGA-FLOPPY 1"
LINE = re.compile(rb"([TAPE]) ([0-9A-F]{6}) (?:((?:[0-9A-F]{2}){1,16}) )?([0-9A-F]{2})")
TABLE = b"T"
ANSWERS = b"A"
END = b"E"
# The registers in which a service answers, by AH, and those of function 10 by AX; of services that
# are not here, all.
AX, BX, CX, DX = range(4)
ANSWERED: dict[int, tuple[int, ...]] = {
    0x00: (),
    0x01: (),
    0x02: (),
    0x03: (CX, DX),
    0x05: (),
    0x06: (),
    0x07: (),
    0x08: (AX,),
    0x09: (),
    0x0A: (),
    0x0C: (),
    0x0D: (AX,),
    0x0E: (),
    0x0F: (AX, BX),
    0x11: (),
    0x12: (AX, BX, CX),
    0x13: (),
    0x1A: (AX, BX),
}
ANSWERED_BY_PALETTE = {0x1007: (BX,), 0x1008: (BX,), 0x1015: (CX, DX), 0x1019: (BX,), 0x101A: (BX,)}
PALETTE = 0x10


class Ending(IntEnum):
    """What a machine does once it has run all scripts, by the numbers that boot.asm has."""

    WAIT_FOR_KEY = 0
    LEAVE_EMULATOR = 1
    STAND_STILL = 2


class Run(NamedTuple):
    """What a machine has left: the table that it ran, and the bytes of its answers, whole or as far
    as they came."""

    table: Table
    answers: bytes
    is_whole: bool = True


def image_for(
    scripts: Mapping[str, Script],
    name: str,
    ending: Ending = Ending.WAIT_FOR_KEY,
    is_disk: bool = False,
) -> bytes:
    """The image that runs scripts one after the other; a Trouble where a machine has no room for
    them."""
    table = table_for(scripts)
    code = bytearray(CODE.read_bytes())
    loaded = -(-(len(code) - SECTOR + len(table)) // SECTOR)
    if loaded > MOST_LOADED:
        most = MOST_LOADED * SECTOR - (CODE_SIZE - SECTOR) - HEADER.size
        raise Trouble(
            (
                f"its steps take {len(table) - HEADER.size:,} bytes, and a machine has room for"
                f" {most:,}"
            ),
            name,
        )
    length = Table(table, name).answer_length()
    if length > MOST_ANSWERS:
        raise Trouble(
            f"its answers take {length:,} bytes, and a machine has room for {MOST_ANSWERS:,}", name
        )
    LOADED.pack_into(code, LOADED_AT, loaded, ending)
    if is_disk:
        code[FORM] = bytes(FORM.stop - FORM.start)
        _partition(code)
    return (bytes(code) + table).ljust(IMAGE_SIZE, b"\0")


def _partition(code: bytearray) -> None:
    last = IMAGE_SIZE // SECTOR - 1
    # Places as head, sector and cylinder, as on most machines: 63 sectors of a track, and more
    # heads than are needed.
    begin = (0, 2, 0)
    end = (last // 63, last % 63 + 1, 0)
    PARTITIONS.pack_into(code, PARTITIONS_AT, SIGNATURE, 0, ACTIVE, *begin, NO_FILES, *end, 1, last)


def table_of(image: bytes, name: str) -> Table:
    """The table of an image, whether it was run or not; a Trouble where it is none."""
    if image[OEM_AT : OEM_AT + len(OEM_NAME)] != OEM_NAME:
        raise Trouble("it is no image of `zaklimot floppy`", name)
    if len(image) < ANSWERS_AT:
        raise Trouble(f"the image is cut off: it has {len(image):,} bytes of {IMAGE_SIZE:,}", name)
    return Table(image[CODE_SIZE:MARK_AT], name)


def read_image(image: bytes, name: str) -> Run:
    """What a run has left in an image; a Trouble where it is none, or no run has ended."""
    table = table_of(image, name)
    first, second, length, total, check = MARK.unpack_from(image, MARK_AT)
    if (first, second) != MARK_NAMES:
        raise Trouble("no run has ended: the machine has not written its mark", name)
    if check != table.check:
        raise Trouble("its answers are those of another script", name)
    answers = image[ANSWERS_AT : ANSWERS_AT + length]
    if len(answers) < length or sum(answers) & 0xFFFF != total:
        raise Trouble("its answers are damaged", name)
    return Run(table, answers)


def has_ended(path: Path) -> bool:
    """Whether a run has written its mark into an image."""
    try:
        with open(path, "rb") as stream:
            stream.seek(MARK_AT)
            return stream.read(8) == b"".join(MARK_NAMES)
    except OSError:
        return False


class RecordLine(NamedTuple):
    """A line of a record: its place in the file, its letter, its number and its bytes."""

    place: int
    letter: bytes
    number: int
    listed: bytes


def read_record(data: bytes, name: str) -> Run:
    """The last run of a record, as far as it came; a Trouble where there is none, or a line is
    damaged."""
    begin = data.rfind(BEGIN)
    if begin < 0:
        raise Trouble("it holds no record of `zaklimot floppy`", name)
    first = data.count(b"\n", 0, begin) + 1
    parts = {TABLE: bytearray(), ANSWERS: bytearray()}
    end: Optional[RecordLine] = None
    for line in _lines(data[begin:], first, name):
        part = parts.get(line.letter)
        if part is not None:
            if line.number != len(part):
                told = f"bytes from {len(part)} on are to come, and not from {line.number} on"
                raise Trouble(told, name, line.place)
            part += line.listed
        elif line.letter == END:
            end = line
            break
    answers = bytes(parts[ANSWERS])
    table = Table(bytes(parts[TABLE]), name)
    if end is None:
        return Run(table, answers, False)
    total = (sum(answers) & 0xFFFF).to_bytes(2, "little")
    if (end.number, end.listed) != (len(answers), total):
        raise Trouble("the end of the record tells of other answers", name)
    return Run(table, answers)


def _lines(data: bytes, first: int, name: str) -> Iterator[RecordLine]:
    """The lines of a record up to one that is cut off."""
    lines = data.split(b"\n")
    for number, line in enumerate(lines[1:-1], first + 1):
        found = LINE.fullmatch(line.strip(b"\r"))
        if found is None:
            raise Trouble(
                f"no line of a record: '{line[:40].decode('ascii', 'replace').strip()}'",
                name,
                number,
            )
        numbered = bytes.fromhex(found[2].decode())
        listed = bytes.fromhex((found[3] or b"").decode())
        if sum(numbered + listed) & 0xFF != int(found[4], 16):
            raise Trouble("the line's sum is wrong: bytes were lost on their way", name, number)
        yield RecordLine(number, found[1], int.from_bytes(numbered, "big"), listed)


class ScriptReport(NamedTuple):
    """The lines of a script's report, and the script's name."""

    name: str
    lines: Iterator[bytes]


def reports(run: Run, name: str, has_all_registers: bool = False) -> Iterator[ScriptReport]:
    """The reports of a run, script by script; the lines of each are read before the next.

    Of a run that isn't whole they are the steps whose answers have come. A BIOS may leave anything
    in a register in which a service doesn't answer: such registers are told as they were handed in,
    unless all are wanted.
    """
    answers = io.BytesIO(run.answers)
    for one in run.table.scripts():
        lines = _report_lines(one.script, run, answers, name, has_all_registers)
        yield ScriptReport(one.name, lines)
        if answers.closed:
            return
    if run.is_whole and answers.tell() != len(run.answers):
        raise Trouble(
            f"it has {len(run.answers):,} bytes of answers, and its steps have {answers.tell():,}",
            name,
        )


def report_lines(run: Run, name: str, has_all_registers: bool = False) -> Iterator[bytes]:
    """The lines of the reports of a run, script by script."""
    return chain.from_iterable(one.lines for one in reports(run, name, has_all_registers))


def _report_lines(
    script: Script, run: Run, answers: BinaryIO, name: str, has_all_registers: bool
) -> Iterator[bytes]:
    """The lines of a script's report; where answers are lacking, they are closed."""
    for number, answer in enumerate(script.steps(), 1):
        data = answers.read(length_of(answer))
        if len(data) < length_of(answer):
            answers.close()
            if run.is_whole:
                raise Trouble(f"it has no answer for step {number}", name)
            return
        yield f"{number} {_text(answer, data, has_all_registers)}\n".encode()


def _text(answer: Step, data: bytes, has_all_registers: bool) -> str:
    if answer.name != CALL:
        return data[::-1].hex().upper() if answer.name in (BYTE, WORD) else answer.name
    ax = answer.numbers[AX]
    answered = (
        ANSWERED_BY_PALETTE.get(ax, ())
        if ax >> 8 == PALETTE
        else ANSWERED.get(ax >> 8, (AX, BX, CX, DX))
    )
    left = struct.unpack_from(f"<{len(REGISTERS)}H", data)
    values = [
        left[at] if has_all_registers or at in answered else answer.numbers[at]
        for at in range(len(REGISTERS))
    ]
    registers = " ".join(f"{name}={value:04X}" for name, value in zip(REGISTERS, values))
    block = data[2 * len(REGISTERS) :].hex().upper()
    return f"{registers} block {block}" if block else registers
