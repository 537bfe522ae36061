"""A machine for tests: boots an image of `floppy make` as boot.asm does, on an adapter that only
remembers."""

from __future__ import annotations

import struct
from typing import Iterator, Optional

from zaklimot.commands.explain.faults import script_of
from zaklimot.commands.floppy.image import image_for
from zaklimot.commands.floppy.table import (
    BEHIND,
    END,
    END_OF_RESET,
    FILL,
    FORMS,
    GETW,
    INT,
    LOOK_AWAY,
    PUT,
    REPEAT,
    SCRIPT,
)


SECTOR = 512
TABLE = 7 * 512
MARK = 1023 * 512
ANSWERS = 1024 * 512
# The rows of a page: each of so many answers at most. The words have these letters, in turn.
ROW = 22
PAGE = 21 * 22
LETTERS = ["bdfghjklmnprstvz", "aiou"] * 2 + ["bdfghjklmnprstvz"]


KEYS = "Press a key for the next page of the answers, or the key up to go back."


def row(number: int, data: bytes) -> str:
    """A row of a page, as boot.asm shows it."""
    row = number.to_bytes(2, "big") + data + bytes(len(data) % 2)
    check = 0
    for bit in (byte >> at & 1 for byte in row for at in range(7, -1, -1)):
        check = (check << 1 ^ 0x1021 * (check >> 15 ^ bit)) & 0xFFFF
    row += check.to_bytes(2, "big")
    words = []
    for at in range(0, len(row), 2):
        left = int.from_bytes(row[at : at + 2], "big")
        word = ""
        for letters in LETTERS[::-1]:
            left, digit = divmod(left, len(letters))
            word = letters[digit] + word
        words.append(word)
    return " ".join(words)


def check_of(data: bytes) -> bytes:
    """The CRC-16 of bytes: that of a row whose number is 0 ends in it."""
    last = row(0, data.rjust(len(data) + len(data) % 2, b"\0")).rpartition(" ")[2]
    number = 0
    for letter, letters in zip(last, LETTERS):
        number = number * len(letters) + letters.index(letter)
    return number.to_bytes(2, "big")


def line(letter: str, number: int, data: bytes = b"") -> bytes:
    """A line of a record."""
    told = number.to_bytes(3, "big")
    words = (letter, told.hex(), data.hex(), f"{sum(told + data) & 0xFF:02x}")
    return (letter + " ".join(filter(None, words))[1:].upper()).encode() + b"\r\n"


def pages_of(answers: bytes, image: bytes) -> list[str]:
    """The pages that a machine shows once it has run an image: that of the checks, and those of the
    answers."""
    parts = [answers[at : at + PAGE] for at in range(0, len(answers), PAGE)] or [b""]
    checks = b"".join(map(check_of, parts))
    told = struct.pack("<HH", len(answers), sum(answers) & 0xFFFF) + image[TABLE + 12 : TABLE + 16]
    rows = [row(0xFFFF, told)]
    rows += (row(0x8001 + at // 2, checks[at : at + ROW]) for at in range(0, len(checks), ROW))
    pages = ["\n".join(["vga-floppy: the checks of all pages", *rows, KEYS])]
    for page, part in enumerate(parts):
        rows = [row(21 * page + at // ROW, part[at : at + ROW]) for at in range(0, len(part), ROW)]
        rows.append(row(0x8001 + page, checks[2 * page : 2 * page + 2]))
        pages.append("\n".join([f"vga-floppy: page {page + 1} of {len(parts)}", *rows, KEYS]))
    return pages


class Machine:
    """The machine with an image, which runs at once: its cycles and calls, the answers, the record,
    the image then.

    A port reads its number's low byte, memory what was written, and else FF. A call destroys AX,
    answers 1234 in the other registers, and counts from 0 in its table.
    """

    def __init__(self, image: bytes) -> None:
        assert (
            image[510:512] == b"\x55\xaa"
            and image[3:11] == b"VGAFLOPY"
            and len(image) == 2880 * SECTOR
        )
        self.cycles: list[tuple[object, ...]] = []
        self.answers = bytearray()
        self._memory: dict[int, int] = {}
        # Nothing but what was loaded is there to be read.
        self._steps = image[TABLE + 16 : SECTOR * (1 + int.from_bytes(image[62:64], "little"))]
        self._block = 0, 0
        # The state that a script finds, and where its steps are, while the adapter is reset.
        self._waiting: Optional[tuple[int, int]] = None
        at = int.from_bytes(image[TABLE + 6 : TABLE + 8], "little")
        while self._steps[at]:
            at = self._take(at)
        total, length = (
            (number & 0xFFFF).to_bytes(2, "little")
            for number in (sum(self.answers), len(self.answers))
        )
        table = image[TABLE : TABLE + 16 + int.from_bytes(image[TABLE + 8 : TABLE + 12], "little")]
        self.record = [
            b"\r\nVGA-FLOPPY 1\r\n",
            *_lines("T", table),
            *_lines("A", self.answers),
            line("E", len(self.answers), total),
        ]
        left = bytearray(image)
        left[ANSWERS : ANSWERS + len(self.answers)] = self.answers
        left[MARK : MARK + 16] = b"VGAFDONE" + length + total + image[TABLE + 12 : TABLE + 16]
        self.image = bytes(left)
        self.pages = pages_of(self.answers, image)

    def _take(self, at: int) -> int:
        opcode = self._steps[at]
        fields = FORMS[opcode].unpack_from(self._steps, at + 1)
        at += 1 + FORMS[opcode].size + (fields[-1] if opcode in BEHIND else 0)
        if opcode <= GETW:
            self._cycle(opcode, *fields)
        elif opcode == INT:
            self.cycles.append(("int", *fields[:5], self._steps[at - fields[-1] : at]))
            self._keep(bytes.fromhex("ADDE341234123412") + bytes(range(256))[: fields[5]])
        elif opcode == LOOK_AWAY:
            self.cycles += [("in", fields[0] + at) for at in range(1 + fields[1])]
        elif opcode == FILL:
            filled = dict.fromkeys(range(16 * fields[0], 16 * fields[0] + (1 << 16)), fields[1])
            self.cycles += [("put", *one) for one in filled.items()]
            self._memory.update(filled)
        elif opcode == REPEAT:
            self._block = fields[0], at
        elif opcode == END:
            count, begin = self._block
            self._block = count - 1, begin
            return begin if count > 1 else at
        elif opcode == SCRIPT:
            self._waiting = fields[0], at
            return 0
        elif opcode == END_OF_RESET:
            output, at = self._waiting or (0, 0)
            self._waiting = None
            self.cycles += [("out", 0x3C2, output), ("begin",)]
        return at

    def _cycle(self, opcode: int, *fields: int) -> None:
        """A byte or a word at a port or, by segment and offset, in memory: in cycles of a byte."""
        name = ("out", "in", "put", "get")[(opcode - 1) // 2]
        place = fields[0] if opcode < PUT else 16 * fields[0] + fields[1]
        for at in range(2 - opcode % 2):
            if name in ("out", "put"):
                value = fields[-1] >> 8 * at & 0xFF
                self.cycles.append((name, place + at, value))
                self._memory.update({place + at: value} if name == "put" else {})
            else:
                self.cycles.append((name, place + at))
                self._keep(
                    bytes(
                        [place + at & 0xFF if name == "in" else self._memory.get(place + at, 0xFF)]
                    )
                )

    def _keep(self, data: bytes) -> None:
        if self._waiting is None:
            self.answers += data


def _lines(letter: str, data: bytes) -> Iterator[bytes]:
    return (line(letter, at, data[at : at + 16]) for at in range(0, len(data), 16))


def machine(script: bytes) -> Machine:
    """The machine with the image of a script."""
    return Machine(image_for({"": script_of(script, "script")}, "script"))


def cycles(script: bytes) -> list[tuple[object, ...]]:
    """The cycles of a script's own steps."""
    found = machine(script).cycles
    return found[found.index(("begin",)) + 1 :]
