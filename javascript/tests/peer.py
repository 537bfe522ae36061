"""The calls of calls.mjs on the C library, by the package for Python: a line of JSON for each.

Reads lines [call, arguments ..] from standard input, and writes what each answers.
"""

from __future__ import annotations

import hashlib
import json
import sys
from typing import Any, Callable, Optional

import zaklimot
from zaklimot._library import loaded
from zaklimot._structs import SIZE, U8
from ctypes import byref

# Longer bytes are told by their sum.
SHORT = 64
PITCH = 2304
MOST_WORDS = 4 * PITCH * 1024


def told(value: Any) -> Any:
    """A value as both sides tell it."""
    if isinstance(value, (bytes, bytearray, memoryview)):
        data = bytes(value)
        return data.hex() if len(data) <= SHORT else [len(data), hashlib.sha1(data).hexdigest()]
    if isinstance(value, bool):
        return int(value)
    if isinstance(value, (list, tuple)):
        return [told(one) for one in value]
    return value


def swapped(row: bytes) -> bytes:
    """A row of words FFRRGGBB as the bytes of a canvas."""
    made = bytearray(row)
    made[0::4], made[2::4] = row[2::4], row[0::4]
    return bytes(made)


class Peer:
    """A card, and what it has saved."""

    def __init__(self) -> None:
        self.card = zaklimot.Card()
        self.states: list[bytes] = []
        self.fixed: list[bytes] = []
        self.beams: list[Any] = []
        self.buffer = bytearray(MOST_WORDS)
        self.shown: Optional[tuple[Any, ...]] = None

    # Frames.

    def _rows(self, picture: Any) -> list[bytes]:
        words = memoryview(picture.words).cast("B")
        return [
            bytes(words[4 * PITCH * y : 4 * PITCH * y + 4 * picture.width])
            for y in range(picture.height)
        ]

    def _told(self, picture: Any, data: bytes) -> list[Any]:
        return [picture.width, picture.height, picture.across, picture.down, told(data)]

    def frame(self, once: bool) -> Any:
        picture = self.card.frame_words(once=once, opaque=True)
        return self._told(picture, b"".join(map(swapped, self._rows(picture))))

    def frameWords(self, once: bool, opaque: bool) -> Any:
        picture = self.card.frame_words(once=once, opaque=opaque)
        return self._told(picture, b"".join(self._rows(picture)))

    def frameUpdate(self, once: bool) -> Any:
        picture, rows = self.card.frame_update(self.buffer, PITCH, once=once, opaque=True)
        form = (picture.width, picture.height, once)
        if self.shown != form:
            rows = range(picture.height)
        self.shown = form
        data = b"".join(map(swapped, self._rows(picture)))
        return [*self._told(picture, data), rows.start, len(rows)]

    def frameXrgb(self) -> Any:
        picture = self.card.frame_xrgb()
        return [picture.width, picture.height, told(b"".join(self._rows(picture)))]

    def frameRgb(self) -> Any:
        picture = self.card.frame()
        return [picture.width, picture.height, told(memoryview(picture.pixels).cast("B"))]

    def frameIndexed(self) -> Any:
        picture = self.card.frame_indexed()
        return [picture.width, picture.height, list(picture.palette), told(picture.numbers)]

    def line(self, opaque: bool) -> Any:
        line = self.card.line(opaque=opaque)
        words = memoryview(line.words).cast("B")
        return [line.number, len(words) // 4, int(line.ends_frame), told(words)]

    def _lines(self, lines: Any) -> Any:
        return [told(list(lines.widths)), told(lines.data)]

    def frameLines(self) -> Any:
        return self._lines(self.card.lines())

    def peek(self) -> Any:
        return self._lines(self.card.peek())

    # Reads and dumps.

    def clock(self) -> Any:
        clock = self.card.clock()
        never = [0xFFFFFFFF if dots is None else dots for dots in clock[1:3]]
        return [clock[0], *never, *clock[3:6], float(clock.dots_per_second)]

    def beam(self) -> Any:
        self.beams.append(self.card.beam())
        return told(self.beams[-1])

    def biosData(self) -> Any:
        read = self.card.bios_data()._asdict()
        cursors = [256 * place.row + place.column for place in read.pop("cursors")]
        return [cursors, *read.values()]

    # States.

    def save(self) -> Any:
        self.states.append(self.card.save())
        return told(self.states[-1])

    def restore(self, which: int, damage: int) -> None:
        self.card.restore(damaged(self.states[which % len(self.states)], damage))

    def saveFixed(self, length: int) -> Any:
        self.fixed.append(self.card.save_fixed(length))
        return told(self.fixed[-1])

    def restoreFixed(self, which: int, damage: int) -> None:
        self.card.restore_fixed(damaged(self.fixed[which % len(self.fixed)], damage))

    # Scripts.

    def runOn(self, text: str, first: int, most: int) -> Any:
        report = self.card.run_on(text, first, most)
        return [len(report), told(report.raw)]

    def explainStep(self, text: str) -> Any:
        reason = self.card.explain_step(text)
        if reason is None:
            return None
        numbers = [*reason.numbers.values(), 0, 0, 0, 0, 0][:5]
        return [reason.refusal.number, int(reason.why), numbers, int(reason.is_high), reason.text]

    def explainDot(self, which: int) -> Any:
        beam = self.beams[which % len(self.beams)] if which >= 0 else None
        return told(self.card.explain_dot(beam))

    def rebuild(self) -> Any:
        made = self.card.rebuild()
        return [told(made.script), int(made.are_dots_other)]

    def getInto(self, address: int, count: int, down: bool) -> Any:
        buffer = bytearray(count)
        return [self.card.get_bytes(address, buffer, down), told(buffer)]

    def int10(self, registers: list[int], block: str) -> Any:
        ax, bx, cx, dx = registers
        return told(self.card.int10(ax=ax, bx=bx, cx=cx, dx=dx, block=bytes.fromhex(block)))

    def block(self, registers: list[int]) -> Any:
        ax, bx, cx, dx = registers
        return told(self.card.block(ax=ax, bx=bx, cx=cx, dx=dx))

    def cycles(self, registers: list[int], block: str) -> Any:
        ax, bx, cx, dx = registers
        return told(self.card.cycles(ax=ax, bx=bx, cx=cx, dx=dx, block=bytes.fromhex(block)))

    def putBytes(self, address: int, data: str, down: bool) -> int:
        return self.card.put_bytes(address, bytes.fromhex(data), down)


def damaged(state: bytes, damage: int) -> bytes:
    """A state with a byte of another value, or cut off; as it is for a damage of -1."""
    if damage < 0:
        return state
    if damage % 5 == 0:
        return state[: damage % len(state)]
    data = bytearray(state)
    data[damage % len(state)] ^= 0xFF
    return bytes(data)


# Calls that both packages have under names of their own.
SAME = {
    "out": "out",
    "outWord": "out_word",
    "in": "inp",
    "inWord": "inp_word",
    "put": "put",
    "putWord": "put_word",
    "get": "get",
    "getWord": "get_word",
    "fillBytes": "fill",
    "getBytes": "get_bytes",
    "moveBytes": "move",
    "advance": "advance",
    "skipFrame": "skip_frame",
    "registers": "registers",
    "colour": "colour",
    "latches": "latches",
    "plane": "plane",
    "screen": "screen",
    "cell": "cell",
    "pixel": "pixel",
    "cursor": "cursor",
    "showRegs": "show_regs",
    "showBeam": "show_beam",
    "showLatches": "show_latches",
    "showBda": "show_bda",
    "showCells": "show_cells",
    "showDac": "show_dac",
    "showPlane": "show_plane",
    "saveSize": "save_size",
    "explainPut": "explain_put",
    "explainGet": "explain_get",
}


def statusText(status: int) -> str:
    room, length = (U8 * 128)(), SIZE()
    loaded().calls["status_text"](status, room, 128, byref(length))
    return bytes(room[: length.value]).decode("ascii")


def explainText(text: str) -> Any:
    mistake = zaklimot.explain_text(text)
    return mistake and [*mistake[:3], int(mistake.kind), mistake.sentence]


FREE: dict[str, Callable[..., Any]] = {
    "assemble": lambda text: told(zaklimot.assemble(text)),
    "print": lambda script: zaklimot.disassemble(bytes.fromhex(script)),
    "run": lambda text: told(zaklimot.run(text).raw),
    "explainText": explainText,
    "statusText": statusText,
    "version": lambda: divmod(loaded().calls["version"](), 65536),
}


def answer(peer: Peer, name: str, words: list[Any]) -> Any:
    """What a call answers, or the number and the place of its error."""
    try:
        if name in FREE:
            return FREE[name](*words)
        if name in SAME:
            return told(getattr(peer.card, SAME[name])(*words))
        return getattr(peer, name)(*words)
    except zaklimot.Error as error:
        return ["error", error.number, getattr(error, "place", None)]


def main() -> None:
    peer = Peer()
    for line in sys.stdin:
        name, *words = json.loads(line)
        if name == "open":
            peer = Peer()
            print("null")
        else:
            print(json.dumps(answer(peer, name, words)))


main()
