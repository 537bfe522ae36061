"""The adapter of the library, as single steps use it: power-on, steps, and the parts of its
state."""

from __future__ import annotations

import ctypes
import zlib
from typing import Any, Callable, Iterable, Mapping, NamedTuple, Optional, Sequence

from zaklimot.format import PLANE_BYTES, REFUSALS, REGISTERS, Step, decode
from zaklimot.commands.core.trouble import Trouble

from .library import structs as s
from .parts import BDA, BEAM, CURSORS, LINE, Parts

_byref = ctypes.byref
# The statuses of a call whose room is too short, and of one that is done.
NO_ROOM = 25
# Room for a saved state, and for the cycles of a call that touches few places.
STATE_ROOM = 1 << 19
CYCLES_ROOM = 1 << 15
# What `line` answers: the words of a line as 00RRGGBB, of which six bits count.
LineDots = list[int]


class Taken(NamedTuple):
    """What a step answered: what was read, if anything was; or the refusal's name."""

    answer: Any = None
    refused: str = ""


class Timing(NamedTuple):
    """The dots of a line and of a frame, and those that are left until the frame ends."""

    line_dots: int
    frame_dots: int
    to_frame: int


class SteppedCard:
    """A card of the library."""

    def __init__(self, calls: Mapping[str, Callable[..., int]], fonts: bytes) -> None:
        self._calls = calls
        self._card = s.zak_card()
        self._at = _byref(self._card)
        self._check(calls["open"](self._at, fonts, len(fonts)))
        self._byte, self._word = s.U8(), s.U16()
        self._registers, self._latches = s.zak_registers(), s.zak_latches()
        self._beam, self._bda, self._colour = s.zak_beam(), s.zak_bda(), s.zak_colour()
        self._plane = (s.U8 * PLANE_BYTES)()
        self._dots = (s.U32 * s.WIDEST)()
        self._cycles = (s.U8 * CYCLES_ROOM)()
        self._first = self.saved()
        self._kept: dict[str, bytes] = {}
        self._does = {
            "out": calls["out"],
            "outw": calls["out_word"],
            "put": calls["put"],
            "putw": calls["put_word"],
            "advance": calls["advance"],
        }
        self._reads = {
            "in": (calls["in"], self._byte),
            "inw": (calls["in_word"], self._word),
            "get": (calls["get"], self._byte),
            "getw": (calls["get_word"], self._word),
        }

    @staticmethod
    def _check(status: int) -> None:
        if status:
            raise Trouble(f"a call of the library answers {status}")

    def close(self) -> None:
        """Frees the card."""
        self._calls["close"](self._at)

    def __enter__(self) -> SteppedCard:
        return self

    def __exit__(self, *_: object) -> None:
        self.close()

    def saved(self) -> bytes:
        """The state, as bytes."""
        room = (s.U8 * STATE_ROOM)()
        length = s.SIZE()
        self._check(self._calls["save"](self._at, room, STATE_ROOM, _byref(length)))
        return bytes(memoryview(room)[: length.value])

    def restore(self, state: bytes) -> None:
        """Restores a saved state."""
        self._check(self._calls["restore"](self._at, state, len(state)))

    def power_on(self) -> None:
        """Brings the card to its power-on state."""
        self.restore(self._first)

    def bring_to(self, name: str, steps: Iterable[Step]) -> None:
        """Brings the card from power-on to where these steps lead, which have a name: the second
        time it is remembered."""
        if name in self._kept:
            self.restore(self._kept[name])
            return
        self.power_on()
        self.run(steps)
        self._kept[name] = self.saved()

    def run(self, steps: Iterable[Step]) -> None:
        """Takes steps whose answers nobody asks for; none of them may be refused."""
        for step in steps:
            taken = self.take(step)
            if taken.refused:
                raise Trouble(f"the step {step} is refused: {taken.refused}")

    def take(self, step: Step) -> Taken:
        """Takes a step."""
        does = self._does.get(step.name)
        if does is not None:
            return self._told(does(self._at, *step.numbers))
        if step.name == "int":
            return self._call(step)
        if step.name == LINE:
            return Taken(self.line())
        call, value = self._reads[step.name]
        status = call(self._at, *step.numbers, _byref(value))
        return self._told(status, value.value)

    @staticmethod
    def _told(status: int, answer: Any = None) -> Taken:
        if status == 0:
            return Taken(answer)
        if status not in REFUSALS:
            raise Trouble(f"a call of the library answers {status}")
        return Taken(None, REFUSALS[status])

    def _call(self, step: Step) -> Taken:
        registers = s.zak_regs(*step.numbers)
        table = (s.U8 * s.MOST_TABLE)()
        length = s.SIZE()
        given = (step.block, len(step.block), table, s.MOST_TABLE)
        status = self._calls["int10"](self._at, _byref(registers), *given, _byref(length))
        answer: Parts = {name: getattr(registers, name) for name in REGISTERS}
        if length.value:
            answer["block"] = list(table[: length.value])
        return self._told(status, answer)

    def block_length(self, numbers: Sequence[int]) -> int:
        """How many bytes a call of the video BIOS reads from the caller's memory."""
        source = s.zak_source()
        self._check(self._calls["block"](self._at, _byref(s.zak_regs(*numbers)), _byref(source)))
        return int(source.len)

    def cycles(self, step: Step) -> Optional[list[Step]]:
        """The cycles that a call of the video BIOS would make now: none of one that is refused, and
        None of one that makes too many."""
        length = s.SIZE()
        registers = s.zak_regs(*step.numbers)
        given = (step.block, len(step.block), self._cycles, CYCLES_ROOM)
        status = self._calls["cycles"](self._at, _byref(registers), *given, _byref(length))
        if status == NO_ROOM:
            return None
        if self._told(status).refused:
            return []
        return list(decode(bytes(memoryview(self._cycles)[: length.value])).steps())

    def line(self) -> LineDots:
        """The dots of the line under way to its end, each as 18 bits: red highest."""
        told = s.zak_scan_line()
        self._check(self._calls["line"](self._at, 0, _byref(told), self._dots, s.WIDEST))
        words = self._dots[: told.width]
        return [word >> 6 & 0x3F000 | word >> 4 & 0xFC0 | word >> 2 & 0x3F for word in words]

    def clock(self) -> Timing:
        """How many dots a line and a frame have, and how many are left of the frame."""
        told = s.zak_timing()
        self._check(self._calls["clock"](self._at, _byref(told)))
        return Timing(int(told.line_dots), int(told.frame_dots), int(told.to_frame))

    # The parts of the state.

    def read(self, names: Sequence[str], places: Mapping[str, Sequence[int]]) -> Parts:
        """These parts of the state. `places` are the offsets of planes, and entries of the DAC."""
        self._check(self._calls["read_registers"](self._at, _byref(self._registers)))
        return {name: self._part(name, places.get(name, ())) for name in names}

    def _part(self, name: str, places: Sequence[int]) -> Any:
        reader = getattr(self, f"_read_{name}", None)
        if reader is not None:
            return reader(places)
        value = getattr(self._registers, name)
        return value if isinstance(value, int) else list(value)

    def _read_dac_waiting(self, _: Sequence[int]) -> list[int]:
        return [self._registers.dac_waiting_red, self._registers.dac_waiting_green]

    def _read_latches(self, _: Sequence[int]) -> list[int]:
        self._check(self._calls["read_latches"](self._at, _byref(self._latches)))
        return list(self._latches.plane)

    def _read_planes(self, offsets: Sequence[int]) -> list[list[int]]:
        return [
            [offset, *(self._byte_at(plane, offset) for plane in range(4))] for offset in offsets
        ]

    def _byte_at(self, plane: int, offset: int) -> int:
        self._calls["read_plane"](self._at, plane, offset, self._byte, 1)
        return self._byte.value

    def _components(self, entry: int) -> list[int]:
        colour = self._colour
        self._check(self._calls["read_colour"](self._at, entry, _byref(colour)))
        return [colour.red, colour.green, colour.blue]

    def _read_colours(self, entries: Sequence[int]) -> list[list[int]]:
        return [[entry, *self._components(entry)] for entry in entries]

    def _read_sums(self, _: Sequence[int]) -> list[int]:
        sums = []
        for plane in range(4):
            self._calls["read_plane"](self._at, plane, 0, self._plane, PLANE_BYTES)
            sums.append(zlib.crc32(self._plane))
        entries = b"".join(bytes(self._components(entry)) for entry in range(256))
        return [*sums, zlib.crc32(entries)]

    def _read_beam(self, _: Sequence[int]) -> Parts:
        self._check(self._calls["read_beam"](self._at, _byref(self._beam)))
        return {name: getattr(self._beam, name) for name in BEAM}

    def _read_bda(self, _: Sequence[int]) -> Parts:
        self._check(self._calls["read_bda"](self._at, _byref(self._bda)))
        read: Parts = {name: getattr(self._bda, name) for name in BDA}
        read[CURSORS] = list(read[CURSORS])
        return read
