"""A toy adapter: the memory of a VGA and the registers by which it is written and read, the
sequencer's and the DAC's ports. docs/HOST-PATH.md and docs/REGISTERS.md have the rules.

    ./zaklimot steps check 'python3 examples/steps/toy.py' examples/steps/sequencer.json.gz

As a program it answers elements on standard input, a line each, as docs/STEPS.md says.
"""

from __future__ import annotations

import json
import sys
from operator import and_, or_, xor
from typing import Any, Callable, Optional

WINDOWS = ((0xA0000, 0x20000), (0xA0000, 0x10000), (0xB0000, 0x8000), (0xB8000, 0x8000))
KEPT = (0x03, 0x3D, 0x0F, 0x3F, 0x0E)
# What is done with data and a latch, by the function select.
FUNCTIONS: tuple[Callable[[int, int], int], ...] = (lambda data, _: data, and_, or_, xor)


class Refused(Exception):
    """The adapter refuses a cycle, by this name."""


class Toy:
    """The adapter. Its attributes have the names of the parts of a state."""

    def __init__(self) -> None:
        self.misc = self.seq_index = self.dac_index = self.dac_component = self.dac_mask = 0
        self.seq, self.gfx, self.latches, self.dac_waiting = [0] * 5, [0] * 9, [0] * 4, [0] * 2
        self.planes = [[0] * 4 for _ in range(1 << 16)]
        self.colours = [[0] * 3 for _ in range(256)]

    def place(self, address: int) -> int:
        """The place of an address in the window."""
        first, size = WINDOWS[self.gfx[6] >> 2]
        if not self.misc & 2 or not first <= address < first + size:
            raise Refused("NotDecoded")
        return address - first & 0xFFFF

    def offset(self, place: int) -> int:
        """The offset in the planes of a place in the window."""
        return place & (0xFFFC if self.seq[4] & 8 else 0xFFFE if self.gfx[6] & 2 else 0xFFFF)

    def stored(self, plane: int, byte: int) -> int:
        """The byte that a write stores in a plane."""
        mode, count, latch = self.gfx[5] & 3, self.gfx[3] & 7, self.latches[plane]
        rotated, mask = (byte << 8 | byte) >> count & 0xFF, self.gfx[8]
        is_set = 0xFF if self.gfx[0] >> plane & 1 else 0
        enabled = self.gfx[1] >> plane & 1
        by_bit = 0xFF if byte >> plane & 1 else 0
        data = (is_set if enabled else rotated, latch, by_bit, is_set)[mode]
        if mode == 1:
            return latch
        mask &= rotated if mode == 3 else 0xFF
        return FUNCTIONS[self.gfx[3] >> 3](data, latch) & mask | latch & ~mask

    def put(self, address: int, byte: int) -> None:
        """A write of a byte to memory."""
        place, reached = self.place(address), self.seq[2]
        if self.seq[4] & 8:
            reached &= 1 << (place & 3)
        elif not self.seq[4] & 4:
            reached &= 0b1010 if place & 1 else 0b0101
        for plane in (plane for plane in range(4) if reached >> plane & 1):
            self.planes[self.offset(place)][plane] = self.stored(plane, byte)

    def get(self, address: int) -> int:
        """A read of a byte of memory."""
        place = self.place(address)
        self.latches = list(self.planes[self.offset(place)])
        if self.gfx[5] & 8:
            compared = [plane for plane in range(4) if self.gfx[7] >> plane & 1]
            differing = 0
            for plane in compared:
                differing |= self.latches[plane] ^ (0xFF if self.gfx[2] >> plane & 1 else 0)
            return ~differing & 0xFF
        if self.seq[4] & 8:
            return self.latches[place & 3]
        return self.latches[self.gfx[4] & 2 | place & 1 if self.gfx[5] & 16 else self.gfx[4]]

    def out(self, port: int, byte: int) -> None:
        """A write of a byte to a port."""
        if port == 0x3C4:
            self.seq_index = byte & 7
        elif port == 0x3C5:
            if self.seq_index > 4:
                raise Refused("NotInProfile")
            self.seq[self.seq_index] = byte & KEPT[self.seq_index]
        elif port == 0x3C6:
            self.dac_mask = byte
        elif port in (0x3C7, 0x3C8):
            self.dac_index, self.dac_component = byte, 0
        elif port == 0x3C9:
            if self.dac_component < 2:
                self.dac_waiting[self.dac_component] = byte & 63
            else:
                self.colours[self.dac_index] = [*self.dac_waiting, byte & 63]
            self.next_component()
        else:
            raise Refused("NotInProfile" if port == 0x3C3 else "NotDecoded")

    def next_component(self) -> None:
        """The next component of the DAC; after blue its index grows."""
        self.dac_component = (self.dac_component + 1) % 3
        self.dac_index = self.dac_index + (self.dac_component == 0) & 0xFF

    def read(self, port: int) -> int:
        """A read of a byte from a port."""
        if port == 0x3C5 and self.seq_index > 4 or port in (0x3C7, 0x3CA):
            raise Refused("NotInProfile")
        if port == 0x3C9:
            component = self.colours[self.dac_index][self.dac_component]
            self.next_component()
            return component
        if port == 0x3C5:
            return self.seq[self.seq_index]
        known = {0x3C4: self.seq_index, 0x3C6: self.dac_mask, 0x3C8: self.dac_index}
        if port not in known:
            raise Refused("NotDecoded")
        return known[port]


SIMPLE = ("misc", "seq_index", "dac_index", "dac_component", "dac_mask")
LISTS = ("seq", "gfx", "latches", "dac_waiting")
PLACES = ("planes", "colours")


def set_state(card: Toy, state: dict[str, Any]) -> None:
    """Gives the card the parts of a state."""
    for name in SIMPLE:
        setattr(card, name, state.get(name, getattr(card, name)))
    for name in LISTS:
        setattr(card, name, list(state.get(name, getattr(card, name))))
    for name in PLACES:
        for place, *values in state.get(name, ()):
            getattr(card, name)[place] = values


def state_of(card: Toy, like: dict[str, Any]) -> dict[str, Any]:
    """The parts of the card's state that another state has."""
    state = {name: getattr(card, name) for name in like}
    for name in (name for name in PLACES if name in like):
        state[name] = [[place[0], *state[name][place[0]]] for place in like[name]]
    return state


def step(card: Toy, element: dict[str, Any]) -> Optional[int]:
    """Does the step of an element; what it reads. A word is two bytes, done whole or not at all."""
    does: dict[str, Callable[..., Any]] = {
        "put": card.put,
        "get": card.get,
        "out": card.out,
        "in": card.read,
    }
    name = next(name for name in does if name in element or name + "w" in element)
    if name in element:
        read: Optional[int] = does[name](*element[name])
        return read
    place, *values = element[name + "w"]
    if place == (0xFFFFFFFF if name in ("put", "get") else 0xFFFF):
        raise Refused("NotDecoded")
    data = [[value >> 8 * half & 0xFF for value in values] for half in (0, 1)]
    low, high = [does[name](place + half, *data[half]) for half in (0, 1)]
    return None if values else low | high << 8


def answer(card: Toy, element: dict[str, Any]) -> dict[str, Any]:
    """What the card answers to an element."""
    initial = element["initial"]
    if not {*initial} <= {*SIMPLE, *LISTS, *PLACES}:
        return {"skipped": True}
    set_state(card, initial)
    told: dict[str, Any] = {}
    try:
        read = step(card, element)
        told = {} if read is None else {"answer": read}
    except Refused as refused:
        told = {"refused": str(refused)}
        set_state(card, initial)
    return {**told, "final": state_of(card, initial)}


if __name__ == "__main__":
    toy = Toy()
    for line in sys.stdin:
        print(json.dumps(answer(toy, json.loads(line))), flush=True)
