"""An adapter for `zaklimot steps check`: the portable C file, as it is or with one of some faults.

    ./zaklimot steps check 'python3 tools/tests/steps_adapter.py [FAULT]' FILE..

A fault changes the state before or after a step: the adapter saves its state, changes bytes of it
as docs/STATE.md lays them out, and restores it.
"""

from __future__ import annotations

import json
import sys
from pathlib import Path
from typing import Callable, NamedTuple, Optional

sys.path.insert(0, str(Path(__file__).resolve().parents[2] / "python"))

from zaklimot.commands.script.words import FONTS  # noqa: E402
from zaklimot.commands.steps.adapter import SteppedCard  # noqa: E402
from zaklimot.commands.steps.library import load  # noqa: E402
from zaklimot.commands.steps.making import told_of  # noqa: E402
from zaklimot.commands.steps.parts import (  # noqa: E402
    FINAL,
    INITIAL,
    LINE,
    REACH,
    SUMS,
    Element,
    Parts,
)
from zaklimot.commands.steps.reaching import steps_to  # noqa: E402
from zaklimot.commands.steps.reading import step_of  # noqa: E402

# Where parts of a saved state begin: docs/STATE.md.
CRTC = 41
ATTR = 78
DAC = 101
HOST = 874
FRAME = CRTC + 26
FLIP_FLOP = ATTR + 22
DAC_INDEX = DAC + 768
LATCHES = HOST
SEQ = HOST + 4
GFX = HOST + 9
PLANES = HOST + 20
PLANE_BYTES = 1 << 16
OVERFLOW = 7
PROTECTING = 0x11
PROTECT = 0x80
COMPARE_8 = 0x10
MODE_CONTROL = 0x10
PANNING = 0x13
PLANE_ENABLE = 0x12
MOST_SCAN = 0x09
COMPARE_9 = 0x40
LINE_COMPARE = 0x18
CURSOR_START = 0x0A
CURSOR_END = 0x0B
CURSOR_OFF = 0x20
# The state before a step, and the place of the first byte of a write, if that is all in the window.
State = bytearray
# Bytes of the state, by their places.
Changes = dict[int, int]


class Fault(NamedTuple):
    """A fault: which steps it meets, and the bytes that it changes before and after such a step.

    After the step, the changes of before are undone first: a fault changes what a step does, and
    not the registers that it goes by.
    """

    meets: Callable[[Element], bool]
    before: Callable[[Element, State], Changes] = lambda *_: {}
    after: Callable[[Element, State, State], Changes] = lambda *_: {}


def _gfx(element: Element, index: int) -> int:
    return int(element[INITIAL]["gfx"][index])


def _is_write(element: Element, mode: int) -> bool:
    """Whether an element writes memory in this mode."""
    is_write = any(name in element for name in ("put", "putw"))
    return is_write and _gfx(element, 5) & 3 == mode


def _set_planes(element: Element, was: State, now: State) -> Changes:
    """Bytes of planes that the step has changed are set or reset, where set/reset is enabled."""
    changes: Changes = {}
    for offset, *_ in element[INITIAL]["planes"]:
        for plane in range(4):
            at = PLANES + plane * PLANE_BYTES + offset
            if was[at] != now[at] and _gfx(element, 1) >> plane & 1:
                changes[at] = 0xFF * (_gfx(element, 0) >> plane & 1)
    return changes


def _overflow(element: Element, was: State, now: State) -> Changes:
    """Bit 4 of overflow stays as it was."""
    if element[INITIAL]["crtc_index"] != OVERFLOW:
        return {}
    at = CRTC + OVERFLOW
    return {at: now[at] & ~COMPARE_8 | was[at] & COMPARE_8}


def _highest_compare(_: Element, was: State) -> Changes:
    """The line compare is a line that no frame has."""
    bits = {LINE_COMPARE: 0xFF, OVERFLOW: COMPARE_8, MOST_SCAN: COMPARE_9}
    return {CRTC + index: was[CRTC + index] | ones for index, ones in bits.items()}


def _steps(name: str, *ports: int) -> Callable[[Element], bool]:
    return lambda element: name in element and (not ports or element[name][0] in ports)


def _cursor_ends_early(_: Element, was: State) -> Changes:
    """The cursor lacks its last line; one of a single line is off where that is line 0."""
    last = was[CRTC + CURSOR_END] & 31
    if not last:
        return {CRTC + CURSOR_START: was[CRTC + CURSOR_START] | CURSOR_OFF}
    return {CRTC + CURSOR_END: was[CRTC + CURSOR_END] - 1}


FAULTS = {
    "cursor-ends-a-line-early": Fault(_steps("line"), _cursor_ends_early),
    "set-reset-in-write-mode-1": Fault(lambda element: _is_write(element, 1), after=_set_planes),
    "bit-mask-ignored-in-write-mode-3": Fault(
        lambda element: _is_write(element, 3), lambda *_: {GFX + 8: 0xFF}
    ),
    "latches-not-loaded": Fault(
        lambda element: "get" in element or "getw" in element,
        after=lambda _, was, now: {LATCHES + plane: was[LATCHES + plane] for plane in range(4)},
    ),
    "odd-even-bit-kept": Fault(
        lambda element: any(name in element for name in ("put", "get", "putw", "getw")),
        lambda _, was: {GFX + 6: was[GFX + 6] & ~2},
    ),
    "map-mask-ignored-in-chain-4": Fault(
        lambda element: any(name in element for name in ("put", "putw"))
        and bool(element[INITIAL]["seq"][4] & 8),
        lambda *_: {SEQ + 2: 0x0F},
    ),
    "dac-index-stays": Fault(
        lambda element: _steps("out", 0x3C9)(element) and element[INITIAL]["dac_component"] == 2,
        after=lambda _, was, now: {DAC_INDEX: was[DAC_INDEX]},
    ),
    "flip-flop-stays": Fault(
        _steps("in", 0x3BA, 0x3DA), after=lambda _, was, now: {FLIP_FLOP: was[FLIP_FLOP]}
    ),
    "no-protection": Fault(
        lambda element: element[INITIAL].get("crtc_index", 8) < 8
        and "out" in element
        and bool(element[INITIAL]["crtc"][PROTECTING] & PROTECT),
        lambda _, was: {CRTC + PROTECTING: was[CRTC + PROTECTING] & ~PROTECT},
        _overflow,
    ),
    "panning-by-nine-dots": Fault(
        _steps(LINE), lambda _, was: {ATTR + PANNING: (was[ATTR + PANNING] + 1) % 9}
    ),
    "blink-inverted": Fault(_steps(LINE), lambda _, was: {FRAME: was[FRAME] ^ 16}),
    "all-planes-enabled": Fault(_steps(LINE), lambda *_: {ATTR + PLANE_ENABLE: 0x0F}),
    "line-compare-ignored": Fault(_steps("advance"), _highest_compare),
    "colours-kept-by-mode-sets": Fault(
        lambda element: "int" in element and element["int"]["ax"] < 0x100,
        after=lambda _, was, now: {at: was[at] for at in range(DAC, DAC + 768)},
    ),
}


class FaultyCard:
    """The portable C file with a fault, or with none."""

    def __init__(self, fault: Optional[Fault]) -> None:
        self._card = SteppedCard(load(), Path(FONTS).read_bytes())
        self._fault = fault

    def answer(self, element: Element) -> Element:
        """What the adapter answers to an element."""
        card, initial, step = self._card, element[INITIAL], step_of(element)
        card.power_on()
        card.run(steps_to(initial, element.get(REACH, {})))
        faulty = self._fault if self._fault and self._fault.meets(element) else None
        was = State(card.saved())
        changed = {} if faulty is None else faulty.before(element, was)
        self._change(changed)
        taken = card.take(step)
        if faulty is not None:
            self._change({at: was[at] for at in changed})
            self._change({} if taken.refused else faulty.after(element, was, State(card.saved())))
        return {**told_of(step, taken, initial), FINAL: self._state(initial)}

    def _change(self, changes: Changes) -> None:
        """Changes bytes of the state."""
        if changes:
            state = State(self._card.saved())
            for at, value in changes.items():
                state[at] = value
            self._card.restore(bytes(state))

    def _state(self, initial: Parts) -> Parts:
        places = {name: [one[0] for one in initial.get(name, ())] for name in ("planes", "colours")}
        is_called = "bda" in initial
        return self._card.read([*initial, *([SUMS] if is_called else ())], places)


def main(names: list[str]) -> None:
    """Answers elements, a line each."""
    card = FaultyCard(FAULTS[names[0]] if names else None)
    for line in sys.stdin:
        print(json.dumps(card.answer(json.loads(line))), flush=True)


if __name__ == "__main__":
    main(sys.argv[1:])
