"""Cycles that read what can be read of a state by the adapter's own ports and addresses: for
adapters that show their state in no other way."""

from typing import Any, Iterator, NamedTuple, Optional, Sequence

from zaklimot.format import Step, printed
from zaklimot.commands.explain.ports import (
    ATTRIBUTE,
    ATTRIBUTE_READ,
    COLOUR,
    DAC_DATA,
    DAC_READ,
    DAC_WRITE,
    GRAPHICS,
    IS_COLOUR,
    MASK,
    MISC,
    MISC_READ,
    MONOCHROME,
    SEQUENCER,
    STATUS,
)

from .parts import FINAL, Element, Parts
from .reaching import (
    ALL_PLANES,
    FIRST_ADDRESS,
    MAP_MASK,
    OPEN,
    PLANAR,
    PLANES,
    WINDOW,
    out,
    put,
    register,
    scratch,
)

MODE = 5
READ_MAP = 4
WRITE_MODE_1 = 1
SHOWN = 0x20
# The parts of which nothing can be read.
HIDDEN = ("attr_is_data", "dac_component", "dac_waiting", "sums", "beam", "bda")


class ReadCycle(NamedTuple):
    """A cycle, and of one that reads the place of its answer in the state: the part, and places in
    it."""

    step: Step
    place: tuple[Any, ...] = ()


def _in(port: int, *place: Any) -> ReadCycle:
    return ReadCycle(Step("in", (port,)), place)


def _does(*steps: Step) -> Iterator[ReadCycle]:
    return (ReadCycle(step) for step in steps)


def cycles_of(state: Parts) -> Iterator[ReadCycle]:
    """The cycles that read a state. What changes it comes after what doesn't."""
    base = COLOUR if state.get("misc", IS_COLOUR) & IS_COLOUR else MONOCHROME
    indexes = (("dac_mask", MASK), ("dac_index", DAC_WRITE), ("attr_index", ATTRIBUTE))
    yield from (_in(port, name) for name, port in indexes if name in state)
    for name, port in (("seq", SEQUENCER), ("gfx", GRAPHICS), ("crtc", base)):
        yield from _bank(state, name, port)
    yield from _attributes(state, base)
    if "misc" in state:
        yield _in(MISC_READ, "misc")
    yield from _memory(state)
    yield from _entries(state)


def _bank(state: Parts, name: str, port: int) -> Iterator[ReadCycle]:
    """The index of a controller, and its registers."""
    if f"{name}_index" in state:
        yield _in(port, f"{name}_index")
    for index in range(len(state.get(name, ()))):
        yield from _does(out(port, index))
        yield _in(port + 1, name, index)


def _attributes(state: Parts, base: int) -> Iterator[ReadCycle]:
    """The registers of the attribute controller; the palette stays shown or hidden as it is."""
    shown = state.get("attr_index", 0) & SHOWN
    for index in range(len(state.get("attr", ()))):
        yield from _does(Step("in", (base + STATUS,)), out(ATTRIBUTE, index | shown))
        yield _in(ATTRIBUTE_READ, "attr", index)


def _memory(state: Parts) -> Iterator[ReadCycle]:
    """The latches, by a write that stores them, and the planes, by reads of each."""
    offsets = [place[0] for place in state.get("planes", ())]
    if not offsets and "latches" not in state:
        return
    yield from _does(out(MISC, OPEN), *(register(*one) for one in (*PLANAR, *WINDOW)))
    latched = scratch(offsets)
    if "latches" in state:
        mask = register(SEQUENCER, MAP_MASK, ALL_PLANES)
        mode = register(GRAPHICS, MODE, WRITE_MODE_1)
        yield from _does(mask, mode, put(latched, 0), register(GRAPHICS, MODE, 0))
    for plane in range(PLANES):
        yield from _plane(plane, offsets, latched if "latches" in state else None)


def _plane(plane: int, offsets: Sequence[int], latched: Optional[int]) -> Iterator[ReadCycle]:
    """The bytes of a plane, and the latch that was stored there."""
    yield from _does(register(GRAPHICS, READ_MAP, plane))
    if latched is not None:
        yield ReadCycle(Step("get", (FIRST_ADDRESS + latched,)), ("latches", plane))
    for number, offset in enumerate(offsets):
        yield ReadCycle(Step("get", (FIRST_ADDRESS + offset,)), ("planes", number, 1 + plane))


def _entries(state: Parts) -> Iterator[ReadCycle]:
    """The entries of the DAC."""
    for number, (entry, *components) in enumerate(state.get("colours", ())):
        yield from _does(out(DAC_READ, entry))
        yield from (_in(DAC_DATA, "colours", number, 1 + at) for at in range(len(components)))


def _value(state: Parts, place: Sequence[Any]) -> Any:
    """What a state has at a place."""
    value: Any = state
    for one in place:
        value = value[one]
    return value


def readback_lines(element: Element) -> Iterator[str]:
    """The cycles that read an element's final state, as lines with the answers that are
    expected."""
    for cycle in cycles_of(element[FINAL]):
        expected = f" ; = {_value(element[FINAL], cycle.place):02X}" if cycle.place else ""
        yield printed(cycle.step) + expected
