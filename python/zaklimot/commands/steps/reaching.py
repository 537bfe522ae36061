"""From power-on to a state: the list of steps, which depends on the state alone. docs/STEPS.md
tells it."""

from typing import Iterable, Iterator, Sequence

from zaklimot.format import MOST_ADVANCE, Step
from zaklimot.commands.explain.ports import (
    ATTRIBUTE,
    COLOUR,
    DAC_DATA,
    DAC_WRITE,
    ENABLE_MEMORY,
    GRAPHICS,
    IS_COLOUR,
    MASK,
    MISC,
    PROTECT,
    RETRACE_END,
    SEQUENCER,
    STATUS,
)

from .parts import CURSORS, Parts

# Memory is decoded, and the CRT controller is at 3D4; so input status 1 is at this port.
OPEN = ENABLE_MEMORY | IS_COLOUR
STATUS_PORT = COLOUR + STATUS
# Memory such that a byte goes to the planes of the map mask at its address' offset: memory mode,
# graphics registers, and the window of 64 KiB.
PLANAR = ((SEQUENCER, 4, 0x06), (GRAPHICS, 1, 0), (GRAPHICS, 3, 0), (GRAPHICS, 5, 0))
WINDOW = ((GRAPHICS, 6, 0x04), (GRAPHICS, 8, 0xFF))
FIRST_ADDRESS = 0xA0000
LAST_OFFSET = 0xFFFF
MAP_MASK = 2
ALL_PLANES = 0x0F
PLANES = 4
# The services that bring the BIOS data to what they are to be, and heights of glyphs with the part
# of service 11 that loads them.
KEEP_MEMORY = 0x80
LOADS = {8: 0x1112, 14: 0x1111}
SERVICE_01 = 0x0100
SERVICE_02 = 0x0200
SERVICE_05 = 0x0500


def out(port: int, value: int) -> Step:
    """A byte to a port."""
    return Step("out", (port, value))


def register(port: int, index: int, value: int) -> Step:
    """A register of a controller, by the port of its index: index and value in one word."""
    return Step("outw", (port, value << 8 | index))


def put(offset: int, value: int) -> Step:
    """A byte to the planes of the map mask."""
    return Step("put", (FIRST_ADDRESS + offset, value))


def call(ax: int, bx: int = 0, cx: int = 0, dx: int = 0) -> Step:
    """A call of the video BIOS."""
    return Step("int", (ax, bx, cx, dx))


def steps_to(state: Parts, reach: Parts) -> list[Step]:
    """The steps that lead from power-on to a state. `reach` has the dots that the clock runs, and
    the registers that are other than the state's meanwhile."""
    return [
        *services(state.get("bda")),
        out(MISC, OPEN),
        *_memory(state),
        *_entries(state.get("colours", ())),
        *_registers(SEQUENCER, reach.get("seq", state.get("seq"))),
        *_registers(GRAPHICS, state.get("gfx")),
        *_attributes(state.get("attr")),
        *_controller(reach.get("crtc", state.get("crtc"))),
        *_dots(reach.get("dots", 0)),
        *_registers(SEQUENCER, state["seq"] if "seq" in reach else None),
        *_controller(state["crtc"] if "crtc" in reach else None),
        *_dac(state),
        *_indexes(state),
        *([out(MISC, state["misc"])] if "misc" in state else ()),
    ]


def services(bda: object) -> Iterator[Step]:
    """The calls of the video BIOS that lead to BIOS data; none if no mode is set."""
    if not isinstance(bda, dict) or not bda["mode"]:
        return
    yield call(KEEP_MEMORY | bda["mode"])
    is_text = bda["mode"] in (3, 7)
    if is_text and bda["height"] in LOADS:
        yield call(LOADS[bda["height"]])
    yield call(SERVICE_01, 0, bda["cursor_type"])
    for page, place in enumerate(bda[CURSORS]):
        if place:
            yield call(SERVICE_02, page << 8, 0, place)
    if bda["page"]:
        yield call(SERVICE_05 | bda["page"])


def _registers(port: int, values: object) -> Iterator[Step]:
    """All registers of a controller, if there are values."""
    for index, value in enumerate(values if isinstance(values, list) else ()):
        yield register(port, index, value)


def _controller(values: object) -> Iterator[Step]:
    """The registers of the CRT controller: what protects the first of them comes last."""
    if isinstance(values, list):
        protecting = values[RETRACE_END]
        yield register(COLOUR, RETRACE_END, protecting & ~PROTECT)
        yield from _registers(COLOUR, [*values[:RETRACE_END], protecting & ~PROTECT])
        for index in range(RETRACE_END + 1, len(values)):
            yield register(COLOUR, index, values[index])
        yield register(COLOUR, RETRACE_END, protecting)


def _attributes(values: object) -> Iterator[Step]:
    """The registers of the attribute controller, with the palette open to writes."""
    if isinstance(values, list):
        yield Step("in", (STATUS_PORT,))
        for index, value in enumerate(values):
            yield out(ATTRIBUTE, index)
            yield out(ATTRIBUTE, value)


def _memory(state: Parts) -> Iterator[Step]:
    """The bytes of planes, plane by plane, and then the latches."""
    places = state.get("planes", ())
    latches = state.get("latches")
    if not places and latches is None:
        return
    yield from (register(*one) for one in (*PLANAR, *WINDOW))
    for plane in range(PLANES):
        yield register(SEQUENCER, MAP_MASK, 1 << plane)
        yield from (put(place[0], place[1 + plane]) for place in places)
    if latches is not None:
        yield from _latched(latches, scratch([place[0] for place in places]))


def scratch(offsets: Iterable[int]) -> int:
    """The last offset of the planes that is none of these."""
    taken = set(offsets)
    return next(offset for offset in range(LAST_OFFSET, -1, -1) if offset not in taken)


def _latched(latches: Sequence[int], offset: int) -> Iterator[Step]:
    """Fills the latches from an offset, whose bytes are 0 afterwards."""
    for plane in range(PLANES):
        yield register(SEQUENCER, MAP_MASK, 1 << plane)
        yield put(offset, latches[plane])
    yield Step("get", (FIRST_ADDRESS + offset,))
    yield register(SEQUENCER, MAP_MASK, ALL_PLANES)
    yield put(offset, 0)


def _entries(places: Sequence[Sequence[int]]) -> Iterator[Step]:
    """Entries of the DAC: its index advances by itself from one to the next."""
    after = -1
    for entry, *components in places:
        if entry != after:
            yield out(DAC_WRITE, entry)
        yield from (out(DAC_DATA, component) for component in components)
        after = entry + 1


def _dac(state: Parts) -> Iterator[Step]:
    """Mask, waiting components, index and component of the DAC."""
    if "dac_mask" in state:
        yield out(MASK, state["dac_mask"])
    if "dac_waiting" in state:
        yield out(DAC_WRITE, 0)
        yield from (out(DAC_DATA, component) for component in state["dac_waiting"])
    if "dac_index" in state:
        yield out(DAC_WRITE, state["dac_index"])
        yield from [Step("in", (DAC_DATA,))] * state.get("dac_component", 0)


def _indexes(state: Parts) -> Iterator[Step]:
    """The indexes, and whether the attribute controller takes data next."""
    for name, port in (
        ("seq_index", SEQUENCER),
        ("gfx_index", GRAPHICS),
        ("crtc_index", COLOUR),
    ):
        if name in state:
            yield out(port, state[name])
    if "attr_index" in state:
        yield Step("in", (STATUS_PORT,))
        yield out(ATTRIBUTE, state["attr_index"])
        yield from [] if state.get("attr_is_data") else [Step("in", (STATUS_PORT,))]


def _dots(count: int) -> Iterator[Step]:
    """The clock runs for so many dots, in as few steps as may be."""
    while count:
        some = min(count, MOST_ADVANCE)
        yield Step("advance", (some,))
        count -= some
