"""Elements of ports: registers behind indexes, the attribute controller's flip-flop, the DAC, other
ports, words, and input status 1."""

from functools import partial

from zaklimot.format import Step
from zaklimot.commands.explain.ports import (
    ATTRIBUTE,
    ATTRIBUTE_READ,
    COLOUR,
    DAC_DATA,
    DAC_READ,
    DAC_WRITE,
    GRAPHICS,
    MASK,
    MISC,
    MISC_READ,
    MONOCHROME,
    PROTECT,
    RETRACE_END,
    SEQUENCER,
    STATUS,
)
from zaklimot.commands.explain.raster import (
    LAST_LINE,
    LINE_COMPARE,
    LINES,
    MODE_CONTROL,
    MOST_SCAN,
    OFFSET,
    OVERFLOW,
    PRESET_SCAN,
    RETRACE_START,
    SHOWN_CHARACTERS,
    START_HIGH,
    START_LOW,
    TOTAL,
    frame_lines,
    line_characters,
)

from .adapter import SteppedCard
from .chance import Chance
from .parts import Parts
from .wishes import ElementKind, Wish

# Ports that the profile leaves out: subsystem enable, and where feature control is read.
ENABLE = 0x3C3
FEATURE = 0x3CA
# A value of CRT controller's mode control that isn't refused, and the bits that may vary in it.
COUNTING = 0x03
COUNTED = 0xE0
DAC = ("dac_index", "dac_component", "dac_mask", "dac_waiting", "colours")
INDEXES = ("seq_index", "gfx_index", "crtc_index", "attr_index", "attr_is_data")
SMALL_DAC = ("dac_index", "dac_component", "dac_mask")


def _indexed(chance: Chance, port: int, index_bits: int, name: str) -> tuple[str, Step]:
    """A cycle at a controller's index or data."""
    kind = chance.below(8)
    if kind == 0:
        return f"{name} index read", Step("in", (port,))
    if kind == 1:
        return f"{name} index", Step("out", (port, chance.byte()))
    if kind in (2, 3):
        return f"{name} data read", Step("in", (port + 1,))
    if kind == 4:
        index = chance.bits(index_bits)
        return f"{name} index and data", Step("outw", (port, chance.byte() << 8 | index))
    if kind == 5:
        return f"{name} index and data read", Step("inw", (port,))
    return f"{name} data", Step("out", (port + 1, chance.byte()))


def _graphics_mode(value: int) -> int:
    """A value of graphics mode that the adapter can hold."""
    return value & ~0x20


def _sequencer(chance: Chance, _: SteppedCard) -> Wish:
    state: Parts = {"seq_index": chance.bits(3), "seq": chance.many(5)}
    name, step = _indexed(chance, SEQUENCER, 3, "sequencer")
    return Wish(f"{name}, register {state['seq_index']}", state, step)


def _graphics(chance: Chance, _: SteppedCard) -> Wish:
    values = chance.many(9)
    values[5] = _graphics_mode(values[5])
    # Graphics mode refuses some values: it comes oftener than others.
    index = 5 if chance.one_in(5) else chance.among((chance.below(9), chance.bits(4)))
    state: Parts = {"gfx_index": index, "gfx": values}
    name, step = _indexed(chance, GRAPHICS, 4, "graphics")
    return Wish(f"{name}, register {index}", state, step)


def controller(chance: Chance, is_protected: bool) -> list[int]:
    """Values of all registers of the CRT controller."""
    values = chance.many(25)
    values[RETRACE_END] = values[RETRACE_END] & ~PROTECT | (PROTECT if is_protected else 0)
    values[0x14] &= ~0x20
    values[MODE_CONTROL] = COUNTING | values[MODE_CONTROL] & COUNTED
    return values


def _controller(chance: Chance, _: SteppedCard, is_protected: bool) -> Wish:
    misc = chance.bits(8)
    base = COLOUR if misc & 1 else MONOCHROME
    index = _controller_index(chance, is_protected)
    state: Parts = {"misc": misc, "crtc_index": index, "crtc": controller(chance, is_protected)}
    # The ports at the base that isn't in use are decoded by nobody.
    port = COLOUR + MONOCHROME - base if chance.one_in(12) else base
    name, step = _indexed(chance, port, 5, "CRT controller")
    if step.name == "out" and index == MODE_CONTROL and chance.one_in(2):
        # Of random values nearly all are refused.
        step = Step("out", (port + 1, COUNTING | chance.bits(8) & COUNTED))
    return Wish(f"{name}, register {index}", state, step)


def _controller_index(chance: Chance, is_protected: bool) -> int:
    kind = chance.below(10)
    if kind < 2:
        return chance.among((0x14, 0x17, 0x11, 0x07))
    if is_protected and kind < 8:
        return chance.below(8)
    return chance.bits(5)


def _attribute(chance: Chance, _: SteppedCard) -> Wish:
    state: Parts = {
        "misc": chance.bits(8),
        "attr_index": chance.bits(6),
        "attr_is_data": chance.bits(1),
        "attr": chance.many(21),
    }
    kind = chance.below(10)
    base = MONOCHROME if state["misc"] & 1 else COLOUR
    steps = {
        0: ("attribute index read", Step("in", (ATTRIBUTE,))),
        1: ("attribute register read", Step("in", (ATTRIBUTE_READ,))),
        2: ("attribute register read", Step("in", (ATTRIBUTE_READ,))),
        3: ("attribute read port written", Step("out", (ATTRIBUTE_READ, chance.byte()))),
        4: ("status at the other base", Step("in", (base + STATUS,))),
    }
    what = "attribute data" if state["attr_is_data"] else "attribute index"
    name, step = steps.get(kind, (what, Step("out", (ATTRIBUTE, chance.byte()))))
    return Wish(f"{name}, register {state['attr_index'] & 31}", state, step)


def _dac_state(chance: Chance) -> Parts:
    index = chance.among((0x00, 0xFF, chance.bits(8)))
    entries = sorted({index, index + 1 & 0xFF, index - 1 & 0xFF})
    return {
        "dac_index": index,
        "dac_component": chance.below(3),
        "dac_mask": chance.byte(),
        "dac_waiting": [chance.byte() & 0x3F, chance.byte() & 0x3F],
        "colours": [[entry, *(byte & 0x3F for byte in chance.many(3))] for entry in entries],
    }


def _dac_write(chance: Chance, _: SteppedCard) -> Wish:
    state = _dac_state(chance)
    component = ("red", "green", "blue")[state["dac_component"]]
    word = chance.byte() << 8 | chance.byte()
    steps = (
        ("DAC index for reading", Step("out", (DAC_READ, chance.byte()))),
        ("DAC index for writing", Step("out", (DAC_WRITE, chance.byte()))),
        ("DAC index and component", Step("outw", (DAC_WRITE, word))),
        ("DAC component and the port after it", Step("outw", (DAC_DATA, word))),
    )
    kind = chance.below(10)
    data = (f"DAC {component}", Step("out", (DAC_DATA, chance.byte())))
    name, step = steps[kind] if kind < len(steps) else data
    return Wish(f"{name}, index {state['dac_index']}", state, step)


def _dac_read(chance: Chance, _: SteppedCard) -> Wish:
    state = _dac_state(chance)
    component = ("red", "green", "blue")[state["dac_component"]]
    steps = (
        ("DAC state read", Step("in", (DAC_READ,))),
        ("DAC index read", Step("in", (DAC_WRITE,))),
        ("DAC index and component read", Step("inw", (DAC_WRITE,))),
        ("DAC component and the port after it read", Step("inw", (DAC_DATA,))),
    )
    kind = chance.below(10)
    data = (f"DAC {component} read", Step("in", (DAC_DATA,)))
    name, step = steps[kind] if kind < len(steps) else data
    return Wish(f"{name}, index {state['dac_index']}", state, step)


def _dac_mask(chance: Chance, _: SteppedCard) -> Wish:
    state = _dac_state(chance)
    steps = (
        ("DAC mask", Step("out", (MASK, chance.byte()))),
        ("DAC mask read", Step("in", (MASK,))),
        ("DAC mask and index", Step("outw", (MASK, chance.byte() << 8 | chance.byte()))),
        ("DAC mask and state read", Step("inw", (MASK,))),
    )
    name, step = chance.among((*steps, *steps[:2]))
    return Wish(name, state, step)


def _miscellaneous(chance: Chance, _: SteppedCard) -> Wish:
    state: Parts = {"misc": chance.byte(), **_indexes(chance)}
    steps = (
        ("miscellaneous output", Step("out", (MISC, chance.byte()))),
        ("miscellaneous output read", Step("in", (MISC_READ,))),
        ("input status 0", Step("in", (MISC,))),
        ("miscellaneous output's reading port written", Step("out", (MISC_READ, chance.byte()))),
    )
    name, step = chance.among((*steps, *steps[:1], *steps[:2]))
    return Wish(name, state, step)


def _indexes(chance: Chance) -> Parts:
    return {
        "seq_index": chance.bits(3),
        "gfx_index": chance.bits(4),
        "crtc_index": chance.bits(5),
        "attr_index": chance.bits(6),
        "attr_is_data": chance.bits(1),
    }


def _some_port(chance: Chance) -> int:
    """A port: of the adapter's two rows, beside them, or any."""
    kind = chance.below(8)
    if kind < 4:
        return 0x3C0 + chance.bits(4)
    if kind < 6:
        return chance.among((0x3B0, 0x3D0)) + chance.bits(4)
    return chance.bits(16) if kind == 6 else chance.among((0x3AF, 0x3E0, 0xFFFF, 0, 0x7C4))


def _all_ports(chance: Chance) -> Parts:
    state = _dac_state(chance)
    dac = {name: state[name] for name in SMALL_DAC}
    return {"misc": chance.bits(8), **_indexes(chance), **dac}


def _has_status(state: Parts, port: int) -> bool:
    """Whether a cycle reads the beam's status, of which these elements have no part."""
    base = COLOUR if state["misc"] & 1 else MONOCHROME
    return port in (base + STATUS, base + STATUS - 1)


def _reads_register(state: Parts, port: int) -> bool:
    """Whether a cycle meets a controller's data, of which these elements have no part."""
    base = COLOUR if state["misc"] & 1 else MONOCHROME
    return port in (SEQUENCER + 1, GRAPHICS + 1, base + 1, ATTRIBUTE, ATTRIBUTE_READ, DAC_DATA)


def _other_port(chance: Chance, _: SteppedCard) -> Wish:
    state = _all_ports(chance)
    port = _some_port(chance)
    while _has_status(state, port) or _reads_register(state, port):
        port = _some_port(chance)
    if chance.one_in(2):
        return Wish(f"port {port} read", state, Step("in", (port,)))
    return Wish(f"port {port} written", state, Step("out", (port, chance.byte())))


def _port_word(chance: Chance, _: SteppedCard) -> Wish:
    """A word at a port: each pair of ports meets two parts, or a part and a refusal."""
    values = chance.many(9)
    values[5] = _graphics_mode(values[5])
    state: Parts = {
        **_all_ports(chance),
        "seq": chance.many(5),
        "gfx": values,
        "attr": chance.many(21),
        "dac_waiting": [chance.bits(6), chance.bits(6)],
    }
    port = _pair(chance)
    if chance.one_in(3):
        return Wish(f"word of port {port} read", state, Step("inw", (port,)))
    word = chance.byte() << 8 | chance.byte()
    if port in (SEQUENCER, GRAPHICS) and chance.one_in(2):
        word = word & 0xFF00 | chance.bits(4)
    return Wish(f"word of port {port} written", state, Step("outw", (port, word)))


def _pair(chance: Chance) -> int:
    """The first port of a pair. Blue would go to an entry of the DAC, and a register of the CRT
    controller is written: of neither have these elements a part."""
    kind = chance.below(10)
    pairs = (SEQUENCER, GRAPHICS, ATTRIBUTE, 0x3BF, MISC, SEQUENCER + 1, MASK, DAC_READ, FEATURE)
    others = (MISC_READ, 0x3CD, 0x3CB, 0xFFFF, ENABLE, ATTRIBUTE_READ)
    return chance.among(pairs) if kind < 7 else chance.among(others)


def _status(chance: Chance, card: SteppedCard) -> Wish:
    """Input status 1 at a place of the beam."""
    crtc = small_frame(chance)
    misc = chance.bits(8)
    state: Parts = {
        "misc": misc,
        "crtc": crtc,
        "attr_index": chance.bits(6),
        "attr_is_data": chance.bits(1),
        "beam": {},
    }
    base = COLOUR if misc & 1 else MONOCHROME
    port = base + STATUS
    if chance.one_in(16):
        return Wish("feature control", state, Step("out", (port, chance.byte())), {"dots": 0})
    whole = frame_dots(crtc, 9)
    line = line_characters(crtc) * 9
    dots = chance.below(2 * whole)
    if chance.one_in(3):
        # Near the retrace, which is short.
        dots = (crtc[RETRACE_START] + chance.below(3)) * line + chance.below(line)
    return Wish("input status 1", state, Step("in", (port,)), {"dots": dots})


def small_frame(chance: Chance) -> list[int]:
    """Registers of a small frame, a few characters wide and a few lines high, so that all of its
    places come often."""
    crtc = [0] * 25
    shown = chance.between(1, 5)
    lines = chance.between(1, 40)
    is_narrow = chance.one_in(8)
    more = chance.below(5)
    crtc[TOTAL] = max(0, shown + more - 5) if is_narrow else shown + more
    crtc[SHOWN_CHARACTERS] = shown - 1
    crtc[LINES] = lines + chance.below(24)
    crtc[OVERFLOW] = chance.among((0, 0, 0, 0x10))
    crtc[PRESET_SCAN] = chance.bits(7) if chance.one_in(4) else 0
    crtc[MOST_SCAN] = chance.bits(8) & 0x87 if chance.one_in(4) else chance.below(16)
    crtc[START_HIGH] = chance.byte()
    crtc[START_LOW] = chance.byte()
    crtc[RETRACE_START] = chance.below(lines + 24)
    # The retrace lasts a line, or 1 to 16.
    lasts = crtc[RETRACE_START] + 1 & 15
    crtc[RETRACE_END] = lasts if chance.one_in(3) else chance.bits(4)
    crtc[LAST_LINE] = lines - 1
    crtc[OFFSET] = chance.byte()
    crtc[MODE_CONTROL] = COUNTING | chance.bits(8) & COUNTED
    crtc[LINE_COMPARE] = chance.below(lines) if chance.one_in(3) else 0xFF
    return crtc


def frame_dots(crtc: list[int], width: int) -> int:
    """How many dots such a frame has, with characters of so many."""
    return line_characters(crtc) * width * frame_lines(crtc)


def port_kinds() -> list[ElementKind]:
    """All kinds of ports."""
    crtc = ("misc", "crtc_index", "crtc")
    attribute = ("misc", "attr_index", "attr_is_data", "attr")
    all_ports = ("misc", *INDEXES, *SMALL_DAC)
    words = ("misc", *INDEXES, *SMALL_DAC, "dac_waiting", "seq", "gfx", "attr")
    status = ("misc", "crtc", "attr_index", "attr_is_data", "beam")
    named = partial(_controller, is_protected=False)
    protected = partial(_controller, is_protected=True)
    return [
        ElementKind("sequencer", "the sequencer's ports", ("seq_index", "seq"), _sequencer),
        ElementKind(
            "graphics-controller", "the graphics controller's", ("gfx_index", "gfx"), _graphics
        ),
        ElementKind("crt-controller", "the CRT controller's ports", crtc, named),
        ElementKind("crt-controller-protected", "the same, with 0 to 7 protected", crtc, protected),
        ElementKind("attribute-controller", "ports and flip-flop", attribute, _attribute),
        ElementKind("dac-writes", "the DAC's index and components, written", DAC, _dac_write),
        ElementKind("dac-reads", "the DAC's index and components, read", DAC, _dac_read),
        ElementKind("dac-mask", "the DAC's mask", DAC, _dac_mask),
        ElementKind("miscellaneous-output", "two ports", ("misc", *INDEXES), _miscellaneous),
        ElementKind("other-ports", "any port, most of them refused", all_ports, _other_port),
        ElementKind("port-words", "words at ports", words, _port_word),
        ElementKind("input-status-1", "the status at a place of the beam", status, _status),
    ]
