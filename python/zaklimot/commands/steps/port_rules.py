"""The rules of REGISTERS.md that elements of ports show."""

from functools import partial

from zaklimot.commands.explain.ports import (
    COLOUR,
    GRAPHICS,
    MONOCHROME,
    PROTECT,
    RETRACE_END,
    SEQUENCER,
    STATUS,
)

from .seen import Branch, SeenElement, ShownRule

PAGE = "docs/REGISTERS.md#"
BYTES = ("out", "in")
WORDS = ("outw", "inw")
ANY = (*BYTES, *WORDS)


def _at(e: SeenElement, step: str, port: int) -> bool:
    return e.step == step and e.address == port


def _data(e: SeenElement, step: str, port: int, index: str, first: int, last: int) -> bool:
    """Whether a cycle meets the data of a register among these."""
    has_index = index in e.initial
    return has_index and _at(e, step, port + 1) and first <= e.initial[index] <= last


def _bank(port: int, index: str, count: int, most: int) -> dict[str, Branch]:
    """The branches that each bank of registers has."""
    given = {"port": port, "index": index}
    return {
        "index written": partial(_at, step="out", port=port),
        "index read": partial(_at, step="in", port=port),
        **{
            f"register {number} written": partial(
                _data, step="out", first=number, last=number, **given
            )
            for number in range(count)
        },
        "registers read": partial(_data, step="in", first=0, last=count - 1, **given),
        "no such register, written": partial(_data, step="out", first=count, last=most, **given),
        "no such register, read": partial(_data, step="in", first=count, last=most, **given),
        "index and data in a word": lambda e: _at(e, "outw", port) and not e.refused,
        "index and no data in a word": lambda e: _at(e, "outw", port) and e.refused,
        "index and data read in a word": lambda e: _at(e, "inw", port) and not e.refused,
        "index and no data read in a word": lambda e: _at(e, "inw", port) and e.refused,
    }


def _controller(e: SeenElement, step: str, first: int, last: int) -> bool:
    """Whether a cycle meets the data of a CRT controller's register among these."""
    has = "crtc_index" in e.initial and "crtc" in e.initial
    return has and _at(e, step, e.base + 1) and first <= e.crtc_index <= last


def _protected(e: SeenElement) -> bool:
    return bool(e.crtc[RETRACE_END] & PROTECT)


def _attribute(e: SeenElement, is_data: int) -> bool:
    return _at(e, "out", 0x3C0) and "attr" in e.initial and e.attr_is_data == is_data


def _palette_data(e: SeenElement, is_shown: bool) -> bool:
    return _attribute(e, 1) and e.attr_index & 31 < 16 and bool(e.attr_index & 32) == is_shown


def _component(e: SeenElement, step: str, component: int) -> bool:
    return _at(e, step, 0x3C9) and e.dac_component == component


def _wraps(e: SeenElement, step: str) -> bool:
    return _component(e, step, 2) and e.dac_index == 0xFF


def _refused(e: SeenElement, *ports: int) -> bool:
    return bool(e.refused) and e.address in ports


def _both(e: SeenElement, port: int, refused: str) -> bool:
    """Whether a word meets this port first, and is done or refused so."""
    return e.step in WORDS and e.address == port and e.refused == refused


RULES = (
    ShownRule(
        "sequencer registers",
        PAGE + "sequencer",
        ANY,
        _bank(SEQUENCER, "seq_index", 5, 7),
    ),
    ShownRule(
        "graphics registers",
        PAGE + "graphics-controller",
        ANY,
        {
            **_bank(GRAPHICS, "gfx_index", 9, 15),
            "shift register mode is refused": lambda e: _data(e, "out", GRAPHICS, "gfx_index", 5, 5)
            and e.value & 0x20
            and e.refused,
        },
    ),
    ShownRule(
        "CRT controller registers",
        PAGE + "crt-controller",
        ANY,
        {
            "index and data in a word": lambda e: "crtc" in e.initial and _at(e, "outw", e.base),
            "index and data read in a word": lambda e: "crtc" in e.initial
            and _at(e, "inw", e.base),
            "index written": lambda e: "crtc" in e.initial and _at(e, "out", e.base),
            "index read": lambda e: "crtc" in e.initial and _at(e, "in", e.base),
            "0 to 7 written": lambda e: _controller(e, "out", 0, 7) and not _protected(e),
            "8 to 18 written": lambda e: _controller(e, "out", 8, 0x18) and not e.refused,
            "read": lambda e: _controller(e, "in", 0, 0x18),
            "no registers 19 to 1F": lambda e: _controller(e, "out", 0x19, 0x1F)
            or _controller(e, "in", 0x19, 0x1F),
            "count by four is refused": lambda e: _controller(e, "out", 0x14, 0x14) and e.refused,
            "mode control is refused": lambda e: _controller(e, "out", 0x17, 0x17) and e.refused,
            "mode control is taken": lambda e: _controller(e, "out", 0x17, 0x17) and not e.refused,
        },
    ),
    ShownRule(
        "protected registers",
        PAGE + "crt-controller",
        BYTES,
        {
            "0 to 6 don't change": lambda e: _controller(e, "out", 0, 6) and _protected(e),
            "7 changes in bit 4 alone": lambda e: _controller(e, "out", 7, 7) and _protected(e),
            "all others change": lambda e: _controller(e, "out", 8, 0x18) and _protected(e),
            "they are read": lambda e: _controller(e, "in", 0, 7) and _protected(e),
        },
    ),
    ShownRule(
        "the base of the CRT controller",
        PAGE + "ports",
        ANY,
        {
            "3D4": lambda e: e.address == COLOUR and e.misc & 1 and not e.refused,
            "3B4": lambda e: e.address == MONOCHROME and not e.misc & 1 and not e.refused,
            "the other base": lambda e: e.refused
            and 0 <= e.address - (COLOUR + MONOCHROME - e.base) <= STATUS,
        },
        ("refused",),
    ),
    ShownRule(
        "attribute index and data, in turn",
        PAGE + "attribute-controller",
        BYTES,
        {
            "an index, then data": partial(_attribute, is_data=0),
            "data, then an index": lambda e: _attribute(e, 1) and not e.refused,
            "no such register: data next": lambda e: _attribute(e, 1) and e.refused,
            "a read of 3C0 leaves it": partial(_at, step="in", port=0x3C0),
            "a read of 3C1 leaves it": partial(_at, step="in", port=0x3C1),
        },
    ),
    ShownRule(
        "the palette address source locks the palette",
        PAGE + "attribute-controller",
        ("out",),
        {
            "it is 1: nothing changes": partial(_palette_data, is_shown=True),
            "it is 0: a palette register changes": partial(_palette_data, is_shown=False),
            "10 to 14 change at any time": lambda e: _attribute(e, 1)
            and 16 <= e.attr_index & 31 <= 20
            and e.attr_index & 32,
        },
    ),
    ShownRule(
        "attribute registers that are read",
        PAGE + "attribute-controller",
        ("in",),
        {
            "0 to 14": lambda e: _at(e, "in", 0x3C1) and e.attr_index & 31 < 21,
            "no registers 15 to 1F": lambda e: _at(e, "in", 0x3C1) and e.attr_index & 31 > 20,
        },
    ),
    ShownRule(
        "components of the DAC are written",
        PAGE + "dac",
        ("out",),
        {
            "red waits": partial(_component, step="out", component=0),
            "green waits": partial(_component, step="out", component=1),
            "blue stores all three": partial(_component, step="out", component=2),
            "the index wraps": partial(_wraps, step="out"),
            "six bits are kept": lambda e: _at(e, "out", 0x3C9) and e.value > 0x3F,
        },
    ),
    ShownRule(
        "components of the DAC are read",
        PAGE + "dac",
        ("in",),
        {
            "red": partial(_component, step="in", component=0),
            "green": partial(_component, step="in", component=1),
            "blue, and the index grows": partial(_component, step="in", component=2),
            "the index wraps": partial(_wraps, step="in"),
        },
    ),
    ShownRule(
        "the index of the DAC",
        PAGE + "dac",
        BYTES,
        {
            "3C7 sets it": partial(_at, step="out", port=0x3C7),
            "3C8 sets it": partial(_at, step="out", port=0x3C8),
            "3C8 is read": partial(_at, step="in", port=0x3C8),
            "within an entry": lambda e: e.step == "out"
            and e.address in (0x3C7, 0x3C8)
            and e.dac_component,
        },
    ),
    ShownRule(
        "the mask of the DAC",
        PAGE + "dac",
        BYTES,
        {
            "written": partial(_at, step="out", port=0x3C6),
            "read": partial(_at, step="in", port=0x3C6),
        },
    ),
    ShownRule(
        "miscellaneous output",
        PAGE + "miscellaneous-output",
        BYTES,
        {
            "written": partial(_at, step="out", port=0x3C2),
            "a bit that isn't kept": lambda e: _at(e, "out", 0x3C2) and e.value & 0x10,
            "read at 3CC": partial(_at, step="in", port=0x3CC),
        },
    ),
    ShownRule(
        "ports that are left out, or not there",
        PAGE + "ports",
        BYTES,
        {
            "input status 0": lambda e: e.step == "in" and _refused(e, 0x3C2),
            "subsystem enable": lambda e: _refused(e, 0x3C3),
            "DAC state": lambda e: e.step == "in" and _refused(e, 0x3C7),
            "feature control": lambda e: e.step == "in"
            and _refused(e, 0x3CA)
            or e.step == "out"
            and _refused(e, e.base + STATUS),
            "a port that is only read": lambda e: e.step == "out" and _refused(e, 0x3C1, 0x3CC),
            "no part decodes it": lambda e: e.refused == "NotDecoded"
            and not 0x3B0 <= e.address < 0x3E0,
            "nor among the adapter's own": lambda e: e.refused == "NotDecoded"
            and 0x3B0 <= e.address < 0x3E0,
        },
        ("refused",),
    ),
    ShownRule(
        "words at ports",
        PAGE + "ports",
        WORDS,
        {
            "index and data": partial(_both, port=SEQUENCER, refused=""),
            "index, and no such register": partial(_both, port=SEQUENCER, refused="NotInProfile"),
            "index, and data that is refused": partial(
                _both, port=GRAPHICS, refused="NotInProfile"
            ),
            "the second byte is not decoded: the flip-flop stays": lambda e: e.step == "outw"
            and _refused(e, 0x3C0),
            "the second byte is left out": partial(_both, port=0x3C2, refused="NotInProfile"),
            "the first byte is not decoded": partial(_both, port=0x3BF, refused="NotDecoded"),
            "both are refused: the lower number": lambda e: e.step == "outw"
            and _both(e, 0x3CA, "NotDecoded"),
            "two of the DAC's ports": lambda e: e.step == "outw" and _both(e, 0x3C6, ""),
            "both bytes are done": lambda e: not e.refused,
            "either is refused": lambda e: e.refused,
            "at port FFFF": partial(_both, port=0xFFFF, refused="NotDecoded"),
        },
    ),
)
