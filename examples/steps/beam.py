"""A toy beam: the clock, input status 1, and the dots of a scan line. docs/RASTER.md has the rules.

    ./zaklimot steps check 'python3 examples/steps/beam.py' examples/steps/dots-text.json.gz

As a program it answers elements on standard input, a line each, as docs/STEPS.md says.
"""

from __future__ import annotations

import json
import sys
from typing import Any

from toy import Refused

# Parts of a state, by their names.
State = dict[str, Any]
MOST_DOTS = 16_777_216
# A dot that is black whatever the DAC has.
BLACK = -1


def bits(registers: list[int], *places: tuple[int, int]) -> int:
    """A number of more than eight bits: bits of registers, each as register and bit, from bit 8."""
    return sum(
        (registers[index] >> bit & 1) << 8 + place for place, (index, bit) in enumerate(places)
    )


def width(state: State) -> int:
    """How many dots a character has."""
    return 8 if state["seq"][1] & 1 else 9


def is_displayed(state: State) -> bool:
    """Whether the beam is at a display dot."""
    crtc, beam = state["crtc"], state["beam"]
    last = crtc[0x12] + bits(crtc, (7, 1), (7, 6))
    return bool(beam["character"] <= crtc[1] and beam["line"] <= last)


def status(state: State) -> int:
    """Input status 1."""
    crtc, line = state["crtc"], state["beam"]["line"]
    start = crtc[0x10] + bits(crtc, (7, 2), (7, 7))
    lasts = ((crtc[0x11] & 15) - start - 1) % 16 + 1
    is_retrace = start <= line < start + lasts
    return (0 if is_displayed(state) else 1) | (8 if is_retrace else 0)


def take_start(state: State) -> None:
    """At the first dot of a frame, the beam takes start address and preset row scan."""
    crtc, beam = state["crtc"], state["beam"]
    if not (beam["line"] or beam["character"] or beam["dot"]):
        beam["base"] = (crtc[0x0C] << 8 | crtc[0x0D]) + (crtc[8] >> 5 & 3) & 0xFFFF
        beam.update(scan=crtc[8] & 31, half=0, split=0)


def move(state: State) -> None:
    """The beam goes on by a dot."""
    take_start(state)
    beam = state["beam"]
    beam["dot"] += 1
    if beam["dot"] < width(state):
        return
    beam.update(dot=0, character=beam["character"] + 1)
    if beam["character"] >= state["crtc"][0] + 5:
        beam["character"] = 0
        end_line(state["crtc"], beam)


def end_line(crtc: list[int], beam: State) -> None:
    """The line ends, and with it a row of characters or the frame."""
    if beam["line"] == crtc[0x18] + bits(crtc, (7, 4), (9, 6)):
        beam.update(base=0, scan=0, half=0, split=1)
    elif crtc[9] & 0x80 and not beam["half"]:
        beam["half"] = 1
    elif beam["scan"] < crtc[9] & 31:
        beam.update(half=0, scan=beam["scan"] + 1)
    else:
        beam.update(half=0, scan=0, base=beam["base"] + 2 * crtc[0x13] & 0xFFFF)
    beam["line"] += 1
    if beam["line"] >= crtc[6] + bits(crtc, (7, 0), (7, 5)) + 2:
        beam.update(line=0, base=0, scan=0, half=0, split=0, frame=(beam["frame"] + 1) % 32)


def panning(state: State) -> int:
    """By how many dots the picture is shifted to the left."""
    attr, pan = state["attr"], state["attr"][0x13]
    if state["beam"]["split"] and attr[0x10] & 0x20:
        return 0
    if is_packed(state):
        return int(pan & 6)
    if width(state) == 8:
        return int(pan & 7)
    return 0 if pan == 8 else int(pan & 7) + 1


def is_packed(state: State) -> bool:
    """Whether a byte makes two dots: 256 colours."""
    return bool(state["gfx"][6] & 1 and state["gfx"][5] & 0x40)


def fetch_address(crtc: list[int], counter: int) -> int:
    """The offset in the planes at which a counter's bytes are."""
    if crtc[0x14] & 0x40:
        return 4 * counter & 0xFFFF
    if crtc[0x17] & 0x40:
        return counter
    return 2 * counter & 0xFFFF | counter >> (15 if crtc[0x17] & 0x20 else 13) & 1


def text_bits(state: State, planes: dict[int, list[int]], counter: int, dot: int) -> int:
    """The four bits of a dot of text."""
    crtc, mode, select = state["crtc"], state["attr"][0x10], state["seq"][3]
    scan, frame = state["beam"]["scan"], state["beam"]["frame"]
    character, attribute, *_ = planes.get(fetch_address(crtc, counter), [0, 0, 0, 0])
    high, low = (5, 2) if attribute & 8 else (4, 0)
    start = 0x4000 * (select >> low & 3) + 0x2000 * (select >> high & 1)
    row = planes.get(start + 32 * character + scan & 0xFFFF, [0, 0, 0, 0])[2]
    repeats = 0xC0 <= character <= 0xDF and mode & 4
    is_set = row >> 7 - dot & 1 if dot < 8 else row & 1 if repeats else 0
    if mode & 2 and attribute & 0x77 == 1 and scan == crtc[0x14] & 31:
        is_set = 1
    if mode & 8 and attribute & 0x80 and frame >= 16:
        is_set = 0
    is_in_cursor = crtc[0x0A] & 31 <= scan <= crtc[0x0B] & 31 and not crtc[0x0A] & 0x20
    if counter == crtc[0x0E] << 8 | crtc[0x0F] and is_in_cursor and frame % 16 < 8:
        is_set = 1
    return attribute & 15 if is_set else attribute >> 4 & (7 if mode & 8 else 15)


def entry(state: State, planes: dict[int, list[int]]) -> int:
    """The entry of the DAC of the dot at the beam, which is displayed."""
    beam, attr = state["beam"], state["attr"]
    if state["seq"][1] & 0x20:
        return BLACK
    if not state["attr_index"] & 0x20:
        return int(attr[0x11] & state["dac_mask"])
    step, dot = divmod(beam["dot"] + panning(state), width(state))
    counter = beam["base"] + beam["character"] + step & 0xFFFF
    place = planes.get(fetch_address(state["crtc"], counter), [0, 0, 0, 0])
    mask = int(state["dac_mask"])
    if is_packed(state):
        return int(place[dot // 2] & mask) if dot < 8 else 0
    if state["gfx"][6] & 1:
        four = sum((place[plane] >> 7 - dot & 1) << plane for plane in range(4)) if dot < 8 else 0
    else:
        four = text_bits(state, planes, counter, dot)
    colour, select = int(attr[four & attr[0x12] & 15]), int(attr[0x14])
    if attr[0x10] & 0x80:
        colour = colour & 15 | (select & 3) << 4
    return (colour | (select >> 2) << 6) & mask


def line(state: State) -> dict[str, list[int]]:
    """The dots of the line under way."""
    planes = {place: values for place, *values in state["planes"]}
    colours = {
        number: red << 12 | green << 6 | blue for number, red, green, blue in state["colours"]
    }
    entries = []
    take_start(state)
    number, frame = state["beam"]["line"], state["beam"]["frame"]
    while (state["beam"]["line"], state["beam"]["frame"]) == (number, frame):
        entries += [entry(state, planes)] if is_displayed(state) else []
        move(state)
    return {"entries": entries, "colours": [colours.get(one, 0) for one in entries]}


def step(state: State, element: dict[str, Any]) -> Any:
    """Does the step of an element; what it reads."""
    if "line" in element:
        return line(state)
    if "advance" in element:
        if element["advance"][0] > MOST_DOTS:
            raise Refused("TooFar")
        for _ in range(element["advance"][0]):
            move(state)
        return None
    if "in" not in element:
        raise Refused("NotInProfile")
    state["attr_is_data"] = 0
    return status(state)


def answer(element: dict[str, Any]) -> dict[str, Any]:
    """What the beam answers to an element."""
    if "beam" not in element["initial"]:
        return {"skipped": True}
    state = {**element["initial"], "beam": dict(element["initial"]["beam"])}
    try:
        read = step(state, element)
    except Refused as refused:
        return {"refused": str(refused), "final": element["initial"]}
    return {**({} if read is None else {"answer": read}), "final": state}


if __name__ == "__main__":
    for given in sys.stdin:
        print(json.dumps(answer(json.loads(given))), flush=True)
