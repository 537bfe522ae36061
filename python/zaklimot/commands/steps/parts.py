"""The parts of a state, as elements of a file have them: their names are those of the structs of
include/zaklimot.h."""

from typing import Any

# A state by its parts, and an element of a file: both are what JSON gives.
Parts = dict[str, Any]
Element = dict[str, Any]

# The parts that are a number, with the most that each may be.
NUMBERS = {
    "misc": 0xEF,
    "seq_index": 0x07,
    "gfx_index": 0x0F,
    "crtc_index": 0x1F,
    "attr_index": 0x3F,
    "attr_is_data": 1,
    "dac_index": 0xFF,
    "dac_component": 2,
    "dac_mask": 0xFF,
}
# The parts that are a list of bytes, with the bits that each may have: registers, the latches, and
# the red and the green that wait for blue.
LISTS = {
    "seq": bytes.fromhex("033D0F3F0E"),
    "gfx": bytes.fromhex("0F0F0F1F037B0F0FFF"),
    "crtc": b"\xff" * 8 + bytes.fromhex("7FFF3F7F") + b"\xff" * 8 + bytes.fromhex("7FFFFFEFFF"),
    "attr": b"\x3f" * 16 + bytes.fromhex("EFFF3F0F0F"),
    "latches": b"\xff" * 4,
    "dac_waiting": b"\x3f" * 2,
}
# The parts that are a list of places: an offset with its bytes in the four planes, and an entry of
# the DAC with its three components. How many numbers each place has, and the most that the first
# may be, and each of the others.
PLACES = {"planes": (5, 0xFFFF, 0xFF), "colours": (4, 0xFF, 0x3F)}
# The CRC-32 of each whole plane, and of the 768 bytes of the DAC.
SUMS = "sums"
SUM_COUNT = 5
# The fields of the beam and of the BIOS data, with the most that each may be; eight of the latter
# are a list.
BEAM = {
    "frame": 31,
    "line": 1024,
    "character": 259,
    "dot": 8,
    "base": 0xFFFF,
    "scan": 31,
    "half": 1,
    "split": 1,
}
BDA = {
    "mode": 0xFF,
    "columns": 0xFFFF,
    "size": 0xFFFF,
    "start": 0xFFFF,
    "cursor_places": 0xFFFF,
    "cursor_type": 0xFFFF,
    "page": 7,
    "crtc_address": 0xFFFF,
    "last_row": 0xFF,
    "height": 0xFFFF,
}
CURSORS = "cursor_places"
PAGES = 8
STRUCTS = {"beam": BEAM, "bda": BDA}
# All parts, in the order in which elements have them.
ORDER = (
    "misc",
    "seq_index",
    "seq",
    "gfx_index",
    "gfx",
    "crtc_index",
    "crtc",
    "attr_index",
    "attr_is_data",
    "attr",
    "dac_index",
    "dac_component",
    "dac_mask",
    "dac_waiting",
    "colours",
    "latches",
    "planes",
    SUMS,
    "beam",
    "bda",
)
# What an element has beside its step and its two states.
NAME = "name"
INITIAL = "initial"
FINAL = "final"
ANSWER = "answer"
REFUSED = "refused"
REACH = "reach"
# The step of a scan line: it goes to the line's end, and answers the dots.
LINE = "line"
