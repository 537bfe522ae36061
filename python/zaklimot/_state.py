"""The state of a card as objects, whose fields have the names of include/zaklimot.h."""

from __future__ import annotations

from fractions import Fraction
from typing import NamedTuple, Optional, Union


class Registers(NamedTuple):
    """All registers of the adapter. `seq`, `crtc`, `gfx` and `attr` are bytes, by the register's
    index."""

    misc: int
    """miscellaneous output register"""
    seq_index: int
    """index of the sequencer, port 3C4 (hexadecimal)"""
    seq: bytes
    """registers 0 to 4 of the sequencer"""
    crtc_index: int
    crtc: bytes
    """registers 0 to 18 (hexadecimal) of the CRT controller"""
    gfx_index: int
    gfx: bytes
    """registers 0 to 8 of the graphics controller"""
    attr_index: int
    """index of the attribute controller, with the palette address source as bit 5"""
    attr_is_data: bool
    """whether the next write to port 3C0 (hexadecimal) is data"""
    attr: bytes
    """registers 0 to 14 (hexadecimal) of the attribute controller"""
    dac_index: int
    dac_component: int
    """the component that comes next: 0 red, 1 green, 2 blue"""
    dac_mask: int
    dac_waiting_red: int
    dac_waiting_green: int


class Beam(NamedTuple):
    """The beam: where the next dot is."""

    line: int
    """0 to 1,024"""
    character: int
    """0 to 259"""
    dot: int
    """0 to 8"""
    base: int
    """counter of the row's first character"""
    scan: int
    """scan line of the row of characters, 0 to 31"""
    rows: int
    """rows of this frame with a dot so far"""
    frame: int
    """number of the frame modulo 32"""
    half: bool
    """in the second line of two under double scan"""
    split: bool
    """line compare was reached in this frame"""


class Timing(NamedTuple):
    """When the frame ends and input status 1 changes next, and how fast dots come.

    It holds if no register is written until then. Each `to_` is an exact number of dots.
    """

    to_frame: int
    """dots to the end of the frame under way"""
    to_display: Optional[int]
    """dots until bit 0 of input status 1 changes, 1 where no dot is displayed; None where none
    change it"""
    to_retrace: Optional[int]
    """dots until bit 3 of it changes, 1 in the vertical retrace; None where none change it"""
    line_dots: int
    """dots of a line, displayed or not"""
    frame_dots: int
    """dots of a frame"""
    lines: int
    """lines of a frame"""
    dots_per_second: Fraction
    """25,175,000 or 28,322,000; half of that where the sequencer halves the clock"""


class Source(NamedTuple):
    """What a call of the video BIOS reads from the caller's memory."""

    len: int
    """how many bytes; 0 where it reads none"""
    is_at_dx: bool
    """whether they lie at ES:DX; else they lie at ES:BP"""


class ReadBytes(bytes):
    """Bytes of display memory. `decoded` is how many of their addresses the adapter decodes. Others
    read as FF."""

    decoded: int

    def __new__(cls, data: Union[bytes, memoryview] = b"", decoded: int = 0) -> ReadBytes:
        made = super().__new__(cls, data)
        made.decoded = decoded
        return made


class BiosData(NamedTuple):
    """The data of the video BIOS; all 0 until a mode is set."""

    columns: int
    """characters of a row"""
    size: int
    """bytes of a page"""
    start: int
    """offset of the active page"""
    cursors: tuple[Position, ...]
    """cursor positions of pages 0 to 7"""
    cursor_type: int
    """256 * first scan line + last"""
    crtc_address: int
    """port of the CRT controller's index"""
    height: int
    """scan lines of a character"""
    mode: int
    page: int
    """the active page"""
    last_row: int


class Position(NamedTuple):
    """A position in text: row and column, each from 0."""

    row: int
    column: int


class Cell(NamedTuple):
    """A cell of text: the character's code and the attribute, 0 to 255 each."""

    character: int
    attribute: int


class Screen(NamedTuple):
    """The plain screen that the adapter shows."""

    width: int
    """pixels of a row; 0 in text"""
    height: int
    """rows of pixels; 0 in text"""
    columns: int
    """characters of a row"""
    rows: int
    """rows of characters"""
    mode: int
    is_text: bool
    page: int
    """the active page"""
    pages: int


class Answer(NamedTuple):
    """What the video BIOS answers: the registers afterwards, and the bytes that a function
    writes."""

    ax: int
    bx: int
    cx: int
    dx: int
    table: bytes
