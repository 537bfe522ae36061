"""A script that a program builds, with loops, names and numbers."""

from __future__ import annotations

from contextlib import contextmanager
from typing import Iterator, Union

from ._names import Indexed
from ._numbers import BYTE, LONG, WORD, in_range
from ._report import Report
from ._scripts import assemble, run_script
from .format import END, FIRST_LINE, MOST_BLOCK, MOST_COUNT, PLANE_BYTES, REPEAT, Step, printed
from .format.table import MOST_DUMPED, PLANE

# The step that each method writes, by its name in the table of the format.
STEPS = {
    "out": "out",
    "out_word": "outw",
    "inp": "in",
    "inp_word": "inw",
    "put": "put",
    "put_word": "putw",
    "get": "get",
    "get_word": "getw",
    "advance": "advance",
    "frame": "frame",
    "int10": "int",
    "show_regs": "show regs",
    "show_dac": "show dac",
    "show_beam": "show beam",
    "show_latches": "show latches",
    "show_plane": "show plane",
    "show_bda": "show bda",
    "show_cells": "show cells",
}
TELETYPE = 0x0E00


class Script:
    """A script, built step by step. Its methods have the names and ranges of Card's, but only add
    steps.

        from zaklimot import GFX, SEQ, Script

        script = Script()
        script.int10(ax=0x12)
        script.out(SEQ.MAP_MASK, 0x0F)           # a register by its name, as one word
        with script.repeat(8):
            script.put(0xA0000, 0xFF)
            script.frame()
        print(script.text().splitlines()[2])     # outw 3C4 0F02
        print(script.run()[-1].picture.width)    # 640

    `text()` is the script's text (docs/SCRIPT.md), `run()` runs it, and `zaklimot.run` and
    `Card.run_on` take it too. A number out of range is a ValueError.
    """

    def __init__(self) -> None:
        self._lines: list[str] = []
        self._has_blocks = self._is_in_block = False

    def _add(self, name: str, *values: int, block: bytes = b"") -> None:
        self._lines.append(printed(Step(STEPS[name], values, block), is_short=True))

    def out(self, port: Union[int, Indexed], value: int) -> None:
        """Writes a byte to a port; or to a register by its name, as one word to its index and its
        data."""
        if isinstance(port, Indexed):
            self._add("out_word", port.port, in_range("value", value, BYTE) << 8 | port.word)
        else:
            self._add("out", in_range("port", port, WORD), in_range("value", value, BYTE))

    def out_word(self, port: int, value: int) -> None:
        """Writes a word: its low byte to the port, its high byte to the next."""
        self._add("out_word", in_range("port", port, WORD), in_range("value", value, WORD))

    def inp(self, port: Union[int, Indexed]) -> None:
        """Reads a byte from a port; or a register by its name, in two steps."""
        if isinstance(port, Indexed):
            self._add("out", port.port, port.word)
            self._add("inp", port.port + 1)
        else:
            self._add("inp", in_range("port", port, WORD))

    def inp_word(self, port: int) -> None:
        """Reads a word from the port and the next."""
        self._add("inp_word", in_range("port", port, WORD))

    def put(self, address: int, value: int) -> None:
        """Writes a byte to display memory."""
        self._add("put", in_range("address", address, LONG), in_range("value", value, BYTE))

    def put_word(self, address: int, value: int) -> None:
        """Writes a word to the address and the next."""
        self._add("put_word", in_range("address", address, LONG), in_range("value", value, WORD))

    def get(self, address: int) -> None:
        """Reads a byte of display memory."""
        self._add("get", in_range("address", address, LONG))

    def get_word(self, address: int) -> None:
        """Reads a word from the address and the next."""
        self._add("get_word", in_range("address", address, LONG))

    def advance(self, dots: int) -> None:
        """Lets the clock run for `dots` dots."""
        self._add("advance", in_range("dots", dots, LONG))

    def frame(self) -> None:
        """Lets the clock run to the end of the frame. The answer is its picture."""
        self._add("frame")

    def int10(self, ax: int, bx: int = 0, cx: int = 0, dx: int = 0, block: bytes = b"") -> None:
        """Calls the video BIOS, with a block of at most 65,535 bytes."""
        given = bytes(memoryview(block))
        in_range("the length of the block", len(given), MOST_BLOCK)
        names = (("ax", ax), ("bx", bx), ("cx", cx), ("dx", dx))
        self._add("int10", *(in_range(name, value, WORD) for name, value in names), block=given)

    def type(self, text: Union[str, bytes], colour: int = 7) -> None:
        """Types a text by the BIOS's teletype function, one step per character. A str is encoded in
        code page 437.

        `colour`, 0 to 255, matters only in graphics. Raises UnicodeEncodeError for characters that
        the code page lacks.
        """
        in_range("colour", colour, BYTE)
        for letter in text.encode("cp437") if isinstance(text, str) else bytes(memoryview(text)):
            self.int10(TELETYPE | letter, colour)

    def show_regs(self) -> None:
        """Shows the registers."""
        self._add("show_regs")

    def show_beam(self) -> None:
        """Shows the beam."""
        self._add("show_beam")

    def show_latches(self) -> None:
        """Shows the latches."""
        self._add("show_latches")

    def show_bda(self) -> None:
        """Shows the data of the video BIOS."""
        self._add("show_bda")

    def show_cells(self) -> None:
        """Shows the cells of the active page."""
        self._add("show_cells")

    def show_dac(self, entry: int) -> None:
        """Shows an entry of the DAC, 0 to 255."""
        self._add("show_dac", in_range("entry", entry, BYTE))

    def show_plane(self, plane: int, offset: int, count: int) -> None:
        """Shows 1 to 256 bytes of plane 0 to 3 from an offset on, none past the plane's end."""
        begin = in_range("offset", offset, WORD)
        most = min(MOST_DUMPED, PLANE_BYTES - begin)
        self._add(
            "show_plane",
            in_range("plane", plane, PLANE.most),
            begin,
            in_range("count", count, most, 1),
        )

    @contextmanager
    def repeat(self, times: int) -> Iterator[None]:
        """Repeats the steps that are added within `with`, 1 to 65,535 times.

        A block can't contain another block: that raises a ValueError.
        """
        if self._is_in_block:
            raise ValueError("a block has no other block")
        self._lines.append(f"{REPEAT} {in_range('times', times, MOST_COUNT, 1)}")
        self._has_blocks = self._is_in_block = True
        try:
            yield
        finally:
            self._is_in_block = False
            self._lines.append(END)

    def text(self) -> str:
        """The script's text, with one line per step. A script with blocks begins with `version
        2`."""
        lines = [FIRST_LINE, *self._lines] if self._has_blocks else self._lines
        return "".join(f"{line}\n" for line in lines)

    def __bytes__(self) -> bytes:
        return assemble(self.text())

    def run(self) -> Report:
        """Runs the script, with the project's font: `zaklimot.run(script)`."""
        from ._library import default_fonts

        return Report(run_script(self, default_fonts()))
