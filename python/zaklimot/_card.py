"""A card as an object."""

from __future__ import annotations

import ctypes
from fractions import Fraction
from functools import lru_cache
from operator import index
from typing import Any, Iterator, Optional, Union, overload

from . import _structs as s
from ._errors import BadArgument, Closed, error_of
from ._explaining import ExplainingCard
from ._library import Bytes, Fonts
from ._memory import Room, given, lent, writable
from ._numbers import BYTE, LONG, WORD, in_range
from ._pictures import Colour, IndexedPicture, Lines, Picture, ScanLine, XrgbPicture
from ._report import Report
from ._running import PART_SECONDS, parts
from ._scripts import script_bytes
from ._state import (
    Answer,
    Beam,
    BiosData,
    Cell,
    Position,
    ReadBytes,
    Registers,
    Screen,
    Source,
    Timing,
)

NO_ROOM = 25
# Room for the report of one step, and for that of a part of a script.
STEP_ROOM, PART_ROOM = s.MOST_RGB + 100, 1 << 22
# Room for the cycles of most calls.
FIRST_CYCLES = 4096
_byref, _U8, _U16 = ctypes.byref, s.U8, s.U16
# Code page 437 shows characters below 20 (hexadecimal) as these.
_LOW = "\0☺☻♥♦♣♠•◘○◙♂♀♪♫☼►◄↕‼¶§▬↨↑↓→←∟↔▲▼"
_GLYPHS = str.maketrans({code: glyph for code, glyph in enumerate(_LOW) if code})


@lru_cache(maxsize=8)
def _rate(dots: int, divisor: int) -> Fraction:
    """Dots per second. There are few rates, and a Fraction takes longer to make than the call."""
    return Fraction(dots, divisor)


def _unless_never(dots: int) -> Optional[int]:
    return None if dots == s.NEVER else dots


def _registers(ax: int, bx: int, cx: int, dx: int) -> s.zak_regs:
    """The registers of a call, 0 to FFFF each."""
    names = (("ax", ax), ("bx", bx), ("cx", cx), ("dx", dx))
    return s.zak_regs(*(in_range(name, value, WORD) for name, value in names))


class Card(ExplainingCard):
    """A VGA adapter with its video BIOS, at power-on.

        with zaklimot.Card() as card:
            card.int10(ax=0x0013)            # mode 13: 320 by 200, a byte per pixel
            card.put(0xA0000, 0x0F)          # white, top left
            picture = card.frame()
            assert picture[0, 0] == (63, 63, 63)

    `fonts` are the glyphs of the text modes: the bytes of a font file, or its path; None means the
    project's font. Cycles take no time on the card: its clock runs only in `advance` and in the
    calls that draw a line or a frame.

    A call that the adapter refuses raises a `Refusal` and changes nothing. A number out of range is
    a ValueError, and one that is not an int is a TypeError, before anything is done. A closed card
    raises `Closed`. `with` closes the card at its end; otherwise `close` does, or the end of the
    object.

    A card may move from one thread to another. Calls of two threads come one after another, but in
    no order that you can rely on. What a card lends, such as a picture, is overwritten by either.
    """

    def __init__(self, fonts: Fonts = None) -> None:
        super().__init__(fonts)
        calls = self._calls
        self._put, self._put_word = calls["put"], calls["put_word"]
        self._get, self._get_word = calls["get"], calls["get_word"]
        self._out, self._out_word = calls["out"], calls["out_word"]
        self._in, self._in_word = calls["in"], calls["in_word"]
        self._advance = calls["advance"]

    # Cycles of ports and of display memory. Numbers in range take the fast path, on which the call
    # itself refuses what is not a number. No call is made twice, so that its own status is raised.

    def out(self, port: int, value: int) -> None:
        """Writes a byte, 0 to FF, to a port, 0 to FFFF (hexadecimal).

        Raises NotDecoded and NotInProfile.
        """
        try:
            if 0 <= port <= WORD and 0 <= value <= BYTE:
                status = self._out(self._card, port, value)
                if status:
                    raise error_of(status)
                return
        except (ctypes.ArgumentError, TypeError):
            pass
        self._cycle(self._out, ("port", port, WORD), ("value", value, BYTE))

    def out_word(self, port: int, value: int) -> None:
        """Writes a word, 0 to FFFF (hexadecimal): its low byte to the port, its high byte to the
        next."""
        try:
            if 0 <= port <= WORD and 0 <= value <= WORD:
                status = self._out_word(self._card, port, value)
                if status:
                    raise error_of(status)
                return
        except (ctypes.ArgumentError, TypeError):
            pass
        self._cycle(self._out_word, ("port", port, WORD), ("value", value, WORD))

    def inp(self, port: int) -> int:
        """Reads a byte from a port, 0 to FFFF (hexadecimal). `in` is a keyword of Python.

        Raises NotDecoded and NotInProfile.
        """
        value = _U8()
        try:
            if 0 <= port <= WORD:
                status = self._in(self._card, port, _byref(value))
                if status:
                    raise error_of(status)
                return value.value
        except (ctypes.ArgumentError, TypeError):
            pass
        return int(self._read("in", s.U8, in_range("port", port, WORD)).value)

    def inp_word(self, port: int) -> int:
        """Reads a word: the low byte from the port, the high byte from the next."""
        value = _U16()
        try:
            if 0 <= port <= WORD:
                status = self._in_word(self._card, port, _byref(value))
                if status:
                    raise error_of(status)
                return value.value
        except (ctypes.ArgumentError, TypeError):
            pass
        return int(self._read("in_word", s.U16, in_range("port", port, WORD)).value)

    def put(self, address: int, value: int) -> None:
        """Writes a byte, 0 to FF, to display memory at one of the processor's addresses.

        The registers decide which of A0000 to BFFFF (hexadecimal) are decoded. Raises NotDecoded
        and NotInProfile.
        """
        try:
            if 0 <= address <= LONG and 0 <= value <= BYTE:
                status = self._put(self._card, address, value)
                if status:
                    raise error_of(status)
                return
        except (ctypes.ArgumentError, TypeError):
            pass
        self._cycle(self._put, ("address", address, LONG), ("value", value, BYTE))

    def put_word(self, address: int, value: int) -> None:
        """Writes a word, 0 to FFFF (hexadecimal): its low byte to the address, its high byte to the
        next."""
        try:
            if 0 <= address <= LONG and 0 <= value <= WORD:
                status = self._put_word(self._card, address, value)
                if status:
                    raise error_of(status)
                return
        except (ctypes.ArgumentError, TypeError):
            pass
        self._cycle(self._put_word, ("address", address, LONG), ("value", value, WORD))

    def get(self, address: int) -> int:
        """Reads a byte of display memory, which loads the latches. Raises NotDecoded and
        NotInProfile."""
        value = _U8()
        try:
            if 0 <= address <= LONG:
                status = self._get(self._card, address, _byref(value))
                if status:
                    raise error_of(status)
                return value.value
        except (ctypes.ArgumentError, TypeError):
            pass
        return int(self._read("get", s.U8, in_range("address", address, LONG)).value)

    def get_word(self, address: int) -> int:
        """Reads a word: the low byte at the address, the high byte at the next."""
        value = _U16()
        try:
            if 0 <= address <= LONG:
                status = self._get_word(self._card, address, _byref(value))
                if status:
                    raise error_of(status)
                return value.value
        except (ctypes.ArgumentError, TypeError):
            pass
        return int(self._read("get_word", s.U16, in_range("address", address, LONG)).value)

    # Cycles of many bytes at once. Addresses that the adapter doesn't decode are not refused: a
    # write there changes nothing, and a read gives FF.

    def put_bytes(self, address: int, data: Bytes, down: bool = False) -> int:
        """Writes bytes to consecutive addresses, and returns how many of them the adapter decodes.

            screen = bytes(y // 8 for y in range(200) for x in range(320))
            decoded = card.put_bytes(0xA0000, screen)     # 64000 in mode 13

        Each write does what `put` does. `data[i]` goes to `address + i`: the first byte first or,
        if `down` is true, the last byte first, like `rep movsb` of a processor with its direction
        flag set. Raises BadArgument if `address + len(data)` is above FFFFFFFF (hexadecimal).
        """
        begin = in_range("address", address, LONG)
        return self._transfer("put_bytes", begin, *given(data), bool(down))

    def fill(self, address: int, value: int, count: int, down: bool = False) -> int:
        """Writes a byte, 0 to FF, to `count` addresses, and returns how many of them the adapter
        decodes.

        Like `put_bytes` with `count` times the same byte, and like `rep stosb` of a processor.
        """
        begin, byte = in_range("address", address, LONG), in_range("value", value, BYTE)
        return self._transfer("fill_bytes", begin, byte, in_range("count", count, LONG), bool(down))

    @overload
    def get_bytes(self, address: int, count_or_buffer: int, down: bool = False) -> ReadBytes:
        ...

    @overload
    def get_bytes(
        self, address: int, count_or_buffer: Union[bytearray, memoryview], down: bool = False
    ) -> int:
        ...

    def get_bytes(self, address: int, count_or_buffer: Any, down: bool = False) -> Any:
        """Reads consecutive addresses: a number of bytes, or as many as your writable buffer has
        room for.

            row = card.get_bytes(0xA0000, 320)            # bytes
            row.decoded                                   # 320 in mode 13
            decoded = card.get_bytes(0xA0000, buffer)     # the same into a bytearray

        Each read does what `get` does, and loads the latches; an address that the adapter doesn't
        decode reads as FF. For a number you get the bytes, whose `decoded` says how many addresses
        the adapter decodes; for a buffer you get that number. Byte i is that of `address + i`, even
        if `down` is true and the last one is read first. Raises BadArgument if they go past
        FFFFFFFF (hexadecimal).
        """
        begin = in_range("address", address, LONG)
        try:
            count = index(count_or_buffer)
        except TypeError:
            return self._transfer("get_bytes", begin, *lent(count_or_buffer), bool(down))
        if not self._struct.is_open:
            raise Closed("the card is closed")
        if begin + in_range("count", count, LONG) > LONG:
            # The library would refuse it too, but only after this many bytes were allocated.
            raise error_of(BadArgument.number)
        read = (s.U8 * max(1, count))()
        decoded = self._transfer("get_bytes", begin, read, count, bool(down))
        return ReadBytes(memoryview(read)[:count], decoded)

    def move(self, source: int, target: int, count: int, down: bool = False) -> int:
        """Reads `count` addresses from `source` on, and writes each byte from `target` on, one
        after another.

        Each read loads the latches, so in write mode 1 all four planes are copied. The first byte
        goes first or, if `down` is true, the last byte. Returns how many of the reads and writes
        the adapter decodes: 2 * count if it decodes all. Raises BadArgument if `source + count` or
        `target + count` is above FFFFFFFF (hexadecimal).
        """
        places = (("source", source), ("target", target), ("count", count))
        return self._transfer(
            "move_bytes", *(in_range(name, value, LONG) for name, value in places), bool(down)
        )

    # The clock, and frames.

    def advance(self, dots: int) -> None:
        """Lets the clock run for 0 to 16,777,216 dots. Raises TooFar for more."""
        try:
            if 0 <= dots <= LONG:
                status = self._advance(self._card, dots)
                if status:
                    raise error_of(status)
                return
        except (ctypes.ArgumentError, TypeError):
            pass
        self._cycle(self._advance, ("dots", dots, LONG))

    def clock(self) -> Timing:
        """When the frame ends and input status 1 changes next, if no register is written until
        then.

            card.advance(card.clock().to_frame)           # to the first dot of the next frame
            retrace = card.clock().to_retrace             # None if there is none

        Nothing changes. If your program polls input status 1, let `to_display` or `to_retrace` dots
        pass.
        """
        read = self._read("clock", s.zak_timing)
        return Timing(
            read.to_frame,
            _unless_never(read.to_display),
            _unless_never(read.to_retrace),
            read.line_dots,
            read.frame_dots,
            read.lines,
            _rate(read.rate, read.rate_divisor),
        )

    def frame(self, into: Optional[Any] = None) -> Picture:
        """Lets the clock run to the end of the frame under way, and returns its picture.

        The picture lies in the card's memory, until its next `frame` or `lines`; or in `into`, a
        writable buffer of at least 3 * width * height bytes. Raises Ragged if two rows differ in
        width, and NoRoom if `into` is too short. With either the frame has passed.
        """
        size = s.zak_size()
        self._call("frame", _byref(size), *self._target(into, "rgb", s.MOST_RGB, s.U8))
        width, height = size.width, size.height
        return Picture(width, height, self._view(into, "rgb")[: 3 * width * height])

    def frame_xrgb(self, into: Optional[Any] = None, pitch: int = s.WIDEST) -> XrgbPicture:
        """Lets the clock run to the end of the frame, and returns a word 00RRGGBB per dot.

        Row y begins at word `pitch * y`. The words lie in the card's memory, until its next
        `frame_xrgb`, `frame_words` or `line`; or in `into`, a writable buffer of at least 4 * pitch
        * height bytes, in which words beside the picture are unchanged. Raises Ragged, and NoRoom
        if `into` is too short or the pitch below the width. With either the frame has passed.
        """
        size = s.zak_size()
        in_range("pitch", pitch, s.WIDEST if into is None else LONG)
        target = (into, "xrgb", 4 * s.WIDEST * s.HIGHEST, s.U32)
        self._call("frame_xrgb", _byref(size), *self._target(*target), pitch)
        return XrgbPicture(size.width, size.height, pitch, self._words(into))

    def frame_words(
        self,
        into: Optional[Any] = None,
        pitch: int = s.WIDEST,
        *,
        once: bool = True,
        opaque: bool = False,
    ) -> XrgbPicture:
        """Lets the clock run to the end of the frame, and returns a word per pixel.

            picture = card.frame_words()                  # in mode 13 (hexadecimal) 320 by 200
            picture.across, picture.down                  # 2, 2: each is 2 dots wide on 2 lines

        With `once` a pixel that the screen shows on several dots or lines has one word: every
        `across`-th dot of every `down`-th line. With `opaque` the words are FFRRGGBB, otherwise
        00RRGGBB. Memory, pitch and exceptions are those of `frame_xrgb`.
        """
        told = s.zak_picture()
        in_range("pitch", pitch, s.WIDEST if into is None else LONG)
        target = (into, "xrgb", 4 * s.WIDEST * s.HIGHEST, s.U32)
        flags = s.ONCE * bool(once) + s.OPAQUE * bool(opaque)
        self._call("frame_words", flags, _byref(told), *self._target(*target), pitch)
        width, height, across, down = told.width, told.height, told.across, told.down
        return XrgbPicture(width, height, pitch, self._words(into), across, down)

    def frame_update(
        self, into: Any, pitch: int, *, once: bool = True, opaque: bool = False
    ) -> tuple[XrgbPicture, range]:
        """Lets the clock run to the end of the frame, brings a buffer up to date with its picture,
        and returns the picture and the rows that have changed.

            screen = bytearray(4 * 320 * 200)             # words for a picture of 320 by 200
            picture, rows = card.frame_update(screen, 320)
            card.put(0xA0000 + 320 * 7, 0x0F)             # in mode 13 (hexadecimal)
            picture, rows = card.frame_update(screen, 320)
            rows                                          # range(7, 8)

        A row has changed if one of its words differs from what `into` held before, whoever wrote
        that. The range goes from the first such row to the last, and is empty if there is none. So
        keep one buffer, and hand on only these rows of `picture`. Buffer, pitch, forms of words and
        exceptions are those of `frame_words`.
        """
        if into is None:
            raise TypeError("the rows that have changed are those of a buffer of yours")
        told, changed = s.zak_picture(), s.zak_rows()
        in_range("pitch", pitch, LONG)
        flags, target = s.ONCE * bool(once) + s.OPAQUE * bool(opaque), (into, "", 0, s.U32)
        self._call(
            "frame_update", flags, _byref(told), *self._target(*target), pitch, _byref(changed)
        )
        width, height, across, down = told.width, told.height, told.across, told.down
        picture = XrgbPicture(width, height, pitch, self._words(into), across, down)
        return picture, range(changed.first, changed.first + changed.count)

    def frame_indexed(self, into: Optional[Any] = None) -> IndexedPicture:
        """Lets the clock run to the end of the frame, and returns numbers of colours and a palette.

            picture = card.frame_indexed()
            picture.palette[picture.numbers[0]]           # the word 00RRGGBB of the first dot

        The numbers lie in the card's memory, until its next `frame_indexed`; or in `into`, a
        writable buffer of at least width * height bytes. Raises ManyColours if the picture has more
        than 256 colours, Ragged if two rows differ in width, and NoRoom if `into` is too short.
        With each of them the frame has passed, and `peek` still gives its dots.
        """
        size, palette = s.zak_size(), s.zak_palette()
        target = (into, "numbers", s.WIDEST * s.HIGHEST, s.U8)
        self._call("frame_indexed", _byref(size), _byref(palette), *self._target(*target))
        numbers = self._view(into, "numbers")[: size.width * size.height]
        colours = tuple(palette.colours[: palette.len])
        return IndexedPicture(size.width, size.height, numbers, colours)

    def line(self, *, opaque: bool = False) -> ScanLine:
        """Lets the clock run to the end of the line under way, and returns its dots as words.

            while True:
                line = card.line()
                show(line.number, line.words)             # 32-bit numbers 00RRGGBB
                if line.ends_frame:
                    break

        A line without dots has no words. With `opaque` they are FFRRGGBB. They lie in the card's
        memory, until its next `line`, `frame_xrgb` or `frame_words`.
        """
        told, room = s.zak_scan_line(), self._room(4 * s.WIDEST * s.HIGHEST, "xrgb")
        pointer = ctypes.cast(room.pointer, ctypes.POINTER(s.U32))
        self._call("line", s.OPAQUE * bool(opaque), _byref(told), pointer, s.WIDEST)
        words = room.view[: 4 * told.width].cast("I")
        return ScanLine(told.number, told.ends_frame, words)

    def lines(self) -> Lines:
        """Lets the clock run to the end of the frame, and returns its dots line by line.

        The lines may differ in width, for which `frame` raises Ragged. The dots lie in the card's
        memory, until its next `frame`, `lines` or `peek`.
        """
        return self._lines("frame_lines")

    def peek(self) -> Lines:
        """Returns what is drawn until now of the frame under way, line by line. The clock stands
        still.

            card.advance(100_000)
            rows = sum(width > 0 for width in card.peek().widths)

        At the first dot of a frame it is the frame before, unless that was skipped. The dots lie in
        the card's memory, until its next `frame`, `lines` or `peek`.
        """
        return self._lines("peek")

    def _lines(self, name: str) -> Lines:
        """The dots that a call writes line by line."""
        room, widths, used = self._room(s.MOST_RGB, "rgb"), (s.U32 * s.HIGHEST)(), s.SIZE()
        self._call(name, widths, room.pointer, room.size, _byref(used))
        # A memoryview hands over all numbers at once; ctypes does so one by one.
        return Lines(
            tuple(memoryview(widths).cast("B").cast("I").tolist()), room.view[: used.value]
        )

    def skip_frame(self) -> None:
        """Lets the clock run to the end of the frame under way, and draws nothing of it.

            card.skip_frame()
            card.skip_frame()
            picture = card.frame()                        # one frame in three is drawn

        The card goes on as after `frame`.
        """
        self._call("skip_frame")

    def _target(self, into: Optional[Any], name: str, size: int, kind: Any) -> tuple[Any, int]:
        """A pointer to the memory that a picture goes to, and how many elements it has."""
        if into is None:
            room = self._room(size, name)
            pointer = ctypes.cast(room.pointer, ctypes.POINTER(kind))
            return pointer, room.size // ctypes.sizeof(kind)
        view = writable(into, ctypes.sizeof(kind))
        count = len(view) // ctypes.sizeof(kind)
        return (kind * count).from_buffer(view), count

    def _view(self, into: Optional[Any], name: str) -> memoryview:
        """The same memory as bytes."""
        return self._rooms[name].view if into is None else writable(into, 1)

    def _words(self, into: Optional[Any]) -> memoryview:
        """The same memory as words."""
        view = self._view(into, "xrgb")
        return view[: len(view) // 4 * 4].cast("I")

    # The video BIOS.

    def block(self, ax: int, bx: int = 0, cx: int = 0, dx: int = 0) -> Source:
        """What `int10` with these registers reads from the caller's memory. Nothing changes.

            card.block(0x1301, cx=5)                      # Source(len=5, is_at_dx=False)

        With a block of exactly `len` bytes `int10` never raises BadBlock.
        """
        read = self._read("block", s.zak_source, _byref(_registers(ax, bx, cx, dx)))
        return Source(read.len, read.is_at_dx)

    def int10(self, ax: int, bx: int = 0, cx: int = 0, dx: int = 0, block: Bytes = b"") -> Answer:
        """Calls the video BIOS, interrupt 10 (hexadecimal), with these registers, 0 to FFFF each.

        `block` is what memory contains at ES:BP or ES:DX, for functions that read it. The answer
        has the registers afterwards, and in `table` what a function writes at ES:DX.
        docs/SERVICES.md describes the functions. Raises NoMode to BadBlock, and BadHeight.
        """
        regs = _registers(ax, bx, cx, dx)
        table, length = (s.U8 * s.MOST_TABLE)(), s.SIZE()
        self._call("int10", _byref(regs), *given(block), table, s.MOST_TABLE, _byref(length))
        return Answer(regs.ax, regs.bx, regs.cx, regs.dx, bytes(table[: length.value]))

    def cycles(self, ax: int, bx: int = 0, cx: int = 0, dx: int = 0, block: Bytes = b"") -> bytes:
        """The script of the cycles that `int10` with these registers would make now. Nothing
        changes.

            print(zaklimot.disassemble(card.cycles(0x0E41)))      # what printing an A writes

        The script has a step `out`, `in`, `put` or `get` for each cycle, in order. A card that runs
        it gets the registers and the memory that `int10` leaves, but keeps its BIOS data. Raises
        what `int10` raises, and TooLong for more than 16,777,216 bytes.
        """
        regs, read = _registers(ax, bx, cx, dx), given(block)
        length, size = s.SIZE(), FIRST_CYCLES
        while True:
            script = (s.U8 * size)()
            words = (_byref(regs), *read, script, size, _byref(length))
            status = self._calls["cycles"](self._card, *words)
            if not status:
                return bytes(memoryview(script)[: length.value])
            if status != NO_ROOM:
                raise error_of(status)
            size = length.value

    # The state. Nothing of it changes, not even an index, a latch or the flip-flop.

    def registers(self) -> Registers:
        """All registers, as they are."""
        read = self._read("read_registers", s.zak_registers)
        values: dict[str, Any] = {name: getattr(read, name) for name in Registers._fields}
        for name in ("seq", "crtc", "gfx", "attr"):
            values[name] = bytes(values[name])
        values["attr_is_data"] = bool(read.attr_is_data)
        return Registers(**values)

    def beam(self) -> Beam:
        """The beam: where the next dot is."""
        read = self._read("read_beam", s.zak_beam)
        values = {name: getattr(read, name) for name in Beam._fields}
        return Beam(**{**values, "half": bool(read.half), "split": bool(read.split)})

    def colour(self, entry: int) -> Colour:
        """The colour of an entry of the DAC, 0 to 255: six bits per component."""
        read = self._read("read_colour", s.zak_colour, in_range("entry", entry, BYTE))
        return Colour(read.red, read.green, read.blue)

    def palette(self) -> list[Colour]:
        """The colours of all 256 entries of the DAC."""
        return [self.colour(entry) for entry in range(256)]

    def latches(self) -> bytes:
        """The latches of planes 0 to 3, four bytes."""
        return bytes(self._read("read_latches", s.zak_latches).plane)

    def plane(self, plane: int, offset: int = 0, count: Optional[int] = None) -> bytes:
        """Bytes of a plane, 0 to 3, from an offset on: `count` of them, or all up to the plane's
        end at 65,536.

        Raises BadArgument if they go past the end.
        """
        begin = in_range("offset", offset, WORD)
        room = in_range("count", 65_536 - begin if count is None else count, 65_536)
        read = (s.U8 * max(1, room))()
        self._call("read_plane", in_range("plane", plane, 3), begin, read, room)
        return bytes(read)[:room]

    def bios_data(self) -> BiosData:
        """The data of the video BIOS; all 0 until a mode is set."""
        read = self._read("read_bda", s.zak_bda)
        values = {name: getattr(read, name) for name in BiosData._fields if name != "cursors"}
        return BiosData(
            **values, cursors=tuple(Position(*divmod(place, 256)) for place in read.cursor_places)
        )

    # The plain screen, as programs that use only the video BIOS see it.

    def screen(self) -> Screen:
        """The plain screen that the adapter shows. Raises NoScreen if it shows none."""
        read = self._read("screen_read", s.zak_screen)
        values = {name: getattr(read, name) for name in Screen._fields}
        return Screen(**{**values, "is_text": bool(read.is_text)})

    def cell(self, row: int, column: int, page: int = 0) -> Cell:
        """A cell of text. Raises NoScreen, and BadArgument if there is no such page, row or column.

        Each call reads the whole screen; `cells` returns all cells at once.
        """
        places = (("page", page), ("row", row), ("column", column))
        read = self._read(
            "screen_cell", s.zak_cell, *(in_range(name, value, BYTE) for name, value in places)
        )
        return Cell(read.character, read.attribute)

    def pixel(self, x: int, y: int, page: int = 0) -> int:
        """The number of a pixel's colour in a graphics mode: x from the left, y from the top.

        Raises NoScreen, and BadArgument if there is no such page, x or y.
        """
        numbers = (in_range("page", page, BYTE), in_range("x", x, WORD), in_range("y", y, WORD))
        return int(self._read("screen_pixel", s.U8, *numbers).value)

    def cursor(self, page: int = 0) -> Position:
        """The cursor position of a page, 0 to 7. Raises NoScreen and BadArgument."""
        read = self._read("screen_cursor", s.zak_place, in_range("page", page, BYTE))
        return Position(read.row, read.column)

    def cells(self) -> list[list[Cell]]:
        """The cells of the active page, row by row, as display memory contains them.

        Raises NoMode before a mode is set, and WrongKind in a graphics mode.
        """
        lines = (line.partition(": ")[2] for line in self.show_cells().splitlines())
        return [[Cell(*bytes.fromhex(word)) for word in line.split()] for line in lines]

    def text(self) -> list[str]:
        """The characters of the active page as lines of text, by code page 437; 0 is a blank.

        Blanks at a line's end are left out. Raises what `cells` raises.
        """
        rows = (bytes(cell.character or 0x20 for cell in row) for row in self.cells())
        return [row.decode("cp437").translate(_GLYPHS).rstrip(" ") for row in rows]

    # Dumps: the text of a script's step `show`, with a newline at its end (docs/REPORT.md).

    def show_regs(self) -> str:
        """The registers, in six lines."""
        return self._text("show_regs")

    def show_beam(self) -> str:
        """The beam: where the next dot is."""
        return self._text("show_beam")

    def show_latches(self) -> str:
        """The latches."""
        return self._text("show_latches")

    def show_bda(self) -> str:
        """The data of the video BIOS."""
        return self._text("show_bda")

    def show_cells(self) -> str:
        """The cells of the active page, one row per line. Raises NoMode, and WrongKind in a
        graphics mode."""
        return self._text("show_cells")

    def show_dac(self, entry: int) -> str:
        """An entry of the DAC, 0 to 255."""
        return self._text("show_dac", in_range("entry", entry, BYTE))

    def show_plane(self, plane: int, offset: int, count: int) -> str:
        """1 to 256 bytes of plane 0 to 3 from an offset on. Raises BadArgument if they go past the
        plane's end."""
        numbers = (("plane", plane, 3, 0), ("offset", offset, WORD, 0), ("count", count, 256, 1))
        return self._text("show_plane", *(in_range(*number) for number in numbers))

    # Snapshots, and steps of a script.

    def save(self) -> bytes:
        """The state of the card, from which this card or another can go on as if it had never
        stopped.

        It has 265,086 bytes at the first dot of a frame, and three more for each dot drawn since
        (docs/STATE.md). It does not contain the fonts.
        """
        room, length = self._room(s.MOST_STATE, "state"), s.SIZE()
        self._call("save", room.pointer, room.size, _byref(length))
        return bytes(room.view[: length.value])

    def save_into(self, buffer: Any) -> int:
        """Writes the state to the beginning of your writable buffer, and returns how many bytes it
        has.

            buffer = bytearray(zaklimot.MOST_STATE)       # long enough at any dot
            length = card.save_into(buffer)
            card.restore(memoryview(buffer)[:length])     # the state that was saved

        The buffer may be a bytearray, a memoryview or an array of numpy. No memory is allocated for
        the state. Right after a frame it has `zaklimot.FIRST_STATE` bytes. Raises NoRoom if the
        buffer is too short, and nothing is written there.
        """
        length = s.SIZE()
        self._call("save", *lent(buffer), _byref(length))
        return length.value

    def save_size(self) -> int:
        """How many bytes the state has now."""
        length = s.SIZE()
        self._call("save_size", _byref(length))
        return length.value

    def restore(self, state: Bytes) -> None:
        """Restores a saved state. For other bytes it raises a StateError, and the card is
        unchanged."""
        self._call("restore", *given(state))

    def save_fixed(self, length: int) -> bytes:
        """The state in `length` bytes: the state, zeros and a checksum, so that all states have one
        size.

        Raises NoRoom if they are too few; 7,342,978 are always enough.
        """
        into = (s.U8 * max(1, in_range("length", length, LONG)))()
        self._call("save_fixed", into, length)
        return bytes(into)[:length]

    def save_fixed_into(self, buffer: Any) -> int:
        """Fills your writable buffer with the state, zeros and a checksum, as `save_fixed` returns
        them, and returns how many bytes the buffer has.

        No memory is allocated for them. Raises NoRoom if the buffer is too short, and nothing is
        written there.
        """
        self._call("save_fixed", *lent(buffer))
        return memoryview(buffer).nbytes

    def restore_fixed(self, state: Bytes) -> None:
        """Restores a state of `save_fixed`. For other bytes it raises a StateError, and the card is
        unchanged."""
        self._call("restore_fixed", *given(state))

    def run_on(self, script: Any, first: int = 0, most: int = LONG) -> Report:
        """Skips the first `first` steps of a script, and takes at most `most` steps after them.

        `script` is as for `zaklimot.run`. The steps are numbered from first + 1 on. Fewer than
        `most` are taken only if the script ends. Raises a ScriptError before any step is taken.
        After OutOfMemory the card is as it was before; but if `most` is 1, the step may have been
        taken.
        """
        code = script_bytes(script)
        numbers = (in_range("first", first, LONG), in_range("most", most, LONG))
        if numbers[1] == 1:
            return self._slice(code, numbers, self._room(STEP_ROOM, "report"), None)
        return self._slice(code, numbers, self._room(STEP_ROOM, "report"), self.save())

    def run_in_parts(
        self, script: Any, first: int = 0, most: int = LONG, seconds: float = PART_SECONDS
    ) -> Iterator[Report]:
        """Takes steps as `run_on` does, and gives their reports part by part, in order.

        A part takes about so many seconds at most, unless one step takes longer, and its report has
        at most 4 MB: a long script needs little memory, and Ctrl-C comes in time. Use the card for
        nothing else meanwhile. Raises as `run_on`.
        """
        code = script_bytes(script)
        end = in_range("first", first, LONG) + in_range("most", most, LONG)
        room = self._room(PART_ROOM, "parts")

        def take(first: int, most: int) -> Report:
            return self._slice(code, (first, most), room, self.save() if most > 1 else None, False)

        return parts(take, first, end, seconds, PART_ROOM)

    def _slice(
        self,
        code: bytes,
        numbers: tuple[int, int],
        room: Room,
        state: Optional[bytes],
        is_grown: bool = True,
    ) -> Report:
        """The report of a slice. If the room is too small, the card is restored and takes the steps
        again in more room, if that may grow; else NoRoom is raised."""
        length, taken, place = s.SIZE(), s.SIZE(), s.SIZE()
        told = (_byref(length), _byref(taken), _byref(place))
        status = self._calls["run_on"](
            self._card, code, len(code), *numbers, room.pointer, room.size, *told
        )
        if not status:
            return Report(bytes(room.view[: length.value]), taken.value)
        if state is not None and self._struct.is_open:
            self.restore(state)
        if status == NO_ROOM and state is not None and is_grown:
            return self._slice(code, numbers, Room(length.value), state)
        raise error_of(status, place.value)
