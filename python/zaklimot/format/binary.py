"""Reading and writing a script as bytes."""

from __future__ import annotations

from typing import Iterator, Union

from .script import Block, Item, Script, Step
from .table import (
    CODES,
    COUNT,
    DUMPED,
    END_CODE,
    FORMS,
    HEADERS,
    MAGIC,
    MOST_BYTES,
    MOST_STEPS,
    PLANE,
    REPEAT_CODE,
    ScriptFault,
)
from .text import DUMP_OF_PLANE, is_in_plane, parse_text

_HAS_KIND = {form.opcode for form in FORMS.values() if len(form.code) > 1}


def is_bytes(data: bytes) -> bool:
    """Whether a script is given as bytes: it begins with the magic."""
    return data.startswith(MAGIC)


def read(data: bytes) -> Script:
    """The script of a file, bytes or text. Raises ScriptFault if it has a fault."""
    return decode(data) if is_bytes(data) else parse_text(data)


def encoded(item: Union[Step, Block]) -> bytes:
    """The bytes of a step or a block."""
    if isinstance(item, Block):
        count = item.count.to_bytes(COUNT.size, "little")
        return bytes([REPEAT_CODE]) + count + b"".join(map(encoded, item.steps)) + bytes([END_CODE])
    form = FORMS[item.name]
    if form.has_block:
        return form.code + form.coder.pack(*item.numbers, len(item.block)) + item.block
    return form.code + form.coder.pack(*item.numbers)


def encode(script: Script) -> bytes:
    """The bytes of a script, as `vga asm` writes them."""
    return HEADERS[script.version] + b"".join(map(encoded, script.items))


def decode(data: bytes) -> Script:
    """The script that bytes spell. Raises ScriptFault with the first fault in the order of
    docs/SCRIPT.md."""
    items = tuple(items_in(data))
    return Script(items, data[len(MAGIC)])


def items_in(data: bytes) -> Iterator[Item]:
    """The steps and blocks that bytes spell, one after another, so that memory holds few of them.
    Raises ScriptFault where it comes to a fault."""
    if len(data) > MOST_BYTES:
        raise ScriptFault("TooLong")
    if not is_bytes(data):
        raise ScriptFault("BadMagic")
    at = len(MAGIC)
    if len(data) == at:
        raise ScriptFault("Truncated", at)
    version = data[at]
    if version not in HEADERS:
        raise ScriptFault("BadVersion")
    yield from _Reader(data, at + 1).items(version == 2)


class _Reader:
    """Bytes, and the position of the next one to read."""

    def __init__(self, data: bytes, at: int) -> None:
        self._data = data
        self._at = at

    def items(self, has_blocks: bool) -> Iterator[Item]:
        """Reads the steps and blocks up to the end."""
        data = self._data
        meant = 0
        while self._at < len(data):
            begin = self._at
            item: Item = (
                self._block() if has_blocks and data[begin] == REPEAT_CODE else self._step()
            )
            meant += item.count * len(item.steps) if isinstance(item, Block) else 1
            if meant > MOST_STEPS:
                raise ScriptFault("TooMany", begin)
            yield item

    def _block(self) -> Block:
        """Reads the next block."""
        data = self._data
        begin = self._at
        self._at += 1 + COUNT.size
        if self._at > len(data):
            raise ScriptFault("Truncated", begin)
        count = int.from_bytes(data[begin + 1 : self._at], "little")
        if not count:
            raise ScriptFault("BadStep", begin)
        steps = []
        while self._at < len(data) and data[self._at] != END_CODE:
            steps.append(self._step())
        if self._at == len(data):
            raise ScriptFault("Truncated", begin)
        self._at += 1
        return Block(count, tuple(steps))

    def _step(self) -> Step:
        """Reads the next step. Its opcode is checked first, then its length, then its numbers."""
        data = self._data
        begin = self._at
        code = data[begin : begin + (2 if data[begin] in _HAS_KIND else 1)]
        form = CODES.get(code)
        if form is None:
            raise ScriptFault(
                "Truncated" if code[0] in _HAS_KIND and len(code) == 1 else "BadStep", begin
            )
        end = begin + form.size
        if end > len(data):
            raise ScriptFault("Truncated", begin)
        numbers = form.coder.unpack_from(data, begin + len(code))
        self._at = end
        if form.has_block:
            self._at += numbers[-1]
            if self._at > len(data):
                raise ScriptFault("Truncated", begin)
            return Step(form.name, numbers[:-1], data[end : self._at])
        if form.name == DUMP_OF_PLANE:
            # The fields of a plane's dump must be in range. All other fields take any bytes.
            plane, _, count = numbers
            if (
                plane > PLANE.most
                or not DUMPED.least <= count <= DUMPED.most
                or not is_in_plane(numbers)
            ):
                raise ScriptFault("BadStep", begin)
        return Step(form.name, numbers)
