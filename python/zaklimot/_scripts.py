"""Scripts without a card: their two forms, what is wrong in a text, and whole runs."""

from __future__ import annotations

import ctypes
from typing import Any, Optional, Union

from . import _structs as s
from ._errors import error_of
from ._explained import Mistake, MistakeKind
from ._library import loaded
from ._memory import Room

NO_ROOM = 25
# Room for a run's report; the system gives memory only for what is written. A longer report is made
# again.
FIRST_ROOM = 1 << 25
# So many times as long is the text of most scripts at most, and so many bytes have room at least.
MOST_LONGER, FEWEST = 4, 4096
# The forms of a script: its text, its bytes, or an object with a method `text`.
AnyScript = Union[str, bytes, bytearray, memoryview, Any]
AnyText = Union[str, bytes, bytearray, memoryview]


def script_bytes(script: AnyScript) -> bytes:
    """The bytes of a script that is given as its text, as its bytes, or as a Script."""
    text = getattr(script, "text", None)
    if isinstance(script, str):
        return assemble(script)
    if callable(text):
        return assemble(text())
    return bytes(memoryview(script))


def _other_form(name: str, given: bytes) -> memoryview:
    """Assembles or disassembles. A result that is longer than others are is made again."""
    call, length, place = loaded().calls[name], s.SIZE(), s.SIZE()
    told = (ctypes.byref(length), ctypes.byref(place))
    made = Room(len(given) * MOST_LONGER + FEWEST)
    status = call(given, len(given), made.pointer, made.size, *told)
    if status == NO_ROOM:
        made = Room(length.value)
        status = call(given, len(given), made.pointer, made.size, *told)
    if status:
        raise error_of(status, place.value)
    return made.view[: length.value]


def _text_bytes(text: AnyText) -> bytes:
    return text.encode("utf-8") if isinstance(text, str) else bytes(memoryview(text))


def assemble(text: AnyText) -> bytes:
    """Assembles a text into the bytes of a script (docs/SCRIPT.md).

        zaklimot.assemble("frame")          # b"VGAS\\x01\\x0b"

    `text` is a str, or the text's bytes. Raises BadLine, whose `place` is the line's number from 1,
    and TooLong.
    """
    return _other_form("assemble", _text_bytes(text)).tobytes()


def explain_text(text: AnyText) -> Optional[Mistake]:
    """What is wrong in a text that `assemble` refuses; None if the text spells a script.

        mistake = zaklimot.explain_text("frame\\nout 3c4\\n")
        mistake.line, mistake.start         # 2, 7: at the end of line 2
        mistake.sentence                    # value is lacking: out port value

    `text` is a str, or the text's bytes. Only the first mistake is told. Raises OutOfMemory.
    """
    given, told, length = _text_bytes(text), s.zak_mistake(), s.SIZE()
    sentence = (s.U8 * s.MOST_MISTAKE_TEXT)()
    status = loaded().calls["explain_text"](
        given, len(given), ctypes.byref(told), sentence, len(sentence), ctypes.byref(length)
    )
    if status:
        raise error_of(status)
    if not told.kind:
        return None
    said = bytes(sentence[: length.value]).decode("utf-8", "replace")
    place = (told.start, told.length)
    if isinstance(text, str) and told.line:
        place = _in_characters(given.split(b"\n")[told.line - 1], *place)
    return Mistake(told.line, *place, MistakeKind(told.kind), said)


def _in_characters(line: bytes, start: int, length: int) -> tuple[int, int]:
    """A part of a line that is counted in bytes, counted in characters."""
    return len(line[:start].decode("utf-8")), len(line[start : start + length].decode("utf-8"))


def disassemble(script: Union[bytes, bytearray, memoryview]) -> str:
    """Disassembles a script: one line per step, every number at full width.

    Raises a ScriptError if the bytes are not a script.
    """
    return str(disassembled(script), "ascii")


def disassembled(script: Union[bytes, bytearray, memoryview]) -> memoryview:
    """The same as bytes, in memory of its own."""
    return _other_form("print", bytes(memoryview(script)))


def run_script(script: AnyScript, fonts: bytes) -> bytes:
    """The report of a whole run, on a card of its own."""
    code, size = script_bytes(script), FIRST_ROOM
    # Two pointers of a call must not overlap.
    glyphs = bytes(bytearray(fonts)) if fonts is code else fonts
    length, place = s.SIZE(), s.SIZE()
    told = (ctypes.byref(length), ctypes.byref(place))
    while True:
        room = Room(size)
        run = loaded().calls["run"]
        status = run(code, len(code), glyphs, len(glyphs), room.pointer, size, *told)
        if not status:
            return bytes(room.view[: length.value])
        if status != NO_ROOM:
            raise error_of(status, place.value)
        size = length.value
