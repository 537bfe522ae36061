"""A card that is open: how its calls are made, and how it is closed."""

from __future__ import annotations

import ctypes
import weakref
from typing import Any, Callable, NoReturn, TypeVar

from . import _structs as s
from ._calls import Call
from ._errors import Closed, error_of
from ._library import Fonts, font_bytes, loaded
from ._memory import Room
from ._numbers import in_range

_byref = ctypes.byref
Own = TypeVar("Own", bound="OpenCard")


class OpenCard:
    """A card of the library, from when it is opened until it is closed."""

    def __init__(self, fonts: Fonts = None) -> None:
        calls = loaded().calls
        self._calls = calls
        self._struct = s.zak_card()
        self._card = _byref(self._struct)
        glyphs = font_bytes(fonts)
        status = calls["open"](self._card, glyphs, len(glyphs))
        if status:
            raise error_of(status)
        # The struct is closed once, here or by close.
        self._end: Callable[[], Any] = weakref.finalize(self, calls["close"], self._card)
        self._rooms: dict[str, Room] = {}

    # How calls are made. A traceback keeps the frames of functions, and a buffer that one of them
    # has lent can't be made longer where the error is handled. So none keeps one.

    def _call(self, name: str, *values: Any) -> None:
        status = self._calls[name](self._card, *values)
        del values
        if status:
            raise error_of(status)

    def _cycle(self, call: Call, *values: tuple[str, int, int]) -> None:
        """The slow path of a cycle: it checks each number, and raises what is wrong."""
        status = call(self._card, *(in_range(name, value, most) for name, value, most in values))
        if status:
            raise error_of(status)

    def _read(self, name: str, kind: Any, *places: Any) -> Any:
        """What a call writes into a struct or a number."""
        value = kind()
        self._call(name, *places, _byref(value))
        return value

    def _room(self, size: int, name: str) -> Room:
        """Memory that the card keeps for calls of a kind."""
        room = self._rooms.get(name)
        if room is None:
            room = self._rooms[name] = Room(size)
        return room

    def _transfer(self, name: str, *values: Any) -> int:
        """Makes a call for many bytes, and returns how many addresses the adapter decodes."""
        decoded = s.SIZE()
        status = self._calls[name](self._card, *values, _byref(decoded))
        del values
        if status:
            raise error_of(status)
        return decoded.value

    def _text(self, name: str, *places: int) -> str:
        text, length = (s.U8 * s.MOST_TEXT)(), s.SIZE()
        self._call(name, *places, text, s.MOST_TEXT, _byref(length))
        return bytes(memoryview(text)[: length.value]).decode("ascii")

    # Opening and closing.

    def close(self) -> None:
        """Frees the card. After this every call raises Closed, a second close too."""
        if not self._struct.is_open:
            raise Closed("the card is closed")
        self._end()

    @property
    def is_open(self) -> bool:
        """Whether the card is open."""
        return bool(self._struct.is_open)

    def __enter__(self: Own) -> Own:
        if not self._struct.is_open:
            raise Closed("the card is closed")
        return self

    def __exit__(self, *_: object) -> None:
        if self._struct.is_open:
            self._end()

    def __reduce_ex__(self, _: object) -> NoReturn:
        raise TypeError(
            "a card can't be copied or pickled: save() it, and restore() the bytes into another"
        )

    def __repr__(self) -> str:
        return f"<Card, {'open' if self._struct.is_open else 'closed'}>"
