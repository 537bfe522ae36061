"""A JSON array in any layout, read value by value: no more of it is in memory than a value."""

import codecs
import io
import json
import re
from typing import BinaryIO, Iterator, cast

from zaklimot.commands.core.trouble import Trouble

# So many bytes are read at a time, and so many characters a value and the blanks before it have at
# most.
CHUNK = 1 << 16
MOST_VALUE = 1 << 22
BLANKS = re.compile(r"[ \t\n\r]*")
DECODER = json.JSONDecoder()
ENDS_EARLY = "it ends before its array does"


class ArrayReader:
    """The values of an array, and the line of each."""

    def __init__(self, source: BinaryIO, name: str) -> None:
        self._source = source
        self._name = name
        # A byte order mark may stand before the text.
        self._decoder = codecs.getincrementaldecoder("utf-8-sig")()
        # Text, and the line with which it begins: up to `_at` it is read. The value that was read
        # last begins at `_begun`.
        self._text = ""
        self._at = self._begun = 0
        self._line = 1
        self._is_whole = False

    def values(self) -> Iterator[object]:
        """The values, in their order. A Trouble tells where the text is no array."""
        if self._next() != "[":
            raise self._trouble_at(self._at, "it is no file of elements: it doesn't begin with [")
        self._at += 1
        mark = self._next()
        while mark != "]":
            yield self._value()
            mark = self._next()
            if mark not in ("]", ","):
                told = "neither , nor ] stands after an element" if mark else ENDS_EARLY
                raise self._trouble_at(self._at, told)
            self._at += mark == ","
            self._next()
        self._at += 1
        if self._next():
            raise self._trouble_at(self._at, "something stands after the array")

    def trouble(self, reason: str) -> Trouble:
        """A Trouble with the line of the value that was read last."""
        return self._trouble_at(self._begun, reason)

    def _trouble_at(self, place: int, reason: str) -> Trouble:
        return Trouble(reason, self._name, self._line + self._text.count("\n", 0, place))

    def _next(self) -> str:
        """The next character that is no blank; none at the end."""
        while True:
            found = BLANKS.match(self._text, self._at)
            assert found is not None
            if found.end() < len(self._text):
                self._at = found.end()
                return self._text[self._at]
            if not self._has_read():
                return ""

    def _value(self) -> object:
        """The next value."""
        while True:
            try:
                value, end = DECODER.raw_decode(self._text, self._at)
            except json.JSONDecodeError as error:
                place = error.pos - self._at
                if not self._has_read():
                    raise self._fault(error.msg, self._at + place) from error
            except (ValueError, RecursionError) as error:
                raise self._trouble_at(self._at, f"it is no JSON: {error}") from error
            else:
                self._begun, self._at = self._at, end
                return cast(object, value)

    def _fault(self, reason: str, place: int) -> Trouble:
        """What is told of a text that is no value, by the place where it is none."""
        if place >= len(self._text.rstrip()):
            return self._trouble_at(place, ENDS_EARLY)
        column = place - self._text.rfind("\n", 0, place)
        return self._trouble_at(place, f"it is no JSON: {reason} at column {column}")

    def _has_read(self) -> bool:
        """Reads more of the text; whether there is more."""
        left = len(self._text) - self._at
        if left >= MOST_VALUE:
            told = f"an element has {MOST_VALUE:,} characters or more"
            raise self._trouble_at(self._at, told)
        self._line += self._text.count("\n", 0, self._at)
        self._text = self._text[self._at :]
        self._at = self._begun = 0
        # Of a long value half as much as is known: each part is looked at a few times.
        until = left + max(1, left // 2 if left > CHUNK else 0)
        while len(self._text) < until and not self._is_whole:
            # What a pipe has is taken at once.
            data = cast(io.BufferedReader, self._source).read1(CHUNK)
            self._is_whole = not data
            try:
                self._text += self._decoder.decode(data, not data)
            except UnicodeDecodeError as error:
                self._text += error.object[: error.start].decode("utf-8")
                raise self._trouble_at(len(self._text), "it is no UTF-8") from error
        return len(self._text) > left
