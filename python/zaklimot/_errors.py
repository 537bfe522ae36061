"""The exceptions of calls that fail: one class for each status of include/zaklimot.h.

tests/test_header.py compares names and numbers with the header.
"""

from __future__ import annotations

from typing import Optional

from .format import FAULTS


class Error(Exception):
    """A call failed. `number` is its status in zaklimot.h, `place` the place of a fault in a
    script.

    The card is unchanged, unless the class says otherwise.
    """

    number: int = 0
    place: Optional[int] = None


class LibraryMissing(Error, OSError):
    """The library or its font file is missing, or this package can't use it."""


class Refusal(Error):
    """The adapter refuses the call, and nothing changes. `number` is N of `EN` in
    docs/REPORT.md."""


class NotDecoded(Refusal):
    """No part of the adapter decodes the port or the address."""

    number = 1


class NotInProfile(Refusal):
    """docs/PROFILE.md leaves out this register, value or port."""

    number = 2


class NoMode(Refusal):
    """No mode is set yet."""

    number = 3


class BadFunction(Refusal):
    """The video BIOS has no such function or subfunction."""

    number = 4


class BadMode(Refusal):
    """The video BIOS has no such mode."""

    number = 5


class WrongKind(Refusal):
    """The call is for pixels in a text mode, or for text in graphics."""

    number = 6


class BadPage(Refusal):
    """The mode has no such page."""

    number = 7


class Outside(Refusal):
    """The pixel or the cursor position is outside the screen."""

    number = 8


class CountPast(Refusal):
    """Characters pass the page's last cell, or glyphs the last character."""

    number = 9


class BadRegister(Refusal):
    """There is no such palette or DAC register."""

    number = 10


class BadBlock(Refusal):
    """The block does not have the length that the function takes."""

    number = 11


class TooFar(Refusal):
    """An advance takes at most 16,777,216 dots."""

    number = 12


class BadHeight(Refusal):
    """Glyphs have 8, 14 or 16 scan lines."""

    number = 13


class Closed(Error):
    """The card is not open."""

    number = 20


class OpenAlready(Error):
    """The card is open already."""

    number = 21


class FontSize(Error, ValueError):
    """The font file does not have 9,728 bytes."""

    number = 22


class OutOfMemory(Error, MemoryError):
    """An allocation failed.

    After `Card.run_on` with `most` 1 the step may have been taken.
    """

    number = 23


class Ragged(Error):
    """Two rows of the frame differ in width, so there is no picture.

    The frame has passed. `Card.lines` gives its dots.
    """

    number = 24


class NoRoom(Error, ValueError):
    """The buffer is too short, and nothing was written there.

    A frame has passed.
    """

    number = 25


class BadArgument(Error, ValueError):
    """An argument is out of the range that the call names.

    There is no such page, row, column, x or y; or bytes go past the end of a plane, or past the
    last address.
    """

    number = 26


class BadCard(Error):
    """The BIOS data are corrupt: the card's memory was overwritten."""

    number = 27


class NoScreen(Error):
    """The adapter shows no plain screen."""

    number = 28


class Broken(Error):
    """The library was compiled wrongly, and the card is closed.

    It did what the proofs exclude. Try another compiler, or a lower level of optimisation. With the
    proved library you never get this exception.
    """

    number = 29


class ManyColours(Error):
    """The picture has more than 256 colours.

    The frame has passed. `Card.peek` still gives its dots.
    """

    number = 35


class NotRebuilt(Error):
    """The steps that were tried lead to another state.

    No steps lead to the state of the card: it was restored from bytes that were changed.
    """

    number = 36


class StateError(Error, ValueError):
    """The bytes can't be restored. The card is unchanged."""


class StateMagic(StateError):
    """The bytes are no saved state."""

    number = 30


class StateVersion(StateError):
    """The state has another version of the format."""

    number = 31


class StateLength(StateError):
    """The state is cut off, or bytes follow it."""

    number = 32


class StatePart(StateError):
    """A part of the state is out of its bounds."""

    number = 33


class StateChecksum(StateError):
    """The checksum of the state is wrong."""

    number = 34


class ScriptError(Error, ValueError):
    """A script, or its text, has a fault. `place` is the offset of the bad step, or the number of
    the bad line."""


class BadMagic(ScriptError):
    """The bytes are no script: they don't begin with VGAS."""

    number = 102


class BadVersion(ScriptError):
    """The script has another version."""

    number = 103


class BadStep(ScriptError):
    """No step stands here, or it is out of range.

    `place` is its offset in the script.
    """

    number = 104


class Truncated(ScriptError):
    """The step that begins here is cut off.

    `place` is its offset in the script.
    """

    number = 105


class TooLong(ScriptError):
    """The text or the script has more than 16,777,216 bytes."""

    number = 106


class BadLine(ScriptError):
    """This line of the text is bad.

    `place` is its number, counted from 1.
    """

    number = 107


class TooMany(ScriptError):
    """The script means more than 16,777,216 steps from here on.

    `place` is its offset in the script.
    """

    number = 111


# The unit of a fault's place, by its name in the table of the format.
_COUNTED = {"line": "line", "at": "offset"}


def _below(kind: type[Error]) -> list[type[Error]]:
    """All subclasses of a class."""
    return [found for one in kind.__subclasses__() for found in (one, *_below(one))]


BY_NUMBER: dict[int, type[Error]] = {kind.number: kind for kind in _below(Error) if kind.number}


def error_of(status: int, place: Optional[int] = None) -> Error:
    """The exception of a status. It has a place only if its class has one."""
    kind = BY_NUMBER.get(status)
    if kind is None:
        return Error(f"the library answers the status {status}, which this package doesn't know")
    text = (kind.__doc__ or "").partition("\n")[0]
    counted = _COUNTED.get(FAULTS[kind.__name__].place) if issubclass(kind, ScriptError) else None
    if place is None or counted is None:
        return kind(text)
    error = kind(f"{counted} {place}: {text}")
    error.place = place
    return error
