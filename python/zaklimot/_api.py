"""Everything that the package offers, except `zaklimot.format`."""

from __future__ import annotations

from typing import NamedTuple

from ._card import Card
from ._errors import (
    BadArgument,
    BadBlock,
    BadCard,
    BadFunction,
    BadHeight,
    BadLine,
    BadMagic,
    BadMode,
    BadPage,
    BadRegister,
    BadStep,
    BadVersion,
    Broken,
    Closed,
    CountPast,
    Error,
    FontSize,
    LibraryMissing,
    ManyColours,
    NoMode,
    NoRoom,
    NoScreen,
    NotDecoded,
    NotInProfile,
    NotRebuilt,
    OpenAlready,
    OutOfMemory,
    Outside,
    Ragged,
    Refusal,
    ScriptError,
    StateChecksum,
    StateError,
    StateLength,
    StateMagic,
    StatePart,
    StateVersion,
    TooFar,
    TooLong,
    TooMany,
    Truncated,
    WrongKind,
)
from ._explained import (
    DotSource,
    Group,
    Mistake,
    MistakeKind,
    Part,
    ReadStages,
    Reason,
    Rebuilt,
    Why,
    WriteStages,
)
from ._file import kind_of
from ._library import Fonts, default_fonts, font_bytes, loaded
from ._names import CRTC, GFX, SEQ, Indexed
from ._pictures import Colour, IndexedPicture, Lines, Picture, ScanLine, XrgbPicture
from ._report import Report, Step
from ._script import Script
from ._scripts import AnyScript, assemble, disassemble, explain_text, run_script
from ._state import (
    Answer,
    Beam,
    BiosData,
    Cell,
    Position,
    ReadBytes,
    Registers,
    Screen,
    Source,
    Timing,
)
from ._structs import FIRST_STATE, FONTS_SIZE, HIGHEST, MOST_DOTS, MOST_STATE, WIDEST
from ._version import VERSION

__version__ = VERSION


class Library(NamedTuple):
    """A library in use."""

    path: str
    """its file, or its name alone where the system's loader found it"""
    kind: str
    """`proved`; `portable`, which is portable/zaklimot.c, tested and not proved; or `unknown`"""
    version: tuple[int, int]
    """its major and its minor number"""


def library() -> Library:
    """The library in use: its file, and whether it is the proved one or the portable one.

        print(zaklimot.library().kind)       # proved

    The build wrote the kind beside the library: in the package, or in `zaklimot.pc`. If nothing is
    written there, as beside most files that ZAKLIMOT_LIBRARY names, the kind is `unknown`.
    Raises LibraryMissing.
    """
    found = loaded()
    return Library(found.path, kind_of(found.path), found.version)


def version() -> tuple[int, int]:
    """The version of the library that is loaded, as (major, minor). Raises LibraryMissing."""
    return loaded().version


def library_path() -> str:
    """The file of the library that is loaded, `library().path`. Raises LibraryMissing."""
    return loaded().path


def run(script: AnyScript, fonts: Fonts = None) -> Report:
    """Runs a whole script on a card of its own, and returns the answers of its steps.

        report = zaklimot.run("int ax=13\\nframe")
        report[1].picture.width              # 640

    `script` is a str with the text of a script (docs/SCRIPT.md), the bytes of one, or a Script.
    `fonts` is as for Card. A step that the adapter refuses answers its refusal. Raises a
    ScriptError if there is a fault in the script, FontSize and OutOfMemory.
    """
    return Report(run_script(script, font_bytes(fonts)))


__all__ = [
    "Answer",
    "BadArgument",
    "BadBlock",
    "BadCard",
    "BadFunction",
    "BadHeight",
    "BadLine",
    "BadMagic",
    "BadMode",
    "BadPage",
    "BadRegister",
    "BadStep",
    "BadVersion",
    "Beam",
    "BiosData",
    "Broken",
    "CRTC",
    "Card",
    "Cell",
    "Closed",
    "Colour",
    "CountPast",
    "DotSource",
    "Error",
    "FIRST_STATE",
    "FONTS_SIZE",
    "FontSize",
    "GFX",
    "Group",
    "HIGHEST",
    "Indexed",
    "IndexedPicture",
    "Library",
    "LibraryMissing",
    "Lines",
    "MOST_DOTS",
    "MOST_STATE",
    "ManyColours",
    "Mistake",
    "MistakeKind",
    "NoMode",
    "NoRoom",
    "NoScreen",
    "NotDecoded",
    "NotInProfile",
    "NotRebuilt",
    "OpenAlready",
    "OutOfMemory",
    "Outside",
    "Part",
    "Picture",
    "Position",
    "Ragged",
    "ReadBytes",
    "ReadStages",
    "Reason",
    "Rebuilt",
    "Refusal",
    "Registers",
    "Report",
    "SEQ",
    "ScanLine",
    "Screen",
    "Script",
    "ScriptError",
    "Source",
    "StateChecksum",
    "StateError",
    "StateLength",
    "StateMagic",
    "StatePart",
    "StateVersion",
    "Step",
    "Timing",
    "TooFar",
    "TooLong",
    "TooMany",
    "Truncated",
    "WIDEST",
    "Why",
    "WriteStages",
    "WrongKind",
    "XrgbPicture",
    "assemble",
    "default_fonts",
    "disassemble",
    "explain_text",
    "library",
    "library_path",
    "run",
    "version",
]
