"""The library of the adapter, which programs load: the one that is named, a release's, or that of
the C file, which is compiled once."""

import ctypes
import os
from functools import cache
from typing import Optional

from zaklimot import _library
from zaklimot._file import kind_of
from zaklimot.commands import TOP
from zaklimot.commands.core.streams import to_read
from zaklimot.commands.core.trouble import Trouble

from .portable import LIBRARY_NAME, has_sources, portable_library

# What names the library, as for the package for Python.
NAMED = "ZAKLIMOT_LIBRARY"
NO_LIBRARY = f"there is no library, and portable/ has no sources of it: name one by {NAMED}"
# The library of an unpacked release, which this system may not be able to load.
RELEASED = TOP / "lib" / LIBRARY_NAME
# The library that `tools/vga-library make kit` makes.
MADE = TOP / "kit" / "lib" / LIBRARY_NAME


def ready_library() -> Optional[str]:
    """The file of a library that is here already: the one that the environment names, a release's,
    an installed one, or one that `tools/vga-library make kit` made; None if none is."""
    named = os.environ.get(NAMED)
    if named:
        return to_read(named)
    for path in (str(RELEASED), _library._found(), str(MADE)):
        if _fits(path):
            return path
    return None


def library_path() -> str:
    """The file of the library that is here already, or of that of the C file."""
    ready = ready_library()
    if ready is not None:
        return ready
    if not has_sources():
        raise Trouble(NO_LIBRARY)
    return portable_library()


def kind_of_ready() -> Optional[str]:
    """Of which kind the library is that is here already; None if none is."""
    ready = ready_library()
    return None if ready is None else kind_of(ready)


def _fits(path: str) -> bool:
    """Whether a file is there, and is a library of this version that can be loaded."""
    try:
        return os.path.isfile(path) and _library._fits(ctypes.CDLL(path).zak_version())
    except (OSError, AttributeError):
        return False


@cache
def use_library() -> None:
    """Has the package for Python load this library; a Trouble where it can't. What the tools start
    may have another one: the environment stays as it is."""
    path = library_path()
    before = os.environ.get(NAMED)
    os.environ[NAMED] = path
    try:
        _library.loaded()
    except OSError as error:
        raise Trouble(str(error).replace(f". {_library.HOW}", ""), path) from error
    finally:
        if before is None:
            del os.environ[NAMED]
        else:
            os.environ[NAMED] = before
