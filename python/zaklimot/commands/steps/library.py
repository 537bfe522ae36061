"""The library of the adapter, loaded for single steps."""

import os
from typing import Mapping, Optional

from zaklimot import _calls, _structs
from zaklimot.commands.core.trouble import Trouble
from zaklimot.commands.script.library import library_path

# The calls that single steps take, and the run of a whole script.
CALLS = (
    "version",
    "open",
    "close",
    "out",
    "out_word",
    "in",
    "in_word",
    "put",
    "put_word",
    "get",
    "get_word",
    "advance",
    "line",
    "clock",
    "int10",
    "block",
    "cycles",
    "read_registers",
    "read_colour",
    "read_beam",
    "read_latches",
    "read_bda",
    "read_plane",
    "save",
    "restore",
    "run",
)
structs = _structs


def load(path: Optional[str] = None) -> Mapping[str, _calls.Call]:
    """The calls of the library, by their names without `zak_`."""
    place = path or library_path()
    try:
        return _calls.bind_all(os.path.abspath(place), CALLS)
    except (OSError, AttributeError) as error:
        raise Trouble(f"it is no library of the adapter: {error}", place) from error
