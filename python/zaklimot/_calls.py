"""The calls of include/zaklimot.h: one table, from which each is bound.

To add a call, add its line here and its method to Card. tests/test_header.py compares the table
with the header.
"""

from __future__ import annotations

import ctypes
from typing import Any, Callable, Iterable, Mapping

from . import _structs as s
from ._structs import SIZE, U8, U16, U32


class In:
    """A pointer to what the call reads. The next parameter is the number of elements."""


def _to(kind: Any) -> Any:
    """A pointer to what the call writes."""
    return ctypes.POINTER(kind)


CARD, BOOL = _to(s.zak_card), ctypes.c_bool
BYTES, COUNT = _to(U8), _to(SIZE)
# Room for bytes that a call writes, its size, and where the call writes how many there are.
ROOM = (BYTES, SIZE, COUNT)

# The parameters of each call. Calls with a card have it first.
CALLS: dict[str, tuple[Any, ...]] = {
    "version": (),
    "status_text": (U32, *ROOM),
    "open": (CARD, In, SIZE),
    "close": (CARD,),
    "out": (CARD, U16, U8),
    "out_word": (CARD, U16, U16),
    "in": (CARD, U16, _to(U8)),
    "in_word": (CARD, U16, _to(U16)),
    "put": (CARD, U32, U8),
    "put_word": (CARD, U32, U16),
    "get": (CARD, U32, _to(U8)),
    "get_word": (CARD, U32, _to(U16)),
    "put_bytes": (CARD, U32, In, SIZE, BOOL, COUNT),
    "fill_bytes": (CARD, U32, U8, SIZE, BOOL, COUNT),
    "get_bytes": (CARD, U32, BYTES, SIZE, BOOL, COUNT),
    "move_bytes": (CARD, U32, U32, SIZE, BOOL, COUNT),
    "advance": (CARD, U32),
    "clock": (CARD, _to(s.zak_timing)),
    "frame": (CARD, _to(s.zak_size), BYTES, SIZE),
    "frame_xrgb": (CARD, _to(s.zak_size), _to(U32), SIZE, SIZE),
    "frame_words": (CARD, U32, _to(s.zak_picture), _to(U32), SIZE, SIZE),
    "frame_update": (CARD, U32, _to(s.zak_picture), _to(U32), SIZE, SIZE, _to(s.zak_rows)),
    "frame_indexed": (CARD, _to(s.zak_size), _to(s.zak_palette), BYTES, SIZE),
    "line": (CARD, U32, _to(s.zak_scan_line), _to(U32), SIZE),
    "frame_lines": (CARD, _to(U32), BYTES, SIZE, COUNT),
    "skip_frame": (CARD,),
    "peek": (CARD, _to(U32), BYTES, SIZE, COUNT),
    "int10": (CARD, _to(s.zak_regs), In, SIZE, *ROOM),
    "block": (CARD, _to(s.zak_regs), _to(s.zak_source)),
    "cycles": (CARD, _to(s.zak_regs), In, SIZE, *ROOM),
    "show_regs": (CARD, *ROOM),
    "show_beam": (CARD, *ROOM),
    "show_latches": (CARD, *ROOM),
    "show_bda": (CARD, *ROOM),
    "show_cells": (CARD, *ROOM),
    "show_dac": (CARD, U8, *ROOM),
    "show_plane": (CARD, U8, U16, U16, *ROOM),
    "read_registers": (CARD, _to(s.zak_registers)),
    "read_colour": (CARD, U8, _to(s.zak_colour)),
    "read_beam": (CARD, _to(s.zak_beam)),
    "read_latches": (CARD, _to(s.zak_latches)),
    "read_bda": (CARD, _to(s.zak_bda)),
    "read_plane": (CARD, U8, U16, BYTES, SIZE),
    "screen_read": (CARD, _to(s.zak_screen)),
    "screen_cell": (CARD, U8, U8, U8, _to(s.zak_cell)),
    "screen_pixel": (CARD, U8, U16, U16, _to(U8)),
    "screen_cursor": (CARD, U8, _to(s.zak_place)),
    "save_size": (CARD, COUNT),
    "save": (CARD, *ROOM),
    "restore": (CARD, In, SIZE),
    "save_fixed": (CARD, BYTES, SIZE),
    "restore_fixed": (CARD, In, SIZE),
    "explain_step": (CARD, In, SIZE, U32, _to(s.zak_reason), *ROOM, COUNT),
    "explain_dot": (CARD, _to(s.zak_beam), _to(s.zak_dot_source)),
    "explain_put": (CARD, U32, U8, _to(s.zak_write_stages)),
    "explain_get": (CARD, U32, _to(s.zak_read_stages)),
    "rebuild": (CARD, *ROOM, _to(BOOL)),
    "run": (In, SIZE, In, SIZE, *ROOM, COUNT),
    "run_on": (CARD, In, SIZE, U32, U32, *ROOM, COUNT, COUNT),
    "assemble": (In, SIZE, *ROOM, COUNT),
    "explain_text": (In, SIZE, _to(s.zak_mistake), *ROOM),
    "print": (In, SIZE, *ROOM, COUNT),
}

Call = Callable[..., int]


def _bind(library: ctypes.CDLL, name: str) -> Call:
    """The function of a call.

    A call without a size needs no argtypes: its numbers have at most 32 bits, and its pointers are
    made by byref. Without argtypes ctypes takes less than half the time. Card checks the range of
    each number first.
    """
    function = getattr(library, f"zak_{name}")
    function.restype = U32
    parameters = CALLS[name]
    if SIZE in parameters:
        function.argtypes = [ctypes.c_char_p if kind is In else kind for kind in parameters]
    # What `getattr` finds has no type, and this is a function of the library.
    return function  # type: ignore[no-any-return]


def bind_all(path: str, names: Iterable[str] = tuple(CALLS)) -> Mapping[str, Call]:
    """The functions of all calls of the library at a path, or of those that are named.

    Calls with a card hold Python's global lock. If two threads use one card at once, their calls
    come one after another, and neither sees a call half done. Calls without a card, which take a
    whole script, release the lock.
    """
    held, released = ctypes.PyDLL(path), ctypes.CDLL(path)
    return {name: _bind(held if CARD in CALLS[name] else released, name) for name in names}
