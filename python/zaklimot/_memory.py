"""Memory for what calls write."""

from __future__ import annotations

import ctypes
import mmap
from typing import Any, NamedTuple

from ._errors import OutOfMemory


# With these flags a process that forks gets memory of its own. Windows has no fork.
PRIVATE = {"flags": mmap.MAP_PRIVATE | mmap.MAP_ANONYMOUS} if hasattr(mmap, "MAP_PRIVATE") else {}


class Room:
    """Memory of a given size, which costs nothing until it is written. A process that forks gets
    its own."""

    def __init__(self, size: int) -> None:
        try:
            self._memory = mmap.mmap(-1, size, **PRIVATE)
        except (OSError, OverflowError, ValueError) as error:
            raise OutOfMemory(f"there is no memory for {size:,} bytes") from error
        self.size = size
        self.view = memoryview(self._memory)
        self.pointer = (ctypes.c_uint8 * size).from_buffer(self._memory)


class Lent(NamedTuple):
    """A caller's memory for a call: a pointer to its first byte, and how many bytes it has."""

    pointer: Any
    length: int


def _view(buffer: Any) -> memoryview:
    """A caller's buffer. TypeError if it is read-only or not contiguous."""
    view = memoryview(buffer)
    if view.readonly or not view.c_contiguous:
        raise TypeError("a buffer is to be writable and contiguous")
    return view


def lent(buffer: Any) -> Lent:
    """A caller's writable buffer, of elements of any kind. TypeError if it is read-only or not
    contiguous."""
    length = _view(buffer).nbytes
    # Of no bytes there is no first one, and no pointer may be NULL.
    first = ctypes.c_uint8.from_buffer(buffer) if length else ctypes.c_uint8()
    return Lent(ctypes.byref(first), length)


def writable(buffer: Any, size: int) -> memoryview:
    """A caller's buffer as bytes, for elements of so many bytes. TypeError if it is read-only or
    not contiguous, ValueError if it is not aligned."""
    view = _view(buffer)
    bytes_of = view.cast("B") if view.format != "B" or view.ndim != 1 else view
    address = ctypes.addressof(ctypes.c_uint8.from_buffer(bytes_of)) if len(bytes_of) else 0
    if address % size:
        raise ValueError(f"a buffer is to begin at an address divisible by {size}")
    return bytes_of


def given(data: Any) -> Lent:
    """What a call reads. Bytes and writable buffers stay where they are; of other buffers it is a
    copy, since ctypes lends no memory that is read-only."""
    if type(data) is bytes:
        return Lent(data, len(data))
    view = memoryview(data)
    if view.readonly or not view.c_contiguous or not view.nbytes:
        return given(bytes(view))
    return Lent((ctypes.c_char * view.nbytes).from_buffer(data), view.nbytes)
