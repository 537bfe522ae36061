"""Traces for the modules that test them: lines of theirs, and the cycles, steps and warnings that
these become."""

from __future__ import annotations

import io
from functools import partial
from typing import ContextManager, Mapping, Optional, Sequence
from unittest import mock

from zaklimot.format import Picture
from zaklimot.commands.trace.cells import TextScreen
from zaklimot.commands.trace.converting import Listing
from zaklimot.commands.trace.following import Follower
from zaklimot.commands.trace.step import OUT, OUTW, TraceStep
from zaklimot.commands.trace.trace import Cycle, Trace

from .tools import run_tool


run = partial(run_tool, "zaklimot", "trace")
# What a trace from power-on begins with.
BEGIN = b"0 w p 3C2 67 1\n"


def trace(data: bytes) -> Trace:
    return Trace(io.BytesIO(data), "trace")


def cycles(data: bytes) -> list[Cycle]:
    return list(trace(data).cycles())


def qemu(words: str, name: str = "vga", front: str = "") -> bytes:
    """A line of qemu's log: `write 3c2 67 1`."""
    kind, address, value, size = words.split()
    return (
        f"{front}memory_region_ops_{kind} cpu 0 mr 0x55d0 addr 0x{address} value 0x{value} size"
        f" {size} name '{name}'\n".encode()
    )


def texts(*steps: TraceStep) -> list[str]:
    return [step.text().decode().strip() for step in steps]


def steps_listed(data: bytes, **wanted: object) -> list[TraceStep]:
    """The steps of a script of a trace."""
    return list(Listing(trace(data), **wanted).steps())  # type: ignore[arg-type]


def listed(data: bytes, **wanted: object) -> list[str]:
    """The same as lines."""
    return texts(*steps_listed(data, **wanted))


def warned(data: bytes, **wanted: object) -> list[str]:
    """What a trace is told to lack."""
    listing = Listing(trace(data), **wanted)  # type: ignore[arg-type]
    list(listing.steps())
    return list(listing.warnings())


def registers(misc: int, clocking: int) -> list[TraceStep]:
    """The steps that choose a clock and the shape of text of 720 by 400 dots."""
    return [
        TraceStep(OUT, 0x3C2, misc),
        TraceStep(OUTW, 0x3C4, clocking << 8 | 1),
        TraceStep(OUTW, 0x3D4, 0x5F00),
        TraceStep(OUTW, 0x3D4, 0xBF06),
        TraceStep(OUTW, 0x3D4, 0x1F07),
    ]


def text_screen(crtc: Mapping[int, int], words: Sequence[int], clocking: int = 1) -> TextScreen:
    """The text of a card with these registers of the CRT controller, and characters and attributes
    in planes 0 and 1."""
    follower = Follower()
    card = follower.card
    card.out(0x3C2, 0x67)
    # A byte goes to the plane of the map mask, at the offset of its address.
    for port, word in (
        (0x3C4, 0x0604),
        (0x3C4, clocking << 8 | 1),
        (0x3CE, 0x0406),
        (0x3CE, 0xFF08),
    ):
        card.out_word(port, word)
    for plane in (0, 1):
        card.out_word(0x3C4, 1 << plane << 8 | 2)
        card.put_bytes(0xA0000, bytes(word >> 8 * plane & 0xFF for word in words))
    for index, value in crtc.items():
        card.out_word(0x3D4, value << 8 | index)
    return TextScreen(follower, "screen")


def drawing(*given: Optional[bytes]) -> "ContextManager[object]":
    """Cards draw these pictures, the one after the other; None of a frame without one."""
    pictures = [None if ppm is None else Picture.of_ppm(ppm) for ppm in given]
    return mock.patch.object(Follower, "picture", side_effect=pictures)
