"""Compares two recordings: the first register write and the first picture that differ, however many
cycles lie between them."""

import argparse
from contextlib import ExitStack, suppress
from dataclasses import dataclass, field
from itertools import chain, zip_longest
from typing import Iterator, NamedTuple, Optional, Sequence

import zaklimot
from zaklimot.format import FONT_BYTES, Picture
from zaklimot.commands.core.files import STANDARD
from zaklimot.commands.core.progress import Progress
from zaklimot.commands.core.trouble import AGREED, DIFFERED, Trouble
from zaklimot.commands.explain.ports import (
    ATTRIBUTE,
    COLOUR,
    DAC_DATA,
    DAC_READ,
    DAC_WRITE,
    GRAPHICS,
    MASK,
    MISC,
    MONOCHROME,
    SEQUENCER,
)
from zaklimot.commands.images.holding import told_dots
from zaklimot.commands.images.png import Shape, save_png
from zaklimot.commands.report.expecting import NAMES
from zaklimot.commands.script.library import use_library

from .following import Follower
from .moments import SECOND, Passed
from .step import INT, OUT, OUTW, PORTS, WRITES, TraceStep, steps_of, without_polls
from .trace import opened

# What is called by another name than that of a register behind an index.
PLAIN_PORTS = {
    MISC: "misc",
    MASK: "DAC mask",
    DAC_READ: "DAC index for reading",
    DAC_WRITE: "DAC index for writing",
    DAC_DATA: "DAC component",
}
# The ports of indexes, and what dumps call the registers behind each; the bits of an index.
INDEXES = {SEQUENCER: "seq", GRAPHICS: "gfx", MONOCHROME: "crtc", COLOUR: "crtc"}
INDEX = 0x1F


@dataclass(frozen=True)
class Write:
    """A register that was written, and its value; `told` is when."""

    place: str
    value: str
    told: str = field(compare=False)

    @property
    def line(self) -> str:
        """What is told of it."""
        return f"{self.place}: {self.value}, at {self.told}"


class Writes:
    """The registers that steps write, by name. An index that is written chooses one, and is
    none."""

    def __init__(self) -> None:
        use_library()
        # It knows the indexes after a mode set, too. No glyph is shown.
        self._card = zaklimot.Card(bytes(FONT_BYTES))

    def of(self, step: TraceStep, told: str) -> Iterator[Write]:
        """What a step writes at the time that is told."""
        if step.call is not None:
            registers = " ".join(f"{value:04X}" for value in step.call.registers)
            handed = f"{registers} {step.call.block.hex().upper()}".rstrip()
            yield Write("interrupt 10", handed, told)
            ax, bx, cx, dx = step.call.registers
            with suppress(zaklimot.Refusal):
                self._card.int10(ax, bx, cx, dx, step.call.block)
        elif step.opcode in (OUT, OUTW):
            for at in range(2 if step.opcode == OUTW else 1):
                port, value = step.address + at, step.value >> 8 * at & 0xFF
                place = self._place(port)
                with suppress(zaklimot.Refusal):
                    self._card.out(port, value)
                if place:
                    yield Write(place, f"{value:02X}", told)
        elif step.is_status:
            # The next write to the attribute controller is an index.
            with suppress(zaklimot.Refusal):
                self._card.inp(step.address)

    def _place(self, port: int) -> str:
        """What a write to a port reaches now; nothing where it is an index."""
        if port in PLAIN_PORTS:
            return PLAIN_PORTS[port]
        if port == ATTRIBUTE:
            registers = self._card.registers()
            is_data = registers.attr_is_data
            return _named("attr", registers.attr_index & INDEX) if is_data else ""
        for at in (port, port - 1):
            if at in INDEXES:
                # Of the CRT controller's two ports one alone is there.
                with suppress(zaklimot.Refusal):
                    index = self._card.inp(at)
                    return "" if at == port else _named(INDEXES[at], index & INDEX)
        return f"port {port:03X}"


def _named(group: str, number: int) -> str:
    """A register as dumps call it: `crtc 0C start address high`."""
    names = NAMES[group]
    return f"{group} {number:02X} {names[number] if number < len(names) else ''}".rstrip()


@dataclass(frozen=True)
class ShownPicture:
    """When a picture is shown, and the picture; None of a frame without one."""

    told: str
    picture: Optional[Picture]

    @property
    def line(self) -> str:
        """What is told of it."""
        return f"{'ragged' if self.picture is None else self.picture.size}, at {self.told}"


class DifferingPictures(NamedTuple):
    """The first pictures that differ; None where a recording has no more, or a frame has none."""

    one: Optional[Picture]
    other: Optional[Picture]


@dataclass
class Recording:
    """A recording that is compared."""

    path: str
    still: float
    passed: Passed = field(default_factory=Passed)

    def steps(self, stack: ExitStack) -> Iterator[TraceStep]:
        """The steps, without polls that follow one another."""
        trace = stack.enter_context(opened(self.path))
        self.passed = Passed()
        for step in without_polls(steps_of(trace.cycles(), trace.screens)):
            self.passed.take(step)
            yield step

    def writes(self, stack: ExitStack) -> Iterator[Write]:
        """The registers that are written."""
        writes = Writes()
        for step in self.steps(stack):
            # All other steps write none, and most are of memory.
            if step.opcode in PORTS or step.opcode == INT:
                yield from writes.of(step, self.passed.told)

    def pictures(self, fonts: str, stack: ExitStack) -> Iterator[ShownPicture]:
        """The pictures that stand for a while, where nothing was written, and that at the end; of
        equal ones that follow one another the first."""
        follower = Follower(fonts)
        last: Optional[int] = None
        told = ""
        digest: Optional[str] = ""
        for step in chain(self.steps(stack), [None]):
            is_written = step is not None and step.opcode in WRITES
            if step is None or is_written and self._is_still(last, step.time):
                picture = _drawn(follower)
                found = None if picture is None else picture.sum
                if found != digest:
                    yield ShownPicture(told, picture)
                digest = found
            if step is None:
                return
            if is_written:
                last = step.time if step.time is not None else last
                told = self.passed.told
            follower.take(step)

    def _is_still(self, last: Optional[int], now: Optional[int]) -> bool:
        """Whether nothing was written for a while until now."""
        if last is None or now is None:
            return False
        return now - last >= self.still * SECOND


def _drawn(follower: Follower) -> Optional[Picture]:
    """The picture of the frame. As many frames pass behind it as it takes until the cursor and
    blinking text are as they were."""
    begun = follower.card.beam().frame
    picture = follower.picture()
    while follower.card.beam().frame != begun:
        follower.card.skip_frame()
    return picture


def compare_recordings(words: argparse.Namespace, progress: Progress) -> int:
    """Tells the first register write and the first picture in which two recordings differ."""
    both = [Recording(path, words.still) for path in (words.one, words.other)]
    if STANDARD in (words.one, words.other):
        raise Trouble("each trace is read twice, which standard input can't be")
    with ExitStack() as stack:
        are_alike = _compare_writes(both, stack)
    with ExitStack() as stack:
        shown = [one.pictures(words.fonts, stack) for one in both]
        differing = _compare_pictures(shown, both, progress)
    if words.picture is not None and differing is not None:
        _save(words, differing)
    return AGREED if are_alike and differing is None else DIFFERED


def _save(words: argparse.Namespace, differing: DifferingPictures) -> None:
    """Writes where two pictures differ, if there are two."""
    if differing.one is not None and differing.other is not None:
        shape = Shape(words.scale, words.aspect)
        save_png(words.picture, differing.one, shape, differing.other)
        print(words.picture)


def _compare_writes(both: Sequence[Recording], stack: ExitStack) -> bool:
    """Compares the registers that are written; whether they are alike."""
    count = 0
    for pair in zip_longest(*(one.writes(stack) for one in both)):
        one, other = pair
        if one != other:
            print(f"register writes: {_front(count)}write {count + 1:,} differs")
            for write, recording in zip(pair, both):
                print(f"  {recording.path}: {'no more' if write is None else write.line}")
            return False
        count += 1
    print(f"register writes: {_equal(count)}, and there are no more")
    return True


def _front(count: int) -> str:
    """What is told before what differs."""
    return f"{_equal(count)}; " if count else ""


def _equal(count: int) -> str:
    return f"the first {count:,} are equal" if count != 1 else "the first is equal"


def _compare_pictures(
    shown: Sequence[Iterator[ShownPicture]], both: Sequence[Recording], progress: Progress
) -> Optional[DifferingPictures]:
    """Compares the pictures; the first two that differ, or None."""
    count = 0
    for pair in zip_longest(*shown):
        progress.clear()
        one, other = (None if found is None else found.picture for found in pair)
        if None in pair or one != other:
            print(f"pictures: {_front(count)}picture {count + 1:,} differs")
            for found, recording in zip(pair, both):
                print(f"  {recording.path}: {'no more' if found is None else found.line}")
            if one is not None and other is not None and one.size == other.size:
                print(f"  {told_dots(one, other)}")
            return DifferingPictures(one, other)
        count += 1
    print(f"pictures: {_equal(count)}, and there are no more")
    return None
