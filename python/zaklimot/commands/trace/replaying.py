"""A trace replayed by the program: its pictures held against the screens that qemu showed, or with
how long they last.

What qemu is known to show otherwise is told by the pictures, or by registers and memory at a
screen.
"""

from __future__ import annotations

from collections import deque
from dataclasses import dataclass, field
from functools import cached_property
from itertools import chain, count, islice
from math import inf
from pathlib import Path
from shutil import copyfileobj
from tempfile import TemporaryDirectory
from typing import Any, Callable, Iterable, Iterator, Mapping, Optional, Sequence, Union

import zaklimot
from zaklimot.format import Answer, Picture
from zaklimot.format.answers import RAGGED
from zaklimot.format.picture import marks_in_row
from zaklimot.commands.core.progress import Progress
from zaklimot.commands.core.streams import reading, writing
from zaklimot.commands.core.trouble import Trouble
from zaklimot.commands.explain.raster import (
    byte_panning,
    character_dots,
    character_maps,
    is_doubled,
    is_graphics,
    last_line,
    last_scan,
    line_compare,
    preset_scan,
    row_lines,
    underline_scan,
)
from zaklimot.commands.images.holding import held
from zaklimot.commands.images.png import save_png
from zaklimot.commands.images.reading import Image, image_bytes, image_of
from zaklimot.commands.report.report import Report
from zaklimot.commands.script.own import OwnProgram
from zaklimot.commands.script.program import BuiltProgram, fault_of
from zaklimot.commands.script.speed import passed_of, seconds_of, speed_of

from .asked import SCREENS
from .converting import Checked, Checking, Listing, Rows, Written, folded
from .cutting import REST_OF_FRAME, ScriptEnd, end_with_frame
from .following import Follower, steps_behind
from .recording import PHASES, dump
from .step import ADVANCE, FRAME, TraceStep
from .trace import opened

# What runs a script.
Program = Union[BuiltProgram, OwnProgram]
# The page that tells what qemu is known to show otherwise.
PAGE = "docs/EMULATORS.md"
# Dots of a character where there are nine.
NINE = 9
# Dots that qemu gives to a character where nine are doubled.
WIDE = 16


@dataclass
class Screen:
    """A dump of a screen, held against the picture here, and the names of what is known of how they
    differ.

    `registers` are those of the moment, `blinks` whether a character of text memory does then if
    the registers allow it, `cycle` how many cycles came before, `lacking` what the trace
    lacks up to there, and `refused` what is told of the cycles that were refused. What was held of
    the picture is all of it, or its front where qemu leaves out the last lines, or all but the
    ninth dots of its cells. Of the page's own machine nothing is known that differs.
    """

    registers: zaklimot.Registers
    blinks: bool
    picture: Picture
    image: Image
    dump: Path = Path()
    cycle: int = 0
    lacking: str = ""
    is_own: bool = False
    refused: str = ""

    def __post_init__(self) -> None:
        self.part = self.picture
        self.held = held(self.picture, self.image)
        for part_of in () if self.is_own else (whole_rows, narrow_cells):
            if self.held.differing is not None:
                break
            part = part_of(self.registers, self.picture)
            found = held(part, self.image)
            if found.differing is not None:
                self.part = part
                self.held = found
        self.names = {} if self.is_equal or self.is_own else _known(self)

    @property
    def is_equal(self) -> bool:
        """Whether qemu shows the picture, each dot of it."""
        return self.held.differing == 0 and self.part is self.picture

    @property
    def distance(self) -> float:
        """How many dots differ; more than any number of them where the sizes do."""
        return inf if self.held.differing is None else self.held.differing

    @property
    def is_text(self) -> bool:
        """Whether the screen is text."""
        return not is_graphics(self.registers.gfx)

    @property
    def cut(self) -> int:
        """How many lines at the foot of the picture qemu leaves out."""
        return self.picture.height - self.part.height

    @property
    def is_wide(self) -> bool:
        """Whether qemu draws cells of sixteen dots, where nine are doubled."""
        return self.part.width < self.picture.width

    @cached_property
    def dots(self) -> Sequence[tuple[int, int]]:
        """The dots that differ, as columns and rows; none where the sizes do."""
        part = self.part
        other = self.held.image
        return (
            []
            if other is None
            else [
                (x, y)
                for y in range(part.height)
                if part.row(y) != other.row(y)
                for x, mark in enumerate(marks_in_row(part.row(y), other.row(y)))
                if mark
            ]
        )

    def lines(self, front: str) -> Iterator[str]:
        """What is told of it, behind words that tell which screen it is."""
        yield f"{front}, after cycle {self.cycle:,}: {self._told()}"
        if self.is_own:
            return
        if not self.is_equal and self.lacking:
            yield f"  {self.lacking}"
        elif not self.is_equal:
            for verb, names in self.names.items():
                yield f"  {verb} what is known of qemu: {', '.join(names)}; {PAGE} tells of it"
            if self.refused:
                yield f"  {self.refused}"
            elif not self.names:
                yield "  nothing that is known of qemu shows in this state"

    def _told(self) -> str:
        if self.is_equal:
            return f"equal, {self.held.how}"
        if self.held.differing is None:
            return f"another size: {self.held.how}"
        lacking = (
            f"it lacks the last {self.cut} of {self.picture.height} lines; " if self.cut else ""
        )
        if self.is_wide:
            lacking = f"its cells have {WIDE} dots, and not {NINE} doubled ones; "
        if not self.dots:
            return f"{lacking}the others are equal, {self.held.how}"
        (left, right), (top, bottom) = ((min(at), max(at)) for at in zip(*self.dots))
        where = f"in columns {left} to {right} and rows {top} to {bottom}"
        dots = self.part.width * self.part.height
        return f"{lacking}{self.held.differing:,} of {dots:,} dots differ, {where}"

    def write(self, folder: Path, number: int) -> None:
        """Leaves the dump, the picture, and where they differ."""
        self.dump.replace(kept_dump(folder, number))
        save_png(str(folder / f"picture-{number}.png"), self.picture)
        if self.dots:
            save_png(str(folder / f"differing-{number}.png"), self.part, other=self.held.image)


def _has_blinking(screen: Screen) -> bool:
    """Whether a character blinks."""
    return bool(screen.is_text and screen.registers.attr[0x10] & 8 and screen.blinks)


def _is_ninth(screen: Screen) -> bool:
    """Whether all dots are ninth dots of characters whose line graphics go on into them."""
    is_wide = character_dots(screen.registers.seq) == NINE
    has_nine = screen.is_text and is_wide and screen.registers.attr[0x10] & 4
    is_last = all(x % NINE == NINE - 1 for x, _ in screen.dots)
    return bool(has_nine and screen.dots) and is_last


def _is_split(screen: Screen) -> bool:
    crtc = screen.registers.crtc
    return screen.is_text and line_compare(crtc) < last_line(crtc)


def _has_underline(screen: Screen) -> bool:
    crtc = screen.registers.crtc
    return screen.is_text and underline_scan(crtc) <= last_scan(crtc)


def _has_two_fonts(screen: Screen) -> bool:
    """Whether bit 3 of an attribute chooses between two fonts, and colour plane enable takes it off
    the colour."""
    maps = character_maps(screen.registers.seq)
    return screen.is_text and maps.a != maps.b and not screen.registers.attr[0x12] & 8


def _is_split_within_row(screen: Screen) -> bool:
    """Whether all that differs is that qemu begins no row where a split begins within one.

    It goes on with the lines of the row that is under way, so the split's rows end too high, by the
    lines that this row has had. What comes up from below the picture can't be told from it.
    """
    picture = screen.part
    image = screen.held.image
    crtc = screen.registers.crtc
    begin = line_compare(crtc) + 1
    lines = row_lines(crtc)
    had = begin % lines
    if screen.is_text or not had or image is None or any(y < begin for _, y in screen.dots):
        return False
    shown = [(y, begin + (y - begin + had) // lines * lines) for y in range(begin, picture.height)]
    return bool(shown) and all(
        image.row(y) == picture.row(at) for y, at in shown if at < picture.height
    )


def whole_rows(registers: zaklimot.Registers, picture: Picture) -> Picture:
    """A picture of text without a last row that isn't whole; the picture itself if there is
    none."""
    height = picture.height - picture.height % row_lines(registers.crtc)
    # Under double scan qemu counts other lines to a row.
    if is_graphics(registers.gfx) or is_doubled(registers.crtc) or height in (0, picture.height):
        return picture
    return Picture.of_dots(picture.width, height, b"".join(picture.row(y) for y in range(height)))


def narrow_cells(registers: zaklimot.Registers, picture: Picture) -> Picture:
    """A picture of text without the ninth dots of its cells, where each dot is doubled; the picture
    itself if there are none."""
    clocking = registers.seq[1]
    if is_graphics(registers.gfx) or clocking & 9 != 8 or picture.width % NINE:
        return picture
    rows = (picture.row(y) for y in range(picture.height))
    dots = b"".join(row[at : at + 24] for row in rows for at in range(0, len(row), 3 * NINE))
    return Picture.of_dots(picture.width // NINE * (NINE - 1), picture.height, dots)


# The differences as the page calls them, each with what tells whether a screen has it: what
# pictures themselves tell ..
SEEN: Mapping[str, Callable[[Screen], bool]] = {
    "split within a row": _is_split_within_row,
    "last row of text that isn't whole": lambda screen: screen.cut > 0,
    "cells of sixteen dots": lambda screen: screen.is_wide,
}
# .. and what registers and memory allow.
ALLOWED: Mapping[str, Callable[[Screen], bool]] = {
    "palette address source": lambda screen: not screen.registers.attr_index & 0x20,
    "screen off": lambda screen: bool(screen.registers.seq[1] & 0x20),
    "DAC mask": lambda screen: screen.registers.dac_mask != 0xFF,
    "ninth dot": _is_ninth,
    "colour plane enable": _has_two_fonts,
    "preset row scan": lambda screen: preset_scan(screen.registers.crtc) > 0,
    "panning": (
        lambda screen: screen.registers.attr[0x13] not in (0, 8)
        or byte_panning(screen.registers.crtc) > 0
    ),
    "line compare": _is_split,
    "underline": _has_underline,
    "blinking": _has_blinking,
}


def _known(screen: Screen) -> dict[str, list[str]]:
    """The names of the differences that a screen "is" and "may be": none that the pictures rule
    out."""
    seen = [name for name, shows in SEEN.items() if shows(screen)]
    is_explained = seen and not (screen.part is not screen.picture and screen.dots)
    # Of a picture of another size no dots are known.
    is_explained = is_explained or screen.held.differing is None
    allowed = [] if is_explained else [name for name, shows in ALLOWED.items() if shows(screen)]
    return {verb: names for verb, names in (("is", seen), ("may be", allowed)) if names}


@dataclass
class Replay:
    """The steps of a trace and the answers to them, as they pass: the scripts' figures, the reads,
    and the screens.

    `cycles` tells how many cycles stand before each dump, of which a screen has several: `screens`
    keeps the nearest. A recording of the page's own machine tells the dots between its cycles, and
    has one dump of a screen.
    """

    written: Written
    listing: Listing
    folder: Path
    cycles: Sequence[int]
    checking: Checking = field(default_factory=Checking)
    screens: dict[int, Screen] = field(default_factory=dict)
    is_own: bool = False
    _dumps: int = 0

    @property
    def checked(self) -> Checked:
        """What was found of the answers so far."""
        return self.checking.checked

    def answers(self, answers: Iterator[Answer]) -> Iterator[Answer]:
        """The answers, of which each `frame` but the last is that of a dump."""
        for answer in answers:
            if answer.picture is not None or answer.answer == RAGGED:
                if self._dumps < len(self.cycles) and isinstance(answer.picture, Picture):
                    self._judge(answer.picture)
                self._dumps += 1
            yield answer

    def take_script(self, written: Written, rebuilding: int, number: int) -> None:
        """Adds the figures of a script, of which so many steps rebuild a state."""
        self.listing.rebuilding += rebuilding
        if number == 1:
            self.written = written
        else:
            self.written.add(written)

    def _judge(self, picture: Picture) -> None:
        number = self._dumps // (1 if self.is_own else PHASES)
        path = dump(self.folder, self._dumps)
        # Of a recording that was judged before, the nearest dump is left.
        if not path.exists():
            path = kept_dump(self.folder, number + 1)
        if not path.exists():
            return
        image = image_of(image_bytes(str(path)), str(path))
        cycle = self.cycles[self._dumps]
        card = self.checking.follower.card
        screen = Screen(
            card.registers(),
            # Bit 7 of an attribute, which are in plane 1.
            max(card.plane(1)) >= 0x80,
            picture,
            image,
            path,
            cycle,
            self.listing.trace.lacking,
            self.is_own,
            self.checking.left_out(),
        )
        if number not in self.screens or screen.distance < self.screens[number].distance:
            self.screens[number] = screen


def kept_dump(folder: Path, number: int) -> Path:
    """The dump of a screen that is kept, counted from 1."""
    return folder / f"screen-{number}.ppm"


def script_files(folder: Path, number: int) -> tuple[Path, Path]:
    """A script of a recording and its report, counted from 1."""
    middle = "" if number == 1 else f"-{number}"
    return folder / f"script{middle}.bin", folder / f"report{middle}.txt"


def _run_script(program: Program, fonts: str, script: Path, report: Path) -> None:
    """Runs a script, and leaves its report once it is whole."""
    name = program.path if isinstance(program, BuiltProgram) else str(script)
    with TemporaryDirectory(prefix=".run.", dir=report.parent) as made:
        answers = Path(made) / "report"
        with program.running(script, fonts, None, True) as run, open(answers, "wb") as stream:
            copyfileobj(run.report, stream)
        if run.status:
            raise Trouble(f"it ended with status {run.status}: {fault_of(run)}", name)
        answers.replace(report)


def _write_script(rows: Rows, before: Sequence[TraceStep], script: Path, spare: int) -> Written:
    """Writes a script of as many rows as it may have, behind steps that rebuild a state. So many
    bytes and steps are kept free."""
    written = Written(False, spare=spare)
    body = bytearray()
    for row in folded(before, TraceStep.data):
        body += written.row(row)
    body += rows.fill(written)
    with writing(str(script)) as stream:
        stream.write(written.header())
        stream.write(body)
    return written


class _Scripts:
    """The scripts of a recording, which are made from its steps, run and held against these, one
    after the other."""

    def __init__(self, done: Replay, rows: Rows, program: Program, fonts: str) -> None:
        self._done = done
        self._rows = rows
        self._program = program
        self._fonts = fonts
        self._steps = done.listing.steps()
        # The steps that rebuild the state before the next script.
        self._before: Sequence[TraceStep] = ()

    def make(self, progress: Progress) -> None:
        """Makes them all."""
        for number in count(1):
            script, report = script_files(self._done.folder, number)
            written, ended = self._write(script)
            _run_script(self._program, self._fonts, script, report)
            with reading(str(report)) as stream:
                answers = self._done.answers(Report(stream, str(report), progress).steps())
                self._hold(written, ended, answers, str(report))
            self._done.take_script(written, len(self._before), number)
            if self._rows.are_done:
                break
            # The next script begins with steps that rebuild the state.
            self._steps = chain(ended.left, self._steps)
            self._before = steps_behind(script.read_bytes(), self._fonts)
        # What the trace lacks is known at its end.
        deque(self._steps, 0)

    def _write(self, script: Path) -> tuple[Written, ScriptEnd]:
        """Writes the next script; how it ends, which is nothing special without the exact time."""
        is_own = self._done.is_own
        spare = REST_OF_FRAME if is_own else 0
        written = _write_script(self._rows, self._before, script, spare)
        ended = ScriptEnd()
        if is_own and not self._rows.are_done:
            ended, self._rows = end_with_frame(script, written, self._rows, self._fonts)
        return written, ended

    def _hold(
        self, written: Written, ended: ScriptEnd, answers: Iterator[Answer], name: str
    ) -> None:
        before = len(self._before)
        # The card rebuilds its state by these steps, and has compared it.
        deque(islice(answers, before), 0)
        own = written.steps - before - len(ended.steps)
        if not (own or ended.steps):
            raise Trouble("no step has room beside those that rebuild the state", name)
        steps = chain(islice(self._steps, own), ended.as_traced(self._steps))
        self._done.checking.take(steps, answers, name)


def replay(
    folder: Path, program: Program, fonts: str, progress: Progress, is_own: bool = False
) -> Replay:
    """Makes script.bin and report.txt beside a trace and its screens in a folder, and holds all
    against one another.

    What has no room in one script goes on in the next, which rebuilds the state first. In a
    recording of the page's own machine time passes, dot by dot, and a script ends with a frame.
    """
    with opened(str(folder), may_be_cut=True) as made, opened(str(folder), may_be_cut=True) as read:
        given: dict[str, Any] = {"has_time": is_own, "frames": SCREENS}
        rows = Rows(folded(Listing(made, **given).steps(), TraceStep.data))
        listing = Listing(read, **given)
        checking = Checking(is_own, fonts)
        done = Replay(Written(False), listing, folder, read.screens, checking, is_own=is_own)
        _Scripts(done, rows, program, fonts).make(progress)
    return done


def shown(
    steps: Iterable[TraceStep], fonts: str, progress: Progress
) -> Iterator[tuple[Picture, float]]:
    """The pictures at the frames of steps, each with the seconds that it is seen.

    Equal ones that follow one another are one.
    """
    follower = Follower(fonts)
    last: Optional[Picture] = None
    seconds = 0.0
    dots = 0
    for number, step in enumerate(steps, 1):
        if progress.is_due():
            progress.tell(f"step {number:,}")
        if step.opcode != FRAME:
            dots += step.address if step.opcode == ADVANCE else 0
            follower.take(step)
            continue
        speed = speed_of(follower.card)
        seconds += passed_of(speed, dots)
        dots = 0
        picture = follower.picture()
        if picture is None:
            continue
        if last is not None and picture.ppm != last.ppm:
            yield last, seconds
            seconds = 0.0
        seconds = (0.0 if last is None else seconds) + seconds_of(speed)
        last = picture
    progress.clear()
    if last is None:
        raise Trouble("no frame has a picture")
    yield last, seconds
