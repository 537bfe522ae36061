"""From a trace to a script: its steps, with the time and the frames between them.

Rows of equal steps, and of equal groups of steps, become blocks.
"""

from collections import Counter
from dataclasses import dataclass, field
from functools import lru_cache
from itertools import chain, islice
from operator import attrgetter
from typing import BinaryIO, Callable, Iterable, Iterator, NamedTuple, Optional, Sequence, Union

import zaklimot
from zaklimot import format
from zaklimot.format import (
    FIRST_LINE,
    FORMS,
    HEADERS,
    MOST_BYTES,
    MOST_STEPS,
    Answer,
    is_answer_to,
)
from zaklimot.format.picture import Digest
from zaklimot.format.report import REFUSAL, SKIPPED, VALUE
from zaklimot.commands.core.streams import counted
from zaklimot.commands.core.trouble import Trouble
from zaklimot.commands.explain.ports import (
    ATTRIBUTE_READ,
    COLOUR,
    GRAPHICS,
    MONOCHROME,
    SEQUENCER,
)

from .asked import BEAM, CLOCK, END, FLIP, SCREENS, Frames
from .beamed import Beamed
from .clock import Clock
from .clocked import Clocked
from .following import Follower
from .step import (
    ADVANCE,
    BEAM_BITS,
    FRAME,
    GET,
    IN,
    INT,
    NAMES,
    OUT,
    OUTW,
    PORTS,
    PUT,
    PUTW,
    TraceStep,
    advances,
    steps_of,
    without_polls,
)
from .trace import PORT, Trace

# Bytes that are kept free, as text: for the steps at the end, and for a row that is no block once
# it is cut there.
FOR_THE_END = 1024
# How answers begin of steps that ask for what the adapter leaves out; a step that is not decoded,
# qemu drops as well.
LEFT_OUT = "E2 "
# The bytes of a block but its steps, and the most steps that are looked at as one group.
BLOCK_BYTES = format.Block(1, ()).size
MOST_GROUP = 8
# Steps that are looked at ahead: as many as the shortest row that is worth a block may have. More
# are fetched at once.
AHEAD = 64
FETCHED = 4096
# A step as its bytes or its line.
Code = Callable[[TraceStep], bytes]
# Microseconds that are put together before they become a step: about a line.
LEAST_PAUSE = 30
CONTROLLERS = (COLOUR, MONOCHROME)
# The ports of indexes, which are read without an effect, and the bits of an index.
INDEX_PORTS = (SEQUENCER, GRAPHICS, COLOUR, MONOCHROME)
INDEX = 0x1F
# The CRT controller's registers of the start address, which a page flip writes.
START_ADDRESS = (0x0C, 0x0D)
# What gives the opcode of a step.
OPCODE_OF: Callable[[TraceStep], int] = attrgetter("opcode")
# The steps that read a byte, and their answers.
READING_BYTES = (IN, GET)
BYTES = {f"{value:02X}" for value in range(256)}
# How a step is answered that was done, and those that are answered so.
DONE = "ok"
DOING = (OUT, OUTW, PUT, PUTW, ADVANCE)
OTHER_SCRIPT = "it is of another script"
# Windows of memory, by the 32 KiB that they have, and the bits of an address in one.
WINDOW_BITS = 15
WINDOWS = {0x14: "A0000", 0x15: "A0000", 0x16: "B0000", 0x17: "B8000"}


class Pauses:
    """The time between steps, as dots of the clock that the steps before have chosen; exact where
    the trace tells them."""

    def __init__(self) -> None:
        self._clock = Clock()
        self._last: Optional[int] = None
        self._owed = 0
        self.backwards = 0

    def steps(self, steps: Iterable[TraceStep]) -> Iterator[TraceStep]:
        """The steps, with the clock advanced before those to which time has passed."""
        for step in steps:
            dots = self._dots(step.time) if step.dots is None else self._exact(step)
            if dots:
                yield from advances(dots)
            self._clock.take(step)
            yield step

    def _exact(self, step: TraceStep) -> int:
        """The dots before a step that the trace tells. A frame lets its last dot pass itself."""
        self._last = step.time
        self._owed = 0
        return max(0, (step.dots or 0) - (step.opcode == FRAME))

    def _dots(self, now: Optional[int]) -> int:
        """The dots of the time that has passed until now, a frame's at most; 0 of less than a line,
        kept for later."""
        if now is not None:
            passed = 0 if self._last is None else now - self._last
            self._last = now
            self.backwards += passed < 0
            self._owed += max(passed, 0)
        if self._owed < LEAST_PAUSE:
            return 0
        owed = self._owed
        self._owed = 0
        speed = self._clock.speed()
        return 0 if speed is None else min(int(owed * speed.clock / 1_000_000), speed.dots)


def with_flips(steps: Iterable[TraceStep]) -> Iterator[TraceStep]:
    """The steps, with a frame before each write that changes the start address: what was drawn
    until then.

    There is one frame for the two halves of an address.
    """
    clock = Clock()
    start = _start_address(clock)
    is_flipping = False
    for step in steps:
        clock.take(step)
        if step.opcode not in (OUT, OUTW) or step.address & ~1 not in CONTROLLERS:
            is_flipping = False
            start = start if step.call is None else _start_address(clock)
            yield step
            continue
        before, start = start, _start_address(clock)
        # A step that goes on with a flip that another has begun has no frame of its own.
        if start != before and not is_flipping:
            yield TraceStep(FRAME, time=step.time)
        goes_on = is_flipping and clock.card.registers().crtc_index in START_ADDRESS
        is_flipping = start != before or goes_on
        yield step


def _start_address(clock: Clock) -> Sequence[int]:
    """The CRT controller's registers of the start address."""
    crtc = clock.card.registers().crtc
    return [crtc[index] for index in START_ADDRESS]


def with_frames_every(seconds: float, steps: Iterable[TraceStep]) -> Iterator[TraceStep]:
    """The steps, with a frame each time that so many seconds have passed by their times."""
    pause = max(int(seconds * 1_000_000), 1)
    due: Optional[int] = None
    for step in steps:
        if step.time is not None and (due is None or step.time >= due):
            if due is not None:
                yield TraceStep(FRAME, time=step.time)
            due = step.time + pause
        yield step


class Listing:
    """The steps of a trace, in the order of the script, and how cycles become steps.

    That is whether all polls stay, whether time passes, when a frame stands, and how many cycles
    count. The script begins with the cycle of the number `first`, and with steps that rebuild what
    those before it have done. With frames by the clock a time without a write lasts `longest`
    seconds at most.
    """

    def __init__(
        self,
        trace: Trace,
        keeps_polls: bool = True,
        has_time: bool = False,
        frames: Frames = END,
        most: Optional[int] = None,
        first: int = 1,
        longest: float = 1,
        fonts: Optional[str] = None,
    ) -> None:
        self.trace = trace
        self._fonts = fonts
        self._keeps_polls = keeps_polls
        self._has_time = has_time
        self._frames = frames
        self._is_timed = has_time or frames in (CLOCK, BEAM) or isinstance(frames, float)
        trace.wants_time = self._is_timed
        self._most = most
        self._first = first
        self._pauses = Pauses()
        self._clocked: Union[Beamed, Clocked] = (
            Beamed(longest) if frames == BEAM else Clocked(longest)
        )
        self.rebuilding = 0

    def steps(self) -> Iterator[TraceStep]:
        """The steps, and the frame at the end. Where time passes there are two: the first began
        amid the cycles."""
        steps = steps_of(self.trace.cycles(self._most), self.trace.screens)
        if self._is_timed:
            steps = self._timed(steps)
        if not self._keeps_polls:
            steps = without_polls(steps)
        if self._frames == FLIP:
            steps = with_flips(steps)
        elif self._frames == SCREENS:
            steps = self._with_screens(steps)
        elif self._frames in (CLOCK, BEAM):
            steps = self._clocked.steps(steps)
        elif isinstance(self._frames, float):
            steps = with_frames_every(self._frames, steps)
        if self._has_time:
            steps = self._pauses.steps(steps)
        yield from steps if self._first == 1 else self._from_the_middle(steps)
        yield from [TraceStep(FRAME)] * (2 if self._has_time else 1)

    def warnings(self) -> Iterator[str]:
        """What the trace lacks, a line each; the steps must have passed."""
        yield from self.trace.warnings()
        if self._pauses.backwards:
            times = counted(self._pauses.backwards, "time", ",")
            yield f"the time runs back {times}, which is no pause"
        clocked = self._clocked
        if clocked.shortened:
            silences = counted(clocked.shortened, "silence")
            yield (
                f"{silences} cut to {clocked.longest:g} s, and {clocked.left_out:,.1f} s left"
                " out so"
            )
        if self._is_timed and self.trace.untimed:
            cycles = counted(self.trace.untimed, "cycle", ",")
            has = "has no time, and comes" if self.trace.untimed == 1 else "have no time, and come"
            yield f"{cycles} {has} without a pause"

    def _from_the_middle(self, steps: Iterator[TraceStep]) -> Iterator[TraceStep]:
        follower = Follower(self._fonts)
        for step in steps:
            if step.cycle >= self._first:
                break
            follower.take(step)
        else:
            cycles = counted(self.trace.count, "cycle", ",")
            told = f"it has {cycles}, and none from {self._first:,} on becomes a step"
            raise Trouble(told, self.trace.name)
        before = follower.rebuilt()
        self.rebuilding += len(before)
        yield from before
        yield step
        yield from steps

    def _with_screens(self, steps: Iterator[TraceStep]) -> Iterator[TraceStep]:
        screens = self.trace.screens
        dots = self.trace.screen_dots
        taken = 0
        for step in steps:
            passed = 0
            while taken < len(screens) and screens[taken] < step.cycle:
                yield TraceStep(FRAME, time=step.time, dots=dots[taken])
                passed += dots[taken] or 0
                taken += 1
            # The dots of the screens are among those since the cycle before.
            yield step if step.dots is None else step._replace(dots=step.dots - passed)
        yield from (TraceStep(FRAME, dots=last) for last in dots[taken:])

    def _timed(self, steps: Iterator[TraceStep]) -> Iterator[TraceStep]:
        for number, step in enumerate(steps):
            if number == 0 and step.time is None:
                raise self.trace.trouble("the first cycle has no time, and time is asked for")
            yield step


class Repeated(NamedTuple):
    """Steps with their codes, which a script has so often; the cycle of the last one that has one,
    else 0."""

    steps: Sequence[TraceStep]
    codes: Sequence[bytes]
    times: int
    cycle: int


def folded(steps: Iterable[TraceStep], code: Code, has_blocks: bool = True) -> Iterator[Repeated]:
    """The steps, but rows of equal steps or equal groups as blocks where these have at most half of
    the bytes. Steps between them come together, many at a time.

    Steps are equal if their codes are. As lines, what is read is expected to be equal too: a line
    has one answer.
    """
    ahead = _Ahead(iter(steps), code)
    while ahead.has(AHEAD):
        at = ahead.at
        size = ahead.next_group() if has_blocks else ahead.pass_all()
        if ahead.at > at:
            yield ahead.passed(at)
        if size:
            yield ahead.block(size)


class _Ahead:
    """The steps that come next, from a place on, and their codes."""

    def __init__(self, rest: Iterator[TraceStep], code: Code) -> None:
        self._rest = rest
        self._code = code
        self._is_whole = False
        self.steps: list[TraceStep] = []
        self.codes: list[bytes] = []
        self.at = 0

    def has(self, wanted: int) -> bool:
        """Whether there is a step. So many are fetched, if there are."""
        if len(self.steps) - self.at < wanted:
            more = list(islice(self._rest, FETCHED))
            self._is_whole = len(more) < FETCHED
            self.steps = self.steps[self.at :] + more
            self.codes = self.codes[self.at :] + list(map(self._code, more))
            self.at = 0
        return self.at < len(self.steps)

    def pass_all(self) -> int:
        """Passes all steps that are here; 0, since no group comes then."""
        self.at = len(self.steps)
        return 0

    def next_group(self) -> int:
        """Passes the steps up to the next group that is worth a block, and answers its size; 0
        where none is among those that are here."""
        codes = self.codes
        end = len(codes) - (0 if self._is_whole else AHEAD - 1)
        for at in range(self.at, end):
            if codes[at] in codes[at + 1 : at + 1 + MOST_GROUP]:
                size = self._group(at)
                if size:
                    self.at = at
                    return size
        self.at = max(self.at, end)
        return 0

    def passed(self, begin: int) -> Repeated:
        """The steps from a place on that were passed, as one row."""
        steps = self.steps[begin : self.at]
        cycle = next((step.cycle for step in reversed(steps) if step.cycle), 0)
        return Repeated(steps, self.codes[begin : self.at], 1, cycle)

    def block(self, size: int) -> Repeated:
        """The group of this size that stands here, as often as it does, and passes it."""
        group = self.steps[self.at : self.at + size]
        codes = self.codes[self.at : self.at + size]
        times = 1
        last = group[-1]
        self.at += size
        while (
            times < format.MOST_COUNT
            and self.has(size)
            and self.codes[self.at : self.at + size] == codes
        ):
            self.at += size
            times += 1
            last = self.steps[self.at - 1]
        return Repeated(group, codes, times, last.cycle)

    def _group(self, at: int) -> int:
        """The size of the smallest group that stands at a place so often that it is worth a block;
        else 0."""
        codes = self.codes
        ahead = codes[at : at + 2 * MOST_GROUP + 1]
        for size in range(1, (len(ahead) + 1) // 2):
            # No group is worth a block that doesn't stand three times.
            if not ahead[size] == ahead[0] == ahead[2 * size]:
                continue
            group = ahead[:size]
            if ahead[size : 2 * size] == group:
                length = sum(step.size for step in self.steps[at : at + size])
                least = -(-2 * (BLOCK_BYTES + length) // length)
                if codes[at : at + least * size] == group * least:
                    return size
        return 0


@dataclass
class Written:
    """How many steps of each kind and how many blocks a script has, and its bytes and those of its
    text."""

    is_text: bool
    kinds: Counter[str] = field(default_factory=Counter)
    blocks: int = 0
    script_bytes: int = len(HEADERS[1])
    text_bytes: int = 0
    last_cycle: int = 0
    # So many bytes and steps are kept free besides.
    spare: int = 0

    @property
    def steps(self) -> int:
        """How many steps it means."""
        return sum(self.kinds.values())

    @property
    def fits(self) -> bool:
        """Whether a script may have as much."""
        size = max(self.script_bytes, self.text_bytes)
        free = FOR_THE_END + self.spare
        return size <= MOST_BYTES - free and self.steps <= MOST_STEPS - free

    def row(self, row: Repeated) -> bytes:
        """Counts a row; what the script has of it."""
        body = b"".join(row.codes)
        if row.times > 1:
            ends = format.encoded(format.Block(row.times, ()))
            words = f"{format.REPEAT} {row.times}\n".encode(), f"{format.END}\n".encode()
            front, end = words if self.is_text else (ends[:-1], ends[-1:])
            body = front + body + end
        self._count(row, body, 1)
        return body

    def drop(self, row: Repeated, body: bytes) -> None:
        """Takes back what was counted of a row."""
        self._count(row, body, -1)

    def add(self, other: "Written") -> None:
        """Counts what another script has as well."""
        self.kinds += other.kinds
        self.blocks += other.blocks
        self.script_bytes += other.script_bytes
        self.text_bytes += other.text_bytes

    def _count(self, row: Repeated, body: bytes, times: int) -> None:
        for opcode, count_of in Counter(map(OPCODE_OF, row.steps)).items():
            name = NAMES[opcode]
            self.kinds[name] += count_of * row.times * times
            self.script_bytes += FORMS[name].size * count_of * times
            if opcode == INT:
                self.script_bytes += times * sum(step.block_bytes for step in row.steps)
        if row.times > 1:
            self.blocks += times
            self.script_bytes += BLOCK_BYTES * times
        self.text_bytes += len(body) * times if self.is_text else 0

    def header(self) -> bytes:
        """What stands before the rows: version 2 alone has blocks."""
        if self.is_text:
            return f"{FIRST_LINE}\n".encode() if self.blocks else b""
        return HEADERS[2 if self.blocks else 1]

    def line(self, listing: Listing) -> str:
        """The figures."""
        length = self.text_bytes + len(self.header()) if self.is_text else self.script_bytes
        kinds = ", ".join(f"{count:,} {kind}" for kind, count in self.kinds.most_common())
        parts = [
            counted(listing.trace.count, "cycle", ","),
            counted(self.steps, "step", ","),
            f"{length:,} bytes",
        ]
        if self.blocks:
            parts.append(counted(self.blocks, "repeat", ","))
        if listing.trace.polls:
            parts.append(f"{counted(listing.trace.polls, 'poll', ',')} folded")
        if listing.rebuilding:
            parts.append(f"{listing.rebuilding:,} steps rebuild the state")
        return f"{', '.join(parts)}: {kinds}"


class Rows:
    """Rows of steps, from which one script after the other is filled."""

    def __init__(self, rows: Iterator[Repeated]) -> None:
        self._rows = rows
        self._next = next(rows, None)

    @property
    def are_done(self) -> bool:
        """Whether there is no row any more."""
        return self._next is None

    def fill(self, written: Written) -> bytearray:
        """The next rows, as many as a script may have."""
        body = bytearray()
        while self._next is not None:
            data = written.row(self._next)
            if written.fits:
                body += data
                written.last_cycle = self._next.cycle or written.last_cycle
                self._next = next(self._rows, None)
                continue
            written.drop(self._next, data)
            if self._next.times > 1 or len(self._next.steps) == 1:
                break
            # Some of its steps may fit.
            self._part(self._next)
        return body

    def steps(self) -> Iterator[TraceStep]:
        """The steps of all rows that are left, one after the other."""
        while self._next is not None:
            row = self._next
            for _ in range(row.times):
                yield from row.steps
            self._next = next(self._rows, None)

    def _part(self, row: Repeated) -> None:
        """Takes a row of steps apart that come one after the other."""
        each = (Repeated([step], [code], 1, step.cycle) for step, code in zip(row.steps, row.codes))
        self._next = next(each)
        self._rows = chain(each, self._rows)


def convert(
    listing: Listing, stream: BinaryIO, is_text: bool = False, has_blocks: bool = True
) -> Written:
    """Writes a script as text or bytes; a Trouble where it has more bytes, or means more steps,
    than a script may.

    Rows of equal steps become blocks, which version 2 has, if these are wanted.
    """
    written = Written(is_text)
    code = TraceStep.text if is_text else TraceStep.data
    rows = Rows(folded(listing.steps(), code, has_blocks))
    body = rows.fill(written)
    if not rows.are_done:
        last = written.last_cycle
        most = f"more than {MOST_BYTES:,} bytes, or means more than {MOST_STEPS:,} steps"
        part = f"; `--to {last}` ends before that, and `--from {last + 1}` goes on after it"
        raise Trouble(
            f"the script has {most}{part if last else ', and no cycle fits'}",
            listing.trace.name,
        )
    stream.write(written.header())
    stream.write(body)
    return written


@dataclass
class Checked:
    """How many steps were answered, refused and left out, which reads there were, and which of them
    differ."""

    steps: int = 0
    skipped: int = 0
    reads: Counter[str] = field(default_factory=Counter)
    refused: Counter[str] = field(default_factory=Counter)
    differing: Counter[str] = field(default_factory=Counter)
    examples: dict[str, str] = field(default_factory=dict)

    @property
    def agrees(self) -> bool:
        """Whether each step was done, and each read answered as in the trace."""
        return not (self.refused or self.differing)

    def lines(self, most: int) -> Iterator[str]:
        """The figures, and so many kinds at most of refusals, of reads, and of those that
        differ."""
        refused, reads, differing = (
            sum(kinds.values()) for kinds in (self.refused, self.reads, self.differing)
        )
        skipped = f", {self.skipped:,} skipped" if self.skipped else ""
        yield (
            f"{counted(self.steps, 'step', ',')}, {refused:,} refused,"
            f" {counted(reads, 'read', ',')} answered,"
            f" {differing:,} differ{'s' * (differing == 1)}{skipped}"
        )
        for name, kinds in (
            ("refused", self.refused),
            ("read", self.reads),
            ("differ", self.differing),
        ):
            for kind, count in kinds.most_common(most):
                yield f"  {name:7} {count:9,} {kind}" + (
                    "" if name == "read" else f" ({self.examples[kind]})"
                )

    def note(self, kinds: Counter[str], kind: str, told: str) -> None:
        """Counts a refusal or a read that differs; of each kind the first is told."""
        kinds[kind] += 1
        self.examples.setdefault(kind, f"first at step {told}")

    def take(self, step: TraceStep, answer: Answer, kind: str, is_exact: bool = False) -> None:
        """Counts a step and its answer. A trace without dots doesn't tell where the beam is: of
        input status 1 these bits don't count then.
        """
        if answer.kind == VALUE:
            self.read(step, answer.answer, kind, is_exact)
            return
        self.steps += 1
        if answer.answer == SKIPPED:
            self.skipped += 1
        elif answer.kind == REFUSAL:
            self.note(self.refused, f"{answer.answer}: {kind}", f"{self.steps:,}")

    def read(self, step: TraceStep, answer: str, kind: str, is_exact: bool) -> None:
        """Counts a step that was answered by what it read."""
        self.steps += 1
        self.reads[kind] += 1
        differing = int(answer, 16) ^ step.value
        if differing and differing & ~(BEAM_BITS if step.is_status and not is_exact else 0):
            traced = f"{step.value:0{len(answer)}X}"
            told = f"{self.steps:,}: traced {traced}, answered {answer}"
            self.note(self.differing, kind, told)


def _judged(step: TraceStep, number: int, answer: Optional[Answer], name: str) -> Answer:
    """The answer of a step; a Trouble where the report has none, or one that is no answer of such a
    step."""
    if answer is None:
        raise Trouble(
            f"it ends before step {number:,}, `{NAMES[step.opcode]}`: {OTHER_SCRIPT}", name
        )
    is_any = answer.kind == REFUSAL or answer.answer == SKIPPED
    # A report that is kept as text has no pictures.
    if not (
        is_any
        or isinstance(answer.picture, Digest)
        and step.opcode == FRAME
        or is_answer_to(step.step, answer)
    ):
        reason = (
            f"step {number:,} is `{NAMES[step.opcode]}`, and '{answer.answer[:40]}' answers none:"
            f" {OTHER_SCRIPT}"
        )
        raise Trouble(reason, name, answer.line)
    return answer


class Checking:
    """Holds the answers of reports against the steps of a trace, one report after the other. A card
    follows the steps.

    Where time has passed by the dots of the trace, the beam is where it was.
    """

    def __init__(self, has_time: bool = False, fonts: Optional[str] = None) -> None:
        self.checked = Checked()
        self.follower = Follower(fonts)
        self._has_time = has_time
        # The last byte that each port of an index was given, also by a step that was refused.
        self._given: dict[int, int] = {}
        # How many steps were refused that qemu does, and why the first of them was.
        self._left_out = 0
        self._why = ""

    def left_out(self) -> str:
        """What is told of the steps so far that ask for what the adapter leaves out; empty if there
        are none."""
        steps = counted(self._left_out, "cycle")
        asked = f"ask{'s' * (self._left_out == 1)} for what this adapter leaves out"
        told = f"{steps} before it {asked}, which may be the cause"
        return f"{told}: {self._why}" if self._left_out else ""

    def take(self, steps: Iterable[TraceStep], answers: Iterator[Answer], name: str) -> None:
        """Holds the answers of a report, which messages call by a name, against steps."""
        checked = self.checked
        for step in steps:
            answer = next(answers, None)
            # Most steps write, and are done.
            if answer is not None and answer.answer == DONE and step.opcode in DOING:
                checked.steps += 1
            else:
                self._take(step, answer, name)
            if step.opcode in (OUT, OUTW) and step.address in INDEX_PORTS:
                self._given[step.address] = step.value & 0xFF
            self.follower.take(step)
        if next(answers, None) is not None:
            raise Trouble(
                f"it has more than the {self.checked.steps:,} steps of the trace: {OTHER_SCRIPT}",
                name,
            )

    def _take(self, step: TraceStep, given: Optional[Answer], name: str) -> None:
        """Takes a step that reads, or one that was not done."""
        is_exact = self._has_time and step.dots is not None
        if given is not None and step.opcode in READING_BYTES and given.answer in BYTES:
            self.checked.read(step, given.answer, self._kind(step), is_exact)
            return
        answer = _judged(step, self.checked.steps + 1, given, name)
        self.checked.take(step, answer, self._kind(step), is_exact)
        if answer.answer.startswith(LEFT_OUT):
            self._left_out += 1
            if not self._why:
                reason = self.follower.card.explain_step(HEADERS[1] + step.data())
                is_it = reason is not None and reason.refusal.number == answer.refusal
                why = reason.text if reason is not None and is_it else answer.answer
                self._why = f"{format.printed(step.step)}: {why}"

    def _kind(self, step: TraceStep) -> str:
        if step.call is not None:
            return f"{NAMES[step.opcode]} AH {step.call.registers[0] >> 8:02X}"
        if step.opcode in PORTS:
            return _kind_of(step.opcode, step.address, self._index(step.address))
        return _kind_of(step.opcode, step.address >> WINDOW_BITS << WINDOW_BITS, -1)

    def _index(self, port: int) -> int:
        """The number of the register that a port of data reaches; -1 of any other port."""
        card = self.follower.card
        if port == ATTRIBUTE_READ:
            return card.registers().attr_index & INDEX
        if port - 1 not in INDEX_PORTS:
            return -1
        try:
            return card.inp(port - 1) & INDEX
        except zaklimot.Refusal:
            # The adapter has no such port now: the index is what the software gave.
            return self._given.get(port - 1, 0) & INDEX


@lru_cache(1 << 12)
def _kind_of(opcode: int, address: int, index: int) -> str:
    """What a step does and where: a port, of data with its register's index, or a window of
    memory."""
    if opcode not in PORTS:
        return f"{NAMES[opcode]} {place_of(address)}"
    told = f" index {index:02X}" if index >= 0 else ""
    return f"{NAMES[opcode]} {PORT} {address:03X}{told}"


def check(
    steps: Iterable[TraceStep], answers: Iterator[Answer], name: str, has_time: bool = False
) -> Checked:
    """Holds the answers of a report against the steps of a whole trace: see `Checking`."""
    checking = Checking(has_time)
    checking.take(steps, answers, name)
    return checking.checked


def place_of(address: int) -> str:
    """A name of the window of memory that an address is in."""
    return f"memory {WINDOWS.get(address >> WINDOW_BITS, 'elsewhere')}"
