"""Where a script of a recording ends that has the exact time, and the next one begins: where a
frame does, so that no picture is drawn in parts. A card that takes the script tells where its beam
is."""

from collections import deque
from dataclasses import dataclass, field
from itertools import chain, islice
from pathlib import Path
from typing import BinaryIO, Iterator

from .converting import Repeated, Rows, Written, folded
from .following import Follower
from .step import ADVANCE, FRAME, TraceStep

# So many bytes and steps of a script are kept free for the rest of the frame at its end.
REST_OF_FRAME = 1 << 20
# So often an end is looked for: registers may change how long the frame lasts.
TRIES = 8


@dataclass
class ScriptEnd:
    """How a script ends: the steps that were added up to the end of a frame, how many of the
    trace's these are, and the dots that are left of the last of them."""

    steps: list[TraceStep] = field(default_factory=list)
    taken: int = 0
    left: list[TraceStep] = field(default_factory=list)

    def as_traced(self, traced: Iterator[TraceStep]) -> Iterator[TraceStep]:
        """The steps that were added, with what the trace read: rows of equal steps have it of their
        first alone."""
        others = (step for step in islice(traced, self.taken) if step.opcode != ADVANCE)
        for step in self.steps:
            yield step if step.opcode == ADVANCE else next(others)
        # An advance may be left.
        deque(others, 0)


def end_with_frame(
    script: Path, written: Written, rows: Rows, fonts: str
) -> tuple[ScriptEnd, Rows]:
    """Adds steps to a script up to the end of the frame under way; the rows that are left."""
    ended = ScriptEnd()
    steps = rows.steps()
    # What was kept free is for these steps.
    written.spare = 0
    follower = Follower(fonts)
    follower.take_script(script.read_bytes())
    for _ in range(TRIES):
        if _is_at_begin(follower) or not written.fits:
            break
        with open(script, "ab") as stream:
            _add_up_to_end(ended, steps, written, stream, follower)
    return ended, Rows(folded(chain(ended.left, steps), TraceStep.data))


def _is_at_begin(follower: Follower) -> bool:
    """Whether the next dot is a frame's first."""
    beam = follower.card.beam()
    return not (beam.line or beam.character or beam.dot)


def _add_up_to_end(
    ended: ScriptEnd,
    steps: Iterator[TraceStep],
    written: Written,
    stream: BinaryIO,
    follower: Follower,
) -> None:
    """Writes the steps up to the end of the frame under way, as many as the script may have."""
    for step in _up_to_end(ended, steps, follower.card.clock().to_frame):
        ended.steps.append(step)
        follower.take(step)
        stream.write(written.row(Repeated([step], [step.data()], 1, step.cycle)))
        if not written.fits:
            return


def _going_on(ended: ScriptEnd, steps: Iterator[TraceStep]) -> Iterator[TraceStep]:
    """What is left of the last step, and the steps after it."""
    while ended.left:
        yield ended.left.pop()
    for step in steps:
        ended.taken += 1
        yield step


def _up_to_end(ended: ScriptEnd, steps: Iterator[TraceStep], dots: int) -> Iterator[TraceStep]:
    """The steps until so many dots have passed, or a frame has ended; what is left of the last
    stays."""
    for step in _going_on(ended, steps):
        if step.opcode == ADVANCE and step.address >= dots:
            if step.address > dots:
                ended.left.append(step._replace(address=step.address - dots))
            yield step._replace(address=dots)
            return
        yield step
        if step.opcode == FRAME:
            return
        dots -= step.address if step.opcode == ADVANCE else 0
