"""Real time within frames: what software writes while the beam is on its way shows where the beam
is then."""

from typing import Iterable, Iterator, Optional

from zaklimot.commands.script.speed import Speed

from .clock import Clock
from .step import FRAME, WRITES, TraceStep, advances

# The bit of input status 1 that is set during vertical retrace.
RETRACE = 0x08
# The beam is taken to be there by less than this part of a frame.
MOST_JITTER = 16


class Beamed:
    """The steps with the dots that pass before them, by their times, and a frame at the end of each
    in which something was written.

    Where software has waited for the vertical retrace, the beam is there. A time without a write is
    cut to `longest` seconds.
    """

    def __init__(self, longest: float) -> None:
        self.longest = longest
        self._clock = Clock()
        # How fast the beam is; how many dots have passed of the frame under way, and how many of
        # these the steps so far have let pass.
        self._speed: Optional[Speed] = None
        self._place = 0.0
        self._told = 0
        self._last: Optional[int] = None
        self._is_changed = False
        # The last step, if it was a read of input status 1.
        self._poll: Optional[TraceStep] = None
        self.shortened = 0
        self.left_out = 0.0

    def steps(self, steps: Iterable[TraceStep]) -> Iterator[TraceStep]:
        """The steps, but of a row of reads of input status 1 the first alone."""
        for step in steps:
            if step.time is not None:
                yield from self._passed(step, step.time)
            is_poll = step.is_status
            if not is_poll or self._poll is None:
                is_written = step.opcode in WRITES
                yield from self._up_to_now() if is_written else ()
                yield step
                self._is_changed |= is_written
                self._clock.take(step)
            self._poll = step if is_poll else None

    def _passed(self, step: TraceStep, now: int) -> Iterator[TraceStep]:
        """The frames that have ended until now."""
        speed = self._clock.speed()
        if speed != self._speed:
            # With the frame's end it is known where the beam is in the next one.
            if self._speed is not None:
                yield TraceStep(FRAME)
            self._place = 0.0
            self._told = 0
            self._is_changed = False
        # The retrace may begin elsewhere, too.
        self._speed = speed
        passed = 0 if self._last is None else max(0, now - self._last) / 1e6
        self._last = now
        if speed is None:
            return
        if passed > self.longest:
            self.shortened += 1
            self.left_out += passed - self.longest
            passed = self.longest
        self._place += passed * speed.clock
        self._heed_retrace(step, speed.dots)
        while self._place >= speed.dots:
            yield from self._ended(speed.dots)

    def _ended(self, dots: int) -> Iterator[TraceStep]:
        if self._is_changed:
            yield TraceStep(FRAME)
        else:
            yield from advances(dots - self._told)
        self._is_changed = False
        self._place -= dots
        self._told = 0

    def _up_to_now(self) -> Iterator[TraceStep]:
        """Lets the dots pass that have passed until now."""
        dots = max(0, int(self._place) - self._told)
        if dots and self._speed is not None:
            self._told += dots
            yield from advances(dots)

    def _heed_retrace(self, step: TraceStep, dots: int) -> None:
        """Where a poll finds the retrace, and the one before it did not, the beam has just come to
        its begin: the nearest such place counts, or the next one where what has passed is behind
        it. By a little the beam isn't moved on: times are as good as the machine's clock."""
        before = self._poll
        if before is None or not step.is_status or step.address != before.address:
            return
        if not (step.value & RETRACE and not before.value & RETRACE):
            return
        begin = None if self._speed is None else self._speed.retrace
        if begin is None:
            return
        off = (begin - self._place + dots / 2) % dots - dots / 2
        if self._place + off < self._told and -off > dots / MOST_JITTER:
            off += dots
        self._place = max(self._place + off, self._told)
