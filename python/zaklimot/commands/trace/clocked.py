"""Real time by whole frames: what was written within one shows at its end."""

from typing import Iterable, Iterator, Optional

from .clock import Clock
from .step import FRAME, WRITES, TraceStep, advances


class Clocked:
    """Real time: a frame at the end of each frame of the dot clock in which something was written.

    Behind it so many frames pass as went by until the next that is drawn; a time without a write is
    cut to `longest` seconds.
    """

    def __init__(self, longest: float) -> None:
        self.longest = longest
        self._clock = Clock()
        # When the last frame that was drawn ended, and when the one ends that is under way.
        self._drawn: Optional[float] = None
        self._ends: Optional[float] = None
        self._is_changed = False
        self.shortened = 0
        self.left_out = 0.0

    def steps(self, steps: Iterable[TraceStep]) -> Iterator[TraceStep]:
        """The steps, with the frames that end before them, and the time until the end of the
        last."""
        for step in steps:
            if step.time is not None:
                yield from self._frames(step.time / 1_000_000)
            self._is_changed |= step.opcode in WRITES
            self._clock.take(step)
            yield step
        yield from self._passed()

    def _frames(self, now: float) -> Iterator[TraceStep]:
        frame = self._clock.frame()
        if self._ends is None:
            self._ends = now + frame
        if now < self._ends:
            return
        if self._is_changed:
            yield from self._passed()
            yield TraceStep(FRAME)
            self._drawn = self._ends
            self._is_changed = False
        self._ends += ((now - self._ends) // frame + 1) * frame

    def _passed(self) -> Iterator[TraceStep]:
        seconds = 0.0 if self._drawn is None or self._ends is None else self._ends - self._drawn
        if seconds > self.longest:
            self.shortened += 1
            self.left_out += seconds - self.longest
        speed = self._clock.speed()
        frames = round(min(seconds, self.longest) / self._clock.frame()) - 1
        yield from advances(0 if speed is None else speed.dots * max(frames, 0))
