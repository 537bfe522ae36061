"""Moments of a trace, and the steps up to them: a second, a cycle, a screen that was taken, or the
end; and all at which something may be seen that was not seen before."""

from dataclasses import dataclass
from itertools import chain
from typing import Iterator, Optional

from zaklimot.commands.core.streams import counted
from zaklimot.commands.core.trouble import Trouble

from .clocked import Clocked
from .converting import Pauses
from .recording import PHASES
from .step import ADVANCE, FRAME, TraceStep, advances, steps_of, without_polls
from .trace import Cycle, Trace

# Microseconds of a second.
SECOND = 1_000_000
# The seconds of a time without writes, as `pictures` cuts it.
LONGEST = 1


@dataclass(frozen=True)
class Moment:
    """What ends the steps: so many seconds after the first cycle, so many cycles, or the screen of
    this number, counted from 1; the end of the trace if none is given."""

    at: Optional[float] = None
    cycle: Optional[int] = None
    screen: Optional[int] = None


@dataclass
class Passed:
    """How much of a trace has passed: the cycles, and the seconds between the first of them and the
    last, if they have times."""

    cycles: int = 0
    began: Optional[int] = None
    last: Optional[int] = None

    def take(self, step: TraceStep) -> None:
        """Takes a step of the trace."""
        self.cycles = step.cycle or self.cycles
        if step.time is not None:
            self.began = step.time if self.began is None else self.began
            self.last = step.time

    @property
    def seconds(self) -> Optional[float]:
        """The seconds from the first cycle to the last one that has passed; None without times."""
        if self.began is None or self.last is None:
            return None
        return (self.last - self.began) / SECOND

    @property
    def told(self) -> str:
        """The second, as `--at` takes it: not before the last cycle; or else the cycle."""
        if self.began is None or self.last is None:
            return f"cycle {self.cycles:,}"
        return f"{-((self.began - self.last) // 1000) / 1000:.3f}"


class Steps:
    """The steps of a trace, without polls that follow one another; where the trace tells dots, they
    pass. `passed` tells how far the steps have come."""

    def __init__(self, trace: Trace) -> None:
        self.trace = trace
        self.passed = Passed()

    def up_to(self, moment: Moment) -> Iterator[TraceStep]:
        """The steps up to a moment; a Trouble where the trace has no such moment."""
        cycles = self._cycles(moment)
        steps = self._timed(steps_of(cycles, self.trace.screens))
        for step in steps:
            self.passed.take(step)
            yield step
        self._check_reached(moment)
        yield from self._up_to_screen(moment)

    def with_frames(self, is_drawn: bool = False) -> Iterator[TraceStep]:
        """All steps, and a `frame` at the end of each frame of the dot clock in which something was
        written, where cycles have times. If these are drawn, the time between them passes, as
        `pictures` has it."""
        steps = without_polls(steps_of(self.trace.cycles(), self.trace.screens))
        first = next(steps)
        if first.time is None:
            raise self.trace.trouble("the first cycle has no time, by which frames end")
        for step in Clocked(LONGEST).steps(chain([first], steps)):
            self.passed.take(step)
            if is_drawn or step.opcode != ADVANCE:
                yield step
        yield TraceStep(FRAME)

    def _cycles(self, moment: Moment) -> Iterator[Cycle]:
        """The cycles up to a moment."""
        began: Optional[int] = None
        for cycle in self.trace.cycles(moment.cycle):
            if self._is_past_screen(moment):
                return
            if moment.at is not None and cycle.time is not None:
                began = cycle.time if began is None else began
                # Some seconds are a little less than their microseconds, as 1.001.
                if cycle.time - began > round(moment.at * SECOND):
                    return
            yield cycle

    def _is_past_screen(self, moment: Moment) -> bool:
        return moment.screen is not None and len(self.trace.screens) >= self._dumps(moment.screen)

    def _dumps(self, screen: int) -> int:
        """How many dumps there are up to the first of a screen."""
        return screen if self.trace.has_dots else PHASES * (screen - 1) + 1

    def _up_to_screen(self, moment: Moment) -> Iterator[TraceStep]:
        """The dots up to the end of the frame that was taken, but the last, which is the frame's
        own."""
        if moment.screen is None or not self.trace.has_dots:
            return
        screens = self.trace.screens[: moment.screen]
        dots = self.trace.screen_dots[screens.index(screens[-1]) : moment.screen]
        yield from advances(max(0, sum(one or 0 for one in dots) - 1))

    def _timed(self, steps: Iterator[TraceStep]) -> Iterator[TraceStep]:
        first = next(steps, None)
        if first is None:
            return iter(())
        steps = without_polls(chain([first], steps))
        return Pauses().steps(steps) if first.dots is not None else steps

    def _check_reached(self, moment: Moment) -> None:
        name = self.trace.name
        if moment.cycle is not None and self.trace.count < moment.cycle:
            cycles = counted(self.trace.count, "cycle", ",")
            raise Trouble(f"it has {cycles}, and no cycle {moment.cycle:,}", name)
        if moment.screen is not None and not self._is_past_screen(moment):
            screens = self.trace.screens
            count = len(screens) if self.trace.has_dots else -(-len(screens) // PHASES)
            told = f"`record` took {count} of its screens, and no screen {moment.screen}"
            raise Trouble(told, name)
        if moment.at is not None and self.passed.began is None:
            raise Trouble("its cycles have no times: --cycle names a moment by its cycles", name)
