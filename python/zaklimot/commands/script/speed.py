"""How fast the beam of a card is, and how long its frames last."""

from __future__ import annotations

from dataclasses import dataclass, field
from typing import Optional

import zaklimot

# No monitor of a VGA shows frames that are shorter than so many seconds, which is 125 a second:
# registers are being written.
SHORTEST = 0.008
# The seconds of a frame until registers tell: those of text.
USUAL = 1 / 70


@dataclass(frozen=True)
class Speed:
    """How fast the beam is: the dots of a frame, and those that pass in a second; and at which dot
    of a frame the vertical retrace begins, if it does."""

    dots: int
    clock: float
    retrace: Optional[int] = field(default=None, compare=False)

    @property
    def frame(self) -> float:
        """The seconds of a frame."""
        return self.dots / self.clock


def speed_of(card: zaklimot.Card) -> Optional[Speed]:
    """How fast the beam of a card is; None if its registers are those of no frame that is shown.
    The retrace is told of a card that is at the first dot of a frame."""
    told = card.clock()
    speed = Speed(told.frame_dots, float(told.dots_per_second), told.to_retrace)
    return speed if speed.frame >= SHORTEST else None


def seconds_of(speed: Optional[Speed]) -> float:
    """The seconds of a frame."""
    return USUAL if speed is None else speed.frame


def passed_of(speed: Optional[Speed], dots: int) -> float:
    """The seconds of the whole frames in so many dots."""
    return 0.0 if speed is None else dots // speed.dots * speed.frame
