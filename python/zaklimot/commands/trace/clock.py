"""How fast the beam is, by a card that takes the steps which write ports."""

from __future__ import annotations

from contextlib import suppress
from typing import Optional

import zaklimot
from zaklimot.format import FONT_BYTES
from zaklimot.commands.script.library import use_library
from zaklimot.commands.script.speed import Speed, seconds_of, speed_of

from .step import INT, OUT, OUTW, TraceStep

# The ports of the DAC, which has no say in the clock, and gets most writes.
DAC = range(0x3C6, 0x3CA)


class Clock:
    """A card that takes the writes to ports and the calls among steps. Its own clock stands at the
    first dot of a frame."""

    def __init__(self) -> None:
        use_library()
        # The clock doesn't hang on glyphs.
        self.card = zaklimot.Card(bytes(FONT_BYTES))
        self._speed: Optional[Speed] = None
        self._is_known = True

    def take(self, step: TraceStep) -> None:
        """Takes a step that was done, or refused."""
        opcode, address, value = step[:3]
        if opcode not in (OUT, OUTW, INT) or address in DAC:
            return
        self._is_known = False
        with suppress(zaklimot.Refusal):
            if step.call is not None:
                ax, bx, cx, dx = step.call.registers
                self.card.int10(ax, bx, cx, dx, step.call.block)
            elif opcode == OUT:
                self.card.out(address, value)
            else:
                self.card.out_word(address, value)

    def speed(self) -> Optional[Speed]:
        """How fast the beam is; None until the registers are those of a frame that is shown."""
        if not self._is_known:
            self._speed = speed_of(self.card)
            self._is_known = True
        return self._speed

    def frame(self) -> float:
        """The seconds that a frame lasts."""
        return seconds_of(self.speed())
