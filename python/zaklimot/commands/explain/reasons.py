"""Why steps are refused: a card of the library takes the steps of a run, and is asked."""

from __future__ import annotations

import zlib
from functools import lru_cache
from typing import Optional

import zaklimot
from zaklimot.format import FONT_BYTES, HEADERS, Answer, encoded, parse_line
from zaklimot.commands.core.trouble import Trouble
from zaklimot.commands.script.library import use_library

# How the steps begin that may change what refusals hang on: `out`, `in` and `int`.
CHANGING = "oOiI"
# So many bytes of steps are taken at once. Those before them are kept packed: they are as many as a
# run has.
MOST_TAKEN = 1 << 20
FAST = 1
UNTOLD = "The reason is not told: {}."


class Reasons:
    """Tells why steps are refused.

    The steps that were done are kept until one is refused: a run without a refusal needs no
    library. Reasons don't hang on glyphs, so the card has none.
    """

    def __init__(self) -> None:
        self._card: Optional[zaklimot.Card] = None
        self._lacking = ""
        self._steps = bytearray()
        # The parts before those.
        self._parts: list[bytes] = []
        # What was told of the card as it is: the same steps come again and again.
        self._told: dict[tuple[bytes, int], str] = {}

    def take(self, step: bytes) -> None:
        """Takes a step that was done, as bytes of a script."""
        self._steps += step
        if len(self._steps) >= MOST_TAKEN:
            self._parts.append(zlib.compress(self._steps, FAST))
            self._steps.clear()

    def why(self, step: bytes, refusal: int) -> str:
        """Why a step is refused with this number now, in sentences; empty where the library's
        adapter doesn't refuse it so."""
        try:
            card = self._ready()
        except Trouble as trouble:
            self._lacking = str(trouble).partition("\n")[0]
        if self._lacking:
            return UNTOLD.format(self._lacking)
        asked = step, refusal
        if asked not in self._told:
            reason = card.explain_step(HEADERS[1] + step)
            is_it = reason is not None and reason.refusal.number == refusal
            self._told[asked] = reason.text if reason is not None and is_it else ""
        return self._told[asked]

    def why_of(self, words: str, answer: Answer) -> str:
        """Why a step with these words was refused, by its answer; nothing of a step that was done,
        which is taken."""
        # No answer of another letter is a refusal.
        refusal = answer.refusal if answer.answer[0] == "E" else 0
        step = bytes_of(words) if refusal or words[:1] in CHANGING else b""
        if step and refusal:
            return self.why(step, refusal)
        if step:
            self.take(step)
        return ""

    def _ready(self) -> zaklimot.Card:
        """The card, which has taken the steps so far."""
        if self._card is None and not self._lacking:
            use_library()
            self._card = zaklimot.Card(bytes(FONT_BYTES))
        if self._card is None:
            raise Trouble(self._lacking)
        if self._parts or self._steps:
            self._told.clear()
            for part in self._parts:
                self._card.run_on(HEADERS[1] + zlib.decompress(part))
            self._card.run_on(HEADERS[1] + bytes(self._steps))
            self._parts.clear()
            self._steps.clear()
        return self._card


@lru_cache(4096)
def bytes_of(words: str) -> bytes:
    """The step of a line's words, as bytes of a script; none where they are no step."""
    try:
        return encoded(parse_line(words.lower().split()))
    except (ValueError, IndexError):
        return b""
