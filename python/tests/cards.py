"""Cards for the tests, and calls that have yet to be made."""

from __future__ import annotations

from typing import Callable

from zaklimot import Card

Call = Callable[[], object]


def card_in(mode: int) -> Card:
    """A card in a mode."""
    card = Card()
    card.int10(ax=mode)
    return card


def calls(*given: Call) -> tuple[Call, ...]:
    """Calls of many kinds, of which a test makes one after the other."""
    return given
