"""An element as rules look at it, and what a rule is."""

from __future__ import annotations

from typing import Any, Callable, Mapping, NamedTuple

from zaklimot.commands.explain.ports import COLOUR, IS_COLOUR, MONOCHROME, WINDOWS, MemoryWindow

from .parts import ANSWER, FINAL, INITIAL, ORDER, REACH, REFUSED, Element, Parts
from .reading import step_of

WRITES = ("put", "putw")
READS = ("get", "getw")


class LacksPart(LookupError):
    """An element has no such part: the rule that asks has nothing to say of it."""


class SeenElement:
    """An element: its step, the registers before it, and what came of it."""

    def __init__(self, element: Element) -> None:
        step = step_of(element)
        self.step = step.name
        self.numbers = step.numbers
        self.block = step.block
        self.initial: Parts = element[INITIAL]
        self.final: Parts = element[FINAL]
        self.refused: str = element.get(REFUSED, "")
        self.answer: Any = element.get(ANSWER)
        self.reach: Parts = element.get(REACH, {})

    def __getattr__(self, name: str) -> Any:
        """A part of the state before the step; of one that isn't there a rule has nothing to
        say."""
        if name in self.initial:
            return self.initial[name]
        if name in ORDER:
            raise LacksPart(name)
        raise AttributeError(name)

    @property
    def address(self) -> int:
        """The address or the port of a cycle, or the first number of any other step."""
        return self.numbers[0]

    @property
    def value(self) -> int:
        """What a cycle writes."""
        return self.numbers[1]

    @property
    def window(self) -> MemoryWindow:
        """The window in which memory answers."""
        return WINDOWS[int(self.gfx[6]) >> 2]

    @property
    def place(self) -> int:
        """The address less the first of its window, modulo 65,536."""
        return self.address - self.window.first & 0xFFFF

    @property
    def write_mode(self) -> int:
        """The write mode."""
        return int(self.gfx[5]) & 3

    @property
    def function(self) -> int:
        """The function select."""
        return int(self.gfx[3]) >> 3

    @property
    def reached(self) -> int:
        """The planes that a write at the address reaches, a bit each."""
        mask = int(self.seq[2])
        if self.seq[4] & 8:
            return mask & 1 << (self.place & 3)
        if not self.seq[4] & 4:
            return mask & (0b1010 if self.place & 1 else 0b0101)
        return mask

    @property
    def base(self) -> int:
        """The port of the CRT controller's index."""
        return COLOUR if self.misc & IS_COLOUR else MONOCHROME

    @property
    def ah(self) -> int:
        """The function of a call."""
        return self.numbers[0] >> 8

    @property
    def al(self) -> int:
        """The part of a function."""
        return self.numbers[0] & 0xFF

    def has_changed(self, name: str) -> bool:
        """Whether a part is another after the step."""
        return bool(self.initial.get(name) != self.final.get(name))


# Whether an element shows a branch of a rule.
Branch = Callable[[SeenElement], object]


class ShownRule(NamedTuple):
    """A rule of the reference pages: its name, where it stands, the steps that show it, and its
    branches.

    `governs` are the members of an element that are otherwise where an adapter breaks the rule: of
    a rule without any it may be each.
    """

    name: str
    place: str
    steps: tuple[str, ...]
    branches: Mapping[str, Branch]
    governs: tuple[str, ...] = ()
