"""Choices at random that depend on their seed alone, with corners."""

from random import Random
from typing import Sequence, TypeVar

Chosen = TypeVar("Chosen")
# Bytes at the edges of masks.
CORNERS = (0x00, 0xFF, 0x01, 0x80, 0x55, 0xAA, 0x0F, 0xF0)


class Chance:
    """Choices at random. Two of one seed choose alike, with any version of Python: only the bits of
    its generator are used, which never change."""

    def __init__(self, seed: str) -> None:
        self._random = Random(seed)

    def bits(self, count: int) -> int:
        """A number of so many bits, 1 or more."""
        return self._random.getrandbits(count)

    def below(self, count: int) -> int:
        """A number from 0 to count - 1."""
        width = max(1, (count - 1).bit_length())
        number = self.bits(width)
        while number >= count:
            number = self.bits(width)
        return number

    def between(self, least: int, most: int) -> int:
        """A number from least to most."""
        return least + self.below(most - least + 1)

    def one_in(self, count: int) -> bool:
        """Whether something happens that happens once in so many times."""
        return self.below(count) == 0

    def among(self, some: Sequence[Chosen]) -> Chosen:
        """One of some."""
        return some[self.below(len(some))]

    def byte(self) -> int:
        """A byte: every other time one of the corners."""
        return self.among(CORNERS) if self.one_in(2) else self.bits(8)

    def many(self, count: int) -> list[int]:
        """So many bytes."""
        return [self.byte() for _ in range(count)]

    def cut(self, count: int) -> int:
        """A number of so many bits: 0, all bits, or a single bit four times in ten."""
        kind = self.below(10)
        if kind < 4:
            return (0, (1 << count) - 1, 1, 1 << (count - 1))[kind]
        return self.bits(count)
