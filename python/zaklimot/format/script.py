"""A script as its steps and blocks."""

from __future__ import annotations

from dataclasses import dataclass
from itertools import chain, repeat
from typing import Iterator, NamedTuple, Union

from .table import FORMS, HEADERS, Form


class Step(NamedTuple):
    """A step: its name, such as `out` or `show plane`; the numbers of its fields, in order; and the
    block of a call."""

    name: str
    numbers: tuple[int, ...] = ()
    block: bytes = b""

    @property
    def form(self) -> Form:
        """The step's row of the table."""
        return FORMS[self.name]

    @property
    def size(self) -> int:
        """How many bytes it has in a script."""
        return FORMS[self.name].size + len(self.block)


class Block(NamedTuple):
    """Steps that are repeated in order, `count` times: 1 to 65,535."""

    # It takes the name of a tuple's method, which nobody calls here.
    count: int  # type: ignore[assignment]
    steps: tuple[Step, ...]

    @property
    def size(self) -> int:
        """How many bytes it has in a script, with its beginning and its end."""
        return 4 + sum(step.size for step in self.steps)


Item = Union[Step, Block]


@dataclass(frozen=True)
class Script:
    """A script: its steps and blocks, in order, and its version. A script with blocks is of version
    2."""

    items: tuple[Item, ...] = ()
    version: int = 1

    @property
    def count(self) -> int:
        """How many steps it means. The steps of a block count in each of its rounds."""
        return sum(
            item.count * len(item.steps) if isinstance(item, Block) else 1 for item in self.items
        )

    @property
    def size(self) -> int:
        """How many bytes it has, with its header."""
        return len(HEADERS[self.version]) + sum(item.size for item in self.items)

    def steps(self) -> Iterator[Step]:
        """The steps that it means. Those of a block come in each of its rounds."""
        return chain.from_iterable(
            chain.from_iterable(repeat(item.steps, item.count))
            if isinstance(item, Block)
            else (item,)
            for item in self.items
        )
