"""What a kind of elements asks for: a state, a step, and the parts that its elements have."""

from typing import Callable, NamedTuple

from zaklimot.format import Step

from .adapter import SteppedCard
from .chance import Chance
from .parts import Parts


class Wish(NamedTuple):
    """An element as it is asked for. The state's values may have bits that a register doesn't keep;
    what the adapter then has is what stands in the element.

    `reach` has the dots that the clock runs on the way to the state, and registers that are other
    than the state's meanwhile. With `has_sums` the final state has the sums of all memory.
    """

    name: str
    state: Parts
    step: Step
    reach: Parts = {}
    has_sums: bool = False


class ElementKind(NamedTuple):
    """A kind of elements, which have a file: its name, what it shows, the parts of its states, and
    how a wish is made."""

    name: str
    told: str
    parts: tuple[str, ...]
    make: Callable[[Chance, SteppedCard], Wish]
