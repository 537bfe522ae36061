"""Elements of a kind: each is brought about on the adapter, and read from it."""

from typing import Any, Iterator, Mapping, Sequence

from zaklimot.format import REGISTERS, Step

from .adapter import SteppedCard, Taken
from .chance import Chance
from .parts import ANSWER, FINAL, INITIAL, LINE, NAME, ORDER, REACH, REFUSED, SUMS, Element, Parts
from .reaching import steps_to
from .wishes import ElementKind, Wish

# The parts of which some places are read.
PLACED = ("planes", "colours")


def elements(kind: ElementKind, count: int, seed: int, card: SteppedCard) -> Iterator[Element]:
    """So many elements of a kind, by a seed; they depend on nothing else."""
    chance = Chance(f"{seed} {kind.name}")
    for number in range(count):
        yield element(kind.make(chance, card), kind.parts, card, number)


def element(wish: Wish, parts: Sequence[str], card: SteppedCard, number: int) -> Element:
    """The element of a wish: what the adapter has before and after the step, and answers."""
    card.power_on()
    card.run(steps_to(wish.state, wish.reach))
    places = {name: [place[0] for place in wish.state.get(name, ())] for name in PLACED}
    names = [name for name in ORDER if name in parts]
    initial = card.read(names, places)
    taken = card.take(wish.step)
    final = card.read([*names, *([SUMS] if wish.has_sums else ())], places)
    return {
        NAME: f"{wish.name}: {number}",
        INITIAL: initial,
        **({REACH: wish.reach} if wish.reach else {}),
        **step_member(wish.step),
        **told_of(wish.step, taken, initial),
        FINAL: final,
    }


def step_member(step: Step) -> Element:
    """The step as a member of an element: its name, and its numbers."""
    if step.name == "int":
        registers: Parts = dict(zip(REGISTERS, step.numbers))
        return {"int": {**registers, **({"block": list(step.block)} if step.block else {})}}
    return {step.name: list(step.numbers)}


def told_of(step: Step, taken: Taken, initial: Parts) -> Element:
    """What the step answers, as members of an element."""
    if taken.refused:
        return {REFUSED: taken.refused}
    if step.name == LINE:
        return {ANSWER: dots_answer(taken.answer, initial)}
    return {} if taken.answer is None else {ANSWER: taken.answer}


def dots_answer(colours: Sequence[int], initial: Parts) -> Mapping[str, Any]:
    """The dots of a line: colours of 18 bits, and the entries of the DAC that have them; -1 of a
    dot that is black whatever the DAC has."""
    known = {place[1] << 12 | place[2] << 6 | place[3]: place[0] for place in initial["colours"]}
    return {"colours": list(colours), "entries": [known.get(colour, -1) for colour in colours]}
