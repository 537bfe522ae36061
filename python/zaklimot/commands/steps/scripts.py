"""The script of an element: from power-on to its state, its step, and, where they are asked for,
the dumps or the cycles that show the state."""

from __future__ import annotations

from typing import Iterator, NamedTuple, Optional, Sequence

from zaklimot.format import PLANE_BYTES, REFUSALS, REGISTERS, Step, printed, refusal_of
from zaklimot.commands.explain.raster import character_dots, line_characters

from .parts import ANSWER, INITIAL, LINE, NAME, NUMBERS, REACH, REFUSED, SUMS, Element, Parts
from .reaching import steps_to
from .reading import step_of

REGISTER_PARTS = ("misc", "seq", "gfx", "crtc", "attr", "dac_index")
# So many bytes of a plane has a dump, and so many entries the DAC.
MOST_DUMPED = 256
PLANES = 4
ENTRIES = 256
# The step that dumps the registers.
REGISTERS_SHOWN = Step("show regs")


def reached(element: Element) -> list[Step]:
    """The steps from power-on to the state before an element's step."""
    return steps_to(element[INITIAL], element.get(REACH, {}))


def line_dots(state: Parts) -> int:
    """How many dots a line has."""
    return line_characters(state["crtc"]) * character_dots(state["seq"])


def scripted(element: Element) -> Step:
    """An element's step as a script has it: a line is so many dots."""
    step = step_of(element)
    return Step("advance", (line_dots(element[INITIAL]),)) if step.name == LINE else step


def expected_answer(element: Element) -> Optional[str]:
    """What a report says of the step, where it isn't `ok`."""
    if REFUSED in element:
        return refusal_of(next(n for n, name in REFUSALS.items() if name == element[REFUSED]))
    step = step_of(element)
    answer = element.get(ANSWER)
    if step.name == LINE or answer is None:
        return None
    if step.name != "int":
        return f"{answer:0{4 if step.name.endswith('w') else 2}X}"
    registers = " ".join(f"{name}={answer[name]:04X}" for name in REGISTERS)
    return registers + (
        f" block {bytes(answer['block']).hex().upper()}" if "block" in answer else ""
    )


def text_lines(element: Element) -> Iterator[str]:
    """The script as lines of a text; the last has the answer that is expected."""
    yield f"; {element[NAME]}"
    yield from (printed(step) for step in reached(element))
    answer = expected_answer(element)
    yield printed(scripted(element)) + (f" ; = {answer}" if answer else "")


# Dumps: what the steps `show` tell of a state.


class PlaceRun(NamedTuple):
    """Places that follow one another: the first of them, and how many they are."""

    first: int
    length: int


def _runs(places: Sequence[int], most: int) -> list[PlaceRun]:
    """Places as runs of so many at most."""
    runs: list[PlaceRun] = []
    for place in places:
        last = runs[-1] if runs else PlaceRun(-1, 0)
        if runs and place == last.first + last.length and last.length < most:
            runs[-1] = PlaceRun(last.first, last.length + 1)
        else:
            runs.append(PlaceRun(place, 1))
    return runs


def dump_of(state: Parts) -> list[Step]:
    """The steps that dump the parts that a state has."""
    shown: list[Step] = []
    if any(name in state for name in (*NUMBERS, *REGISTER_PARTS, "dac_waiting")):
        shown.append(REGISTERS_SHOWN)
    shown += [Step(f"show {name}") for name in ("latches", "beam", "bda") if name in state]
    offsets, entries = (range(PLANE_BYTES), range(ENTRIES)) if SUMS in state else places_of(state)
    for run in _runs(offsets, MOST_DUMPED):
        shown += [Step("show plane", (plane, *run)) for plane in range(PLANES)]
    return [*shown, *(Step("show dac", (entry,)) for entry in entries)]


def places_of(state: Parts) -> tuple[Sequence[int], Sequence[int]]:
    """The offsets and the entries of the DAC that a state lists."""
    offsets = [place[0] for place in state.get("planes", ())]
    return offsets, [place[0] for place in state.get("colours", ())]
