"""Where two elements differ: what was expected, and what came."""

from typing import Any, Iterator

from .parts import ANSWER, FINAL, INITIAL, LISTS, PLACES, REFUSED, STRUCTS, SUMS, Element, Parts

# What a line's dots are told as.
DOTS = ("colours", "entries")
# The part of which places that an element doesn't list are 0; and the plane that has glyphs too, if
# a mode of text is set.
PLANES = "planes"
GLYPHS = 2
TEXTS = (3, 7)
# So much of a value is told.
MOST_SHOWN = 60


def differences(expected: Element, given: Element) -> Iterator[str]:
    """What differs, member by member. Of states only the parts that both have are compared."""
    refused, came = expected.get(REFUSED), given.get(REFUSED)
    if refused != came:
        yield f"{REFUSED}: {came or 'it is done'}, not {refused or 'done'}"
    elif expected.get(ANSWER) != given.get(ANSWER):
        yield from _answers(expected.get(ANSWER), given.get(ANSWER))
    before = _states(expected[INITIAL], given.get(INITIAL, {}))
    yield from (f"before the step, {told}" for told in before)
    yield from _states(expected[FINAL], given.get(FINAL, {}))


def _states(expected: Parts, given: Parts) -> Iterator[str]:
    """Where two states differ, of the parts that both have."""
    for part in (one for one in expected if one in given):
        if expected[part] != given[part]:
            yield from _parts(part, expected[part], given[part])
    if PLANES in expected and SUMS not in expected:
        yield from _strays(expected, _by_firsts(given.get(PLANES)))


def members_in(found: list[str]) -> set[str]:
    """The members of which differences tell."""
    return {one.replace(":", " ").split()[0] for one in found}


def _answers(expected: Any, given: Any) -> Iterator[str]:
    """Where two answers differ: numbers, registers, or the dots of a line."""
    if isinstance(expected, dict) and isinstance(given, dict):
        for name in sorted(_compared(expected, given)):
            one, other = expected.get(name), given.get(name)
            if one != other and isinstance(one, list) and isinstance(other, list):
                yield from _listed(f"{ANSWER} {name}", one, other)
            elif one != other:
                yield f"{ANSWER} {name}: {_shown(other)}, not {_shown(one)}"
    else:
        yield f"{ANSWER}: {_shown(given)}, not {_shown(expected)}"


def _compared(expected: Element, given: Element) -> set[str]:
    """The members of an answer that are compared. Of a line's dots an adapter may tell the colours
    alone, or the entries."""
    if {*DOTS} & given.keys() and {*DOTS} <= expected.keys():
        return {*DOTS} & given.keys()
    return {*expected, *given}


def _shown(value: Any) -> str:
    text = "none" if value is None else str(value)
    return text if len(text) <= MOST_SHOWN else f"{text[:MOST_SHOWN]}.."


def _listed(name: str, one: list[Any], other: list[Any]) -> Iterator[str]:
    """Where two lists differ first."""
    if len(one) != len(other):
        yield f"{name}: {len(other)} of them, not {len(one)}"
        return
    places = [place for place in range(len(one)) if one[place] != other[place]]
    place = places[0]
    more = f", and {len(places) - 1} more" if len(places) > 1 else ""
    yield f"{name} {place}: {_shown(other[place])}, not {_shown(one[place])}{more}"


def _parts(name: str, one: Any, other: Any) -> Iterator[str]:
    """Where two values of a part differ."""
    if name in STRUCTS and isinstance(other, dict):
        for field in one:
            if one[field] != other.get(field):
                yield f"{name} {field}: {_shown(other.get(field))}, not {_shown(one[field])}"
    elif name in PLACES and isinstance(other, list):
        yield from _places(name, one, other)
    elif name in LISTS and isinstance(other, list):
        yield from _listed(name, one, other)
    else:
        yield f"{name}: {_shown(other)}, not {_shown(one)}"


def _by_firsts(places: Any) -> dict[int, list[Any]]:
    """Places by their first numbers, of what may be no list of places."""
    listed = places if isinstance(places, list) else []
    rows = (place for place in listed if isinstance(place, list) and place)
    return {row[0]: row[1:] for row in rows if isinstance(row[0], int)}


def _strays(expected: Parts, given: dict[int, list[Any]]) -> Iterator[str]:
    """Bytes that aren't 0 at places that an element doesn't list."""
    listed = {place[0] for place in expected[PLANES]}
    for first, values in sorted(given.items()):
        wanted = [0] * len(values)
        if expected.get("bda", {}).get("mode") in TEXTS:
            wanted[GLYPHS:3] = values[GLYPHS:3]
        if first not in listed and values != wanted:
            yield f"{PLANES} {first}: {_shown(values)}, not {wanted}"


def _places(name: str, one: list[Any], other: list[Any]) -> Iterator[str]:
    """Where two lists of places differ: by plane or component."""
    known = _by_firsts(other)
    for first, *values in one:
        given = known.get(first)
        if given is None:
            yield f"{name} {first}: none, not {values}"
        elif given != values:
            yield f"{name} {first}: {_shown(given)}, not {values}"
