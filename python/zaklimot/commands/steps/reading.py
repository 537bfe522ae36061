"""Files of elements: a JSON array, packed by gzip or not. What is no element is told with its
line."""

import gzip
import json
import zlib
from contextlib import nullcontext
from typing import Any, BinaryIO, ContextManager, Iterable, Iterator, Optional, cast

from zaklimot.format import FORMS, MOST_BLOCK, REFUSALS, REGISTERS, Step
from zaklimot.format.table import READ_BYTE, READ_WORD
from zaklimot.commands.core.files import name_of
from zaklimot.commands.core.streams import JsonArray, reading, writing
from zaklimot.commands.core.trouble import Trouble

from .arrays import ArrayReader
from .parts import (
    ANSWER,
    BDA,
    CURSORS,
    FINAL,
    INITIAL,
    LINE,
    LISTS,
    NAME,
    NUMBERS,
    PAGES,
    PLACES,
    REACH,
    REFUSED,
    STRUCTS,
    SUM_COUNT,
    SUMS,
    Element,
)

# A longer line is no answer.
MOST_LINE = 1 << 22
# How gzip files begin; and how hard they are packed.
GZIP = b"\x1f\x8b"
LEVEL = 9
# The steps that an element may have; and the parts of a call.
STEPS = ("out", "outw", "in", "inw", "put", "putw", "get", "getw", "advance", "int", LINE)
BLOCK = "block"
MOST_PLACES = 1 << 16
MOST_DOTS = 1 << 28
MOST_SUM = (1 << 32) - 1
# The most that steps read, by the kinds of their answers.
MOST_READ = {READ_BYTE: 0xFF, READ_WORD: 0xFFFF}


def write_elements(path: str, elements: Iterable[Element]) -> int:
    """Writes a file, packed if its name ends in .gz; how many elements it has. The same elements
    make the same bytes."""
    count = 0
    with writing(path) as stream:
        with _packed(stream) if path.endswith(".gz") else nullcontext(stream) as target:
            array = JsonArray(target)
            for element in elements:
                array.begin_entry()
                target.write(text_of(element).encode("ascii"))
                count += 1
            array.end()
            target.write(b"\n")
    return count


def _packed(stream: BinaryIO) -> ContextManager[BinaryIO]:
    """A stream that packs what is written into another, and tells no time."""
    return cast(ContextManager[BinaryIO], gzip.GzipFile("", "wb", LEVEL, stream, 0))


def text_of(element: object) -> str:
    """JSON on one line, without blanks."""
    return json.dumps(element, separators=(",", ":"))


def read_elements(path: str) -> Iterator[Element]:
    """The elements of a file, each of which is checked."""
    name = name_of(path)
    with reading(path, is_drained=False) as stream:
        is_packed = stream.peek(2)[:2] == GZIP
        source = cast(BinaryIO, gzip.GzipFile(fileobj=stream) if is_packed else stream)
        try:
            yield from _elements(source, name)
        except (EOFError, zlib.error, gzip.BadGzipFile) as error:
            raise Trouble(f"it is damaged: {error}", name) from error


def _elements(source: BinaryIO, name: str) -> Iterator[Element]:
    """The elements, one by one."""
    reader = ArrayReader(source, name)
    for element in reader.values():
        reason = fault_of(element)
        if reason:
            raise reader.trouble(reason)
        yield cast(Element, element)


def fault_of(element: object) -> str:
    """What is wrong with an element; empty of one that is as docs/STEPS.md says."""
    if not isinstance(element, dict):
        return "it is no object"
    known = {NAME, INITIAL, FINAL, ANSWER, REFUSED, REACH}
    steps = [name for name in element if name not in known]
    if len(steps) != 1 or steps[0] not in STEPS:
        told = ", ".join(str(name)[:20] for name in steps) or "none"
        return f"one member is its step, {', '.join(STEPS)}: it has {told}"
    if not isinstance(element.get(NAME), str):
        return "it has no name"
    return (
        _fault_of_state(element.get(INITIAL), INITIAL)
        or _fault_of_state(element.get(FINAL), FINAL)
        or _fault_of_reach(element.get(REACH, {}))
        or _fault_of_step(steps[0], element[steps[0]])
        or (_fault_of_refusal(element[REFUSED]) if REFUSED in element else "")
        or _fault_of_answer(steps[0], element)
    )


def _is_number(value: object, most: int) -> bool:
    return type(value) is int and 0 <= value <= most


def _are_numbers(value: object, most: int, count: Optional[int] = None, least: int = 0) -> bool:
    """Whether something is a list of so many numbers, or of any number of them."""
    if not isinstance(value, list) or count not in (None, len(value)):
        return False
    # Lists of dots are long: each of these is a loop of Python's own.
    return {*map(type, value)} <= {int} and (
        not value or (least <= min(value) and max(value) <= most)
    )


def _are_kept(value: object, masks: bytes) -> bool:
    """Whether something is a list of bytes, none of which has other bits than these."""
    is_list = _are_numbers(value, 0xFF, len(masks))
    return is_list and not any(one & ~mask for one, mask in zip(cast("list[int]", value), masks))


def _are_places(name: str, value: object) -> bool:
    """Whether something is a list of places: their first numbers rise."""
    width, most, most_value = PLACES[name]
    if not isinstance(value, list) or len(value) > MOST_PLACES:
        return False
    if not all(_are_numbers(place, most, width) for place in value):
        return False
    if not all(max(place[1:]) <= most_value for place in value):
        return False
    firsts = [place[0] for place in value]
    return firsts == sorted(set(firsts))


def _is_struct(name: str, value: object) -> bool:
    """Whether something is a beam or BIOS data with all of their fields."""
    fields = STRUCTS[name]
    if not isinstance(value, dict) or value.keys() != fields.keys():
        return False
    numbers = {field: one for field, one in value.items() if field != CURSORS}
    return all(_is_number(one, fields[field]) for field, one in numbers.items()) and (
        CURSORS not in value or _are_numbers(value[CURSORS], BDA[CURSORS], PAGES)
    )


def is_part(name: str, value: object) -> bool:
    """Whether a value is one that a part may have."""
    if name in NUMBERS:
        return _is_number(value, NUMBERS[name])
    if name in LISTS:
        return _are_kept(value, LISTS[name])
    if name in PLACES:
        return _are_places(name, value)
    if name in STRUCTS:
        return _is_struct(name, value)
    return name == SUMS and _are_numbers(value, MOST_SUM, SUM_COUNT)


def _fault_of_state(state: object, name: str) -> str:
    if not isinstance(state, dict):
        return f"it has no {name} state"
    wrong = [part for part, value in state.items() if not is_part(part, value)]
    return f"its {name} state has no such part, or one out of range: {wrong[0]}" if wrong else ""


def _fault_of_reach(reach: object) -> str:
    if not isinstance(reach, dict):
        return f"its {REACH} is no object"
    is_known = reach.keys() <= {"dots", "seq", "crtc"}
    is_good = _is_number(reach.get("dots", 0), MOST_DOTS) and all(
        is_part(name, reach[name]) for name in ("seq", "crtc") if name in reach
    )
    return "" if is_known and is_good else f"its {REACH} has no such member, or one out of range"


def _fault_of_step(name: str, value: object) -> str:
    reason = f"its step {name} has not the numbers that it takes"
    if name == LINE:
        return "" if value == [] else reason
    if name == "int":
        return "" if _is_call(value) else reason
    fields = FORMS[name].fields
    is_good = isinstance(value, list) and len(value) == len(fields)
    numbers = zip(cast(list[Any], value), fields) if is_good else ()
    is_good = is_good and all(_is_number(one, field.most) for one, field in numbers)
    return "" if is_good else reason


def _is_call(value: object) -> bool:
    """Whether something is the registers of a call, and perhaps its block."""
    if not isinstance(value, dict) or not {*REGISTERS} <= value.keys() <= {*REGISTERS, BLOCK}:
        return False
    block = value.get(BLOCK, [])
    is_short = isinstance(block, list) and len(block) <= MOST_BLOCK
    numbers = all(_is_number(value[name], 0xFFFF) for name in REGISTERS)
    return is_short and numbers and _are_numbers(block, 0xFF)


def _fault_of_answer(name: str, element: Element) -> str:
    """What is wrong with the answer: steps that read have one, unless they are refused."""
    answer = element.get(ANSWER)
    is_good = answer is None
    if REFUSED not in element and name == LINE:
        is_good = _are_dots(answer)
    elif REFUSED not in element and name == "int":
        is_good = _is_call(answer)
    elif REFUSED not in element and FORMS[name].answer in MOST_READ:
        is_good = _is_number(answer, MOST_READ[FORMS[name].answer])
    return "" if is_good else f"its answer is none of the step {name}"


def _are_dots(answer: object) -> bool:
    """Whether something is the dots of a line: colours, and as many entries."""
    if not isinstance(answer, dict) or answer.keys() != {"colours", "entries"}:
        return False
    colours = answer["colours"]
    entries = answer["entries"]
    are_known = _are_numbers(colours, 0x3FFFF) and _are_numbers(entries, 0xFF, least=-1)
    return are_known and len(colours) == len(entries)


def _fault_of_refusal(name: object) -> str:
    return "" if name in REFUSALS.values() else f"there is no refusal {str(name)[:20]}"


def step_of(element: Element) -> Step:
    """The step of an element."""
    name = next(one for one in STEPS if one in element)
    value = element[name]
    if name == "int":
        return Step("int", tuple(value[one] for one in REGISTERS), bytes(value.get(BLOCK, ())))
    return Step(name, tuple(value))
