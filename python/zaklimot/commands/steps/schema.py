"""The form of a file of elements as JSON Schema, made of the tables by which files are read."""

from typing import Any, Sequence

from zaklimot.format import FORMS, MOST_BLOCK, REFUSALS, REGISTERS

from .parts import (
    ANSWER,
    BDA,
    CURSORS,
    FINAL,
    INITIAL,
    LINE,
    LISTS,
    NAME,
    NUMBERS,
    ORDER,
    PAGES,
    PLACES,
    REACH,
    REFUSED,
    STRUCTS,
    SUM_COUNT,
    SUMS,
)
from .reading import BLOCK, MOST_DOTS, MOST_SUM, STEPS

DRAFT = "https://json-schema.org/draft/2020-12/schema"
Schema = dict[str, Any]


def _number(most: int, least: int = 0) -> Schema:
    return {"type": "integer", "minimum": least, "maximum": most}


def _numbers(mosts: Sequence[int]) -> Schema:
    """A list of so many numbers, each up to its own."""
    each = [_number(most) for most in mosts]
    return {"type": "array", "prefixItems": each, "items": False, "minItems": len(each)}


def _list(items: Schema, **limits: int) -> Schema:
    return {"type": "array", "items": items, **limits}


def _object(members: Schema, required: Sequence[str] = ()) -> Schema:
    made = {"type": "object", "properties": members, "additionalProperties": False}
    return {**made, "required": list(required)} if required else made


def _part(name: str) -> Schema:
    """The schema of a part of the state."""
    if name in NUMBERS:
        return _number(NUMBERS[name])
    if name in LISTS:
        return _numbers(LISTS[name])
    if name in PLACES:
        width, most, most_value = PLACES[name]
        return _list(_numbers([most, *[most_value] * (width - 1)]))
    if name == SUMS:
        return _numbers([MOST_SUM] * SUM_COUNT)
    fields = {field: _number(most) for field, most in STRUCTS[name].items()}
    if CURSORS in fields:
        fields[CURSORS] = _numbers([BDA[CURSORS]] * PAGES)
    return _object(fields, [*fields])


def _step(name: str) -> Schema:
    """The schema of a step's numbers."""
    if name == LINE:
        return {"type": "array", "maxItems": 0}
    if name == "int":
        return {"$ref": "#/$defs/call"}
    return _numbers([field.most for field in FORMS[name].fields])


def _dots() -> Schema:
    colours = {"colours": _list(_number(0x3FFFF)), "entries": _list(_number(0xFF, -1))}
    return _object(colours, [*colours])


def _element() -> Schema:
    state = {"$ref": "#/$defs/state"}
    reach = {"dots": _number(MOST_DOTS), "seq": _part("seq"), "crtc": _part("crtc")}
    call = {"$ref": "#/$defs/call"}
    members = {
        NAME: {"type": "string"},
        INITIAL: state,
        REACH: _object(reach),
        **{name: _step(name) for name in STEPS},
        ANSWER: {"anyOf": [_number(0xFFFF), call, {"$ref": "#/$defs/dots"}]},
        REFUSED: {"enum": list(REFUSALS.values())},
        FINAL: state,
    }
    one_step = [{"required": [name]} for name in STEPS]
    return {**_object(members, (NAME, INITIAL, FINAL)), "oneOf": one_step}


def schema() -> Schema:
    """The schema of a file: a list of elements."""
    registers = {name: _number(0xFFFF) for name in REGISTERS}
    block = {BLOCK: _list(_number(0xFF), maxItems=MOST_BLOCK)}
    return {
        "$schema": DRAFT,
        "title": "A file of single-step tests of a VGA",
        **_list({"$ref": "#/$defs/element"}),
        "$defs": {
            "element": _element(),
            "state": _object({name: _part(name) for name in ORDER}),
            "call": _object({**registers, **block}, [*registers]),
            "dots": _dots(),
        },
    }
