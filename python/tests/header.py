"""Reads include/zaklimot.h: its calls, structs, statuses and numbers."""

from __future__ import annotations

import re
from pathlib import Path
from typing import NamedTuple

TOP = Path(__file__).resolve().parents[2]
HEADER = TOP / "include" / "zaklimot.h"
COMMENT = re.compile(r"/\*.*?\*/", re.S)
STRUCT = re.compile(r"typedef struct (zak_\w+) \{(.*?)\} \1;", re.S)
CALL = re.compile(r"^(?:zak_status|uint32_t) zak_(\w+)\(([^)]*)\);", re.M)
ENUM = re.compile(r"\benum \{(.*?)\};", re.S)
MEMBER = re.compile(r"ZAK_(\w+) = (\d+)")
DEFINE = re.compile(r"#define ZAK_(\w+) (.+)")
FIELD = re.compile(r"(\w+)(?:\[(\d+)\])?")


class Field(NamedTuple):
    """A field of a struct: its name, its type in C, and how many elements it has as an array, or 0
    where it is none."""

    name: str
    kind: str
    elements: int


def text() -> str:
    """The header without its comments."""
    return COMMENT.sub(" ", HEADER.read_text("ascii"))


def _fields(body: str) -> list[Field]:
    fields = []
    for line in (line.strip() for line in body.split(";")):
        if line:
            kind, _, names = line.replace("void *", "pointer ").partition(" ")
            found = (FIELD.fullmatch(name.strip()) for name in names.split(","))
            fields += [Field(one[1], kind, int(one[2] or 0)) for one in found if one]
    return fields


def structs() -> dict[str, list[Field]]:
    """The fields of each struct."""
    return {name: _fields(body) for name, body in STRUCT.findall(text())}


def _kind(parameter: str) -> str:
    """The type of a parameter, with a `*` where it is a pointer, and `const ` where that is only
    read."""
    words = parameter.strip()
    if "[" in words:
        words = words.replace(" ", " *", 1)
    if "*" in words:
        return words.partition("*")[0].strip() + " *"
    return words.rpartition(" ")[0]


def calls() -> dict[str, list[str]]:
    """The types of each call's parameters."""
    found = {name: " ".join(given.split()) for name, given in CALL.findall(text())}
    return {
        name: [] if given == "void" else [_kind(one) for one in given.split(",")]
        for name, given in found.items()
    }


def statuses() -> dict[str, int]:
    """The numbers of the statuses, by their names without `ZAK_`."""
    return members("OK")


def members(first: str) -> dict[str, int]:
    """The numbers of the enumeration with this first member, by their names without `ZAK_`."""
    found = (MEMBER.findall(body) for body in ENUM.findall(text()))
    one = next(pairs for pairs in found if pairs[0][0] == first)
    return {name: int(number) for name, number in one}


def numbers() -> dict[str, int]:
    """The numbers that are defined, by their names without `ZAK_`."""
    values: dict[str, int] = {}
    for name, value in DEFINE.findall(text()):
        words = re.sub(r"\b0x([0-9A-F]+)u\b", lambda found: str(int(found[1], 16)), value.strip())
        words = re.sub(r"\b(\d+)u\b", r"\1", words)
        words = re.sub(r"ZAK_(\w+)", lambda found: str(values[found[1]]), words)
        if re.fullmatch(r"[\d +*()]+", words):
            values[name] = eval(words)  # Digits, blanks, + * ( ) alone.
    return values
