"""Reading a script as text, and printing one as `vga dis` does."""

from __future__ import annotations

import re
from functools import partial
from typing import Callable, Iterable, Iterator, Optional, Sequence, Union, cast

from .script import Block, Item, Script, Step
from .table import (
    BLOCK,
    BLOCK_LINES,
    END,
    FIRST_LINE,
    FORMS,
    INT,
    MOST_BLOCK,
    MOST_BYTES,
    MOST_STEPS,
    PLANE_BYTES,
    REPEAT,
    SHOW,
    Field,
    ScriptFault,
)

_WORDS = re.compile(rb"[^ \t\r]+")
_HEXADECIMAL = re.compile("[0-9A-Fa-f]+")
DUMP_OF_PLANE = "show plane"
# No step contains a byte outside ASCII.
_NO_LETTER = "\xff"
# Makes a step of all its parts in half the time that the class takes.
_made_step = cast(Callable[[Iterable[object]], Step], partial(tuple.__new__, Step))


def parse_text(text: Union[str, bytes]) -> Script:
    """The script that a text spells. Raises ScriptFault, TooLong or BadLine, if it spells none."""
    data = text.encode("utf-8", "surrogateescape") if isinstance(text, str) else text
    if len(data) > MOST_BYTES:
        raise ScriptFault("TooLong")
    lines = list(_lines(data))
    has_blocks = bool(lines) and " ".join(lines[0][1]) == FIRST_LINE
    items = (
        _items_with_blocks(lines[1:])
        if has_blocks
        else (_step(number, words) for number, words in lines)
    )
    script = Script(tuple(items), 2 if has_blocks else 1)
    if script.size > MOST_BYTES:
        raise ScriptFault("TooLong")
    return script


def _lines(data: bytes) -> Iterator[tuple[int, list[str]]]:
    """The lines that have a word, with their numbers. Words are in lower case."""
    for number, line in enumerate(data.split(b"\n"), 1):
        words = _WORDS.findall(line.partition(b";")[0])
        if words:
            yield number, [
                word.decode("ascii").lower() if word.isascii() else _NO_LETTER for word in words
            ]


def _step(number: int, words: Sequence[str]) -> Step:
    try:
        return parse_line(words)
    except ValueError as error:
        raise ScriptFault("BadLine", number) from error


def _items_with_blocks(lines: Iterable[tuple[int, list[str]]]) -> Iterator[Item]:
    """The items of version 2. A block that means too many steps is a fault of its first line."""
    meant = 0
    # The block that is under way: the line where it begins, how often it is repeated, its steps.
    opened = count = 0
    steps: list[Step] = []
    for number, words in lines:
        place = number
        item: Optional[Item] = None
        if words[0] == REPEAT and not opened:
            count = _count(number, words)
            opened = number
            steps = []
        elif words == [END] and opened:
            item = Block(count, tuple(steps))
            meant += count * len(steps)
            place = opened
            opened = 0
        elif opened:
            steps.append(_step(number, words))
        else:
            item = _step(number, words)
            meant += 1
        if meant > MOST_STEPS:
            raise ScriptFault("BadLine", place)
        if item is not None:
            yield item
    if opened:
        raise ScriptFault("BadLine", opened)


def _count(number: int, words: Sequence[str]) -> int:
    try:
        (count,) = _numbers(words[1:], BLOCK_LINES[REPEAT])
    except ValueError as error:
        raise ScriptFault("BadLine", number) from error
    return count


def parse_line(words: Sequence[str]) -> Step:
    """The step of a line with these words, in lower case. Raises ValueError if they spell none."""
    name, rest = words[0], words[1:]
    if name == SHOW and rest:
        name, rest = f"{SHOW} {rest[0]}", rest[1:]
    if name == INT:
        return _call(rest)
    form = FORMS.get(name)
    if form is None:
        raise ValueError(name)
    numbers = _numbers(rest, form.fields)
    if name == DUMP_OF_PLANE and not is_in_plane(numbers):
        raise ValueError(name)
    return _made_step((name, numbers, b""))


def is_in_plane(numbers: Sequence[int]) -> bool:
    """Whether a dump of a plane, by its numbers, stays within the plane."""
    return numbers[1] + numbers[2] <= PLANE_BYTES


def _numbers(words: Sequence[str], fields: Sequence[Field]) -> tuple[int, ...]:
    """The numbers of fields that words spell."""
    if len(words) != len(fields):
        raise ValueError(words)
    return tuple(map(Field.value, fields, words))


def _call(words: Sequence[str]) -> Step:
    """A call: registers in order, each at most once, and then a block."""
    fields = FORMS[INT].fields
    values = {field.name: field.default or 0 for field in fields}
    block = b""
    names = list(values)
    last = -1
    for at, word in enumerate(words):
        if word == BLOCK:
            block = _block(words[at + 1 :])
            break
        name, sign, value = word.partition("=")
        if name not in values or not sign or names.index(name) <= last:
            raise ValueError(word)
        last = names.index(name)
        values[name] = fields[last].value(value)
    return Step(INT, tuple(values.values()), block)


def _block(words: Sequence[str]) -> bytes:
    """The bytes of a call's block, at least one."""
    if len(words) != 1 or len(words[0]) > 2 * MOST_BLOCK or not _HEXADECIMAL.fullmatch(words[0]):
        raise ValueError(BLOCK)
    return bytes.fromhex(words[0])


def printed(step: Step, is_short: bool = False) -> str:
    """A step as a line without its end, as `vga dis` prints it. With `is_short` registers of 0 are
    left out."""
    line = FORMS[step.name].template.format(*step.numbers)
    if is_short and step.name == INT:
        fields = zip(FORMS[INT].fields, step.numbers)
        line = " ".join(
            [
                INT,
                *(
                    f"{field.name}={value:X}"
                    for field, value in fields
                    if value or field.name == "ax"
                ),
            ]
        )
    return f"{line} {BLOCK} {step.block.hex().upper()}" if step.block else line


def print_text(script: Script) -> str:
    """A script as text, as `vga dis` prints it. The text spells the same script."""
    lines = [FIRST_LINE] if script.version == 2 else []
    for item in script.items:
        lines.extend(printed_item(item))
    return "".join(f"{line}\n" for line in lines)


def printed_item(item: Item, is_short: bool = False) -> list[str]:
    """The lines of a step or of a block."""
    if not isinstance(item, Block):
        return [printed(item, is_short)]
    return [f"{REPEAT} {item.count}", *(printed(step, is_short) for step in item.steps), END]
