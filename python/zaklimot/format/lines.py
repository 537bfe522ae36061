"""A text's lines as they come from a stream, good or bad, with their comments. Few of them are in
memory at a time."""

from __future__ import annotations

import re
from collections import Counter
from functools import partial
from itertools import islice
from operator import itemgetter
from typing import BinaryIO, Callable, Iterable, Iterator, NamedTuple, Union, cast

from .table import END, FIRST_LINE, MOST_COUNT, MOST_STEPS, REPEAT, decimal

_WORDS = re.compile(rb"[^ \t\r\n]+")
# Bytes as numbers: Python finds a number in bytes several times as fast as it finds other bytes
# there.
_COMMENT, _VERTICAL_TAB, _FORM_FEED = b";\v\f"
# The beginnings of the lines of blocks. Few other lines begin so.
_BLOCK_LETTERS, _BLOCK_BYTES = "rReE", b"rReE"
_BLANKS = b" \t\r\n"
# The lines of a longer block are read again in each of its rounds.
_MOST_KEPT = 4096


class Line(NamedTuple):
    """A line with a word: its number from 1, its words separated by one blank, and its comment's
    bytes."""

    number: int
    words: str
    comment: bytes = b""

    @property
    def name(self) -> str:
        """The first word, which says what the line does."""
        return self.words.partition(" ")[0].lower()

    @property
    def has_blocks(self) -> bool:
        """Whether a text whose first line this is may have blocks."""
        return self.words.lower() == FIRST_LINE


# Makes a line of all its parts in half the time that the class takes.
_made_line = cast(Callable[[Iterable[object]], Line], partial(tuple.__new__, Line))


def lines_in(stream: BinaryIO, before: int = 0) -> Iterator[Line]:
    """The lines of a stream that have a word, after the given number of lines."""
    for number, line in enumerate(stream, before + 1):
        comment = b""
        if _COMMENT in line:
            line, _, comment = line.partition(b";")
        # The call that splits fastest also takes other characters for blanks.
        words = (
            _WORDS.findall(line) if _VERTICAL_TAB in line or _FORM_FEED in line else line.split()
        )
        if words:
            yield _made_line((number, b" ".join(words).decode("utf-8", "surrogateescape"), comment))


def steps_in(stream: BinaryIO) -> Iterator[Line]:
    """The steps that a text means, in order: those of a block in each of its rounds.

    The stream must be seekable: it is read from its beginning, and parts of it again.
    """
    stream.seek(0)
    lines = lines_in(stream)
    first = next(lines, None)
    if first is not None and first.has_blocks:
        yield from _unrolled(stream, lines)
    elif first is not None:
        yield first
        yield from lines


def words_in(stream: BinaryIO) -> Iterator[str]:
    """The words of the same steps, from a stream that `vga dis` printed, in which a line is only
    the words of a step."""
    stream.seek(0)
    if stream.readline().split() == FIRST_LINE.encode().split():
        return (line.words for line in steps_in(stream))
    stream.seek(0)
    return (line[:-1].decode("ascii") for line in stream)


def places_in(stream: BinaryIO) -> Iterator[tuple[int, bytes]]:
    """Where the same steps stand in a text: the number of each line, and the bytes of its
    comment."""
    stream.seek(0)
    first = next(lines_in(stream), None)
    if first is not None and first.has_blocks:
        yield from ((line.number, line.comment) for line in steps_in(stream))
        return
    stream.seek(0)
    for number, line in enumerate(stream, 1):
        comment = b""
        if _COMMENT in line:
            line, _, comment = line.partition(b";")
        if line.strip(_BLANKS):
            yield number, comment


def _unrolled(stream: BinaryIO, lines: Iterator[Line]) -> Iterator[Line]:
    """The steps that lines of version 2 mean, up to the first bad line."""
    left = MOST_STEPS
    # The block that is under way: how often it is repeated, where it begins, on which line, its
    # lines as far as they are kept, and how many there are.
    count = place = number = length = 0
    block: list[Line] = []
    for line in lines:
        name = line.name if line.words[0] in _BLOCK_LETTERS else ""
        if name == REPEAT:
            given = line.words.partition(" ")[2]
            count = _count_of(given)
            place = stream.tell()
            number = line.number
            block = []
            length = 0
        elif name == END and count:
            rounds = min(count - 1, left // max(1, length))
            left -= rounds * length
            behind = stream.tell()
            for _ in range(rounds if length else 0):
                if length > _MOST_KEPT:
                    stream.seek(place)
                yield from block if length <= _MOST_KEPT else islice(
                    lines_in(stream, number), length
                )
            stream.seek(behind)
            count = 0
        else:
            # The first round of a block is taken as it is read.
            length += 1
            left -= 1
            if count and length <= _MOST_KEPT:
                block.append(line)
            yield line


def _count_of(given: Union[str, bytes]) -> int:
    """How often a block is repeated, as its first line says; once where that says nothing good."""
    count = decimal(given, MOST_COUNT)
    return 1 if count is None else count


def count_in(stream: BinaryIO) -> int:
    """How many steps a text means, if it has no fault."""
    stream.seek(0)
    filled = filter(None, map(bytes.lstrip, stream))
    lines = (line for line in filled if line[0] != _COMMENT)
    first = next(lines, b"")
    if first.partition(b";")[0].lower().split() != FIRST_LINE.encode().split():
        # They are counted by their first bytes, without reading each.
        begins = Counter(map(itemgetter(0), filled))
        return bool(first) + sum(begins.values()) - begins[_COMMENT]
    total = opened = count = 0
    for line in lines:
        words = line.partition(b";")[0].lower().split() if line[0] in _BLOCK_BYTES else None
        if words and words[0] == REPEAT.encode() and words[1:]:
            count = _count_of(words[1])
            opened = total
        elif words and words[0] == END.encode():
            total += max(0, count - 1) * (total - opened)
            count = 0
        else:
            total += 1
    return total
