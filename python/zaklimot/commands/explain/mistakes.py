"""What is wrong in a text that is no script, as the library tells it, and how it is shown: with the
word that may be meant, the line, and a mark below it."""

from __future__ import annotations

import difflib
import re
from typing import Iterator, NamedTuple, Optional

import zaklimot
from zaklimot.commands.script.library import use_library
from zaklimot.commands.script.reading import text_of

# What stands in a sentence before the words of which one may be meant, and between them.
LISTED = re.compile("; the steps are |; there are |; a call has ")
BETWEEN = re.compile(", | and ")
PUNCTUATION = "=,;:."


# How a line of a processor's language looks, and what is told of it.
OF_PROCESSOR = re.compile(rb"\s*(?:in\s+(?:al|ax)\b|out\s+\w+\s*,\s*(?:al|ax)\b)", re.I)
NO_STEP = (
    "this is a processor's line: a step has the port and the value alone, as in 3DA or out 3C2 67"
)


class Mistake(NamedTuple):
    """The line of a text that is wrong, from 1, or 0; the part of it, in characters, of which a
    whole line has none; and why."""

    line: int
    at: int
    width: int
    reason: str


def mistake_in(data: bytes) -> Optional[Mistake]:
    """What is wrong in a text; None of one that is a script. A Trouble where there is no
    library."""
    use_library()
    told = zaklimot.explain_text(data)
    if told is None:
        return None
    line = data.split(b"\n")[told.line - 1] if told.line else b""
    part = text_of(line[told.start : told.start + told.length])
    is_whole = told.kind == zaklimot.MistakeKind.ORDER
    at = len(text_of(line[: told.start]))
    width = 0 if is_whole else max(1, len(part))
    sentence = NO_STEP if OF_PROCESSOR.match(line) else _with_hint(told.sentence, part)
    return Mistake(told.line, at, width, sentence)


def _with_hint(sentence: str, word: str) -> str:
    """A sentence, which asks for the nearest of the words that it lists, if one of them is near."""
    parts = LISTED.split(sentence)
    if len(parts) != 2:
        return sentence
    names = [name for name in BETWEEN.split(parts[1]) if name.isalpha()]
    near = difflib.get_close_matches(word.lower().strip(PUNCTUATION), names, 1)
    return f"{parts[0]}; did you mean {near[0]}?" if near else sentence


def marked_lines(line: str, mistake: Mistake, most: int = 100) -> Iterator[str]:
    """A line and, unless it is wrong as a whole, the mark below it: cut where it is long, with tabs
    as blanks."""
    begin = max(0, mistake.at - most // 2) if len(line) > most else 0
    part = "".join(
        character if character.isprintable() else " " for character in line[begin : begin + most]
    )
    yield ("" if begin == 0 else "..") + part.rstrip() + (".." if len(line) > begin + most else "")
    if mistake.width:
        width = min(mistake.width, most - (mistake.at - begin))
        yield " " * (mistake.at - begin + (0 if begin == 0 else 2)) + "^" * width
