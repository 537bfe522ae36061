"""Answers that a script expects, held against those that came; what differs in a dump is told by
name.

The names of registers are those of the page.
"""

from __future__ import annotations

import hashlib
import re
from functools import lru_cache
from io import BytesIO
from itertools import zip_longest
from typing import Iterator, Optional, Sequence

from zaklimot.format import BLOCK_LINES, READING, REFUSALS, REGISTERS, Answer, Step, parse_line
from zaklimot.format.table import (
    CALLED,
    DUMP,
    OK,
    PICTURE,
    READ_BYTE,
    READ_WORD,
    refusal_of,
)
from zaklimot.commands.core.trouble import Trouble
from zaklimot.commands.explain.wordings import WORDINGS
from zaklimot.commands.script.reading import text_of

# What a comment begins with that tells the answer which is expected; and what any answer meets.
MARK = "="
MARK_BYTE = ord("=")
ANY = "*"
# What a line begins with that has a line of a dump, below the step that is to answer it.
DUMPED = ";|"
# The lines of blocks, and what a line without a step may begin with.
BLOCK_WORDS = {name.encode() for name in BLOCK_LINES}
STEPLESS = b" \t\r\n\v\f;" + "".join(name[0] + name[0].upper() for name in BLOCK_LINES).encode()
FRONT = "..."
REFUSAL = re.compile(r"(E[1-9][0-9]?) [A-Za-z]+")
# The registers that `show regs` shows, by the word that their line begins with.
NAMES = {
    group["id"]: [register["name"] for register in group["registers"]]
    for group in WORDINGS["registers"]
    if group["id"] != "misc"
}
COLOURS = ("red", "green", "blue")
# The words before the numbers of a line: of registers, of cells, of a DAC entry, of a plane from an
# offset on.
_ROW = re.compile(
    r"(?:(seq|crtc|gfx|attr) (\S+)(?: [id])?|(row|entry) ([0-9A-F]{2})|plane ([0-3])"
    r" ([0-9A-F]{4})):"
)
# So many differences of a dump are named.
MOST_NAMED = 8


def expected_in(comment: bytes) -> Optional[str]:
    """The answer that a comment expects: what stands behind `=`, up to another `;`."""
    return _marked(comment) if MARK_BYTE in comment else None


@lru_cache(4096)
def _marked(comment: bytes) -> Optional[str]:
    text = text_of(comment).strip()
    return " ".join(text[len(MARK) :].partition(";")[0].split()) if text.startswith(MARK) else None


def answer_of(step: Answer) -> str:
    """An answer on one line: a picture by size and digest, a dump of several lines by their number
    and digest."""
    if step.picture is not None:
        return f"picture {step.picture.size} {step.picture.sum}"
    if step.others:
        digest = hashlib.md5(
            "".join(line + "\n" for line in step.lines).encode("ascii")
        ).hexdigest()
        return f"{len(step.lines)} lines {digest}"
    return step.answer


def is_as_expected(step: Answer, expected: str, words: str) -> bool:
    """Whether a step of these words answers what is expected of it."""
    if expected == step.answer and step.picture is None and not step.others:
        return True
    answer = answer_of(step).lower()
    wanted = expected.lower()
    if (
        wanted in (ANY, answer)
        or wanted.endswith(FRONT)
        and answer.startswith(wanted[: -len(FRONT)])
    ):
        return True
    refusal = REFUSAL.fullmatch(step.answer)
    if refusal is not None and words.partition(" ")[0].lower() not in READING:
        return wanted == refusal[1].lower()
    if step.picture is not None:
        return wanted == f"picture {step.picture.size}"
    # Registers of a call that are not named may be any.
    parts = wanted.split()
    return bool(parts) and all("=" in part for part in parts) and set(parts) <= set(answer.split())


# The forms of answers, by their kinds, and what a mistake is told to be.
FORMS_OF_ANSWERS = {
    OK: ("ok", "it answers `ok`, or is refused"),
    READ_BYTE: ("[0-9a-f]{2}", "it answers a byte of two digits, as `= 05`, or is refused"),
    READ_WORD: ("[0-9a-f]{4}", "it answers a word of four digits, as `= 0005`, or is refused"),
    PICTURE: (
        r"ragged|picture [1-9][0-9]*x[1-9][0-9]*( [0-9a-f]{32})?",
        "it answers a picture, as `= picture 720x400`, with its digest or without",
    ),
    CALLED: (
        r"((a|b|c|d)x=[0-9a-f]{4} ?)+(block [0-9a-f]+)?",
        "it answers registers, as `= ax=0041`, or is refused",
    ),
}
LIKE_REFUSAL = re.compile("(e[0-9]{1,3})( [a-z0-9]+)?")


def why_never(expected: str, words: str) -> str:
    """Why no answer of a step with these words meets what is expected, and what would be; empty
    where one may."""
    step = step_of_words(words)
    wanted = expected.lower()
    if step is None or step.form.answer == DUMP or wanted in (ANY, "skipped", ""):
        return ""
    form, cure = FORMS_OF_ANSWERS[step.form.answer]
    if re.fullmatch(form, wanted) or wanted.endswith(FRONT):
        return ""
    refusal = LIKE_REFUSAL.fullmatch(wanted)
    if refusal is None:
        return f"no answer of `{step.name}` is `{expected}`: {cure}"
    refusals = {f"E{number}": name for number, name in REFUSALS.items()}
    name = refusals.get(refusal[1].upper())
    if name is None:
        return f"there is no refusal {refusal[1].upper()}: they are E1 to E{len(refusals)}"
    whole = f"{refusal[1].upper()} {name}"
    if refusal[2] is not None and refusal[0] != whole.lower():
        return f"there is no refusal `{expected}`: {refusal[1].upper()} is {name}"
    if int(refusal[1][1:]) not in step.form.refusals:
        known = ", ".join(refusal_of(number) for number in step.form.refusals) or "never"
        return f"`{step.name}` is never refused as {whole}: it is refused as {known}"
    return ""


@lru_cache(4096)
def step_of_words(words: str) -> Optional[Step]:
    """The step of these words; None where they are none."""
    try:
        return parse_line(words.lower().split())
    except (ValueError, IndexError):
        return None


def is_worth_telling(step: Answer, words: str) -> bool:
    """Whether `--bless` writes an answer in: not where it is `ok`, or the registers that a call
    handed in."""
    given = dict(word.lower().split("=", 1) for word in words.split() if "=" in word)
    handed_in = " ".join(f"{name}={given.get(name, '0'):0>4}" for name in REGISTERS)
    return step.answer not in ("ok", "skipped") and step.answer.lower() != handed_in


def dumps_in(data: bytes, name: str) -> dict[int, tuple[str, ...]]:
    """The dumps that stand whole in a text, by the lines of their steps; a Trouble where no step is
    to give an answer."""
    dumps: dict[int, list[str]] = {}
    step = 0
    for number, line in enumerate(BytesIO(data) if b";" in data else (), 1):
        if line[0] not in STEPLESS:
            step = number
            continue
        front, _, comment = line.partition(b";")
        words = front.split(None, 1)
        if comment[:1] == b"|" and step and not words:
            dumps.setdefault(step, []).append(text_of(comment[1:]).strip())
            continue
        step = number if words and words[0].lower() not in BLOCK_WORDS else 0
        if not step and expected_in(comment) and comment.strip(b" =\t\r\n"):
            raise Trouble(
                f"no step stands on this line, so nothing answers {expected_in(comment)}",
                name,
                number,
            )
    return {number: tuple(lines) for number, lines in dumps.items()}


def what_differs(step: Answer, expected: str, name: str, dump: tuple[str, ...]) -> list[str]:
    """What of an answer is otherwise than expected, by name, as far as that is more than both
    answers tell."""
    refusal = REFUSAL.fullmatch(step.answer)
    if refusal is not None:
        is_byte = name in READING and re.fullmatch("e[1-9a-f]", expected.lower()) is not None
        return (
            [f"{expected} is a byte that is read here; the refusal is written {step.answer}"]
            if is_byte
            else []
        )
    if dump:
        return differing(step.lines, dump) or [
            "the lines below it agree, and its digest is that of others"
        ]
    is_whole = (
        name == "show"
        and expected.split(" ")[0] == step.answer.split(" ")[0]
        and not expected.endswith(FRONT)
    )
    return differing([step.answer], [expected]) if is_whole and not step.others else []


def differing(answer: Sequence[str], wanted: Sequence[str]) -> list[str]:
    """What differs in a dump, each as `crtc 0C start address high: 03, not 00`; the rest is counted
    at the end."""
    found = [told for pair in zip_longest(answer, wanted) for told in _in_line(*pair)]
    more = len(found) - MOST_NAMED
    return found[:MOST_NAMED] + ([f"and {more} more"] if more > 0 else [])


def _in_line(line: str | None, wanted: str | None) -> Iterator[str]:
    if line == wanted:
        return
    if line is None or wanted is None:
        yield f"no line, not '{wanted}'" if line is None else f"'{line}', not the end"
        return
    words = line.split(" ")
    others = wanted.split(" ")
    row = _ROW.match(line)
    if len(words) != len(others) or len(words) == 1 or bool(row) != bool(_ROW.match(wanted)):
        yield f"'{line}', not '{wanted}'"
        return
    front = len(row[0].split(" ")) if row else 0
    for at, (word, other) in enumerate(zip(words, others)):
        if word != other:
            yield f"{_place(words, row, at, front)}: {word.rstrip(':')}, not {other.rstrip(':')}"


def _place(words: Sequence[str], row: re.Match[str] | None, at: int, front: int) -> str:
    if row is None:
        # A line of names and values, or of four latches.
        names = [
            word for word in words[:at] if not re.fullmatch(r"[0-9A-F]{2,4}|[0-9]+", word)
        ] or words[:1]
        return (
            f"latch of plane {at - 1}"
            if words[0] == "latches"
            else " ".join(dict.fromkeys([words[0], names[-1]]))
        )
    group, _, kind, number, plane, offset = row.groups()
    if at < front:
        return f"{group or kind or 'plane'} {'index' if at == 1 else 'state'}"
    at -= front
    if group:
        return f"{group} {at:02X} {NAMES[group][at]}"
    if kind == "row":
        return f"row {number} column {at}"
    return f"entry {number} {COLOURS[at]}" if kind else f"plane {plane} {int(offset, 16) + at:04X}"
