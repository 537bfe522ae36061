"""Checking answers against the forms that each step may have, which docs/REPORT.md describes."""

from __future__ import annotations

import re
from typing import Optional, Sequence

from .picture import Picture
from .report import REFUSED, Answer
from .script import Step
from .table import (
    ADVANCE,
    CALLED,
    DUMP,
    MOST_ADVANCE,
    OK,
    PICTURE,
    READ_BYTE,
    READ_WORD,
    refusal_of,
)

_BYTE, _WORD = "[0-9A-F]{2}", "[0-9A-F]{4}"
_CALLED = re.compile(rf"ax={_WORD} bx={_WORD} cx={_WORD} dx={_WORD}(?: block ((?:{_BYTE})+))?")
_READ = {READ_BYTE: re.compile(_BYTE), READ_WORD: re.compile(_WORD)}
RAGGED = "ragged"
# The calls that answer a block: the palette, and CX registers of the DAC.
_PALETTE_BLOCK, _DAC_BLOCK, _PALETTE_BYTES = 0x1009, 0x1017, 17


def _bytes(count: int) -> str:
    return f"(?: {_BYTE}){{{count}}}"


# The groups of registers that `show regs` shows: their name, and how many registers follow the
# index.
GROUPS = {"seq": 5, "crtc": 25, "gfx": 9, "attr": 21}
_DUMPS = {
    "show regs": [
        f"misc {_BYTE}",
        *(f"{name} {_BYTE}:{_bytes(count)}" for name, count in GROUPS.items() if name != "attr"),
        f"attr {_BYTE} [id]:{_bytes(GROUPS['attr'])}",
        f"dac {_BYTE} [rgb]{_bytes(3)}",
    ],
    "show beam": [
        "beam frame [0-9]{1,2} line [0-9]{1,4} char [0-9]{1,3} dot [0-9] "
        f"base {_WORD} scan [0-9]{{1,2}} half [01] split [01] rows [0-9]{{1,4}}"
    ],
    "show latches": [f"latches{_bytes(4)}"],
    "show bda": [
        f"bda mode {_BYTE} cols {_WORD} size {_WORD} start {_WORD} at(?: {_WORD}){{8}} type"
        f" {_WORD} page {_BYTE} crtc {_WORD} last {_BYTE} height {_WORD}"
    ],
}
# The rows and columns that a screen of cells may have.
_ROWS, _COLUMNS = (25, 28, 50), (40, 80)


def _dump(step: Step) -> Optional[list[str]]:
    """The forms of a dump's lines; None for the cells."""
    if step.name == "show dac":
        return [f"entry {step.numbers[0]:02X}:(?: [0-3][0-9A-F]){{3}}"]
    if step.name == "show plane":
        plane, offset, count = step.numbers
        return [f"plane {plane} {offset:04X}:{_bytes(count)}"]
    return _DUMPS.get(step.name)


def _are_cells(lines: Sequence[str]) -> bool:
    """Whether these lines are a dump of the cells."""
    return len(lines) in _ROWS and any(
        all(
            re.fullmatch(f"row {row:02X}:(?: {_WORD}){{{columns}}}", line)
            for row, line in enumerate(lines)
        )
        for columns in _COLUMNS
    )


def _is_dump(step: Step, answer: Answer) -> bool:
    forms = _dump(step)
    lines = answer.lines
    if answer.picture is not None or forms is None:
        return answer.picture is None and _are_cells(lines)
    return len(forms) == len(lines) and all(map(re.fullmatch, forms, lines))


def _is_call(step: Step, answer: str) -> bool:
    """Whether an answer of a call has registers, and a block if the call answers one."""
    found = _CALLED.fullmatch(answer)
    if found is None:
        return False
    ax, _, cx, _ = step.numbers
    length = {_PALETTE_BLOCK: _PALETTE_BYTES, _DAC_BLOCK: 3 * cx}.get(ax, 0)
    return len(found[1] or "") == 2 * length


def is_answer_to(step: Step, answer: Answer) -> bool:
    """Whether an answer has a form that this step may have, or is a refusal that this step may
    get."""
    # An advance is refused exactly if it is too far.
    is_advance = step.name == ADVANCE
    is_too_far = is_advance and step.numbers[0] > MOST_ADVANCE
    if REFUSED.fullmatch(answer.answer):
        return (is_too_far or not is_advance) and _is_refusal(step, answer)
    return not is_too_far and _is_done(step, answer)


def _has_more(answer: Answer) -> bool:
    """Whether an answer is more than a line."""
    return bool(answer.others) or answer.picture is not None


def _is_refusal(step: Step, answer: Answer) -> bool:
    """Whether an answer is a refusal of such a step."""
    return not _has_more(answer) and answer.answer in map(refusal_of, step.form.refusals)


def _is_done(step: Step, answer: Answer) -> bool:
    """Whether an answer is that of such a step that was done."""
    kind = step.form.answer
    has_more = _has_more(answer)
    if kind == DUMP:
        return _is_dump(step, answer)
    if kind == PICTURE:
        return isinstance(answer.picture, Picture) or (answer.answer == RAGGED and not has_more)
    if has_more:
        return False
    if kind == CALLED:
        return _is_call(step, answer.answer)
    return bool(_READ[kind].fullmatch(answer.answer)) if kind in _READ else answer.answer == OK
