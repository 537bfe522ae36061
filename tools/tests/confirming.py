"""The witness of elements: the script of each, from power-on, run by the library, and the two
states and the answer that its report tells.

Elements are made of states that the library saves. Here the same states are read from dumps.
"""

from __future__ import annotations

import io
import zlib
from functools import lru_cache
from typing import Any, Callable, NamedTuple, Optional, Sequence

import zaklimot
from zaklimot.format import (
    REFUSALS,
    Answer,
    Picture,
    Report,
    Script,
    Step,
    encode,
    encoded,
    refusal_of,
)
from zaklimot.commands.script.library import use_library
from zaklimot.commands.script.words import FONTS
from zaklimot.commands.steps.comparing import differences
from zaklimot.commands.steps.making import dots_answer
from zaklimot.commands.steps.parts import (
    ANSWER,
    BDA,
    BEAM,
    CURSORS,
    FINAL,
    INITIAL,
    LINE,
    REFUSED,
    SUMS,
    Element,
    Parts,
)
from zaklimot.commands.steps.scripts import (
    ENTRIES,
    PLANES,
    REGISTERS_SHOWN,
    dump_of,
    places_of,
    reached,
    scripted,
)

from .dumps import (
    GROUPS,
    DumpedBank,
    all_bytes_in,
    beam_in,
    bios_data_in,
    latches_in,
    registers_in,
)

# The refusals as reports have them, with their names.
REFUSED_AS = {refusal_of(number): name for number, name in REFUSALS.items()}
# The words of the beam's dump, and of that of the BIOS data, by the names of the fields.
BEAM_WORDS = {**{name: name for name in BEAM}, "character": "char"}
BDA_WORDS = {
    "mode": "mode",
    "columns": "cols",
    "size": "size",
    "start": "start",
    "cursor_type": "type",
    "page": "page",
    "crtc_address": "crtc",
    "last_row": "last",
    "height": "height",
}
FRAME = Step("frame")
MORE = len(GROUPS) - 1

# What stands in reports beside pictures: what can be printed, and the ends of lines.
PRINTED = bytes([*range(ord(" "), ord("~") + 1), ord("\n")])


class Answers(NamedTuple):
    """The lines of a report, the first of each answer with its number; and of a frame at the
    script's end the picture instead, if it has one."""

    lines: list[str]
    picture: Optional[Picture]


def line_count(steps: Sequence[Step]) -> int:
    """How many lines the answers of steps have that are no frames, and show no cells."""
    return len(steps) + MORE * steps.count(REGISTERS_SHOWN)


@lru_cache(maxsize=32)
def _fronts(bits: int) -> tuple[str, ...]:
    """How the answers of steps begin whose numbers have so many bits: with their numbers."""
    return tuple(f"{number} " for number in range(1, 1 << bits))


def answers_in(report: bytes, steps: Sequence[Step]) -> Answers:
    """The answers of these steps, of which none but the last is a frame.

    A ReportError tells that the report is damaged, a ValueError that it is another script's.
    """
    has_frame = steps[-1] == FRAME
    dumped = steps[:-1] if has_frame else steps
    count = line_count(dumped)
    rest = report.split(b"\n", count)[-1] if has_frame else b""
    text = report[: len(report) - len(rest)]
    lines = text.decode("ascii", "replace").split("\n")
    is_whole = len(lines) == count + 1 and not lines.pop() and bool(rest) == has_frame
    if not is_whole or text.translate(None, PRINTED) or not _are_numbered(lines, dumped):
        raise _fault(report)
    return Answers(lines, _picture(rest, len(steps)) if has_frame else None)


def _are_numbered(lines: Sequence[str], steps: Sequence[Step]) -> bool:
    """Whether the first line of each answer begins with its step's number."""
    firsts = [*lines]
    for at, step in enumerate(steps):
        if step == REGISTERS_SHOWN:
            del firsts[at + 1 : at + 1 + MORE]
    return all(map(str.startswith, firsts, _fronts(len(steps).bit_length())))


def _read(report: bytes, first: int) -> list[Answer]:
    """The answers of a report of which nothing is known."""
    # Bytes in memory are no raw stream to a type checker, but are read as one.
    stream = io.BufferedReader(io.BytesIO(report))  # type: ignore[arg-type]
    return list(Report(stream, first=first).answers())


def _picture(rest: bytes, number: int) -> Optional[Picture]:
    """The picture of the last step, of what stands behind the answers of all others."""
    answers = _read(rest, number)
    if len(answers) != 1:
        raise ValueError("more answers stand behind the frame's")
    picture = answers[0].picture
    return picture if isinstance(picture, Picture) else None


def _fault(report: bytes) -> ValueError:
    """What is wrong with a report whose lines are not those that its script answers."""
    _read(report, 1)
    return ValueError("its answers are not those of the script's steps")


def read_dumps(lines: Sequence[str], state: Parts) -> Parts:
    """The parts of a state from the lines of its dumps, of which those of memory come last."""
    told: Parts = {}
    at = 0
    for step in dump_of(state):
        if step.name not in READERS:
            break
        count = line_count((step,))
        told.update(READERS[step.name]([_unnumbered(lines[at]), *lines[at + 1 : at + count]]))
        at += count
    told.update(_read_memory(lines[at:], state))
    return {name: told[name] for name in state}


def _read_memory(lines: Sequence[str], state: Parts) -> Parts:
    """Planes, colours and sums from the lines of the dumps of memory."""
    offsets, entries = places_of(state)
    is_whole = SUMS in state
    split = len(lines) - (ENTRIES if is_whole else len(entries))
    planes = [all_bytes_in(lines[plane:split:PLANES]) for plane in range(PLANES)]
    dac = all_bytes_in(lines[split:])
    # Where the bytes of each place and of each entry stand in what was dumped.
    at = [*(offsets if is_whole else range(len(offsets)))]
    rows = [*(entries if is_whole else range(len(entries)))]
    told: Parts = {
        "planes": [[offset, *(plane[n] for plane in planes)] for offset, n in zip(offsets, at)],
        "colours": [[entry, *dac[3 * n : 3 * n + 3]] for entry, n in zip(entries, rows)],
    }
    return {**told, SUMS: [zlib.crc32(part) for part in (*planes, dac)]}


def _unnumbered(line: str) -> str:
    """The first line of an answer, without the step's number."""
    return line.partition(" ")[2]


def _read_registers(answer: Sequence[str]) -> Parts:
    """The parts in the lines of `show regs`."""
    read = registers_in(answer)
    told: Parts = {"misc": read.misc, "attr_is_data": int(read.is_data)}
    for name in ("seq", "crtc", "gfx", "attr"):
        bank: DumpedBank = getattr(read, name)
        told[f"{name}_index"] = bank.index
        told[name] = bank.registers
    told.update({f"dac_{name}": value for name, value in vars(read.dac).items()})
    return told


def _read_latches(answer: Sequence[str]) -> Parts:
    return {"latches": list(latches_in(answer[0]))}


def _read_beam(answer: Sequence[str]) -> Parts:
    read = beam_in(answer[0])
    return {"beam": {name: read[word] for name, word in BEAM_WORDS.items()}}


def _read_bda(answer: Sequence[str]) -> Parts:
    dumped = bios_data_in(answer[0])
    read: Parts = {name: dumped.numbers[word] for name, word in BDA_WORDS.items()}
    read[CURSORS] = dumped.cursors
    return {"bda": {name: read[name] for name in BDA}}


READERS: dict[str, Callable[[Sequence[str]], Parts]] = {
    REGISTERS_SHOWN.name: _read_registers,
    "show latches": _read_latches,
    "show beam": _read_beam,
    "show bda": _read_bda,
}


class Confirmed(NamedTuple):
    """The bytes of an element's script with its dumps, and what its report says: the two states
    and the answer."""

    script: bytes
    read: Callable[[bytes], Element]


def confirming(element: Element) -> Confirmed:
    """The script of an element with the dumps of the state before and after its step."""
    before = dump_of(element[INITIAL])
    after = dump_of(element[FINAL])
    reaching = reached(element)
    stepping = scripted(element)
    is_line = LINE in element
    steps = [*reaching, *before, stepping, *after, *([FRAME] if is_line else [])]

    def read(report: bytes) -> Element:
        lines, picture = answers_in(report, steps)
        at = len(reaching) + line_count(before)
        told: Element = {
            INITIAL: read_dumps(lines[len(reaching) : at], element[INITIAL]),
            FINAL: read_dumps(lines[at + 1 :], element[FINAL]),
        }
        if is_line:
            return {**told, ANSWER: _line_of(picture, element)}
        return {**told, **_step_answer(_unnumbered(lines[at]))}

    return Confirmed(encode(Script()) + b"".join(map(encoded, steps)), read)


def _step_answer(answer: str) -> Element:
    """What a step's answer tells, as members of an element."""
    if answer in REFUSED_AS:
        return {REFUSED: REFUSED_AS[answer]}
    if answer == "ok":
        return {}
    if answer.startswith("ax="):
        registers, _, block = answer.partition(" block ")
        told: Parts = {word[:2]: int(word[3:], 16) for word in registers.split()}
        return {ANSWER: {**told, **({"block": list(bytes.fromhex(block))} if block else {})}}
    return {ANSWER: int(answer, 16)}


def _line_of(picture: Optional[Picture], element: Element) -> Any:
    """The dots of the element's line, of the picture of its frame."""
    number = element[INITIAL]["beam"]["line"]
    row: list[int] = []
    if picture is not None and number < picture.height:
        dots = picture.row(number)
        row = [dots[at] << 12 | dots[at + 1] << 6 | dots[at + 2] for at in range(0, len(dots), 3)]
    return dots_answer(row, element[INITIAL])


def report_of(script: bytes) -> bytes:
    """The report of a script by the library."""
    use_library()
    return zaklimot.run(script, FONTS.read_bytes()).raw


def differing(element: Element) -> list[str]:
    """What differs between an element and the report of its script."""
    confirmed = confirming(element)
    return list(differences(element, confirmed.read(report_of(confirmed.script))))
