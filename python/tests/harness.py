"""Performs a script's steps by a call of the package each, and writes the report that
docs/REPORT.md tells."""

from __future__ import annotations

from io import BytesIO
from typing import Callable, Iterator, Optional

import zaklimot
from zaklimot import Card
from zaklimot.format import STATE, ScriptFault, steps_in


def steps_of(text: str) -> Iterator[str]:
    """The steps that a printed text means, those of a block so many times as it says."""
    return (line.words for line in steps_in(BytesIO(text.encode("ascii"))))


def _frame(card: Card) -> bytes:
    try:
        ppm = card.frame().ppm()
    except zaklimot.Ragged:
        return b"ragged\n"
    return b"picture %d\n%s\n" % (len(ppm), ppm)


def _int10(card: Card, words: list[str]) -> bytes:
    ax, bx, cx, dx = (int(word[3:], 16) for word in words[1:5])
    answer = card.int10(ax, bx, cx, dx, bytes.fromhex(words[6]) if len(words) > 5 else b"")
    table = f" block {answer.table.hex().upper()}" if answer.table else ""
    return (
        f"ax={answer.ax:04X} bx={answer.bx:04X} cx={answer.cx:04X} dx={answer.dx:04X}{table}\n"
    ).encode("ascii")


def _show(card: Card, words: list[str]) -> bytes:
    numbers: list[int] = [int(word, 16) for word in words[2:4]]
    numbers += [int(word) for word in words[4:]]
    dump: Callable[..., str] = getattr(card, f"show_{words[1]}")
    return dump(*numbers).encode("ascii")


def _read(call: Callable[[int], int], width: int) -> Callable[[list[str]], bytes]:
    return lambda words: b"%0*X\n" % (width, call(int(words[1], 16)))


def _write(call: Callable[[int, int], None]) -> Callable[[list[str]], bytes]:
    def write(words: list[str]) -> bytes:
        call(int(words[1], 16), int(words[2], 16))
        return b"ok\n"

    return write


def _advance(card: Card, words: list[str]) -> bytes:
    card.advance(int(words[1]))
    return b"ok\n"


def answers(card: Card, steps: Iterator[str]) -> Iterator[bytes]:
    """The lines of the report."""
    takes: dict[str, Callable[[list[str]], bytes]] = {
        "out": _write(card.out),
        "outw": _write(card.out_word),
        "in": _read(card.inp, 2),
        "inw": _read(card.inp_word, 4),
        "put": _write(card.put),
        "putw": _write(card.put_word),
        "get": _read(card.get, 2),
        "getw": _read(card.get_word, 4),
        "int": lambda words: _int10(card, words),
        "advance": lambda words: _advance(card, words),
        "frame": lambda _: _frame(card),
        "show": lambda words: _show(card, words),
    }
    for number, step in enumerate(steps, 1):
        words = step.split(" ")
        try:
            answer = takes[words[0]](words)
        except zaklimot.Refusal as refusal:
            answer = b"E%d %s\n" % (refusal.number, type(refusal).__name__.encode("ascii"))
        yield b"%d %s" % (number, answer)


def stopped(steps: Iterator[str], until: Optional[int]) -> Iterator[str]:
    """The first steps, and then looks at the state; or all, where nothing stops them."""
    for number, step in enumerate(steps):
        if number == until:
            break
        yield step
    if until is not None:
        yield from STATE


def report_by_calls(text: bytes, fonts: bytes, until: Optional[int] = None) -> bytes:
    """The report of a text, by a call for each step; or its fault, as the program tells it."""
    try:
        code = zaklimot.assemble(text)
        with Card(fonts) as card:
            return b"".join(answers(card, stopped(steps_of(zaklimot.disassemble(code)), until)))
    except zaklimot.Error as error:
        return fault_of(error)


def report_by_runs(code: bytes, fonts: bytes, until: Optional[int] = None) -> bytes:
    """The report of a script's bytes: by one run, or by a slice and the dumps after it."""
    try:
        if until is None:
            return zaklimot.run(code, fonts).raw
        with Card(fonts) as card:
            part = card.run_on(code, 0, until)
            dumps = (line.split(b" ", 1)[1] for line in answers(card, iter(STATE)))
            return part.raw + b"".join(
                b"%d %s" % (part.taken + at, dump) for at, dump in enumerate(dumps, 1)
            )
    except zaklimot.Error as error:
        return fault_of(error)


def fault_of(error: zaklimot.Error) -> bytes:
    """A fault as the program tells it."""
    return ScriptFault(type(error).__name__, error.place).answer.encode("ascii") + b"\n"
