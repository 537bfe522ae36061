"""The text that an adapter shows: its rows of characters and attributes, in a code page, and with
their colours. The card is asked where a cell is fetched, and what becomes of its dots."""

from __future__ import annotations

import codecs
from dataclasses import dataclass, replace
from html import escape
from itertools import groupby
from typing import Iterator, NamedTuple, Optional, Sequence

import zaklimot
from zaklimot.commands.core.trouble import Trouble
from zaklimot.commands.images.png import WIDENED

from .asked import USUAL_PAGE
from .following import Follower

# The CRT controller's registers of the cursor, which move no cell.
CURSOR = (0x0A, 0x0B, 0x0E, 0x0F)
# Frames that differ in whether a character is there that blinks, and the dots of a glyph's row.
PHASES = (0, 16)
GLYPH_DOTS = 8
# What a VGA's own glyphs show where a code page has controls.
GLYPHS_OF_CONTROLS = " ☺☻♥♦♣♠•◘○◙♂♀♪♫☼►◄↕‼¶§▬↨↑↓→←∟↔▲▼"
DELETE = 0x7F
GLYPH_OF_DELETE = "⌂"
UNKNOWN = "\ufffd"
Colour = tuple[int, int, int]


class TextCell(NamedTuple):
    """A cell: its character and its attribute, 0 to 255 each."""

    character: int
    attribute: int


@dataclass(frozen=True)
class Look:
    """How characters of an attribute look: their colour and that of the background, eight bits a
    component, each of which no dot may have; whether they blink, and are underlined."""

    front: Optional[Colour] = None
    back: Optional[Colour] = None
    blinks: bool = False
    is_underlined: bool = False

    @property
    def colours(self) -> tuple[Colour, Colour]:
        """Both colours. One that no dot has is as good as the other."""
        front, back = self.front or self.back, self.back or self.front
        return front or (0, 0, 0), back or (0, 0, 0)


@dataclass(frozen=True)
class ShownRow:
    """A row of text: where its cells are fetched, and the beam at each of its lines."""

    offsets: Sequence[int]
    beams: Sequence[zaklimot.Beam]


class TextScreen:
    """The text that a card shows, which goes on: where cells are fetched is found out once for each
    state of the registers that decide it."""

    def __init__(self, follower: Follower, name: str) -> None:
        self.follower = follower
        self._name = name
        self._decided: object = None
        self._rows: Sequence[ShownRow] = ()

    @property
    def is_text(self) -> bool:
        """Whether it is text that the card shows, and not graphics."""
        return self.follower.card.explain_dot().is_text

    def rows(self) -> Sequence[ShownRow]:
        """The rows that are shown; a Trouble where graphics are."""
        if not self.is_text:
            told = "it shows graphics then, and no text: `zaklimot trace pictures` shows them"
            raise Trouble(told, self._name)
        registers = self.follower.card.registers()
        crtc = bytes(0 if at in CURSOR else one for at, one in enumerate(registers.crtc))
        decided = crtc, registers.seq, registers.gfx
        if decided != self._decided:
            with self.follower.copy() as card:
                self._rows = list(_rows_of(card))
            self._decided = decided
        return self._rows

    def cells(self) -> Sequence[Sequence[TextCell]]:
        """The cells of each row."""
        rows = self.rows()
        characters, attributes = (self.follower.card.plane(plane) for plane in (0, 1))
        return [[TextCell(characters[at], attributes[at]) for at in row.offsets] for row in rows]

    def text(self, letters: str) -> Sequence[str]:
        """The rows as text, each character of which is a cell."""
        rows = self.rows()
        characters = self.follower.card.plane(0)
        return ["".join([letters[characters[at]] for at in row.offsets]) for row in rows]

    def looks(self) -> dict[int, Look]:
        """How the attributes look that are shown."""
        looks: dict[int, Look] = {}
        seen: set[TextCell] = set()
        for row, cells in zip(self.rows(), self.cells()):
            for column, cell in enumerate(cells):
                look = looks.get(cell.attribute, Look())
                if cell in seen or look.front is not None and look.back is not None:
                    continue
                seen.add(cell)
                looks[cell.attribute] = _look_at(self.follower.card, row, column, look)
        return looks


def _rows_of(card: zaklimot.Card) -> Iterator[ShownRow]:
    """The rows of a frame, line by line. The card goes through the frame."""
    card.skip_frame()
    timing = card.clock()
    card.advance(timing.line_dots - 1)
    columns = card.beam().character + 1
    card.skip_frame()
    # Only at the second dot does the beam have the counters of its line.
    card.advance(1)
    row: list[zaklimot.Beam] = []
    for _ in range(timing.lines):
        beam = card.beam()
        if not card.explain_dot(beam).is_display:
            break
        if row and not (beam.scan or beam.half):
            yield _shown(card, row, columns)
            row = []
        row.append(beam)
        card.advance(timing.line_dots)
    if row:
        yield _shown(card, row, columns)


def _shown(card: zaklimot.Card, beams: Sequence[zaklimot.Beam], columns: int) -> ShownRow:
    """The row whose lines have these beams, of so many columns at most."""
    offsets = []
    for column in range(columns):
        source = card.explain_dot(beams[0]._replace(character=column, dot=0))
        if not source.is_display:
            break
        offsets.append(source.address)
    return ShownRow(offsets, beams)


def _look_at(card: zaklimot.Card, row: ShownRow, column: int, look: Look) -> Look:
    """What the dots of a cell add to how its attribute looks."""
    for beam in row.beams:
        at = beam._replace(character=column, dot=0)
        phases = [card.explain_dot(at._replace(frame=frame)) for frame in PHASES]
        blinks = any(one.is_blinked_away for one in phases)
        is_there = next((n for n, one in zip(PHASES, phases) if not one.is_blinked_away), 0)
        is_underlined = look.is_underlined or any(one.is_underlined for one in phases)
        look = replace(look, blinks=look.blinks or blinks, is_underlined=is_underlined)
        for dot in range(GLYPH_DOTS):
            source = card.explain_dot(at._replace(frame=is_there, dot=dot))
            red, green, blue = (WIDENED[part] for part in source.colour)
            side = "front" if source.is_foreground else "back"
            look = replace(look, **{side: (red, green, blue)})
    return look


def code_page(name: str) -> str:
    """The characters of the codes 00 to FF in a code page of Python's, such as `cp850`."""
    try:
        letters = bytes(range(256)).decode(codecs.lookup(name).name, "replace")
    except (LookupError, UnicodeError, ValueError, TypeError) as error:
        raise Trouble(f"there is no code page `{name}`: `{USUAL_PAGE}` is one") from error
    if len(letters) != 256 or letters[0x20:DELETE] != USUAL_LETTERS:
        raise Trouble(f"`{name}` is no code page of 256 characters: `{USUAL_PAGE}` is one")
    letters = GLYPHS_OF_CONTROLS + letters[0x20:DELETE] + GLYPH_OF_DELETE + letters[DELETE + 1 :]
    # No control gets into a text: in some code pages there are more of them.
    return "".join(one if one.isprintable() or one == "\u00a0" else UNKNOWN for one in letters)


USUAL_LETTERS = bytes(range(0x20, DELETE)).decode("ascii")


def plain_lines(screen: TextScreen, letters: str, _: str) -> Iterator[str]:
    """The rows as text, without the blanks at their ends."""
    yield from (row.rstrip() for row in screen.text(letters))


Runs = Iterator[tuple[Look, str]]


def _rows_of_runs(screen: TextScreen, letters: str) -> Iterator[Runs]:
    """The rows by their parts that have one look, each with its text."""
    looks = screen.looks()
    for row in screen.cells():
        runs = groupby(row, lambda cell: looks[cell.attribute])
        yield ((look, "".join(letters[cell.character] for cell in cells)) for look, cells in runs)


def ansi_lines(screen: TextScreen, letters: str, _: str) -> Iterator[str]:
    """The rows with their colours, for a terminal of 24-bit colours."""
    for runs in _rows_of_runs(screen, letters):
        parts = []
        for look, text in runs:
            front, back = (";".join(map(str, colour)) for colour in look.colours)
            more = ";5" * look.blinks + ";4" * look.is_underlined
            parts.append(f"\x1b[0;38;2;{front};48;2;{back}{more}m{text}")
        yield "".join(parts) + "\x1b[0m"


HTML_HEAD = """<!DOCTYPE html>
<html lang="en">
<head>
<meta charset="utf-8">
<title>{title}</title>
<style>
body {{ background: #222; }}
pre {{ display: inline-block; line-height: 1.2; font-family: monospace; }}
.blinks {{ animation: blinks 1s steps(1) infinite; }}
.underlined {{ text-decoration: underline; }}
@keyframes blinks {{ 50% {{ color: transparent; }} }}
</style>
</head>
<body>
<pre>
"""
HTML_END = "</pre>\n</body>\n</html>\n"


def html_lines(screen: TextScreen, letters: str, title: str) -> Iterator[str]:
    """The rows with their colours, as a page of its own."""
    rows = list(_rows_of_runs(screen, letters))
    yield HTML_HEAD.format(title=escape(title)).rstrip("\n")
    for runs in rows:
        yield "".join(_span(look, text) for look, text in runs)
    yield HTML_END.rstrip("\n")


def _span(look: Look, text: str) -> str:
    named = (("blinks", look.blinks), ("underlined", look.is_underlined))
    classes = " ".join(name for name, has in named if has)
    front, back = ("#{:02x}{:02x}{:02x}".format(*colour) for colour in look.colours)
    of_class = f' class="{classes}"' if classes else ""
    return f'<span{of_class} style="color:{front};background:{back}">{escape(text)}</span>'
