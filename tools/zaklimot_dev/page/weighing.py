"""How many bytes each kind of thing has in a page as built, as the documentation tells it."""

from __future__ import annotations

import re
from typing import Any, NamedTuple

from zaklimot.commands.core.streams import json_in_page
from zaklimot.commands.report.debugging import page_data

from .page import editor_in

PAGE_SCRIPT = re.compile(r'<script type="module">\n(.*?)</script>', re.S)
STYLES = re.compile(r"<style>\n(.*?)</style>", re.S)


class Weight(NamedTuple):
    """A kind of thing in a page, as docs/PAGE.md calls it, and how many bytes it has."""

    kind: str
    size: int


def _size(text: str) -> int:
    return len(text.encode("utf-8"))


def _size_of_data(value: Any) -> int:
    """How many bytes a value of the page's data has there."""
    return _size(json_in_page(value))


def weights(page: str) -> list[Weight]:
    """How many bytes a page has of each kind, the most first, and last all that is of none."""
    data = page_data(page)
    machine = dict(data["machine"])
    programs = machine.pop("programs")
    editor = editor_in(page)
    script = PAGE_SCRIPT.search(page)
    styles = STYLES.findall(page)
    found = [
        Weight("module", _size_of_data(data["module"])),
        Weight("machine", _size_of_data(machine)),
        Weight("code", _size(script[1]) if script else 0),
        Weight("editor", _size(editor.script) + _size(editor.style)),
        Weight("style", sum(map(_size, styles)) - _size(editor.style)),
        Weight("help", _size_of_data(data["sections"])),
        Weight("examples", _size_of_data(data["examples"]) + _size_of_data(data["tutorial"])),
        Weight("programs", _size_of_data(programs)),
        Weight("font", _size_of_data(data["fonts"])),
    ]
    rest = _size(page) - sum(weight.size for weight in found)
    return [*sorted(found, key=lambda weight: -weight.size), Weight("rest", rest)]


def table_of(weighed: list[Weight]) -> str:
    """The rows of the table in docs/PAGE.md."""
    return "\n".join(f"| {kind} | {size:,} |" for kind, size in weighed)
