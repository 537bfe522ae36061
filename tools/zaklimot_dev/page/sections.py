"""The sections of the documentation that the page shows, in a form that it can make elements of.

A block is a list that begins with its kind: `["p", INLINE]`, `["h", INLINE]`, `["pre", TEXT]`,
`["ul", ITEM, ..]` and `["ol", ITEM, ..]`, whose items are INLINE, and `["table", ROW, ..]`, whose
rows are lists of INLINE, the head first. INLINE is a list of texts and of `[KIND, INLINE]`, where
KIND is `code`, `b` or `i`, or of `["a", ADDRESS, INLINE]`.
"""

from __future__ import annotations

import re
from pathlib import Path
from typing import Any, Iterator

from zaklimot.commands.core.streams import to_read
from zaklimot.commands.core.trouble import Trouble
from zaklimot.commands.report.debugging import DOCS

# The pages, each with its sections that the page shows; of one with none named, all.
QUOTED: dict[str, tuple[str, ...]] = {
    "SCRIPT.md": ("the-text", "steps-again-and-again", "ports-and-addresses"),
    "REGISTERS.md": (),
    "SERVICES.md": (),
    "HOST-PATH.md": ("windows", "a-write-bit-by-bit"),
    "REPORT.md": ("refusals",),
    "DECISIONS.md": ("the-dacs-palettes",),
    "PAGE.md": ("what-is-proved",),
}
HEADING = re.compile(r"^(#{1,4}) (.+)$")
# Where a section is defined and tested is left out: these links lead into the repository.
LEFT_OUT = ("*Defined by ", "*Shown by", "![")
INLINE = re.compile(
    r"`(?P<code>[^`]+)`|\*\*(?P<b>.+?)\*\*|\*(?P<i>[^*\s][^*]*?)\*"
    r"|\[(?P<text>[^\]]+)\]\((?P<to>[^)\s]+)\)"
)
ITEM = re.compile(r"^(?:[-*]|\d+\.) +(.*)$")
CELL = re.compile(r"(?<!\\)\|")


def anchor_of(heading: str) -> str:
    """The anchor that a heading has on a page."""
    return re.sub(r"[^a-z0-9 _-]", "", heading.lower()).replace(" ", "-")


def inline(text: str) -> list[Any]:
    """A text with code, bold and slanted words and links, as its parts."""
    parts: list[Any] = []
    at = 0
    for found in INLINE.finditer(text):
        parts += [text[at : found.start()]] if found.start() > at else []
        at = found.end()
        if found["to"]:
            parts.append(["a", found["to"], inline(found["text"])])
        elif found["code"]:
            parts.append(["code", [found["code"].replace("\\|", "|")]])
        else:
            kind = "b" if found["b"] else "i"
            parts.append([kind, inline(found[kind])])
    return parts + ([text[at:]] if at < len(text) else [])


def _table(lines: list[str]) -> list[Any]:
    rows = [[inline(cell.strip()) for cell in CELL.split(line)[1:-1]] for line in lines]
    # The second row parts the head from the others.
    return ["table", rows[0], *rows[2:]]


def _items(lines: list[str]) -> list[Any]:
    kind = "ol" if lines[0][0].isdigit() else "ul"
    items = []
    for line in lines:
        found = ITEM.match(line)
        if found:
            items.append(found[1])
        else:
            items[-1] += " " + line.strip()
    return [kind, *map(inline, items)]


def _block(lines: list[str]) -> list[Any]:
    """The block that some lines are, between which none is empty."""
    heading = HEADING.match(lines[0])
    if heading:
        return ["h", inline(heading[2])]
    if lines[0].startswith("|"):
        return _table(lines)
    if ITEM.match(lines[0]):
        return _items(lines)
    if all(line.startswith("    ") for line in lines):
        return ["pre", "\n".join(line[4:] for line in lines)]
    return ["p", inline(" ".join(lines))]


def _groups(lines: list[str]) -> Iterator[list[str]]:
    """Lines between which none is empty, and whole examples, which have such lines."""
    group: list[str] = []
    is_example = False
    for line in [*lines, ""]:
        if line.startswith("```"):
            if is_example:
                yield ["```", *group]
            is_example = not is_example
            group = []
        elif is_example or (line and not HEADING.match(line)):
            group.append(line)
        else:
            yield from [group] if group else []
            yield from [[line]] if line else []
            group = []


def blocks(text: str) -> list[Any]:
    """The blocks of a text in Markdown."""
    found = [group for group in _groups(text.splitlines()) if not group[0].startswith(LEFT_OUT)]
    return [
        ["pre", "\n".join(group[1:])] if group[0] == "```" else _block(group) for group in found
    ]


def sections_of(text: str) -> dict[str, dict[str, Any]]:
    """The sections of a page by their anchors: `{"title": TEXT, "blocks": [BLOCK, ..]}`."""
    lines = text.splitlines()
    sections = {}
    heads = [(at, found) for at, line in enumerate(lines) if (found := HEADING.match(line))]
    for number, (at, found) in enumerate(heads):
        ends = (begin for begin, other in heads[number + 1 :] if len(other[1]) <= len(found[1]))
        # A page's own heading has only what stands before the first section.
        if found[1] == "#":
            ends = (begin for begin, _ in heads[1:])
        inside = "\n".join(lines[at + 1 : next(ends, len(lines))])
        sections[anchor_of(found[2])] = {"title": found[2], "blocks": blocks(inside)}
    return sections


def quoted_sections(folder: Path = DOCS) -> dict[str, dict[str, Any]]:
    """The sections that the page shows, by their pages and anchors."""
    quoted = {}
    for name, anchors in QUOTED.items():
        found = sections_of(Path(to_read(str(folder / name))).read_text("utf-8"))
        lacking = [anchor for anchor in anchors if anchor not in found]
        if lacking:
            raise Trouble(f"it has no section {lacking[0]}", name)
        quoted[name] = {anchor: found[anchor] for anchor in anchors or found}
    return quoted
