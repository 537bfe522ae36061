"""The command `page`: the page that runs scripts, and its data: a JSON object, in which a script of
the user's may stand."""

from __future__ import annotations

import argparse
import base64
import json
import os
import re
from pathlib import Path
from typing import Any
from urllib.parse import quote

from zaklimot.format import FONT_BYTES, MOST_BYTES, is_bytes
from zaklimot.commands import TOP
from zaklimot.commands.core.files import STANDARD, name_of
from zaklimot.commands.core.progress import Progress
from zaklimot.commands.core.streams import json_in_page, read_at_most, write, write_file
from zaklimot.commands.core.trouble import AGREED, Trouble
from zaklimot.commands.explain.faults import read_script, wrong_font_bytes


PAGE = TOP / "page" / "zaklimot.html"
DOCS = TOP / "docs"
BEGIN = '<script type="application/json" id="zaklimot-data">'
END = "</script>"
ELEMENT = re.compile(f"{re.escape(BEGIN)}(.*?){re.escape(END)}", re.S)
# The page as built is far smaller.
MOST_PAGE = 1 << 24


def data_element(data: dict[str, Any]) -> str:
    """The element of a page that holds its data."""
    return BEGIN + json_in_page(data) + END


def page_data(page: str) -> dict[str, Any]:
    """The data of a page."""
    found = ELEMENT.findall(page)
    if len(found) != 1:
        raise Trouble("it is not the page that runs scripts", PAGE.name)
    data: dict[str, Any] = json.loads(found[0])
    return data


def link_to(path: str | Path, page: str) -> str:
    """The address by which a page refers to a file or a folder.

    A page on standard output is taken for one in the current folder.
    """
    try:
        return quote(Path(os.path.relpath(path, os.path.dirname(page) or os.curdir)).as_posix())
    except ValueError:
        # On another drive.
        return Path(path).absolute().as_uri()


def debug_page(name: str, script: bytes, fonts: str, page: str) -> bytes:
    """The page that runs this script with this font file, as it is written to a file."""
    if not PAGE.exists():
        raise Trouble(
            "the page is not built: `tools/vga-page make page/zaklimot.html` builds it", str(PAGE)
        )
    if fonts == STANDARD:
        raise Trouble("--fonts wants a file")
    text = read_at_most(str(PAGE), MOST_PAGE).decode("utf-8")
    data = page_data(text)
    font = read_at_most(fonts, MOST_BYTES)
    if len(font) != FONT_BYTES:
        raise Trouble(wrong_font_bytes(f"{len(font):,}"), fonts)
    in_base64 = base64.b64encode(font).decode("ascii")
    in_text = script.decode("utf-8", "replace")
    # A byte that is no text is wrong in a step, and means nothing in a comment.
    given = (
        {"bytes": base64.b64encode(script).decode("ascii")}
        if is_bytes(script)
        else {"text": in_text}
    )
    # The project's own font file is in the page.
    data["open"] = {
        "name": name,
        **given,
        "fonts": None if in_base64 == data["fonts"] else in_base64,
    }
    if DOCS.is_dir():
        data["pages"] = link_to(DOCS, page) + "/"
    element = data_element(data)
    return ELEMENT.sub(lambda _: element, text).encode("utf-8")


def page(words: argparse.Namespace, _: Progress) -> int:
    """Writes the page with a script of the user's in it, and tells how it is opened."""
    name = name_of(words.script)
    data = debug_page(name, read_script(words.script), words.fonts, words.page)
    write_file(words.page, data)
    if words.page != STANDARD:
        step = "" if words.until is None else f"#step={words.until}"
        address = Path(words.page).absolute().as_uri() + step
        write(f"{words.page}: open it in a browser, for instance as {address}\n")
    return AGREED
