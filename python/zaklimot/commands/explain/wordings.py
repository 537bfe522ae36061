"""The words of faults and of kinds of files, and the names of registers: the page says the same.

They stand in `wordings.json`, of which `vga-page wordings` makes the page's copy.
"""

import json
from pathlib import Path
from typing import Any

WORDINGS: dict[str, Any] = json.loads((Path(__file__).parent / "wordings.json").read_text("utf-8"))


def said(part: str, which: str, /, **values: object) -> str:
    """A sentence of a part of the table, with values in it. A form such as `{port:03X}` is one of
    `str.format`."""
    text: str = WORDINGS[part][which]
    return text.format(**values)
