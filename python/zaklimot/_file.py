"""The name of the library's file, and finding out which kind a library is.

The build imports this module too, by its path, so it imports nothing from the package.
"""

from __future__ import annotations

import os
import re
import sys
from pathlib import Path

FILE = {"darwin": "libzaklimot.dylib", "win32": "zaklimot.dll"}.get(sys.platform, "libzaklimot.so")
FONTS = "zaklimot.fnt"
# The file that gives the kind: beside a wheel's library, and beside a library that was installed or
# made.
NOTE, PACKAGE = "kind", "pkgconfig/zaklimot.pc"
PROVED, PORTABLE, UNKNOWN = "proved", "portable", "unknown"
LINE = re.compile(rf"^kind=({PROVED}|{PORTABLE})$", re.M)
# The most bytes that are read of such a file.
MOST = 4096


def kind_of(library: str) -> str:
    """`proved` or `portable`, as the file beside a library says; `unknown` if no file says it."""
    # A bare name went to the system's loader, which doesn't say which file it took.
    if os.path.basename(library) == library:
        return UNKNOWN
    file = Path(os.path.realpath(library))
    # A file of another name is not the one that was put there. Versions make the names of others
    # longer.
    if file.name.partition(".")[0] != FILE.partition(".")[0]:
        return UNKNOWN
    for note in (file.with_name(NOTE), file.parent / PACKAGE):
        try:
            with open(note, encoding="utf-8", errors="replace") as text:
                found = LINE.search(text.read(MOST))
        except OSError:
            continue
        if found:
            return found[1]
    return UNKNOWN
