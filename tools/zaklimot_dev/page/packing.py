"""What the page is given, as it stands in the page: packed, and as text; and what an example is
about."""

from __future__ import annotations

import base64
import gzip
import io
import re
import zlib
from itertools import takewhile

from zaklimot.commands.core.trouble import Trouble, Wrong


LEVEL = 9
# A part of the page unpacks to so many bytes at most.
MOST_UNPACKED = 16 << 20
SENTENCE = re.compile(r"(.+?[.!?])(?: |$)")


def about(text: str) -> str:
    """The first sentence of the comment that an example begins with; nothing where it begins with a
    step."""
    lines = takewhile(lambda line: line.startswith(";"), map(str.strip, text.lstrip().splitlines()))
    whole = " ".join(line[1:].strip() for line in lines)
    found = SENTENCE.match(whole)
    return found[1] if found else whole


def in_base64(data: bytes) -> str:
    """Bytes as letters."""
    return base64.b64encode(data).decode("ascii")


def packed(data: bytes) -> bytes:
    """Bytes in gzip's form, with no time in it."""
    return gzip.compress(data, LEVEL, mtime=0)


def unzipped(text: str) -> bytes:
    """The bytes of a part of the page; a Wrong where it is not packed as it should be."""
    try:
        with gzip.GzipFile(fileobj=io.BytesIO(base64.b64decode(text, validate=True))) as stream:
            data = stream.read(MOST_UNPACKED + 1)
    except (EOFError, OSError, ValueError, zlib.error) as error:
        raise Wrong(f"a part of the page is not packed as it should be: {error}") from error
    if len(data) > MOST_UNPACKED:
        raise Trouble(f"a part of it unpacks to more than {MOST_UNPACKED:,} bytes", "the page")
    return data
