"""Folds polls of input status 1 while software is recorded: of a row of them the first stays, and a
line tells how many came after it."""

import re
from typing import Optional

# A read of input status 1 in qemu's log whose bits are those of the beam alone: the others tell
# nothing, and a poll in which they are set stays.
POLL = rb"[^\n]*memory_region_ops_read [^\n]* addr 0x3%sa value 0x%s size 1 name '[^'\n]*'[^\n]*\n"


def _row(*values: bytes) -> "re.Pattern[bytes]":
    """Rows of polls that read one of these values, of one port each; a group for each value."""
    rows = (
        POLL % (b"(?P<port%d>[bd])" % at, value)
        + rb"(?:"
        + POLL % (b"(?P=port%d)" % at, value)
        + rb")*"
        for at, value in enumerate(values)
    )
    return re.compile(rb"^(?:" + rb"|".join(rows) + rb")", re.MULTILINE)


# All polls, and those within vertical retrace and outside it.
ROW = _row(b"[0189]")
ROW_OF_BEAM = _row(b"[01]", b"[89]")
# The line that tells of polls. The filter of the log keeps it with those of the VGA.
FOLDED = re.compile(rb"polls ([0-9]{1,18}) of 'vga-trace'\s*")


class Folding:
    """Folds polls of lines that come piece by piece. With a beam the first poll of each vertical
    retrace stays, and the first after it."""

    def __init__(self, has_beam: bool = False) -> None:
        self._rows = ROW_OF_BEAM if has_beam else ROW
        # The kind of the row that the last line is in, and its polls that are folded so far.
        self._kind: tuple[Optional[bytes], ...] = ()
        self._count = 0

    def folded(self, lines: bytes) -> bytes:
        """What stays of whole lines."""
        kept = []
        at = 0
        for row in self._rows.finditer(lines):
            polls = row[0].count(b"\n")
            kind = row.groups()
            if row.start() > at or kind != self._kind:
                kept += [self._told(), lines[at : row.start()], row[0].partition(b"\n")[0], b"\n"]
                polls -= 1
            self._kind = kind
            self._count += polls
            at = row.end()
        if at < len(lines):
            kept += [self._told(), lines[at:]]
        return b"".join(kept)

    def end(self) -> bytes:
        """What the last row has left."""
        return self._told()

    def _told(self) -> bytes:
        count = self._count
        self._count = 0
        self._kind = ()
        return b"polls %d of 'vga-trace'\n" % count if count else b""
