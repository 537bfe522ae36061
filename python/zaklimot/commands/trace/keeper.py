"""Keeps the lines that a machine logs, until there are too many of them."""

import os
import re
import time
from threading import Thread
from typing import BinaryIO, Optional

from zaklimot.commands.core.processes import DRAINING

from .folding import Folding
from .parts import Parts, not_kept

# So many bytes are kept, as they are packed; those of the last screen have as much room again.
MOST_KEPT = 1 << 30
CHUNK = 1 << 16
# How the lines of polls are told, and the seconds of a frame.
POLLS = (b" addr 0x3da ", b" addr 0x3ba ")
FRAME = 1 / 60
# The time of a line, in seconds, and the bytes at the end of a chunk among which one stands.
TIMED = re.compile(rb"^[0-9]{1,10}@([0-9]{1,12}\.[0-9]{6}):", re.MULTILINE)
LAST_LINES = 512


class Keeper(Thread):
    """Keeps the lines of a pipe in parts, and tells how many bytes there were, and when the last
    came.

    `full` says why the recording is to end; it is empty until then. Where lines can't be kept any
    more, `is_lost` is set. `folding` folds polls of input status 1; `frame_polls` tells how many
    came within a frame at most.
    """

    def __init__(self, source: BinaryIO, parts: Parts, folding: Optional[Folding] = None) -> None:
        super().__init__(daemon=True)
        self._source = source
        self._parts = parts
        self._folding = folding
        # When the frame under way began, and how many polls came in it so far.
        self._began = 0.0
        self._polls = 0
        self.frame_polls = 0
        self._rest = b""
        self.is_lost = False
        self.size = 0
        self.last = time.monotonic()
        self.full = ""

    def run(self) -> None:
        """Takes all lines, also those that can't be kept, so that their writer goes on to its
        end."""
        with self._source:
            while chunk := os.read(self._source.fileno(), CHUNK):
                self.size = self.size + len(chunk)
                self.last = time.monotonic()
                self._count_polls(chunk)
                self._keep(chunk)
        self._end()

    def end(self) -> None:
        """Waits a while for the lines that are still to come. A signal may have come before its
        start."""
        if self.is_alive():
            self.join(DRAINING)

    def _count_polls(self, chunk: bytes) -> None:
        """Counts by the time of the lines. Those without one pass when they come."""
        times = TIMED.findall(chunk[-LAST_LINES:])
        now = float(times[-1]) if times else self.last
        if not 0 <= now - self._began <= FRAME:
            self._began = now
            self._polls = 0
        self._polls += sum(map(chunk.count, POLLS))
        self.frame_polls = max(self.frame_polls, self._polls)

    def _keep(self, chunk: bytes) -> None:
        if self.is_lost:
            return
        try:
            self._parts.write(self._folded(chunk))
            if self._parts.kept >= MOST_KEPT:
                self.full = f"its trace has {MOST_KEPT:,} bytes, as they are packed"
                self.is_lost = self._parts.kept >= 2 * MOST_KEPT
        except OSError as error:
            self.full = not_kept(error)
            self.is_lost = True

    def _folded(self, chunk: bytes) -> bytes:
        if self._folding is None:
            return chunk
        lines, end, rest = (self._rest + chunk).rpartition(b"\n")
        self._rest = rest
        return self._folding.folded(lines + end)

    def _end(self) -> None:
        if self._folding is not None:
            self._keep(b"\n" if self._rest else b"")
            folding = self._folding
            self._folding = None
            self._keep(folding.end())
