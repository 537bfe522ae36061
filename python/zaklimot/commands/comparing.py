"""The command `compare`: which kind its files are of, and what compares those."""

import argparse
import os
import re

from zaklimot.commands.core.files import STANDARD
from zaklimot.commands.core.progress import Progress
from zaklimot.commands.core.streams import reading
from zaklimot.commands.core.trouble import Trouble
from zaklimot.commands.report.reports import compare_picture, compare_reports
from zaklimot.commands.trace.asked import STILL
from zaklimot.commands.trace.comparing import compare_recordings

# So much of a file is looked at.
FRONT = 1 << 12
PACKED = b"\x1f\x8b"
# How a line of a trace begins, of the plain form and of qemu's log.
OF_TRACE = re.compile(rb"(-|[0-9.]+) ([rw] [pm]|int) |[0-9]+@[0-9.]+:|polls |screen ")


def is_trace(path: str) -> bool:
    """Whether a file is a trace, or a folder a recording."""
    if path == STANDARD or not os.path.exists(path):
        return False
    if os.path.isdir(path):
        return True
    # What a pipe has can be read once.
    if not os.path.isfile(path):
        return False
    with reading(path) as stream:
        front = stream.read(FRONT)
    lines = (line for line in front.split(b"\n") if line.strip() and not line.startswith(b";"))
    return front.startswith(PACKED) or OF_TRACE.match(next(lines, b"")) is not None


def compare(words: argparse.Namespace, progress: Progress) -> int:
    """Tells where two reports or recordings differ first, or a picture and an image."""
    if words.step is not None:
        return compare_picture(words, progress)
    if words.expected or not (is_trace(words.one) or is_trace(words.other)):
        if words.still is not None:
            raise Trouble("--still is for traces, and these are reports")
        return compare_reports(words, progress)
    if words.all:
        raise Trouble("--all is for reports, and these are traces")
    words.still = STILL if words.still is None else words.still
    return compare_recordings(words, progress)
