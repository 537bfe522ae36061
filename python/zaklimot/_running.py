"""Long scripts in parts, whose time and whose reports have bounds."""

from __future__ import annotations

import time
from typing import Callable, Iterator

from ._errors import NoRoom
from ._numbers import LONG
from ._report import Report

# How many steps the first part has, how many times as many the next one may have, and how many
# seconds a part may take.
FIRST_PART, MOST_GROWTH, PART_SECONDS = 64, 2, 0.1
# A part is long enough if it takes so many times as long as to pass over the steps before it.
MOST_PASSING = 4
# What a clock tells is at least so much.
LEAST = 1e-6


def parts(
    take: Callable[[int, int], Report], first: int, end: int, seconds: float, room: int
) -> Iterator[Report]:
    """The reports of the steps from `first` up to `end`, part by part.

    `take` takes so many steps from one on. It raises NoRoom, and takes none, if their report is
    longer than the room, unless it is asked for one step.
    """
    count = FIRST_PART
    while first < end:
        wanted, begun = min(count, end - first, LONG), time.monotonic()
        try:
            report = take(first, wanted)
        except NoRoom:
            if wanted == 1:
                raise
            count = max(1, wanted // 8)
            continue
        lasted = max(time.monotonic() - begun, LEAST)
        if report.raw:
            yield report
        first += report.taken
        if report.taken < wanted:
            return
        most = seconds
        if lasted > most:
            # The steps before are passed over each time, however few are taken.
            begun = time.monotonic()
            take(first, 0)
            passing = time.monotonic() - begun
            lasted, most = max(lasted - passing, LEAST), max(most, MOST_PASSING * passing)
        # The next part is as long as the time and three quarters of the room allow.
        growth = min(MOST_GROWTH, most / lasted, 0.75 * room / len(report.raw))
        count = max(1, int(wanted * growth))
