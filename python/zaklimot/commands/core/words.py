"""The values of options: numbers within bounds."""

import argparse
import math
from typing import Callable

MEBIBYTE = 1 << 20
# The largest numbers of options: enlargements, commands at a time, MiB, steps, and a day of
# seconds.
MOST_SCALE = 1000
MOST_JOBS = 256
MOST_OUTPUT = 1 << 20
MOST_STEP = 4_294_967_295
MOST_SECONDS = 86_400
# So much of a wrong word is shown.
MOST_SHOWN = 40


def shown_front(word: str) -> str:
    """A word as messages show it: a long one is cut."""
    return word if len(word) <= MOST_SHOWN else word[:MOST_SHOWN] + ".."


def number_to(most: int, least: int = 1) -> Callable[[str], int]:
    """Reads a number of decimal digits within these bounds."""

    def read(word: str) -> int:
        is_number = word.isascii() and word.isdigit()
        # Python reads no number of thousands of digits, and the help of a tool imports no format.
        is_short = len(word.lstrip("0")) <= len(str(most))
        if not (is_number and is_short and least <= int(word[-len(str(most)) :]) <= most):
            raise argparse.ArgumentTypeError(
                f"'{shown_front(word)}' is no number from {least} to {most}"
            )
        return int(word[-len(str(most)) :])

    return read


def seconds(word: str) -> float:
    """Reads a number of seconds above 0."""
    try:
        number = float(word)
    except ValueError:
        number = math.nan
    if not 0 < number <= MOST_SECONDS:
        raise argparse.ArgumentTypeError(
            f"'{shown_front(word)}' is no number of seconds above 0, to {MOST_SECONDS}"
        )
    return number
