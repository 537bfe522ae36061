"""Numbers of calls, and their ranges."""

from __future__ import annotations

from operator import index

BYTE, WORD, LONG = 0xFF, 0xFFFF, 0xFFFF_FFFF


def in_range(name: str, value: int, most: int, least: int = 0) -> int:
    """A number as an int. ValueError if it is out of range, TypeError if it is no integer."""
    number = index(value)
    if not least <= number <= most:
        raise ValueError(f"{name} is {number}, and it is to be {least} to {most}")
    return number
