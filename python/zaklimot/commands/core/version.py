"""The library's header: the names of its calls, and its number, which is the release's."""

import re
from typing import NamedTuple

from zaklimot.commands import TOP

from .trouble import Trouble


HEADER = TOP / "include" / "zaklimot.h"
COMMENT = re.compile(r"/\*.*?\*/", re.S)
# A call: what it answers, its name, and the parenthesis of its parameters.
CALL = re.compile(r"^(?:zak_status|uint32_t) (zak_\w+)\(", re.M)
NUMBER = re.compile(r"^#define ZAK_API_(MAJOR|MINOR) (\d+)$", re.M)


class Version(NamedTuple):
    """The version of the interface, which is that of the library and of a release too."""

    major: int
    minor: int

    def __str__(self) -> str:
        return f"{self.major}.{self.minor}"


def without_comments(text: str) -> str:
    """The header's text, with a blank in the place of each comment."""
    return COMMENT.sub(" ", text)


def calls_of(text: str) -> list[str]:
    """The names of a header's calls, in its order."""
    return CALL.findall(without_comments(text))


def version_of(text: str) -> Version:
    """The version that a header tells."""
    numbers = dict(NUMBER.findall(re.sub(r" +$", "", without_comments(text), flags=re.M)))
    if numbers.keys() != {"MAJOR", "MINOR"}:
        raise Trouble("it has not one line each for ZAK_API_MAJOR and ZAK_API_MINOR", HEADER.name)
    return Version(int(numbers["MAJOR"]), int(numbers["MINOR"]))


def version() -> Version:
    """The version of the repository's header."""
    return version_of(HEADER.read_text("ascii"))
