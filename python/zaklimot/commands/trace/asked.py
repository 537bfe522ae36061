"""What a user may ask of a conversion or a recording. Words are read by this before long work is
imported."""

from typing import NamedTuple, Optional, Union

# When a script has a frame: at its end alone, before each page flip, where a screen was taken, once
# in each frame of the dot clock in which something was written, or every so many seconds.
END = "end"
FLIP = "flip"
SCREENS = "screens"
CLOCK = "clock"
# The same as the last, with the beam where it was at each write.
BEAM = "beam"
Frames = Union[str, float]
# Which reads of input status 1 are kept: all, or the first of several.
KEEP = "keep"
FIRST = "first"
# When a screen is taken: once the software is quiet.
QUIET = "quiet"
# The speeds of the page's machine, as the page's list has them, and the one that it begins with.
SPEEDS = ("8088", "286", "386", "fastest")
USUAL_SPEED = "386"
# How text is written that a screen shows, and the code page of its characters.
PLAIN = "plain"
ANSI = "ansi"
HTML = "html"
FORMS = (PLAIN, ANSI, HTML)
USUAL_PAGE = "cp437"
# Pictures are compared that stand for so many seconds.
STILL = 0.5


class Deed(NamedTuple):
    """Keys that are pressed one after the other, or the screen taken where there are none.

    It is done so many seconds after power-on, or once the software is quiet. Keys have qemu's
    names, `ctrl-c` two of them.
    """

    at: Optional[float] = None
    keys: tuple[str, ...] = ()

    def __str__(self) -> str:
        return f"the keys {','.join(self.keys)}" if self.keys else "a screen"
