"""How far long work has come, as one line on a terminal."""

import shutil
import sys
import time

# Seconds before the line is first shown, and between two showings: short work shows nothing.
DELAY = 0.5
PAUSE = 0.1


class Progress:
    """A line on standard error, where that is a terminal; else nothing."""

    def __init__(self, is_wanted: bool = True) -> None:
        self.is_wanted = is_wanted and sys.stderr is not None and sys.stderr.isatty()
        self._next = time.monotonic() + DELAY
        self._width = 0

    def is_due(self) -> bool:
        """Whether it's time to tell."""
        return self.is_wanted and time.monotonic() >= self._next

    def tell(self, text: str) -> None:
        """Shows a text in the place of the last one."""
        self._show(text[: shutil.get_terminal_size().columns - 1])
        self._next = time.monotonic() + PAUSE

    def clear(self) -> None:
        """Takes the line away, before something else is written on the terminal."""
        if self._width:
            self._show("")
            sys.stderr.write("\r")
            sys.stderr.flush()

    def _show(self, text: str) -> None:
        sys.stderr.write("\r" + text.ljust(self._width))
        sys.stderr.flush()
        self._width = len(text)
