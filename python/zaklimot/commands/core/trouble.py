"""What ends the work, told with the file and the line where it stands."""

from typing import Optional

# The exit statuses of a tool: nothing differs, something differs or is wrong, and the work can't be
# done.
AGREED = 0
DIFFERED = 1
TROUBLE = 2


class Trouble(Exception):
    """What ends the work: a file that isn't what it should be, or a word of the command line that
    means nothing."""

    status = TROUBLE

    def __init__(self, reason: str, name: Optional[str] = None, line: Optional[int] = None) -> None:
        place = "" if name is None else f"{name}: " if line is None else f"{name}:{line}: "
        super().__init__(place + reason)
        self.name = name


class Wrong(Trouble):
    """What is tested is otherwise than it should be."""

    status = DIFFERED
