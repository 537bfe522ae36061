"""An adapter as a command that answers elements, line by line."""

import json
import subprocess
import tempfile
import threading
import time
from contextlib import contextmanager, suppress
from typing import BinaryIO, Iterator, Optional, cast

from zaklimot.commands.core.processes import command_words, end, started
from zaklimot.commands.core.streams import counted
from zaklimot.commands.core.trouble import Trouble

from .parts import ANSWER, FINAL, REFUSED, Element
from .reading import MOST_LINE, text_of

# What an adapter answers that doesn't do an element.
SKIPPED = "skipped"
# Seconds between two looks whether an answer is late; so much of what a command said is told.
PAUSE = 0.2
MOST_SAID = 600


class AskedAdapter:
    """A command that runs, and is asked one element after the other."""

    def __init__(
        self, name: str, process: "subprocess.Popen[bytes]", said: BinaryIO, seconds: float
    ) -> None:
        self._name = name
        self._process = process
        self._said = said
        self._seconds = seconds
        self._asked: Optional[float] = None
        self._is_late = False
        self.is_ended = threading.Event()

    def watch(self) -> None:
        """Ends the command where an answer takes too long; for a thread of its own."""
        while not self.is_ended.wait(PAUSE):
            asked = self._asked
            if asked is not None and time.monotonic() - asked > self._seconds:
                self._is_late = True
                end(self._process)
                return

    def answer(self, element: Element, number: int) -> Element:
        """What the command answers to an element, of which it sees no answer."""
        hidden = (FINAL, ANSWER, REFUSED)
        shown = {name: value for name, value in element.items() if name not in hidden}
        self._asked = time.monotonic()
        line = self._exchanged(text_of(shown).encode("ascii") + b"\n")
        self._asked = None
        if not line.endswith(b"\n"):
            raise Trouble(self._reason(line, number), self._name)
        try:
            given = json.loads(line)
        except (ValueError, RecursionError) as error:
            told = f"its answer to element {number} is no JSON: {error}: {_shown(line)}"
            raise Trouble(told, self._name) from error
        if not isinstance(given, dict) or not isinstance(given.get(FINAL, {}), dict):
            raise Trouble(
                f"its answer to element {number} is no element: {_shown(line)}", self._name
            )
        return cast(Element, given)

    def _exchanged(self, line: bytes) -> bytes:
        """The line that comes after this one; an empty one where the command has ended."""
        sent = self._process.stdin
        answers = self._process.stdout
        assert sent is not None and answers is not None
        # One that has ended may have answered before.
        with suppress(OSError):
            sent.write(line)
            sent.flush()
        return answers.readline(MOST_LINE)

    def _reason(self, line: bytes, number: int) -> str:
        """Why no whole line came."""
        if self._is_late:
            return f"it did not answer element {number} in {counted(self._seconds, 'second', 'g')}"
        if len(line) >= MOST_LINE:
            return f"its answer to element {number} has {MOST_LINE:,} bytes or more"
        end(self._process, 1)
        self._said.seek(0)
        said = self._said.read(1 << 20).decode("utf-8", "replace").strip()[-MOST_SAID:]
        status = self._process.returncode
        return f"it ended with status {status} at element {number}" + (f"\n{said}" if said else "")


def _shown(line: bytes) -> str:
    return line[:60].decode("utf-8", "replace").strip()


@contextmanager
def asked_adapter(command: str, seconds: float) -> Iterator[AskedAdapter]:
    """A command that answers elements, of whose processes none is left afterwards."""
    words = command_words(command)
    pipe = subprocess.PIPE
    with tempfile.TemporaryFile() as file:
        said = cast(BinaryIO, file)
        with started(words, stdin=pipe, stdout=pipe, stderr=said) as process:
            adapter = AskedAdapter(words[0], process, said, seconds)
            watching = threading.Thread(target=adapter.watch, daemon=True)
            watching.start()
            try:
                yield adapter
            finally:
                adapter.is_ended.set()
                watching.join()
                _close(process.stdin)


def _close(stream: object) -> None:
    """Closes the input of a command, which may have ended before it read all."""
    with suppress(OSError):
        cast(BinaryIO, stream).close()
