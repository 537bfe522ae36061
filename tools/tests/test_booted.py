"""The pages on which a machine shows its answers, as they stand on a screen of qemu whose floppy
can't be written."""

from __future__ import annotations

import os
import shutil
import unittest
from contextlib import contextmanager
from functools import partial
from typing import Callable, Iterator

from zaklimot.commands.core.processes import end_with_parent, started
from zaklimot.commands.floppy.image import read_record
from zaklimot.commands.floppy.running import (
    IMAGE,
    MACHINES,
    QMP_SOCKET,
    RECORD,
    ROMS,
    environment,
)
from zaklimot.commands.trace.monitor import Monitor, monitor_at

from .floppy import KEYS, pages_of
from .tools import Folder, run_tool

run = partial(run_tool, "zaklimot", "floppy")
QEMU = MACHINES["qemu"]
# Cases whose answers take two pages and a part of a third, which ends within a word.
CASES = ("--only", "host/", "--only", "modes/")
# The text of a screen, and the BIOS data's flags of the keyboard, whose bits are its lights.
SCREEN = 0xB8000
ROWS = 25
COLUMNS = 80
LOCKS = 0x417
LIGHTS = 0x70
END = [
    "vga-floppy: done, but this disk does not keep the answers.",
    "They went to the first serial port, too.",
    KEYS,
]


@unittest.skipUnless(
    shutil.which(QEMU.program) and os.path.exists(ROMS["qemu", "sea"][1]),
    "qemu-system-x86 or seabios isn't installed",
)
class PagesOfADiskThatIsProtected(Folder):
    """An image on qemu, by whose monitor keys are pressed and memory is read."""

    def setUp(self) -> None:
        super().setUp()
        scripts = str(self.folder / "scripts")
        self.assertEqual(
            run_tool("zaklimot", "suite", "--scripts", scripts, "--machine", *CASES)[0], 0
        )
        self.assertEqual(run("make", scripts, self.folder / IMAGE), (0, b"", ""))
        self.image = (self.folder / IMAGE).read_bytes()

    @contextmanager
    def booted(self) -> Iterator[Monitor]:
        words = [
            f"{word},readonly=on" if word.startswith(f"file={IMAGE},") else word
            for word in QEMU.started_words(self.folder, None, True)
        ]
        surroundings = environment(self.folder, None)
        with started(words, cwd=self.folder, env=surroundings, preexec_fn=end_with_parent):
            with monitor_at(self.folder / QMP_SOCKET) as do:
                yield do

    def memory(self, do: Monitor, at: int, length: int) -> bytes:
        path = self.folder / "memory"
        do("pmemsave", val=at, size=length, filename=str(path))
        return path.read_bytes()

    def text(self, do: Monitor) -> list[str]:
        """The lines of the screen, up to the last that has any text."""
        cells = self.memory(do, SCREEN, 2 * ROWS * COLUMNS)[::2].decode("cp437")
        lines = (cells[at : at + COLUMNS].rstrip(" \0") for at in range(0, len(cells), COLUMNS))
        return "\n".join(lines).rstrip("\n").split("\n")

    def press(self, do: Monitor, key: str, is_done: Callable[[], bool]) -> None:
        do("send-key", keys=[{"type": "qcode", "data": key}])
        self.wait_until(is_done)

    def page_after(self, do: Monitor, key: str, page: list[str]) -> list[str]:
        """The page that a key brings after another. A mode set clears it from its first row on, and
        its last row comes last. The machine goes on while it is read, so it is read twice."""
        seen: list[str] = []

        def has_come() -> bool:
            seen[:] = self.text(do)
            is_whole = seen != page and seen[0] != "" and seen[-1] == KEYS
            return is_whole and seen == self.text(do)

        self.press(do, key, has_come)
        return seen

    def at_the_end(self, do: Monitor) -> list[str]:
        """The text that the first key brings, once the run has ended."""

        def are_lit() -> bool:
            return self.memory(do, LOCKS, 1)[0] & LIGHTS == LIGHTS

        self.wait_until(are_lit)
        # Keys that came before the lights don't count, nor may one that came with them.
        self.press(do, "spc", lambda: not are_lit())
        self.wait_until(lambda: self.text(do)[-1] == KEYS)
        return self.text(do)

    def test_each_page_is_shown_and_read_back(self) -> None:
        with self.booted() as do:
            seen = [self.at_the_end(do)]
            answers = read_record((self.folder / RECORD).read_bytes(), RECORD)
            pages = [page.split("\n") for page in pages_of(answers.answers, self.image)]
            # All pages, the first once more, and back to the last and the one before.
            for key in ["ret"] * (len(pages) + 1) + ["up"] * 2:
                seen.append(self.page_after(do, key, seen[-1]))
        self.assertEqual(len(pages), 4)
        self.assertEqual(seen, [END, *pages, pages[0], *pages[:-3:-1]])
        self.assertEqual((self.folder / IMAGE).read_bytes(), self.image)
