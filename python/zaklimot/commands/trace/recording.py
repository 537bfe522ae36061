"""Records on qemu what software does to a VGA: its trace, and its screens at chosen times."""

import os
import subprocess
import tempfile
import time
from contextlib import ExitStack, contextmanager, suppress
from dataclasses import dataclass, field
from difflib import get_close_matches
from pathlib import Path
from typing import Any, BinaryIO, Callable, Iterator, Optional, Sequence, cast

from zaklimot.commands.core.processes import (
    DRAINING,
    Word,
    check_program,
    end,
    end_with_parent,
    run,
    said_last,
    started,
)
from zaklimot.commands.core.progress import Progress
from zaklimot.commands.core.trouble import Trouble

from .asked import FIRST, KEEP, Deed
from .folding import Folding
from .keeper import Keeper
from .monitor import ANSWERING, QEMU, Monitor, key_names, monitor_at
from .note import QEMU_MACHINE, Note, digests_of, kept_parts
from .parts import Parts
from .trace import SCREEN


EVENTS = "memory_region_ops_read\nmemory_region_ops_write\n"
# The regions of the log that are the VGA's.
KEPT = ("'vga", "'vbe'", "'cirrus-io'", "'cirrus-low-memory'")
# A machine of one processor whose cycles keep their order, with no devices but those that are
# wanted.
BARE = (
    "-accel",
    "tcg",
    "-machine",
    "pc,smm=off",
    "-nodefaults",
    "-m",
    "128",
    "-no-reboot",
    "-display",
    "none",
)
# The words by which input status 1 tells where a beam would be, by the clock. Without them it tells
# another place with each read.
PRECISE = ("-vga", "none,retrace=precise")
# Seconds between two looks, between two keys, and that the cursor's phase lasts about half of; and
# in which qemu ends that can't begin.
LOOK = 0.05
PRESSING = 0.1
PHASE = 0.12
BEGINNING = 0.3
# Screens are taken again and again, since qemu blinks by a clock of its own.
PHASES = 6
# So many names of keys are told that are like one that is none.
MOST_NEAR = 2
Say = Callable[[str], None]


@dataclass(frozen=True)
class QemuMachine:
    """What a machine is made of, what is done to it in this order, and how long its software is
    waited for.

    `quiet` is how many seconds without a cycle mean that the software waits; `most` is after how
    many seconds the machine ends, whatever was not done by then; `polls` is which polls of input
    status 1 are kept.
    """

    words: Sequence[str]
    deeds: Sequence[Deed] = (Deed(),)
    quiet: float = 3
    most: float = 60
    polls: str = KEEP


@dataclass
class Session:
    """A machine that runs, with its dumps in a folder: what is done to it, and the seconds of its
    screens."""

    machine: QemuMachine
    process: subprocess.Popen[bytes]
    keeper: Keeper
    folder: Path
    progress: Progress
    note: Note = field(default_factory=lambda: Note(QEMU_MACHINE))
    began: float = field(default_factory=time.monotonic)
    acted: float = field(default_factory=time.monotonic)

    def has_ended(self) -> bool:
        """Whether the machine has ended by itself."""
        return self.process.poll() is not None

    def is_due(self, deed: Deed) -> bool:
        """Whether a deed is to be done now."""
        now = time.monotonic()
        if deed.at is not None:
            return now - self.began >= deed.at
        return self.keeper.size > 0 and now - max(self.acted, self.keeper.last) > self.machine.quiet

    def act(self, do: Monitor, log: BinaryIO, say: Say) -> None:
        """Does all that is to be done, and notes why it ends. The last screen is taken in the last
        second at the latest."""
        for number, deed in enumerate(self.machine.deeds, 1):
            is_due = self._wait(deed)
            if self.has_ended():
                passed = time.monotonic() - self.began
                self.note.ended = f"the machine ended by itself after {passed:.1f} seconds"
                say(self.note.ended)
                return
            if not is_due:
                self._end_early(deed, number == len(self.machine.deeds), say)
            if is_due and deed.keys:
                self.press(do, deed.keys)
            elif not self.keeper.is_lost:
                self._take_screen(do, log)
            if not is_due:
                return
        self.note.ended = "all was done"

    def _end_early(self, deed: Deed, is_last: bool, say: Say) -> None:
        """Notes and tells why the recording ends before it was time for a deed."""
        self.note.ended = self.keeper.full or f"{self.machine.most:g} seconds were over"
        if self.keeper.full:
            rest = "" if self.keeper.is_lost else ": the last screen is taken now"
            fold = "; --polls first folds polls" if self.machine.polls == KEEP else ""
            say(f"{self.keeper.full}{rest}{fold}")
        elif deed.keys or not is_last:
            over = f"{self.note.ended} before it was time for {deed}"
            say(f"{over}: the screen is taken now, and the rest left out")
        else:
            say("the software was still busy when its screen was taken")

    def _wait(self, deed: Deed) -> bool:
        """Waits until a deed is to be done; whether it came to that before the machine's last
        second."""
        while not self.is_due(deed):
            passed = time.monotonic() - self.began
            if self.has_ended() or self.keeper.full or passed >= self.machine.most:
                return False
            if self.progress.is_due():
                self.progress.tell(f"recording: {passed:.0f} s")
            time.sleep(LOOK)
        return True

    def press(self, do: Monitor, keys: Sequence[str]) -> None:
        """Presses keys one after the other."""
        for key in keys:
            do("send-key", keys=[{"type": "qcode", "data": part} for part in key.split("-")])
            time.sleep(PRESSING)
        self.acted = time.monotonic()

    def _take_screen(self, do: Monitor, log: BinaryIO) -> None:
        """Takes the screen at several phases of the cursor. A line of the log tells the place of
        each among the cycles."""
        first = PHASES * len(self.note.screens)
        self.note.screens.append(time.monotonic() - self.began)
        do("stop")
        for number in range(first, first + PHASES):
            if number > first:
                do("cont")
                time.sleep(PHASE)
                do("stop")
            log.write(SCREEN + b"\n")
            do("screendump", filename=str(dump(self.folder, number).resolve()))
        do("cont")
        self.note.write(self.folder)
        self.acted = time.monotonic()


def chain_4(folder: Path) -> list[str]:
    """The words by which qemu logs chain 4 too: a plugin, which is built into a folder."""
    plugin = folder / "chain4.so"
    run(["gcc", "-shared", "-fPIC", "-O2", "-o", plugin, Path(__file__).with_name("chain4.c")])
    return ["-plugin", str(plugin.resolve()), "-d", "plugin"]


def dump(folder: Path, number: int) -> Path:
    """The file of a dump, counted from 0: a screen has as many as phases."""
    return folder / f".dump.{number}.ppm"


def _qemu(machine: QemuMachine, folder: Path) -> list[str]:
    (folder / "events").write_text(EVENTS, encoding="ascii")
    return [
        "nice",
        "-n",
        "10",
        QEMU,
        *BARE,
        "-msg",
        "timestamp=on",
        "-trace",
        f"events={folder}/events",
        "-D",
        f"{folder}/log",
        "-qmp",
        f"unix:{folder}/monitor,server=on,wait=off",
        *machine.words,
    ]


@contextmanager
def _reached(folder: Path, process: subprocess.Popen[bytes]) -> Iterator[tuple[Monitor, BinaryIO]]:
    """The monitor of a machine, and its log to write into; a Trouble tells what it said where it
    doesn't begin."""
    until = time.monotonic() + ANSWERING
    while not (folder / "monitor").exists() and process.poll() is None and time.monotonic() < until:
        time.sleep(LOOK)
    # The monitor is there before all words have been looked at.
    with suppress(subprocess.TimeoutExpired):
        process.wait(BEGINNING)
    if process.poll() is not None or not (folder / "monitor").exists():
        raise Trouble(f"it doesn't begin: {said_last(folder / 'said') or 'it said nothing'}", QEMU)
    with monitor_at(folder / "monitor") as do, open(
        os.open(folder / "log", os.O_WRONLY | os.O_NONBLOCK), "wb", 0
    ) as log:
        os.set_blocking(log.fileno(), True)
        yield do, log


@contextmanager
def _filtered(
    folder: Path, parts: Parts, folding: Optional[Folding]
) -> Iterator[tuple["subprocess.Popen[bytes]", Keeper]]:
    """What takes the VGA's lines out of a machine's log, and what keeps them."""
    words = [word for name in KEPT for word in ("-e", name)]
    os.mkfifo(folder / "log")
    filtering: list[Word] = ["grep", "--line-buffered", "-F", *words, folder / "log"]
    # The keeper ends after the program whose lines it keeps.
    with ExitStack() as kept_lines:
        given: dict[str, Any] = {"stdout": subprocess.PIPE, "preexec_fn": end_with_parent}
        with started(filtering, **given) as process:
            keeper = Keeper(cast(BinaryIO, process.stdout), parts, folding)
            kept_lines.callback(keeper.end)
            process.stdout = None
            keeper.start()
            yield process, keeper


def check_keys(deeds: Sequence[Deed]) -> None:
    """Ends the work, before it begins, where a key has no name of qemu's."""
    wanted = [name for deed in deeds for key in deed.keys for name in key.split("-")]
    names = key_names() if wanted else ()
    for name in wanted if names else ():
        if name not in names:
            near = get_close_matches(name, names, MOST_NEAR)
            told = f": {' or '.join(f'`{one}`' for one in near)} is one" if near else ""
            raise Trouble(f"`{name}` is no key of qemu's{told}")


def record(machine: QemuMachine, kept: Path, say: Say, progress: Progress) -> Note:
    """Leaves a trace, the dumps of screens and a note in a folder; answers the note.

    `say` tells what may spoil them. What was recorded before a trouble stays; where nothing was, no
    file does.
    """
    check_program(QEMU)
    note = Note(QEMU_MACHINE, list(machine.words), polls=machine.polls)
    note.software = digests_of(machine.words)
    note.has_beam = any("retrace=precise" in word for word in machine.words)
    with kept_parts(kept, note) as parts, ExitStack() as stack:
        folder = Path(stack.enter_context(tempfile.TemporaryDirectory(prefix="vga-recording-")))
        folding = Folding(note.has_beam) if machine.polls == FIRST else None
        filtering, keeper = stack.enter_context(_filtered(folder, parts, folding))
        said = stack.enter_context(open(folder / "said", "wb"))
        process = stack.enter_context(
            started(_qemu(machine, folder), stdout=said, stderr=said, preexec_fn=end_with_parent)
        )
        session = Session(machine, process, keeper, kept, progress, note)
        # A machine that has ended by itself hears nothing more.
        with suppress(BrokenPipeError), _reached(folder, process) as (do, log):
            note.made_by = do.version
            session.act(do, log, say)
            if not session.has_ended():
                do("quit")
        for ending, name in ((process, QEMU), (filtering, "grep")):
            try:
                ending.wait(ANSWERING)
            except subprocess.TimeoutExpired:
                say(f"{name} didn't end within {ANSWERING} seconds, and was ended")
                end(ending)
        keeper.join(DRAINING)
        note.frame_polls = keeper.frame_polls
        if not parts.has_lines:
            raise Trouble(f"it made no cycle of a VGA: {note.ended}", QEMU)
    return note
