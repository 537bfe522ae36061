"""What a recording's folder tells of how it was recorded, beside its trace and its screens: what it
needs to be judged once more."""

import hashlib
import json
import os
from contextlib import contextmanager
from dataclasses import asdict, dataclass, field
from pathlib import Path
from typing import Any, Iterable, Iterator, Optional, Sequence

from zaklimot.commands.core.streams import bytes_of, write_file
from zaklimot.commands.core.trouble import Trouble

from .parts import Parts, not_kept

# The files of a recording that tell how it was made, and how it was judged.
NOTE = "recording.json"
VERDICT = "verdict.txt"
MOST_NOTE = 1 << 20
CHUNK = 1 << 20
FRONT = {"is": "zaklimot recording", "version": 1}
# Software that reads input status 1 so often within a frame waits for the beam.
MANY_POLLS = 1000
QEMU_MACHINE = "qemu"
PAGE_MACHINE = "page"


@dataclass
class Note:
    """How software was recorded: the machine, its version and its words, the seconds of its
    screens, how many steps it refused, and why it ended.

    `polls` is `first` where polls of input status 1 were folded. `ended` is empty while it records.
    `has_beam` tells whether qemu's input status 1 told where a beam would be, and `frame_polls` how
    often it was read within a frame at most. `software` has the SHA-256 of each file that was run,
    by its name.
    """

    machine: str
    words: Sequence[str] = ()
    made_by: str = ""
    polls: str = ""
    screens: list[float] = field(default_factory=list)
    refusals: int = 0
    ended: str = ""
    has_beam: bool = False
    frame_polls: int = 0
    software: dict[str, str] = field(default_factory=dict)

    @property
    def is_own(self) -> bool:
        """Whether the page's machine was recorded."""
        return self.machine == PAGE_MACHINE

    def write(self, folder: Path) -> None:
        """Lays it into the folder."""
        text = json.dumps({**FRONT, **asdict(self)}, indent=1)
        write_file(str(folder / NOTE), text.encode("ascii") + b"\n")


def digests_of(words: Iterable[str]) -> dict[str, str]:
    """The SHA-256 of each file that words name: whole, or behind `=` in a part between commas, as
    `file=disc.img`. None can be told of what is no file."""
    digests = {}
    for word in words:
        for name in (word, *(part.partition("=")[2] for part in word.split(","))):
            if name and name not in digests and os.path.isfile(name):
                digests[name] = _digest(name)
    return digests


def _digest(name: str) -> str:
    digest = hashlib.sha256()
    with open(name, "rb") as stream:
        while data := stream.read(CHUNK):
            digest.update(data)
    return digest.hexdigest()


@contextmanager
def kept_parts(folder: Path, note: Note) -> Iterator[Parts]:
    """The parts of a trace that is recorded into a folder, with its note; both stay whatever ends
    the recording, unless there is nothing in them."""
    parts = Parts(folder)
    try:
        note.write(folder)
        yield parts
    except BaseException:
        note.ended = note.ended or "it was ended"
        raise
    finally:
        try:
            parts.close()
        except OSError as error:
            note.ended = not_kept(error)
        if parts.has_lines or note.screens:
            note.write(folder)
        else:
            parts.drop()
            (folder / NOTE).unlink(missing_ok=True)


def note_of(folder: Path) -> Note:
    """The note of a folder; a Trouble where it has none that can be read."""
    path = folder / NOTE
    if not path.exists():
        raise Trouble(f"it is no recording: it has no {NOTE}", str(folder))
    found = _parsed(bytes_of(path, MOST_NOTE))
    if found is None:
        raise Trouble("it is no note of a recording, or of another version", str(path))
    return found


def told_of_beam(note: Note, folder: Path) -> Sequence[str]:
    """What a verdict says of a program that seems to wait for the beam: no dump shows what changes
    within a frame."""
    if note.frame_polls < MANY_POLLS:
        return ()
    front = f"it reads input status 1 up to {note.frame_polls:,} times within a frame"
    dumps = "what changes within a frame shows on no screen below"
    if note.has_beam:
        return (f"{front}: {dumps}, and `zaklimot trace pictures {folder} --beam` draws it",)
    return (f"{front}: {dumps}, and is lost. Record with --beam, so that it sees a beam",)


def _parsed(data: bytes) -> Optional[Note]:
    try:
        given: Any = json.loads(data)
        if {name: given.pop(name) for name in FRONT} != FRONT:
            return None
        note = Note(**given)
        note.screens = [float(second) for second in note.screens]
        note.refusals = int(note.refusals)
        is_known = note.machine in (QEMU_MACHINE, PAGE_MACHINE) and isinstance(note.ended, str)
        return note if is_known and isinstance(note.software, dict) else None
    except (ValueError, TypeError, KeyError, AttributeError, RecursionError):
        return None
