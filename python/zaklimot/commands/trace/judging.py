"""The verdict on a recording: its reads and its screens, held against the adapter."""

import sys
from dataclasses import dataclass
from pathlib import Path
from typing import Iterator, Optional, Sequence, Union

from zaklimot.commands.core.progress import Progress
from zaklimot.commands.core.streams import write_file
from zaklimot.commands.core.trouble import AGREED, DIFFERED

from .converting import Listing
from .note import VERDICT, Note, told_of_beam
from .replaying import Program, Replay, Screen, replay
from .trace import Trace

# So many kinds of refusals, of reads and of differing reads are told of a recording.
MOST_TOLD = 10
# What the verdict that is kept calls the folder.
FOLDER = Path("FOLDER")
DUMPS = ".dump.*.ppm"


@dataclass(frozen=True)
class Verdict:
    """What is told of a recording, and whether all of it agrees."""

    note: Note
    done: Replay
    agrees: bool

    def lines(self, name: Path) -> Iterator[str]:
        """What is told, in which the folder is called by a name."""
        yield self.done.written.line(self.done.listing)
        yield from self.done.checked.lines(MOST_TOLD)
        yield from told_of_beam(self.note, name)
        for number, at in enumerate(self.note.screens, 1):
            front = f"screen {number} at {at:.1f} s"
            screen = self.done.screens.get(number - 1)
            if screen is None:
                yield f"{front}: here no frame has the shape of a picture"
            else:
                yield from screen.lines(front)


def warn(lacking: Union[Listing, Trace], name: str) -> None:
    """Tells what a trace lacks, once its steps have passed."""
    for line in lacking.warnings():
        print(f"zaklimot: warning: {name}: {line}", file=sys.stderr)


@dataclass(frozen=True)
class Judging:
    """Judges recordings by the library, or by a program."""

    program: Program
    fonts: str
    progress: Progress

    def verdict(self, note: Note, folder: Path) -> Verdict:
        """Replays a recording, and leaves its screens and the verdict in its folder."""
        if self.progress.is_due():
            self.progress.tell(f"{folder}: a script is made")
        done = replay(folder, self.program, self.fonts, self.progress, note.is_own)
        self.progress.clear()
        # What is refused is no difference of answers; but the page's machine refuses it as well.
        agrees = not done.checked.differing
        if note.is_own:
            agrees &= sum(done.checked.refused.values()) == note.refusals
        screens = [done.screens.get(number) for number in range(len(note.screens))]
        are_equal = bool(screens) and all(one is not None and one.is_equal for one in screens)
        found = Verdict(note, done, agrees and are_equal)
        self._leave(found, folder, screens)
        return found

    def judge(self, note: Note, folder: Path) -> int:
        """Tells the verdict on a recording; the exit status."""
        found = self.verdict(note, folder)
        self.tell(found, folder)
        return AGREED if found.agrees else DIFFERED

    @staticmethod
    def tell(found: Verdict, folder: Path) -> None:
        """Tells a verdict, and what the trace lacks."""
        warn(found.done.listing, str(folder))
        print("\n".join(found.lines(folder)))

    @staticmethod
    def _leave(found: Verdict, folder: Path, screens: Sequence[Optional[Screen]]) -> None:
        lines = list(found.lines(FOLDER))
        for number, screen in enumerate(screens, 1):
            if screen is not None:
                screen.write(folder, number)
        for left in folder.glob(DUMPS):
            left.unlink()
        write_file(str(folder / VERDICT), "".join(f"{line}\n" for line in lines).encode("utf-8"))
