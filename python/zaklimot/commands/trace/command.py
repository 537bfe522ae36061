"""What each command of `trace` does, and how it ends."""

import argparse
import sys
import zlib
from collections import deque
from pathlib import Path
from tempfile import TemporaryDirectory
from typing import ContextManager, Iterator, Optional, Sequence, TextIO, Union

from zaklimot.format import Picture
from zaklimot.commands.core.files import STANDARD, check_folder, files, name_of
from zaklimot.commands.core.processes import check_program
from zaklimot.commands.core.progress import Progress
from zaklimot.commands.core.streams import counted, reading, write_name, writing
from zaklimot.commands.core.trouble import AGREED, DIFFERED, Trouble
from zaklimot.commands.images.png import Animation, ImageSize, Shape, save_png
from zaklimot.commands.report.report import Report
from zaklimot.commands.script.own import own_program
from zaklimot.commands.script.program import BuiltProgram, tried_program

from . import inpage
from .asked import BEAM, CLOCK, KEEP, Deed
from .following import Follower
from .converting import Listing, check, convert
from .monitor import QEMU
from .judging import Judging, warn
from .note import NOTE, Note, note_of
from .seeing import save_picture
from .recording import PRECISE, QemuMachine, Say, chain_4, check_keys, record
from .replaying import Program, shown
from .video import check_video, write_video
from .trace import Trace, opened


# Pictures that move have so many bytes at most.
MOST_PACKED = 1 << 29
# How hard they are packed that wait.
FAST = 1
# What messages call an output that has no name.
OUTPUT = "standard output"


def _listing(trace: Trace, words: argparse.Namespace) -> Listing:
    return Listing(
        trace, words.polls == KEEP, words.time, words.frames, words.to, words.from_, words.longest
    )


def _opened(words: argparse.Namespace) -> ContextManager[Trace]:
    return opened(words.trace, is_whole=words.to is None)


def _beside(path: Optional[str]) -> TextIO:
    """Where to tell of a file that is written: not on standard output if that is the file."""
    return sys.stderr if path == STANDARD else sys.stdout


def convert_trace(words: argparse.Namespace, _: Progress) -> None:
    """Makes a script of a trace."""
    with _opened(words) as trace, writing(words.script) as stream:
        listing = _listing(trace, words)
        written = convert(listing, stream, words.text, words.repeat)
    warn(listing, name_of(words.trace))
    print(written.line(listing), file=_beside(words.script))


def check_report(words: argparse.Namespace, _: Progress) -> int:
    """Compares a script's report with a trace; whether they agree."""
    name = name_of(words.report)
    with _opened(words) as trace, reading(words.report) as stream:
        listing = _listing(trace, words)
        checked = check(listing.steps(), Report(stream, name).steps(), name, words.time)
    warn(listing, name_of(words.trace))
    print("\n".join(checked.lines(words.most)))
    return AGREED if checked.agrees else DIFFERED


def make_pictures(words: argparse.Namespace, progress: Progress) -> None:
    """Makes the pictures of a trace, in real time, or that of a moment."""
    if words.png is not None:
        save_picture(words, progress)
        return
    if words.video is not None:
        check_video(words.video)
    found = _opened(words)
    if words.folder is not None:
        files().make_folder(words.folder)
    with found as trace:
        listing = Listing(
            trace,
            frames=BEAM if words.beam else CLOCK,
            most=words.to,
            first=words.from_,
            longest=words.longest,
            fonts=words.fonts,
        )
        pictures = shown(listing.steps(), words.fonts, progress)
        stills = _stills(words, pictures)
        animation = _moving(words, stills) if words.apng or words.video else None
        # Else each is written as it comes.
        deque(stills, 0)
    warn(listing, name_of(words.trace))
    if animation is not None:
        _write_moving(words, animation)


Shown = Iterator[tuple[Picture, float]]


def _stills(words: argparse.Namespace, pictures: Shown) -> Shown:
    """The same pictures. Each is written into a folder, if there is one."""
    begin = 0.0
    for picture, lasts in pictures:
        if words.folder is not None:
            path = Path(words.folder) / f"{begin:09.3f}.png"
            save_png(str(path), picture, Shape(words.scale, words.aspect))
            write_name(path)
        begin = begin + lasts
        yield picture, lasts


def _moving(words: argparse.Namespace, pictures: Shown) -> Animation:
    """Pictures that move, each stretched to the largest size of them, as a monitor shows them. The
    last is seen for the longest time without a write."""
    packed: list[tuple[bytes, float]] = []
    width = height = size = 0
    for picture, lasts in pictures:
        packed.append((zlib.compress(picture.ppm, FAST), lasts))
        size += len(packed[-1][0])
        width, height = max(width, picture.width), max(height, picture.height)
        _check_size(size)
    animation = Animation(Shape(words.scale, words.aspect), ImageSize(width, height))
    size = 0
    for number, (ppm, lasts) in enumerate(packed, 1):
        more = words.longest if number == len(packed) else 0
        animation.add(Picture.of_ppm(zlib.decompress(ppm)), lasts + more, f"picture {number}")
        size += len(animation.frames[-1].rows)
        _check_size(size)
    return animation


def _check_size(size: int) -> None:
    if size > MOST_PACKED:
        told = f"more than {MOST_PACKED:,} bytes: --from and --to take a part of the trace"
        raise Trouble(f"the pictures take {told}")


def _write_moving(words: argparse.Namespace, animation: Animation) -> None:
    """Writes pictures that move, as APNG and as a video."""
    output = _beside(words.apng)
    pictures = counted(len(animation.frames), "picture")
    told = f"{pictures}, {animation.seconds:.3f} seconds"
    if words.apng is not None:
        with writing(words.apng) as stream:
            animation.write(stream)
        print(f"{name_of(words.apng, OUTPUT)}: {told}", file=output)
    if words.video is not None:
        write_video(words.video, animation)
        print(f"{words.video}: {told}", file=output)


def record_software(words: argparse.Namespace, progress: Progress) -> int:
    """Records software, replays what was recorded, and compares the screens of both."""
    folder = Path(words.folder)
    if words.again:
        return _judged_again(words, folder, progress)
    check_folder(words.folder)
    if folder.exists() and any(folder.iterdir()):
        again = ", or --again to judge it once more" if (folder / NOTE).exists() else ""
        raise Trouble(f"it has files: name a new folder{again}", words.folder)
    recorder = _recorder(words)
    recorder.check()
    judging = _judging(words, progress)
    return judging.judge(_recorded(recorder, folder, progress), folder)


def _judging(words: argparse.Namespace, progress: Progress) -> Judging:
    # What would be missing at the end is told at the beginning.
    Follower(words.fonts)
    program: Program = own_program(words.vga) or BuiltProgram(tried_program(words.vga, words.fonts))
    return Judging(program, words.fonts, progress)


def _judged_again(words: argparse.Namespace, folder: Path, progress: Progress) -> int:
    """Judges once more what a folder has; the exit status."""
    check_folder(words.folder)
    judging = _judging(words, progress)
    return judging.judge(note_of(folder), folder)


class _OnQemu:
    """A recording on qemu, as words ask for it."""

    def __init__(self, words: argparse.Namespace, deeds: Sequence[Deed]) -> None:
        self._words = words
        self._deeds = deeds

    def check(self) -> None:
        """Ends the work, before it begins, where qemu or one of its keys is lacking."""
        check_program(QEMU)
        check_keys(self._deeds)

    def record(self, folder: Path, say: Say, progress: Progress) -> Note:
        """Records into a folder; the note."""
        words = self._words
        with TemporaryDirectory(prefix="zaklimot-") as made:
            plugin = chain_4(Path(made)) if words.chain_4 else []
            beam = PRECISE if words.beam else ()
            line = [*beam, "-device", words.card or "VGA", *plugin, *words.qemu]
            polls = words.polls or KEEP
            machine = QemuMachine(line, self._deeds, words.quiet, words.seconds, polls)
            return record(machine, folder, say, progress)


class _InPage:
    """A recording on the page's machine, as words ask for it."""

    def __init__(self, words: argparse.Namespace, deeds: Sequence[Deed]) -> None:
        self._deeds = deeds
        self._machine = inpage.PageMachine(
            words.in_page,
            deeds,
            words.quiet,
            words.seconds,
            speed=words.speed,
            rom=words.rom,
            chosen=words.start,
        )

    def check(self) -> None:
        """Ends the work, before it begins, where a file or node is lacking, or the machine lacks a
        key."""
        for name in (self._machine.file, self._machine.rom):
            if name is not None:
                with open(name, "rb"):
                    pass
        inpage.check_node()
        inpage.check_keys(self._deeds)

    def record(self, folder: Path, say: Say, progress: Progress) -> Note:
        """Records into a folder; the note."""
        return inpage.record(self._machine, folder, say, progress)


Recorder = Union[_OnQemu, _InPage]


def _recorder(words: argparse.Namespace) -> Recorder:
    # A screen is taken at the end at least.
    deeds = words.deeds if words.deeds and not words.deeds[-1].keys else [*words.deeds, Deed()]
    return _OnQemu(words, deeds) if words.in_page is None else _InPage(words, deeds)


def _recorded(recorder: Recorder, folder: Path, progress: Progress) -> Note:
    """Records into a folder, which is gone again where nothing was; the note of the recording."""

    def say(text: str) -> None:
        progress.clear()
        print(f"zaklimot: {text}", file=sys.stderr)

    files().make_folder(folder)
    try:
        return recorder.record(folder, say, progress)
    except BaseException:
        if (folder / NOTE).exists():
            again = f"`zaklimot trace record {folder} --again` judges it"
            say(f"{folder}: it has what was recorded: {again}")
        raise
