"""What is in a trace at a moment: its text and its picture."""

import argparse
from typing import Iterator, Optional

from zaklimot.commands.core.files import STANDARD, name_of
from zaklimot.commands.core.progress import Progress
from zaklimot.commands.core.streams import counted, write_file, write_name
from zaklimot.commands.core.trouble import Trouble
from zaklimot.commands.images.png import Shape, save_png

from .asked import ANSI, HTML, PLAIN
from .cells import TextScreen, ansi_lines, code_page, html_lines, plain_lines
from .finding import find_text
from .following import Follower, followed
from .moments import Moment, Steps
from .step import FRAME, TraceStep
from .trace import opened

LINES = {PLAIN: plain_lines, ANSI: ansi_lines, HTML: html_lines}


def _moment_of(words: argparse.Namespace) -> Moment:
    """The moment that words name; that of a picture is found first."""
    if words.picture is not None:
        return Moment(cycle=_cycle_of_picture(words))
    return Moment(words.at, words.cycle, words.screen)


def _steps_up_to(path: str, moment: Moment) -> Iterator[TraceStep]:
    """The steps of a trace up to a moment."""
    with opened(path, is_whole=moment == Moment()) as trace:
        yield from Steps(trace).up_to(moment)


def _at_moment(words: argparse.Namespace, progress: Progress) -> Follower:
    """A card that is where the trace is at the moment."""
    return followed(_steps_up_to(words.trace, _moment_of(words)), words.fonts, progress)


def _cycle_of_picture(words: argparse.Namespace) -> int:
    """The cycle before the end of the frame of a picture, counted from 1 as `pictures` writes
    them."""
    if words.trace == STANDARD:
        raise Trouble("--picture reads the trace twice, which standard input can't be")
    count = 0
    last = ""
    follower = Follower(words.fonts)
    with opened(words.trace) as trace:
        steps = Steps(trace)
        for step in steps.with_frames(is_drawn=True):
            if step.opcode != FRAME:
                follower.take(step)
                continue
            picture = follower.picture()
            if picture is not None and picture.sum != last:
                last = picture.sum
                count += 1
                if count == words.picture:
                    return steps.passed.cycles
    told = f"it has {counted(count, 'picture')}, and no picture {words.picture}"
    raise Trouble(told, name_of(words.trace))


def show_text(words: argparse.Namespace, progress: Progress) -> Optional[int]:
    """Writes the text that is shown at a moment; or tells when and where a text is shown."""
    if words.find is not None:
        return find_text(words, progress)
    letters = code_page(words.code_page)
    name = name_of(words.trace)
    screen = TextScreen(_at_moment(words, progress), name)
    lines = LINES[words.form](screen, letters, name)
    write_file(words.output, "".join(f"{line}\n" for line in lines).encode("utf-8"))
    return None


def save_picture(words: argparse.Namespace, progress: Progress) -> None:
    """Writes the picture at a moment: that of the frame which ends next."""
    picture = _at_moment(words, progress).picture()
    if picture is None:
        told = "the frame has no picture: its rows differ in width"
        raise Trouble(told, name_of(words.trace))
    save_png(words.png, picture, Shape(words.scale, words.aspect))
    if words.png != STANDARD:
        write_name(words.png)
