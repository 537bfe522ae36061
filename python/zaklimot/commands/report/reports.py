"""The commands over reports: `pictures`, and `compare` of two, or of a picture and an image."""

import argparse
import os
import sys
from contextlib import contextmanager
from typing import Callable, Iterator, Optional, Sequence, Union

import zaklimot
from zaklimot.format import HEADERS, MOST_ADVANCE, Answer, Digest, Picture, Script, encoded
from zaklimot.commands.core.files import STANDARD, files, name_of
from zaklimot.commands.core.progress import Progress
from zaklimot.commands.core.streams import (
    counted,
    reading,
    teller,
    write,
    write_file,
    write_name,
    writing,
)
from zaklimot.commands.core.trouble import AGREED, DIFFERED, Trouble
from zaklimot.commands.explain.faults import read_script, script_of
from zaklimot.commands.images.holding import held, held_size
from zaklimot.commands.images.png import Animation, Shape, save_png
from zaklimot.commands.images.reading import image_bytes, image_of, size_of
from zaklimot.commands.script.library import use_library
from zaklimot.commands.script.speed import USUAL, passed_of, seconds_of, speed_of

from .report import Comparison, Difference, Expected, Report


@contextmanager
def _steps(
    path: str, progress: Optional[Progress] = None, kind: type[Report] = Report
) -> Iterator[Iterator[Answer]]:
    with reading(path) as stream:
        yield kind(stream, name_of(path), progress).steps()


def wanted_pictures(
    steps: Iterator[Answer], wanted: Sequence[int], name: str
) -> Iterator[tuple[int, Picture]]:
    """The pictures of the steps that are wanted, or all."""
    last = 0
    missing = set(wanted)
    for step in steps:
        last = step.number
        if not wanted or last in missing:
            if isinstance(step.picture, Digest):
                raise Trouble(
                    "the picture is shown by its digest, and its dots are not in the file",
                    name,
                    step.line,
                )
            if step.picture is not None:
                missing.discard(last)
                yield last, step.picture
        if wanted and not missing:
            return
    if missing:
        there = f"there {'is' if last == 1 else 'are'} {counted(last, 'step')}"
        raise Trouble(f"step {min(missing)} has no picture; {there}", name)


class _Stills:
    """Pictures that are written as files, each as it comes."""

    def __init__(self, words: argparse.Namespace) -> None:
        self._words = words
        self._shape = Shape(words.scale, words.aspect)
        if words.folder != STANDARD:
            files().make_folder(words.folder)

    def take(self, number: int, picture: Picture) -> None:
        """Takes the picture of a step."""
        _write_picture(self._words, f"{number:04}", picture, self._shape)

    def end(self) -> None:
        """Ends the work: all is written."""


class _Moving:
    """Pictures that become one that moves."""

    def __init__(self, words: argparse.Namespace) -> None:
        self._path = words.apng
        self._animation = Animation(Shape(words.scale, words.aspect))
        self._delay = delays_of(words.script, to_the_end=True)

    def take(self, number: int, picture: Picture) -> None:
        """Takes the picture of a step."""
        self._animation.add(picture, self._delay(number), f"step {number}")

    def end(self) -> None:
        """Writes the picture that moves."""
        made = self._animation
        with writing(self._path) as output:
            made.write(output)
        if self._path != STANDARD:
            frames = counted(len(made.frames), "frame")
            write(f"{self._path}: {frames}, {made.seconds:.3f} seconds\n")


def pictures(words: argparse.Namespace, progress: Progress) -> int:
    """Writes the pictures of a report as files."""
    name = name_of(words.report)
    output: Union[_Stills, _Moving] = _Stills(words) if words.apng is None else _Moving(words)
    count = 0
    with _steps(words.report, progress) as steps:
        for count, (number, picture) in enumerate(wanted_pictures(steps, words.step, name), 1):
            progress.clear()
            output.take(number, picture)
    progress.clear()
    if not count:
        raise Trouble("no step has a picture", name)
    output.end()
    return AGREED


def delays_of(script: Optional[str], to_the_end: bool = False) -> Callable[[int], float]:
    """How long the frame of a step lasts, with the whole frames that an advance passes over behind
    it, as a card tells that takes the script. What stands behind the last frame may count too."""
    if script is None:
        return lambda number: USUAL
    name = name_of(script)
    frames = _lasting(script_of(read_script(script), name), to_the_end)

    def delay(number: int) -> float:
        if number not in frames:
            raise Trouble(
                (
                    f"it is not the report's script: step {number} has a picture, and is no frame"
                    " of it"
                ),
                name,
            )
        return frames[number]

    return delay


def _lasting(script: Script, to_the_end: bool) -> dict[int, float]:
    """The seconds of each frame of a script, by the numbers of their steps."""
    use_library()
    frames: dict[int, float] = {}
    last = dots = 0
    taken = bytearray(HEADERS[1])
    with zaklimot.Card() as card:
        for number, step in enumerate(script.steps(), 1):
            if step.name == "frame":
                card.run_on(bytes(taken))
                speed = speed_of(card)
                if last:
                    frames[last] += passed_of(speed, dots)
                frames[number] = seconds_of(speed)
                last, dots = number, 0
                taken[:] = HEADERS[1]
            elif step.name == "advance":
                # The card stays at the first dot of a frame.
                dots += step.numbers[0] if step.numbers[0] <= MOST_ADVANCE else 0
            elif not step.name.startswith("show"):
                taken += encoded(step)
        card.run_on(bytes(taken))
        if last and to_the_end:
            frames[last] += passed_of(speed_of(card), dots)
    return frames


def _write_picture(words: argparse.Namespace, stem: str, picture: Picture, shape: Shape) -> None:
    path = words.folder
    if path != STANDARD:
        path = os.path.join(path, stem + (".ppm" if words.ppm else ".png"))
    if words.ppm:
        write_file(path, picture.ppm)
    else:
        save_png(path, picture, shape)
    if path != STANDARD:
        write_name(path)


class Compared:
    """What is told of the steps in which two reports differ, as they come: as lines, and as a
    picture."""

    def __init__(self, words: argparse.Namespace, names: tuple[str, str]) -> None:
        self._words = words
        self._names = names
        self._tell = teller(words.picture)
        self._wants_picture = words.picture is not None
        self.count = 0

    @property
    def wants_more(self) -> bool:
        """Whether more steps that differ are to be told."""
        return self._words.all or self._wants_picture

    def take(self, difference: Difference) -> None:
        """Takes the next step that differs."""
        self.count += 1
        if self._words.all or self.count == 1:
            self._tell(_difference_text(difference, self._names))
        found = difference.pictures()
        if self._wants_picture and found is not None:
            shape = Shape(self._words.scale, self._words.aspect)
            save_png(self._words.picture, found[0], shape, found[1])
            self._wants_picture = False

    def end(self, seen: str) -> None:
        """Tells what was seen of the reports."""
        if self._wants_picture:
            _tell_unwritten("no pictures differ", self._words.picture)
        both = " and ".join(self._names)
        if not self.count:
            self._tell(f"{both} agree: {seen}\n")


def compare_reports(words: argparse.Namespace, progress: Progress) -> int:
    """Tells the first step in which two reports differ, or a report and an expected one."""
    if words.expected:
        return _compare_expected(words, progress)
    comparison = Comparison()
    compared = Compared(words, (name_of(words.one), name_of(words.other)))
    with _steps(words.one, progress) as steps, _steps(words.other) as others:
        for difference in comparison.differences(steps, others):
            progress.clear()
            compared.take(difference)
            if not compared.wants_more:
                break
    progress.clear()
    compared.end(comparison.text())
    return DIFFERED if compared.count else AGREED


def _compare_expected(words: argparse.Namespace, progress: Progress) -> int:
    name = name_of(words.one)
    expected_name = name_of(words.other)
    comparison = Comparison()
    with _steps(words.one, progress) as steps, _steps(words.other, kind=Expected) as expected:
        difference = next(comparison.differences(steps, expected), None)
    progress.clear()
    if difference is None:
        write(f"{name} is as expected: {comparison.text()}\n")
        return AGREED
    places = [
        f"{one}:{step.line}" if step else one
        for one, step in zip((name, expected_name), difference)
    ]
    write(f"{places[0]}: {difference.told()} ({places[1]})\n")
    return DIFFERED


def _difference_text(difference: Difference, names: tuple[str, str]) -> str:
    lines = [f"{difference.place} differs"]
    for name, step, answer in zip(names, difference, difference.answers()):
        lines.append(f"  {name}: {answer}" if step is None else f"  {name}:{step.line}: {answer}")
    dots = difference.dots()
    return "\n".join(lines + ([f"  {dots}"] if dots else [])) + "\n"


def _tell_unwritten(reason: str, path: str) -> None:
    """Tells why a picture that was asked for isn't written."""
    name = name_of(path, "standard output")
    sys.stderr.write(f"zaklimot: {reason}, so {name} isn't written\n")


def compare_picture(words: argparse.Namespace, progress: Progress) -> int:
    """Compares the picture of a step with an image, PNG or PPM."""
    with _steps(words.one, progress) as steps:
        _, picture = next(wanted_pictures(steps, [words.step], name_of(words.one)))
    name = name_of(words.other)
    data = image_bytes(words.other)
    # An image of another size is told before it is unpacked, which takes long.
    found = held_size(picture, *size_of(data, name))
    if found is None:
        found = held(picture, image_of(data, name), words.within or 0)
    tell = teller(words.picture)
    agrees = found.differing == 0
    tell(f"step {words.step} and {name} {'agree' if agrees else 'differ'}: {found.how}\n")
    has_dots = not agrees and found.image is not None
    if has_dots:
        tell(f"  {found.told}\n")
    if words.picture is not None and has_dots:
        save_png(words.picture, picture, Shape(words.scale, words.aspect), found.image)
    elif words.picture is not None:
        _tell_unwritten("no dots differ" if agrees else "the sizes differ", words.picture)
    return AGREED if agrees else DIFFERED
