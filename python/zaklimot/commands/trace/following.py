"""A card of the library that goes where the steps of a trace lead, and tells what is there."""

from __future__ import annotations

from typing import Iterable, Iterator, Optional, Union

import zaklimot
from zaklimot.format import HEADERS, Block, Picture, Step, decode, encoded, items_in
from zaklimot.commands.core.progress import Progress
from zaklimot.commands.core.streams import counted
from zaklimot.commands.core.trouble import Trouble
from zaklimot.commands.script.library import use_library

from .step import FRAME, INT, NAMES, TraceStep
from .trace import Call

# So many bytes of steps, and so many steps, are taken at once.
MOST_TAKEN, MOST_STEPS = 1 << 20, 1 << 16
OPCODES = {name: opcode for opcode, name in NAMES.items()}


class Follower:
    """A card that goes from power-on where steps lead. `fonts` is the path of a font file; None
    means the project's."""

    def __init__(self, fonts: Optional[str] = None) -> None:
        use_library()
        self.fonts = fonts
        try:
            self._card = zaklimot.Card(fonts)
        except zaklimot.Error as error:
            raise Trouble(str(error), fonts) from error
        self._taken = bytearray()
        self._count = 0

    @property
    def card(self) -> zaklimot.Card:
        """The card, after all steps so far."""
        if self._taken:
            self._card.run_on(HEADERS[2] + bytes(self._taken))
            self._taken.clear()
            self._count = 0
        return self._card

    def take(self, step: TraceStep) -> None:
        """Takes a step. Of a `frame` nothing is drawn."""
        if step.opcode == FRAME:
            self.card.skip_frame()
        else:
            self.take_bytes(step.data(), 1)

    def take_bytes(self, steps: bytes, count: int) -> None:
        """Takes so many steps as bytes of a script."""
        self._taken += steps
        self._count += count
        if len(self._taken) >= MOST_TAKEN or self._count >= MOST_STEPS:
            self.card

    def take_script(self, script: bytes) -> None:
        """Takes all steps of a script of bytes."""
        for item in items_in(script):
            if isinstance(item, Block) and not any(step.name == "frame" for step in item.steps):
                self.take_bytes(encoded(item), item.count * len(item.steps))
                continue
            for step in _steps_of(item):
                if step.name == "frame":
                    self.card.skip_frame()
                else:
                    self.take_bytes(encoded(step), 1)

    def picture(self) -> Optional[Picture]:
        """Goes to the end of the frame, and returns its picture; None where its rows differ in
        width."""
        try:
            drawn = self.card.frame()
        except zaklimot.Ragged:
            return None
        return Picture.of_dots(drawn.width, drawn.height, bytes(drawn.data))

    def copy(self) -> zaklimot.Card:
        """Another card in the same state."""
        card = zaklimot.Card(self.fonts)
        card.restore(self.card.save())
        return card

    def rebuilt(self) -> list[TraceStep]:
        """The steps that lead from power-on to the state of the card. What they read is what the
        adapter answers then."""
        try:
            script = self.card.rebuild().script
        except (zaklimot.NotRebuilt, zaklimot.TooLong) as error:
            raise Trouble(f"no script rebuilds the state: {error}") from error
        with zaklimot.Card(self.fonts) as card:
            report = card.run_on(script)
        return [_traced(*pair) for pair in zip(decode(script).steps(), report)]


def _steps_of(item: Union[Step, Block]) -> Iterator[Step]:
    """The steps of a block in each of its rounds, or a step."""
    if isinstance(item, Step):
        yield item
        return
    for _ in range(item.count):
        yield from item.steps


def _traced(step: Step, answer: zaklimot.Step) -> TraceStep:
    """A step of a script as one of a trace, with what it read."""
    opcode = OPCODES[step.name]
    if opcode == INT:
        return TraceStep(INT, call=Call(step.numbers, step.block))
    address, value = (*step.numbers, answer.value or 0, 0)[:2]
    return TraceStep(opcode, address, value)


def followed(steps: Iterable[TraceStep], fonts: str, progress: Progress) -> Follower:
    """A card that has taken steps."""
    follower = Follower(fonts)
    for count, step in enumerate(steps, 1):
        follower.take(step)
        if progress.is_due():
            progress.tell(counted(count, "step", ","))
    progress.clear()
    return follower


def steps_behind(script: bytes, fonts: str) -> list[TraceStep]:
    """The steps that lead from power-on to where a script of bytes leads with a font file."""
    follower = Follower(fonts)
    follower.take_script(script)
    return follower.rebuilt()
