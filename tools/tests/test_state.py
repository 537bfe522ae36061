"""Scripts that begin with a state, which the library rebuilds, end as the whole does."""

import unittest
from functools import partial
from random import Random
from typing import Iterable
from unittest import mock

import zaklimot
from zaklimot.format import HEADERS, Answer, Block, Picture, Script, Step, encode
from zaklimot.commands.report.report import Report
from zaklimot.commands.script.words import FONTS
from zaklimot.commands.trace import following
from zaklimot.commands.trace.following import Follower, steps_behind
from zaklimot.commands.trace.step import (
    ADVANCE,
    FRAME,
    GET,
    INT,
    OUT,
    OUTW,
    PUT,
    PUTW,
    READS,
    TraceStep,
)
from zaklimot.commands.trace.trace import Call

from .tools import refused, run_texts, stream, takes_long, want_library
from .tracing import steps_listed

# Steps that enable memory, in planar order with all planes open and no bits masked.
PLANAR = [
    TraceStep(OUT, 0x3C2, 0x03),
    TraceStep(OUTW, 0x3C4, 0x0604),
    TraceStep(OUTW, 0x3C4, 0x0F02),
    TraceStep(OUTW, 0x3CE, 0xFF08),
]
# What a script shows of its whole state.
MEMORY = tuple(
    f"show plane {plane} {offset:04X} 256"
    for plane in range(4)
    for offset in range(0, 1 << 16, 256)
)
REGISTERS = (
    "show regs",
    "show latches",
    "show beam",
    *(f"show dac {entry:02X}" for entry in range(256)),
)
SHOWN = "".join(f"{line}\n" for line in (*MEMORY, *REGISTERS, "frame", "frame")).encode()
# Traces at random, and the cycles with which scripts of them begin.
SEEDS = range(12)
FIRSTS = (1, 2, 400, 1000)
# Ports that cycles at random go to, such as software uses and such as none would, and how many
# indexes some have.
INDEXES = {0x3C4: 8, 0x3CE: 12, 0x3D4: 0x1C, 0x3B4: 0x1C}
PORTS = (
    *(6 * (0x3C4, 0x3C4, 0x3CE, 0x3CE, 0x3D4, 0x3B4)),
    *(2 * (0x3C0, 0x3C0, 0x3C8, 0x3C7, 0x3C9, 0x3C9, 0x3C9, 0x3DA, 0x3BA)),
    0x3C0,
    0x3C1,
    0x3C2,
    0x3C2,
    0x3C3,
    0x3C5,
    0x3C6,
    0x3C7,
    0x3C8,
    0x3C9,
    0x3CA,
    0x3CC,
    0x3CF,
    0x3B5,
    0x3D5,
    0x3D3,
    0x3FF,
)
# Places near which cycles of memory go: the first and last addresses of the windows.
PLACES = (0xA0000, 0xA0000, 0xA0000, 0xAFFF0, 0xB0000, 0xB7FF0, 0xB8000, 0xBFFF0)
# Registers of the CRT controller that make frames large: of these the low bits alone are written.
LARGE = {0x01: 0x07, 0x06: 0x1F, 0x07: 0x3F, 0x12: 0x1F, 0x09: 0x9F}


def noise(seed: int, count: int) -> bytes:
    """A trace of so many cycles."""
    random = Random(seed)
    time = 0
    lines = [f"0 w p 3C2 {('63', '66', '67')[seed % 3]} 1\n"]
    for _ in range(count - 1):
        time += random.choice((0, 1, 5, 20, 100, 3000, 30_000))
        address = random.choice(PLACES) + random.randrange(24)
        size = random.choice((1, 1, 2, 4))
        memory = f"{random.choice('wwr')} m {address:X} {random.randrange(1 << 8 * size):X} {size}"
        lines.append(f"{time} {memory if random.random() < 0.43 else of_port(random)}\n")
    return "".join(lines).encode()


def of_port(random: Random) -> str:
    """A cycle of a port; mostly a word for an index and its register."""
    port = random.choice(PORTS)
    value = random.randrange(256)
    if port in INDEXES:
        index = random.randrange(INDEXES[port])
        if index == 0x17 and random.random() < 0.8:
            value = value & 0xF0 | 0x03
        if port in (0x3D4, 0x3B4):
            value &= LARGE.get(index, 0xFF)
        if port == 0x3C4 and index == 4:
            value = random.choice((0x02, 0x06, 0x0E))
        return f"w p {port:X} {value:02X}{index:02X} 2"
    if port == 0x3C2:
        return f"w p 3C2 {value | random.choice((0x02, 0x02, 0x02, 0)):X} 1"
    if port == 0x3C0 and random.random() < 0.7:
        value &= 0x3F
    if port in (0x3B5, 0x3D5):
        value &= 0x07
    return f"{random.choice('wwr')} p {port:X} {value:X} {random.choice((1, 1, 1, 1, 2))}"


@takes_long
class Program(unittest.TestCase):
    def test_the_end_of_each_cut_is_the_same(self) -> None:
        cuts = {f"{seed} {first}": (seed, first) for seed in SEEDS for first in FIRSTS}
        # Without the frames at the end, so that the beam is shown where the cycles leave it.
        scripts = {
            name: steps_listed(noise(seed, 1200), first=first, has_time=True, frames=3.0)[:-2]
            for name, (seed, first) in cuts.items()
        }
        ends: dict[int, list[tuple[str, ...]]] = {}
        texts = {
            name: b"".join(map(TraceStep.text, steps)) + SHOWN for name, steps in scripts.items()
        }
        for name, run in run_texts(texts).items():
            with self.subTest(name):
                answers = list(Report(stream(run.report), name).steps())
                self.hold_reads(scripts[name], answers)
                # The frame under way is another, and so is what the beam takes from it; the frame
                # after it is the same.
                shown: list[tuple[str, ...]] = [
                    (
                        answer.picture.sum if isinstance(answer.picture, Picture) else "",
                        *(line.partition(" base ")[0] for line in answer.lines),
                    )
                    for answer in (*answers[len(scripts[name]) : -2], answers[-1])
                ]
                for one, other in zip(ends.setdefault(cuts[name][0], shown), shown):
                    self.assertEqual(one, other)

    def hold_reads(self, steps: list[TraceStep], answers: list[Answer]) -> None:
        """The steps that rebuild a state tell what they read."""
        for step, answer in zip(steps, answers):
            if step.opcode in READS and not step.is_status and not step.cycle:
                self.assertEqual(step.value, int(answer.answer, 16), step)


class Cuts(unittest.TestCase):
    def test_the_first_step_is_that_of_the_cycle(self) -> None:
        data = b"".join(b"- w m A00%02X %02X 1\n" % (2 * at, at) for at in range(20))
        steps = steps_listed(b"- w p 3C2 3 1\n" + data, first=18)
        kept = [(step.cycle, step.address) for step in steps if step.cycle]
        self.assertEqual(kept, [(at, 0xA0000 + 2 * at - 4) for at in (18, 19, 20, 21)])
        self.assertEqual(steps[-1], TraceStep(FRAME))

    def test_no_cycle_there(self) -> None:
        told = refused(partial(steps_listed, noise(1, 5), first=6))
        self.assertEqual(told, "trace: it has 5 cycles, and none from 6 on becomes a step")
        told = refused(partial(steps_listed, noise(1, 1), first=2))
        self.assertEqual(told, "trace: it has 1 cycle, and none from 2 on becomes a step")


class Rebuilding(unittest.TestCase):
    """A card follows steps, and others rebuild its state."""

    def setUp(self) -> None:
        want_library()

    def card(self, steps: Iterable[TraceStep]) -> zaklimot.Card:
        """A card that has taken steps."""
        card = zaklimot.Card()
        self.addCleanup(card.__exit__)
        card.run_on(HEADERS[1] + b"".join(step.data() for step in steps))
        return card

    def hold_rebuilt(self, *steps: TraceStep) -> list[TraceStep]:
        """Holds the state that is rebuilt behind steps to that behind themselves; the steps."""
        follower = Follower()
        for step in steps:
            follower.take(step)
        rebuilt = follower.rebuilt()
        one, other = self.card(steps), self.card(rebuilt)
        for part in ("registers", "palette", "latches", "beam", "bios_data"):
            self.assertEqual(getattr(one, part)(), getattr(other, part)(), part)
        for plane in range(4):
            self.assertEqual(one.plane(plane), other.plane(plane))
        return rebuilt

    def test_what_the_frame_under_way_has_taken_stays(self) -> None:
        self.hold_rebuilt(
            TraceStep(OUTW, 0x3B4, 0x120C), TraceStep(ADVANCE, 1), TraceStep(OUTW, 0x3B4, 0x340C)
        )
        # A frame that begins amid an advance takes what is written by then.
        self.hold_rebuilt(
            TraceStep(ADVANCE, 91),
            TraceStep(OUTW, 0x3B4, 0x560C),
            TraceStep(ADVANCE, 90),
            TraceStep(OUTW, 0x3B4, 0x780C),
        )

    def test_frames_and_calls(self) -> None:
        shown = Call((0x0003, 0, 0, 0)), Call((0x0E41, 7, 0, 0)), Call((0x1301, 7, 2, 0), b"AB")
        calls = [TraceStep(INT, call=call) for call in shown]
        rebuilt = self.hold_rebuilt(*calls, TraceStep(FRAME), TraceStep(FRAME), *calls[1:])
        self.assertTrue(any(step.opcode == INT for step in rebuilt))

    def test_what_is_read(self) -> None:
        latched = [TraceStep(PUT, 0xA0000, 0x5A), TraceStep(GET, 0xA0000)]
        rebuilt = self.hold_rebuilt(*PLANAR, *latched, TraceStep(PUT, 0xA0000, 0))
        with zaklimot.Card() as card:
            for step in rebuilt:
                (answer,) = card.run_on(HEADERS[1] + step.data(), 0, 1)
                self.assertEqual(answer.value, step.value if step.opcode in READS else None)
        self.assertTrue(any(step.opcode in READS for step in rebuilt))

    def test_empty_memory_takes_no_steps(self) -> None:
        empty = self.hold_rebuilt(*PLANAR)
        self.assertEqual(sum(step.opcode == PUTW for step in empty), 0)
        filled = [TraceStep(PUTW, 0xA0000 + at, 0x5555) for at in range(0, 1024, 2)]
        rebuilt = self.hold_rebuilt(*PLANAR, *filled)
        self.assertEqual(sum(step.opcode == PUTW for step in rebuilt), 512)

    def test_many_steps_are_taken_at_a_time(self) -> None:
        steps = [TraceStep(OUTW, 0x3C4, at % 16 << 8 | 2) for at in range(100)]
        with mock.patch.object(following, "MOST_STEPS", 7):
            self.hold_rebuilt(*steps)
        with mock.patch.object(following, "MOST_TAKEN", 9):
            self.hold_rebuilt(*steps)

    def test_a_script_with_blocks(self) -> None:
        put, frame = Step("put", (0xA0000, 7)), Step("frame")
        blocks = (Block(3, (put,)), Block(2, (put, frame)), Step("int", (0x13, 0, 0, 0)), frame)
        script = encode(Script((*blocks, Block(5, (Step("advance", (100,)),)), put), 2))
        with zaklimot.Card() as card, zaklimot.Card() as other:
            card.run_on(script)
            rebuilt = steps_behind(script, str(FONTS))
            other.run_on(HEADERS[1] + b"".join(step.data() for step in rebuilt))
            self.assertEqual((other.beam(), other.plane(0)), (card.beam(), card.plane(0)))

    def test_a_state_that_no_steps_lead_to(self) -> None:
        with mock.patch.object(zaklimot.Card, "rebuild", side_effect=zaklimot.NotRebuilt("no")):
            told = refused(Follower().rebuilt)
        self.assertEqual(told, "no script rebuilds the state: no")
