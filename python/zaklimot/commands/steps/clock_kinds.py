"""Elements of the clock: where the beam is after so many dots, with the registers of its frame, or
with others since the middle of one."""

from zaklimot.format import Step
from zaklimot.commands.explain.raster import (
    DOUBLE_SCAN,
    LINE_COMPARE,
    LINES,
    MOST_SCAN,
    OFFSET,
    PRESET_SCAN,
    START_HIGH,
    START_LOW,
    TOTAL,
    character_dots,
    line_characters,
)

from .adapter import SteppedCard
from .chance import Chance
from .parts import Parts
from .port_kinds import frame_dots, small_frame
from .reaching import steps_to
from .wishes import ElementKind, Wish

PARTS = ("seq", "crtc", "beam")
EIGHT_DOTS = 0x01
HALVED = 0x08
# Most frames that the clock runs on the way to a state, and in a step.
FRAMES = 32
MOST_FRAMES = 33
MOST_STEPS = 3
# The dots of an element are fewer, on the way and in its step: an adapter may take them one by one.
MOST_DOTS = 100_000
# So many has one in 240 elements of the clock, which its name tells.
MANY_DOTS = 1_000_000


def sequencer(chance: Chance) -> list[int]:
    """Registers of the sequencer: characters of eight dots or nine, and bits without effect on
    the beam."""
    clocking = chance.bits(1) | (HALVED if chance.one_in(8) else 0)
    return [3, clocking, chance.bits(4), 0, 0x02]


def _dots_before(chance: Chance, crtc: list[int], width: int) -> int:
    """For how many dots the clock runs before: a few lines, or frames and a part of one."""
    whole = frame_dots(crtc, width)
    line = line_characters(crtc) * width
    # The step has a few frames too.
    most_frames = min(MOST_FRAMES, MOST_DOTS // whole - MOST_STEPS - 1)
    kind = chance.below(8)
    if kind == 0:
        return chance.below(2 * width)
    if kind == 1:
        frames = chance.among((min(FRAMES, most_frames) - 1, chance.below(most_frames)))
        return frames * whole + chance.among((0, whole - 1, chance.below(whole)))
    if kind == 2:
        return chance.below(4 * whole // line) * line + chance.below(2)
    return chance.below(most_frames if kind == 3 else 2) * whole + chance.below(whole)


def _count(chance: Chance, card: SteppedCard, width: int) -> int:
    """For how many dots the clock runs in the step, from where the card is: to the ends of a
    character, a line and a frame, a dot less or more, or anywhere."""
    timing = card.clock()
    line = timing.line_dots
    frame = timing.frame_dots
    left = timing.to_frame
    beam = card.read(("beam",), {})["beam"]
    ends = (width - int(beam["dot"]), left % line, left)
    kind = chance.below(12)
    if kind < 7:
        return max(0, chance.among(ends) + chance.below(3) - 1)
    if kind == 7:
        return chance.among((0, 1, 2, line, frame))
    if kind == 8 and chance.one_in(20):
        return MANY_DOTS + chance.below(frame)
    if kind < 10:
        return line * chance.below(40) + chance.below(3)
    return chance.below(MOST_STEPS * frame)


def _advance(chance: Chance, card: SteppedCard, state: Parts, reach: Parts, what: str) -> Wish:
    """The wish for a step of the clock, once the card has been brought to the state."""
    card.power_on()
    card.run(steps_to(state, reach))
    count = _count(chance, card, character_dots(state["seq"]))
    if count >= MANY_DOTS:
        what = f"{what}, {MANY_DOTS:,} dots or more"
    elif reach["dots"] + count >= MOST_DOTS:
        # A beam past an end that has moved may have a long way to go.
        count = chance.below(MOST_DOTS - reach["dots"])
    return Wish(what, state, Step("advance", (count,)), reach)


def _frame(chance: Chance) -> list[int]:
    """Registers of a small frame, some of them of so few lines that 32 of these are few dots."""
    crtc = small_frame(chance)
    if chance.one_in(2):
        crtc[LINES] = chance.below(14)
    return crtc


def _clock(chance: Chance, card: SteppedCard) -> Wish:
    state: Parts = {"seq": sequencer(chance), "crtc": _frame(chance), "beam": {}}
    reach = {"dots": _dots_before(chance, state["crtc"], character_dots(state["seq"]))}
    lines = state["crtc"][LINES] + 2
    return _advance(chance, card, state, reach, f"clock, {lines} lines")


def _changed(chance: Chance, card: SteppedCard) -> Wish:
    """The frame's registers are others since the beam is where it is."""
    state: Parts = {"seq": sequencer(chance), "crtc": _frame(chance), "beam": {}}
    before = state["crtc"]
    crtc = list(state["crtc"])
    seq = list(state["seq"])
    what = chance.among(("lines", "characters", "width", "rows", "compare", "start", "offset"))
    if what == "lines":
        crtc[LINES] = chance.below(before[LINES] + 1)
    elif what == "characters":
        crtc[TOTAL] = 0 if chance.one_in(2) else chance.below(before[TOTAL] + 1)
    elif what == "width":
        seq[1] ^= EIGHT_DOTS
    elif what == "rows":
        crtc[MOST_SCAN] = chance.below(16) | DOUBLE_SCAN * chance.bits(1)
    elif what == "compare":
        crtc[LINE_COMPARE] = chance.below(before[LINES] + 2)
    elif what == "start":
        crtc[START_HIGH], crtc[START_LOW] = chance.byte(), chance.byte()
        crtc[PRESET_SCAN] = chance.bits(7)
    else:
        crtc[OFFSET] = chance.byte()
    dots = _dots_before(chance, before, character_dots(state["seq"]))
    if what == "width" and chance.one_in(2):
        # To the last dot of a character: the ninth is past the end of one of eight.
        width = character_dots(state["seq"])
        dots = dots // width * width + width - 1
    reach = {"dots": dots, "crtc": before, "seq": state["seq"]}
    changed = {**state, "crtc": crtc, "seq": seq}
    return _advance(chance, card, changed, reach, f"clock, other {what} since")


def clock_kinds() -> list[ElementKind]:
    """All kinds of the clock."""
    return [
        ElementKind("clock", "the beam after some dots", PARTS, _clock),
        ElementKind("clock-changed", "the same, with other registers since", PARTS, _changed),
    ]
