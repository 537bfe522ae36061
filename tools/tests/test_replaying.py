"""What becomes of a recorded log: how it is kept, its pictures in real time, and what is known of
qemu's screens."""

from __future__ import annotations

import gzip
import re
import struct
import unittest
import zlib
from pathlib import Path
from typing import Sequence
from unittest import mock

from zaklimot import Card, Registers
from zaklimot.format import Picture
from zaklimot.commands.images.reading import image_of
from zaklimot.commands.trace import keeper as keeping, parts
from zaklimot.commands.trace.beamed import Beamed
from zaklimot.commands.trace.clocked import Clocked
from zaklimot.commands.trace.folding import Folding
from zaklimot.commands.trace.keeper import Keeper
from zaklimot.commands.trace.parts import Parts, parts_of
from zaklimot.commands.trace.replaying import ALLOWED, PAGE, SEEN, Screen, whole_rows
from zaklimot.commands.trace.step import ADVANCE, FRAME, IN, INT, OUT, OUTW, PUT, TraceStep
from zaklimot.commands.trace.trace import SCREEN, Call, opened

from .test_recording import picture_of
from .tools import (
    BLACK,
    RED,
    TOP,
    WHITE,
    Folder,
    hold,
    hold_undone,
    png_rows,
    ppm,
    refused,
    want_library,
    want_program,
)
from .tracing import BEGIN, drawing, qemu, registers, run


# Registers, and whether a character of text memory blinks.
Shown = tuple[Registers, bool]
# What stands in the place of polls that are folded.
TOLD = b"polls %d of 'vga-trace'\n"


class Knowledge(unittest.TestCase):
    def setUp(self) -> None:
        want_library()

    def test_each_is_on_the_page(self) -> None:
        page = " ".join((TOP / PAGE).read_text("utf-8").split())
        for name in (*SEEN, *ALLOWED):
            self.assertIn(name, page)

    def state(
        self, index: int = 0x20, mask: int = 0xFF, word: int = 0, **banks: dict[int, int]
    ) -> Shown:
        """Registers of text whose palette is shown, but for the attributes' index, the DAC mask,
        and those that are named; and whether a character blinks, by its word in memory."""
        usual = {
            "crtc": {0x07: 0x1F, 0x09: 0x4F, 0x12: 0x8F, 0x14: 0x1F, 0x18: 0xFF},
            "gfx": {6: 0x0E},
        }
        with Card() as card:
            registers = card.registers()
        changed = {
            name: bytearray(getattr(registers, name)) for name in ("crtc", "gfx", "seq", "attr")
        }
        for name, values in (*usual.items(), *banks.items()):
            for number, value in values.items():
                changed[name][number] = value
        for name, values_of in changed.items():
            registers = registers._replace(**{name: bytes(values_of)})  # type: ignore[arg-type]
        return registers._replace(attr_index=index, dac_mask=mask), word >= 0x8000

    def test_what_may_show_in_a_state(self) -> None:
        black, ninth, others = (
            Picture.of_dots(9, 1, bytes(27 - count) + count * b"\1") for count in (0, 3, 6)
        )
        hold(
            self,
            lambda given: names(self.state(**given), black, ninth).get("may be", []),
            (
                ({}, []),
                ({"index": 0}, ["palette address source"]),
                ({"seq": {1: 0x20}}, ["screen off"]),
                ({"mask": 0x0F}, ["DAC mask"]),
                ({"seq": {3: 0x04}}, ["colour plane enable"]),
                ({"seq": {3: 0x04}, "attr": {0x12: 8}}, []),
                ({"crtc": {8: 3}}, ["preset row scan"]),
                ({"attr": {0x13: 4}}, ["panning"]),
                ({"attr": {0x13: 8}}, []),
                ({"crtc": {8: 0x20}}, ["panning"]),
                ({"crtc": {0x18: 0x80, 7: 0x0F, 9: 0x0F}}, ["line compare"]),
                ({"crtc": {0x18: 0x80, 7: 0x0F}}, []),
                # A split behind the last line shows nowhere, nor does an underline below the row.
                ({"crtc": {0x18: 0x8E, 9: 0x0F}}, ["line compare"]),
                ({"crtc": {0x18: 0x8F, 9: 0x0F}}, []),
                ({"crtc": {0x14: 0x0F}}, ["underline"]),
                ({"crtc": {0x14: 0x10}}, []),
                ({"crtc": {0x14: 0x0D}}, ["underline"]),
                ({"attr": {0x10: 8}, "word": 0x8700}, ["blinking"]),
                ({"attr": {0x10: 8}, "word": 0x0700}, []),
                ({"attr": {0x10: 4}}, ["ninth dot"]),
            ),
        )
        # Of a picture of another size no dots are known.
        self.assertEqual(
            names(self.state(attr={0x10: 4}), black, Picture.of_dots(8, 1, bytes(24))), {}
        )
        self.assertEqual(names(self.state(attr={0x10: 4}), black, others), {})

    def test_a_split_within_a_row(self) -> None:
        def split(
            here: str, there: str, changed: dict[int, int] = {}, text: int = 1
        ) -> dict[str, list[str]]:
            """What is known of two pictures in graphics, whose line compare is 2 and whose rows
            have two lines."""
            state = self.state(gfx={6: text}, crtc={7: 0x0F, 8: 1, 9: 1, 0x18: 2, **changed})
            return names(state, picture_of(here), picture_of(there))

        found, none = {"is": ["split within a row"]}, {"may be": ["preset row scan"]}
        hold(
            self,
            split,
            (
                # The second line of a row is under way, of two lines and of four; and three of four
                # have been.
                ("aab aabbc", "aab abbcc", found),
                ("aab aabb", "aab abbx", found),
                ("aaa aaaabb", "aaa abbbbc", {9: 3}, found),
                ("aaa aaaabb", "aaa abbbbc", {9: 0x81}, found),
                ("aa aaaabb", "aa aabbbb", {9: 3, 0x18: 1}, found),
                # Bits 8 and 9 of line compare put it below the picture.
                ("aab aabbc", "aab abbcc", {7: 0x1F}, none),
                ("aab aabbc", "aab abbcc", {9: 0x41}, none),
                # No split, or none within a row, or something else differs.
                ("aabb aabbc", "aabb abbcc", {0x18: 3}, none),
                ("aab aabbc", "aab abbcx", none),
                ("aab aabbc", "axb abbcc", none),
                ("aab aabbc", "aab aabbx", none),
                ("aab aabbc", "aab abbcc", {0x18: 8}, none),
                ("aab aabbc", "aab abbcc", {9: 0}, none),
            ),
        )
        self.assertNotIn("is", split("aab aabbc", "aab abbcc", {}, 0))

    def test_cells_of_sixteen_dots(self) -> None:
        """Cells of nine dots, which are doubled, and qemu's of sixteen."""
        cell = [bytes([at]) * 3 for at in (1, 2, 3, 4, 5, 6, 7, 8, 8)]
        picture = Picture.of_dots(18, 1, b"".join(cell * 2))
        wide = b"".join(dot * 2 for dot in cell[:8] * 2)
        other = Picture.of_dots(32, 1, wide[:-6] + bytes(6))
        found = {"is": ["cells of sixteen dots"]}
        for clocking, mode, image, wanted in (
            (8, 0, Picture.of_dots(32, 1, wide), found),
            (9, 0, Picture.of_dots(32, 1, wide), {}),
            (0, 0, Picture.of_dots(32, 1, wide), {}),
            (8, 1, Picture.of_dots(32, 1, wide), {}),
            (8, 0, Picture.of_dots(48, 1, wide + bytes(48)), {}),
        ):
            with self.subTest(clocking=clocking, mode=mode, size=image.size):
                state = self.state(gfx={6: mode}, seq={1: clocking})
                self.assertEqual(names(state, picture, image), wanted)
        screen = Screen(*self.state(seq={1: 8}), picture, image_of(other.ppm, "image"))
        self.assertEqual(screen.names, found)
        told = list(screen.lines("screen"))
        self.assertIn("its cells have 16 dots, and not 9 doubled ones; 1 of 16 dots", told[0])

    def test_a_last_row_that_is_not_whole(self) -> None:
        picture = picture_of("aaabbbcc")
        for row, mode, height in (
            (2, 0, 6),
            (3, 0, 8),
            (7, 0, 8),
            (8, 0, 8),
            (0x82, 0, 8),
            (2, 1, 8),
            (0x42, 0, 6),
        ):
            part = whole_rows(self.state(crtc={9: row}, gfx={6: mode})[0], picture)
            self.assertEqual((part.height, part is picture), (height, height == 8))
            self.assertEqual(
                [part.row(y) for y in range(height)], [picture.row(y) for y in range(height)]
            )


def names(shown: Shown, picture: Picture, image: Picture) -> dict[str, list[str]]:
    """What is known of a screen that qemu shows so."""
    return Screen(*shown, picture, image_of(image.ppm, "image")).names


class RealTime(Folder):
    # Dots of a frame, and its microseconds.
    DOTS = 900 * 449
    FRAME = 900 * 449 / 28.322

    def frames(
        self, longest: float, reads: Sequence[float], *writes: float
    ) -> tuple[list[tuple[int, int]], Clocked]:
        """The frames and dots that pass where something is read, and then written, at so many
        frames' times."""
        steps = [step._replace(time=0) for step in registers(0x67, 0)]
        steps += [TraceStep(IN, 0x3DA, 0, round(at * self.FRAME)) for at in reads]
        steps += [TraceStep(PUT, 0xA0000, 1, round(at * self.FRAME)) for at in writes]
        clocked = Clocked(longest)
        return [
            step[:2] for step in clocked.steps(steps) if step.opcode in (ADVANCE, FRAME)
        ], clocked

    def test_a_frame_where_something_is_written(self) -> None:
        frame = (FRAME, 0)
        hold(
            self,
            lambda *times: self.frames(*times)[0],
            (
                (1, (), 0.2, 0.4, []),
                (1, (), 1.2, 1.4, [frame]),
                # The first ends at one frame of the usual rate, the second and the third one frame
                # later each.
                (1, (), 1.2, 1.4, 2.2, 5.7, [frame, frame, frame, (ADVANCE, 2 * self.DOTS)]),
                # Reads make none.
                (1, (1.2, 2.5, 3.5), 4.5, [frame, (ADVANCE, 3 * self.DOTS)]),
                # The time that passes is that of the trace.
                (
                    10,
                    (),
                    1.2,
                    41.5,
                    60.5,
                    [frame, frame, (ADVANCE, 39 * self.DOTS), frame, (ADVANCE, 18 * self.DOTS)],
                ),
            ),
        )

    def test_what_is_written_shows_whatever_is_read_after_it(self) -> None:
        before = [step._replace(time=0) for step in registers(0x67, 0)]
        write = TraceStep(PUT, 0xA0000, 1, round(1.2 * self.FRAME))
        reads = [TraceStep(IN, 0x3DA, 0, round(at * self.FRAME)) for at in (1.4, 2.5, 3.5)]
        steps = Clocked(1).steps([*before, write, *reads])
        told = [step.opcode for step in steps][len(before) :]
        self.assertEqual(told, [FRAME, PUT, IN, FRAME, IN, IN, ADVANCE])

    def test_what_is_written_as_a_frame_ends_shows_in_the_next(self) -> None:
        # 95 characters of 8 dots in 265 lines, of 25,175,000 dots a second, last 8 milliseconds.
        dots = 95 * 8 * 265
        shape = [
            TraceStep(OUT, 0x3C2, 0x63),
            *(TraceStep(OUTW, *word) for word in ((0x3C4, 0x0101), (0x3D4, 0x5A00))),
            *(TraceStep(OUTW, 0x3D4, word) for word in (0x0706, 0x0107)),
        ]
        times = (0, 7999, 8000, 15999, 24000, 32000)
        writes = [TraceStep(PUT, 0xA0000, number, time) for number, time in enumerate(times)]
        steps = Clocked(1).steps([*shape, *writes])
        frame = (FRAME, 0)
        told = [step[:2] if step.opcode in (ADVANCE, FRAME) else step.value for step in steps]
        wanted = [0, 1, frame, 2, 3, frame, 4, (ADVANCE, dots), frame, 5]
        self.assertEqual(told[len(shape) :], wanted)

    def test_long_silences_are_cut_and_told(self) -> None:
        frames, clocked = self.frames(1, (), 1.2, 701.2, 702.5)
        self.assertEqual(clocked.shortened, 1)
        self.assertAlmostEqual(clocked.left_out, 700 * self.FRAME / 1e6 - 1, delta=0.02)
        self.assertEqual(sum(dots for _, dots in frames) // self.DOTS, 69)
        advances = {dots for opcode, dots in frames if opcode == ADVANCE}
        self.assertEqual(advances, {16_777_216, 69 * self.DOTS % 16_777_216})

    def beamed(self, *steps: TraceStep, longest: float = 1) -> list[tuple[int, int]]:
        """The frames, the dots that pass, and the writes to the DAC, of steps after those that set
        the shape of text, whose retrace begins in line 412."""
        before = [*registers(0x67, 0), TraceStep(OUTW, 0x3D4, 0x9C10)]
        given = [*(step._replace(time=0) for step in before), *steps]
        kinds = (ADVANCE, FRAME, IN)
        return [
            step[:2]
            for step in Beamed(longest).steps(given)
            if step.opcode in kinds or step.address == 0x3C9
        ]

    def test_what_is_written_within_a_frame(self) -> None:
        line = 900 / 28.322
        colour, poll, frame = (OUT, 0x3C9), (IN, 0x3DA), (FRAME, 0)

        def wait(*polls: tuple[int, int]) -> list[TraceStep]:
            return [TraceStep(IN, 0x3DA, value, time) for time, value in polls]

        def write(time: float) -> TraceStep:
            return TraceStep(OUT, 0x3C9, 0, round(time))

        # By the time alone, and where the poll before has found that the retrace begins.
        self.assertEqual(self.beamed(write(1000)), [(ADVANCE, 28322), colour])
        retrace = 412 * 900
        for polls in (((900, 0), (990, 1), (1000, 8)), ((900, 9), (990, 0), (1000, 9))):
            found = self.beamed(*wait(*polls), write(1000))
            self.assertEqual(found, [poll, (ADVANCE, retrace), colour], polls)
        # A poll that finds the retrace after other steps, or again, tells no begin.
        found = self.beamed(*wait((0, 0)), write(0), *wait((1000, 8), (1001, 8)), write(1001))
        self.assertEqual(found, [poll, colour, poll, (ADVANCE, 28350), colour])
        # A frame ends where something was written in it, and the beam goes on.
        edge = wait((999, 0), (1000, 8))
        later = 1000 + (449 - 412 + 100) * line
        found = self.beamed(*edge, write(1000), write(later), write(later + 449 * 2 * line))
        self.assertEqual(found[:4], [poll, (ADVANCE, retrace), colour, frame])
        self.assertAlmostEqual(found[4][1], 100 * 900, delta=30)
        self.assertEqual(found[5:7], [colour, frame])
        # So many dots of a frame in which nothing is written, and then of the one under way.
        self.assertEqual(found[7], (ADVANCE, 449 * 900))
        self.assertAlmostEqual(found[8][1], 100 * 900, delta=60)
        # The beam isn't set back: by a little it stays, and else it goes on to the next retrace.
        on: list[tuple[int, int]] = [frame, (ADVANCE, retrace)]
        for lines_before, wanted in ((415, on[:0]), (444, on)):
            time = round(lines_before * line)
            edge = wait((time, 0), (time + 1, 8))
            found = self.beamed(write(time), *edge, write(time + 1))
            self.assertEqual(found[2:], [poll, *wanted, colour])

    def test_a_retrace_below_line_512(self) -> None:
        # 578 lines, whose retrace begins in line 528: both are more than nine bits.
        tall = [TraceStep(OUTW, 0x3D4, word, 0) for word in (0x4006, 0xA007, 0x1010)]
        polls = [TraceStep(IN, 0x3DA, value, 900 + value) for value in (0, 8)]
        found = self.beamed(*tall, *polls, TraceStep(OUT, 0x3C9, 0, 908))
        self.assertEqual(found[-2:], [(ADVANCE, 528 * 900), (OUT, 0x3C9)])

    def test_the_beam_of_a_mode_that_a_call_sets(self) -> None:
        # Mode 0D, whose retrace begins in line 412. Overflow, written for a split, leaves that.
        mode = TraceStep(INT, time=0, call=Call((0x0D, 0, 0, 0), b""))
        split = [TraceStep(OUTW, 0x3D4, word, 0) for word in (0x0E11, 0x0F07)]
        for steps in ([mode], [mode, *split]):
            polls = [TraceStep(IN, 0x3DA, value, 13_000 + value) for value in (0, 8)]
            found = self.beamed(*steps, *polls, TraceStep(OUT, 0x3C9, 0, 13_008))
            self.assertEqual(found[-2:], [(ADVANCE, 412 * 400), (OUT, 0x3C9)])

    def test_long_silences_within_frames_are_cut(self) -> None:
        beamed = Beamed(0.5)
        before = [step._replace(time=0) for step in registers(0x67, 0)]
        steps = list(beamed.steps([*before, TraceStep(OUT, 0x3C9, 0, 3_000_000)]))
        self.assertEqual((beamed.shortened, beamed.left_out), (1, 2.5))
        dots = sum(step.address for step in steps if step.opcode == ADVANCE)
        self.assertEqual(dots, 28_322_000 // 2)

    def test_a_silence_as_long_as_may_be_is_not_cut(self) -> None:
        before = [step._replace(time=0) for step in registers(0x67, 0)]
        for time, cut in ((500_000, 0), (500_001, 1)):
            beamed = Beamed(0.5)
            list(beamed.steps([*before, TraceStep(OUT, 0x3C9, 0, time)]))
            self.assertEqual(beamed.shortened, cut)

    def test_what_is_left_out_of_two_silences(self) -> None:
        clocked = self.frames(1, (), 1.2, 701.2, 702.5, 1402.5, 1403.9)[1]
        self.assertEqual(clocked.shortened, 2)
        self.assertAlmostEqual(clocked.left_out, 2 * (700 * self.FRAME / 1e6 - 1), delta=0.04)
        beamed = Beamed(0.5)
        before = [step._replace(time=0) for step in registers(0x67, 0)]
        writes = [TraceStep(OUT, 0x3C9, 0, time) for time in (3_000_000, 3_000_100, 7_000_100)]
        list(beamed.steps([*before, *writes]))
        self.assertEqual((beamed.shortened, beamed.left_out), (2, 2.5 + 3.5))

    def test_where_the_beam_goes_on(self) -> None:
        colour, line = (OUT, 0x3C9), 900 / 28.322

        def write(time: float) -> TraceStep:
            return TraceStep(OUT, 0x3C9, 0, round(time))

        # No dots pass while the time runs back.
        found = self.beamed(write(1000), write(400), write(900))
        self.assertEqual(found, [(ADVANCE, 28322), colour, colour, (ADVANCE, 14161), colour])
        # Polls of two ports tell no begin of the retrace.
        polls = [TraceStep(IN, 0x3BA, 0, 990), TraceStep(IN, 0x3DA, 8, 1000)]
        found = self.beamed(*polls, write(1000))
        self.assertEqual(found, [(IN, 0x3BA), (ADVANCE, 28322), colour])
        # A beam that stays is not set back for what comes later either.
        time = round(415 * line)
        edge = [TraceStep(IN, 0x3DA, value, time + value // 8) for value in (0, 8)]
        found = self.beamed(write(time), *edge, write(time + 1), write(time + 1 + 10 * line))
        self.assertAlmostEqual(found[-2][1], 10 * 900, delta=60)
        # A retrace that begins below the frame tells nothing.
        edge = [TraceStep(IN, 0x3DA, value, 14_000 + value) for value in (0, 8)]
        found = self.beamed(TraceStep(OUTW, 0x3D4, 0xFF10, 0), *edge, write(14_008))
        self.assertEqual(found[-2:], [(ADVANCE, int(14_008 * 28.322)), colour])

    def test_pictures_of_a_beam(self) -> None:
        want_program()
        text = BEGIN + b"".join(
            b"%d w p %s 2\n" % (10, words)
            for words in (b"3D4 5F00", b"3D4 BF06", b"3D4 1F07", b"3D4 4F01", b"3D4 8F12")
        )
        # The overscan's colour changes within the frame.
        text += b"".join(
            b"%d w p %s 1\n" % (time, words)
            for time, words in (
                (20, b"3C8 0"),
                (3000, b"3C9 3F"),
                (3001, b"3C9 0"),
                (3002, b"3C9 0"),
            )
        )
        text += b"40000 r p 3DA 0 1\n"
        trace = self.write("trace", text)
        sizes = []
        for option in ((), ("--beam",)):
            folder = self.folder / f"pictures{len(option)}"
            status, _, said = run("pictures", trace, folder, *option)
            self.assertEqual(status, 0, said)
            sizes.append(max(len({*png_rows(path.read_bytes())[2]}) for path in folder.iterdir()))
        self.assertEqual(sizes, [1, 3])

    def test_pictures_and_moving_pictures(self) -> None:
        trace = self.write(
            "trace", BEGIN + b"20000 w m A0000 1 1\n40000 w m A0000 2 1\n5040000 w m A0000 3 1\n"
        )
        small, large = ppm(2, 1, RED + WHITE), ppm(4, 3, BLACK * 12)
        moving, folder = self.folder / "moving.png", self.folder / "pictures"
        with drawing(small, small, large, large):
            status, out, said = run("pictures", trace, folder, "--apng", moving)
        told = "1 silence cut to 1 s, and 4.0 s left out so"
        self.assertEqual((status, said), (0, f"zaklimot: warning: {trace}: {told}\n"))
        lines = out.decode().splitlines()
        self.assertEqual(lines[-1].rpartition(": ")[2], "2 pictures, 1.057 seconds")
        self.assertEqual(
            [Path(line).name for line in lines[:-1]], ["00000.000.png", "00000.029.png"]
        )
        data = moving.read_bytes()
        self.assertEqual(struct.unpack_from(">II", data, 16), (4, 3))
        delays = [
            struct.unpack_from(">HH", data, found.end() + 20)
            for found in re.finditer(b"fcTL", data)
        ]
        self.assertEqual([part for _, part in delays], [50_000, 100])
        (length,) = struct.unpack_from(">I", data, data.index(b"IDAT") - 4)
        rows = zlib.decompress(data[data.index(b"IDAT") + 4 :][:length])
        self.assertEqual(rows, 3 * (b"\0" + 2 * b"\xff\0\0" + 6 * b"\xff"))

    def test_a_font_file_that_is_none(self) -> None:
        fonts = self.write("fonts", b"x")
        words = ("pictures", self.write("trace", BEGIN), self.folder / "pictures", "--fonts", fonts)
        hold_undone(self, run(*words), f"^zaklimot: {fonts}: ")


class Keeping(Folder):
    def test_one_that_a_signal_kept_from_its_start(self) -> None:
        with open(self.write("log", "w p 3C0\n"), "rb") as log:
            kept = Parts(self.folder)
            keeper = Keeper(log, kept)
            keeper.end()
            keeper.start()
            keeper.end()
            kept.close()
        self.assertEqual(gzip.decompress((self.folder / "trace.gz").read_bytes()), b"w p 3C0\n")

    def test_polls_are_counted_anew_in_each_frame(self) -> None:
        line = b"1@%d.000000:vga_std_read_io addr 0x3da val 0x0 size 1\n"
        # Two, three and one, each so many at one time.
        lines = b"".join(line % second for second in (1, 1, 2, 2, 2, 3))
        with open(self.write("log", lines), "rb") as log:
            into = Parts(self.folder)
            keeper = Keeper(log, into)
            with mock.patch.object(keeping, "CHUNK", len(line % 1)):
                keeper.run()
            into.close()
        self.assertEqual(keeper.frame_polls, 3)

    def test_where_parts_end_and_how_much_they_have(self) -> None:
        line = b"abcd\n"
        sizes = []
        for most, count in ((len(line), 3), (len(line) + 1, 2)):
            with mock.patch.object(parts, "PART_LINES", most):
                kept = Parts(self.folder)
                for _ in range(3):
                    kept.write(line)
                first = parts_of(self.folder)[0].stat().st_size
                self.assertEqual(len(parts_of(self.folder)), count)
                self.assertGreaterEqual(kept.kept, first)
                kept.close()
            sizes.append([path.stat().st_size for path in parts_of(self.folder)])
            self.assertEqual(kept.kept, sum(sizes[-1]))
            kept.drop()
            self.assertEqual(parts_of(self.folder), [])

    def test_a_last_line_without_an_end(self) -> None:
        lines = qemu("read 3da 0 1") * 3 + qemu("write 3c2 67 1")[:-1]
        with open(self.write("log", lines), "rb") as log:
            into = Parts(self.folder)
            Keeper(log, into, Folding()).run()
            into.close()
        kept = gzip.decompress((self.folder / "trace.gz").read_bytes())
        wanted = qemu("read 3da 0 1") + b"polls 2 of 'vga-trace'\n" + qemu("write 3c2 67 1")
        self.assertEqual(kept, wanted)

    def test_the_last_screen_has_as_much_room_again(self) -> None:
        full = "its trace has 10 bytes, as they are packed"
        for kept, told, is_lost in (
            (9, "", False),
            (10, full, False),
            (19, full, False),
            (20, full, True),
        ):
            into = mock.Mock(kept=kept)
            with open(self.write("log", "line\n"), "rb") as log:
                keeper = Keeper(log, into)
                with mock.patch.object(keeping, "MOST_KEPT", 10):
                    keeper.run()
            self.assertEqual((keeper.full, keeper.is_lost), (told, is_lost), kept)
            into.write.assert_called_once_with(b"line\n")

    def test_how_long_a_frame_is(self) -> None:
        """A sixtieth of a second, from its first line on, at either port."""
        line = (
            b"1@%d.%06d:memory_region_ops_read cpu 0 mr 0x1 addr 0x%s value 0x0 size 1 name 'v'\n"
        )
        for micros, count in ((0, 2), (16_666, 2), (16_667, 1), (-1, 1)):
            for port in (b"3da", b"3ba"):
                first, other = (
                    line % (at // 10**6, at % 10**6, port) for at in (10**6, 10**6 + micros)
                )
                with open(self.write("log", first + other), "rb") as log:
                    into = Parts(self.folder)
                    keeper = Keeper(log, into)
                    with mock.patch.object(keeping, "CHUNK", len(first)):
                        keeper.run()
                    into.close()
                self.assertEqual(keeper.frame_polls, count, (micros, port))

    def test_polls_with_a_beam_fold_within_its_retrace_and_outside(self) -> None:
        polls = [qemu(f"read 3da {value} 1") for value in "0110889001"]
        stays = {0: 3, 4: 2, 7: 2}
        wanted = b"".join(
            polls[at] + (b"polls %d of 'vga-trace'\n" % count) for at, count in stays.items()
        )
        folding = Folding(True)
        self.assertEqual(folding.folded(b"".join(polls)) + folding.end(), wanted)
        one_by_one = Folding(True)
        kept = b"".join(map(one_by_one.folded, polls))
        self.assertEqual(kept + one_by_one.end(), wanted)

    def test_parts_that_roll(self) -> None:
        lines = b"".join(b"line %d\n" % number for number in range(100))
        with mock.patch.object(parts, "PART_LINES", 200):
            kept = Parts(self.folder)
            for at in range(0, len(lines), 7):
                kept.write(lines[at : at + 7])
            kept.write(b"half")
            kept.close()
        paths = parts.parts_of(self.folder)
        names = ["trace.gz", "trace-0002.gz", "trace-0003.gz", "trace-0004.gz"]
        self.assertEqual([path.name for path in paths], names)
        read = [gzip.decompress(path.read_bytes()) for path in paths]
        self.assertEqual(b"".join(read), lines + b"half")
        self.assertTrue(all(one.endswith(b"\n") for one in read[:-1]))
        self.assertTrue(all(200 <= len(one) < 210 for one in read[:-1]))
        self.assertEqual(kept.kept, sum(path.stat().st_size for path in paths))

    def test_the_folder_of_a_recording_is_a_trace(self) -> None:
        with mock.patch.object(parts, "PART_LINES", 1):
            kept = Parts(self.folder)
            for line in (qemu("write 3c2 67 1"), qemu("write 3c4 302 2"), qemu("read 3cc 67 1")):
                kept.write(line)
            kept.close()
        words = ("convert", self.folder, self.folder / "script")
        status, output, said = run(*words)
        self.assertEqual((status, output.startswith(b"3 cycles, "), said), (0, True, ""))
        last = self.folder / "trace-0003.gz"
        last.write_bytes(last.read_bytes()[:-9])
        hold_undone(self, run(*words), "compressed bytes are damaged after this line")
        # A computer that stops leaves a last part that is cut: what stands before counts.
        with opened(str(self.folder), may_be_cut=True) as trace:
            self.assertIn(len(list(trace.cycles())), (2, 3))
        first = self.folder / "trace.gz"
        first.write_bytes(first.read_bytes()[:-9])
        with opened(str(self.folder), may_be_cut=True) as trace:
            self.assertIn("damaged", refused(list, trace.cycles()))
        hold_undone(self, run("convert", self.folder.parent, "-"), "the folder has no trace")

    def test_polls_are_folded_however_they_come(self) -> None:
        def poll(port: str, value: str) -> bytes:
            return qemu(f"read {port} {value} 1")

        other, mark = qemu("write 3c0 1 1"), SCREEN + b"\n"
        # What has other bits than those of the beam stays, and another port begins a row.
        rows = (
            (poll("3da", "0") * 5, poll("3da", "0") + TOLD % 4),
            (other, other),
            (poll("3da", "9"), poll("3da", "9")),
            (poll("3ba", "8") * 3, poll("3ba", "8") + TOLD % 2),
            (poll("3da", "30") * 2, poll("3da", "30") * 2),
            (poll("3da", "1") * 2, poll("3da", "1") + TOLD % 1),
            (mark, mark),
            (poll("3da", "1") * 9, poll("3da", "1") + TOLD % 8),
        )
        lines, wanted = (b"".join(row[at] for row in rows) for at in (0, 1))
        for size in (1, 2, 3, 7, 40):
            folding = Folding()
            each = lines.splitlines(True)
            kept = [
                folding.folded(b"".join(each[at : at + size])) for at in range(0, len(each), size)
            ]
            self.assertEqual(b"".join(kept) + folding.end(), wanted, size)
        for size in (1, 13, 100):
            with open(self.write("log", lines), "rb") as log:
                into = Parts(self.folder)
                keeper = Keeper(log, into, Folding())
                with mock.patch.object(keeping, "CHUNK", size):
                    keeper.run()
                into.close()
            read = gzip.decompress((self.folder / "trace.gz").read_bytes())
            self.assertEqual(read, wanted, size)
