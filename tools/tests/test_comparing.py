"""How two traces differ first: the names of registers, the pictures that stand for a while, and the
exit status. And what options make of the pictures and scripts of a trace."""

from __future__ import annotations

import contextlib
import io
from contextlib import ExitStack

from zaklimot.format import Picture
from zaklimot.commands.core.progress import Progress
from zaklimot.commands.script.words import FONTS
from zaklimot.commands.trace.comparing import Recording, ShownPicture, _compare_pictures, _drawn
from zaklimot.commands.trace.following import followed
from zaklimot.commands.trace.step import TraceStep

from .test_seeing import Seen
from .tools import Folder, hold, png_rows, ppm, want_library
from .tracing import BEGIN, drawing, registers


MODE = "0 int 3 0 0 0\n"
NO_MORE = ", and there are no more"
ALIKE = f"register writes: the first is equal{NO_MORE}"
SMALL, LARGE = ppm(2, 1, bytes(6)), ppm(4, 3, bytes(36))
# A letter, and after half a second another one.
STANDING = MODE + "1 w m B8000 41 1\n500001 w m B8000 42 1\n"


class Differences(Seen):
    def compare(self, one: str, other: str, *words: str) -> tuple[int, list[str]]:
        """The exit status, and the lines that compare two traces of these lines."""
        paths = [self.write(name, text) for name, text in (("one", one), ("other", other))]
        status, output, said = self.run_command("compare", *paths, *words)
        self.assertEqual(said, "")
        return status, output.replace(str(self.folder) + "/", "").splitlines()

    def test_either_difference_is_one(self) -> None:
        # A register that shows nowhere, and a picture by the same registers.
        status, lines = self.compare(MODE + "9 w p 3CE 0008 2\n", MODE + "9 w p 3CE 0108 2\n")
        told = [
            "register writes: the first is equal; write 2 differs",
            "  one: gfx 08 bit mask: 00, at 0.001",
            "  other: gfx 08 bit mask: 01, at 0.001",
            f"pictures: the first is equal{NO_MORE}",
        ]
        self.assertEqual((status, lines), (1, told))
        status, lines = self.compare(MODE + "9 w m B8000 41 1\n", MODE + "9 w m B8000 42 1\n")
        told = [ALIKE, "pictures: picture 1 differs", "  one: 720x400, at 0.001"]
        self.assertEqual((status, lines[:3]), (1, told))

    def test_indexes_are_no_registers(self) -> None:
        # One chooses a register twice, or another one before it.
        front = MODE + "1 r p 3DA 0 1\n"
        once = "2 w p 3C0 10 1\n3 w p 3C0 4 1\n4 w p 3D4 C 1\n5 w p 3D5 1 1\n"
        twice = "2 w p 3C0 11 1\n2 r p 3DA 0 1\n" + once.replace("4 w p", "4 w p 3D4 E 1\n4 w p")
        status, lines = self.compare(front + once, front + twice)
        self.assertEqual(
            (status, lines[0]), (0, f"register writes: the first 3 are equal{NO_MORE}")
        )

    def test_names_of_ports_and_calls(self) -> None:
        # The first difference ends it, so each name takes a comparison.
        for words, told in (
            ("w p 3C2 6{} 1", "misc: 6{}"),
            ("w p 3C7 0{} 1", "DAC index for reading: 0{}"),
            ("w p 3C8 0{} 1", "DAC index for writing: 0{}"),
            ("w p 3C6 F{} 1", "DAC mask: F{}"),
            ("w p 3C3 0{} 1", "port 3C3: 0{}"),
            ("int 1301 7 1 {} 41", "interrupt 10: 1301 0007 0001 000{} 41"),
        ):
            one, other = (f"- {words.format(value)}\n" for value in (3, 7))
            wanted = [
                f"  one: {told.format(3)}, at cycle 1",
                f"  other: {told.format(7)}, at cycle 1",
            ]
            lines = self.compare(one, other)[1]
            self.assertEqual(lines[:3], ["register writes: write 1 differs", *wanted])

    def test_the_palette_address_source_is_no_part_of_a_name(self) -> None:
        one, other = (f"- r p 3DA 0 1\n- w p 3C0 30 1\n- w p 3C0 {value} 1\n" for value in (4, 8))
        lines = self.compare(one, other)[1]
        self.assertEqual(
            lines[1:3],
            [
                "  one: attr 10 mode control: 04, at cycle 3",
                "  other: attr 10 mode control: 08, at cycle 3",
            ],
        )

    def test_pictures_that_stand_for_a_while(self) -> None:
        shorter = STANDING.replace("500001", "500000")
        status, lines = self.compare(STANDING, shorter)
        self.assertEqual(status, 1)
        first = ["  one: 720x400, at 0.001", "  other: 720x400, at 0.500"]
        self.assertEqual(lines[:4], [ALIKE, "pictures: picture 1 differs", *first])
        for still, told in (("0.6", "the first is equal"), ("0.4", "the first 2 are equal")):
            done = self.compare(STANDING, shorter, "--still", still)
            self.assertEqual(done, (0, [ALIKE, f"pictures: {told}{NO_MORE}"]))

    def test_writes_whose_time_is_not_known_are_of_the_time_before(self) -> None:
        # A letter that stands for five seconds, and behind it a write without a time.
        traces = (
            f"{MODE}500001 w m B8000 {letter} 1\n- w m B8002 43 1\n6000000 w m B8000 20 1\n"
            for letter in (41, 42)
        )
        status, lines = self.compare(*traces)
        wanted = [
            ALIKE,
            "pictures: the first is equal; picture 2 differs",
            "  one: 720x400, at 0.501",
            "  other: 720x400, at 0.501",
        ]
        self.assertEqual((status, lines[:4]), (1, wanted))

    def test_after_each_picture_all_blinks_as_before(self) -> None:
        want_library()
        # 32 frames, the drawn one among them, after which the cursor and blinking text are alike.
        shapes: list[list[TraceStep]] = [[], registers(0x67, 0)]
        for steps in shapes:
            follower = followed(steps, str(FONTS), Progress())
            begun = follower.card.beam()
            self.assertIsNotNone(_drawn(follower))
            self.assertEqual(follower.card.beam().frame, begun.frame)
            self.assertTrue(follower.card.peek().widths)

    def test_more_pictures_and_another_size(self) -> None:
        out = self.folder / "differing.png"
        words = ("--picture", str(out))
        longer = STANDING + "2000000 w m B8000 43 1\n"
        status, lines = self.compare(STANDING, longer, *words)
        told = [
            "pictures: the first 2 are equal; picture 3 differs",
            "  one: no more",
            "  other: 720x400, at 2.000",
        ]
        self.assertEqual((status, lines, out.exists()), (1, [ALIKE, *told], False))
        told = [told[0], "  one: 720x400, at 2.000", "  other: no more"]
        status, lines = self.compare(longer, STANDING, *words)
        self.assertEqual((status, lines, out.exists()), (1, [ALIKE, *told], False))
        status, lines = self.compare(MODE, "0 int 13 0 0 0\n", *words, "--scale", "2")
        told = ["  one: 720x400, at 0.000", "  other: 640x400, at 0.000", "differing.png"]
        self.assertEqual((status, lines[4:]), (1, told))
        self.assertEqual(png_rows(out.read_bytes())[:2], (1440, 800))

    def test_no_picture_is_written_where_none_differs(self) -> None:
        out = self.folder / "differing.png"
        status, lines = self.compare(MODE, MODE, "--picture", str(out))
        self.assertEqual((status, lines[1:]), (0, [f"pictures: the first is equal{NO_MORE}"]))
        self.assertFalse(out.exists())


class Shown(Folder):
    def told(self, one: list[ShownPicture], other: list[ShownPicture]) -> list[str]:
        """What is told of two recordings that show these pictures."""
        output = io.StringIO()
        both = [Recording("one", 1), Recording("other", 1)]
        with contextlib.redirect_stdout(output):
            _compare_pictures([iter(one), iter(other)], both, Progress(False))
        return output.getvalue().splitlines()

    def test_a_frame_without_a_picture_is_one_that_may_differ(self) -> None:
        shown = ShownPicture("0.100", Picture.of_dots(1, 1, bytes(3)))
        ragged = ShownPicture("0.200", None)
        differs = "pictures: {}picture {} differs".format
        first = "the first is equal; "
        hold(
            self,
            self.told,
            (
                ([ragged], [ragged], [f"pictures: the first is equal{NO_MORE}"]),
                (
                    [shown, ragged],
                    [shown],
                    [differs(first, 2), "  one: ragged, at 0.200", "  other: no more"],
                ),
                (
                    [ragged],
                    [shown],
                    [differs("", 1), "  one: ragged, at 0.200", "  other: 1x1, at 0.100"],
                ),
            ),
        )

    def test_of_frames_that_are_alike_the_first_is_shown(self) -> None:
        given = [None, None, SMALL, SMALL, None, LARGE]
        # Each write but the first comes long after the one before.
        writes = "".join(f"{at}000000 w m A0000 1 1\n" for at in range(len(given)))
        trace = self.write("one", BEGIN + writes.encode())
        with ExitStack() as stack, drawing(*given):
            shown = list(Recording(trace, 1).pictures(str(FONTS), stack))
        sizes = [None, "2x1", None, "4x3"]
        self.assertEqual([one.picture and one.picture.size for one in shown], sizes)
        self.assertEqual([one.told for one in shown], ["0.000", "2.000", "4.000", "5.000"])
