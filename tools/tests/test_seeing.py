"""What traces show at any moment: text, colours, glyphs, pages and planes; where a text is found,
and how two traces differ. A card tells all of it."""

from __future__ import annotations

import re
import shutil
import subprocess
import unittest
from pathlib import Path
from unittest import mock

from zaklimot.commands.core.progress import Progress
from zaklimot.commands.script.words import FONTS
from zaklimot.commands.trace.cells import TextScreen, code_page
from zaklimot.commands.trace.finding import Finder
from zaklimot.commands.trace.following import followed
from zaklimot.commands.trace.step import TraceStep
from zaklimot.commands.trace.trace import SCREEN, Call

from .tools import EXAMPLES, Folder, hold_refused, hold_undone, png_rows, run_tool, want_library
from .tracing import qemu


TYPED = EXAMPLES / "typed-line.trace"
LINE = "A program typed this, and a trace has kept it."
# Mode 3; a line of text by cells; a colour of the DAC; a second page, and then graphics.
CALLS = b"""0 int 0003 0 0 0
1 int 0100 0 2000 0
10 int 1301 1E 3 0105 414243
20 int 1010 7 150A 3F00
1000020 w m B8000 01 1
1000021 w m B8001 9C 1
2000000 int 0501 0 0 0
2000010 int 1301 107 2 203 5859
3000000 int 0013 0 0 0
"""
INT = 9


def call(*registers: int) -> TraceStep:
    """A call of interrupt 10."""
    return TraceStep(INT, call=Call(registers))


class Seen(Folder):
    """A test that runs the command on traces."""

    def setUp(self) -> None:
        super().setUp()
        want_library()
        self.calls = self.write("calls.trace", CALLS)

    def run_command(self, name: str, *words: str | Path) -> tuple[int, str, str]:
        """Exit status, output as text, and what is said."""
        command = (name,) if name == "compare" else ("trace", name)
        status, output, said = run_tool("zaklimot", *command, *words)
        return status, output.decode(), said

    def done(self, name: str, *words: str | Path) -> str:
        """The output of a command that does its work."""
        status, output, said = self.run_command(name, *words)
        self.assertEqual((status, said), (0, ""))
        return output


class Text(Seen):
    def test_the_line_that_was_typed(self) -> None:
        lines = self.done("text", TYPED).splitlines()
        self.assertEqual((len(lines), lines[12].strip()), (25, LINE))
        part = self.done("text", TYPED, "--at", "0.9").splitlines()[12].strip()
        self.assertTrue(0 < len(part) < len(LINE) and LINE.startswith(part), part)
        # Each of the three names the same moment.
        last = [self.done("text", TYPED, *words) for words in (["--cycle", "586"], ["--at", "9"])]
        self.assertEqual(last, ["\n".join(lines) + "\n"] * 2)
        count = len(list(re.finditer("png", self.done("pictures", TYPED, self.folder / "all"))))
        number = self.done("text", TYPED, "--picture", str(count)).splitlines()[12].strip()
        self.assertEqual(number, LINE)

    def test_moments_that_are_not_there(self) -> None:
        for words, told in (
            (["--cycle", "587"], "it has 586 cycles, and no cycle 587"),
            (["--screen", "1"], "`record` took 0 of its screens, and no screen 1"),
            (["--picture", "99"], r"it has 42 pictures, and no picture 99"),
        ):
            with self.subTest(words):
                hold_undone(self, self.run_command("text", TYPED, *words), told)
        untimed = self.write("untimed", b"- w p 3C2 67 1\n")
        one = self.write("one", b"0 int 3 0 0 0\n")
        for trace, words, told in (
            (untimed, ["--at", "1"], "its cycles have no times"),
            (untimed, ["--cycle", "2"], "it has 1 cycle, and no cycle 2"),
            (one, ["--picture", "2"], "it has 1 picture, and no picture 2"),
        ):
            hold_undone(self, self.run_command("text", trace, *words), told)
        hold_undone(
            self,
            self.run_command("text", "-", "--picture", "1"),
            "--picture reads the trace twice",
        )

    def test_screens_that_record_took(self) -> None:
        # A machine is asked six times for a screen, and writes meanwhile; the last screen is cut.
        words = ("3c4 302", "3c4 204", "3ce 1005", "3ce e06", "3ce ff08", "3d4 4f01")
        text = qemu("write 3c2 67 1") + b"".join(qemu(f"write {one} 2") for one in words)
        for at, marks in enumerate((1, 5, 1, 0)):
            text += qemu(f"write b800{2 * at} {0x41 + at:x} 1", "vga-lowmem")
            text += marks * (SCREEN + b"\n")
        log = self.write("log", text)
        for screen, wanted in (("1", "A"), ("2", "ABC")):
            self.assertEqual(self.done("text", log, "--screen", screen), f"{wanted}\n")
        told = "`record` took 2 of its screens, and no screen 3"
        hold_undone(self, self.run_command("text", log, "--screen", "3"), told)

    def test_pages_attributes_and_graphics(self) -> None:
        lines = self.done("text", self.calls, "--at", "1.5").splitlines()
        self.assertEqual((lines[0], lines[1]), ("\u263a", "     ABC"))
        other = self.done("text", self.calls, "--at", "2.5").splitlines()
        self.assertEqual((other[0], other[2]), ("", "   XY"))
        hold_undone(self, self.run_command("text", self.calls), "shows graphics then, and no text")
        told = self.done("text", self.calls, "--at", "1.5", "--form", "ansi").splitlines()
        # A blinking character of the attribute 9C, red on blue; and 1E, yellow on blue.
        self.assertIn("\x1b[0;38;2;255;85;85;48;2;0;0;170;5m\u263a", told[0])
        self.assertIn("\x1b[0;38;2;255;255;85;48;2;0;0;170mABC", told[1])
        page = self.done("text", self.calls, "--at", "1.5", "--form", "html")
        self.assertIn('<span style="color:#ffff55;background:#0000aa">ABC</span>', page)
        self.assertIn('<span class="blinks" style="color:#ff5555;background:#0000aa">', page)
        # The entry 07 is what a call has made it.
        entry = b"0 int 3 0 0 0\n1 int 1010 7 150A 3F00\n2 int 0E41 7 0 0\n"
        page = self.done("text", self.write("entry", entry), "--form", "html")
        self.assertIn('<span style="color:#ff5528;background:#000000">A', page)

    def test_html_has_no_tags_of_the_text(self) -> None:
        trace = self.write("tags", b"0 int 3 0 0 0\n1 int 1301 7 9 0 3C623E26223C2F703E\n")
        page = self.done("text", trace, "--form", "html")
        self.assertIn("&lt;b&gt;&amp;&quot;&lt;/p&gt;", page)

    def test_code_pages(self) -> None:
        trace = self.write("codes", b"0 int 3 0 0 0\n1 w m B8000 0780 2\n2 w m B8002 071B 2\n")
        for name, wanted in (("cp437", "\u00c7"), ("cp866", "\u0410"), ("latin-1", "\ufffd")):
            line = self.done("text", trace, "--code-page", name).splitlines()[0]
            self.assertEqual(line, wanted + "\u2190", name)
        hold_refused(
            self,
            code_page,
            (
                ("no-such", "there is no code page `no-such`: `cp437` is one"),
                ("utf-16", "`utf-16` is no code page of 256 characters"),
                ("cp037", "`cp037` is no code page of 256 characters"),
                ("base64", "there is no code page `base64`"),
            ),
        )

    def test_a_wrong_trace(self) -> None:
        for data, told in (
            (b"", "it has no cycle, neither of qemu's log nor of the plain form"),
            (b"\x1f\x8b\x08 cut", "compressed bytes are damaged|ended before"),
            (b"0 w p 3C2 67", "it has no cycle"),
            (b"0 w p 3C2 67 1\nnonsense\n", ":2: it is no cycle"),
        ):
            with self.subTest(data):
                trace = self.write("wrong", data)
                for words in (("text", trace), ("pictures", trace, "--png", "-")):
                    hold_undone(self, self.run_command(*words), told)
        # It is told by the name that was typed.
        for words in (("text", "none"), ("pictures", "none", "--png", "-")):
            hold_undone(
                self, self.run_command(*words), "^zaklimot: none: No such file or directory$"
            )


class Cells(unittest.TestCase):
    def test_cells_are_those_that_the_card_shows(self) -> None:
        for calls in (
            [(0x0003, 0, 0, 0), (0x0502, 0, 0, 0), (0x0942, 0x0217, 5, 0)],
            [(0x0003, 0, 0, 0), (0x1112, 0, 0, 0), (0x0200, 0, 0, 0x3100), (0x0942, 0x17, 5, 0)],
            [(0x0007, 0, 0, 0), (0x1111, 0, 0, 0), (0x0942, 0x17, 5, 0)],
        ):
            follower = followed([call(*one) for one in calls], str(FONTS), Progress())
            cells = TextScreen(follower, "trace").cells()
            self.assertEqual([[*row] for row in cells], follower.card.cells())

    def test_rows_of_a_split_screen(self) -> None:
        # Below line 159 memory begins anew, at an odd offset of rows.
        steps = (
            call(0x0003, 0, 0, 0),
            *(TraceStep(6, 0xB8000 + 2 * at, 0x700 | 0x30 + at // 80 % 10) for at in range(2000)),
            *(TraceStep(2, 0x3D4, word) for word in (0x000C, 0xA00D, 0x0F07, 0x9F18, 0x0F09)),
        )
        screen = TextScreen(followed(steps, str(FONTS), Progress()), "trace")
        rows = screen.text(code_page("cp437"))
        self.assertEqual([row[0] for row in rows][:13], list("2345678901012"))
        # The card goes on, and is asked anew.
        for step in (call(0x0003, 0, 0, 0), call(0x0E41, 7, 0, 0)):
            screen.follower.take(step)
        self.assertEqual(
            [row.strip() for row in screen.text(code_page("cp437"))], ["A"] + 24 * [""]
        )


class Files(Seen):
    def test_a_screen_has_the_shape_of_a_monitor(self) -> None:
        out = self.folder / "out.png"
        self.done("pictures", TYPED, "--png", out, "--aspect", "--scale", "2")
        self.assertEqual(png_rows(out.read_bytes())[:2], (1440, 1080))

    def test_a_moment_has_one_picture(self) -> None:
        told = "^zaklimot: --png writes one picture: without a folder, --apng, --video, --beam"
        for words in (("--apng", "o"), ("o",), ("--beam",), ("--to", "9"), ("--from", "2")):
            hold_undone(self, self.run_command("pictures", TYPED, "--png", "p", *words), told)
        done = self.run_command("pictures", TYPED, "folder", "--at", "1")
        hold_undone(self, done, "^zaklimot: --at is for --png, which writes the picture of one")


class Found(Seen):
    def test_when_and_where(self) -> None:
        lines = self.done("text", self.calls, "--find", "BC").splitlines()
        self.assertEqual(lines, [" seconds  row  column  text", "   0.001    1       6  ABC"])
        self.assertEqual(
            self.done("text", self.calls, "--find", "xy", "--any-case").splitlines()[1],
            "   2.001    2       3  XY",
        )
        status, output, said = self.run_command("text", self.calls, "--find", "xy")
        wanted = f"{self.calls}: no screen of text shows it\n"
        self.assertEqual((status, output, said), (1, wanted, ""))
        told = self.done("text", TYPED, "--find", "typed this").splitlines()[1]
        at = told.split()[0]
        self.assertIn("typed this", self.done("text", TYPED, "--at", at))
        self.assertEqual(told.split()[1:3], ["12", "27"])

    def test_what_is_no_question(self) -> None:
        self.assertEqual(self.run_command("text", TYPED, "--find", " ")[0], 2)
        untimed = self.write("untimed", b"- w p 3C2 67 1\n")
        hold_undone(
            self, self.run_command("text", untimed, "--find", "a"), "the first cycle has no time"
        )

    def test_bytes_and_words_of_memory(self) -> None:
        for size, values in ((1, ("48", "49")), (2, ("0748", "0749"))):
            lines = [b"0 int 3 0 0 0\n20000 w p 3C9 7 1\n"]
            for at, value in enumerate(values):
                time, address = 40_000 * (at + 1), 0xB8F00 + 2 * at
                lines.append(f"{time} w m {address:X} {value} {size}\n".encode())
            trace = self.write("memory", b"".join(lines))
            told = self.done("text", trace, "--find", "HI").splitlines()[1]
            self.assertEqual(told.split(), ["0.080", "24", "0", "HI"], size)

    def test_a_word_across_two_blocks(self) -> None:
        # The attribute of the cell before, and a letter in the next block of 256 bytes.
        word = b"0 int 3 0 0 0\n20000 w p 3C9 7 1\n40000 w m B80FF 4807 2\n"
        told = self.done("text", self.write("across", word), "--find", "H").splitlines()[1]
        self.assertEqual(told.split(), ["0.040", "1", "48", "H"])

    def test_many_places(self) -> None:
        text = b"".join(b"%d int 0E41 7 0 0\n" % (20_000 * at) for at in range(1, 9))
        trace = self.write("many", b"0 int 3 0 0 0\n" + text)
        lines = self.done("text", trace, "--find", "A", "--most", "3").splitlines()
        self.assertEqual((len(lines), lines[-1]), (5, "5 more"))
        self.assertEqual([line.split()[2] for line in lines[1:4]], ["0", "1", "2"])

    def test_what_was_there_before_is_not_told_again(self) -> None:
        for screens, wanted in (
            # It scrolls, and goes on behind the text.
            ([["", "a b"], ["a b", ""], ["a b c", ""]], [(0, 1, 2)]),
            # A second one of the same row, and one that was gone for a while.
            ([["a b"], ["a b", "a b"]], [(0, 0, 2), (1, 1, 2)]),
            ([["a b"], [""], ["a b"]], [(0, 0, 2), (2, 0, 2)]),
            ([["b b"]], [(0, 0, 2), (0, 0, 0)]),
        ):
            finder = Finder("b", False)
            found = [
                (number, one.row, one.column)
                for number, rows in enumerate(screens)
                for one in finder.take(rows, "")
            ]
            self.assertEqual(found, wanted)


class Compared(Seen):
    def compare(self, one: str, other: str, *words: str) -> tuple[int, list[str]]:
        """The exit status, and the lines that compare two traces of these lines."""
        paths = [self.write(name, text) for name, text in (("one", one), ("other", other))]
        status, output, said = self.run_command("compare", *paths, *words)
        self.assertEqual(said, "")
        return status, output.replace(str(self.folder) + "/", "").splitlines()

    def test_cycles_and_polls_make_no_difference(self) -> None:
        one = "0 int 3 0 0 0\n5 w p 3C4 0302 2\n6 r p 3DA 0 1\n7 r p 3DA 1 1\n8 w m B8000 741 2\n"
        other = (
            "0 int 3 0 0 0\n50 w p 3C4 02 1\n60 w p 3C5 03 1\n9000000 w m B8000 41 1\n"
            "9000001 w m B8001 7 1\n"
        )
        status, lines = self.compare(one, other, "--still", "20")
        wanted = [
            "register writes: the first 2 are equal, and there are no more",
            "pictures: the first is equal, and there are no more",
        ]
        self.assertEqual((status, lines), (0, wanted))

    def test_the_first_register_and_the_first_picture(self) -> None:
        front = "0 int 3 0 0 0\n1 w p 3C4 0302 2\n"
        one = front + "2 w p 3D4 000C 2\n3 w m B8000 41 1\n1000000 w m B8002 42 1\n"
        other = (
            front
            + "9 w p 3D4 010C 2\n9 w p 3D4 000C 2\n10 w m B8000 41 1\n1000009 w m B8002 43 1\n"
        )
        out = self.folder / "differing.png"
        status, lines = self.compare(one, other, "--picture", str(out))
        self.assertEqual(status, 1)
        self.assertEqual(
            lines[:5],
            [
                "register writes: the first 2 are equal; write 3 differs",
                "  one: crtc 0C start address high: 00, at 0.001",
                "  other: crtc 0C start address high: 01, at 0.001",
                "pictures: the first is equal; picture 2 differs",
                "  one: 720x400, at 1.000",
            ],
        )
        self.assertRegex(lines[6], r"^  \d+ of 288000 dots differ, the first is dot 9 of row 2:")
        self.assertEqual(lines[7], "differing.png")
        self.assertEqual(png_rows(out.read_bytes())[:2], (720, 400))

    def test_one_that_ends_before_the_other(self) -> None:
        status, lines = self.compare("0 int 3 0 0 0\n", "0 int 3 0 0 0\n1 w p 3C9 7 1\n")
        self.assertEqual(status, 1)
        self.assertEqual(lines[1:3], ["  one: no more", "  other: DAC component: 07, at 0.001"])

    def test_names_of_what_is_written(self) -> None:
        text = "0 w p 3C2 67 1\n1 r p 3DA 0 1\n2 w p 3C0 10 1\n3 w p 3C0 {} 1\n4 w p 3CF {} 1\n"
        for values, told in (
            (("04", "05"), "attr 10 mode control: "),
            (("04", "04"), "gfx 00 set/reset: "),
        ):
            one, other = text.format(values[0], "1"), text.format(values[1], "2")
            self.assertIn(f"  one: {told}", self.compare(one, other)[1][1])

    def test_standard_input_is_read_once(self) -> None:
        hold_undone(self, self.run_command("compare", TYPED, "-"), "each trace is read twice")


class Videos(Seen):
    def test_what_makes_none(self) -> None:
        words = ("pictures", TYPED, "--video")
        hold_undone(self, self.run_command(*words, "a.avi"), r"a video's name ends in \.mp4 or")
        self.patch(mock.patch.dict("os.environ", PATH=str(self.folder)))
        told = "ffmpeg: it is not in the path: install the package ffmpeg. Without it --apng FILE"
        hold_undone(self, self.run_command(*words, str(self.folder / "a.mp4")), told)

    @unittest.skipUnless(shutil.which("ffmpeg"), "ffmpeg is not here")
    def test_a_video_lasts_as_long(self) -> None:
        video = self.folder / "a.mp4"
        told = self.done("pictures", TYPED, "--video", video)
        self.assertEqual(told, f"{video}: 42 pictures, 2.855 seconds\n")
        words: list[str | Path] = [
            "ffprobe",
            "-v",
            "error",
            "-show_entries",
            "format=duration",
            video,
        ]
        probed = subprocess.run(words, check=True, capture_output=True, text=True).stdout
        found = re.search(r"duration=([0-9.]+)", probed)
        assert found is not None
        self.assertAlmostEqual(float(found[1]), 2.855, delta=0.02)
