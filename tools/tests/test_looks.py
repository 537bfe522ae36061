"""How traces show a moment: text with its colours, palettes, fonts, planes and pictures, and which
moment an option names."""

from __future__ import annotations

import unittest
from pathlib import Path

from zaklimot.commands.trace.cells import code_page
from zaklimot.commands.trace.finding import found_in

from .test_seeing import Seen
from .tools import hold, hold_undone, png_rows, run_tool, takes_long, want_library
from .tracing import text_screen


# Mode 7, whose characters have the attributes 01, 81, 09 and 07; and mode 3 without blinking.
MONOCHROME = b"""0 int 0007 0 0 0
1 w m B0000 0141 2
2 w m B0002 8142 2
3 w m B0004 0943 2
4 w m B0006 0744 2
"""
BRIGHT = b"0 int 0003 0 0 0\n1 int 1003 0 0 0\n2 w m B8000 9C41 2\n"
# Mode 3 with two fonts: characters whose attribute has bit 3 have map 1, and the others map 2. The
# second line of glyph 41 is A1 in map 1, and A2 in map 2.
TWO_FONTS = b"""0 int 0003 0 0 0
1 w p 3C4 0402 2
1 w p 3C4 0604 2
1 w p 3CE 0005 2
1 w p 3CE 0406 2
2 w m A4821 A1 1
2 w m A8821 A2 1
3 w p 3C4 0603 2
4 w p 3CE 1005 2
4 w p 3CE 0E06 2
4 w p 3C4 0302 2
4 w p 3C4 0204 2
"""
# What a font of ten lines has before its glyphs.
HEAD_OF_TEN = """STARTFONT 2.1
FONT -zaklimot-map0-medium-r-normal--10-100-75-75-c-80-iso10646-1
SIZE 10 75 75
FONTBOUNDINGBOX 8 10 0 -2
STARTPROPERTIES 9
FONT_ASCENT 8
FONT_DESCENT 2
PIXEL_SIZE 10
POINT_SIZE 100
SPACING "C"
AVERAGE_WIDTH 80
CHARSET_REGISTRY "ISO10646"
CHARSET_ENCODING "1"
DEFAULT_CHAR 32
ENDPROPERTIES
CHARS 255""".splitlines()


class Forms(Seen):
    def form(self, data: bytes, form: str) -> list[str]:
        """The lines of a trace's text in a form."""
        return self.done("text", self.write("trace", data), "--form", form).splitlines()

    def test_underlined_and_blinking_text(self) -> None:
        grey, white = "170;170;170", "255;255;255"
        front = "\x1b[0;38;2;{};48;2;0;0;0{}m".format
        parts = ((grey, ";4", "A"), (grey, ";5;4", "B"), (white, ";4", "C"), (grey, "", "D"))
        line = "".join(front(colour, more) + text for colour, more, text in parts)
        # The row is whole, and the colours end with it.
        rows = self.form(MONOCHROME, "ansi")
        self.assertEqual(rows[0], line + 76 * " " + "\x1b[0m")
        self.assertEqual(rows[1:], 24 * [front(grey, "") + 80 * " " + "\x1b[0m"])
        page = self.form(MONOCHROME, "html")
        style = 'style="color:#{};background:#000000">{}</span>'.format
        grey, white = "aaaaaa", "ffffff"
        told = (
            ("underlined", grey, "A"),
            ("blinks underlined", grey, "B"),
            ("underlined", white, "C"),
        )
        spans = [f'<span class="{names}" {style(colour, text)}' for names, colour, text in told]
        at = page.index("<pre>") + 1
        self.assertEqual(page[at], "".join(spans) + f"<span {style(grey, 'D' + 76 * ' ')}")
        self.assertEqual(page[at + 25 :], ["</pre>", "</body>", "</html>"])

    def test_which_characters_are_underlined(self) -> None:
        underlined = {0x01, 0x09, 0x81, 0x89}
        # A cell of each attribute; of 16 lines each.
        shape = {0: 0x5F, 1: 0x4F, 6: 0xBF, 7: 0x1F, 9: 0x4F, 0x12: 0x8F, 0x13: 0x28, 0x17: 0xA3}
        cells = [0] * 512
        cells[::2] = [attribute << 8 | 0x41 for attribute in range(256)]
        for control, scan, wanted in (
            (0x02, 0x0F, underlined),
            (0x0A, 0x00, underlined),
            # Not below the last line of a character, and not in colour.
            (0x02, 0x10, set()),
            (0x00, 0x0F, set()),
        ):
            screen = text_screen({**shape, 0x14: scan, 0x18: 0xFF}, cells)
            card = screen.follower.card
            for value in (0x30, control):
                card.out(0x3C0, value)
            found = {code for code, look in screen.looks().items() if look.is_underlined}
            self.assertEqual(found, wanted, (control, scan))

    def test_a_bright_background_where_nothing_blinks(self) -> None:
        look = "\x1b[0;38;2;255;85;85;48;2;85;85;255mA\x1b"
        self.assertTrue(self.form(BRIGHT, "ansi")[0].startswith(look))
        span = '<span style="color:#ff5555;background:#5555ff">A</span>'
        self.assertIn(span, "".join(self.form(BRIGHT, "html")))

    def test_a_page_is_called_as_its_trace(self) -> None:
        trace = self.write("a&b.trace", BRIGHT)
        page = self.done("text", trace, "--form", "html").splitlines()
        self.assertIn(f"<title>{self.folder}/a&amp;b.trace</title>", page)
        self.assertEqual((page[0], page[3]), ("<!DOCTYPE html>", '<meta charset="utf-8">'))

    def test_a_file_of_text(self) -> None:
        out = self.folder / "out.txt"
        self.assertEqual(self.done("text", self.calls, out, "--at", "1.5"), "")
        told = self.done("text", self.calls, "--at", "1.5")
        self.assertEqual(out.read_text("utf-8"), told)
        # The rows are all there, without the blanks at their ends.
        self.assertEqual(told.split("\n"), ["\u263a", 5 * " " + "ABC", *24 * [""]])

    def test_codes_without_letters_of_their_own(self) -> None:
        words = ((0, "077F"), (2, "07FF"), (4, "0700"), (6, "0715"), (8, "071F"), (10, "0741"))
        lines = "".join(f"1 w m {0xB8000 + at:X} {word} 2\n" for at, word in words)
        trace = self.write("codes", "0 int 3 0 0 0\n" + lines)
        self.assertEqual(self.done("text", trace).split("\n")[0], "\u2302\xa0 \u00a7\u25bcA")


@takes_long
class Moments(Seen):
    def rows(self, *words: str) -> str:
        """The text that is shown at a moment, without the ends of its rows."""
        return self.done("text", self.moving, *words).replace("\n", "")

    def setUp(self) -> None:
        super().setUp()
        letters = enumerate(b"ABCBB")
        cells = b"".join(b"%d w m B8000 %X 1\n" % (100_000 * at + 5, one) for at, one in letters)
        front = b"0 int 0003 0 0 0\n1 int 0100 0 2000 0\n2 r p 3DA 0 1\n3 r p 3DA 0 1\n"
        self.moving = self.write("moving", front + cells)

    def test_the_cycle_of_a_second_counts(self) -> None:
        hold(
            self,
            self.rows,
            (
                ("--at", "0.000004", ""),
                ("--at", "0.000005", "A"),
                ("--at", "0.100004", "A"),
                ("--at", "0.100005", "B"),
                ("--at", "0.2", "B"),
                ("--at", "99", "B"),
                # Polls are cycles too.
                ("--cycle", "1", ""),
                ("--cycle", "4", ""),
                ("--cycle", "5", "A"),
                ("--cycle", "7", "C"),
            ),
        )

    def test_seconds_are_those_after_the_first_cycle(self) -> None:
        self.write(
            "later", b"5000000 int 3 0 0 0\n5000001 w m B8000 41 1\n6000000 w m B8000 42 1\n"
        )
        later = self.folder / "later"
        for at, wanted in (("0.5", "A"), ("1", "B")):
            self.assertEqual(self.done("text", later, "--at", at)[:1], wanted)

    def test_each_picture_is_that_of_pictures(self) -> None:
        names = self.done("pictures", self.moving, self.folder / "all").splitlines()
        # A letter that is written again makes no other picture.
        self.assertEqual(len(names), 4)
        for number, (name, wanted) in enumerate(zip(names, "ABCB"), 1):
            words = ("--picture", str(number))
            self.assertEqual(self.rows(*words), wanted)
            out = self.folder / "one.png"
            self.assertEqual(self.done("pictures", self.moving, "--png", out, *words), f"{out}\n")
            self.assertEqual(png_rows(out.read_bytes()), png_rows(Path(name).read_bytes()), number)
        told = "it has 4 pictures, and no picture 5"
        hold_undone(self, self.run_command("text", self.moving, "--picture", "5"), told)

    def test_a_screen_of_the_pages_machine(self) -> None:
        # It tells its dots, and has one dump of a screen.
        cells = (
            "0+0 int 3 0 0 0\n1+9 w m B8000 41 1\n9+99 frame\n10+9 w m B8000 42 1\n19+99 frame\n"
        )
        trace = self.write("own", cells + "20+9 w m B8000 43 1\n")
        for number, wanted in (("1", "A"), ("2", "B")):
            self.assertEqual(self.done("text", trace, "--screen", number).strip(), wanted)
        told = "`record` took 2 of its screens, and no screen 3"
        hold_undone(self, self.run_command("text", trace, "--screen", "3"), told)
        self.assertEqual(self.done("text", trace).strip(), "C")


class Rows(unittest.TestCase):
    """Rows of text whose cells have the last digit of their row in memory."""

    def setUp(self) -> None:
        want_library()

    # Text of 80 columns and 25 rows of 16 lines, in a frame of 449 lines.
    SHAPE = {0: 0x5F, 1: 0x4F, 6: 0xBF, 7: 0x1F, 9: 0x4F, 0x12: 0x8F, 0x13: 0x28, 0x14: 0x1F}
    ADDRESSED = {0x17: 0xA3, 0x18: 0xFF}

    def shown(self, **changed: int) -> list[str]:
        """The rows that are shown with other CRT controller's registers: `r09` is register 09."""
        numbers = {int(name[1:], 16): value for name, value in changed.items()}
        words = [0] * 80 * 100
        words[::2] = [0x0730 + cell // 80 % 10 for cell in range(80 * 50)]
        screen = text_screen({**self.SHAPE, **self.ADDRESSED, **numbers}, words)
        return list(screen.text(code_page("cp437")))

    def test_which_rows_of_memory_are_shown(self) -> None:
        tens = "0123456789"
        hold(
            self,
            lambda changed: "".join(row[0] for row in self.shown(**changed)),
            (
                ({}, tens + tens + "01234"),
                # Each line twice: twelve rows and a half.
                ({"r09": 0xCF}, tens + "012"),
                # The first row begins with its line 5, so that another one comes up.
                ({"r08": 5}, tens + tens + "012345"),
                ({"r0D": 80}, "123456789" + tens + "012345"),
                ({"r0C": 1}, "3456789" + tens + "01234567"),
                # Below line 26 memory begins anew, with a whole row.
                ({"r08": 5, "r07": 0x0F, "r09": 0x0F, "r18": 26}, "01" + tens + tens + "0123"),
                # No more lines than a frame has.
                ({"r07": 0x5F}, tens + tens + "012345678"),
            ),
        )

    def test_how_long_rows_are(self) -> None:
        self.assertEqual({len(row) for row in self.shown()}, {80})
        # Rows lie 80 cells apart all the same, or 40.
        rows = self.shown(r01=39)
        self.assertEqual((rows[:2], len(rows)), ([40 * "0", 40 * "1"], 25))
        rows = self.shown(r01=39, r13=20)
        self.assertEqual(rows[:3], [40 * "0", 40 * "0", 40 * "1"])


class Finding(Seen):
    def test_where_a_text_stands(self) -> None:
        hold(
            self,
            lambda rows, wanted, folds: list(found_in(rows, wanted, folds)),
            (
                # One may begin within another.
                (["aaa", "", "xaa"], "aa", False, [(0, 0), (0, 1), (2, 1)]),
                (["Aa", "aA"], "aa", False, []),
                (["Aa", "aA"], "AA", True, [(0, 0), (1, 0)]),
                # Some letters have two small ones.
                (["\u0130x", "\u00e9"], "X", True, [(0, 1)]),
                (["\u0130x", "\u00e9"], "\u00c9", True, [(1, 0)]),
                (["x\u0130X"], "\u0130x", True, [(0, 1)]),
                (["ab"], "abc", False, []),
            ),
        )

    def test_as_many_places_as_are_asked_for(self) -> None:
        text = b"0 int 3 0 0 0\n1 int 0100 0 2000 0\n"
        text += b"20000 w m B8000 0780 2\n40000 w m B8004 0780 2\n"
        trace = self.write("two", text)
        head, one = " seconds  row  column  text", "   0.020    0       0  \u0410"
        two = "   0.040    0       2  \u0410 \u0410"
        for most, wanted in ((1, [head, one, "1 more"]), (2, [head, one, two])):
            words = ("--most", str(most), "--code-page", "cp866")
            self.assertEqual(
                self.done("text", trace, "--find", "\u0410", *words).splitlines(), wanted
            )

    def test_places_on_one_screen_are_told_from_the_top_to_the_bottom(self) -> None:
        places = ("80A0", "8008", "8000")
        writes = "".join(f"1 w m B{place} 0741 2\n" for place in places)
        lines = self.done(
            "text", self.write("trace", f"0 int 3 0 0 0\n{writes}"), "--find", "A"
        ).splitlines()
        found = [tuple(map(int, line.split()[1:3])) for line in lines[1:]]
        self.assertEqual(found, [(0, 0), (0, 4), (1, 0)])


@takes_long
class Files(Seen):
    def bytes_of(self, name: str, *words: str) -> bytes:
        """What a command writes to standard output."""
        status, data, said = run_tool("zaklimot", "trace", name, *words)
        self.assertEqual((status, said), (0, ""))
        return data

    def test_a_picture_on_standard_output(self) -> None:
        out = self.folder / "out.png"
        self.done("pictures", self.calls, "--png", out, "--at", "1.5", "--scale", "2")
        data = self.bytes_of("pictures", self.calls, "--png", "-", "--at", "1.5", "--scale", "2")
        self.assertEqual(data, out.read_bytes())
        self.assertEqual(png_rows(data)[:2], (1440, 800))

    def test_a_frame_that_is_no_picture(self) -> None:
        # Rows of another width follow, amid a frame.
        text = "0+0 int 3 0 0 0\n1+90000 w p 3C4 0101 2\n2+9 w m B8000 41 1\n"
        trace = self.write("ragged", text)
        told = "ragged: the frame has no picture: its rows differ in width"
        words = (trace, "--png", self.folder / "out.png")
        hold_undone(self, self.run_command("pictures", *words), told)
        self.assertFalse((self.folder / "out.png").exists())
