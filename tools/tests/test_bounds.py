"""What is read has bounds: numbers of thousands of digits, bytes and rows that are listed many
times, names that no file has, forged images, and images of another size."""

from __future__ import annotations

import argparse
import contextlib
import io
import os
import re
import resource
import unittest
import zlib
from functools import partial
from pathlib import Path
from random import Random
from typing import Callable, Optional
from unittest import mock

from zaklimot.format import MOST_BYTES, Picture, count_in, decimal, parse_text, steps_in
from zaklimot.commands.core.files import files_of_run
from zaklimot.commands.core.streams import bytes_of, read_at_most
from zaklimot.commands.core.trouble import Trouble
from zaklimot.commands.core.words import number_to, seconds
from zaklimot.commands.explain.faults import read_script
from zaklimot.commands.explain.mistakes import mistake_in
from zaklimot.commands.floppy import image
from zaklimot.commands.floppy.table import HEADER, NAME, VERSION, Table, table_for
from zaklimot.commands.images import holding, others, reading
from zaklimot.commands.images.reading import image_of, size_of
from zaklimot.commands.images.words import Within
from zaklimot.commands.report import cases
from zaklimot.commands.report.cases import MOST_LISTED, read_cases
from zaklimot.commands.report.report import Expected, Report

from .running import Fake
from .test_images import png
from .tools import (
    MODULES,
    PYTHON,
    Folder,
    ended,
    hold,
    hold_refused,
    hold_undone,
    ppm,
    refused,
    run_tool,
    stream,
    want_library,
)


MANY = "9" * 5000
# So much memory may a tool take that is given what would fill any.
ROOM = 1 << 29
FORGED = "its table of steps is none that `zaklimot floppy` makes"


def limit_memory() -> None:
    resource.setrlimit(resource.RLIMIT_AS, (ROOM, ROOM))


class Numbers(unittest.TestCase):
    def test_digits(self) -> None:
        rows: list[tuple[str | bytes, int, int | None]] = [
            ("0", 9, 0),
            ("12", 12, 12),
            ("13", 12, None),
            ("0" * 5000 + "12", 12, 12),
            (b"0" * 5000 + b"12", 12, 12),
            (MANY, 1 << 70, None),
            ("²", 9, None),
            ("٣", 9, None),
            ("", 9, None),
            ("-1", 9, None),
            ("1_0", 99, None),
            ("000", 9, 0),
        ]
        hold(self, decimal, rows)

    def test_the_values_of_options(self) -> None:
        rows: list[tuple[str, int, int | None]] = [
            ("0", 1, None),
            ("0", 0, 0),
            ("1", 1, 1),
            ("256", 1, 256),
            ("257", 1, None),
            ("0" * 5000 + "12", 1, 12),
            ("1000" + "12", 1, None),
            (MANY, 1, None),
            ("²", 1, None),
            ("", 0, None),
            ("-1", 0, None),
            ("1_0", 1, None),
        ]

        def read(word: str, least: int) -> Optional[int]:
            with contextlib.suppress(argparse.ArgumentTypeError):
                return number_to(256, least)(word)
            return None

        hold(self, read, rows)

    def test_a_number_of_seconds(self) -> None:
        def read(word: str) -> Optional[float]:
            with contextlib.suppress(argparse.ArgumentTypeError):
                return seconds(word)
            return None

        rows = (
            ("86400", 86400.0),
            ("86400.1", None),
            ("0.001", 0.001),
            ("0", None),
            ("-0", None),
            ("-1", None),
            ("nan", None),
            ("inf", None),
            ("soon", None),
            ("", None),
        )
        hold(self, read, rows)

    def test_a_word_is_shown_whole_or_by_its_front(self) -> None:
        for length, shown in ((40, "x" * 40), (41, "x" * 40 + "..")):
            with self.assertRaises(argparse.ArgumentTypeError) as raised:
                number_to(9)("x" * length)
            self.assertRegex(str(raised.exception), f"^'{re.escape(shown)}' .* from 1 to 9$")

    def test_options_with_wrong_numbers_are_told_in_short(self) -> None:
        for option, told in (
            ("--jobs", r"'9{40}\.\.' .* from 1 to 256\n$"),
            ("--timeout", r"'9{40}\.\.' .* above 0, to 86400\n$"),
        ):
            status, output, said = run_tool("zaklimot", "suite", "x", option, MANY)
            self.assertEqual((status, output), (2, b""))
            self.assertRegex(said, f"error: argument {option}: {told}")

    def test_blocks_that_are_repeated_too_often(self) -> None:
        for count in (MANY, "²", "0" * 5000, "65536"):
            text = io.BytesIO(f"version 2\nrepeat {count}\nget 0\nend\n".encode())
            with self.subTest(count[:9]):
                self.assertLessEqual(len(list(steps_in(text))), 2)
                self.assertLessEqual(count_in(text), 2)

    def test_why_such_a_line_is_no_step(self) -> None:
        want_library()
        for line, told in (
            (f"repeat {MANY}", "N is from 1 to 65535"),
            (f"advance {MANY}", "DOTS is from 0 to 4294967295"),
            (
                "repeat ²",
                "the character U+00B2 stands in no step; blanks are the space and the tab",
            ),
            (f"repeat {'A' * 5000}", "N is a decimal number"),
            ("repeat 1A", "N is decimal, and not hexadecimal: write 26"),
        ):
            found = mistake_in(line.encode("utf-8"))
            assert found is not None
            self.assertEqual(found.reason, told, line[:20])


class Wholes(Folder):
    """Files that are read whole."""

    def test_the_most_and_one_byte_more(self) -> None:
        most = Path(self.write("most", b"12345"))
        more = Path(self.write("more", b"123456"))
        readers: tuple[Callable[[str, int], bytes], ...] = (bytes_of, read_at_most)
        for read in readers:
            self.assertEqual(read(str(most), 5), b"12345")
            self.assertEqual(refused(read, str(more), 5), f"{more}: it has more than 5 bytes")
        self.assertEqual(refused(read_at_most, str(more), 5, "F6"), f"{more}: F6")
        # Of standard input too.
        with files_of_run(), open(more) as given, mock.patch("sys.stdin", given):
            told = refused(read_at_most, "-", 5)
        self.assertEqual(told, "standard input: it has more than 5 bytes")
        with files_of_run(), open(most) as given, mock.patch("sys.stdin", given):
            self.assertEqual(read_at_most("-", 5), b"12345")

    def test_a_script_of_the_most_bytes(self) -> None:
        path = Path(self.write("s.vga", b""))
        os.truncate(path, MOST_BYTES)
        self.assertEqual(len(read_script(str(path))), MOST_BYTES)
        os.truncate(path, MOST_BYTES + 1)
        told = f"{path}: F6 TooLong: a script has at most 16,777,216 bytes"
        self.assertEqual(refused(read_script, str(path)), told)


class Runs(Fake):
    def test_texts_with_such_numbers(self) -> None:
        self.begin_program("if sys.argv[1] == 'go': sys.exit('vga: F7 BadLine(2)')\n")
        for count in (MANY, "²"):
            done = self.run_text(f"version 2\nrepeat {count}\nget 0\nend\n")
            hold_undone(self, done, r"^zaklimot: t\.vga:2: F7 BadLine\(2\): ")


class Cases(Folder):
    def listed(self, text: str | bytes) -> str:
        return self.write("list.txt", text)

    def test_lists(self) -> None:
        lists: tuple[tuple[str | bytes, str], ...] = (
            (b"a\0b\n", "1: the line has a byte 00"),
            (b"fonts x\0\na\n", "1: the line has a byte 00"),
            (b"\nfront \0\na\n", "2: the line has a byte 00"),
            (f"a until {MANY}\n", "1: a run is stopped after at most 4,294,967,295 steps"),
            ("a until 4294967296\n", "1: a run is stopped after at most 4,294,967,295 steps"),
        )
        for text, told in lists:
            self.assertRegex(refused(read_cases, self.listed(text)), told)
        self.assertEqual(read_cases(self.listed(f"a until {'0' * 5000}7\n"))[0].until, 7)

    def test_bytes_that_are_listed_many_times(self) -> None:
        self.write("a.hex", "00*99999999\n" * 60)
        (case,) = read_cases(self.listed("bytes a\n"))
        told = refused(case.script)
        self.assertRegex(told, rf"a\.hex:1: it lists more than {MOST_LISTED:,} bytes$")
        with mock.patch.object(cases, "MOST_LISTED", 12):
            self.write("a.hex", "00*10 ; ten\nff fe\n")
            self.assertEqual(case.script(), bytes(10) + b"\xff\xfe")
            self.write("a.hex", "00*10\nff fe fd\n")
            self.assertRegex(refused(case.script), r"a\.hex:2: it lists more than 12 bytes$")
        self.write("a.hex", "56 47*2\n00*16777217")
        self.assertEqual(len(case.script()), 16777220)

    def test_none_of_them_fills_memory(self) -> None:
        self.write("a.hex", "00*99999999\n" * 60)
        self.write("a.txt", "1 ok\n")
        path = self.listed("bytes a\n")
        words = ("suite", "true {script}", "--bytes", "true {script}", "--list", path)
        done = run_tool("zaklimot", *words, prepare=limit_memory)
        hold_undone(self, done, "it lists more than")

    def test_expected_reports(self) -> None:
        def read(text: str) -> object:
            return list(Expected(stream(text.encode()), "e").steps())

        row = "3F0000*9999999"
        hold_refused(
            self,
            read,
            (
                (f"1-{MANY} ok\n", r"^e:1: steps from 1 on are to come, and not '1-9{38}'$"),
                ("1-16777217 ok\n", "^e:1: steps from 1 on are to come"),
                (f"1 picture {MANY} {MANY}x1\n", "^e:1: no picture has so many dots"),
                ("1 picture 9 9999999x9999999\n", "^e:1: no picture has so many dots"),
                ("1 picture 67108865 1x1\n000000\n", "^e:1: no picture has so many dots"),
                (f"1 picture 18 1x1\n{' '.join([row] * 300)}\n", "^e:2: no row of 1 dots"),
            ),
        )
        self.assertEqual(len(read("1-3 ok\n")), 3)  # type: ignore[arg-type]

    def test_an_answer_of_more_lines_than_a_dump(self) -> None:
        text = b"1 a\n" + b"b\n" * 65537
        told = refused(lambda: list(Report(stream(text), "r").steps()))
        self.assertEqual(told, "r:65537: the answer has more lines than any dump")
        self.assertEqual(len(list(Report(stream(text[:-2]), "r").steps())[0].lines), 65537)


class Images(Folder):
    def test_one_of_another_size_is_not_unpacked(self) -> None:
        white = b"\x3f\x3f\x3f"
        report = self.report("r", ppm(2, 1, white * 2))
        large = self.write("large.png", png(3, 1, b"\0" + bytes(9)))
        unpacked = mock.patch.object(reading, "_unfiltered", side_effect=AssertionError)
        with unpacked:
            self.assertEqual(size_of(Path(large).read_bytes(), "it"), (3, 1))
        status, output, said = run_tool(
            "zaklimot", "compare", report, large, "--step", "1", prepare=unpacked.start
        )
        self.assertEqual((status, said), (1, ""))
        self.assertIn(b"they have 2x1 and 3x1 dots, and neither is the other", output)

    def test_the_heads_of_files(self) -> None:
        self.assertEqual(size_of(b"P6 # a\n7 5 255\n", "it"), (7, 5))
        for data, told in (
            (b"\x89PNG\r\n\x1a\n" + bytes(9), "it: the PNG is damaged"),
            (b"P6 x", "it: the header of the PPM is damaged"),
        ):
            self.assertEqual(refused(size_of, data, "it"), told)
        with mock.patch.object(others, "pillow", lambda: None):
            told = f"it: this is neither a PNG nor a PPM of the kind P6; {others.WITHOUT}"
            self.assertEqual(refused(size_of, b"GIF", "it"), told)

    def test_a_tolerance(self) -> None:
        # Red and blue of five bits, green of six, as an emulator widens them to eight.
        dots = bytes([0x3F, 0x15, 0x01, 0x20, 0x3F, 0x1F])
        drawn = bytes(
            ((value >> 1) << 3 | value >> 3) if at % 3 != 1 else value << 2 | value >> 4
            for at, value in enumerate(dots)
        )
        picture = Picture.of_dots(2, 1, dots)
        image_at = partial(image_of, b"P6\n2 1\n255\n" + drawn, "it")
        counts: tuple[tuple[Within, int], ...] = ((0, 2), ("5-6-5", 0), (1, 0), (63, 0))
        for tolerance, count in counts:
            found = holding.held(picture, image_at(), tolerance)
            self.assertEqual(found.differing, count, tolerance)
        self.assertTrue(holding.held(picture, image_at(), "5-6-5").how.endswith("within 5-6-5"))
        other = Picture.of_dots(2, 1, bytes([0x3F, 0x14, 0x01, 0x1D, 0x3F, 0x1F]))
        other_counts: tuple[tuple[Within, int], ...] = (("5-6-5", 2), (1, 1), (3, 1), (4, 0))
        for tolerance, count in other_counts:
            self.assertEqual(holding.held(other, image_at(), tolerance).differing, count, tolerance)

    def test_the_words_of_a_tolerance(self) -> None:
        report = self.report("r", ppm(1, 1, b"\x3f\x3f\x3e"))
        path = self.write("i.ppm", b"P6\n1 1\n255\n" + bytes([0xFF, 0xFF, 0xFF]))
        words = ("compare", report, path, "--step", "1")
        for given, status in (((), 1), (("--within", "5-6-5"), 0), (("--within", "1"), 0)):
            self.assertEqual(run_tool("zaklimot", *words, *given)[0], status, given)
        for word in ("64", "-1", "5-5-5", "x"):
            done = run_tool("zaklimot", *words, f"--within={word}")
            hold_undone(self, done, f"'{word}' .* from 0 to 63, and not 5-6-5")


class Floppies(unittest.TestCase):
    TEXT = "version 2\nint ax=3\nrepeat 2\nin 3da\nget a0000\nend\nout 3c4 1\nframe\n"

    def read(self, steps: bytes, first: int, answers: int) -> int:
        """How many lines the reports of a table with these steps have."""
        check = zlib.crc32(steps)
        data = HEADER.pack(NAME, VERSION, first, len(steps), check) + steps
        run = image.Run(Table(data, "it"), bytes(answers), False)
        return sum(1 for _, lines in image.reports(run, "it") for _ in lines)

    def test_forged_tables_with_a_right_check(self) -> None:
        made = table_for({"one": parse_text(self.TEXT)})
        first, steps = HEADER.unpack_from(made)[2], made[HEADER.size :]
        self.assertEqual(self.read(steps, first, 12), 7)
        named = steps[first : first + 6]
        for behind in (
            b"\xff",
            b"\x0d",
            b"\x0d\2",
            b"\x0d\2\0\x0f\0\0\x0e",
            b"\x0c\0\xa0\0",
            b"\x0d\0\0\x0e",
        ):
            with self.subTest(behind):
                told = refused(self.read, named + behind, 0, 0)
                self.assertEqual(told, f"it: {FORGED}")
        # Steps before any script, and more of them than a script has.
        self.assertEqual(refused(self.read, b"\x0b\xda\3\0", 0, 0), f"it: {FORGED}")
        many = b"\x0d\xff\xff" + b"\x0a\xff\xff" * 9 + b"\x0e"
        self.assertEqual(refused(self.read, named + many, 0, 0), f"it: {FORGED}")

    def test_tables_at_random(self) -> None:
        made = table_for({"one": parse_text(self.TEXT), "two": parse_text("get a0000\n")})
        first = HEADER.unpack_from(made)[2]
        random = Random(4711)
        told = 0
        for _ in range(3000):
            steps = bytearray(made[HEADER.size :])
            for _ in range(random.randint(1, 3)):
                steps[random.randrange(first, len(steps))] = random.randrange(256)
            try:
                self.read(bytes(steps), first, random.randrange(100))
            except Trouble:
                told += 1
        self.assertGreater(told, 1000)


class Names(unittest.TestCase):
    def test_one_that_is_no_text(self) -> None:
        work = (
            "from zaklimot.commands.core import cli\ncli.run('it', lambda: print('\\udcff') or 0)"
        )
        environment = {**os.environ, "PYTHONPATH": MODULES}
        done = ended(*PYTHON, "-c", work, env=environment, text=False)
        self.assertEqual(done, (0, b"\xff\n", b""))
