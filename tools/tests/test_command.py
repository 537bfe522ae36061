"""The command itself, as a user runs it; and the suite's list, with the scripts of its cases."""

from __future__ import annotations

import hashlib
import os
import shlex
import subprocess
import sys
import unittest
from functools import partial
from pathlib import Path

from .tools import (
    TOP,
    BLACK,
    RED,
    TOOLS,
    WHITE,
    Folder,
    begin,
    ended,
    hold,
    hold_undone,
    png_rows,
    ppm,
    report,
    run_tool,
    takes_long,
)


PROGRAM = TOP / "zaklimot"
ADAPTER = shlex.join([sys.executable, str(TOOLS / "tests" / "adapter.py")]) + " {script}"
PICTURE = ppm(9, 1, RED * 4 + BLACK * 5)
run = partial(run_tool, PROGRAM.name)


class Reports(Folder):
    """Reports that are shown, cut into pictures and compared, in a folder that has some."""

    REPORTS: dict[str, tuple[str | bytes, ...]] = {
        "black": ("ok", ppm(9, 1, BLACK * 9)),
        "red": ("ok", PICTURE),
        "two": (PICTURE, "ok", ppm(1, 1, WHITE)),
        "high": (ppm(100, 101, BLACK * 10100),),
        "wide": (ppm(5000, 1, BLACK * 5000),),
        "read": ("ok", "E1", "00"),
        "refused": ("ok", "E1 NotDecoded", "01"),
        "three": ("ok", "ok", "55"),
        "a": ("00", PICTURE),
        "b": ("01", ppm(9, 1, RED * 3 + BLACK * 6)),
    }

    def setUp(self) -> None:
        super().setUp()
        for name, answers in self.REPORTS.items():
            self.report(name, *answers)

    def done(self, words: str, given: bytes = b"") -> tuple[int, bytes, str]:
        """Exit status, output and standard error of the command in the folder."""
        return run(*words.split(), given=given, prepare=lambda: os.chdir(self.folder))

    def rows(self, name: str) -> tuple[int, int, list[bytes]]:
        """Width, height and rows of a PNG."""
        return png_rows((self.folder / name).read_bytes())

    def test_a_report_that_was_kept_as_text(self) -> None:
        # The frame at power-on; the sum is that of `md5sum` over its 37 bytes.
        text = b"1 ok\n2 picture 37 9x1 8f4a7758d19428aa7b8da8bb8fc0c974\n"
        red = hashlib.md5(PICTURE).hexdigest()
        front = "zaklimot: standard input:2: "
        lacking = f"{front}the picture is shown by its digest, and its dots are not in the file\n"
        differs = (
            f"step 2 differs\n  standard input:2: {text[7:-1].decode()}\n  red:2: picture 37 9x1"
            f" {red}\n".encode()
        )
        hold(
            self,
            self.done,
            (
                # A text is as good as its report, but for the dots.
                (
                    "compare - black",
                    text,
                    (0, b"standard input and black agree: 2 steps, 1 picture\n", ""),
                ),
                ("compare - red", text, (1, differs, "")),
                ("pictures - p", text, (2, b"", lacking)),
                (
                    "compare - black",
                    b"1 ok\n3 ok\n",
                    (2, b"", f"{front}step 2 is to come, and not '3 ok'\n"),
                ),
            ),
        )

    def test_pictures(self) -> None:
        cut = (
            "zaklimot: standard input:2: the picture of step 2 is cut off: of 37 bytes there are"
            " 35\n"
        )
        large = (
            "zaklimot: a picture of {} dots would get {}, and 100,000,000 dots are the most\n"
        ).format
        hold(
            self,
            self.done,
            (
                ("pictures two n/n", (0, b"n/n/0001.png\nn/n/0003.png\n", "")),
                ("pictures two s --scale 2 --aspect", (0, b"s/0001.png\ns/0003.png\n", "")),
                # The bytes as they are.
                ("pictures two p --ppm", (0, b"p/0001.ppm\np/0003.ppm\n", "")),
                ("pictures two - --ppm", (0, PICTURE + ppm(1, 1, WHITE), "")),
                # Those before the damage are written.
                ("pictures - d", report(PICTURE, PICTURE)[:-3], (2, b"d/0001.png\n", cut)),
                ("pictures high h --scale 100", (2, b"", large("100x101", "10000x10100"))),
                (
                    "pictures wide h --scale 200 --aspect",
                    (2, b"", large("5000x1", "1000000x750000")),
                ),
            ),
        )
        white = (1, 1, [b"\xff\xff\xff"])
        self.assertEqual((self.rows("n/n/0003.png"), self.rows("s/0003.png")[:2]), (white, (3, 2)))
        self.assertEqual(png_rows(self.done("pictures two - --step 3")[1]), white)
        self.assertEqual((self.folder / "p/0001.ppm").read_bytes(), PICTURE)
        self.assertEqual(
            (self.rows("d/0001.png")[:2], (self.folder / "h").exists()), ((9, 1), False)
        )

    def test_compared(self) -> None:
        first = b"step 2 differs\n  read:2: E1 (read)\n  refused:2: E1 NotDecoded (refused)\n"
        both = first + b"step 3 differs\n  read:3: 00\n  refused:3: 01\n"
        agree = b"red and standard input agree: "
        none = "zaklimot: no pictures differ, so m.png isn't written\n"
        hold(
            self,
            self.done,
            (
                ("compare red -", report("ok", PICTURE), (0, agree + b"2 steps, 1 picture\n", "")),
                ("compare read refused", (1, first, "")),
                ("compare read refused --all", (1, both, "")),
                ("compare read refused --picture m.png", (1, first, none)),
                (
                    "compare three - --expected",
                    b"1-2 ok\n3 55\n",
                    (0, b"three is as expected: 3 steps, 0 pictures\n", ""),
                ),
                (
                    "compare three - --expected",
                    b"1-2 ok\n3 54\n",
                    (1, b"three:3: step 3: 55, not 54 (standard input:2)\n", ""),
                ),
                (
                    "compare three - --expected",
                    b"1-2 ok\n",
                    (1, b"three:3: step 3: 55, not the end (standard input)\n", ""),
                ),
            ),
        )
        self.assertFalse((self.folder / "m.png").exists())

    def test_a_picture_with_its_differing_dots_marked(self) -> None:
        status, text, said = self.done("compare a b --all --picture marked.png")
        self.assertEqual((status, said), (1, ""))
        self.assertIn(
            b"\n  1 of 9 dots differ, the first is dot 3 of row 0: 3F0000, not 000000\n", text
        )
        red, mark = b"\x55\x00\x00", b"\xff\x20\x20"
        self.assertEqual(self.rows("marked.png"), (9, 1, [red * 3 + mark + BLACK * 5]))
        status, picture, said = self.done("compare a b --picture - --scale 2")
        self.assertEqual(
            (status, png_rows(picture)[:2], said.partition("\n")[0]), (1, (18, 2), "step 1 differs")
        )


class Streams(Folder):
    """Standard streams that are closed, or full, or the file that is read; and names of any
    bytes."""

    def test_the_writer_of_standard_input_is_not_cut_off(self) -> None:
        data = report(PICTURE, *("ok" for _ in range(50000)))
        streams = {"stdin": subprocess.PIPE, "stdout": subprocess.DEVNULL, "stderr": None}
        process = begin(PROGRAM.name, "pictures", "-", "-", "--step", "1", **streams)
        assert process.stdin is not None
        with process, process.stdin:
            process.stdin.write(data)
        self.assertEqual(process.returncode, 0)

    @unittest.skipIf(sys.platform in ("win32", "darwin"), "names of any bytes are of Linux")
    def test_names_of_any_bytes(self) -> None:
        folder = bytes(self.folder) + b"/\xff\xfe "
        path = self.report("r", PICTURE)
        run = partial(ended, sys.executable, PROGRAM, text=False)
        self.assertEqual(run("pictures", path, folder), (0, folder + b"/0001.png\n", b""))
        os.rename(path, folder + b"/r")
        self.assertEqual(run("pictures", folder + b"/r", folder + b"/r")[0], 2)
        status, output, said = run("compare", folder + b"/r", folder + b"/r")
        self.assertEqual((status, said), (0, b""))
        self.assertIn(folder + b"/r agree", output.replace(b"\n", b" "))
        hold_undone(
            self,
            run("pictures", folder + b"/none", "-"),
            rb"\\udcff\\udcfe /none: No such file or directory\n",
        )

    def test_each_is_told_or_not_wanted(self) -> None:
        path, long = self.report("r", "ok"), self.report("long", *("ok" for _ in range(50000)))
        told = "zaklimot: standard {}put: {}\n".format
        shell = partial(ended, "sh", "-c")
        hold(
            self,
            lambda word, streams: shell(
                f'"$@" {streams}', "sh", sys.executable, PROGRAM, "compare", word, path
            ),
            (
                (path, ">&-", (2, "", told("out", "it is closed"))),
                ("-", "<&-", (2, "", told("in", "it is closed"))),
                (path, "<&-", (0, f"{path} and {path} agree: 1 step, 0 pictures\n", "")),
                # Nothing is said on standard output in the place of a closed error.
                (self.folder / "none", "2>&-", (2, "", "")),
                (long, ">/dev/full", (2, "", told("out", "No space left on device"))),
                (
                    path,
                    f">>{path}",
                    (2, "", told("out", f"it is read as {path}, so it isn't written")),
                ),
                (
                    "-",
                    f"<{path} >>{path}",
                    (2, "", told("out", f"it is read as {path}, so it isn't written")),
                ),
            ),
        )
        self.assertEqual(Path(path).read_bytes(), b"1 ok\n")


ENDED = "the command ended with status 3, and said\n             first\n             no such part?"
REFUSING = (
    ("get A0000\nget A0000\n", "1 E1 NotDecoded\n2 FF\n"),
    ("get A0000\nget A0000\n", "1 E1 NotDecoded\n2 55\n"),
)
BLOCK = "version 2 ; a block\nrepeat 2\nget A0000\nend\n"
LISTED = "{folder}/list:2: "
OUTSIDE = f"{LISTED}a case outside the list's folder"


@takes_long
class Suite(Folder):
    def setUp(self) -> None:
        super().setUp()
        (self.folder / "two.fnt").write_bytes(b"12")
        self.lines = ["fonts two.fnt"]

    def case(self, name: str, script: str, expected: str, line: str = "") -> None:
        """Puts a case into the suite: a script as text, or where its line says so as the digits of
        bytes."""
        self.write(name + (".hex" if line.startswith("bytes ") else ".vga"), script)
        self.write(name + ".txt", expected)
        self.lines.append(line or name)

    def run_suite(
        self, *words: str | Path, command: str = ADAPTER + " {fonts}"
    ) -> tuple[int, str, str]:
        path = self.write("list.txt", "\n".join(self.lines) + "\n")
        status, output, message = run("suite", command, "--list", path, *words)
        return status, output.decode(), message

    def test_a_run_that_is_stopped_by_its_command(self) -> None:
        self.case("a/one", "get 0\nget 0\nget 0\n", "1 FF\n2 FF\n", "a/one until 2")
        self.assertEqual(self.run_suite(command=ADAPTER + " {fonts} {until}")[0], 0)

    def test_the_rule_is_the_first_line_of_the_first_comment(self) -> None:
        for text, rule in (
            ("; The rule.\n; More.\nframe\n", "The rule."),
            ("frame ; Behind; it.\n", "Behind; it."),
            ("frame\n", "a"),
            (";\n;  Zw\u00f6lf. \n", "Zw\u00f6lf."),
            ("; \x1b[2Jbad\n", "?[2Jbad"),
        ):
            self.lines = []
            self.case("a", text, "1 ok\n")
            self.assertEqual(self.run_suite(command="true {script}")[1].splitlines()[1][11:], rule)

    def test_reports_that_lie_ready(self) -> None:
        self.case("a/one", "get A0000\n", "1 55\n")
        self.write("a/one.report", "1 55\n")
        program = (
            f"{shlex.quote(sys.executable)} -c"
            f' \'print(open("{self.folder}/{{name}}.report").read(), end="")\''
        )
        self.assertEqual(self.run_suite(command=program)[0], 0)

    def test_several_fronts_of_names_and_some_that_are_left_out(self) -> None:
        for name in ("a/one", "a/two", "b/one", "c/one"):
            self.case(name, "get A0000\n", "1 FF\n")
        hold(
            self,
            lambda words: self.run_suite(*words.split())[1].splitlines()[-1].partition(":")[0],
            (
                ("--only a/ --only c/", "3 cases"),
                ("--except a/", "2 cases"),
                ("--only a/ --except a/t --except b/", "1 case"),
            ),
        )
