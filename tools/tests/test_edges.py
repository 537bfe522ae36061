"""The built program at its edges: its words and its help; files and streams, their order and
failures."""

from __future__ import annotations

import os
import resource
import signal
import socket
import subprocess
import threading
import time
from itertools import product
from pathlib import Path
from typing import Callable, Optional

from zaklimot.commands.script.program import PROGRAM as BUILT_PROGRAM
from zaklimot.commands.script.words import FONTS

from .tools import (
    MOST_SECONDS,
    PROGRAM,
    Folder,
    Ran,
    ended,
    hold,
    hold_undone,
    run_program,
    want_program,
)

# The text of a script, with a comment; its bytes; its printed text; and its report.
TEXT = b"OUT 3c2 63 ; colour addresses\n\nput A0000 ff\r\nin 3CC"
SCRIPT = b"VGAS\x01\x01\xc2\x03\x63\x05\x00\x00\x0a\x00\xff\x03\xcc\x03"
PRINTED = b"out 3C2 63\nput A0000 FF\nin 3CC\n"
REPORT = b"1 ok\n2 ok\n3 63\n"
JOBS = (("run", "script"), ("go", "text"))
# What reads a file and writes to standard output: the command, the file, its options, and what it
# writes.
WAYS: tuple[tuple[str, str, tuple[str, ...], bytes], ...] = (
    ("dis", "script", (), PRINTED),
    *((job, name, ("--fonts", "fonts"), REPORT) for job, name in JOBS),
)
# Each command's help. It is the interface, so a change of a letter is to be seen.
HELP = Path(__file__).resolve().parent / "help"

# How the version ends, the last line of the portable program's help.
TESTED_ALONE = b", portable: tested, not proved\n"
REFUSED = (
    "--version",
    "",
    "asm",
    "asm x",
    "asm x y z",
    "asm x y --fonts f",
    "dis",
    "dis x y",
    "dis x --fonts f",
    "dis -x",
    "run",
    "run x",
    "run --fonts f",
    "run x --fonts",
    "run x y --fonts f",
    "run x --fonts f --fonts g",
    "run x --fonts f --loud",
    "run x --fonts f --until",
    "run x --fonts f --until 1 --until 1",
    "run x --until 1",
    "dis x --until 1",
    "go",
    "go x",
    "go x --fonts",
    "go x y --fonts f",
    "play x --fonts f",
    "--fonts f run x",
)
NO_NUMBERS = (
    "",
    "+5",
    "-5",
    "--until=+5",
    "5x",
    "x5",
    "0x5",
    "5 ",
    " 5",
    "1_000",
    "1,000",
    "5.0",
    "4294967296",
    "18446744073709551621",
)
# The program keeps so many bytes back before it writes them.
BUFFER_LEN = 262_144
# Room for a piece of so many bytes in a socket's queue.
QUEUE_LEN = 2 * BUFFER_LEN


class Program(Folder):
    """A folder with a text, its script and the fonts, where the program runs."""

    def setUp(self) -> None:
        want_program()
        super().setUp()
        for name, content in (
            ("text", TEXT),
            ("script", SCRIPT),
            ("fonts", FONTS.read_bytes()),
            ("short", b"123"),
        ):
            (self.folder / name).write_bytes(content)

    def ran(self, *words: str | bytes, given: bytes = b"") -> Ran:
        return run_program(*words, given=given, folder=self.folder)


class Words(Program):
    def test_asm_writes_the_script_and_prints_nothing(self) -> None:
        # The second file is there, and longer.
        for name in ("new", self.write("old", SCRIPT + b"more")):
            self.assertEqual(self.ran("asm", "text", name), (0, b"", ""))
            self.assertEqual((self.folder / name).read_bytes(), SCRIPT)

    def test_each_order_of_words(self) -> None:
        printed, report = (0, PRINTED, ""), (0, REPORT, "")
        hold(
            self,
            lambda words: self.ran(*words.split()),
            [
                ("dis script", printed),
                ("dis -- script", printed),
                *(
                    (f"run {words}", report)
                    for words in (
                        "script --fonts fonts",
                        "--fonts fonts script",
                        "--fonts=fonts script",
                    )
                ),
                *(
                    (f"go {words}", report)
                    for words in ("text --fonts fonts", "--fonts fonts text", "--fonts=fonts text")
                ),
            ],
        )

    def test_a_run_stops_after_the_number_behind_until(self) -> None:
        for number, answers in [
            ("0", b""),
            ("1", b"1 ok\n"),
            ("12", REPORT),
            ("0012", REPORT),
            ("4294967295", REPORT),
            ("00000000000000000004294967295", REPORT),
        ]:
            for words in JOBS:
                with self.subTest((*words, number)):
                    ran = self.ran(*words, "--fonts", "fonts", "--until", number)
                    self.assertEqual((ran.status, ran.said), (0, ""))
                    self.assertTrue(
                        ran.report.startswith(answers + b"%d misc " % (answers.count(b"\n") + 1))
                    )
                    self.assertTrue(ran.report.endswith(b" height 0000\n"))
                    self.assertEqual(self.ran(*words, "--until", number, "--fonts", "fonts"), ran)

    def test_words_that_name_no_job(self) -> None:
        for words in REFUSED:
            with self.subTest(words):
                hold_undone(self, self.ran(*words.split()), ".")
        # No word at all, and one that is no text.
        hold_undone(self, ended("vga", executable=PROGRAM), ".")
        self.assertEqual(self.ran("dis", b"\xff"), (2, b"", "vga: Missing\n"))

    def test_the_number_behind_until_is_digits_alone(self) -> None:
        for words, number in product(JOBS, NO_NUMBERS):
            with self.subTest((*words, number)):
                hold_undone(self, self.ran(*words, "--fonts", "fonts", "--until", number), ".")
        hold_undone(
            self,
            self.ran("run", "script", "--fonts", "fonts", "--until=+1"),
            "^error: the number after '--until'",
        )

    def test_no_file_is_opened(self) -> None:
        # Whoever opens a pipe that nobody writes waits, and the test then fails by its time.
        for name in ("script", "fonts"):
            (self.folder / name).unlink()
            os.mkfifo(self.folder / name)
        self.assertEqual(self.ran("run", "script", "--fonts", "fonts", "--until", "+1").status, 2)
        self.assertEqual(self.ran("asm", "script", "new", "more").status, 2)
        self.assertEqual(self.ran("run", "script", "--fonts", "fonts", "--help").status, 0)
        self.assertFalse((self.folder / "new").exists())

    def helped(self, *words: str) -> Ran:
        """The same, without what the portable program adds to the version."""
        ran = self.ran(*words)
        return (
            ran
            if PROGRAM == BUILT_PROGRAM
            else ran._replace(report=ran.report.replace(TESTED_ALONE, b"\n"))
        )

    def test_each_command_teaches_by_an_example(self) -> None:
        hold(
            self,
            self.helped,
            (
                (*words, (0, (HELP / f"{name}.txt").read_bytes(), ""))
                for name, *words in (
                    *(("vga", flag) for flag in ("--help", "-h")),
                    *(
                        (name, name, flag)
                        for name in ("asm", "dis", "run", "go")
                        for flag in ("--help", "-h")
                    ),
                    # It is a command too, and it is given beside other words.
                    ("help", "help", "help"),
                    ("run", "run", "x", "-h"),
                )
            ),
        )


class Faults(Program):
    """The first fault is printed, and nothing else."""

    def fault(self, words: str) -> str:
        """The fault that a run ends with, which prints nothing else."""
        status, report, said = self.ran(*words.split())
        self.assertEqual((status, report, said[:5], said[-1:]), (1, b"", "vga: ", "\n"))
        return said[5:-1]

    def test_each_of_a_file(self) -> None:
        for content, fault in [
            (b"VGAS", "F5 Truncated(4)"),
            (b"VGAS\x09", "F3 BadVersion"),
            (b"VGAS\x01\x01\xc2\x03\x63\xff", "F4 BadStep(9)"),
            (TEXT, "F2 BadMagic"),
        ]:
            self.write("bad", content)
            hold(self, self.fault, (("run bad --fonts fonts", fault), ("dis bad", fault)))

    def test_a_text_with_a_mistake_makes_no_file(self) -> None:
        self.write("bad", "frame\nfram\n")
        new = Path(self.write("old", "old"))
        hold(self, self.fault, (("asm bad new", "F7 BadLine(2)"), ("asm bad old", "F7 BadLine(2)")))
        self.assertEqual((new.read_text(), new.with_name("new").exists()), ("old", False))

    def test_files_that_can_not_be_had_and_what_comes_first(self) -> None:
        self.write("bad", "frame\nfram\n")
        unread = (
            "go bad --fonts none",
            "run none --fonts short",
            "go none --fonts fonts",
            "asm no/such/file new",
            "dis no/such/file",
            # Those that are opened, and can't be read.
            "asm . new",
            "dis .",
            "run . --fonts fonts",
            "run script --fonts .",
            "go . --fonts fonts",
        )
        hold(
            self,
            self.fault,
            [
                *((words, "F8 ReadFault") for words in unread),
                ("run script --fonts short", "F1 FontSize"),
                ("run text --fonts short", "F1 FontSize"),
                ("run text --fonts fonts", "F2 BadMagic"),
                ("go bad --fonts short", "F7 BadLine(2)"),
                ("asm text no/such/file", "F9 WriteFault"),
                ("asm text .", "F9 WriteFault"),
            ],
        )
        self.assertFalse((self.folder / "new").exists())


def writer(pipe: Path) -> Optional[int]:
    """The end of a pipe that is written, where somebody reads it."""
    try:
        return os.open(pipe, os.O_WRONLY | os.O_NONBLOCK)
    except OSError:
        return None


def give(pipe: Path, content: bytes, meanwhile: Callable[[], None] = lambda: None) -> None:
    """Waits until somebody reads the pipe, and writes."""
    until = time.monotonic() + MOST_SECONDS
    while (end := writer(pipe)) is None:
        if time.monotonic() > until:
            raise TimeoutError(f"nobody reads {pipe.name}")
        time.sleep(0.001)
    with open(end, "wb") as stream:
        os.set_blocking(end, True)
        meanwhile()
        stream.write(content)


class Streams(Program):
    def test_a_reader_that_gives_a_byte_at_a_time(self) -> None:
        for job, name, options, output in WAYS:
            content = (self.folder / name).read_bytes()
            with self.subTest(job), subprocess.Popen(
                [PROGRAM, job, "/dev/stdin", *options],
                cwd=self.folder,
                stdin=subprocess.PIPE,
                stdout=subprocess.PIPE,
                bufsize=0,
            ) as running:
                assert running.stdin is not None
                for at in range(len(content)):
                    running.stdin.write(content[at : at + 1])
                    time.sleep(0.001)
                self.assertEqual(running.communicate(timeout=MOST_SECONDS)[0], output)

    def test_a_file_that_is_full_has_a_front(self) -> None:
        for job, name, options, output in WAYS:
            with self.subTest(job), open(self.folder / "full", "wb") as full:
                given = {"stdout": full, "preexec_fn": lambda: limit_files(7)}
                done = ended(PROGRAM, job, name, *options, cwd=self.folder, **given)
                self.assertEqual((done[0], done[2]), (1, "vga: F9 WriteFault\n"))
                self.assertEqual((self.folder / "full").read_bytes(), output[:7])

    def test_a_report_is_written_in_large_pieces(self) -> None:
        steps = 100_000
        (self.folder / "text").write_bytes(b"out 3C2 63\n" * steps)
        ours, its = socket.socketpair(socket.AF_UNIX, socket.SOCK_SEQPACKET)
        its.setsockopt(socket.SOL_SOCKET, socket.SO_SNDBUF, QUEUE_LEN)
        if its.getsockopt(socket.SOL_SOCKET, socket.SO_SNDBUF) < QUEUE_LEN // 2 + BUFFER_LEN // 4:
            self.skipTest("this system has no room for such a piece")
        pieces: list[bytes] = []
        reading = threading.Thread(
            target=lambda: pieces.extend(iter(lambda: ours.recv(QUEUE_LEN), b""))
        )
        with ours:
            with its:
                reading.start()
                status, _, _ = ended(
                    PROGRAM, "go", "text", "--fonts", "fonts", cwd=self.folder, stdout=its
                )
            reading.join(MOST_SECONDS)
        self.assertEqual(status, 0)
        report = b"".join(b"%d ok\n" % number for number in range(1, steps + 1))
        self.assertTrue(b"".join(pieces) == report)
        # A call writes all that is kept back but the line for which no room is left.
        self.assertEqual(len(pieces), -(-len(report) // BUFFER_LEN))

    def test_fonts_are_read_before_the_script(self) -> None:
        for command, name, content in (("run", "script", SCRIPT), ("go", "text", TEXT)):
            with self.subTest(command):
                fonts, script = self.folder / f"{command}-fonts", self.folder / f"{command}-{name}"
                os.mkfifo(fonts)
                os.mkfifo(script)
                with subprocess.Popen(
                    [PROGRAM, command, script, "--fonts", fonts], stdout=subprocess.PIPE
                ) as running:
                    self.addCleanup(running.kill)
                    give(fonts, FONTS.read_bytes(), lambda: self.assertIsNone(writer(script)))
                    give(script, content)
                    self.assertEqual(running.communicate(timeout=MOST_SECONDS)[0], REPORT)
                self.assertEqual(running.returncode, 0)


def limit_files(room: int) -> None:
    """Lets the process write so many bytes into a file: a write that goes beyond is cut short, and
    the next fails."""
    signal.signal(signal.SIGXFSZ, signal.SIG_IGN)
    resource.setrlimit(resource.RLIMIT_FSIZE, (room, room))
