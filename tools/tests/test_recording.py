"""Recordings: a machine's keys and screens, and the verdicts on them."""

from __future__ import annotations

import gzip
import io
import json
import os
import sys
import tempfile
import time
from hashlib import sha256
from pathlib import Path
from typing import Any
from unittest import mock

from zaklimot.format import Picture
from zaklimot.commands.trace import converting, keeper as keeping, recording
from zaklimot.commands.trace.asked import Deed
from zaklimot.commands.trace.note import Note, note_of
from zaklimot.commands.trace.parts import Parts
from zaklimot.commands.trace.recording import PHASES, QemuMachine, Session
from zaklimot.commands.trace.trace import SCREEN

from .tools import (
    BLACK,
    PROGRAM as PROGRAM_TESTED,
    RED,
    TOP,
    WHITE,
    Folder,
    hold_undone,
    png_rows,
    ppm,
    want_program,
    takes_long,
)
from .tracing import listed, qemu, run


PICTURE = ppm(3, 2, RED * 3 + WHITE * 3)
# A fake of qemu: it writes what its environment says into its log, serves a monitor, and keeps what
# it is asked.
QEMU = """import json, os, re, socket, sys, threading
words = " ".join(sys.argv)
folder = os.environ["FAKE"]
if "-machine none" in words:
    asked = sys.stdin.read()
    names = ["ret", "ctrl", "c", "l", "a"]
    schema = [
        {"name": "send-key", "meta-type": "command", "arg-type": "1"},
        {"name": "1", "members": [{"name": "keys", "type": "2"}, {"name": "hold", "type": "int"}]},
        {"name": "2", "element-type": "3"},
        {"name": "3", "variants": [{"case": "x", "type": "4"}, {"case": "qcode", "type": "5"}]},
        {"name": "5", "members": [{"name": "data", "type": "6"}]},
        {"name": "6", "meta-type": "enum", "values": names},
    ]
    print(json.dumps({"QMP": {}}))
    print(json.dumps({"return": {}}))
    print(json.dumps({"return": schema if "query-qmp-schema" in asked else {}}))
    sys.exit()
if "-ends" in sys.argv:
    if "-late" in sys.argv:
        open(re.search(r"-qmp unix:([^,]+),", words)[1], "w").close()
    sys.exit("there is no such disc")
open(folder + "/number", "w").write(f"{os.getpid()}\\n")
log = open(re.search(r"-D (\\S+)", words)[1], "w")
server = socket.socket(socket.AF_UNIX)
path = re.search(r"-qmp unix:([^,]+),", words)[1]
server.bind(path + "-")
server.listen()
os.rename(path + "-", path)
lines = open(folder + "/lines").read()
log.write(lines)
log.flush()
connection, _ = server.accept()
if "-leaves" in sys.argv:
    threading.Timer(0.3, os._exit, [0]).start()
with connection, connection.makefile("rw") as monitor:
    version = {"qemu": {"major": 7, "minor": 2, "micro": 1}, "package": " (Debian)"}
    monitor.write(json.dumps({"QMP": {"version": version}}) + "\\n")
    monitor.flush()
    for line in monitor:
        asked = json.loads(line)
        name = asked["execute"]
        with open(folder + "/asked", "a") as stream:
            keys = "-".join(key["data"] for key in asked["arguments"].get("keys", ()))
            stream.write(f"{name} {keys}".strip() + "\\n")
        if name == "screendump":
            path = asked["arguments"]["filename"]
            screen = "other" if int(path.split(".")[-2]) % 6 in (0, 5) else "screen"
            open(path, "wb").write(open(folder + "/" + screen, "rb").read())
        if name == "send-key":
            log.write(lines)
            log.flush()
        if name == "send-key" and "-dies" in sys.argv:
            sys.exit()
        refusal = '{"error": {"desc": "there is none"}}'
        answer = refusal if "-refuses" in sys.argv else '{"return": {}}'
        monitor.write('{"event": "STOP"}\\n' + answer + "\\n")
        monitor.flush()
        if name == "quit" and "-stays" in sys.argv:
            threading.Event().wait(60)
        if name == "quit":
            break
"""
# What a recording leaves.
KEPT_OF_SCREEN = ["picture-1.png"]
KEPT = ["recording.json", "report.txt", "screen-1.ppm", "script.bin", "trace.gz", "verdict.txt"]
NOTE_OF_NO_MACHINE = {"is": "zaklimot recording", "version": 1, "machine": "none"}
# A line that the filter of the log keeps, and one of another device.
LINES = qemu("write 3c2 67 1") + qemu("write 70 f 1", "rtc")
LINES_KEPT = qemu("write 3c2 67 1")
PROGRAM = TOP / "tools" / "vga-emulators"


def picture_of(rows: str) -> Picture:
    """A picture of two dots a row. A letter is a row's colour, and blanks don't count."""
    letters = rows.replace(" ", "")
    return Picture.of_dots(
        2, len(letters), b"".join(bytes([ord(letter) - ord("a")]) * 6 for letter in letters)
    )


# Steps of a trace, its lines, the picture here, the screen there, and what is told of both.
HELD_SPLIT = b"".join(
    qemu(f"write {cycle} 2") for cycle in ("3ce 106", "3d4 107", "3d4 109", "3d4 218")
)
HELD_VBE = qemu("write 1ce 4 2", "vbe") + qemu("write 1cf 41 2", "vbe")
HELD_CHAINED = qemu("write 3c4 f02 2") + qemu("write 3c4 e04 2")
HELD_MEMORY = qemu("write a0000 1 1", "vga-chain4")
HELD_ROWS = qemu("write 3d4 209 2") + qemu("write 3c0 20 1")
HELD_WHOLE = RED * 3 + WHITE * 3 + RED * 3
HELD_BLACK = ppm(3, 2, BLACK * 6)
HELD_SMALL = ppm(5, 1, RED * 5)
HELD_FOUR = ppm(3, 4, HELD_WHOLE + BLACK * 3)
HELD_KNOWN_OF_QEMU = "  {} what is known of qemu: {}; docs/EMULATORS.md tells of it".format
HELD_USUAL, HELD_LINE = (
    HELD_KNOWN_OF_QEMU("may be", f"{front}underline") for front in ("palette address source, ", "")
)
HELD_NONE = "  nothing that is known of qemu shows in this state"
HELD_LAST = HELD_KNOWN_OF_QEMU("is", "last row of text that isn't whole")
HELD_ALL_DOTS = "6 of 6 dots differ, in columns 0 to 2 and rows 0 to 1"
HELD_LACKS = "it lacks the last 1 of 4 lines; "
HELD_SIZE = "another size: they have {} dots, and neither is the other with dots repeated".format
HELD_ROWS_OF_SCREENS: tuple[tuple[Any, ...], ...] = (
    (
        1,
        b"",
        ppm(3, 2, RED * 3 + WHITE + BLACK * 2),
        PICTURE,
        "2 of 6 dots differ, in columns 1 to 2 and rows 1 to 1",
        HELD_USUAL,
    ),
    (
        5,
        HELD_SPLIT,
        picture_of("aab aabbc").ppm,
        picture_of("aab abbcc").ppm,
        "4 of 16 dots differ, in columns 0 to 1 and rows 4 to 6",
        HELD_KNOWN_OF_QEMU("is", "split within a row"),
    ),
    (1, HELD_VBE, HELD_BLACK, PICTURE, HELD_ALL_DOTS, "  VBE is on: what qemu shows is no VGA's"),
    (
        3,
        HELD_CHAINED,
        HELD_BLACK,
        PICTURE,
        HELD_ALL_DOTS,
        "  chain 4 is on, and no memory was recorded since: --chain-4 does so",
    ),
    (4, HELD_CHAINED + HELD_MEMORY, HELD_BLACK, PICTURE, HELD_ALL_DOTS, HELD_USUAL),
    (1, b"", HELD_SMALL, PICTURE, HELD_SIZE("5x1 and 7x5"), HELD_NONE),
    (3, HELD_ROWS, HELD_FOUR, HELD_SMALL, HELD_SIZE("3x4 and 7x5"), HELD_NONE),
    (
        3,
        HELD_ROWS,
        HELD_FOUR,
        ppm(3, 3, HELD_WHOLE),
        HELD_LACKS + "the others are equal, 3x3, six bits a component",
        HELD_LAST,
    ),
    (
        3,
        HELD_ROWS,
        HELD_FOUR,
        ppm(3, 3, HELD_WHOLE[:-3] + WHITE),
        HELD_LACKS + "1 of 9 dots differ, in columns 2 to 2 and rows 2 to 2",
        HELD_LAST,
        HELD_LINE,
    ),
)


@takes_long
class Recorded(Folder):
    """Recordings of a fake of qemu, replayed by a fake of the program."""

    def setUp(self) -> None:
        super().setUp()
        self.program("bin/qemu-system-x86_64", QEMU)
        path = f"{self.folder / 'bin'}:{os.environ['PATH']}"
        self.patch(
            mock.patch.dict(os.environ, PATH=path, FAKE=str(self.folder), TMPDIR=self.temporary())
        )

    def record(
        self,
        *options: str,
        words: tuple[str, ...] = ("-cdrom", "disc"),
        lines: bytes = b"",
        screen: bytes = PICTURE,
        picture: bytes = PICTURE,
        steps: tuple[int, ...] = (1,),
        program: str = "",
    ) -> tuple[int, list[str], str]:
        """Exit status, lines and what is said of a recording in a new folder.

        The log of the machine has more lines. The program answers so many steps before each of its
        screens.
        """
        self.write("lines", LINES + lines)
        self.write("screen", screen)
        # The first and the last dump of a screen are far from its picture.
        self.write("other", ppm(7, 5, bytes(105)))
        self.into = Path(tempfile.mkdtemp(dir=self.folder), "into")
        answers = [answer for count in steps for answer in ["ok"] * count + [picture] * PHASES]
        options = (
            "--vga",
            program or self.answering(*answers, picture),
            "--quiet",
            "0.2",
            "--seconds",
            "20",
            *options,
        )
        status, output, said = run("record", self.into, *options, "--", *words)
        return status, output.decode().splitlines(), said

    def asked(self) -> list[str]:
        """What the machine was asked, but for the phases of screens."""
        phases = "stop\nscreendump\n" + "cont\nstop\nscreendump\n" * (PHASES - 1) + "cont\n"
        return (self.folder / "asked").read_text().replace(phases, "screen\n").splitlines()

    def test_a_screen_that_is_equal(self) -> None:
        status, lines, said = self.record()
        self.assertEqual((status, said), (0, ""))
        self.assertRegex(
            lines[-1], r"^screen 1 at \d+\.\d s, after cycle 1: equal, 3x2, six bits a component$"
        )
        self.assertEqual(lines[0], "1 cycle, 8 steps, 16 bytes: 7 frame, 1 out")
        self.assertEqual(lines[1], "8 steps, 0 refused, 0 reads answered, 0 differ")
        self.assertEqual(self.kept(), [*KEPT_OF_SCREEN, *KEPT])
        kept = gzip.decompress((self.into / "trace.gz").read_bytes())
        self.assertEqual(kept, qemu("write 3c2 67 1") + PHASES * (SCREEN + b"\n"))
        self.assertEqual(self.asked(), ["qmp_capabilities", "screen", "quit"])

    def test_screens_that_differ_are_told_with_what_is_known(self) -> None:
        for count, lines, picture, screen, *told in HELD_ROWS_OF_SCREENS:
            with self.subTest(told):
                status, shown, said = self.record(
                    lines=lines, screen=screen, picture=picture, steps=(count,)
                )
                self.assertEqual((status, [shown[2].partition(": ")[2], *shown[3:]]), (1, told))
                self.assertEqual("cycle 3 turns VBE on" in said, lines == HELD_VBE)
                self.assertEqual((self.into / "differing-1.png").exists(), "dots differ" in told[0])
        self.assertEqual(png_rows((self.into / "differing-1.png").read_bytes())[:2], (3, 3))

    def test_what_was_refused_may_be_the_cause(self) -> None:
        lines = qemu("write 3b4 c 2") + qemu("write 3ce 3005 2") + qemu("write 3ce 3005 2")
        answers = ["ok", "E1 NotDecoded", "E2 NotInProfile", "E2 NotInProfile"]
        screen = ppm(3, 2, RED * 3 + WHITE + BLACK * 2)
        program = self.answering(*answers, *[PICTURE] * (PHASES + 1))
        status, told, _ = self.record(lines=lines, screen=screen, program=program)
        cause = "outw 3CE 3005: Bit 5 of graphics mode, shift register mode, is left out of the"
        front = "2 cycles before it ask for what this adapter leaves out, which may be the cause"
        self.assertEqual(status, 1)
        self.assertTrue(told[-1].startswith(f"  {front}: {cause}"), told)
        # Alone they are no difference.
        status, told, _ = self.record(lines=lines, program=program)
        self.assertEqual((status, told[1]), (0, "11 steps, 3 refused, 0 reads answered, 0 differ"))
        self.assertIn("equal", told[-1])

    def test_a_frame_without_a_picture(self) -> None:
        status, lines, _ = self.record(program=self.answering("ok", *["ragged"] * (PHASES + 1)))
        self.assertEqual(
            (status, lines[-1].rpartition(": ")[2]), (1, "here no frame has the shape of a picture")
        )

    def test_a_screen_after_one_whose_frames_have_no_picture(self) -> None:
        frames: list[str | bytes] = ["ragged"] * PHASES
        frames += [PICTURE] * (PHASES + 1)
        screens = ("--screen", "quiet") * 2
        status, lines, _ = self.record(*screens, program=self.answering("ok", *frames))
        self.assertEqual(status, 1)
        self.assertRegex(lines[-2], "^screen 1 at .*: here no frame has the shape of a picture$")
        self.assertRegex(lines[-1], "^screen 2 at .*: equal, 3x2, six bits a component$")

    def test_keys_and_screens_in_their_order_and_time(self) -> None:
        words = ("--screen", "quiet", "--key", "0.1:c,ctrl-l", "--screen", "0.2", "--key", "ret")
        status, lines, _ = self.record(*words, steps=(1, 2, 1))
        self.assertEqual(status, 0)
        expected = [
            "qmp_capabilities",
            "screen",
            "send-key c",
            "send-key ctrl-l",
            "screen",
            "send-key ret",
            "screen",
            "quit",
        ]
        self.assertEqual(self.asked(), expected)
        places = [line.partition("after ")[2].partition(":")[0] for line in lines[-3:]]
        self.assertEqual(places, ["cycle 1", "cycle 3", "cycle 4"])

    def test_a_machine_that_is_never_quiet_ends(self) -> None:
        status, _, said = self.record("--quiet", "50", "--seconds", "1")
        self.assertEqual(
            (status, said),
            (0, "zaklimot: the software was still busy when its screen was taken\n"),
        )
        said = self.record("--quiet", "50", "--seconds", "1", "--key", "ret")[2]
        self.assertIn("seconds were over before it was time for the keys ret", said)

    def test_a_machine_that_ends_by_itself(self) -> None:
        status, lines, said = self.record(
            "--screen", "10", words=("-leaves",), program=self.answering("ok", PICTURE)
        )
        self.assertRegex(said, r"^zaklimot: the machine ended by itself after \d\.\d seconds\n$")
        self.assertEqual((status, lines[1]), (1, "2 steps, 0 refused, 0 reads answered, 0 differ"))

    def kept(self) -> list[str]:
        """The names of what a recording has left."""
        return sorted(path.name for path in self.into.iterdir())

    def note(self) -> Any:
        """The note of a recording."""
        return json.loads((self.into / "recording.json").read_text("ascii"))

    def test_machines_that_do_not_begin(self) -> None:
        told = "qemu-system-x86_64: it doesn't begin: there is no such disc\n"
        for words in (("-ends",), ("-ends", "-late")):
            with self.subTest(words):
                status, lines, said = self.record(words=words)
                self.assertEqual((status, lines, self.into.exists()), (2, [], False), said)
                self.assertEqual(said, f"zaklimot: {told}")

    def test_folders_that_were_made_in_vain_are_gone(self) -> None:
        own = self.folder / "own"
        own.mkdir()
        for folder in (self.folder / "a" / "b", own / "c", own):
            done = run("record", folder, "--vga", self.answering("ok"), "--", "-ends")
            hold_undone(self, done, "it doesn't begin: there is no such disc")
            # The one that was there stays.
            self.assertEqual((list(own.iterdir()), (self.folder / "a").exists()), ([], False))

    def test_a_folder_with_files_that_are_no_recording(self) -> None:
        self.write("own/mine", "x")
        done = run("record", self.folder / "own", "--vga", self.answering("ok"), "--", "-x")
        hold_undone(self, done, "own: it has files: name a new folder$")

    def test_what_was_recorded_before_a_trouble_stays(self) -> None:
        first = "qmp_capabilities"
        for words, told, last in (
            (("-dies",), "qemu: its monitor doesn't do send-key", "send-key ret"),
            (("-refuses",), f"qemu: its monitor doesn't do {first}: there is none\n", first),
        ):
            with self.subTest(words):
                status, lines, said = self.record("--key", "ret", words=words, lines=LINES * 2)
                self.assertEqual((status, lines), (2, []), said)
                again = f"`zaklimot trace record {self.into} --again` judges it"
                front = f"zaklimot: {self.into}: it has what was recorded: {again}\n"
                self.assertTrue(said.startswith(f"{front}zaklimot: {told}"), said)
                self.assertEqual(self.kept(), ["recording.json", "trace.gz"])
                lines_kept = gzip.decompress((self.into / "trace.gz").read_bytes())
                self.assertGreaterEqual(lines_kept.count(b"0x3c2"), 3)
                self.assertEqual(self.note()["ended"], "it was ended")
                self.assertEqual(self.asked()[-1], last)
                self.assert_ended(int((self.folder / "number").read_text()))

    def test_a_machine_that_does_not_end_is_judged_all_the_same(self) -> None:
        with mock.patch.object(recording, "ANSWERING", 2):
            status, lines, said = self.record(words=("-stays",))
        told = "qemu-system-x86_64 didn't end within 2 seconds, and was ended"
        self.assertEqual((status, said), (0, f"zaklimot: {told}\n"))
        self.assertIn("equal", lines[-1])
        self.assert_ended(int((self.folder / "number").read_text()))

    def test_a_trace_that_is_too_long_is_judged_as_far_as_it_goes(self) -> None:
        with mock.patch.object(keeping, "MOST_KEPT", 10):
            status, lines, said = self.record("--quiet", "50", "--key", "ret", "--screen", "quiet")
        full = "its trace has 10 bytes, as they are packed"
        told = f"{full}: the last screen is taken now; --polls first folds polls\n"
        self.assertEqual((status, said), (0, f"zaklimot: {told}"))
        self.assertIn("equal", lines[-1])
        self.assertEqual(self.asked(), ["qmp_capabilities", "screen", "quit"])
        self.assertEqual(self.note()["ended"], full)

    def test_a_disk_that_is_full(self) -> None:
        write = Parts._write
        written: list[bytes] = []

        def filled(kept: Parts, data: bytes) -> None:
            written.append(data)
            if len(written) > 1:
                raise OSError(28, "No space left on device")
            write(kept, data)

        with mock.patch.object(Parts, "_write", filled):
            program = self.answering("ok", PICTURE)
            status, lines, said = self.record("--key", "0.3:ret", program=program)
        told = "its trace can't be kept: No space left on device"
        self.assertEqual((status, said), (1, f"zaklimot: {told}; --polls first folds polls\n"))
        self.assertEqual(lines[0], "1 cycle, 2 steps, 10 bytes: 1 out, 1 frame")
        self.assertEqual(self.asked(), ["qmp_capabilities", "send-key ret", "quit"])
        self.assertEqual(self.note()["ended"], told)

    def test_software_that_leaves_the_adapter_alone(self) -> None:
        self.patch(mock.patch.object(sys.modules[__name__], "LINES", b""))
        status, lines, said = self.record("--quiet", "50", words=("-leaves",))
        told = "it made no cycle of a VGA: the machine ended by itself"
        self.assertEqual((status, lines, self.into.exists()), (2, [], False))
        self.assertIn(told, said)

    def test_a_key_that_there_is_not(self) -> None:
        status, lines, said = self.record("--key", "c,ctrl-rett")
        told = "`rett` is no key of qemu's: `ret` is one"
        self.assertEqual((status, lines, said), (2, [], f"zaklimot: {told}\n"))
        self.assertFalse(self.into.exists() or (self.folder / "asked").exists())
        said = self.record("--key", "power")[2]
        self.assertEqual(said, "zaklimot: `power` is no key of qemu's\n")

    def test_a_recording_that_is_judged_again(self) -> None:
        steps = (1, 1)
        words = ("--screen", "quiet", "--key", "ret")
        status, lines, _ = self.record(*words, steps=steps)
        note = self.note()
        self.assertEqual((status, note["ended"], note["polls"]), (0, "all was done", "keep"))
        self.assertEqual(note["made_by"], "qemu 7.2.1 (Debian)")
        self.assertEqual(note["words"], ["-device", "VGA", "-cdrom", "disc"])
        program = ("--vga", str(self.folder / "vga"))
        done = run("record", self.into, "--again", *program)
        self.assertEqual((done[0], done[1].decode().splitlines(), done[2]), (0, lines, ""))
        # The nearest dump is the one that is kept.
        (self.into / "screen-2.ppm").write_bytes(ppm(3, 2, RED * 6))
        status, output, _ = run("record", self.into, "--again", *program)
        self.assertEqual((status, output.decode().count("dots differ")), (1, 1))
        hold_undone(self, run("record", self.into, *program, "--", "-x"), "or --again to judge it")

    def test_another_card_and_the_digests_of_what_runs(self) -> None:
        disc = self.write("disc.img", b"disc")
        card = f"VGA,romfile={self.write('rom', b'rom')}"
        words = ("-drive", f"file={disc},format=raw")
        self.assertEqual(self.record("--card", card, words=words)[0], 0)
        note = self.note()
        self.assertEqual(note["words"], ["-device", card, *words])
        files = {name: (self.folder / name).read_bytes() for name in ("disc.img", "rom")}
        sums = {f"{self.folder}/{name}": sha256(data).hexdigest() for name, data in files.items()}
        self.assertEqual((note["software"], note["has_beam"]), (sums, False))

    def test_a_plugin_is_built_for_chain_4(self) -> None:
        built = 'echo "$@" > "$0.words"; while [ "$1" != -o ]; do shift; done; echo > "$2"'
        gcc = self.program("bin/gcc", f"#!/bin/sh\n{built}\n")
        self.assertEqual(self.record("--chain-4")[0], 0)
        self.assertIn("trace/chain4.c", Path(f"{gcc}.words").read_text())
        words = self.note()["words"]
        self.assertEqual(Path(words.pop(3)).name, "chain4.so")
        self.assertEqual(words, ["-device", "VGA", "-plugin", "-d", "plugin", "-cdrom", "disc"])

    def test_what_can_not_be_judged_again(self) -> None:
        program = ("--vga", self.answering("ok"))
        for name, note, told in (
            ("none", None, "it is no recording: it has no recording.json"),
            ("text", "hello", "it is no note of a recording, or of another version"),
            ("other", '{"is": "zaklimot recording", "version": 2}', "of another version"),
            ("list", "[]", "it is no note of a recording"),
            ("machine", json.dumps(NOTE_OF_NO_MACHINE), "it is no note of a recording"),
        ):
            with self.subTest(name):
                if note is not None:
                    self.write(f"{name}/recording.json", note)
                hold_undone(self, run("record", self.folder / name, "--again", *program), told)

    def test_polls_are_folded_while_it_records(self) -> None:
        polls = b"".join(qemu("read 3da 1 1") for _ in range(5)) + qemu("read 3cc 67 1")
        status, lines, _ = self.record(
            "--polls", "first", lines=polls * 2, program=self.polled("ok", "00", "67", "00", "67")
        )
        self.assertEqual(status, 0)
        self.assertIn(", 8 polls folded: ", lines[0])
        kept = gzip.decompress((self.into / "trace.gz").read_bytes())
        one = qemu("read 3da 1 1") + b"polls 4 of 'vga-trace'\n" + qemu("read 3cc 67 1")
        self.assertEqual(kept, LINES_KEPT + one * 2 + PHASES * (SCREEN + b"\n"))
        said = run("convert", self.into, self.folder / "script")[1].decode()
        self.assertIn(", 8 polls folded: ", said)

    def test_software_that_waits_for_the_beam(self) -> None:
        front = "7@1700000000.000001:"
        polls = b"".join(qemu(f"read 3da {at % 2 * 9} 1", front=front) for at in range(1500))
        lines = self.record(lines=polls, program=self.polled("ok", *["00"] * 1500))[1]
        front = "it reads input status 1 up to 1,500 times within a frame"
        dumps = "what changes within a frame shows on no screen below"
        lost = "and is lost. Record with --beam, so that it sees a beam"
        self.assertIn(f"{front}: {dumps}, {lost}", lines)
        words = ("--beam", "--polls", "first")
        found = self.record(*words, lines=polls, program=self.polled("ok", *["00"] * 1500))[1]
        drawn = f"and `zaklimot trace pictures {self.into} --beam` draws it"
        self.assertIn(f"{front}: {dumps}, {drawn}", found)
        self.assertEqual(self.note()["words"][:2], ["-vga", "none,retrace=precise"])
        # What finds the retrace stays.
        kept = gzip.decompress((self.into / "trace.gz").read_bytes())
        self.assertEqual(kept.count(b"0x3da"), 1500)
        few = self.record(lines=polls[: len(polls) // 2], program=self.polled("ok", *["00"] * 750))
        self.assertFalse([line for line in few[1] if "within a frame" in line])

    def polled(self, *answers: str) -> str:
        """A program that answers so, and then has the screens."""
        return self.answering(*answers, *[PICTURE] * PHASES, PICTURE)

    def test_a_trace_that_takes_several_scripts(self) -> None:
        steps = [f"write {0xa0000 + at:x} {at % 255 + 1:x} 1" for at in range(0, 6000, 2)]
        lines = qemu("write 3c2 67 1") + qemu("write 3ce 506 2") + qemu("write 3c4 f02 2")
        lines += b"".join(qemu(step, "vga-lowmem") for step in steps)
        want_program()
        with mock.patch.object(converting, "MOST_BYTES", 1024 + 12000):
            status, told, _ = self.record(lines=lines, program=str(PROGRAM_TESTED))
        self.assertIn("steps rebuild the state", told[0])
        self.assertEqual(status, 1)
        names = [name for name in self.kept() if name.startswith(("script", "report"))]
        self.assertEqual(names, ["report-2.txt", "report.txt", "script-2.bin", "script.bin"])
        self.assertIn("0 refused, 0 reads answered, 0 differ", told[1])

    def test_a_program_that_fails_leaves_the_trace(self) -> None:
        # It answers the step that is tried first.
        trying = '[ "$(wc -c < "$2")" -gt 10 ] || { echo 1 00; exit; }'
        program = self.program("vga", f"#!/bin/sh\n{trying}\necho oh >&2\nexit 3\n")
        status, _, said = self.record(program=program)
        self.assertEqual((status, said), (2, f"zaklimot: {program}: it ended with status 3: oh\n"))
        dumps = [f".dump.{number}.ppm" for number in range(PHASES)]
        self.assertEqual(self.kept(), [*dumps, "recording.json", "script.bin", "trace.gz"])
        # What failed is judged once the program is right.
        done = run("record", self.into, "--again", "--vga", self.polled("ok"))
        self.assertEqual((done[0], done[2]), (0, ""))

    def test_a_key_is_given_time_before_it_is_quiet(self) -> None:
        keeper = mock.Mock(size=5, last=0.0)
        session = Session(
            QemuMachine((), quiet=0.2), mock.Mock(), keeper, Path("folder"), mock.Mock(), acted=0.0
        )
        self.assertTrue(session.is_due(Deed()))
        session.press(mock.Mock(), ["ret"])
        self.assertFalse(session.is_due(Deed()))
        session.acted -= 0.3
        self.assertTrue(session.is_due(Deed()))
        keeper.size = 0
        self.assertFalse(session.is_due(Deed()))

    def test_software_that_goes_on_is_not_quiet(self) -> None:
        now = time.monotonic()
        for acted, last, wanted in ((900, 900, True), (900, 1, False), (1, 900, False)):
            keeper = mock.Mock(size=5, last=now - last)
            given = (QemuMachine((), quiet=500), mock.Mock(), keeper, self.folder, mock.Mock())
            self.assertIs(Session(*given, acted=now - acted).is_due(Deed()), wanted)

    def test_a_time_is_that_since_power_on(self) -> None:
        now = time.monotonic()
        keeper = mock.Mock(size=0, last=now)
        given = (QemuMachine(()), mock.Mock(), keeper, self.folder, mock.Mock())
        # Whatever was done since, and though nothing was logged.
        session = Session(*given, began=now - 30, acted=now)
        self.assertTrue(session.is_due(Deed(20.0)))
        self.assertFalse(session.is_due(Deed(600.0, ("ret",))))

    def test_a_screen_is_noted_once_it_is_taken(self) -> None:
        session = Session(
            QemuMachine(()), mock.Mock(), mock.Mock(), self.folder, mock.Mock(), Note("qemu")
        )
        log, do = io.BytesIO(), mock.Mock()
        with mock.patch.object(recording, "PHASE", 0):
            for count in (1, 2):
                session._take_screen(do, log)
                self.assertEqual(len(note_of(self.folder).screens), count)
        # A power cut leaves what was noted so far, and each dump has a file of its own.
        self.assertEqual(log.getvalue(), 2 * PHASES * (SCREEN + b"\n"))
        dumps = [one.kwargs["filename"] for one in do.mock_calls if one.args == ("screendump",)]
        names = [f".dump.{number}.ppm" for number in range(2 * PHASES)]
        self.assertEqual([Path(name).name for name in dumps], names)

    def test_words_of_ones_own_come_last(self) -> None:
        machine = QemuMachine(("-m", "512", "-cdrom", "x"))
        words = recording._qemu(machine, self.folder)
        # What is given twice counts as it is given last.
        self.assertEqual(words[-4:], ["-m", "512", "-cdrom", "x"])
        self.assertEqual([words[at + 1] for at, word in enumerate(words) if word == "-m"][0], "128")
        for word in ("-nodefaults", "-no-reboot", f"events={self.folder}/events"):
            self.assertIn(word, words)
        events = (self.folder / "events").read_text().split()
        self.assertEqual(events, [f"memory_region_ops_{kind}" for kind in ("read", "write")])

    def test_a_frame_at_each_screen(self) -> None:
        mark = SCREEN + b"\n"
        text = (
            mark
            + qemu("write 3c2 67 1")
            + mark
            + mark
            + qemu("write b8000 41 1", "vga-lowmem")
            + mark
        )
        text += qemu("write b8001 1f 1", "vga-lowmem") + mark
        steps = [
            "frame",
            "out 3C2 67",
            "frame",
            "frame",
            "put B8000 41",
            "frame",
            "put B8001 1F",
            "frame",
            "frame",
        ]
        self.assertEqual(listed(text, frames="screens"), steps)
