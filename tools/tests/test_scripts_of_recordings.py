"""Recordings that are too long for one script: where each script ends, what is told of one that
doesn't rebuild the state, or has no room, and the verdict on all of them."""

from __future__ import annotations

import contextlib
import json
from pathlib import Path
from typing import Any
from unittest import mock

from zaklimot.format import Block, Step, decode, encoded
from zaklimot.commands.core.progress import Progress
from zaklimot.commands.script.program import BuiltProgram
from zaklimot.commands.script.words import FONTS
from zaklimot.commands.trace import converting, replaying
from zaklimot.commands.trace.note import Note, kept_parts, note_of, told_of_beam
from zaklimot.commands.trace.parts import Parts
from zaklimot.commands.trace.replaying import Replay, replay

from .tools import PROGRAM, Folder, hold, refused, run_program, want_program
from .tracing import qemu

# The registers of text of 720 by 400 dots. Then a byte is written each time that so many dots have
# passed: those of a line, with which a frame ends too, or others. The seventh frame is kept.
WORDS = ("3C4 0001", "3D4 5F00", "3D4 BF06", "3D4 1F07", "3D4 4F01", "3D4 8F12", "3C4 0F02")
SHAPE = ("3C2 67 1", *(f"{word} 2" for word in (*WORDS, "3CE FF08")), "3C0 20 1")
LINE, OTHERS = 900, 997
MANY = 3200
FRAME = 449 * LINE
# So many bytes has a script of what is traced at most, and its last frame.
OF_TRACE, OF_FRAME = 20_000, 7_000


def traced(dots: int) -> bytes:
    """The trace, in which so many dots pass before each write."""
    lines = [f"0+0 w p {one}" for one in SHAPE]
    for at in range(MANY):
        lines.append(f"{at}+{dots} w m {0xA0000 + at % 500:X} {at % 251 + 1:02X} 1")
        if at == 6 * FRAME // dots:
            lines.append(f"{at}+{7 * FRAME - (at + 1) * dots} frame")
    return "".join(f"{line}\n" for line in lines).encode()


class Long(Folder):
    def setUp(self) -> None:
        super().setUp()
        want_program()
        self.recorded = self.folder / "recorded"
        self.recorded.mkdir()

    def keep(self, data: bytes) -> None:
        """Keeps the trace of a recording."""
        kept = Parts(self.recorded)
        kept.write(data)
        kept.close()

    def replayed(self, is_own: bool, of_trace: int = OF_TRACE) -> Replay:
        """The recording, replayed by scripts that have little room."""
        free = converting.FOR_THE_END + (OF_FRAME if is_own else 0)
        with mock.patch.object(converting, "MOST_BYTES", free + of_trace), mock.patch.object(
            replaying, "REST_OF_FRAME", OF_FRAME
        ):
            return replay(self.recorded, BuiltProgram(str(PROGRAM)), str(FONTS), Progress(), is_own)

    def hold_figures(self, done: Replay) -> None:
        """Holds the figures that are told to the scripts."""
        paths = list(self.recorded.glob("script*.bin"))
        scripts = [decode(path.read_bytes()) for path in paths]
        size = sum(path.stat().st_size for path in paths)
        count = sum(1 for script in scripts for _ in script.steps())
        blocks = sum(isinstance(one, Block) for script in scripts for one in script.items)
        line = done.written.line(done.listing)
        told = f"{done.listing.trace.count:,} cycles, {count:,} steps, {size:,} bytes"
        self.assertEqual(line[: len(told)], told)
        self.assertEqual(done.written.blocks, blocks)
        self.assertEqual("steps rebuild the state" in line, len(paths) > 1)
        self.assertEqual(done.checked.steps + done.listing.rebuilding, count)


class OfThePage(Long):
    """Recordings of the page's machine, whose scripts have the exact time."""

    def setUp(self) -> None:
        super().setUp()
        self.keep(traced(OTHERS))

    def scripts(self) -> list[Path]:
        return sorted(self.recorded.glob("script*.bin"), key=lambda path: (len(path.name), path))

    def beam_after(self, script: Path) -> str:
        """The place of the beam after a script."""
        asked = self.folder / "asked"
        asked.write_bytes(script.read_bytes() + encoded(Step("show beam", ())))
        told = run_program("run", asked, "--fonts", FONTS).report.splitlines()[-1].decode()
        return told.partition(" line ")[2]

    def test_each_script_but_the_last_ends_with_a_frame(self) -> None:
        for dots in (LINE, OTHERS):
            for path in self.scripts():
                path.unlink()
            self.keep(traced(dots))
            whole = replay(self.recorded, BuiltProgram(str(PROGRAM)), str(FONTS), Progress(), True)
            self.assertEqual(len(self.scripts()), 1)
            parts = self.replayed(True)
            *ended, _ = self.scripts()
            self.assertGreaterEqual(len(ended), 1)
            for script in ended:
                self.assertTrue(self.beam_after(script).startswith("0 char 0 dot 0 "), script)
            self.hold_figures(parts)
            for done in (whole, parts):
                self.assertTrue(done.checked.agrees)
                self.assertEqual(done.listing.trace.count, MANY + len(SHAPE))
            # An advance that is cut in two is two steps.
            more = parts.checked.steps - whole.checked.steps
            self.assertEqual(more, 0 if dots == LINE else len(ended))

    def test_no_file_is_left_but_those_of_the_recording(self) -> None:
        self.replayed(True)
        names = {path.name.rstrip("0123456789") for path in self.recorded.iterdir()}
        self.assertFalse([name for name in names if name.startswith(".")], names)


class OfQemu(Long):
    """Recordings of qemu, in which no time passes."""

    def setUp(self) -> None:
        super().setUp()
        front = [qemu("write 3c2 67 1"), qemu("write 3ce 506 2"), qemu("write 3c4 f02 2")]
        puts = (f"write {0xA0000 + at:x} {at % 255 + 1:x} 1" for at in range(0, 2000, 2))
        lines = [qemu(one, "vga-lowmem") for one in puts]
        # Rows that become blocks stand among them.
        rows = [line * (12 if at % 5 == 4 else 1) for at, line in enumerate(lines)]
        self.keep(b"".join([*front, *rows]))

    def test_the_figures_of_several_scripts(self) -> None:
        for of_trace in (2000, 100_000):
            for path in self.recorded.glob("*.bin"):
                path.unlink()
            done = self.replayed(False, of_trace)
            self.assertTrue(done.checked.agrees)
            self.hold_figures(done)

    def test_no_room_for_a_step(self) -> None:
        told = refused(self.replayed, False, 400)
        wanted = "no step has room beside those that rebuild the state"
        self.assertEqual(told, f"{self.recorded}/report-2.txt: {wanted}")


class Notes(Folder):
    def test_polls_of_a_frame(self) -> None:
        def told(count: int, **more: Any) -> list[str]:
            note = Note("qemu", frame_polls=count, **more)
            return [*told_of_beam(note, Path("FOLDER"))]

        # A thousand of them wait for the beam.
        hold(self, told, ((0, []), (999, [])))
        front = "it reads input status 1 up to 1,000 times within a frame: what changes within a"
        self.assertEqual([line[: len(front)] for line in told(1000)], [front])
        self.assertIn("is lost. Record with --beam", told(1000)[0])
        self.assertIn(
            "`zaklimot trace pictures FOLDER --beam` draws it", told(1000, has_beam=True)[0]
        )

    def test_why_a_recording_ended(self) -> None:
        """It was ended, unless it is known why; a trace that can't be kept is told in any case."""
        full = OSError(28, "No space left on device")
        lost = "its trace can't be kept: No space left on device"
        for ended, error, closing, wanted in (
            ("", None, None, ""),
            ("all was done", None, None, "all was done"),
            ("", ValueError(), None, "it was ended"),
            ("it is full", ValueError(), None, "it is full"),
            ("all was done", None, full, lost),
            ("", ValueError(), full, lost),
        ):
            note = Note("qemu", ["-x"], screens=[1.0])
            with (
                contextlib.suppress(ValueError),
                mock.patch.object(Parts, "close", side_effect=closing),
                kept_parts(self.folder, note) as parts,
            ):
                parts.write(b"line\n")
                note.ended = ended
                if error is not None:
                    raise error
            self.assertEqual(note_of(self.folder), note)
            self.assertEqual(note.ended, wanted)

    def test_what_nothing_was_recorded_of_is_gone(self) -> None:
        for screens in range(2):
            note = Note("qemu")
            with contextlib.suppress(ValueError), kept_parts(self.folder, note):
                self.assertEqual(self.names(), ["recording.json", "trace.gz"])
                note.screens += screens * [0.5]
                raise ValueError
            self.assertEqual(self.names(), ["recording.json", "trace.gz"] if screens else [])

    def test_a_note_is_read_as_it_was_written(self) -> None:
        note = Note("page", ["a.com"], "", "", [0.5, 2], 3, "all was done", True, 7, {"a": "b"})
        note.write(self.folder)
        self.assertEqual(note_of(self.folder), note)
        text = (self.folder / "recording.json").read_text("ascii")
        for was, now in (
            ('"version": 1', '"version": 2'),
            ('"machine": "page"', '"machine": "x"'),
            ('"ended": "all was done"', '"ended": 5'),
            ('"refusals": 3', '"refusals": "x"'),
            ('"software": {\n  "a": "b"\n }', '"software": ["a", "b"]'),
            ('"has_beam"', '"no_member"'),
            ("0.5", '"x"'),
        ):
            self.assertEqual(text.count(was), 1, was)
            self.write("recording.json", text.replace(was, now))
            told = refused(note_of, self.folder)
            wanted = "it is no note of a recording, or of another version"
            self.assertEqual(told, f"{self.folder}/recording.json: {wanted}", now)
        self.write("recording.json", json.dumps(json.loads(text)))
        self.assertEqual(note_of(self.folder), note)
