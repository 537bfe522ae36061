"""What holds of any text that a person or a file may give: it is read, or refused with a reason of
bounded length, and nothing else is raised. Hypothesis finds the texts, the same in each run."""

from __future__ import annotations

import argparse
import io
import sys
import unittest
from typing import Any, Callable
from unittest import mock

try:
    from hypothesis import given, settings, strategies as some
except ImportError as error:
    raise unittest.SkipTest("this Python has no hypothesis: install python3-hypothesis") from error

from zaklimot.format import Report, ReportError, ScriptFault, decode, encode, parse_text, print_text
from zaklimot.commands.core.trouble import Trouble
from zaklimot.commands.core.words import MOST_SCALE, MOST_SECONDS, number_to, seconds
from zaklimot.commands.explain.mistakes import marked_lines, mistake_in
from zaklimot.commands.floppy.image import read_image, read_record
from zaklimot.commands.images.words import within
from zaklimot.commands.report.expecting import dumps_in, expected_in
from zaklimot.commands.steps.reading import fault_of, read_elements
from zaklimot.commands.steps.rules import branches_shown
from zaklimot.commands.steps.scripts import text_lines
from zaklimot.commands.trace.trace import Trace

from .stepping import GOOD
from .tools import EXAMPLES, stream

# So many texts for each property, and so long may a reason be.
TEXTS = 150
MOST_REASON = 400
tried = settings(max_examples=TEXTS, deadline=None, derandomize=True, database=None)
# Words of the grammar, words that look like them, and any others.
KNOWN = (
    "script 2;repeat 3;end;out;outw;in;put;putw;get;advance;frame;text;show;regs;plane;dac;int;"
    "ax=13;bx=1;block;FF;3C4;0x3C4;03C4h;A0000;FFFFFFFFF;16777217;-1;+5;1_0;= ok;= *;...;\t;\r"
).split(";")
ODD = ("9" * 5000, "0" * 5000 + "1", "²", "٣", "\0", "\ud800", "; = 55", ";| misc 67", "i", "1e400")
words = some.sampled_from((*KNOWN, *ODD)) | some.text(max_size=8)
lines = some.lists(words, max_size=7).map(" ".join)
texts = some.lists(lines, max_size=6).map("\n".join)
# Words of traces and of reports.
TRACED = (
    "# ticks;t=5;+100;in 3DA = 00;out 3C4 02;w8 A0000 41;pci_vga;vga_std_write_io addr 0x3c4".split(
        ";"
    )
)
REPORTED = "1;2;ok;55;E1 NotDecoded;picture;P6;720 400;63;skipped;ax=0013;864014;misc 67".split(";")


def data_of(text: str) -> bytes:
    """A text as a file or the command line has it."""
    return text.encode("utf-8", "surrogatepass")


def any_lines(known: list[str]) -> Any:
    """Data of lines of these words and others."""
    one = some.lists(some.sampled_from(known) | words, max_size=5).map(" ".join)
    return some.lists(one, max_size=8).map("\n".join).map(data_of) | some.binary(max_size=200)


# What JSON may give, and elements with some members of that.
values: Any = some.recursive(
    some.none()
    | some.booleans()
    | some.integers(-2, 1 << 33)
    | some.floats()
    | some.text(max_size=5),
    lambda inner: some.lists(inner, max_size=6)
    | some.dictionaries(
        some.sampled_from([*GOOD["initial"], "seq", "gfx", "bda", "ax"]), inner, max_size=4
    ),
    max_leaves=12,
)
members = some.sampled_from([*GOOD, "get", "int", "line", "advance", "answer", "refused", "reach"])
changed = some.dictionaries(members, values, max_size=3).map(lambda some: {**GOOD, **some})


class Properties(unittest.TestCase):
    def setUp(self) -> None:
        # Hypothesis takes a package that the tests hide for one that is there.
        shown = mock.patch.dict(sys.modules)
        shown.start()
        self.addCleanup(shown.stop)
        for name in [name for name, module in sys.modules.items() if module is None]:
            del sys.modules[name]

    def holds(self, read: Callable[[], object], *refusals: type[Exception]) -> Any:
        """What is read, or None where it is refused with a reason that isn't long."""
        try:
            return read()
        except refusals as error:
            self.assertTrue(str(error))
            self.assertLess(len(str(error)), MOST_REASON)
            return None

    @tried
    @given(words)
    def test_words_of_options(self, word: str) -> None:
        refusal = argparse.ArgumentTypeError
        number = self.holds(lambda: number_to(MOST_SCALE)(word), refusal)
        self.assertTrue(number is None or 1 <= number <= MOST_SCALE)
        time = self.holds(lambda: seconds(word), refusal)
        self.assertTrue(time is None or 0 < time <= MOST_SECONDS)
        self.holds(lambda: within(word), refusal)

    @tried
    @given(texts)
    def test_texts_of_scripts(self, text: str) -> None:
        script = self.holds(lambda: parse_text(data_of(text)), ScriptFault)
        if script is not None:
            self.assertEqual(parse_text(print_text(script)), script)
            self.assertEqual(decode(encode(script)), script)

    @tried
    @given(some.binary(max_size=60))
    def test_bytes_of_scripts(self, data: bytes) -> None:
        script = self.holds(lambda: decode(data), ScriptFault)
        if script is not None:
            self.assertEqual(encode(script), data)

    @tried
    @given(lines)
    def test_mistakes_lie_in_their_line(self, line: str) -> None:
        data = data_of(line)
        mistake = mistake_in(data)
        if mistake is not None:
            line = line.split("\n")[mistake.line - 1]
            self.assertTrue(0 <= mistake.at <= len(line))
            self.assertLess(len(mistake.reason), MOST_REASON)
            self.assertTrue(all(len(marked) < 110 for marked in marked_lines(line, mistake)))

    @tried
    @given(texts)
    def test_comments_that_expect(self, text: str) -> None:
        self.holds(lambda: dumps_in(data_of(text), "file"), Trouble)
        self.holds(lambda: expected_in(data_of(text)))

    @tried
    @given(any_lines(REPORTED))
    def test_reports(self, data: bytes) -> None:
        self.holds(lambda: list(Report(stream(data)).answers()), ReportError)

    @tried
    @given(any_lines(TRACED))
    def test_traces(self, data: bytes) -> None:
        self.holds(lambda: list(Trace(io.BytesIO(data), "file").cycles()), Trouble)

    @tried
    @given(any_lines(REPORTED))
    def test_images_of_floppies_and_records(self, data: bytes) -> None:
        self.holds(lambda: read_image(data, "file"), Trouble)
        self.holds(lambda: read_record(data, "file"), Trouble)

    @tried
    @given(changed | values)
    def test_elements(self, element: Any) -> None:
        fault = fault_of(element)
        self.assertLess(len(fault), MOST_REASON)
        if not fault:
            self.assertTrue(list(text_lines(element)))
            list(branches_shown(element))

    def test_good_ones_are_read(self) -> None:
        """The readers refuse not everything."""
        for path in sorted(EXAMPLES.glob("*.vga")):
            self.assertTrue(parse_text(path.read_bytes()).items)
        trace = (EXAMPLES / "typed-line.trace").read_bytes()
        self.assertTrue(list(Trace(io.BytesIO(trace), "file").cycles()))
        path = EXAMPLES / "steps" / "sequencer.json.gz"
        self.assertEqual({fault_of(one) for one in read_elements(str(path))}, {""})
