"""Adapters that are held to single-step tests: which faults are found, by which kind, and how."""

from __future__ import annotations

import gzip
import json
import os
import re
import shutil
import sys
from pathlib import Path
from typing import Any
from unittest import mock
from xml.etree import ElementTree

from zaklimot.commands.steps.asking import asked_adapter
from zaklimot.commands.steps.checking import (
    BranchCounts,
    BranchName,
    Branches,
    HeldFile,
    _junit_text,
    ranked,
)
from zaklimot.commands.steps.parts import FINAL
from zaklimot.commands.steps.reading import read_elements

from .steps_adapter import FAULTS, FaultyCard
from .stepping import COUNT, GOOD, Made, STEPS_EXAMPLES, files, steps, told
from .tools import SIGNALS, TOOLS, begin, ended


# Which kinds find each fault, and the rule that is told first.
FOUND = {
    "set-reset-in-write-mode-1": ("write-mode-1-planar", "write mode 1 stores the latches"),
    "bit-mask-ignored-in-write-mode-3": (
        "write-mode-3-planar",
        "write mode 3: the byte narrows the mask",
    ),
    "latches-not-loaded": ("read-mode-0-planar", "a read loads all latches"),
    "odd-even-bit-kept": ("read-mode-0-odd-even", "the offset in a plane"),
    "map-mask-ignored-in-chain-4": ("write-mode-0-chain-4", "the planes that a write reaches"),
    "dac-index-stays": ("dac-writes", "components of the DAC are written"),
    "flip-flop-stays": ("input-status-1", "input status 1 makes the next write an index"),
    "no-protection": ("crt-controller-protected", "protected registers"),
    "panning-by-nine-dots": ("dots-text", "panning"),
    "blink-inverted": ("dots-text", "blink"),
    "cursor-ends-a-line-early": ("dots-text", "cursor"),
    "all-planes-enabled": ("dots-16-colours", "a colour's number"),
    "line-compare-ignored": ("clock", "the end of a line"),
    "colours-kept-by-mode-sets": ("service-00-mode-sets", "00 sets a mode"),
}
# Faults of the toy adapter: what of its text is another, a kind that finds it, and the rule.
TOY_FAULTS = (
    (
        "return latch\n",
        "return rotated\n",
        "write-mode-1-planar",
        "write mode 1 stores the latches",
    ),
    (
        "place & 1 else 0b0101",
        "place & 2 else 0b0101",
        "write-mode-0-odd-even",
        "the planes that a",
    ),
    ("return ~differing & 0xFF", "return differing", "read-mode-1-planar", "read mode 1"),
    ("self.dac_index + (self.dac", "0 * (self.dac", "dac-reads", "components of the DAC are read"),
    ("byte & KEPT[self.seq_index]", "byte", "sequencer", "sequencer registers"),
)
AGREE = f"{COUNT} elements: {COUNT} agree, 0 differ"
STRICT = ("-Wall", "-Wextra", "-Werror")
# What compiles a loader, a file of the library that it takes, Debian's package for that, and words.
COMPILED = {
    "loader.c": (("gcc", *STRICT), "/usr/include/jansson.h", "libjansson-dev", ("-ljansson",)),
    "loader.cpp": (
        ("g++", "-std=c++17", *STRICT),
        "/usr/include/nlohmann/json.hpp",
        "nlohmann-json3-dev",
        (),
    ),
}
# The status of a program in Rust that panics.
RUST_PANICS = 101
# Debian's crates, from which cargo takes what it would fetch elsewhere, and their packages.
CRATES = Path("/usr/share/cargo/registry")
CRATES_OF = {"serde_json": "librust-serde-json-dev", "serde_derive": "librust-serde-derive-dev"}


class Faults(Made):
    def held(self, kind: str, fault: str, count: int) -> HeldFile:
        """What comes of an adapter with a fault, or with none."""
        card, held = FaultyCard(FAULTS.get(fault)), HeldFile(kind)
        for number, element in enumerate(self.elements(kind, count)):
            held.judge(element, card.answer(element), number)
        return held

    def test_the_portable_file_agrees(self) -> None:
        for kind, path in self.files.items():
            card, held = FaultyCard(None), HeldFile(kind)
            for number, element in enumerate(read_elements(str(path))):
                held.judge(element, card.answer(element), number)
            self.assertEqual((held.agree, held.differ, held.left_out), (COUNT, 0, {}), held.first)

    def test_each_is_found_by_its_kind_and_named_by_its_rule(self) -> None:
        self.assertEqual(set(FOUND), set(FAULTS))
        for fault, (kind, rule) in FOUND.items():
            with self.subTest(fault):
                # Rules of text meet in many of its dots: fewer elements don't tell them apart.
                held = self.held(kind, fault, 500 if kind == "dots-text" else 250)
                self.assertGreater(held.differ, 5)
                self.assertEqual(held.branches()[0].rule, rule, list(held.lines()))

    def test_the_end_of_the_cursor_is_named_by_its_line(self) -> None:
        held = self.held("dots-text", "cursor-ends-a-line-early", 500)
        self.assertEqual(held.branches()[0][:2], ("cursor", "its last line"))

    def test_no_other_kind_finds_it(self) -> None:
        for fault, others in (
            ("set-reset-in-write-mode-1", ("write-mode-0-planar", "write-mode-3-planar")),
            ("blink-inverted", ("dots-16-colours", "dots-256-colours")),
            ("no-protection", ("crt-controller", "sequencer")),
        ):
            for kind in others:
                self.assertEqual(self.held(kind, fault, COUNT).differ, 0, (fault, kind))

    def test_a_few_elements_say_less_than_many(self) -> None:
        few, many = HeldFile("few"), HeldFile("many")
        few.counts[BranchName("a", "b")] = BranchCounts(0, 1)
        many.counts[BranchName("c", "d")] = BranchCounts(1, 17)
        self.assertEqual(ranked([few, many])[0], Branches("c", "d", 1, 17))

    def test_a_rule_is_blamed_for_what_it_governs_alone(self) -> None:
        held = self.held("read-mode-0-planar", "latches-not-loaded", COUNT)
        counts = {one.rule: one.differ for one in held.branches() if not one.branch}
        self.assertEqual((counts["read mode 0"], counts["enable RAM"]), (0, 0))
        self.assertEqual(counts["a read loads all latches"], held.differ)
        held = self.held("service-00-mode-sets", "colours-kept-by-mode-sets", COUNT)
        counts = {one.rule: one.differ for one in held.branches() if not one.branch}
        others = ("a mode set leaves latches and beam", "no mode is set")
        self.assertEqual([counts[name] for name in others], [0, 0])
        held = self.held("dots-16-colours", "all-planes-enabled", COUNT)
        counts = {one.rule: one.differ for one in held.branches() if not one.branch}
        self.assertEqual(
            (counts["a colour's number"], counts["the end of a line"]), (held.differ, 0)
        )


class Loaders(Made):
    """The loaders of docs/STEPS.md, each over a toy adapter."""

    def run_loader(self, words: list[Any], path: Path) -> tuple[int, str]:
        given = told(path) if words[0] != sys.executable else b""
        words = words if given else [*words, path]
        status, output, said = ended(*words, input=given, text=False)
        self.assertEqual(said, b"")
        return status, output.decode()

    def hold_loader(self, words: list[Any]) -> None:
        """Holds a loader to elements that agree, and to one that doesn't."""
        for kind in ("write-mode-0-odd-even", "write-mode-3-planar", "read-mode-1-chain-4"):
            done = self.run_loader(words, self.files[kind])
            self.assertEqual(done, (0, f"{COUNT} right, 0 wrong\n"), kind)
        wrong = list(read_elements(str(self.files["write-mode-0-planar"])))
        done_one = next(one for one in wrong if "refused" not in one)
        done_one[FINAL]["planes"][0][2] ^= 1
        lines = ",\n".join(json.dumps(one, separators=(",", ":")) for one in wrong)
        path = self.folder / "wrong.json.gz"
        path.write_bytes(gzip.compress(f"[\n{lines}\n]\n".encode()))
        status, output = self.run_loader(words, path)
        self.assertEqual((status, output.splitlines()[-1]), (1, f"{COUNT - 1} right, 1 wrong"))
        self.assertIn(done_one["name"], output)

    def hold_unread(self, program: Path) -> None:
        """Holds a loader to what it can't read, and to elements whose steps it doesn't do."""
        others = [told(self.files[kind]) for kind in ("sequencer", "write-words")]
        for given in (b"", b"no JSON", *others):
            status, output, said = ended(program, input=given, text=False)
            self.assertIn(status, (1, 2, RUST_PANICS))
            self.assertTrue(said or output.endswith(f"\n0 right, {COUNT} wrong\n".encode()), given)

    def test_python(self) -> None:
        self.hold_loader([sys.executable, STEPS_EXAMPLES / "loader.py"])

    def want(self, program: str, file: Path, package: str) -> None:
        """Skips a test for which a program or a file is missing."""
        if shutil.which(program) is None or not file.exists():
            self.skipTest(f"{program} or Debian's package {package} isn't installed")

    def hold_compiled(self, name: str) -> None:
        """Compiles a loader, and holds it."""
        command, file, package, libraries = COMPILED[name]
        self.want(command[0], Path(file), package)
        program = self.folder / name.replace(".", "-")
        done = ended(*command, "-o", program, STEPS_EXAMPLES / name, *libraries)
        self.assertEqual((done[0], done[2]), (0, ""))
        self.hold_loader([program])
        self.hold_unread(program)

    def test_c(self) -> None:
        self.hold_compiled("loader.c")

    def test_cpp(self) -> None:
        self.hold_compiled("loader.cpp")

    def test_rust(self) -> None:
        for crate, package in CRATES_OF.items():
            self.want("cargo", next(CRATES.glob(f"{crate}-*"), CRATES / "none"), package)
        for name in ("Cargo.toml", "loader.rs", "toy.rs"):
            shutil.copy(STEPS_EXAMPLES / name, self.folder)
        config = [f'source.debian.directory="{CRATES}"', 'source.crates-io.replace-with="debian"']
        words = [word for one in config for word in ("--config", one)]
        given = {**os.environ, "CARGO_HOME": str(self.folder / "home"), "RUSTFLAGS": "-Dwarnings"}
        given.update({"CARGO_TARGET_DIR": str(self.folder / "made"), "CARGO_INCREMENTAL": "0"})
        given.update({"CARGO_PROFILE_DEV_DEBUG": "0"})
        done = ended("cargo", "build", "-q", "--offline", *words, cwd=self.folder, env=given)
        self.assertEqual((done[0], done[2]), (0, ""))
        program = self.folder / "made" / "debug" / "loader"
        self.hold_loader([program])
        self.hold_unread(program)

    def check_toy(self, text: str, kind: str, name: str = "toy.py") -> tuple[int, str]:
        """What `check` tells of a toy adapter that has this text."""
        shutil.copy(STEPS_EXAMPLES / "toy.py", self.folder)
        toy = self.write(name, text)
        words = ("check", f"{sys.executable} -S {toy}", self.files[kind])
        status, output, said = steps(*words)
        self.assertEqual(said, "")
        return status, output

    def test_the_toy_adapter(self) -> None:
        text = (STEPS_EXAMPLES / "toy.py").read_text("utf-8")
        for kind in (
            "write-words",
            "read-words",
            "sequencer",
            "dac-writes",
            "dac-reads",
            "dac-mask",
        ):
            status, output = self.check_toy(text, kind)
            self.assertEqual((status, output.splitlines()[-1]), (0, AGREE))

    def test_the_toys_skip_what_they_do_not_do(self) -> None:
        for name, kind in (("toy.py", "crt-controller"), ("beam.py", "dac-mask")):
            text = (STEPS_EXAMPLES / name).read_text("utf-8")
            output = self.check_toy(text, kind, name)[1]
            self.assertEqual(
                output.splitlines()[-1], f"{COUNT} elements: 0 agree, 0 differ, {COUNT} skipped"
            )

    def test_the_toy_beam(self) -> None:
        text = (STEPS_EXAMPLES / "beam.py").read_text("utf-8")
        # An advance by millions of dots takes it a minute.
        for kind in ("dots-text", "dots-16-colours", "dots-256-colours", "input-status-1"):
            status, output = self.check_toy(text, kind, "beam.py")
            self.assertEqual((status, output.splitlines()[-1]), (0, AGREE))
        wrong = text.replace("(pan & 7) + 1", "(pan & 7)")
        status, output = self.check_toy(wrong, "dots-16-colours", "beam.py")
        self.assertEqual(status, 1)
        self.assertRegex(output, "panning: characters of nine dots \\(docs/RASTER.md#where-a-dot")

    def test_the_toy_clock(self) -> None:
        text = (STEPS_EXAMPLES / "beam.py").read_text("utf-8")
        for kind in ("clock", "clock-changed"):
            some = [one for one in read_elements(str(self.files[kind])) if one["advance"][0] < 9999]
            self.assertGreater(len(some), 5)
            path = self.write("some.json", "[\n" + ",\n".join(map(json.dumps, some)) + "\n]\n")
            with mock.patch.dict(files, {kind: Path(path)}):
                status, output = self.check_toy(text, kind, "beam.py")
            self.assertEqual(status, 0, output)

    def test_faults_of_the_toy_adapter(self) -> None:
        text = (STEPS_EXAMPLES / "toy.py").read_text("utf-8")
        for was, now, kind, rule in TOY_FAULTS:
            with self.subTest(now):
                self.assertEqual(text.count(was), 1)
                # The examples are too few to tell the rule from others.
                many = ",\n".join(map(json.dumps, self.elements(kind, 60)))
                path = self.write("many.json", f"[\n{many}\n]\n")
                with mock.patch.dict(files, {kind: Path(path)}):
                    status, output = self.check_toy(text.replace(was, now), kind)
                self.assertEqual(status, 1)
                first = re.search(r"(?m)^ +\d+ of \d+  (.*)$", output)
                assert first is not None, output
                self.assertTrue(first[1].startswith(rule), output)


class Checking(Made):
    def test_what_is_left_out_is_told_and_no_answer_is_none(self) -> None:
        path = self.files["sequencer"]
        adapter = self.program(
            "adapter",
            "import sys, json\n"
            "for line in sys.stdin: print(json.dumps({'final': {'seq_index': 9}}), flush=True)\n",
        )
        status, output, _ = steps("check", adapter, path)
        self.assertEqual(status, 1)
        self.assertIn(f"seq is left out of {COUNT} answers", output)
        status, output, _ = steps("check", "cat", path)
        self.assertEqual(status, 1)
        self.assertIn(f"{COUNT} elements: 0 agree, {COUNT} differ", output)

    def test_what_is_skipped_agrees_with_nothing(self) -> None:
        adapter = self.program(
            "adapter",
            "import sys\nfor line in sys.stdin: print('{\"skipped\": true}', flush=True)\n",
        )
        status, output, _ = steps("check", adapter, self.files["clock"])
        self.assertEqual(status, 1)
        self.assertIn(f"{COUNT} skipped", output)

    def test_an_adapter_sees_no_answer(self) -> None:
        notes = self.folder / "notes"
        adapter = self.program(
            "adapter",
            "import sys\n"
            f"notes = open({str(notes)!r}, 'w')\n"
            "for line in sys.stdin: notes.write(line); print('{\"final\": {}}', flush=True)\n",
        )
        steps("check", adapter, self.files["read-words"])
        for line in notes.read_text().splitlines():
            self.assertEqual(set(json.loads(line)) & {"final", "answer", "refused"}, set())

    def test_an_adapter_that_ends_or_says_no_json(self) -> None:
        path = self.files["sequencer"]
        slow = self.program("slow", "import time\ntime.sleep(100)\n")
        for command, said in (
            ("false", "false: it ended with status 1 at element 0$"),
            ("sh -c 'echo oh >&2; exit 3'", "sh: it ended with status 3 at element 0\noh$"),
            ("echo hello", "echo: its answer to element 0 is no JSON: .*: hello$"),
            ("echo 5", "echo: its answer to element 0 is no element: 5$"),
            ("yes x", "yes: its answer to element 0 is no JSON: "),
            ("no-such-command", "no-such-command: No such file or directory$"),
            ("'", "the command ''': No closing quotation"),
            (" ", "the command is empty"),
            (f"{slow}", "slow: it did not answer element 0 in 1 second$"),
            ("tr -d '\\n' < /dev/zero", "tr: its answer|tr: it ended"),
        ):
            with self.subTest(command):
                done = steps("check", command, path, "--timeout", "1")
                self.assertEqual(done[:2], (2, ""))
                self.assertRegex(done[2], said)

    def test_no_process_is_left(self) -> None:
        notes = self.folder / "number"
        text = f"#!/bin/sh\necho $$ > {notes}\nsleep 600 &\nexec cat\n"
        with asked_adapter(self.program("cat", text), 5) as adapter:
            self.assertEqual(adapter.answer({**GOOD}, 0)["put"], GOOD["put"])
        self.assert_ended(int(notes.read_text()))

    def test_signals_end_the_adapter(self) -> None:
        notes = self.folder / "number"
        text = f"#!/bin/sh\nsleep 600 &\necho $$ $! > {notes}\nwait\n"
        words = ("check", self.program("adapter", text), STEPS_EXAMPLES / "sequencer.json.gz")
        for number, status in SIGNALS:
            with self.subTest(number):
                notes.unlink(missing_ok=True)
                with begin("zaklimot", "steps", *words) as process:
                    numbers = [int(word) for word in self.wait_for(notes, process).split()]
                    process.send_signal(number)
                    output, said = process.communicate(timeout=60)
                self.assertEqual((process.returncode, output, said), (status, b"", b""))
                self.assert_ended(*numbers)

    def test_what_all_files_say_together(self) -> None:
        paths = [self.files["sequencer"], self.files["dac-mask"], self.files["clock"]]
        adapter = f"{sys.executable} {TOOLS / 'tests' / 'steps_adapter.py'}"
        output = steps("check", adapter, *paths)[1]
        self.assertNotIn("of all files", output)
        self.assertTrue(
            output.endswith(f"{3 * COUNT} elements: {3 * COUNT} agree, 0 differ\n"), output
        )
        output = steps("check", "cat", *paths[:2])[1]
        each, together = output.split("of all files\n")
        self.assertEqual(each.count("  the first that differs is element "), 2)
        # So many rules are named at most.
        self.assertEqual(len(re.findall(r"(?m)^ +\d+ of \d+  ", together)), 3, output)

    def test_at_most_eight_differences_are_told(self) -> None:
        held = HeldFile("file")
        places = [[offset, 1, 1, 1, 1] for offset in range(9)]
        wanted = {**GOOD, FINAL: {"planes": [[place[0], 0, 0, 0, 0] for place in places]}}
        held.judge(wanted, {FINAL: {"planes": places}}, 0)
        self.assertEqual(len([line for line in held.lines() if line.startswith("    planes")]), 8)

    def test_as_many_differences_stand_in_a_report_for_test_runners(self) -> None:
        # Nine entries of the DAC have another blue.
        element = next(iter(read_elements(str(STEPS_EXAMPLES / "dac-writes.json.gz"))))
        colours = [[entry, 1, 1, 1] for entry in range(9)]
        final = {**element[FINAL], "colours": [[*one[:3], 2] for one in colours]}
        wanted = {**element, FINAL: final}
        held = HeldFile("file")
        held.judge(wanted, {FINAL: {**final, "colours": colours}}, 4)
        cases = ElementTree.fromstring(_junit_text([held]).partition("\n")[2])
        text = next(one.text for one in cases.iter("failure")) or ""
        assert held.first is not None
        told_of = f"the first of the file that differs: element 4, {element['name']}"
        self.assertEqual(text.split("\n")[-9:], [told_of, *held.first.differences[:8]])

    def test_refusals_may_be_left_out(self) -> None:
        path = self.files["other-ports"]
        refused = sum("refused" in one for one in read_elements(str(path)))
        adapter = f"{sys.executable} {TOOLS / 'tests' / 'steps_adapter.py'}"
        status, output, _ = steps("check", adapter, path, "--no-refusals")
        self.assertEqual(status, 0)
        self.assertIn(f"{COUNT - refused} agree, {refused} skipped", output)

    def test_reports_for_machines(self) -> None:
        xml, counts = self.folder / "junit.xml", self.folder / "counts.json"
        adapter = f"{sys.executable} {TOOLS / 'tests' / 'steps_adapter.py'} dac-index-stays"
        words = (self.files["dac-writes"], self.files["sequencer"])
        status, output, said = steps("check", adapter, *words, "--junit", xml, "--json", counts)
        self.assertEqual((status, said), (1, ""))
        suites = ElementTree.parse(xml).getroot()
        failed = {
            case.get("name") for case in suites.iter("testcase") if case.find("failure") is not None
        }
        self.assertIn("components of the DAC are written", failed)
        self.assertEqual([suite.get("failures") for suite in suites][1], "0")
        found = json.loads(counts.read_text())
        self.assertGreater(found[0]["differ"], 0)
        self.assertEqual(found[1]["differ"], 0)
        self.assertIn("dac_index", found[0]["first"]["differences"][0])
