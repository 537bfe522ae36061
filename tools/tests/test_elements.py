"""Elements by any way: standard input and several files, adapters that answer too much or end in
the middle, what the library refuses, and what is told of coverage and of machines' reports."""

from __future__ import annotations

import gzip
import hashlib
import json
import os
import re
import unittest
from pathlib import Path
from unittest import mock
from xml.etree import ElementTree

from zaklimot.format import Step
from zaklimot.commands.script.words import FONTS
from zaklimot.commands.script import library
from zaklimot.commands.steps import archive, asking
from zaklimot.commands.steps.adapter import SteppedCard
from zaklimot.commands.steps.library import load
from zaklimot.commands.steps.parts import FINAL, Element
from zaklimot.commands.steps.reading import read_elements

from .stepping import GOOD, STEPS_EXAMPLES, steps
from .tools import Folder, begin, hold_refused, hold_undone, refused, run_tool, takes_long

SEQUENCER = STEPS_EXAMPLES / "sequencer.json.gz"
MASKS = STEPS_EXAMPLES / "dac-mask.json.gz"
# An adapter that has read the answers of a file of elements, and gives them.
KNOWING = """import json, sys
known = {}
for line in open(sys.argv[1]):
    if len(line) > 2:
        element = json.loads(line.rstrip(",\\n"))
        known[element["name"]] = element
names = "final", "answer", "refused"
with open(sys.argv[2], "a") as notes:
    notes.write("begun\\n")
for line in sys.stdin:
    element = known[json.loads(line)["name"]]
    print(json.dumps({name: element[name] for name in names if name in element}), flush=True)
"""


class Elements(Folder):
    def elements(self, name: str, *given: Element) -> str:
        """A file of elements."""
        return self.write(name, "[\n" + ",\n".join(map(json.dumps, given)) + "\n]\n")

    def knowing(self, *paths: Path | str) -> str:
        """A command that answers the elements of these files as they say."""
        lines = [json.dumps(one) for path in paths for one in read_elements(str(path))]
        known = self.write("known", "".join(f"{line}\n" for line in lines))
        return f"{self.program('knowing', KNOWING)} {known} {self.folder / 'notes'}"

    def given(self, data: bytes, *words: str | Path) -> tuple[int, str, str]:
        """What the tool does that reads these bytes on standard input."""
        status, output, said = run_tool("zaklimot", "steps", *words, given=data)
        return status, output.decode(), said


@takes_long
class StandardInput(Elements):
    def test_each_command_reads_it(self) -> None:
        data = SEQUENCER.read_bytes()
        plain = gzip.decompress(data)
        of_file = [steps(*words) for words in self.commands(SEQUENCER)]
        for given in (data, plain, plain.replace(b"\n", b"\r\n")):
            for words, wanted in zip(self.commands(Path("-")), of_file):
                done = self.given(given, *words)
                told = wanted[1].replace(str(SEQUENCER), "standard input")
                told = told.replace(SEQUENCER.name, "standard input")
                self.assertEqual(done, (wanted[0], told, ""), words)

    def commands(self, path: Path) -> list[tuple[str | Path, ...]]:
        return [
            ("script", path, "3"),
            ("script", path, "3", "--then", "dumps"),
            ("check", "cat", path),
        ]


class Asking(Elements):
    def test_the_adapter_begins_once_for_each_file(self) -> None:
        command = self.knowing(SEQUENCER, MASKS)
        status, output, said = steps("check", command, SEQUENCER, MASKS)
        told = [f"{path}: 20 agree" for path in (SEQUENCER, MASKS)]
        self.assertEqual(output.splitlines(), [*told, "40 elements: 40 agree, 0 differ"])
        self.assertEqual((status, said), (0, ""))
        self.assertEqual((self.folder / "notes").read_text(), 2 * "begun\n")

    def test_one_of_two_files_differs(self) -> None:
        command = self.knowing(SEQUENCER, self.changed("dac-mask.json", MASKS))
        status, output, _ = steps("check", command, SEQUENCER, MASKS)
        lines = output.splitlines()
        self.assertEqual((status, lines[0]), (1, f"{SEQUENCER}: 20 agree"))
        self.assertEqual(lines[1], f"{MASKS}: 19 agree, 1 differ")
        first = next(iter(read_elements(str(MASKS))))
        self.assertEqual(lines[2], f"  the first that differs is element 0, {first['name']}")
        self.assertEqual(lines[-1], "40 elements: 39 agree, 1 differ")
        self.assertNotIn("of all files", output)

    def test_a_file_comes_into_a_pipe_before_the_next_one_ends(self) -> None:
        go_on = self.folder / "go on"
        answer = 'read line && echo "{\\"skipped\\": true}"'
        # The second time it waits for the file.
        wait = f"test ! -e begun || until test -e '{go_on}'; do sleep 0.05; done\n>begun\n"
        answers = f"for i in $(seq 20); do {answer}; done\n"
        command = self.program("adapter", f"#!/bin/sh\n{wait}{answers}")
        words = ("steps", "check", command, str(SEQUENCER), str(MASKS))
        with begin("zaklimot", *words, cwd=self.folder) as process:
            assert process.stdout is not None
            line = process.stdout.readline()
            go_on.touch()
            rest = process.communicate(timeout=60)[0]
        self.assertEqual(line.decode(), f"{SEQUENCER}: 20 skipped\n")
        self.assertTrue(rest.decode().startswith(f"{MASKS}: 20 skipped\n"), rest)

    def test_the_first_element_that_differs_may_end_all(self) -> None:
        changed = self.changed("dac-mask.json", MASKS)
        command = self.knowing(changed, SEQUENCER)
        status, output, said = steps("check", command, MASKS, SEQUENCER, "--fail-fast")
        lines = output.splitlines()
        self.assertEqual((status, said, lines[0]), (1, "", f"{MASKS}: 1 differ"))
        self.assertEqual(lines[-1], "1 element: 0 agree, 1 differ; the others were not run")
        words = ("check", command, changed, SEQUENCER)
        self.assertEqual(steps(*words, "--fail-fast"), steps(*words))

    def changed(self, name: str, path: Path) -> str:
        """A file whose first element has another state at the end."""
        first, *others = read_elements(str(path))
        final = {**first[FINAL], "dac_mask": first[FINAL]["dac_mask"] ^ 1}
        return self.elements(name, {**first, FINAL: final}, *others)

    def test_what_machines_read_stands_alone_on_standard_output(self) -> None:
        command = self.knowing(SEQUENCER, MASKS)
        plain = steps("check", command, SEQUENCER, MASKS)
        counts, junit = (
            steps("check", command, SEQUENCER, MASKS, option, "-")
            for option in ("--json", "--junit")
        )
        for done in (counts, junit):
            self.assertEqual((done[0], done[2]), (0, plain[1]))
        found = json.loads(counts[1])
        self.assertEqual([one["file"] for one in found], [str(SEQUENCER), str(MASKS)])
        self.assertEqual([one["agree"] for one in found], [20, 20])
        self.assertEqual([one["first"] for one in found], [None, None])
        suites = ElementTree.fromstring(junit[1].partition("\n")[2])
        names = [suite.get("name") for suite in suites]
        self.assertEqual(names, [str(SEQUENCER), str(MASKS)])
        for suite, one in zip(suites, found):
            rules = list(dict.fromkeys(rule["rule"] for rule in one["rules"]))
            cases = [case.get("name") for case in suite]
            self.assertEqual((cases, suite.get("tests")), (rules, str(len(rules))))
            self.assertEqual((suite.get("failures"), suite.get("errors")), ("0", "0"))

    def test_answers_that_are_none(self) -> None:
        hold_refused(
            self,
            self.answered,
            (
                ("[]", "its answer to element 7 is no element: \\[\\]$"),
                ('{"final": 5}', 'its answer to element 7 is no element: {"final": 5}$'),
                ('{"final": []}', "its answer to element 7 is no element: "),
                ("x" * 70, f"its answer to element 7 is no JSON: .*: {'x' * 60}$"),
            ),
        )
        self.assertEqual(self.answered('{"skipped": true}'), {"skipped": True})

    def test_between_two_answers_no_time_counts(self) -> None:
        path = self.write("lines", 2 * "{}\n")
        with asking.asked_adapter(f"cat {path}", 20) as adapter:
            adapter.answer(GOOD, 0)
            self.assertIsNone(adapter._asked)
            self.assertEqual(adapter.answer(GOOD, 1), {})

    def answered(self, line: str) -> Element:
        """What is answered to the seventh element by a command that prints this line."""
        path = self.write("line", f"{line}\n")
        with asking.asked_adapter(f"cat {path}", 20) as adapter:
            return adapter.answer(GOOD, 7)

    def test_an_answer_of_too_many_bytes(self) -> None:
        # The end of the line counts too.
        for length, told in ((100, "is no JSON"), (101, "has 100 bytes or more")):
            with mock.patch.object(asking, "MOST_LINE", 100):
                found = refused(self.answered, (length - 1) * "x")
            self.assertIn(f"its answer to element 7 {told}", found)

    def test_an_adapter_that_ends_amid_a_file(self) -> None:
        once = self.program(
            "once",
            "import sys\nprint('{\"final\": {}}', flush=True)\nsys.stdin.readline()\n"
            "sys.stdin.readline()\nsys.exit('%s' % ('y' * 700 + 'end'))\n",
        )
        status, output, said = steps("check", once, SEQUENCER)
        self.assertEqual((status, output), (2, ""))
        # So much of what it said is told.
        ending = "y" * 597 + "end\n"
        self.assertEqual(said, f"zaklimot: {once}: it ended with status 1 at element 1\n{ending}")


class Adapters(unittest.TestCase):
    """What the library refuses ends the work."""

    def test_statuses_that_are_no_refusals(self) -> None:
        calls = load()
        told = refused(SteppedCard, calls, b"no fonts")
        self.assertEqual(told, "a call of the library answers 22")
        with SteppedCard(calls, Path(FONTS).read_bytes()) as card:
            left_out = Step("in", (0x3C7,))
            self.assertEqual(card.take(left_out).refused, "NotInProfile")
            self.assertRegex(refused(card.run, [left_out]), "is refused: NotInProfile$")
            card._does["out"] = lambda *_: 99
            told = refused(card.take, Step("out", (0x3C4, 0)))
            self.assertEqual(told, "a call of the library answers 99")

    def test_a_state_is_remembered_by_its_name(self) -> None:
        with SteppedCard(load(), Path(FONTS).read_bytes()) as card:
            for name, value in (("one", 5), ("two", 6), ("one", 7)):
                card.run([Step("out", (0x3C6, 0xFF))])
                card.bring_to(name, [Step("out", (0x3C6, value))])
                wanted = {"one": 5, "two": 6}[name]
                self.assertEqual(card.take(Step("in", (0x3C6,))).answer, wanted)

    def test_a_library_that_is_not_there(self) -> None:
        with mock.patch.dict(os.environ, ZAKLIMOT_LIBRARY="/no/such/library.so"):
            told = refused(load)
        self.assertRegex(told, "^/no/such/library.so: it is no library of the adapter: ")
        with mock.patch.dict(os.environ, ZAKLIMOT_LIBRARY=""), mock.patch.object(
            library, "has_sources", return_value=False
        ):
            self.assertEqual(refused(library.library_path), library.NO_LIBRARY)


class Making(Elements):
    def names(self, *words: str | int) -> list[str]:
        """The names of the files that are made, in the order in which they are told."""
        status, output, said = steps("make", self.folder / "made", "--seed", 2, *words)
        self.assertEqual((status, said), (0, ""))
        return [Path(line).name for line in output.splitlines()]

    def test_kinds_by_several_prefixes_and_files_that_are_replaced(self) -> None:
        # They come in the order of the table, each once.
        words = ("--only", "sequencer", "--only", "write-words", "--only", "seq", "--plain")
        wanted = ["write-words.json", "sequencer.json"]
        for count in (2, 1):
            self.assertEqual(self.names("--count", count, *words), wanted)
            for name in wanted:
                found = list(read_elements(str(self.folder / "made" / name)))
                self.assertEqual(len(found), count)
                # The first elements of a seed are the same, however many follow.
                example = next(iter(read_elements(str(STEPS_EXAMPLES / f"{name}.gz"))))
                self.assertEqual(found[0], example)
        beside = ["README.md", "SHA256SUMS", "about"]
        made = sorted(path.name for path in (self.folder / "made").iterdir())
        self.assertEqual(made, beside + wanted[::-1])

    def made(self, *words: str | int) -> tuple[dict[str, bytes], str]:
        """The files that lie in the folder then, and what is said."""
        status, _, said = steps("make", self.folder / "made", "--plain", "--seed", 2, *words)
        self.assertEqual(status, 0, said)
        folder = self.folder / "made"
        paths = (path for path in folder.rglob("*") if path.is_file())
        return {str(path.relative_to(folder)): path.read_bytes() for path in paths}, said

    def test_what_is_there_stays_and_what_is_not_is_made(self) -> None:
        words: tuple[str | int, ...] = ("--count", 3, "--only", "dac")
        whole, said = self.made(*words)
        self.assertEqual(said, "")
        masks, reads = (self.folder / "made" / f"dac-{name}.json" for name in ("mask", "reads"))
        masks.unlink()
        reads.write_bytes(reads.read_bytes().replace(b"1", b"2", 1))
        self.assertEqual(self.stayed(words), "1 of 3")
        self.assertEqual(self.made(*words)[0], whole)
        # As after an interrupt, before the last files were written.
        (self.folder / "made" / "README.md").unlink()
        self.assertEqual(self.made(*words)[0], whole)
        self.assertEqual(self.stayed(("--count", 2, "--only", "dac-m")), "")
        self.assertEqual(self.stayed((*words, "--jobs", 2)), "2 of 3")
        with mock.patch.object(archive, "_maker", return_value="another"):
            self.assertEqual(self.stayed(words), "")

    def stayed(self, words: tuple[str | int, ...]) -> str:
        """How many files are not made again; empty where all are."""
        found = re.fullmatch("zaklimot: (.*) files? stayed: .*\n|", self.made(*words)[1])
        assert found is not None
        return found[1] or ""

    def test_the_index_and_the_checksums_are_those_of_the_files(self) -> None:
        files, _ = self.made("--count", 3, "--only", "dac", "--only", "clock")
        index = json.loads(files["about/index.json"])
        self.assertEqual(index["format"], 1)
        listed = {one["file"]: one for one in index["files"]}
        elements = {name for name in files if name.endswith(".json") and "/" not in name}
        self.assertEqual(set(listed), elements)
        for name, one in listed.items():
            self.assertEqual(one["elements"], len(json.loads(files[name])))
            self.assertEqual((one["bytes"], one["seed"]), (len(files[name]), 2))
            self.assertIn(f"| `{name}` | 3 | 2 | ", files["README.md"].decode())
        sums = [line.split("  ") for line in files["SHA256SUMS"].decode().splitlines()]
        found = {name: hashlib.sha256(data).hexdigest() for name, data in files.items()}
        del found["SHA256SUMS"]
        self.assertEqual({name: checksum for checksum, name in sums}, found)

    def test_what_is_not_ours_is_not_replaced(self) -> None:
        words = ("make", self.folder, "--only", "dac-mask", "--count", 1)
        for name in ("README.md", "SHA256SUMS", "about/note"):
            path = Path(self.write(name, "mine"))
            told = f"would replace {name.partition('/')[0]}, which it has not made"
            hold_undone(self, steps(*words), told)
            self.assertEqual(path.read_text(), "mine")
            path.unlink()
        (self.folder / "about").rmdir()
        entry = {"file": "../a", "kind": "", "elements": 1, "seed": 1, "bytes": 1}
        for files in ("5", "[5]", "[{}]", json.dumps([{**entry, "sha256": "", "made_by": ""}])):
            self.write("about/index.json", f'{{"files": {files}}}')
            hold_undone(self, steps(*words), "index.json: it is no index of single-step tests")

    def test_a_folder_that_was_made_in_vain_is_gone(self) -> None:
        with mock.patch.dict(os.environ, ZAKLIMOT_LIBRARY=self.write("library", "none")):
            for jobs in (1, 2):
                folder = self.folder / "a" / "b"
                done = steps("make", folder, "--count", 1, "--only", "clock", "--jobs", jobs)
                hold_undone(self, done, "it is no library of the adapter")
                self.assertFalse((self.folder / "a").exists(), jobs)


class Dashes(Elements):
    def told(self, *words: str) -> list[str]:
        """The lines of the tool in the folder, which works in two processes."""
        status, output, said = run_tool(
            "zaklimot", "steps", *words, prepare=lambda: os.chdir(self.folder)
        )
        self.assertEqual((status, said), (0, ""), words)
        return output.decode().splitlines()

    def test_names_that_begin_with_one_are_no_options(self) -> None:
        name = "-one.json.gz"
        (self.folder / name).write_bytes(SEQUENCER.read_bytes())
        lines = self.told("script", "--", name, "3")
        self.assertTrue(lines[0].startswith("; "), lines)
        some = ("--only", "dac-mask", "--only", "sequencer", "--count", "1", "--plain")
        lines = self.told("make", *some, "--jobs", "2", "--", "-made")
        wanted = [f"-made/{name}.json" for name in ("sequencer", "dac-mask")]
        self.assertEqual(sorted(lines), sorted(wanted))
        self.assertTrue(all((self.folder / name).exists() for name in wanted))
