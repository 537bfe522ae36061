"""Harnesses that the suite is held against: the places in their words, their limits, and lists that
stand elsewhere; and the program that tools run."""

from __future__ import annotations

import json
import os
import shlex
import sys
import unittest
from functools import partial
from itertools import product
from pathlib import Path
from unittest import mock

from zaklimot.commands.core.processes import Streamed
from zaklimot.commands.core.progress import Progress
from zaklimot.commands.report import folders, suite
from zaklimot.commands.report.listing import RunScript
from zaklimot.commands.report.results import (
    AGREES,
    DIFFERS,
    FAILED,
    SKIPPED,
    Result,
    _worst,
    rules_of,
)
from zaklimot.commands.words import parser
from zaklimot.commands.script import launching, program
from zaklimot.commands.script.program import (
    BuiltProgram,
    built_program,
    check_ended,
    check_program_runs,
    fault_of,
)

from .tools import TOOLS, Folder, begin, hold, patched, refused, report, run_tool, stream

ADAPTER = shlex.join([sys.executable, str(TOOLS / "tests" / "adapter.py")])
CALLED = "1 ax=0003 bx=0000 cx=0000 dx=0000\n"


@unittest.skipIf(sys.platform == "win32", "a script is a program on POSIX")
class Harnesses(Folder):
    def setUp(self) -> None:
        super().setUp()
        for name in ("one", "two", "more/three"):
            self.write(f"{name}.vga", "get 0\n")
            self.write(f"{name}.txt", "1 FF\n")
        self.write("list.txt", "one\ntwo\nmore/three\n")

    def done(self, *words: str, given: bytes = b"") -> tuple[int, str, str]:
        """Exit status, output and standard error of the tool in the folder."""
        prepare = partial(os.chdir, self.folder)
        status, output, said = run_tool("zaklimot", *words, given=given, prepare=prepare)
        return status, output.decode(), said

    def test_cases_in_no_folder(self) -> None:
        table = (
            ".\n  agrees   one\n  agrees   two\n  2 cases: 2 agree\n"
            "more\n  agrees   more/three\n  1 case: 1 agree\n3 cases: 3 agree\n"
        )
        done = self.done("suite", f"{ADAPTER} {{script}}", "--list", "list.txt")
        self.assertEqual(done, (0, table, ""))

    def test_a_result_comes_into_a_pipe_before_the_next_case_ends(self) -> None:
        go_on = self.folder / "go on"
        # The second case ends once the file is there.
        command = "sh -c 'test $1 = one || until test -e \"$2\"; do sleep 0.05; done; echo 1 FF' "
        words = ("suite", f"{command} x {{name}} '{go_on}'", "--list", self.folder / "list.txt")
        with begin("zaklimot", *words) as process:
            assert process.stdout is not None
            lines = [process.stdout.readline() for _ in range(2)]
            go_on.touch()
            rest = process.communicate(timeout=60)[0]
        self.assertEqual(lines, [b".\n", b"  agrees   one\n"])
        self.assertTrue(rest.startswith(b"  agrees   two\n"), rest)

    def test_the_first_case_that_does_not_agree_may_end_all(self) -> None:
        self.write("two.txt", "1 00\n")
        words = ("suite", f"{ADAPTER} {{script}}", "--list", "list.txt")
        differs = "  differs  two\n           two: step 1: FF, not 00 (`get 0`, two.vga:1)\n"
        for jobs in ("1", "3"):
            done = self.done(*words, "--fail-fast", "--jobs", jobs, "--keep", f"kept{jobs}")
            self.assertEqual(
                done,
                (
                    1,
                    f".\n  agrees   one\n{differs}  2 cases: 1 agree, 1 differ\n"
                    "2 of 3 cases: 1 agree, 1 differ\n",
                    "",
                ),
            )
            kept = {path.stem for path in (self.folder / f"kept{jobs}").iterdir()}
            self.assertEqual(kept, {"two"})
        told = json.loads(self.done(*words, "--fail-fast", "--json")[1])
        self.assertEqual((told["cases"]["agrees"], told["not_run"]), (1, 1))
        self.assertEqual(json.loads(self.done(*words, "--json")[1])["not_run"], 0)
        self.write("two.txt", "1 FF\n")
        self.assertEqual(self.done(*words, "--fail-fast"), self.done(*words))

    def test_places_within_words(self) -> None:
        for place, told in (
            ("--in={script}", "1 FF"),
            ("--in={name}.vga", "1 FF"),
            # A place that is none stays as it is.
            ("--in={script}{untils}", "1 0"),
        ):
            command = f"sh -c 'test -f \"${{1#--in=}}\" && echo 1 FF || echo 1 0' {{name}} {place}"
            words = ("suite", command, "--list", "list.txt", "--only", "one")
            self.assertEqual(self.done(*words)[0], 0 if told == "1 FF" else 1, place)

    def test_a_report_that_is_too_long(self) -> None:
        for count, told in (
            (1 << 20, "one: its report:1: the line is longer than any answer\n"),
            ((1 << 20) + 1, "one: the command wrote more than 1 MiB\n"),
        ):
            command = f"sh -c 'head -c {count} /dev/zero' {{script}}"
            words = ("--list", "list.txt", "--only", "one", "--output", "1")
            status, output, _ = self.done("suite", command, *words)
            self.assertEqual(status, 2)
            self.assertIn(told, output)
        # What it said stands behind that.
        command = command.replace("head", "echo oh >&2; head")
        output = self.done("suite", command, *words)[1]
        self.assertIn("one: the command wrote more than 1 MiB: oh\n", output)

    def said(self, does: str) -> list[str]:
        """The lines below the rule of a case that the shell answers so, and the last line."""
        words = ("suite", f"sh -c '{does}' {{name}}", "--list", "list.txt", "--only", "one")
        return [line.strip() for line in self.done(*words)[1].splitlines()[2:]]

    def test_what_a_command_says_beside_its_status(self) -> None:
        failed, agrees = "1 case: 1 failed", "1 case: 1 agree"
        self.write("one.txt", "F7 BadLine(2)\n")
        many = [f"{number}" for number in range(1, 22)]
        ended = "one: the command ended with status 3"
        fault = 'echo "sh: F7 BadLine(2)" >&2'
        hold(
            self,
            self.said,
            (
                ("exit 3", [ended, failed]),
                ("echo oh >&2; exit 3", [f"{ended}: oh", failed]),
                ("seq 20 >&2; exit 3", [f"{ended}, and said", *many[:20], failed]),
                (
                    "seq 21 >&2; exit 3",
                    [f"{ended}, and said", *many[:10], ".. 1 line ..", *many[11:], failed],
                ),
                # A fault is the last line, and the status is another than 0.
                (f"echo so far >&2; {fault}; exit 3", [agrees]),
                (
                    f"{fault}; echo so far >&2; exit 3",
                    [f"{ended}, and said", "sh: F7 BadLine(2)", "so far", failed],
                ),
                (fault, ["one: the run: the end, not F7 BadLine(2)", "1 case: 1 differ"]),
            ),
        )

    def test_a_rule_has_the_worst_answer_of_its_cases(self) -> None:
        for name, expected in (("a/b/one", "1 00\n"), ("a/b/two", "1 FF\n"), ("a/c", "1 FF\n")):
            self.write(f"{name}.vga", "; Rule.\nget 0\n")
            self.write(f"{name}.txt", expected)
        self.write("list.txt", "a/b/one\na/b/two\na/c\n")
        words = ("suite", f"{ADAPTER} {{script}}", "--list", "list.txt")
        table = (
            "a/b\n  differs  Rule.\n"
            "           a/b/one: step 1: FF, not 00 (`get 0`, a/b/one.vga:2)\n"
            "  2 cases: 1 agree, 1 differ\n"
            "a\n  agrees   Rule.\n  1 case: 1 agree\n3 cases: 2 agree, 1 differ\n"
        )
        self.assertEqual(self.done(*words), (1, table, ""))
        told = json.loads(self.done(*words, "--json")[1])
        rules = [(rule["folder"], rule["answer"], len(rule["cases"])) for rule in told["rules"]]
        self.assertEqual(rules, [("a/b", "differs", 2), ("a", "agrees", 1)])
        # One that agrees has no reason, and no step that differs.
        agreeing = {"name": "a/c", "rule": "Rule.", "answer": "agrees"}
        counts = {"steps": 1, "skipped": 0, "answers": 1, "differing": 0}
        self.assertEqual(told["rules"][1]["cases"], [{**agreeing, **counts}])

    def test_a_command_has_nothing_on_standard_input(self) -> None:
        # What comes there is for the tool, or for the loop of a shell around it.
        command = shlex.join(["sh", "-c", f'cat >> got; {ADAPTER} "$0"']) + " {script}"
        done = self.done("suite", command, "--list", "list.txt", given=b"one\ntwo\n")
        self.assertEqual((done[0], (self.folder / "got").read_bytes()), (0, b""))

    def test_which_answers_are_worse_than_others(self) -> None:
        order = (AGREES, SKIPPED, DIFFERS, FAILED)
        for one, other in product(order, repeat=2):
            results = [Result(mock.Mock(), answer) for answer in (one, other)]
            self.assertEqual(_worst(results), max(one, other, key=order.index), (one, other))

    def test_an_expected_report_that_is_damaged(self) -> None:
        self.write("two.txt", "1 FF\n3 ok\n")
        done = self.done("suite", f"{ADAPTER} {{script}}", "--list", "list.txt")
        told = f"{self.folder}/two.txt:2: step 2 is to come, and not '3 ok'"
        self.assertEqual(done, (2, ".\n  agrees   one\n", f"zaklimot: {told}\n"))

    def test_a_command_that_stops_before_the_first_step(self) -> None:
        self.write("one.txt", "")
        self.write("list.txt", "one until 0\n")
        words = ("suite", f"{ADAPTER} {{script}} font {{until}}", "--list", "list.txt")
        self.assertEqual(self.done(*words)[0], 0)

    def test_a_list_from_standard_input(self) -> None:
        # Its names are those of the current folder.
        words = ("suite", "--scripts", "made", "--list", "-", "--except", "t")
        done = self.done(*words, given=b"one\ntwo\nmore/three\n")
        names = ("one.vga", "more/three.vga", "list.txt")
        self.assertEqual(done, (0, "".join(f"made/{name}\n" for name in names), ""))
        done = self.done("suite", "--scripts", "none", "--list", "-", given=b"one\n\na b\n")
        self.assertEqual(done, (2, "", "zaklimot: standard input:3: no case: 'a b'\n"))

    def test_blanks_and_headings_of_a_list(self) -> None:
        self.write("two.fnt", "12")
        text = "#two\n\t# two\n  fonts two.fnt \n\n \t one\t\n\ttwo until 0\r\n"
        self.write("list.txt", text)
        self.assertEqual(self.done("suite", "--scripts", "made", "--list", "list.txt")[0], 0)
        listed = (self.folder / "made/list.txt").read_text()
        self.assertEqual(listed, "one.vga fonts/two.fnt\ntwo.vga fonts/two.fnt\n")
        self.assertTrue((self.folder / "made/two.vga").read_text().startswith("show regs\n"))

    def test_a_machine_that_can_be_stopped_gets_no_step_that_is_refused(self) -> None:
        # A case is stopped before its end, or behind what is refused.
        self.write("one.vga", "get 0\ncrash\n")
        self.write("one.txt", "1 FF\n2 E1 NotDecoded\n")
        self.write("two.vga", "get 0\nget 0\ncrash\n")
        self.write("two.txt", "1 FF\n2 FF\n3 regs\n4 beam\n5 latches\n6 bda\n")
        self.write("list.txt", "one\none until 2\ntwo until 2\n")
        words = ("suite", f"{ADAPTER} {{script}} {{until}}", "--machine", "--list", "list.txt")
        status, output, said = self.done(*words)
        self.assertEqual((status, said), (0, ""))
        self.assertIn("\n3 cases: 1 agree, 2 skipped\n", output)

    def test_a_machine_answers_calls(self) -> None:
        self.write("call.vga", "int ax=3\nget 0\n")
        self.write("call.txt", CALLED + "2 E1 NotDecoded\n")
        self.write("late.vga", "get 0\nint ax=3\n")
        self.write("late.txt", "1 E1 NotDecoded\n2" + CALLED[1:])
        self.write("list.txt", "call\nlate\n")
        done = self.done("suite", "--scripts", "made", "--list", "list.txt", "--machine")
        self.assertEqual(done, (0, "made/call.vga\nmade/list.txt\n", ""))
        self.assertEqual((self.folder / "made/call.vga").read_text(), "int ax=3\n")

    def test_a_long_step_is_told_by_its_front(self) -> None:
        step = "int ax=1300 cx=0040 block " + 64 * "41"
        self.write("long.vga", f"{step}\n")
        self.write("long.txt", CALLED)
        self.write("list.txt", "long\n")
        output = self.done("suite", f"{ADAPTER} {{script}}", "--list", "list.txt")[1]
        self.assertIn(f"long: step 1: ok, not {CALLED[2:-1]} (`{step[:60]}`, long.vga:1)\n", output)


@unittest.skipIf(sys.platform == "win32", "a script is a program on POSIX")
class Programs(Folder):
    def test_one_that_is_named_lies_in_the_path_or_in_its_folder(self) -> None:
        path = self.program("bin/mine", "#!/bin/sh\n")
        other = self.program("mine", "#!/bin/sh\n")
        with mock.patch.dict(os.environ, PATH=str(Path(path).parent)):
            self.assertEqual(built_program("mine"), path)
            self.assertEqual(built_program(other), other)
            self.assertEqual(built_program("none"), "none")
        told = "the name of the program is empty"
        self.assertEqual(refused(built_program, ""), told)

    def test_what_is_told_of_one_that_ends_badly(self) -> None:
        def told(status: int, said: str) -> str:
            run = Streamed(stream(b""), status, said)
            return refused(check_ended, run, "vga") if status else fault_of(run)

        hold(
            self,
            told,
            (
                (0, "", ""),
                (0, " \n", ""),
                (0, "so far\nthe end \n\n", "the end"),
                (0, "vga: F7 BadLine(2)\nthe end\n", "F7 BadLine(2)"),
                (1, "vga: F10 OutOfMemory\n", "vga: it ended with status 1: F10 OutOfMemory"),
                (2, "usage\nno such word", "vga: it ended with status 2: no such word"),
                (-9, "", "vga: it ended with status -9: "),
            ),
        )

    def test_what_is_written_in_the_place_of_a_report_is_told_by_its_front(self) -> None:
        for length in (59, 60, 61):
            vga = self.program("vga", f"#!/bin/sh\nprintf %0{length}d 0; echo; echo 2\n")
            told = f"{vga}: it runs no script with f: it writes '{'0' * min(length, 60)}'"
            self.assertEqual(refused(check_program_runs, vga, "f"), told)
        # It gets the font file that is named, and a script that the program takes.
        vga = self.program("vga", '#!/bin/sh\n[ "$1 $3 $4" = "go --fonts f" ] && echo 1 00\n')
        check_program_runs(vga, "f")
        # One that ends badly runs none, whatever it has written.
        vga = self.program("vga", "#!/bin/sh\necho 1 00; echo why >&2; exit 3\n")
        told = f"{vga}: it runs no script with f: why"
        self.assertEqual(refused(check_program_runs, vga, "f"), told)

    def test_the_command_becomes_the_program(self) -> None:
        with patched(launching, {"found_program": lambda instead: "/bin/sh"}):
            # A shell without other words shows how it is called.
            self.assertEqual(run_tool("vga", "-c", 'echo "$0"; exit 3'), (3, b"vga\n", ""))
            done = run_tool("vga", "-c", "cat; echo $0 $1 >&2", "a", "b  c", given=b"in")
            self.assertEqual(done, (0, b"in", "a b c\n"))

    def test_steps_that_take_more_bytes_than_any(self) -> None:
        vga = self.program("vga", "#!/bin/sh\necho frame\n")
        for most, is_refused in ((6, False), (5, True)):
            with mock.patch.object(program, "MOST_PRINTED", most):
                with open(self.folder / "printed", "wb") as printed:
                    work = partial(BuiltProgram(vga).print_steps, Path("s"), True, printed)
                    if is_refused:
                        told = f"{vga}: vga dis writes more than any script takes"
                        self.assertEqual(refused(work), told)
                    else:
                        work()


@unittest.skipIf(sys.platform == "win32", "a script is a program on POSIX")
class Progresses(Folder):
    """What a terminal shows while scripts and cases run."""

    def setUp(self) -> None:
        super().setUp()
        self.progress = mock.create_autospec(Progress, instance=True)
        self.progress.is_due.return_value = True
        self.progress.is_wanted = True

    def told(self) -> list[str]:
        """All that was shown."""
        return [call.args[0] for call in self.progress.tell.call_args_list]

    def test_how_many_cases_do_not_agree(self) -> None:
        for name, answered in (("a", "00"), ("b", "01"), ("c", ""), ("d", "skipped"), ("e", "no")):
            self.write(f"{name}.vga", "in 3CC\n")
            self.write(f"{name}.txt", "1 00\n")
            self.write(f"{name}.report", report(answered) if answered else "no report\n")
        cases = self.write("list.txt", "a\nb\nc\nd\ne\n")
        given = ["suite", f"cat {self.folder}/{{name}}.report", "--list", cases]
        words = parser().parse_args(given)
        list(suite._results(words, rules_of(suite._chosen(words)), self.progress))
        wanted = [
            "1 of 5 cases, 0 don't agree: a",
            "2 of 5 cases, 1 doesn't agree: b",
            "3 of 5 cases, 2 don't agree: c",
            "4 of 5 cases, 2 don't agree: d",
            "5 of 5 cases, 3 don't agree: e",
        ]
        self.assertEqual(self.told(), wanted)

    def test_which_script_of_a_folder_was_run(self) -> None:
        words = parser().parse_args(["run", str(self.folder)])
        paths = [Path(self.write(name, "frame\n")) for name in ("a.vga", "b/a.vga", "c.bin")]
        for _ in folders._runs(words, paths, lambda *_: 0, self.folder, self.progress):
            pass
        wanted = [f"{at} of 3 scripts: {path}" for at, path in enumerate(paths, 1)]
        self.assertEqual(self.told(), wanted)

    def test_which_step_was_answered(self) -> None:
        # Of a script that repeats steps all count, and lines do not.
        text = "version 2\n\nrepeat 2\nget 0\nend\nget 0\n"
        path = self.write("s.vga", text)
        answers = BuiltProgram(self.answering("00", "00", "00"))
        with open(self.folder / "printed", "w+b") as printed:
            script = RunScript(path, text.encode(), answers, "a script", printed)
            list(script.rows("fonts", None, self.progress, False, False))
        wanted = [f"a script: step {number} of 3" for number in (1, 2, 3)]
        self.assertEqual([told for told in self.told() if "no answer yet" not in told], wanted)
