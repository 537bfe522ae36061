"""The helps of the tools: what each tells, and how little it takes."""

import argparse
import contextlib
import importlib
import io
import os
import re
import shlex
import unittest
from functools import lru_cache
from itertools import groupby
from typing import Iterator

from zaklimot_dev.emulators import traces, words as recorded
from zaklimot_dev.library_tests import (
    binding_words,
    bindings,
    command as library,
    one_file,
    words as tested,
)
from zaklimot_dev.library_tests.compilers import I386, PORTABLE_TARGETS
from zaklimot.commands.floppy.asked import EMULATORS
from zaklimot.commands.floppy.running import MACHINES

from .test_pages import pages
from .tools import COMMAND, MAIN, MODULES, NAMES, PYTHON, TOP, ended, path_of


# What may be loaded for a help: what all tools have in common, and modules of words alone.
LIGHT = re.compile(
    r"^zaklimot(_dev(\.\w+)?(\.\w*words)?"
    r"|\.commands(\.(starting|words|core(\.(cli|files|progress|signals|trouble|version|words))?"
    r"|(script|images|report|trace|floppy|steps)(\.(\w*words|asked|places|mode))?))?"
    r"|\.format(\.\w+)?)?$"
)


def words_of(name: str) -> str:
    """The module that has the words of a tool."""
    found = MAIN.search(path_of(name).read_text("utf-8"))
    assert found is not None, name
    return found[1]


def parsers_of(name: str) -> list[argparse.ArgumentParser]:
    """The parsers of a tool's commands, or that of the tool where it has none."""
    module = importlib.import_module(words_of(name))
    made = getattr(module, "parser", None) or getattr(module, "_parser")
    return list(_ends(made()))


def _ends(parser: argparse.ArgumentParser) -> Iterator[argparse.ArgumentParser]:
    """The parsers below one that have no commands of their own, or itself."""
    for action in parser._actions:
        if isinstance(action, argparse._SubParsersAction):
            for below in action.choices.values():
                yield from _ends(below)
            return
    yield parser


# The defaults of options that a help tells by other words; of no others a text names the value.
TOLD_OTHERWISE = {
    "standard output": "-",
    "any number": "0",
    "fonts: the project's": str(TOP / "fonts" / "zaklimot.fnt"),
    "list: the project's": str(TOP / "crates" / "vga_suite" / "data" / "list.txt"),
}
# What stands behind the last word of a command that is told.
EXPLAINED = re.compile(r"([A-Z]{4,}\]?) +[a-z].*")


class Words(unittest.TestCase):
    def test_words_and_what_does_the_work_have_the_same_names(self) -> None:
        self.assertEqual(EMULATORS, tuple(MACHINES))
        self.assertEqual(recorded.SOFTWARE, tuple(traces.SOFTWARE))
        self.assertEqual(tested.PORTABLE_PROCESSORS, tuple(PORTABLE_TARGETS))
        checks = {*library.ONCE, *library.EACH, *one_file.HOST, *one_file.checks_for(I386)}
        self.assertEqual(set(tested.CHECKS), {*checks, library.OF_FILE})
        self.assertEqual(binding_words.CHECKS, tuple(bindings.CHECKS))

    def test_a_help_needs_none_of_what_does_the_work(self) -> None:
        told = "; print('loaded', *(name for name in sys.modules if name.startswith('zaklimot')))"
        environment = {**os.environ, "PYTHONPATH": MODULES}
        for name in NAMES:
            module = words_of(name)
            command = f"import sys; from {module} import main; main(['--help']){told}"
            status, output, said = ended(*PYTHON, "-c", command, env=environment)
            self.assertEqual((status, said), (0, ""))
            loaded = output.splitlines()[-1].split()
            self.assertIn(module, loaded)
            for work in loaded[1:]:
                self.assertRegex(work, LIGHT, name)

    def test_the_defaults_that_are_told_hold(self) -> None:
        held = 0
        for parser in (parser for name in NAMES for parser in parsers_of(name)):
            for action in parser._actions:
                told = re.search(r"\(default: ([^)]*)\)", action.help or "")
                if told is None or action.default is None or isinstance(action.default, bool):
                    continue
                with self.subTest(parser.prog, option=action.dest):
                    own = TOLD_OTHERWISE.get(f"{action.dest}: {told[1]}")
                    wanted = own or TOLD_OTHERWISE.get(told[1], told[1].replace(",", ""))
                    self.assertEqual(str(action.default), wanted)
                    held += 1
        self.assertGreater(held, 40)


class Pages(unittest.TestCase):
    """The commands of the pages have words that the tools take."""

    def test_each_command_line(self) -> None:
        count = 0
        for page in pages():
            for line in lines_of_code(page.read_text("utf-8")):
                for name, words in tools_in(line):
                    count += 1
                    with self.subTest(page.name, line=line):
                        self.assertEqual(refusal_of(name, words), "")
        self.assertGreaterEqual(count, 100)

    def test_words_that_no_tool_takes_are_found(self) -> None:
        text = "    cat r | ./zaklimot check r - > made &&\n    ./zaklimot trace text --all t\n"
        found = [refusal_of(*tool) for line in lines_of_code(text) for tool in tools_in(line)]
        self.assertRegex(found[0], "invalid choice: 'check'")
        self.assertRegex(found[1], "unrecognized arguments: --all")
        self.assertEqual(len(found), 2)


def lines_of_code(text: str) -> Iterator[str]:
    """The lines of a page that are indented by four, or stand in fences; those that go on in the
    next as one."""
    held: list[str] = []
    is_fenced = False
    for line in text.split("\n"):
        is_fence = line.lstrip().startswith(("```", "~~~"))
        is_fenced ^= is_fence
        if is_fence or not (is_fenced or line.startswith("    ")):
            held = []
            continue
        held.append(line.strip().removeprefix("$ ").rstrip("\\"))
        if not line.endswith(("\\", "|", "&&")):
            yield " ".join(held)
            held = []


def tools_in(line: str) -> Iterator[tuple[str, list[str]]]:
    """The tools that a line of the shell runs, with their words."""
    # Some lines tell behind a command what it does.
    lexer = shlex.shlex(EXPLAINED.sub(r"\1", line), posix=True, punctuation_chars="|<>&;()")
    lexer.whitespace_split = True
    lexer.commenters = ""
    try:
        words = list(lexer)
    except ValueError:
        # Prose of an example's output.
        return
    for is_between, some in groupby(words, lambda word: not {*word} - {*"|&;()"}):
        command = list(some)
        name = command[0].rpartition("/")[2]
        # The library has the command's name, in lines for CMake.
        if not is_between and name in NAMES and (name != COMMAND or "(" not in line):
            end = next((at for at, word in enumerate(command) if not {*word} - {*"<>"}), None)
            yield name, command[1:end]


@lru_cache(None)
def made_parser(name: str, *behind: str) -> argparse.ArgumentParser:
    """The parser of a tool, where these words stand behind `--`."""
    module = importlib.import_module(words_of(name))
    made = getattr(module, "parser", None) or getattr(module, "_parser")
    parser: argparse.ArgumentParser = made(list(behind)) if behind else made()
    return parser


def refusal_of(name: str, words: list[str]) -> str:
    """What the parser of a tool says of words that it doesn't take; nothing of others."""
    # What stands behind `--` is for another program.
    end = words.index("--") if "--" in words else len(words)
    parser = made_parser(name, *words[end + 1 :])
    said = io.StringIO()
    quiet = contextlib.redirect_stdout(io.StringIO())
    with quiet, contextlib.redirect_stderr(said), contextlib.suppress(SystemExit):
        parser.parse_args(words[:end])
    return said.getvalue()
