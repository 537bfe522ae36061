"""Transcripts: pages that a person reads, in `transcripts/`. Each answers a question of a user by
commands, what they print, how they end, and what files they leave. Pages of the repository whose
commands begin with `$ ` are transcripts too.

    cd tools && python3 -m tests.transcripts

runs them all, writes down what has changed, and shows it: look at each change before you commit it.
Names, such as `run/begin`, choose some of them.

An indented line that begins with `$ ` is a command, and goes on in the next line after `|`, `&&` or
`\\`. Below it stands what it prints, and then what it says on standard error. `[status 1]` is a
status other than 0. `[writes o.png]`, `[changes s.vga]` and `[removes o.png]` are files. `$ cat
FILE` of a file that isn't there gives the file what stands below. Where an output is other each
time, or longer than a reader wants, `[..]` is any part of a line, and `...` any lines.

A command runs in a folder of its transcript, in which the repository's files are to be found as at
its top.
"""

from __future__ import annotations

import difflib
import os
import re
import shlex
import struct
import sys
import tempfile
from functools import lru_cache
from pathlib import Path
from typing import Iterator, NamedTuple, Optional, Sequence

from zaklimot.commands.core.trouble import Trouble
from zaklimot.commands.script.program import found_program

from .stepping import compile_library
from .tools import COMMAND, NAMES, TOP, ended, run_tool

HERE = Path(__file__).with_suffix("")
INDENT = "    "
PROMPT = "$ "
GOES_ON = ("\\", "|", "&&")
# What stands for any part of a line, and for any lines.
ANY, LINES = "[..]", "..."
# Pages of the repository, which tell neither statuses nor files; and what the first command of one
# finds already.
PAGES = ("tools/README.md", "docs/TRACES.md", "docs/STEPS.md")
GIVEN = {
    "tools/README.md": "tools/vga go examples/text-screen.vga --fonts fonts/zaklimot.fnt"
    " > report.txt",
}
# Commands of pages that record software, and those over what they have recorded; and what wants
# ffmpeg. `vga-emulators record` and test_inpage record.
ELSEWHERE = re.compile(r" trace record (ipxe|own)|(text|pictures|compare) ipxe| --video typed")
# What the repository has at its top, and a folder of a transcript finds there.
LINKED = ("bench", "crates", "docs", "examples", "fonts", "include", "page", "portable", COMMAND)
PNG = b"\x89PNG\r\n\x1a\n"
# What is another one at another time, on another machine or with another Python.
VARYING = (
    (re.compile(r"\.zip: [0-9,]+ bytes"), f".zip: {ANY} bytes"),
    (re.compile(r'\btime="[0-9.]+"'), f'time="{ANY}"'),
    (re.compile(r'"seconds": [0-9.]+'), f'"seconds": {ANY}'),
    (re.compile(r"^optional arguments:$", re.M), "options:"),
    (re.compile(r"^usage: .*?(?=^\S.*?: error: )", re.M | re.S), ""),
)
# The shell reads lines with these. Others are read here, which takes a tenth of the time.
OF_SHELL = re.compile(r"[$`*~&;()]|(?:^|\| *)\w+=")


class Command(NamedTuple):
    """A command of a page: its line; and which lines of the page tell what comes of it."""

    line: str
    first: int
    end: int


class Came(NamedTuple):
    """What came of a command: its status, output and errors."""

    status: int
    output: bytes
    said: str


def commands(lines: Sequence[str]) -> Iterator[Command]:
    """The commands of a page."""
    at = 0
    while at < len(lines):
        line = lines[at]
        at += 1
        if not line.startswith(INDENT + PROMPT):
            continue
        words = line[len(INDENT + PROMPT) :]
        while words.endswith(GOES_ON) and at < len(lines):
            words = words.removesuffix("\\") + lines[at].strip()
            at += 1
        first = at
        while at < len(lines) and _tells(lines[at]):
            at += 1
        end = at
        while end > first and not lines[end - 1].strip():
            end -= 1
        yield Command(words, first, end)


def _tells(line: str) -> bool:
    """Whether a line of a block tells what comes of a command."""
    return not line.strip() or line.startswith(INDENT) and not line.startswith(INDENT + PROMPT)


def _pipe(line: str) -> Optional[list[list[str]]]:
    """The words of the commands of a pipe; nothing where the shell is to read them."""
    if OF_SHELL.search(re.sub(r"'[^']*'", "", line)):
        return None
    lexer = shlex.shlex(line, posix=True, punctuation_chars="|<>")
    lexer.whitespace_split = True
    lexer.commenters = ""
    made: list[list[str]] = [[]]
    for word in lexer:
        if word == "|":
            made.append([])
        else:
            made[-1].append(word)
    return made


@lru_cache(None)
def program() -> str:
    """The program that the tools find. It is compiled if there is none, and so is the library."""
    compile_library()
    return found_program()


def _lay(folder: Path) -> None:
    """Has a folder find what stands at the top of the repository."""
    (folder / "tools").mkdir()
    os.symlink(program(), folder / "tools" / "vga")
    for name in NAMES:
        if name != COMMAND:
            os.symlink(TOP / "tools" / name, folder / "tools" / name)
    for name in LINKED:
        os.symlink(TOP / name, folder / name)


def _files(folder: Path) -> dict[str, bytes]:
    """The files of a folder, and its empty folders, by their names."""
    found = {}
    for place, folders, names in os.walk(folder):
        if place == str(folder):
            folders.remove("tools")
        for name in [*names, *folders]:
            path = Path(place, name)
            called = str(path.relative_to(folder))
            if path.is_file() and not path.is_symlink():
                found[called] = path.read_bytes()
            elif path.is_dir() and not path.is_symlink() and not os.listdir(path):
                found[called + "/"] = b""
    return found


def _named(name: str, data: bytes) -> str:
    """A file's name, and how large a picture in it is."""
    if not data.startswith(PNG):
        return name
    width, height = struct.unpack_from(">II", data, 16)
    at = data.find(b"acTL")
    frames = f", {int.from_bytes(data[at + 4 : at + 8], 'big')} pictures" if at > 0 else ""
    return f"{name} ({width}x{height}{frames})"


def _left(before: dict[str, bytes], after: dict[str, bytes]) -> Iterator[str]:
    """What a command has done to files."""
    new = [_named(name, data) for name, data in after.items() if name not in before]
    other = [name for name, data in after.items() if before.get(name, data) != data]
    gone = [name for name in before if name not in after and not name.endswith("/")]
    for done, names in (("writes", new), ("changes", other), ("removes", gone)):
        if names:
            yield f"[{done} {', '.join(sorted(names))}]"


class Shell:
    """Runs the commands of a transcript, one after the other, in a folder of its own."""

    def __init__(self, folder: Path) -> None:
        self._folder = folder
        _lay(folder)
        self._before = _files(folder)

    def told(self, command: Command, expected: Sequence[str]) -> list[str]:
        """What a command prints, how it ends, and what it does to files."""
        words = command.line.split(" ")
        if words[0] == "cat" and len(words) == 2 and not (self._folder / words[1]).exists():
            self._give(words[1], expected)
            return list(expected)
        came = self._run(command.line)
        text = came.output.decode("utf-8", "backslashreplace") + came.said
        for path, name in ((self._folder, "FOLDER"), (program(), "PROGRAM"), (TOP, "TOP")):
            text = text.replace(str(path), name)
        for pattern, name in VARYING:
            text = pattern.sub(name, text)
        lines = [_shown(line) for line in text.rstrip("\n").split("\n")] if text else []
        if came.status:
            lines.append(f"[status {came.status}]")
        after = _files(self._folder)
        into = re.search(r"> (\S+)$", command.line)
        name = os.path.normpath(into[1]) if into else ""
        if name in after and not after[name].startswith(PNG):
            # The command itself says that it writes this file.
            self._before[name] = after[name]
        lines += _left(self._before, after)
        self._before = after
        return lines

    def _give(self, name: str, lines: Sequence[str]) -> None:
        path = self._folder / name
        path.parent.mkdir(parents=True, exist_ok=True)
        path.write_text("".join(f"{line}\n" for line in lines), "utf-8")
        self._before[name] = path.read_bytes()

    def _run(self, line: str) -> Came:
        pipe = _pipe(line)
        if pipe is None:
            return self._start(["/bin/sh", "-c", line], b"")
        output, said, status = b"", "", 0
        for words in pipe:
            given, into = output, ""
            while len(words) > 1 and words[-2] in ("<", ">"):
                if words[-2] == "<":
                    given = (self._folder / words[-1]).read_bytes()
                else:
                    into = words[-1]
                words = words[:-2]
            status, output, more = self._begin(words, given)
            said += more
            if into:
                (self._folder / into).write_bytes(output)
                output = b""
        return Came(status, output, said)

    def _begin(self, words: list[str], given: bytes) -> Came:
        name = words[0].rpartition("/")[2]
        if "/" not in words[0] or name not in NAMES:
            return self._start(words, given)
        done = run_tool(name, *words[1:], given=given, prepare=lambda: os.chdir(self._folder))
        return Came(*done)

    def _start(self, words: Sequence[str], given: bytes) -> Came:
        """A command in a process of its own, which leaves no temporary file."""
        if "/" in words[0] and not words[0].startswith("/"):
            words = [str(self._folder / words[0]), *words[1:]]
        with tempfile.TemporaryDirectory() as temporary:
            environment = {**os.environ, "TMPDIR": temporary}
            status, output, said = ended(
                *words, input=given, cwd=self._folder, env=environment, text=False
            )
            assert not os.listdir(temporary), f"it leaves {os.listdir(temporary)}"
        assert b"Traceback" not in said, said
        return Came(status, output, said.decode("utf-8", "backslashreplace"))


def _shown(line: str) -> str:
    """A line as it may stand on a page."""
    plain = "".join(
        one if one.isprintable() else one.encode("unicode_escape").decode("ascii") for one in line
    )
    return plain.rstrip()


def fits(expected: Sequence[str], told: Sequence[str]) -> bool:
    """Whether a command does what a page says."""
    pattern = "".join(
        r"(?:.*\n)*?" if line.strip() == LINES else _line_pattern(line) + "\n" for line in expected
    )
    return re.fullmatch(pattern, "".join(f"{line}\n" for line in told)) is not None


def _line_pattern(line: str) -> str:
    return ".*".join(map(re.escape, line.split(ANY)))


def renewed(expected: Sequence[str], told: Sequence[str]) -> list[str]:
    """What a page is to say now: what still fits, it says as before."""
    if LINES in expected and expected.count(LINES) == 1:
        at = expected.index(LINES)
        first, last = expected[:at], expected[at + 1 :]
        if len(first) + len(last) <= len(told):
            end = len(told) - len(last)
            return [*renewed(first, told[:at]), LINES, *renewed(last, told[end:])]
    if len(expected) != len(told):
        return list(told)
    pairs = zip(expected, told)
    return [old if re.fullmatch(_line_pattern(old), new) else new for old, new in pairs]


def _lines_below(lines: Sequence[str], command: Command) -> list[str]:
    return [line[len(INDENT) :].rstrip() for line in lines[command.first : command.end]]


def run(name: str, text: str) -> tuple[str, int]:
    """Runs the commands of a page, and answers the page as it is to be, and how many they are."""
    lines = text.split("\n")
    made: list[str] = []
    at = count = 0
    with tempfile.TemporaryDirectory() as folder:
        shell = Shell(Path(folder))
        if name in GIVEN:
            shell.told(Command(GIVEN[name], 0, 0), ())
        for command in commands(lines):
            if ELSEWHERE.search(command.line):
                continue
            expected = _lines_below(lines, command)
            told = shell.told(command, expected)
            if name in PAGES:
                told = [line for line in told if not line.startswith("[")]
            if not fits(expected, told):
                expected = renewed(expected, told)
            made += lines[at : command.first]
            made += [(INDENT + line).rstrip() for line in expected]
            at = command.end
            count += 1
    return "\n".join(made + lines[at:]), count


def difference(name: str, before: str, after: str) -> str:
    """What has changed in a page, as `diff` shows it."""
    return "".join(
        difflib.unified_diff(
            before.splitlines(True), after.splitlines(True), f"{name} as it is", f"{name} as run"
        )
    )


def transcripts() -> dict[str, Path]:
    """The transcripts by their names, such as `run/begin`, and the pages of the repository."""
    found = {str(path.relative_to(HERE).with_suffix("")): path for path in HERE.glob("*/*.md")}
    return {**dict(sorted(found.items())), **{name: TOP / name for name in PAGES}}


def bless(names: Sequence[str]) -> int:
    """Writes down what has changed in the transcripts of these names, or in all, and shows it."""
    for name, path in transcripts().items():
        if names and not name.startswith(tuple(names)):
            continue
        before = path.read_text("utf-8")
        after, _ = run(name, before)
        if after != before:
            path.write_text(after, "utf-8")
            print(difference(name, before, after), end="", flush=True)
    return 0


if __name__ == "__main__":
    try:
        sys.exit(bless(sys.argv[1:]))
    except Trouble as trouble:
        sys.exit(str(trouble))
