"""Each allocation in turn fails, in the calls of `vga_tests` and in the program `vga`, and what
they then answer is judged.

This takes minutes, and needs `rt`, so it runs where it is named alone, as `tests.allocations`.
"""

import re
import shutil
import tempfile
import unittest
from functools import partial
from itertools import groupby, islice
from pathlib import Path
from typing import Iterable, NamedTuple, Sequence

from zaklimot.commands import TOP
from zaklimot.commands.core.processes import captured, check_program
from zaklimot.commands.core.trouble import Wrong


CRATES = TOP / "crates"
TABLE = CRATES / "vga_suite" / "data" / "examples" / "palette-and-dac-services"
PATH_TEXT, PATH_SCRIPT = (TOP / "examples" / name for name in ("first-path.vga", "first-path.bin"))
# The files that the program finds, by the names that its words have for them.
FILES = {
    "table.vga": TABLE.with_suffix(".vga"),
    "path.vga": PATH_TEXT,
    "z.fnt": TOP / "fonts" / "zaklimot.fnt",
}
# The number of the allocation that is refused, above those that a run has by itself.
ALLOCATION = 110
REFUSED_WORD = (
    "error: unexpected argument 'x' found\n\nUsage: vga go <TEXT> --fonts <FILE> [--until <N>]\n\n"
    "For more information, try '--help'.\n"
)
# What `rt try` puts behind an output whose last line has no end.
ENDING = b"\n"
CALLS = (
    "Bytes::copy",
    "Bytes::zeros",
    "Planes::new",
    "Card::new",
    "Fonts::from_bytes",
    "Screen::read",
    "decode",
    "encode",
    "assemble",
    "print",
    "run",
)
RIGHT = ": as in its example"
FAULT = "vga: F10 OutOfMemory\n"
# What stands before the output of a case, and what behind what it said.
SECTION = re.compile(rb"^== (\S+)\n", re.M)
ENDED = re.compile(r"case=(\S+) run=(\S+)(?: status=(\d+))? .*proved=no")
# Lines that `rt try` itself writes among those of the program.
OWN_LINES = ("allocations: ", "checked: ", "interpreter: ")
# The one line of its `main`, what stands before that line in the copy, and the function behind it.
MAIN = "    ExitCode::from(do_job_with_status(&rt))\n"
FIRST = "    let _ = grow(&rt);\n"
GROW = """
/// Makes an allocation for each byte of standard input.
fn grow(rt: &HostRuntime) -> io::Result<()> {
    let mut room = [0; 256];
    for _ in 0..std::io::Read::read(&mut rt.stdin(), &mut room)? {
        let _ = Box::new(rt.alloc(), 0u8)?;
    }
    Ok(())
}
"""
# What a try does not read.
UNREAD = ("out", "data", "proofs", "must-fail")
# What a program gets: its standard input, and its words.
Case = tuple[str, Sequence[str]]


class CallAnswer(NamedTuple):
    """How a case ended: its status, or -1 where it had none, and what it wrote on both outputs."""

    status: int
    written: bytes
    said: str


# What is answered before the first call, where an allocation of the words is refused, or one that
# is made first.
BEFORE_CALLS = CallAnswer(1, b"", "Error: memory allocation failed\n")


class Job(NamedTuple):
    """A job of the program: its words, how many allocations its first run makes before it, and what
    it answers."""

    words: Sequence[str]
    first: int
    whole: CallAnswer


def jobs() -> dict[str, Job]:
    """The jobs by their names: two that are done, and one that is none."""
    report = TABLE.with_suffix(".txt").read_bytes()
    go = ["go", "table.vga", "--fonts", "z.fnt"]
    return {
        "go": Job(go, 17, CallAnswer(0, report, "")),
        "asm": Job(
            ["asm", "path.vga", "/dev/stdout"],
            33,
            CallAnswer(0, PATH_SCRIPT.read_bytes() + ENDING, ""),
        ),
        "words that are refused": Job([*go, "x"], 34, CallAnswer(2, b"", REFUSED_WORD)),
    }


# How the runs of the calls and of each job end, so many alike one after the other. With each run
# the allocation that is refused stands earlier: none at first, in the end those of the words. One
# of these may be done without, since words are collected with room for all of them at once, or else
# with less.
ENDINGS: dict[str, list[tuple[str, int]]] = {
    "the calls": [
        ("each as in its example", 22),
        ("run: out of memory in a step", 2),
        ("run: out of memory", 21),
        ("print: out of memory", 3),
        ("assemble: out of memory", 3),
        ("encode: out of memory", 2),
        ("decode: out of memory", 1),
        ("Screen::read: out of memory", 34),
        ("Fonts::from_bytes: out of memory", 8),
        ("Card::new: out of memory", 3),
        ("Planes::new: out of memory", 1),
        ("Bytes::zeros: out of memory", 2),
        ("Bytes::copy: out of memory", 2),
        ("before the calls", 6),
    ],
    "go": [
        ("done", 1),
        ("refused behind 6 lines", 2),
        ("refused behind 0 lines", 81),
        ("done", 1),
        ("refused behind 0 lines", 8),
    ],
    "asm": [
        ("done", 4),
        ("refused behind 0 lines", 66),
        ("done", 1),
        ("refused behind 0 lines", 6),
    ],
    "words that are refused": [
        ("done", 2),
        ("refused behind 0 lines", 64),
        ("done", 1),
        ("refused behind 0 lines", 9),
    ],
}


def calls_ending(answer: CallAnswer) -> str:
    """How the calls end: the line of the one that does not answer as in its example, if there is
    one."""
    lines = answer.written.decode("utf-8", "replace").splitlines()
    if answer == BEFORE_CALLS:
        return "before the calls"
    if answer.status or [line.partition(": ")[0] for line in lines] != list(CALLS):
        return repr(answer)
    return ", ".join(line for line in lines if not line.endswith(RIGHT)) or "each as in its example"


def job_ending(job: Job, answer: CallAnswer) -> str:
    """How a job ends: done, or with an allocation failure behind so many whole lines of what it
    writes."""
    lines = answer.written.splitlines(keepends=True)
    is_front = lines == job.whole.written.splitlines(keepends=True)[: len(lines)]
    if answer == job.whole:
        return "done"
    return (
        f"refused behind {len(lines)} lines"
        if is_front and (answer.status, answer.said) == (1, FAULT)
        else repr(answer)
    )


def judge(name: str, endings: Iterable[str]) -> None:
    """A Wrong where runs end, one after the other, otherwise than they did."""
    found = [(ending, len(list(alike))) for ending, alike in groupby(endings)]
    if found != ENDINGS[name]:
        told, known = (
            ", ".join(f"{count} {ending}" for ending, count in row)
            for row in (found, ENDINGS[name])
        )
        raise Wrong(f"{name}: {told}\nand not {known}")


def answers_of(output: bytes, errors: str) -> list[CallAnswer]:
    """The answers that stand in both outputs of `rt try`, in the order of its cases."""
    parts = SECTION.split(output)
    written = {name.decode(): part for name, part in zip(parts[1::2], parts[2::2])}
    answers = []
    said = ""
    for line in errors.splitlines(keepends=True):
        ended = ENDED.match(line)
        if ended is not None:
            status = int(ended[3]) if ended[2] == "ended" and ended[3] else -1
            answers.append(CallAnswer(status, written.get(ended[1], b""), said))
            said = ""
        elif not line.startswith(OWN_LINES):
            said += line
    return answers


def try_cases(crate: Path, cases: Sequence[Case]) -> list[CallAnswer]:
    """What each case of a crate's program answers, with one allocation refused."""
    check_program("rt")
    with tempfile.TemporaryDirectory(prefix="vga-memory-") as name:
        for number, (given, words) in enumerate(cases):
            Path(name, f"{number:04}").write_text(given)
            Path(name, f"{number:04}.args").write_text("".join(f"{word}\n" for word in words))
        files = [word for file, path in FILES.items() for word in ("--data", f"{file}={path}")]
        done = captured(
            ["rt", "try", "--fail-alloc", str(ALLOCATION), *files, "--cases", name, "--"], crate
        )
    said = done.errors.decode("utf-8", "replace")
    answers = answers_of(done.output, said)
    if len(answers) != len(cases):
        raise Wrong(said[-2000:])
    return answers


def growing(source: str) -> str:
    """The root file of the program, with the allocations before what its `main` does."""
    if source.count(MAIN) != 1:
        raise Wrong(f"main.rt has {source.count(MAIN)} lines {MAIN.strip()!r}, and not one")
    return source.replace(MAIN, FIRST + MAIN) + GROW


class Allocations(unittest.TestCase):
    # `rt try` builds the program anew, and runs it many times. Its address sanitizer reserves
    # terabytes of addresses.
    most_seconds = 1500
    most_memory = 1 << 47

    def test_the_calls(self) -> None:
        # Allocations that are made first move the one that is refused.
        cases = [("", ("memory", str(first))) for first in range(ALLOCATION)]
        judge("the calls", map(calls_ending, try_cases(CRATES / "vga_tests", cases)))

    def test_the_program(self) -> None:
        """From the reading of its first word on: a `vga` that makes allocations first runs in a
        copy of the crates."""
        runs = {
            name: [(first * "x", job.words) for first in range(job.first, ALLOCATION)]
            for name, job in jobs().items()
        }
        with tempfile.TemporaryDirectory(prefix="vga-memory-") as name:
            shutil.copy(TOP / "crates.txt", name)
            shutil.copytree(CRATES, Path(name, "crates"), ignore=shutil.ignore_patterns(*UNREAD))
            crate = Path(name, "crates", "vga")
            root = crate / "src" / "main.rt"
            root.write_text(growing(root.read_text()))
            answers = iter(try_cases(crate, [case for some in runs.values() for case in some]))
        for name, job in jobs().items():
            with self.subTest(name):
                endings = map(partial(job_ending, job), islice(answers, len(runs[name])))
                judge(name, endings)
