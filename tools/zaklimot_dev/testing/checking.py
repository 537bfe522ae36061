"""The test command for a machine without Rattle: the suite and the tests of the tools, over the
portable program."""

from __future__ import annotations

import argparse
import json
import os
import shlex
import sys
import time

from zaklimot.commands import TOP
from zaklimot.commands.core.processes import captured
from zaklimot.commands.core.progress import Progress
from zaklimot.commands.core.trouble import AGREED as PASSED, DIFFERED as FAILED, TROUBLE, Trouble
from zaklimot.commands.script.portable import portable_program

from .running import Counts, run_tests

# What the suite does may take so many seconds.
MOST_SECONDS = 900


def check_suite(program: str, *chosen: str) -> Counts:
    """Holds a program to the suite, or to the cases that `--only` chooses. Those that don't agree
    are printed."""
    ways = [
        shlex.join([program, way]) + " {script} --fonts {fonts} {until}" for way in ("go", "run")
    ]
    words = [ways[0], "--bytes", ways[1], "--jobs", str(os.cpu_count() or 1), "--json", *chosen]
    done = captured([sys.executable, TOP / "zaklimot", "suite", *words], seconds=MOST_SECONDS)
    # A case that failed has this status too, and is told of.
    if done.status == TROUBLE and not done.output:
        raise Trouble(f"the suite can't be run\n{done.said()}")
    told = json.loads(done.output)
    for result in (case for rule in told["rules"] for case in rule["cases"]):
        if result["answer"] != "agrees":
            print(f"{result['answer']}  {result['name']}: {result['reason']}", flush=True)
    counts = told["cases"]
    return Counts(counts["agrees"], counts["differs"] + counts["failed"], counts["skipped"])


def check(words: argparse.Namespace, progress: Progress) -> int:
    """Runs the suite and the tests over the portable program, and tells what they find."""
    begun = time.monotonic()
    program = portable_program()
    if progress.is_wanted:
        progress.tell("the suite over the portable program, in about 15 seconds")
    suite = check_suite(program)
    progress.clear()
    print(f"the suite over the portable program: {suite}", flush=True)
    tests = run_tests(words.modules, program, progress)
    both = suite.beside(tests)
    print(
        f"that took {time.monotonic() - begun:.0f} seconds; the program is tested by this, and not"
        " proved\n"
    )
    print(both)
    return FAILED if both.failed or not both.passed else PASSED
