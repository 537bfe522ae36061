"""The words of the command line, and what its options ask of one another."""

import argparse
from functools import partial

from zaklimot.commands.core import cli
from zaklimot.commands.core.cli import add, later
from zaklimot.commands.core.files import Input, Output
from zaklimot.commands.core.words import MOST_JOBS, number_to, seconds

# So many elements has a file at most, and the largest seed.
MOST_COUNT = 1_000_000
MOST_SEED = (1 << 32) - 1
COMMAND = """the command that runs an adapter, as one word of the shell. It reads elements as lines
of JSON on standard input, without their answers, and answers each with a line"""
# What jobs of the command line are functions of.
_job = partial(later, "zaklimot.commands.steps.command")


def _add_files(parser: argparse.ArgumentParser) -> None:
    told = "files of elements, packed by gzip or not; - is standard input"
    parser.add_argument("file", metavar="FILE", nargs="+", type=Input, help=told)


def _add_jobs(parser: argparse.ArgumentParser) -> None:
    told = "works on N files at a time (default: 1)"
    add(parser, "--jobs N", told, type=number_to(MOST_JOBS), default=1)


def _add_make(commands: cli.Commands) -> None:
    told = "makes the files of all kinds, or of some"
    example = "zaklimot steps make steps --count 1000 --seed 1 --jobs 2"
    made = cli.command(commands, "make", _job("make"), told, example)
    told = """the folder for the files. Those that are there, made by the same words, stay; others
of these names are replaced"""
    add(made, "FOLDER", told)
    told = "how many elements each file gets (default: 10000)"
    add(made, "--count N", told, type=number_to(MOST_COUNT), default=10_000)
    told = "the seed, 0 to 4294967295: the same makes the same files (default: 0)"
    add(made, "--seed N", told, type=number_to(MOST_SEED, 0), default=0)
    told = "makes only kinds whose names begin with PREFIX; may be repeated"
    add(made, "--only PREFIX", told, action="append", default=[])
    add(made, "--plain", "writes the files as they are, and does not pack them")
    # For the processes of --jobs: the first of them writes what lies beside the files.
    add(made, "--part", argparse.SUPPRESS, dest="is_part")
    _add_jobs(made)


def _add_kinds(commands: cli.Commands) -> None:
    told = "lists the kinds, and what each shows"
    example = "zaklimot steps kinds --parts"
    made = cli.command(commands, "kinds", _job("list_kinds"), told, example)
    add(made, "--parts", "lists the parts of the state that elements of each kind have too")


def _add_script(commands: cli.Commands) -> None:
    told = "writes an element as a script that ends in its step"
    example = "zaklimot steps script examples/steps/write-mode-0-planar.json.gz 3"
    made = cli.command(commands, "script", _job("write_script"), told, example)
    add(made, "FILE", "a file of elements; - is standard input", type=Input)
    add(made, "N", "the element's number, from 0", type=number_to(MOST_COUNT, 0))
    told = "where the script goes (default: standard output)"
    add(made, "SCRIPT", told, nargs="?", default="-", type=Output)
    told = "adds steps that dump the state, or cycles that read what can be read of it"
    add(made, "--then", told, choices=("dumps", "reads"))


def _add_check(commands: cli.Commands) -> None:
    told = "tests an adapter by elements, which it reads and answers as lines of JSON"
    adapter = "python3 examples/steps/toy.py"
    file = "examples/steps/sequencer.json.gz"
    example = f"zaklimot steps check '{adapter}' {file}"
    made = cli.command(commands, "check", _job("check"), told, example)
    add(made, "COMMAND", COMMAND)
    _add_files(made)
    told = "skips elements whose step is expected to be refused"
    add(made, "--no-refusals", told, dest="refusals", action="store_false")
    told = "the time for each answer (default: 60)"
    add(made, "--timeout SECONDS", told, type=seconds, default=60)
    add(made, "--fail-fast", "stops at the first element that differs")
    told = "writes a test case for each rule of each file, as test runners read it"
    add(made, "--junit FILE", told, type=Output)
    add(made, "--json FILE", "writes the counts, and what differs first, as JSON", type=Output)


def add_steps(commands: cli.Commands) -> None:
    """Adds the command `steps`, with its own commands."""
    told = "makes and uses single-step tests of adapters: a state, a step, and the state after it"
    example = "zaklimot steps make steps --count 1000 --seed 1"
    made = cli.group(commands, "steps", told, example, "docs/STEPS.md")
    _add_make(made)
    _add_check(made)
    _add_script(made)
    _add_kinds(made)
