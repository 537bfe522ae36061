"""The options that tools have in common which prove the library's crate, or check it."""

import argparse
from pathlib import Path
from typing import Iterable, Optional, Sequence

from zaklimot.commands.core.cli import add, rule
from zaklimot.commands.core.trouble import Trouble


def add_proof(
    parser: argparse.ArgumentParser,
    gate: Optional[argparse._ActionsContainer] = None,
    usually: str = "",
) -> None:
    """The options of a tool that proves the library's crate; `gate` gets that of the gate."""
    add(
        gate or parser,
        "--gated",
        f"works over the libraries of `rt ci`, which must have run just before{usually}",
    )
    add(
        parser,
        "--proof FOLDER",
        "with --gated: keeps the crate's proof there, or takes it from there",
        type=Path,
    )
    rule(parser, "proof", lambda words: not words.gated, "--proof keeps a proof of --gated")


def add_checks(
    parser: argparse.ArgumentParser,
    checks: Iterable[str],
    gate: Optional[argparse._ActionsContainer] = None,
) -> None:
    """The same of a tool that checks the crate."""
    add_proof(parser, gate)
    add(
        parser,
        "--only",
        "this check alone; again and again",
        action="append",
        default=[],
        choices=checks,
    )


def refuse_to_check(lacking: Sequence[str]) -> None:
    """Ends the work where the machine lacks something."""
    if lacking:
        raise Trouble("this machine lacks\n" + "\n".join(f"  {line}" for line in lacking))
