"""Finds the portable program as each tool does, and prints its path: tests have two of these run at
once."""

import sys
from pathlib import Path

sys.path.insert(0, str(Path(__file__).resolve().parents[2] / "python"))

from zaklimot.commands.core import cli  # noqa: E402
from zaklimot.commands.script.portable import portable_program  # noqa: E402


def _find() -> int:
    print(portable_program())
    return 0


raise SystemExit(cli.run("finding", _find))
