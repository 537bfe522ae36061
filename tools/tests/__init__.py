"""Tests of the tools: `tools/tests-of-tools`, or `python3 -m unittest` without limits."""

import sys
from pathlib import Path

# The package whose commands are tested lies in the repository, and not where Python looks for
# others.
sys.path.insert(1, str(Path(__file__).resolve().parents[2] / "python"))

# Tests see what the tools do without these packages, whatever Python runs them. What the tools do
# with them, test_beside.py compares with that.
sys.modules.update(dict.fromkeys(("numpy", "PIL")))  # type: ignore[arg-type]
