"""How many elements of examples/steps show each branch of each rule.

    cd tools && python3 -m tests.branches

writes the counts anew, as `branches.json`: look at what has changed before you commit it.
"""

from __future__ import annotations

import json
from pathlib import Path

from zaklimot.commands.steps.reading import read_elements
from zaklimot.commands.steps.rules import RULES, branches_shown

from .stepping import STEPS_EXAMPLES

FILE = Path(__file__).with_suffix(".json")
# The counts of the branches, by the rules.
Counts = dict[str, dict[str, int]]


def counted() -> Counts:
    """The counts as the examples and the rules are now."""
    found = {rule.name: dict.fromkeys(rule.branches, 0) for rule in RULES}
    for path in sorted(STEPS_EXAMPLES.glob("*.json.gz")):
        for element in read_elements(str(path)):
            for rule, branch in branches_shown(element):
                found[rule.name][branch] += 1
    return found


if __name__ == "__main__":
    FILE.write_text(json.dumps(counted(), indent=1, sort_keys=True) + "\n", "ascii")
