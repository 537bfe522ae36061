"""Takes the steps of a script slice by slice: slices.py SCRIPT STEPS

Writes the printed text, and then the report of each slice of so many steps. After every slice it
goes back and takes it once more, as a debugger does.
"""

from __future__ import annotations

import sys
from pathlib import Path
from typing import Iterator

import zaklimot


def slices(card: zaklimot.Card, script: bytes, steps: int) -> Iterator[zaklimot.Report]:
    """Takes all steps, so many at a time, and each slice twice."""
    first = 0
    while True:
        state = card.save()
        once = card.run_on(script, first, steps)
        card.restore(state)
        again = card.run_on(script, first, steps)
        assert once.raw == again.raw
        yield again
        first += again.taken
        if again.taken < steps:
            return


def main() -> int:
    if len(sys.argv) != 3:
        print(__doc__, file=sys.stderr)
        return 2
    path, steps = sys.argv[1:]
    # Slices of no step would never come to the script's end.
    if not steps.isdecimal() or int(steps) == 0:
        print(f"{steps}: a slice has one step or more", file=sys.stderr)
        return 2
    try:
        text = Path(path).read_bytes()
    except OSError as error:
        print(f"{path}: {error.strerror}", file=sys.stderr)
        return 1
    try:
        script = zaklimot.assemble(text)
        sys.stdout.write(zaklimot.disassemble(script))
        sys.stdout.flush()
        with zaklimot.Card() as card:
            for report in slices(card, script, int(steps)):
                sys.stdout.buffer.write(report.raw)
    except zaklimot.ScriptError as fault:
        print(f"{path}: {fault}", file=sys.stderr)
        return 1
    return 0


if __name__ == "__main__":
    sys.exit(main())
