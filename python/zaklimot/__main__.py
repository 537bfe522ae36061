"""The command `zaklimot`, as `python -m zaklimot`."""

from zaklimot.commands.starting import zaklimot

raise SystemExit(zaklimot())
