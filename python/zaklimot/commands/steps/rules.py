"""The one table of rules, and which of them elements show."""

from contextlib import suppress
from typing import Iterator

from . import dot_rules, memory_rules, port_rules, service_rules
from .parts import Element
from .reading import STEPS
from .seen import Branch, LacksPart, SeenElement, ShownRule

RULES: tuple[ShownRule, ...] = (
    *memory_rules.RULES,
    *port_rules.RULES,
    *dot_rules.RULES,
    *service_rules.RULES,
)
# The branches of rules that a step of each name may show.
OF_STEP: dict[str, list[tuple[ShownRule, str, Branch]]] = {
    step: [
        (rule, name, is_met)
        for rule in RULES
        if step in rule.steps
        for name, is_met in rule.branches.items()
    ]
    for step in STEPS
}


def branches_shown(element: Element) -> Iterator[tuple[ShownRule, str]]:
    """The rules that an element shows, each with its branches that are met."""
    seen = SeenElement(element)
    for rule, name, is_met in OF_STEP[seen.step]:
        with suppress(LacksPart):
            if is_met(seen):
                yield rule, name
