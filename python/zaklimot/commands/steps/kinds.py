"""The one table of kinds: each is a file of elements."""

from .clock_kinds import clock_kinds
from .dot_kinds import dot_kinds
from .memory_kinds import memory_kinds
from .port_kinds import port_kinds
from .service_kinds import service_kinds
from .wishes import ElementKind

KINDS: dict[str, ElementKind] = {
    kind.name: kind
    for kind in (
        *memory_kinds(),
        *port_kinds(),
        *dot_kinds(),
        *clock_kinds(),
        *service_kinds(),
    )
}
