"""The calls by which a card explains itself."""

from __future__ import annotations

import ctypes
from typing import Optional

from . import _structs as s
from ._errors import error_of
from ._explained import (
    DotSource,
    ReadStages,
    Reason,
    Rebuilt,
    WriteStages,
    dot_source_of,
    reason_of,
)
from ._memory import Room
from ._numbers import BYTE, LONG, in_range
from ._opened import OpenCard
from ._scripts import AnyScript, script_bytes
from ._state import Beam
from .format import MOST_BYTES

_byref = ctypes.byref


class ExplainingCard(OpenCard):
    """A card that explains itself. These calls change nothing."""

    def explain_step(self, script: AnyScript, step: int = 0) -> Optional[Reason]:
        """Why the card would refuse a step of a script as it is now; None if it would do it.

            card.int10(ax=0x0013)
            reason = card.explain_step("put B8000 41")
            reason.refusal                     # zaklimot.NotDecoded
            reason.numbers["last"]             # AFFFF (hexadecimal), the last address of mode 13
            print(reason.text)                 # Memory map is 1 ..

        `script` is as for `zaklimot.run`. `step` is the number of the step in it, from 0, counted
        as `run_on` counts its `first`. You may ask after the refusal as well, since a refused step
        changes nothing. Raises BadArgument if the script has no such step, and a ScriptError.
        """
        code, number = script_bytes(script), in_range("step", step, LONG)
        reason, text = s.zak_reason(), (s.U8 * s.MOST_REASON_TEXT)()
        length, place = s.SIZE(), s.SIZE()
        told = (_byref(reason), text, len(text), _byref(length), _byref(place))
        status = self._calls["explain_step"](self._card, code, len(code), number, *told)
        if status:
            raise error_of(status, place.value)
        if not reason.status:
            return None
        return reason_of(reason, bytes(text[: length.value]).decode("ascii"))

    def explain_dot(self, beam: Optional[Beam] = None) -> DotSource:
        """Where the colour of the dot at a beam comes from, by the registers and the memory as they
        are now.

            source = card.explain_dot()        # the next dot
            source.address, source.entry, source.colour

        None asks of the card's own beam, which is at the next dot. Another beam, which `beam()`
        gave, asks of a dot that was drawn before: the answer is true of the picture if nothing that
        decides the dot has changed in between. `rows` of the beam does not matter. Raises
        BadArgument if a number of the beam is out of the bounds that `Beam` names.
        """
        asked = self._read("read_beam", s.zak_beam) if beam is None else _struct_of(beam)
        source = s.zak_dot_source()
        self._call("explain_dot", _byref(asked), _byref(source))
        return dot_source_of(source)

    def explain_put(self, address: int, value: int) -> WriteStages:
        """What `put` of a byte, 0 to FF, to an address would do on its way to the planes.

            stages = card.explain_put(0xA0000, 0x0F)
            stages.planes                      # 15: the write reaches all four planes
            stages.written                     # what each of them gets

        Raises NotDecoded if the adapter does not decode the address.
        """
        numbers = (in_range("address", address, LONG), in_range("value", value, BYTE))
        told = self._read("explain_put", s.zak_write_stages, *numbers)
        values = {name: getattr(told, name) for name in WriteStages._fields}
        for name in ("data", "combined", "before", "written"):
            values[name] = bytes(values[name])
        return WriteStages(**values)

    def explain_get(self, address: int) -> ReadStages:
        """What `get` of an address would do on its way from the planes.

            stages = card.explain_get(0xA0000)
            stages.plane, stages.value         # the plane that is read, and its byte

        Raises NotDecoded if the adapter does not decode the address.
        """
        told = self._read("explain_get", s.zak_read_stages, in_range("address", address, LONG))
        values = {name: getattr(told, name) for name in ReadStages._fields}
        values["loaded"] = bytes(values["loaded"])
        values["is_compare"] = bool(told.is_compare)
        return ReadStages(**values)

    def rebuild(self) -> Rebuilt:
        """A script that leads from power-on to the state of the card, with the same fonts.

            rebuilt = card.rebuild()
            with zaklimot.Card() as other:
                other.run_on(rebuilt.script)
                assert rebuilt.are_dots_other or other.save() == card.save()

        The call runs the script and compares before it returns. As far as tests show, it rebuilds
        each state that steps led to. A restored state may be one that no steps lead to:
        NotRebuilt. Raises TooLong if the script would have more than 16,777,216 bytes, and
        OutOfMemory: the call allocates up to four more cards, some 30 MB.
        """
        room, length, are_other = Room(MOST_BYTES), s.SIZE(), s.BOOL()
        self._call("rebuild", room.pointer, room.size, _byref(length), _byref(are_other))
        return Rebuilt(bytes(room.view[: length.value]), are_other.value)


def _struct_of(beam: Beam) -> s.zak_beam:
    """A beam as a call takes it. ValueError if a number of it has more bits than the struct's."""
    sizes = ((name, getattr(s.zak_beam, name).size) for name in beam._fields)
    return s.zak_beam(
        *(in_range(name, getattr(beam, name), (1 << 8 * size) - 1) for name, size in sizes)
    )
