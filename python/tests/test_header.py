"""The package's tables against include/zaklimot.h: no number, field or parameter stands twice
unseen."""

from __future__ import annotations

import ctypes
import unittest
from typing import Any

import header
from zaklimot import _calls, _errors, _explained, _library, _state, _structs, _version, format

KINDS: dict[str, Any] = {
    "bool": ctypes.c_bool,
    "pointer": ctypes.c_void_p,
    "size_t": ctypes.c_size_t,
    "uint8_t": ctypes.c_uint8,
    "uint16_t": ctypes.c_uint16,
    "uint32_t": ctypes.c_uint32,
    "zak_status": ctypes.c_uint32,
    "zak_colour": _structs.zak_colour,
}
# Where the objects of the package have other names than the structs.
OBJECTS: dict[str, Any] = {
    "registers": _state.Registers,
    "beam": _state.Beam,
    "bda": _state.BiosData,
    "screen": _state.Screen,
    "cell": _state.Cell,
    "place": _state.Position,
    "timing": _state.Timing,
    "dot_source": _explained.DotSource,
    "write_stages": _explained.WriteStages,
    "read_stages": _explained.ReadStages,
}
# The enumerations, by how their names begin in the header, and the first of each.
ENUMS: dict[str, tuple[Any, str]] = {
    "WHY_": (_explained.Why, "NO_PORT"),
    "GROUP_": (_explained.Group, "SEQUENCER"),
    "PART_": (_explained.Part, "INPUT_STATUS_0"),
    "MISTAKE_": (_explained.MistakeKind, "CHARACTER"),
}
RENAMED = {"cursor_places": "cursors", "rate": "dots_per_second", "rate_divisor": "dots_per_second"}


def parameter(kind: str) -> object:
    """What the table is to have for a parameter of the header."""
    if not kind.endswith(" *"):
        return KINDS[kind]
    if kind == "const uint8_t *":
        return _calls.In
    name = kind.removeprefix("const ")[:-2]
    return ctypes.POINTER(KINDS.get(name) or getattr(_structs, name))


class Header(unittest.TestCase):
    def test_structs(self) -> None:
        structs = header.structs()
        own = {name for name in vars(_structs) if name.startswith("zak_")}
        self.assertEqual(own, set(structs))
        for name, fields in structs.items():
            wanted = [
                (one.name, KINDS[one.kind] * one.elements if one.elements else KINDS[one.kind])
                for one in fields
            ]
            self.assertEqual(getattr(_structs, name)._fields_, wanted, name)

    def test_objects_have_the_fields_of_their_structs(self) -> None:
        for name, kind in OBJECTS.items():
            fields = {RENAMED.get(one.name, one.name) for one in header.structs()[f"zak_{name}"]}
            self.assertEqual(set(kind._fields), fields, name)

    def test_calls(self) -> None:
        calls = header.calls()
        self.assertEqual(list(_calls.CALLS), list(calls))
        for name, kinds in calls.items():
            self.assertEqual(list(_calls.CALLS[name]), [parameter(kind) for kind in kinds], name)

    def test_statuses(self) -> None:
        wanted = {number: name for name, number in header.statuses().items() if number}
        own = {number: kind.__name__ for number, kind in _errors.BY_NUMBER.items()}
        aliases = {"NO_CARD": "Closed"}
        named = {
            number: aliases.get(name) or "".join(word.capitalize() for word in name.split("_"))
            for number, name in wanted.items()
        }
        self.assertEqual(own, named)

    def test_enumerations(self) -> None:
        for begin, (kind, first) in ENUMS.items():
            wanted = header.members(begin + first)
            own = {f"{begin}{one.name}": int(one) for one in kind}
            self.assertEqual(list(own.items()), list(wanted.items()), kind)

    def test_a_reason_has_room_for_its_numbers(self) -> None:
        room = next(one.elements for one in header.structs()["zak_reason"] if one.elements)
        self.assertEqual(max(len(why.numbers) for why in _explained.Why), room)

    def test_sentences(self) -> None:
        """Each exception says what the library says of its status."""
        names = {number: name for name, number in header.statuses().items()}
        for number in _errors.BY_NUMBER:
            text = (_structs.U8 * _structs.MOST_STATUS_TEXT)()
            length = _structs.SIZE()
            status = _library.loaded().calls["status_text"](
                number, text, len(text), ctypes.byref(length)
            )
            self.assertEqual(status, 0)
            told = bytes(text[: length.value]).decode()
            self.assertEqual(told, f"ZAK_{names[number]}: {_errors.error_of(number)}")

    def test_kinds_of_statuses(self) -> None:
        for number, kind in _errors.BY_NUMBER.items():
            self.assertEqual(issubclass(kind, _errors.Refusal), number < 20, kind)
            self.assertEqual(issubclass(kind, _errors.StateError), 30 <= number < 35, kind)
            self.assertEqual(issubclass(kind, _errors.ScriptError), number > 100, kind)

    def test_the_formats_refusals_and_faults(self) -> None:
        refusals = {
            number: kind.__name__ for number, kind in _errors.BY_NUMBER.items() if number < 20
        }
        self.assertEqual(refusals, format.REFUSALS)
        faults = {
            kind.__name__: number - 100
            for number, kind in _errors.BY_NUMBER.items()
            if number > 100
        }
        self.assertEqual(faults, {name: format.FAULTS[name].number for name in faults})
        self.assertEqual(
            (_structs.FONTS_SIZE, _structs.MOST_DOTS), (format.FONT_BYTES, format.MOST_ADVANCE)
        )

    def test_numbers(self) -> None:
        numbers = header.numbers()
        version = {"API_MAJOR": _version.API_MAJOR, "API_MINOR": _version.API_MINOR}
        self.assertEqual(
            numbers.pop("API_VERSION"), 65536 * version["API_MAJOR"] + version["API_MINOR"]
        )
        self.assertEqual(
            numbers, {name: version.get(name) or getattr(_structs, name) for name in numbers}
        )

    def test_the_reader_sees_the_header(self) -> None:
        self.assertGreater(len(header.calls()), 40)
        self.assertEqual(len(header.structs()), 22)
        self.assertEqual(len(header.ENUM.findall(header.text())), 1 + len(ENUMS))
        self.assertEqual(header.structs()["zak_registers"][2], header.Field("seq", "uint8_t", 5))
        self.assertEqual(header.calls()["in"], ["zak_card *", "uint16_t", "uint8_t *"])
        self.assertEqual(header.calls()["fill_bytes"][3:], ["size_t", "bool", "size_t *"])
        self.assertEqual(
            (header.numbers()["MOST_RGB"], header.numbers()["NEVER"]), (7_077_888, 0xFFFF_FFFF)
        )


if __name__ == "__main__":
    unittest.main()
