"""The registers of the adapter by their names (docs/REGISTERS.md)."""

from __future__ import annotations

from enum import Enum


class Indexed(Enum):
    """Registers with an index. `port` is the port of the index; the next port takes the data."""

    @property
    def port(self) -> int:
        """The port of the index."""
        return _PORTS[type(self)]

    @property
    def word(self) -> int:
        """The low byte of a word that sets the index: the register's number."""
        return int(self.value)


class SEQ(Indexed):
    """The sequencer, ports 3C4 and 3C5 (hexadecimal)."""

    RESET = 0
    CLOCKING_MODE = 1
    MAP_MASK = 2
    CHARACTER_MAP_SELECT = 3
    MEMORY_MODE = 4


class GFX(Indexed):
    """The graphics controller, ports 3CE and 3CF (hexadecimal)."""

    SET_RESET = 0
    ENABLE_SET_RESET = 1
    COLOUR_COMPARE = 2
    DATA_ROTATE = 3
    READ_MAP_SELECT = 4
    GRAPHICS_MODE = 5
    MISCELLANEOUS = 6
    COLOUR_DONT_CARE = 7
    BIT_MASK = 8


class CRTC(Indexed):
    """The CRT controller at ports 3D4 and 3D5 (hexadecimal), which it has in the colour modes."""

    HORIZONTAL_TOTAL = 0x00
    HORIZONTAL_DISPLAY_ENABLE_END = 0x01
    VERTICAL_TOTAL = 0x06
    OVERFLOW = 0x07
    PRESET_ROW_SCAN = 0x08
    MAXIMUM_SCAN_LINE = 0x09
    CURSOR_START = 0x0A
    CURSOR_END = 0x0B
    START_ADDRESS_HIGH = 0x0C
    START_ADDRESS_LOW = 0x0D
    CURSOR_LOCATION_HIGH = 0x0E
    CURSOR_LOCATION_LOW = 0x0F
    VERTICAL_RETRACE_START = 0x10
    VERTICAL_RETRACE_END = 0x11
    VERTICAL_DISPLAY_ENABLE_END = 0x12
    OFFSET = 0x13
    UNDERLINE_LOCATION = 0x14
    MODE_CONTROL = 0x17
    LINE_COMPARE = 0x18


_PORTS: dict[type[Indexed], int] = {SEQ: 0x3C4, GFX: 0x3CE, CRTC: 0x3D4}
