"""The ports of a VGA by their names, and some bits of its registers."""

from typing import NamedTuple

ATTRIBUTE = 0x3C0
MISC = 0x3C2
SEQUENCER = 0x3C4
GRAPHICS = 0x3CE
# Where what was written to two of these is read.
ATTRIBUTE_READ = 0x3C1
MISC_READ = 0x3CC
COLOUR = 0x3D4
MONOCHROME = 0x3B4
MASK, DAC_READ, DAC_WRITE, DAC_DATA = 0x3C6, 0x3C7, 0x3C8, 0x3C9
# From the port of the CRT controller's index to that of input status 1.
STATUS = 6
# Bits of miscellaneous output.
IS_COLOUR = 0x01
ENABLE_MEMORY = 0x02
# The end of vertical retrace, whose bit protects registers 0 to 7.
RETRACE_END = 0x11
PROTECT = 0x80


class MemoryWindow(NamedTuple):
    """The addresses at which memory answers: the first of them, and how many there are."""

    first: int
    size: int


# The windows by the memory map, which bits 3 and 2 of a register tell.
WINDOWS = (
    MemoryWindow(0xA0000, 0x20000),
    MemoryWindow(0xA0000, 0x10000),
    MemoryWindow(0xB0000, 0x8000),
    MemoryWindow(0xB8000, 0x8000),
)
