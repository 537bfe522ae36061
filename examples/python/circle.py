"""Writes a script that draws a circle in mode 12: circle.py > circle.vga"""

from zaklimot import SEQ, Script

WINDOW, ROW_BYTES = 0xA0000, 80
X, Y, RADIUS, YELLOW = 320, 240, 200, 0x0E


def circle() -> dict[int, int]:
    """The bytes of a ring three pixels wide, by their addresses. Bit 7 is the pixel at the left."""
    found: dict[int, int] = {}
    for y in range(480):
        for x in range(640):
            if (RADIUS - 1.5) ** 2 < (x - X) ** 2 + (y - Y) ** 2 < (RADIUS + 1.5) ** 2:
                address = WINDOW + ROW_BYTES * y + x // 8
                found[address] = found.get(address, 0) | 0x80 >> x % 8
    return found


script = Script()
script.int10(ax=0x12)  # mode 12, all black
script.out(SEQ.MAP_MASK, YELLOW)  # planes 1, 2 and 3: their pixels are yellow
for address, bits in circle().items():
    script.put(address, bits)  # eight pixels at once
script.frame()
print(script.text(), end="")
