"""The tests of a small driver, by pytest's conventions: pytest examples/python/test_driver.py

The driver draws into the planes of mode 12 and types text in mode 3. Each test has a card of its
own, and looks at registers, planes, screen or picture.
"""

from __future__ import annotations

import zaklimot

SEQUENCER, GRAPHICS = 0x3C4, 0x3CE
MAP_MASK, SET_RESET, ENABLE_SET_RESET, BIT_MASK = 2, 0, 1, 8
WINDOW, ROW_BYTES = 0xA0000, 80


# The driver.


def fill(card: zaklimot.Card, left: int, top: int, width: int, height: int, colour: int) -> None:
    """Fills a rectangle of mode 12 whose edges are multiples of eight, by set/reset."""
    card.out_word(GRAPHICS, colour << 8 | SET_RESET)
    card.out_word(GRAPHICS, 0x0F << 8 | ENABLE_SET_RESET)
    for y in range(top, top + height):
        for byte in range(left // 8, (left + width) // 8):
            card.put(WINDOW + ROW_BYTES * y + byte, 0)
    # As the mode set leaves them: the video BIOS and the plain screen rely on it.
    card.out_word(GRAPHICS, ENABLE_SET_RESET)
    card.out_word(GRAPHICS, SET_RESET)


def plot(card: zaklimot.Card, x: int, y: int, colour: int) -> None:
    """Draws a pixel of mode 12. The latches keep the seven beside it."""
    address = WINDOW + ROW_BYTES * y + x // 8
    card.out_word(GRAPHICS, (0x80 >> x % 8) << 8 | BIT_MASK)
    card.get(address)
    for plane in range(4):
        card.out_word(SEQUENCER, 1 << plane << 8 | MAP_MASK)
        card.put(address, 0xFF if colour >> plane & 1 else 0)
    card.out_word(SEQUENCER, 0x0F << 8 | MAP_MASK)
    card.out_word(GRAPHICS, 0xFF << 8 | BIT_MASK)


def type_text(card: zaklimot.Card, text: str) -> None:
    for letter in text.encode("cp437"):
        card.int10(ax=0x0E00 | letter)


# Its tests.


def mode(number: int) -> zaklimot.Card:
    card = zaklimot.Card()
    card.int10(ax=number)
    return card


def test_fill_draws_all_planes_of_its_colour() -> None:
    with mode(0x12) as card:
        fill(card, left=16, top=2, width=8, height=1, colour=0x05)
        assert [card.plane(plane, 160 + 2, 1) for plane in range(4)] == [
            b"\xff",
            b"\0",
            b"\xff",
            b"\0",
        ]
        assert [card.pixel(x, 2) for x in (15, 16, 23, 24)] == [0, 5, 5, 0]


def test_fill_puts_set_reset_back() -> None:
    with mode(0x12) as card:
        fill(card, 0, 0, 8, 1, 0x0F)
        assert card.registers().gfx[:2] == b"\0\0"


def test_plot_keeps_the_pixels_beside_it() -> None:
    with mode(0x12) as card:
        fill(card, 0, 0, 8, 1, 0x0A)
        plot(card, 3, 0, 0x04)
        assert [card.pixel(x, 0) for x in range(8)] == [10, 10, 10, 4, 10, 10, 10, 10]
        red, ground = card.colour(0x04), card.frame()[2, 0]
        assert card.frame()[3, 0] == red == (42, 0, 0)
        assert ground == (21, 63, 21)


def test_text_moves_the_cursor() -> None:
    with mode(0x03) as card:
        type_text(card, "PRÉT\r\n>")
        assert card.text()[:2] == ["PRÉT", ">"]
        assert card.cursor() == (1, 1)


def test_nothing_answers_before_the_memory_is_enabled() -> None:
    with zaklimot.Card() as card:
        try:
            card.put(WINDOW, 0)
        except zaklimot.NotDecoded:
            card.out(0x3C2, 0x02)
            card.put(WINDOW, 0)
        else:
            raise AssertionError("the write was taken")


def test_a_line_in_the_frame_under_way_is_split_where_the_palette_changes() -> None:
    with mode(0x13) as card:
        fill_all = 640 * 400
        card.advance(800 * 100)  # a hundred lines
        card.out(0x3C8, 0)
        for component in (63, 0, 0):
            card.out(0x3C9, component)
        picture = card.frame()
        assert picture.width * picture.height == fill_all
        assert (picture[0, 50], picture[0, 350]) == ((0, 0, 0), (63, 0, 0))
