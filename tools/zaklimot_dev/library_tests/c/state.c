/* What is read of the state says what the dumps say: each struct is written as its dump is, and the
 * two are compared, in six modes and at many dots. So is the plain screen with cells, pixels and
 * cursors that the BIOS has written. It prints how often the two were compared. */
#include <stdio.h>
#include <stdlib.h>
#include <string.h>

#include "zaklimot.h"

#define ROUNDS 12

static uint8_t fonts[ZAK_FONTS_SIZE], text[ZAK_MOST_TEXT + 1], table[ZAK_MOST_TABLE];
static const uint8_t none[1];
static zak_card card = ZAK_CARD_INIT;
static char made[ZAK_MOST_TEXT];
static size_t made_len, text_len;
static unsigned compared;

#define WRITE(...) \
    (made_len += (size_t)snprintf(made + made_len, sizeof made - made_len, __VA_ARGS__))

static void expect(int is_so, const char *what)
{
    compared++;
    if (is_so)
        return;
    printf("%s: it is otherwise\n%.*s\n%.*s\n", what, (int)text_len, (char *)text, (int)made_len,
           made);
    exit(1);
}

static void expect_text(zak_status status, const char *what)
{
    expect(status == ZAK_OK && made_len == text_len && memcmp(made, text, made_len) == 0, what);
    made_len = 0;
}

static void call_bios(uint16_t ax, uint16_t bx, uint16_t cx, uint16_t dx)
{
    zak_regs regs = {ax, bx, cx, dx};
    size_t len;
    expect(zak_int10(&card, &regs, none, 0, table, sizeof table, &len) == ZAK_OK, "zak_int10");
}

static void write_group(const char *name, unsigned index, const uint8_t *values, size_t count)
{
    WRITE("%s %02X:", name, index);
    for (size_t i = 0; i < count; i++)
        WRITE(" %02X", values[i]);
    WRITE("\n");
}

static void compare_registers(void)
{
    zak_registers r;
    zak_status status = zak_read_registers(&card, &r);
    WRITE("misc %02X\n", r.misc);
    write_group("seq", r.seq_index, r.seq, sizeof r.seq);
    write_group("crtc", r.crtc_index, r.crtc, sizeof r.crtc);
    write_group("gfx", r.gfx_index, r.gfx, sizeof r.gfx);
    WRITE("attr %02X %c:", r.attr_index, r.attr_is_data ? 'd' : 'i');
    for (size_t i = 0; i < sizeof r.attr; i++)
        WRITE(" %02X", r.attr[i]);
    WRITE("\ndac %02X %c %02X %02X %02X\n", r.dac_index, "rgb"[r.dac_component], r.dac_mask,
          r.dac_waiting_red, r.dac_waiting_green);
    status |= zak_show_regs(&card, text, ZAK_MOST_TEXT, &text_len);
    expect_text(status, "registers");
}

static void compare_beam(void)
{
    zak_beam b;
    zak_status status = zak_read_beam(&card, &b);
    WRITE("beam frame %u line %u char %u dot %u base %04X scan %u half %u split %u rows %u\n",
          b.frame, b.line, b.character, b.dot, b.base, b.scan, b.half, b.split, b.rows);
    status |= zak_show_beam(&card, text, ZAK_MOST_TEXT, &text_len);
    expect_text(status, "beam");
}

static void compare_latches(void)
{
    zak_latches l;
    zak_status status = zak_read_latches(&card, &l);
    WRITE("latches %02X %02X %02X %02X\n", l.plane[0], l.plane[1], l.plane[2], l.plane[3]);
    status |= zak_show_latches(&card, text, ZAK_MOST_TEXT, &text_len);
    expect_text(status, "latches");
}

static void compare_bda(void)
{
    zak_bda b;
    zak_status status = zak_read_bda(&card, &b);
    WRITE("bda mode %02X cols %04X size %04X start %04X at", b.mode, b.columns, b.size, b.start);
    for (size_t page = 0; page < 8; page++)
        WRITE(" %04X", b.cursor_places[page]);
    WRITE(" type %04X page %02X crtc %04X last %02X height %04X\n", b.cursor_type, b.page,
          b.crtc_address, b.last_row, b.height);
    status |= zak_show_bda(&card, text, ZAK_MOST_TEXT, &text_len);
    expect_text(status, "BIOS data");
}

static void compare_colours(void)
{
    for (unsigned i = 0; i < 256; i++) {
        zak_colour c;
        zak_status status = zak_read_colour(&card, (uint8_t)i, &c);
        WRITE("entry %02X: %02X %02X %02X\n", i, c.red, c.green, c.blue);
        status |= zak_show_dac(&card, (uint8_t)i, text, ZAK_MOST_TEXT, &text_len);
        expect_text(status, "an entry of the DAC");
    }
}

static void compare_planes(void)
{
    static uint8_t bytes[65536];
    for (uint8_t plane = 0; plane < 4; plane++) {
        zak_status status = zak_read_plane(&card, plane, 0, bytes, sizeof bytes);
        for (uint32_t at = 0; at < 65536; at += 256) {
            WRITE("plane %u %04X:", plane, (unsigned)at);
            for (size_t i = 0; i < 256; i++)
                WRITE(" %02X", bytes[at + i]);
            WRITE("\n");
            status |= zak_show_plane(&card, plane, (uint16_t)at, 256, text, ZAK_MOST_TEXT,
                                     &text_len);
            expect_text(status, "a plane");
        }
    }
}

/* The cells of the active page, as the screen has them and as the dump has. */
static void compare_cells(const zak_screen *screen)
{
    zak_status status = ZAK_OK;
    for (uint8_t row = 0; row < screen->rows; row++) {
        WRITE("row %02X:", row);
        for (uint8_t column = 0; column < screen->columns; column++) {
            zak_cell cell = {0, 0};
            status |= zak_screen_cell(&card, screen->page, row, column, &cell);
            WRITE(" %02X%02X", cell.character, cell.attribute);
        }
        WRITE("\n");
    }
    status |= zak_show_cells(&card, text, ZAK_MOST_TEXT, &text_len);
    expect_text(status, "cells");
}

/* A pixel that the BIOS writes is the screen's. */
static void compare_pixels(const zak_screen *screen)
{
    for (uint16_t i = 0; i < 4; i++) {
        uint16_t x = (uint16_t)(screen->width - 1 - 7 * i), y = (uint16_t)(11 * i);
        uint8_t pixel = 0;
        call_bios((uint16_t)(0x0C05 + i), (uint16_t)(screen->page << 8), x, y);
        zak_status status = zak_screen_pixel(&card, screen->page, x, y, &pixel);
        expect(status == ZAK_OK && pixel == 5 + i, "a pixel");
    }
}

/* At the first dot of a frame the adapter shows the screen that the BIOS' data tell of. */
static void compare_screen(uint16_t mode, uint8_t pages)
{
    zak_screen screen;
    zak_bda bda;
    zak_place place = {0, 0};
    zak_status status = zak_screen_read(&card, &screen) | zak_read_bda(&card, &bda);
    int is_text = mode == 3 || mode == 7;
    expect(status == ZAK_OK && screen.mode == mode && screen.is_text == is_text, "a screen");
    expect(screen.columns == bda.columns && screen.rows == bda.last_row + 1u, "columns and rows");
    expect(screen.page == bda.page && screen.pages == pages, "pages");
    expect(screen.width == (is_text ? 0 : 8u * bda.columns), "a width");
    expect(screen.height == (is_text ? 0 : (uint32_t)bda.height * screen.rows), "a height");
    call_bios(0x0200, 0, 0, 0x0307);
    status = zak_screen_cursor(&card, 0, &place);
    expect(status == ZAK_OK && place.row == 3 && place.column == 7, "a cursor");
    if (is_text)
        compare_cells(&screen);
    else
        compare_pixels(&screen);
}

static void compare_all(void)
{
    compare_registers();
    compare_beam();
    compare_latches();
    compare_bda();
}

/* Each field of the state gets a value of its own, so that no two can be taken for one another. */
static void stir(uint32_t round)
{
    uint8_t byte;
    zak_put(&card, 0xB8000 + 37 * round, (uint8_t)(0x41 + round));
    zak_put(&card, 0xA0000 + 41 * round, (uint8_t)(0x91 + round));
    zak_get(&card, 0xA0000 + 41 * round, &byte);
    zak_get(&card, 0xB8000 + 37 * round, &byte);
    zak_out(&card, 0x3C8, (uint8_t)(7 * round));
    zak_out(&card, 0x3C9, (uint8_t)(round + 1));
    if (round % 3 != 0)
        zak_out(&card, 0x3C9, (uint8_t)(round + 2));
    zak_in(&card, 0x3DA, &byte);
    zak_in(&card, 0x3BA, &byte);
    if (round % 2 != 0)
        zak_out(&card, 0x3C0, 0x20);
    zak_advance(&card, 12345 + 977 * round);
}

int main(int argc, char **argv)
{
    static const struct mode {
        uint16_t number;
        uint8_t pages;
    } MODES[] = {{3, 8}, {7, 8}, {0x0D, 8}, {0x10, 2}, {0x12, 1}, {0x13, 1}};
    static uint8_t rgb[ZAK_MOST_RGB];
    zak_size size;
    FILE *file = argc == 2 ? fopen(argv[1], "rb") : NULL;
    if (!file || fread(fonts, 1, sizeof fonts, file) != sizeof fonts)
        return 2;
    fclose(file);
    expect(zak_open(&card, fonts, sizeof fonts) == ZAK_OK, "zak_open");
    compare_all();
    for (size_t i = 0; i < sizeof MODES / sizeof *MODES; i++) {
        call_bios(MODES[i].number, 0, 0, 0);
        zak_frame(&card, &size, rgb, sizeof rgb);
        compare_screen(MODES[i].number, MODES[i].pages);
        for (uint32_t round = 1; round <= ROUNDS; round++) {
            stir(round);
            compare_all();
        }
        compare_colours();
        compare_planes();
    }
    expect(zak_close(&card) == ZAK_OK, "zak_close");
    printf("%u\n", compared);
    return 0;
}
