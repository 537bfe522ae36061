/* zak_line against zak_frame_lines, in each mode and over pseudo-random registers: two cards in one
 * state, of which one goes line by line to the end of its frame. Prints how many lines were
 * compared, or what was wrong.
 *
 *     lines FONTS SETTINGS */
#include <stdio.h>
#include <stdlib.h>
#include <string.h>

#include "zaklimot.h"

#define UNTOUCHED 0x12345678u
/* More lines than a frame has. */
#define MOST_LINES 2000

static uint8_t fonts[ZAK_FONTS_SIZE], states[2][ZAK_MOST_STATE], rgb[ZAK_MOST_RGB];
static uint8_t drawn[ZAK_MOST_RGB];
static uint32_t widths[ZAK_HIGHEST], pixels[ZAK_WIDEST + 1];
static zak_card card = ZAK_CARD_INIT, other = ZAK_CARD_INIT;
static uint32_t random_state = 1;
static unsigned long compared;

static uint32_t random_below(uint32_t limit)
{
    random_state = 1664525u * random_state + 1013904223u;
    return (random_state >> 8) % limit;
}

static void require(bool holds, const char *what)
{
    if (holds)
        return;
    printf("line %lu: %s\n", compared, what);
    exit(1);
}

static void set_mode(uint16_t mode)
{
    static const uint8_t none[1];
    uint8_t table[1];
    size_t len;
    zak_regs regs = {mode, 0, 0, 0};
    require(zak_int10(&card, &regs, none, 0, table, sizeof table, &len) == ZAK_OK, "mode set");
}

/* Bytes in the window, a frame of another size, and a beam somewhere within it. */
static void set_state(void)
{
    for (uint32_t i = 0; i < 2000; i++) {
        zak_put(&card, 0xA0000 + random_below(0x8000), (uint8_t)random_below(256));
        zak_put(&card, 0xB8000 + random_below(0x1000), (uint8_t)random_below(256));
    }
    zak_out_word(&card, 0x3D4, 0x0011);
    if (random_below(2))
        zak_out_word(&card, 0x3D4, (uint16_t)(0x01 | random_below(100) << 8));
    if (random_below(2))
        zak_out_word(&card, 0x3D4, (uint16_t)(0x12 | random_below(256) << 8));
    if (random_below(4) == 0)
        zak_out_word(&card, 0x3D4, (uint16_t)(0x06 | random_below(256) << 8));
    require(zak_advance(&card, random_below(random_below(4) ? 5000 : 400000)) == ZAK_OK, "advance");
}

static uint32_t eight_bits(uint8_t six)
{
    return 4u * six + six / 16u;
}

static uint32_t word_of(const uint8_t *dot, uint32_t flags)
{
    return (flags & ZAK_OPAQUE ? 0xFF000000u : 0) | eight_bits(dot[0]) << 16 |
           eight_bits(dot[1]) << 8 | eight_bits(dot[2]);
}

/* A line of the one card as the frame of the other has it. */
static bool compare_line(uint32_t number, size_t at)
{
    zak_scan_line line;
    uint32_t flags = random_below(2);
    for (size_t x = 0; x <= ZAK_WIDEST; x++)
        pixels[x] = UNTOUCHED;
    require(zak_line(&card, flags, &line, pixels, ZAK_WIDEST) == ZAK_OK, "zak_line fails");
    require(line.number == number, "another number");
    require(line.width == (number < ZAK_HIGHEST ? widths[number] : 0), "another width");
    for (size_t x = 0; x < line.width; x++)
        require(pixels[x] == word_of(rgb + 3 * (at + x), flags), "a dot differs");
    require(pixels[line.width] == UNTOUCHED, "what stands behind was written");
    compared++;
    return line.ends_frame;
}

static void compare_states(void)
{
    size_t used[2];
    require(zak_save(&card, states[0], ZAK_MOST_STATE, &used[0]) == ZAK_OK, "save");
    require(zak_save(&other, states[1], ZAK_MOST_STATE, &used[1]) == ZAK_OK, "save");
    require(used[0] == used[1] && memcmp(states[0], states[1], used[0]) == 0, "the states differ");
}

/* What is drawn until now is the beginning of the frame at once, and to look at it changes nothing.
 * At a frame's first dot it is another frame. */
static void compare_drawn(const zak_beam *beam)
{
    static uint32_t drawn_widths[ZAK_HIGHEST];
    size_t used, bytes = 0;
    bool is_first_dot = beam->line == 0 && beam->character == 0 && beam->dot == 0;
    require(zak_peek(&card, drawn_widths, drawn, sizeof drawn, &used) == ZAK_OK, "peek");
    for (uint32_t y = 0; y < ZAK_HIGHEST; y++) {
        bytes += 3 * (size_t)drawn_widths[y];
        require(is_first_dot || y >= beam->line || drawn_widths[y] == widths[y], "a line's width");
        require(is_first_dot || drawn_widths[y] <= widths[y], "a line is longer than in the frame");
    }
    require(used == bytes, "other widths than dots");
    require(is_first_dot || memcmp(drawn, rgb, used) == 0, "other dots than in the frame");
    compared++;
}

/* All lines to the frame's end, against the frame at once. */
static void compare_frame(void)
{
    zak_beam beam;
    size_t used, at = 0;
    uint32_t number;
    require(zak_save(&card, states[0], ZAK_MOST_STATE, &used) == ZAK_OK, "save");
    require(zak_restore(&other, states[0], used) == ZAK_OK, "restore");
    require(zak_frame_lines(&other, widths, rgb, sizeof rgb, &used) == ZAK_OK, "lines");
    require(zak_read_beam(&card, &beam) == ZAK_OK, "the beam can't be read");
    compare_drawn(&beam);
    for (number = 0; number < beam.line && number < ZAK_HIGHEST; number++)
        at += widths[number];
    for (number = beam.line; !compare_line(number, at); number++) {
        require(number < MOST_LINES, "the frame doesn't end");
        at += number < ZAK_HIGHEST ? widths[number] : 0;
    }
    compare_states();
}

int main(int argc, char **argv)
{
    static const uint16_t modes[] = {0x03, 0x07, 0x0D, 0x10, 0x12, 0x13};
    FILE *file = argc == 3 ? fopen(argv[1], "rb") : NULL;
    if (!file || fread(fonts, 1, sizeof fonts, file) != sizeof fonts)
        return 2;
    fclose(file);
    require(zak_open(&card, fonts, sizeof fonts) == ZAK_OK, "open");
    require(zak_open(&other, fonts, sizeof fonts) == ZAK_OK, "open");
    for (int n = atoi(argv[2]); n > 0; n--) {
        if (n > 10)
            set_mode(modes[random_below(sizeof modes / sizeof *modes)]);
        set_state();
        compare_frame();
    }
    zak_close(&card);
    zak_close(&other);
    printf("%lu\n", compared);
    return 0;
}
