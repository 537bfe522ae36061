/* Calls that are answered by a status: on a card that is not open, with arguments that are too
 * short or out of range, with damaged scripts, and a second open and close. Each buffer is as long
 * as a call is told, so that a sanitizer sees a byte past it that is touched. What is printed is to
 * be that of misuse.txt. */
#include <stdio.h>
#include <stdlib.h>
#include <string.h>

#include "zaklimot.h"

#define SHOW(call) printf("%-66s %u\n", #call, (unsigned)(call))

#define UNTOUCHED 0xEE
/* Bytes that a text, or a script, has at most. */
#define MOST_SCRIPT 16777216u

static uint8_t fonts[ZAK_FONTS_SIZE];
static const uint8_t none[1];
static zak_card card = ZAK_CARD_INIT;

/* A buffer of so many bytes, all of which are UNTOUCHED. */
static uint8_t *buffer(size_t len)
{
    uint8_t *bytes = malloc(len ? len : 1);
    if (!bytes)
        exit(2);
    memset(bytes, UNTOUCHED, len ? len : 1);
    return bytes;
}

/* How many dots lines have together. */
static size_t dots_of(const uint32_t *widths)
{
    size_t dots = 0;
    for (size_t line = 0; line < ZAK_HIGHEST; line++)
        dots += widths[line];
    return dots;
}

static void cycles_of_closed(void)
{
    uint8_t byte = UNTOUCHED;
    uint16_t word = UNTOUCHED;
    SHOW(zak_out(&card, 0x3C4, 2));
    SHOW(zak_out_word(&card, 0x3C4, 2));
    SHOW(zak_in(&card, 0x3CC, &byte));
    SHOW(zak_in_word(&card, 0x3C4, &word));
    SHOW(zak_put(&card, 0xA0000, 1));
    SHOW(zak_put_word(&card, 0xA0000, 1));
    SHOW(zak_get(&card, 0xA0000, &byte));
    SHOW(zak_get_word(&card, 0xA0000, &word));
    SHOW(zak_advance(&card, 1));
    SHOW(byte == UNTOUCHED && word == UNTOUCHED);
}

static void transfers_of_closed(void)
{
    uint8_t *bytes = buffer(2);
    size_t decoded = 999;
    zak_timing timing = {.to_frame = 7};
    SHOW(zak_put_bytes(&card, 0xA0000, bytes, 2, false, &decoded));
    SHOW(zak_fill_bytes(&card, 0xA0000, 1, 2, false, &decoded));
    SHOW(zak_get_bytes(&card, 0xA0000, bytes, 2, true, &decoded));
    SHOW(zak_move_bytes(&card, 0xA0000, 0xA0002, 2, true, &decoded));
    SHOW(zak_clock(&card, &timing));
    SHOW(decoded == 999 && bytes[0] == UNTOUCHED && timing.to_frame == 7);
    free(bytes);
}

static void calls_of_closed(void)
{
    zak_size size = {7, 7};
    zak_picture picture = {7, 7, 7, 7};
    zak_scan_line line = {7, 7, true};
    zak_palette palette = {.len = 7};
    zak_rows changed = {7, 7};
    zak_regs regs = {3, 0, 0, 0};
    zak_source source = {7, true};
    uint32_t pixel = 7, widths[ZAK_HIGHEST] = {7};
    size_t len = 999;
    uint8_t *bytes = buffer(1);
    SHOW(zak_close(&card));
    SHOW(zak_frame(&card, &size, bytes, 1));
    SHOW(zak_frame_xrgb(&card, &size, &pixel, 1, 1));
    SHOW(zak_frame_words(&card, ZAK_ONCE, &picture, &pixel, 1, 1));
    SHOW(zak_frame_update(&card, ZAK_ONCE, &picture, &pixel, 1, 1, &changed));
    SHOW(zak_frame_indexed(&card, &size, &palette, bytes, 1));
    SHOW(zak_line(&card, 0, &line, &pixel, 1));
    SHOW(zak_frame_lines(&card, widths, bytes, 1, &len));
    SHOW(zak_peek(&card, widths, bytes, 1, &len));
    SHOW(zak_skip_frame(&card));
    SHOW(zak_int10(&card, &regs, none, 0, bytes, 1, &len));
    SHOW(zak_block(&card, &regs, &source));
    SHOW(zak_cycles(&card, &regs, none, 0, bytes, 1, &len));
    SHOW(zak_save_size(&card, &len));
    SHOW(zak_save(&card, bytes, 1, &len));
    SHOW(zak_restore(&card, bytes, 1));
    SHOW(zak_save_fixed(&card, bytes, 1));
    SHOW(zak_restore_fixed(&card, bytes, 1));
    SHOW(zak_show_regs(&card, bytes, 1, &len));
    SHOW(zak_show_beam(&card, bytes, 1, &len));
    SHOW(zak_show_latches(&card, bytes, 1, &len));
    SHOW(zak_show_bda(&card, bytes, 1, &len));
    SHOW(zak_show_cells(&card, bytes, 1, &len));
    SHOW(zak_show_dac(&card, 0, bytes, 1, &len));
    SHOW(zak_show_plane(&card, 0, 0, 1, bytes, 1, &len));
    SHOW(zak_show_plane(&card, 4, 0, 1, bytes, 1, &len));
    SHOW(size.width == 7 && pixel == 7 && len == 999 && *bytes == UNTOUCHED);
    SHOW(widths[0] == 7 && widths[1] == 0);
    SHOW(picture.width == 7 && picture.down == 7 && source.len == 7 && source.is_at_dx);
    SHOW(line.number == 7 && line.width == 7 && line.ends_frame);
    SHOW(palette.len == 7 && palette.colours[0] == 0);
    SHOW(changed.first == 7 && changed.count == 7);
    free(bytes);
}

static void steps_of_closed(void)
{
    static const uint8_t script[] = {'V', 'G', 'A', 'S', 1, 0x0B};
    size_t len = 999, taken = 999, place = 999;
    uint8_t *bytes = buffer(1);
    SHOW(zak_run_on(&card, script, 6, 0, 1, bytes, 1, &len, &taken, &place));
    SHOW(zak_run_on(&card, none, 0, 0, 1, bytes, 1, &len, &taken, &place));
    SHOW(len == 999 && taken == 999 && place == 999 && *bytes == UNTOUCHED);
    free(bytes);
}

static void reads_of_closed(void)
{
    zak_registers registers;
    zak_colour colour;
    zak_beam beam;
    zak_latches latches;
    zak_bda bda;
    zak_screen screen;
    zak_cell cell;
    zak_place place;
    uint8_t pixel = UNTOUCHED;
    SHOW(zak_read_registers(&card, &registers));
    SHOW(zak_read_colour(&card, 0, &colour));
    SHOW(zak_read_beam(&card, &beam));
    SHOW(zak_read_latches(&card, &latches));
    SHOW(zak_read_bda(&card, &bda));
    SHOW(zak_read_plane(&card, 0, 0, &pixel, 1));
    SHOW(zak_screen_read(&card, &screen));
    SHOW(zak_screen_cell(&card, 0, 0, 0, &cell));
    SHOW(zak_screen_pixel(&card, 0, 0, 0, &pixel));
    SHOW(zak_screen_cursor(&card, 0, &place));
    SHOW(pixel == UNTOUCHED);
}

static void opens(void)
{
    uint8_t *short_fonts = buffer(ZAK_FONTS_SIZE - 1), *long_fonts = buffer(ZAK_FONTS_SIZE + 1);
    SHOW(zak_open(&card, short_fonts, ZAK_FONTS_SIZE - 1));
    SHOW(zak_open(&card, long_fonts, ZAK_FONTS_SIZE + 1));
    SHOW(zak_open(&card, none, 0));
    SHOW(card.is_open);
    SHOW(zak_open(&card, fonts, sizeof fonts));
    SHOW(zak_open(&card, fonts, sizeof fonts));
    SHOW(zak_open(&card, none, 0));
    SHOW(card.is_open);
    free(short_fonts);
    free(long_fonts);
}

static void refused_cycles(void)
{
    uint8_t byte = UNTOUCHED;
    uint16_t word = UNTOUCHED;
    SHOW(zak_get(&card, 0xA0000, &byte));
    SHOW(zak_get_word(&card, 0x9FFFF, &word));
    SHOW(zak_in(&card, 0x60, &byte));
    SHOW(zak_in_word(&card, 0xFFFF, &word));
    SHOW(byte == UNTOUCHED && word == UNTOUCHED);
    SHOW(zak_out(&card, 0x60, 0));
    SHOW(zak_put(&card, 0xFFFFFFFF, 0));
    SHOW(zak_put_word(&card, 0xFFFFFFFF, 0));
    SHOW(zak_advance(&card, ZAK_MOST_DOTS));
    SHOW(zak_advance(&card, ZAK_MOST_DOTS + 1));
    SHOW(zak_advance(&card, 0xFFFFFFFF));
    SHOW(zak_advance(&card, 0));
}

/* At power-on the adapter decodes no address. */
static void transfers_out_of_range(void)
{
    uint8_t *bytes = buffer(3);
    size_t decoded = 999;
    SHOW(zak_put_bytes(&card, 0xFFFFFFFD, bytes, 3, false, &decoded));
    SHOW(zak_put_bytes(&card, 0xFFFFFFFF, bytes, 1, true, &decoded));
    SHOW(zak_fill_bytes(&card, 0xA0000, 1, 0xFFF60000, false, &decoded));
    SHOW(zak_fill_bytes(&card, 1, 1, (size_t)-1, true, &decoded));
    SHOW(zak_get_bytes(&card, 1, bytes, 0xFFFFFFFF, false, &decoded));
    SHOW(zak_move_bytes(&card, 0xA0000, 0xFFFFFFFE, 2, false, &decoded));
    SHOW(zak_move_bytes(&card, 0xFFFFFFFE, 0xA0000, 2, true, &decoded));
    SHOW(decoded == 999 && bytes[0] == UNTOUCHED);
    SHOW(zak_put_bytes(&card, 0xFFFFFFFC, bytes, 3, false, &decoded));
    SHOW(decoded);
    SHOW(zak_get_bytes(&card, 0xA0000, bytes, 0, false, &decoded));
    SHOW(bytes[0] == UNTOUCHED);
    SHOW(zak_get_bytes(&card, 0xA0000, bytes, 3, true, &decoded));
    SHOW(bytes[0] == 0xFF && bytes[2] == 0xFF && decoded == 0);
    free(bytes);
}

static void refused_services(void)
{
    size_t len = 999;
    uint8_t *table = buffer(ZAK_MOST_TABLE), *little = buffer(ZAK_MOST_TABLE - 1);
    zak_regs regs = {0x0E41, 0, 0, 0};
    SHOW(zak_int10(&card, &regs, none, 0, table, 0, &len));
    regs.ax = 0x0099;
    SHOW(zak_int10(&card, &regs, none, 0, table, 0, &len));
    SHOW(regs.ax == 0x0099 && len == 999);
    regs.ax = 0x0013;
    SHOW(zak_int10(&card, &regs, none, 0, table, 0, &len));
    SHOW(len);
    regs = (zak_regs){0x1012, 0, 1, 0};
    SHOW(zak_int10(&card, &regs, table, 2, little, 0, &len));
    regs = (zak_regs){0x1017, 0, 256, 0};
    SHOW(zak_int10(&card, &regs, none, 0, little, ZAK_MOST_TABLE - 1, &len));
    SHOW(len);
    SHOW(little[0] == UNTOUCHED && little[ZAK_MOST_TABLE - 2] == UNTOUCHED);
    SHOW(zak_int10(&card, &regs, none, 0, table, ZAK_MOST_TABLE, &len));
    SHOW(table[3 * 15] == 63 && table[3 * 15 + 2] == 63);
    free(table);
    free(little);
}

/* The four cycles that write an entry of the DAC, as a script of 21 bytes; and calls with no list. */
static void lists(void)
{
    size_t len = 999, place = 999;
    uint8_t *script = buffer(21), *text = buffer(100);
    zak_regs regs = {0x0099, 0, 0, 0};
    SHOW(zak_cycles(&card, &regs, none, 0, script, 21, &len));
    regs = (zak_regs){0x1012, 0, 1, 0};
    SHOW(zak_cycles(&card, &regs, text, 2, script, 21, &len));
    SHOW(len == 999 && script[0] == UNTOUCHED);
    regs = (zak_regs){0x1010, 5, 0x0B0C, 0x0A00};
    SHOW(zak_cycles(&card, &regs, none, 0, script, 20, &len));
    SHOW(len == 21 && script[0] == UNTOUCHED && regs.ax == 0x1010);
    SHOW(zak_cycles(&card, &regs, none, 0, script, 21, &len));
    SHOW(zak_print(script, len, text, 100, &len, &place));
    printf("%.*s", (int)len, (char *)text);
    regs = (zak_regs){0x0013, 0, 0, 0};
    SHOW(zak_cycles(&card, &regs, none, 0, script, 21, &len));
    SHOW(len > 65536);
    free(text);
    free(script);
}

/* The mode was set within a frame of other lines, so the first frame is ragged. */
static void little_pictures(void)
{
    zak_size size = {7, 7};
    size_t room = 3u * 640 * 400;
    uint8_t *rgb = buffer(room), *little = buffer(room - 1);
    SHOW(zak_frame(&card, &size, rgb, room));
    SHOW(size.width == 7 && size.height == 7 && rgb[0] == UNTOUCHED);
    SHOW(zak_frame(&card, &size, little, room - 1));
    SHOW(size.width == 640 && size.height == 400 && little[0] == UNTOUCHED);
    SHOW(zak_frame(&card, &size, little, 0));
    SHOW(zak_frame(&card, &size, rgb, room));
    SHOW(rgb[0] == 0 && rgb[room - 1] == 0);
    free(rgb);
    free(little);
}

static void little_pixels(void)
{
    zak_size size = {7, 7};
    size_t room = 641u * 400;
    uint32_t *pixels = malloc(4 * room);
    if (!pixels)
        exit(2);
    memset(pixels, UNTOUCHED, 4 * room);
    SHOW(zak_frame_xrgb(&card, &size, pixels, room, 639));
    SHOW(zak_frame_xrgb(&card, &size, pixels, room - 1, 641));
    SHOW(zak_frame_xrgb(&card, &size, pixels, 0, (size_t)-1));
    SHOW(zak_frame_xrgb(&card, &size, pixels, room, SIZE_MAX / 4 + 1));
    SHOW(size.width == 640 && size.height == 400 && pixels[0] == 0xEEEEEEEE);
    SHOW(zak_frame_xrgb(&card, &size, pixels, room, 641));
    SHOW(pixels[0] == 0 && pixels[639] == 0 && pixels[640] == 0xEEEEEEEE);
    SHOW(pixels[641] == 0 && pixels[room - 1] == 0xEEEEEEEE);
    free(pixels);
}

/* Rows may lie further apart than any picture is wide. */
static void distant_rows(void)
{
    zak_size size = {7, 7};
    size_t pitch = ZAK_WIDEST + 1u, room = pitch * 400;
    uint32_t *pixels = malloc(4 * room);
    if (!pixels)
        exit(2);
    memset(pixels, UNTOUCHED, 4 * room);
    SHOW(zak_frame_xrgb(&card, &size, pixels, room, pitch));
    SHOW(pixels[639] == 0 && pixels[640] == 0xEEEEEEEE && pixels[pitch - 1] == 0xEEEEEEEE);
    SHOW(pixels[pitch] == 0 && pixels[399 * pitch + 639] == 0 &&
         pixels[399 * pitch - 1] == 0xEEEEEEEE);
    free(pixels);
}

/* The struct has a byte that no call writes. */
static bool are_alike(const zak_beam *one, const zak_beam *other)
{
    return one->line == other->line && one->character == other->character &&
           one->dot == other->dot && one->base == other->base && one->scan == other->scan &&
           one->rows == other->rows && one->frame == other->frame && one->half == other->half &&
           one->split == other->split;
}

static void pixels_once(void)
{
    zak_picture picture = {7, 7, 7, 7};
    zak_beam before, after;
    size_t room = 321u * 200;
    uint32_t *pixels = malloc(4 * room);
    if (!pixels)
        exit(2);
    memset(pixels, UNTOUCHED, 4 * room);
    zak_read_beam(&card, &before);
    SHOW(zak_frame_words(&card, 4, &picture, pixels, room, 321));
    SHOW(zak_frame_words(&card, 0xFFFFFFFF, &picture, pixels, room, 321));
    zak_read_beam(&card, &after);
    SHOW(are_alike(&before, &after) && picture.width == 7 && pixels[0] == 0xEEEEEEEE);
    SHOW(zak_frame_words(&card, ZAK_ONCE, &picture, pixels, room, 319));
    SHOW(zak_frame_words(&card, ZAK_ONCE, &picture, pixels, room - 1, 321));
    SHOW(zak_frame_words(&card, 0, &picture, pixels, room, 640));
    SHOW(picture.width == 640 && picture.down == 1 && pixels[0] == 0xEEEEEEEE);
    SHOW(zak_frame_words(&card, ZAK_ONCE + ZAK_OPAQUE, &picture, pixels, room, 321));
    SHOW(picture.width == 320 && picture.height == 200 && picture.across == 2 && picture.down == 2);
    SHOW(pixels[0] == 0xFF000000 && pixels[319] == 0xFF000000 && pixels[320] == 0xEEEEEEEE);
    SHOW(pixels[321] == 0xFF000000 && pixels[room - 1] == 0xEEEEEEEE);
    free(pixels);
}

static void changed_rows(void)
{
    zak_picture picture = {7, 7, 7, 7};
    zak_rows changed = {7, 7};
    zak_beam before, after;
    size_t room = 321u * 200;
    uint32_t *pixels = malloc(4 * room);
    if (!pixels)
        exit(2);
    memset(pixels, UNTOUCHED, 4 * room);
    zak_read_beam(&card, &before);
    SHOW(zak_frame_update(&card, 4, &picture, pixels, room, 321, &changed));
    SHOW(zak_frame_update(&card, 0xFFFFFFFF, &picture, pixels, room, 321, &changed));
    zak_read_beam(&card, &after);
    SHOW(are_alike(&before, &after) && picture.width == 7 && changed.count == 7);
    SHOW(zak_frame_update(&card, ZAK_ONCE, &picture, pixels, room, 319, &changed));
    SHOW(zak_frame_update(&card, ZAK_ONCE, &picture, pixels, room - 1, 321, &changed));
    SHOW(zak_frame_update(&card, ZAK_ONCE, &picture, pixels, 0, (size_t)-1, &changed));
    SHOW(zak_frame_update(&card, ZAK_ONCE, &picture, pixels, room, SIZE_MAX / 4 + 1, &changed));
    SHOW(zak_frame_update(&card, 0, &picture, pixels, room, 640, &changed));
    SHOW(picture.width == 640 && picture.down == 1 && pixels[0] == 0xEEEEEEEE);
    SHOW(changed.first == 7 && changed.count == 7);
    SHOW(zak_frame_update(&card, ZAK_ONCE, &picture, pixels, room, 321, &changed));
    SHOW(picture.width == 320 && picture.height == 200 && picture.across == 2 && picture.down == 2);
    SHOW(changed.first == 0 && changed.count == 200);
    SHOW(pixels[0] == 0 && pixels[319] == 0 && pixels[320] == 0xEEEEEEEE);
    pixels[321 * 5] = pixels[321 * 8 + 319] = pixels[321 * 9 + 320] = 1;
    SHOW(zak_frame_update(&card, ZAK_ONCE, &picture, pixels, room, 321, &changed));
    SHOW(changed.first == 5 && changed.count == 4 && pixels[321 * 5] == 0);
    SHOW(pixels[321 * 8 + 319] == 0 && pixels[321 * 9 + 320] == 1);
    SHOW(zak_frame_update(&card, ZAK_ONCE, &picture, pixels, room, 321, &changed));
    SHOW(changed.first == 0 && changed.count == 0);
    free(pixels);
}

static void little_lines(void)
{
    zak_scan_line line = {7, 7, true};
    zak_beam beam;
    uint32_t *pixels = malloc(4 * 641);
    if (!pixels)
        exit(2);
    memset(pixels, UNTOUCHED, 4 * 641);
    SHOW(zak_line(&card, 2, &line, pixels, 641));
    SHOW(zak_line(&card, 0xFFFFFFFF, &line, pixels, 641));
    SHOW(line.number == 7 && line.width == 7 && line.ends_frame && pixels[0] == 0xEEEEEEEE);
    SHOW(zak_line(&card, ZAK_OPAQUE, &line, pixels, 639));
    SHOW(line.number == 0 && line.width == 640 && !line.ends_frame && pixels[0] == 0xEEEEEEEE);
    SHOW(zak_line(&card, ZAK_OPAQUE, &line, pixels, 640));
    zak_read_beam(&card, &beam);
    SHOW(line.number == 1 && beam.line == 2 && beam.character == 0 && beam.dot == 0);
    SHOW(pixels[0] == 0xFF000000 && pixels[639] == 0xFF000000 && pixels[640] == 0xEEEEEEEE);
    free(pixels);
}

static void little_texts(void)
{
    size_t len = 999;
    uint8_t *text = buffer(ZAK_MOST_TEXT);
    SHOW(zak_show_cells(&card, text, ZAK_MOST_TEXT, &len));
    SHOW(zak_show_plane(&card, 4, 0, 1, text, ZAK_MOST_TEXT, &len));
    SHOW(zak_show_plane(&card, 0, 0, 0, text, ZAK_MOST_TEXT, &len));
    SHOW(zak_show_plane(&card, 0, 0, 257, text, ZAK_MOST_TEXT, &len));
    SHOW(zak_show_plane(&card, 3, 0xFFFF, 2, text, ZAK_MOST_TEXT, &len));
    SHOW(len == 999 && text[0] == UNTOUCHED);
    SHOW(zak_show_plane(&card, 3, 0xFFFF, 1, text, ZAK_MOST_TEXT, &len));
    printf("%.*s", (int)len, (char *)text);
    memset(text, UNTOUCHED, ZAK_MOST_TEXT);
    SHOW(zak_show_latches(&card, text, 19, &len));
    SHOW(len);
    SHOW(text[0] == UNTOUCHED);
    SHOW(zak_show_latches(&card, text, 20, &len));
    printf("%.*s", (int)len, (char *)text);
    free(text);
}

static void reads_out_of_range(void)
{
    uint8_t *bytes = buffer(65536);
    SHOW(zak_read_plane(&card, 4, 0, bytes, 1));
    SHOW(zak_read_plane(&card, 0, 1, bytes, 65536));
    SHOW(zak_read_plane(&card, 0, 0, bytes, (size_t)-1));
    SHOW(bytes[0] == UNTOUCHED);
    SHOW(zak_read_plane(&card, 0, 0xFFFF, bytes, 0));
    SHOW(zak_read_plane(&card, 3, 0, bytes, 65536));
    SHOW(bytes[0] == 0 && bytes[65535] == 0);
    free(bytes);
}

/* In mode 13 there is one page of 320 by 200 pixels, and no cell. There are eight cursors. */
static void pixels_out_of_range(void)
{
    uint8_t pixel = UNTOUCHED;
    zak_cell cell = {UNTOUCHED, UNTOUCHED};
    zak_place place = {UNTOUCHED, UNTOUCHED};
    SHOW(zak_screen_pixel(&card, 0, 320, 0, &pixel));
    SHOW(zak_screen_pixel(&card, 0, 0, 200, &pixel));
    SHOW(zak_screen_pixel(&card, 1, 0, 0, &pixel));
    SHOW(zak_screen_cell(&card, 0, 0, 0, &cell));
    SHOW(zak_screen_cursor(&card, 8, &place));
    SHOW(pixel == UNTOUCHED && cell.character == UNTOUCHED && place.row == UNTOUCHED);
    SHOW(zak_screen_pixel(&card, 0, 319, 199, &pixel));
    SHOW(pixel);
}

/* The registers of power-on show no screen, and neither do changed ones. */
static void no_screen(void)
{
    zak_screen screen = {0, 0, 0, 0, UNTOUCHED, 0, 0, 0};
    zak_cell cell;
    SHOW(zak_screen_read(&card, &screen));
    SHOW(zak_screen_cell(&card, 0, 0, 0, &cell));
    SHOW(screen.mode == UNTOUCHED);
}

/* Lines become shorter within a frame. */
static void ragged_frame(void)
{
    zak_size size = {7, 7};
    uint8_t *rgb = buffer(ZAK_MOST_RGB);
    SHOW(zak_out_word(&card, 0x3D4, 0x0011));
    SHOW(zak_advance(&card, 100000));
    SHOW(zak_out_word(&card, 0x3D4, 0x2001));
    SHOW(zak_frame(&card, &size, rgb, ZAK_MOST_RGB));
    SHOW(size.width == 7 && rgb[0] == UNTOUCHED);
    free(rgb);
}

/* Such a frame leaves a buffer as it is, and gives no rows. */
static void ragged_update(void)
{
    zak_picture picture = {7, 7, 7, 7};
    zak_rows changed = {7, 7};
    uint32_t pixel = 7;
    SHOW(zak_out_word(&card, 0x3D4, 0x4F01));
    SHOW(zak_advance(&card, 100000));
    SHOW(zak_out_word(&card, 0x3D4, 0x2001));
    SHOW(zak_frame_update(&card, ZAK_ONCE, &picture, &pixel, 1, 1, &changed));
    SHOW(picture.width == 7 && pixel == 7 && changed.first == 7 && changed.count == 7);
}

/* Such a frame line by line: lines of 640 dots, and then shorter ones. */
static void ragged_lines(void)
{
    size_t len = 999, room = ZAK_MOST_RGB;
    uint32_t widths[ZAK_HIGHEST];
    uint8_t *rgb = buffer(room), *little = buffer(1);
    SHOW(zak_out_word(&card, 0x3D4, 0x4F01));
    SHOW(zak_advance(&card, 100000));
    SHOW(zak_out_word(&card, 0x3D4, 0x2001));
    SHOW(zak_frame_lines(&card, widths, little, 1, &len));
    SHOW(len > 1 && little[0] == UNTOUCHED);
    SHOW(zak_out_word(&card, 0x3D4, 0x4F01));
    SHOW(zak_advance(&card, 100000));
    SHOW(zak_out_word(&card, 0x3D4, 0x2001));
    SHOW(zak_peek(&card, widths, little, 1, &len));
    SHOW(len > 1 && little[0] == UNTOUCHED);
    SHOW(zak_frame_lines(&card, widths, rgb, room, &len));
    SHOW(widths[0]);
    SHOW(widths[399]);
    SHOW(widths[400]);
    SHOW(len == 3 * dots_of(widths) && rgb[len] == UNTOUCHED);
    free(rgb);
    free(little);
}

/* The state of the card, as long as it is. */
static uint8_t *state_of(size_t *len)
{
    SHOW(zak_save_size(&card, len));
    uint8_t *state = buffer(*len);
    SHOW(zak_save(&card, state, *len, len));
    return state;
}

/* Restores a state in which a byte is another, and puts it back. */
static zak_status restore_with(uint8_t *state, size_t len, size_t at, uint8_t value)
{
    uint8_t *exact = buffer(len);
    memcpy(exact, state, len);
    exact[at] = value;
    zak_status status = zak_restore(&card, exact, len);
    free(exact);
    return status;
}

/* Bytes that are none of a state, at the offsets of docs/STATE.md. The card stays. */
static void foreign_states(uint8_t *state, size_t len)
{
    SHOW(zak_restore(&card, none, 0));
    SHOW(zak_restore(&card, fonts, sizeof fonts));
    SHOW(restore_with(state, len, 3, 'T'));
    SHOW(restore_with(state, len, 4, 2));
    SHOW(restore_with(state, len, 5, (uint8_t)(state[5] + 1)));
    SHOW(zak_restore(&card, state, len - 1));
    SHOW(zak_restore(&card, state, 9));
    SHOW(restore_with(state, len, 9, 0x14));
    SHOW(restore_with(state, len, 40, 0xFF));
    SHOW(restore_with(state, len, 66, 0xFF));
    SHOW(restore_with(state, len, 99, 0xFF));
    SHOW(restore_with(state, len, 101, 64));
    SHOW(restore_with(state, len, 892, 8));
    SHOW(restore_with(state, len, 263038, 0xFF));
    SHOW(restore_with(state, len, len - 1, 0xFF));
}

/* States of a fixed length that are too short, damaged, or have no state. The card stays. */
static void fixed_states(size_t len)
{
    size_t room = len + 9;
    uint8_t *state = buffer(room), *again = buffer(len), *zeros = buffer(13);
    size_t used;
    SHOW(zak_save_fixed(&card, state, len + 3));
    SHOW(zak_save_fixed(&card, state, 3));
    SHOW(zak_save_fixed(&card, state, 0));
    SHOW(state[0] == UNTOUCHED && state[len + 2] == UNTOUCHED);
    SHOW(zak_save_fixed(&card, state, len + 4));
    SHOW(zak_restore_fixed(&card, state, len + 4));
    SHOW(zak_save_fixed(&card, state, room));
    SHOW(zak_save(&card, again, len, &used));
    SHOW(memcmp(state, again, len) == 0 && state[len] == 0 && state[room - 5] == 0);
    SHOW(zak_restore_fixed(&card, state, room));
    SHOW(zak_restore_fixed(&card, state, room - 1));
    SHOW(zak_restore_fixed(&card, state, 3));
    SHOW(zak_restore_fixed(&card, state, 0));
    state[5]++;
    SHOW(zak_restore_fixed(&card, state, room));
    /* Nine zeros, and their checksum. */
    memset(zeros, 0, 13);
    zeros[9] = 1;
    zeros[11] = 9;
    SHOW(zak_restore_fixed(&card, zeros, 13));
    SHOW(zak_save(&card, state, len, &used));
    SHOW(memcmp(state, again, len) == 0);
    free(state);
    free(again);
    free(zeros);
}

/* What is saved is restored, also where there was too little room before, and over another state. */
static void states(void)
{
    size_t len = 999, again = 999;
    SHOW(zak_advance(&card, 30000));
    uint8_t *state = state_of(&len), *little = buffer(len - 1);
    SHOW(len > ZAK_FIRST_STATE && len <= ZAK_MOST_STATE);
    SHOW(zak_save(&card, little, len - 1, &again));
    SHOW(again == len && little[0] == UNTOUCHED && little[len - 2] == UNTOUCHED);
    foreign_states(state, len);
    fixed_states(len);
    uint8_t *after = state_of(&again);
    /* The last of them, of which a dot has another colour, is a state. */
    SHOW(again == len && memcmp(state, after, len - 1) == 0 && after[len - 1] == 0xFF);
    free(after);
    SHOW(zak_advance(&card, 1000000));
    SHOW(zak_restore(&card, state, len));
    after = state_of(&again);
    SHOW(again == len && memcmp(state, after, len) == 0);
    free(after);
    free(little);
    free(state);
}

static void runs(void)
{
    static const uint8_t script[] = {'V', 'G', 'A', 'S', 1, 0x0B, 0xFF};
    size_t len = 999, place = 999;
    uint8_t *report = buffer(51);
    SHOW(zak_run(script, 4, fonts, sizeof fonts, report, 51, &len, &place));
    SHOW(place);
    SHOW(zak_run(script, 7, fonts, sizeof fonts, report, 51, &len, &place));
    SHOW(place);
    SHOW(zak_run(script, 3, fonts, sizeof fonts, report, 51, &len, &place));
    SHOW(zak_run(script, 6, fonts, sizeof fonts - 1, report, 51, &len, &place));
    SHOW(len == 999 && place == 6 && report[0] == UNTOUCHED);
    SHOW(zak_run(script, 6, fonts, sizeof fonts, report, 50, &len, &place));
    SHOW(len);
    SHOW(report[0] == UNTOUCHED);
    SHOW(zak_run(script, 6, fonts, sizeof fonts, report, 51, &len, &place));
    printf("%.12s\n", (char *)report);
    free(report);
}

/* A text of so many lines. */
static uint8_t *lines(const char *line, size_t count)
{
    size_t len = strlen(line);
    uint8_t *text = buffer(len * count);
    for (size_t i = 0; i < count; i++)
        memcpy(text + len * i, line, len);
    return text;
}

static zak_status assemble(const char *text, uint8_t *script, size_t room, size_t *len,
                           size_t *line)
{
    /* As long as it is, so that a sanitizer sees a byte that is read past it. */
    uint8_t *exact = buffer(strlen(text));
    memcpy(exact, text, strlen(text));
    zak_status status = zak_assemble(exact, strlen(text), script, room, len, line);
    free(exact);
    return status;
}

static void texts(void)
{
    size_t len = 999, line = 999;
    uint8_t *script = buffer(13);
    SHOW(assemble("frame\nmove 3C4 02\nput 1", script, 13, &len, &line));
    SHOW(line);
    SHOW(assemble("; blanks\r\n\n frame 2", script, 13, &len, &line));
    SHOW(line);
    SHOW(assemble("version 2\n\nrepeat 2\nframe", script, 13, &len, &line));
    SHOW(line);
    SHOW(assemble("put 1000A0000 55", script, 13, &len, &line));
    SHOW(line);
    SHOW(len == 999 && script[0] == UNTOUCHED);
    SHOW(assemble("put A0000 41\nout 3C4", script, 0, &len, &line));
    SHOW(line);
    SHOW(assemble("put A0000 41\nframe\nframe", script, 12, &len, &line));
    SHOW(len);
    SHOW(script[0] == UNTOUCHED && line == 2);
    SHOW(assemble("put A0000 41\nframe\nframe", script, 13, &len, &line));
    SHOW(len == 13 && memcmp(script, "VGAS\1\5\0\0\12\0\101\13\13", 13) == 0);
    SHOW(assemble("", script, 4, &len, &line));
    SHOW(len);
    SHOW(assemble("", script, 5, &len, &line));
    SHOW(len);
    free(script);
}

/* More bytes than a text, or than a script, may have. */
static void long_texts(void)
{
    size_t len = 999, line = 999, ints = 1525201;
    uint8_t *text = lines("\n", MOST_SCRIPT + 1), *script = buffer(5);
    SHOW(zak_assemble(text, MOST_SCRIPT + 1, script, 5, &len, &line));
    SHOW(len == 999 && line == 999 && script[0] == UNTOUCHED);
    SHOW(zak_assemble(text, MOST_SCRIPT, script, 5, &len, &line));
    free(text);
    text = lines("int\n", ints + 1);
    SHOW(zak_assemble(text, 4 * (ints + 1), script, 0, &len, &line));
    SHOW(zak_assemble(text, 4 * ints, script, 0, &len, &line));
    SHOW(len == 5 + 11 * ints && line == 999);
    free(text);
    free(script);
}

/* A call over bytes of a script that are as many as it is told. */
static zak_status print(const void *script, size_t script_len, uint8_t *text, size_t room,
                        size_t *len, size_t *place)
{
    uint8_t *exact = buffer(script_len);
    memcpy(exact, script, script_len);
    zak_status status = zak_print(exact, script_len, text, room, len, place);
    free(exact);
    return status;
}

static void prints(void)
{
    static const char good[] = "VGAS\2\15\3\0\3\332\3\16\13";
    size_t len = 999, place = 999;
    uint8_t *text = buffer(36), *bytes = lines("V", MOST_SCRIPT + 1);
    SHOW(print("VGAX\1", 5, text, 36, &len, &place));
    SHOW(print("VGAS\11", 5, text, 36, &len, &place));
    SHOW(zak_print(bytes, MOST_SCRIPT + 1, text, 36, &len, &place));
    SHOW(len == 999 && place == 999 && text[0] == UNTOUCHED);
    SHOW(print("VGAS", 4, text, 36, &len, &place));
    SHOW(place);
    SHOW(print("VGAS\1\13\377", 7, text, 36, &len, &place));
    SHOW(place);
    SHOW(print("VGAS\1\13\13\1", 8, text, 36, &len, &place));
    SHOW(place);
    SHOW(print(good, 13, text, 35, &len, &place));
    SHOW(len);
    SHOW(text[0] == UNTOUCHED && place == 7);
    SHOW(print(good, 13, text, 36, &len, &place));
    printf("%.*s", (int)len, (char *)text);
    free(text);
    free(bytes);
}

/* Seven steps, of which three are those of a block: out, and then in from 3DA and get in turn. */
static const char seven[] = "VGAS\2\1\302\3\143\15\3\0\3\332\3\7\0\0\12\0\16";
#define SEVEN (sizeof seven - 1)

/* Steps of these bytes, which are as many as is told, with as much room for the report. */
static zak_status take(const void *script, size_t script_len, uint32_t first, uint32_t most,
                       size_t room)
{
    size_t len = 999, taken = 999, place = 999;
    uint8_t *exact = buffer(script_len), *report = buffer(room);
    memcpy(exact, script, script_len);
    zak_status status = zak_run_on(&card, exact, script_len, first, most, report, room, &len,
                                   &taken, &place);
    printf("  report %zu, taken %zu, place %zu\n", len, taken, place);
    if (status == ZAK_OK)
        printf("%.*s", (int)len, (char *)report);
    else if (room && (report[0] != UNTOUCHED || report[room - 1] != UNTOUCHED))
        printf("the report is touched\n");
    free(exact);
    free(report);
    return status;
}

/* Slices of a script: none, all, some again, and past its end. */
static void slices(void)
{
    SHOW(take(seven, SEVEN, 0, 0, 0));
    SHOW(take(seven, SEVEN, 0, 7, 100));
    SHOW(take(seven, SEVEN, 2, 3, 15));
    SHOW(take(seven, SEVEN, 3, 3, 15));
    SHOW(take(seven, SEVEN, 3, 3, 14));
    SHOW(take(seven, SEVEN, 3, 3, 0));
    SHOW(take(seven, SEVEN, 6, 2, 5));
    SHOW(take(seven, SEVEN, 7, 1, 1));
    SHOW(take(seven, SEVEN, 0xFFFFFFFF, 0xFFFFFFFF, 1));
    SHOW(take("VGAS\1", 5, 0, 1, 1));
    SHOW(take("VGAS\1\1\140\0\0", 9, 0, 1, 16));
}

/* Bytes that spell no script: no step is taken, whichever are asked for. */
static void damaged_slices(void)
{
    uint8_t *bytes = lines("V", MOST_SCRIPT + 1);
    SHOW(take(none, 0, 0, 7, 9));
    SHOW(take("VGAX\1\13", 6, 0, 7, 9));
    SHOW(take("VGAS\3\13", 6, 0, 7, 9));
    SHOW(take("VGAS", 4, 0, 7, 9));
    SHOW(take("VGAS\1\13\377", 7, 0, 1, 9));
    SHOW(take("VGAS\1\13\377", 7, 0, 0, 9));
    SHOW(take("VGAS\1\13\377", 7, 9, 1, 9));
    SHOW(take("VGAS\1\13\13\1", 8, 0, 1, 9));
    SHOW(take(seven, SEVEN - 1, 0, 1, 9));
    SHOW(take("VGAS\1\15\1\0\13\16", 10, 0, 1, 9));
    SHOW(take(bytes, MOST_SCRIPT + 1, 0, 1, 9));
    free(bytes);
    /* 257 frames, 65,535 times. */
    uint8_t *many = lines("\13", 266);
    memcpy(many, "VGAS\2\15\377\377", 8);
    many[265] = 0x0E;
    SHOW(take(many, 266, 0, 1, 9));
    free(many);
}

/* The card is the same after slices of no step and after faults, and another after steps whose
 * report has no room. */
static void states_of_slices(void)
{
    size_t len, again;
    uint8_t *before = state_of(&len);
    damaged_slices();
    SHOW(take(seven, SEVEN, 7, 7, 9));
    SHOW(take(seven, SEVEN, 0, 0, 9));
    uint8_t *after = state_of(&again);
    SHOW(again == len && memcmp(before, after, len) == 0);
    free(after);
    SHOW(take("VGAS\1\12\1\0\0\0", 10, 0, 1, 4));
    after = state_of(&again);
    SHOW(again == len && memcmp(before, after, len) == 0);
    free(before);
    free(after);
}

/* Whether the text of a status begins with its name and ends as a sentence. */
static bool is_told(zak_status status, const char *name)
{
    size_t len = 0, name_len = strlen(name);
    uint8_t *text = buffer(ZAK_MOST_STATUS_TEXT);
    bool is_right = zak_status_text(status, text, ZAK_MOST_STATUS_TEXT, &len) == ZAK_OK &&
                    len > name_len + 3 && memcmp(text, name, name_len) == 0 &&
                    memcmp(text + name_len, ": ", 2) == 0 && text[len - 1] == '.';
    free(text);
    return is_right;
}

#define TELLS(status) SHOW(is_told(status, #status))

/* What statuses mean. */
static void statuses(void)
{
    const char mode[] = "ZAK_NO_MODE: No mode is set yet.", none_such[] = "No status has this number.";
    size_t len = 999;
    uint8_t *text = buffer(sizeof mode - 1);
    SHOW(zak_status_text(ZAK_NO_MODE, text, sizeof mode - 2, &len));
    SHOW(len == sizeof mode - 1 && text[0] == UNTOUCHED);
    SHOW(zak_status_text(ZAK_NO_MODE, text, sizeof mode - 1, &len));
    SHOW(len == sizeof mode - 1 && memcmp(text, mode, len) == 0);
    SHOW(zak_status_text(19, text, sizeof mode - 1, &len));
    SHOW(len == sizeof none_such - 1 && memcmp(text, none_such, len) == 0);
    SHOW(zak_status_text(0xFFFFFFFF, NULL, 0, &len));
    SHOW(len == sizeof none_such - 1);
    free(text);
    TELLS(ZAK_OK);
    TELLS(ZAK_NOT_DECODED);
    TELLS(ZAK_NOT_IN_PROFILE);
    TELLS(ZAK_NO_MODE);
    TELLS(ZAK_BAD_FUNCTION);
    TELLS(ZAK_BAD_MODE);
    TELLS(ZAK_WRONG_KIND);
    TELLS(ZAK_BAD_PAGE);
    TELLS(ZAK_OUTSIDE);
    TELLS(ZAK_COUNT_PAST);
    TELLS(ZAK_BAD_REGISTER);
    TELLS(ZAK_BAD_BLOCK);
    TELLS(ZAK_TOO_FAR);
    TELLS(ZAK_BAD_HEIGHT);
    TELLS(ZAK_NO_CARD);
    TELLS(ZAK_OPEN_ALREADY);
    TELLS(ZAK_FONT_SIZE);
    TELLS(ZAK_OUT_OF_MEMORY);
    TELLS(ZAK_RAGGED);
    TELLS(ZAK_NO_ROOM);
    TELLS(ZAK_BAD_ARGUMENT);
    TELLS(ZAK_BAD_CARD);
    TELLS(ZAK_NO_SCREEN);
    TELLS(ZAK_BROKEN);
    TELLS(ZAK_STATE_MAGIC);
    TELLS(ZAK_STATE_VERSION);
    TELLS(ZAK_STATE_LENGTH);
    TELLS(ZAK_STATE_PART);
    TELLS(ZAK_STATE_CHECKSUM);
    TELLS(ZAK_MANY_COLOURS);
    TELLS(ZAK_NOT_REBUILT);
    TELLS(ZAK_BAD_MAGIC);
    TELLS(ZAK_BAD_VERSION);
    TELLS(ZAK_BAD_STEP);
    TELLS(ZAK_TRUNCATED);
    TELLS(ZAK_TOO_LONG);
    TELLS(ZAK_BAD_LINE);
    TELLS(ZAK_TOO_MANY);
}

int main(int argc, char **argv)
{
    FILE *file = argc == 2 ? fopen(argv[1], "rb") : NULL;
    if (!file || fread(fonts, 1, sizeof fonts, file) != sizeof fonts)
        return 2;
    fclose(file);
    SHOW(zak_version() == ZAK_API_VERSION);
    statuses();
    cycles_of_closed();
    transfers_of_closed();
    calls_of_closed();
    steps_of_closed();
    reads_of_closed();
    opens();
    refused_cycles();
    transfers_out_of_range();
    no_screen();
    refused_services();
    lists();
    little_pictures();
    little_pixels();
    distant_rows();
    pixels_once();
    changed_rows();
    little_lines();
    little_texts();
    reads_out_of_range();
    pixels_out_of_range();
    ragged_frame();
    no_screen();
    ragged_update();
    ragged_lines();
    states();
    runs();
    texts();
    long_texts();
    prints();
    slices();
    states_of_slices();
    SHOW(zak_close(&card));
    SHOW(zak_close(&card));
    SHOW(card.is_open);
    SHOW(zak_put(&card, 0xA0000, 1));
    return 0;
}
