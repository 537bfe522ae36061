/* Makes one call of the library again and again: calls FONTS MODE CALL TIMES
 *
 * MODE is hexadecimal. bench/library.py counts the instructions that it takes. */
#include <stdio.h>
#include <stdlib.h>
#include <string.h>

#include "zaklimot.h"

/* Steps of the script that is taken in slices, and of the one whose text has a million bytes. */
#define PUTS 10000u
#define LINES 76923u
/* A step as text, as bytes, and its line in a report, at most. */
#define LINE_BYTES 13u
#define STEP_BYTES 6u
#define HEADER_BYTES 5u
#define ANSWER_BYTES 16u
/* Bytes of a screen of mode 13, of a page of text, and of what is copied. */
#define SCREEN 64000u
#define PAGE 4000u
#define COPY 8400u
/* Words of a row of the buffer that is kept from frame to frame, and its rows. */
#define KEPT_PITCH 720u
#define KEPT_ROWS 480u

static uint8_t fonts[ZAK_FONTS_SIZE], rgb[ZAK_MOST_RGB], table[ZAK_MOST_TABLE];
static uint8_t text[ZAK_MOST_TEXT];
static uint8_t state[ZAK_MOST_STATE], fixed[ZAK_MOST_STATE + 4];
static uint32_t pixels[ZAK_WIDEST * ZAK_HIGHEST], widths[ZAK_HIGHEST];
static uint32_t kept[KEPT_PITCH * KEPT_ROWS];
static const uint8_t none[1];
static zak_card card = ZAK_CARD_INIT;
static zak_size size;
static size_t len;
static uint8_t byte;
static uint16_t word;
/* Where the memory of the mode begins. */
static uint32_t window;
static size_t place, taken, script_len;
static uint8_t text_of_puts[LINE_BYTES * LINES], printed[LINE_BYTES * LINES];
static uint8_t script[HEADER_BYTES + STEP_BYTES * LINES], report[ANSWER_BYTES * PUTS];
static uint8_t listed[1 << 22];
static zak_registers registers;
static zak_beam beam;
static zak_timing timing;
static zak_reason reason;
static zak_dot_source source;
static zak_write_stages write_stages;
static zak_read_stages read_stages;
static zak_mistake mistake;
static bool are_dots_other;

static zak_status call_int10(uint16_t ax, uint16_t bx)
{
    zak_regs regs = {ax, bx, 0, 0};
    return zak_int10(&card, &regs, none, 0, table, sizeof table, &len);
}

static zak_status do_put(uint32_t i) { return zak_put(&card, 0xA0000 + (i & 0x7FFF), (uint8_t)i); }
static zak_status do_get(uint32_t i) { return zak_get(&card, 0xA0000 + (i & 0x7FFF), &byte); }
static zak_status do_out(uint32_t i) { return zak_out(&card, 0x3C4, i & 3); }

static zak_status do_put_word(uint32_t i)
{
    return zak_put_word(&card, 0xA0000 + (2 * i & 0x7FFE), (uint16_t)i);
}

static zak_status do_get_word(uint32_t i)
{
    return zak_get_word(&card, 0xA0000 + (2 * i & 0x7FFE), &word);
}

static zak_status do_out_word(uint32_t i)
{
    (void)i;
    return zak_out_word(&card, 0x3CE, 0xFF08);
}

static zak_status do_in(uint32_t i)
{
    (void)i;
    return zak_in(&card, 0x3DA, &byte);
}

static zak_status do_advance_0(uint32_t i) { return zak_advance(&card, i & 0); }
static zak_status do_advance_1(uint32_t i) { return zak_advance(&card, 1 + (i & 0)); }
static zak_status do_advance_25(uint32_t i) { return zak_advance(&card, 25 + (i & 0)); }
static zak_status do_advance_line(uint32_t i) { return zak_advance(&card, 800 + (i & 0)); }

/* A cycle after an advance, as a core makes them that lets the clock run for each instruction. The
 * addresses are those of 32 KiB that the mode has. */
static zak_status do_advance_put(uint32_t i)
{
    return do_advance_25(i) | zak_put(&card, window + (i & 0x7FFF), (uint8_t)i);
}

static zak_status do_advance_get(uint32_t i)
{
    return do_advance_25(i) | zak_get(&card, window + (i & 0x7FFF), &byte);
}

static zak_status do_advance_in(uint32_t i) { return do_advance_25(i) | do_in(i); }
static zak_status do_advance_out_word(uint32_t i) { return do_advance_25(i) | do_out_word(i); }

/* Many bytes by one call, and by as many calls: a screen of mode 13, a page of text, and 8,400 bytes
 * that are copied by the latches. */
static zak_status do_put_bytes(uint32_t i)
{
    (void)i;
    return zak_put_bytes(&card, 0xA0000, rgb, SCREEN, false, &len);
}

static zak_status do_put_each(uint32_t i)
{
    zak_status status = ZAK_OK;
    for (uint32_t at = 0; at < SCREEN; at++)
        status |= zak_put(&card, 0xA0000 + at, rgb[at + (i & 0)]);
    return status;
}

static zak_status do_get_bytes(uint32_t i)
{
    (void)i;
    return zak_get_bytes(&card, 0xA0000, rgb, SCREEN, false, &len);
}

static zak_status do_get_each(uint32_t i)
{
    zak_status status = ZAK_OK;
    for (uint32_t at = 0; at < SCREEN; at++)
        status |= zak_get(&card, 0xA0000 + at, &rgb[at + (i & 0)]);
    return status;
}

static zak_status do_put_page(uint32_t i)
{
    (void)i;
    return zak_put_bytes(&card, 0xB8000, rgb, PAGE, false, &len);
}

static zak_status do_put_page_each(uint32_t i)
{
    zak_status status = ZAK_OK;
    for (uint32_t at = 0; at < PAGE; at++)
        status |= zak_put(&card, 0xB8000 + at, rgb[at + (i & 0)]);
    return status;
}

static void latch_writes(void) { zak_out_word(&card, 0x3CE, 0x0105); }

static zak_status do_copy(uint32_t i)
{
    (void)i;
    return zak_move_bytes(&card, 0xA0000, 0xA8000, COPY, false, &len);
}

static zak_status do_copy_each(uint32_t i)
{
    zak_status status = ZAK_OK;
    for (uint32_t at = 0; at < COPY; at++) {
        status |= zak_get(&card, 0xA0000 + at + (i & 0), &byte);
        status |= zak_put(&card, 0xA8000 + at, byte);
    }
    return status;
}

static zak_status do_fill(uint32_t i) { return zak_fill_bytes(&card, 0xA0000, (uint8_t)i, SCREEN, false, &len); }

static zak_status do_clock(uint32_t i)
{
    (void)i;
    return zak_clock(&card, &timing);
}

static zak_status do_advance_clock(uint32_t i) { return do_advance_25(i) | do_clock(i); }

static zak_status do_frame(uint32_t i)
{
    (void)i;
    return zak_frame(&card, &size, rgb, sizeof rgb);
}

static zak_status do_frame_xrgb(uint32_t i)
{
    (void)i;
    return zak_frame_xrgb(&card, &size, pixels, sizeof pixels / 4, ZAK_WIDEST);
}

static zak_status do_frame_once(uint32_t i)
{
    zak_picture picture;
    (void)i;
    return zak_frame_words(&card, ZAK_ONCE, &picture, pixels, sizeof pixels / 4, ZAK_WIDEST);
}

/* A buffer is kept, and only changed rows are handed on: of a frame that stays the same, and of one
 * in which a byte was written that the screen shows. */
static zak_status do_frame_update(uint32_t i)
{
    zak_picture picture;
    zak_rows changed;
    (void)i;
    return zak_frame_update(&card, ZAK_ONCE, &picture, kept, KEPT_PITCH * KEPT_ROWS, KEPT_PITCH,
                            &changed);
}

static zak_status do_put_frame_update(uint32_t i)
{
    return zak_put(&card, window + 2000, (uint8_t)i) | do_frame_update(i);
}

/* A page of letters: all of one colour, or each cell of another one than the cell before it. */
static void write_page(bool coloured)
{
    for (uint32_t at = 0; at < 2000; at++) {
        uint8_t attribute = coloured ? (uint8_t)(0x01 + at % 15) : 0x07;
        zak_put(&card, 0xB8000 + 2 * at, (uint8_t)('A' + at % 26));
        zak_put(&card, 0xB8000 + 2 * at + 1, attribute);
    }
}

static void write_letters(void) { write_page(false); }
static void write_colours(void) { write_page(true); }

/* A picture without two equal lines of memory, in each plane: dots at random, or a page of letters.
 * A frame on which they are equal, such as an empty one, is the cheapest to turn into words. */
static void write_picture(void)
{
    if (window == 0xB8000) {
        write_letters();
        return;
    }
    uint32_t random = 1;
    for (uint32_t map = 1; map < 0x10; map <<= 1) {
        zak_out_word(&card, 0x3C4, (uint16_t)(map << 8 | 0x02));
        for (uint32_t at = 0; at < SCREEN; at++) {
            random = random * 1664525 + 1013904223;
            zak_put(&card, window + at, (uint8_t)(random >> 24));
        }
    }
    zak_out_word(&card, 0x3C4, 0x0F02);
}

static zak_status do_skip_frame(uint32_t i)
{
    (void)i;
    return zak_skip_frame(&card);
}

/* The lines of a frame, one by one. */
static zak_status do_lines(uint32_t i)
{
    zak_scan_line line = {0};
    zak_status status = ZAK_OK;
    (void)i;
    do
        status |= zak_line(&card, 0, &line, pixels, ZAK_WIDEST);
    while (!line.ends_frame);
    return status;
}

static zak_status do_block(uint32_t i)
{
    zak_regs regs = {0x1301, 0, (uint16_t)i, 0};
    zak_source source;
    return zak_block(&card, &regs, &source);
}

static zak_status do_frame_lines(uint32_t i)
{
    (void)i;
    return zak_frame_lines(&card, widths, rgb, sizeof rgb, &len);
}

static zak_status do_frame_indexed(uint32_t i)
{
    static zak_palette palette;
    (void)i;
    return zak_frame_indexed(&card, &size, &palette, rgb, sizeof rgb);
}

static zak_status do_peek(uint32_t i)
{
    (void)i;
    return zak_peek(&card, widths, rgb, sizeof rgb, &len);
}

static zak_status do_save(uint32_t i)
{
    (void)i;
    return zak_save(&card, state, sizeof state, &len);
}

static zak_status do_restore(uint32_t i)
{
    return i == 0 ? do_save(i) : zak_restore(&card, state, len);
}

static zak_status do_save_fixed(uint32_t i)
{
    (void)i;
    return zak_save_fixed(&card, fixed, sizeof fixed);
}

static zak_status do_restore_fixed(uint32_t i)
{
    return i == 0 ? do_save_fixed(i) : zak_restore_fixed(&card, fixed, sizeof fixed);
}

static zak_status do_teletype(uint32_t i) { return call_int10(0x0E41, 7 + (i & 0)); }

static zak_status list(uint16_t ax, uint32_t i)
{
    zak_regs regs = {ax, 7 + (i & 0), 0, 0};
    return zak_cycles(&card, &regs, none, 0, listed, sizeof listed, &len);
}

static zak_status do_cycles(uint32_t i) { return list(0x0E41, i); }
static zak_status do_cycles_of_mode(uint32_t i) { return list(0x0012, i); }

static zak_status do_read_registers(uint32_t i)
{
    (void)i;
    return zak_read_registers(&card, &registers);
}

static zak_status do_read_beam(uint32_t i)
{
    (void)i;
    return zak_read_beam(&card, &beam);
}

static zak_status do_show_regs(uint32_t i)
{
    (void)i;
    return zak_show_regs(&card, text, sizeof text, &len);
}

/* A script of so many steps `put A0000 41`, as bytes and as text. */
static void make_script(uint32_t steps)
{
    static const uint8_t header[] = {'V', 'G', 'A', 'S', 1}, step[] = {5, 0, 0, 0x0A, 0, 0x41};
    memcpy(script, header, HEADER_BYTES);
    for (uint32_t i = 0; i < steps; i++) {
        memcpy(script + HEADER_BYTES + STEP_BYTES * i, step, STEP_BYTES);
        memcpy(text_of_puts + LINE_BYTES * i, "put A0000 41\n", LINE_BYTES);
    }
    script_len = HEADER_BYTES + STEP_BYTES * steps;
}

static void make_one(void) { make_script(1); }
static void make_puts(void) { make_script(PUTS); }
static void make_lines(void) { make_script(LINES); }

/* The puts after an `int ax=13`, without which they are refused from power-on. */
static void make_run(void)
{
    static const uint8_t mode[] = {9, 0x13, 0, 0, 0, 0, 0, 0, 0, 0, 0};
    make_script(PUTS);
    memmove(script + HEADER_BYTES + sizeof mode, script + HEADER_BYTES, script_len - HEADER_BYTES);
    memcpy(script + HEADER_BYTES, mode, sizeof mode);
    script_len += sizeof mode;
}

static zak_status take(uint32_t first, uint32_t most)
{
    return zak_run_on(&card, script, script_len, first, most, report, sizeof report, &len, &taken,
                      &place);
}

static zak_status do_run_on_first(uint32_t i) { return take(i & 0, 1); }
static zak_status do_run_on_last(uint32_t i) { return take(PUTS - 1 + (i & 0), 1); }
static zak_status do_run_on_all(uint32_t i) { return take(i & 0, PUTS); }

/* A run of the whole script from power-on, on a card of its own. */
static zak_status do_run_whole(uint32_t i)
{
    (void)i;
    return zak_run(script, script_len, fonts, sizeof fonts, report, sizeof report, &len, &place);
}

/* As many calls as that takes steps. */
static zak_status do_puts(uint32_t i)
{
    zak_status status = ZAK_OK;
    for (uint32_t at = 0; at < PUTS; at++)
        status |= zak_put(&card, 0xA0000 + (i & 0), 0x41);
    return status;
}

static zak_status do_assemble(uint32_t i)
{
    (void)i;
    return zak_assemble(text_of_puts, sizeof text_of_puts, script, sizeof script, &len, &place);
}

static zak_status do_print(uint32_t i)
{
    (void)i;
    return zak_print(script, script_len, printed, sizeof printed, &len, &place);
}

/* A read of memory that no window has, as the only step of a script. */
static void make_refused(void)
{
    static const uint8_t refused[] = {'V', 'G', 'A', 'S', 1, 7, 0, 0, 0x0C, 0};
    memcpy(script, refused, sizeof refused);
    script_len = sizeof refused;
}

static zak_status do_explain_step(uint32_t i)
{
    return zak_explain_step(&card, script, script_len, i & 0, &reason, text, sizeof text, &len,
                            &place);
}

static zak_status do_explain_dot(uint32_t i)
{
    return i == 0 ? zak_read_beam(&card, &beam) : zak_explain_dot(&card, &beam, &source);
}

static zak_status do_explain_put(uint32_t i)
{
    return zak_explain_put(&card, 0xA0000 + (i & 0), 0x41, &write_stages);
}

static zak_status do_explain_get(uint32_t i)
{
    return zak_explain_get(&card, 0xA0000 + (i & 0), &read_stages);
}

/* A text whose last line is bad. */
static void make_bad_line(void)
{
    make_script(LINES);
    text_of_puts[LINE_BYTES * LINES - 2] = 'x';
}

static zak_status do_explain_text(uint32_t i)
{
    (void)i;
    return zak_explain_text(text_of_puts, sizeof text_of_puts, &mistake, text, sizeof text, &len);
}

static zak_status do_rebuild(uint32_t i)
{
    (void)i;
    return zak_rebuild(&card, report, sizeof report, &len, &are_dots_other);
}

/* A call, and what is made ready for it, if anything. */
static const struct call {
    const char *name;
    zak_status (*make)(uint32_t);
    void (*prepare)(void);
} CALLS[] = {
    {"put", do_put, NULL},
    {"put_word", do_put_word, NULL},
    {"get", do_get, NULL},
    {"get_word", do_get_word, NULL},
    {"out", do_out, NULL},
    {"out_word", do_out_word, NULL},
    {"in", do_in, NULL},
    {"advance_0", do_advance_0, NULL},
    {"advance_1", do_advance_1, NULL},
    {"advance_25", do_advance_25, NULL},
    {"advance_line", do_advance_line, NULL},
    {"advance_put", do_advance_put, NULL},
    {"advance_get", do_advance_get, NULL},
    {"advance_in", do_advance_in, NULL},
    {"advance_out_word", do_advance_out_word, NULL},
    {"advance_clock", do_advance_clock, NULL},
    {"put_bytes", do_put_bytes, NULL},
    {"put_each", do_put_each, NULL},
    {"fill_bytes", do_fill, NULL},
    {"get_bytes", do_get_bytes, NULL},
    {"get_each", do_get_each, NULL},
    {"put_page", do_put_page, NULL},
    {"put_page_each", do_put_page_each, NULL},
    {"copy", do_copy, latch_writes},
    {"copy_each", do_copy_each, latch_writes},
    {"clock", do_clock, NULL},
    {"frame", do_frame, NULL},
    {"frame_letters", do_frame, write_letters},
    {"frame_colours", do_frame, write_colours},
    {"skip_frame", do_skip_frame, NULL},
    {"frame_xrgb", do_frame_xrgb, NULL},
    {"frame_xrgb_picture", do_frame_xrgb, write_picture},
    {"frame_once", do_frame_once, NULL},
    {"frame_update", do_frame_update, NULL},
    {"put_frame_update", do_put_frame_update, NULL},
    {"block", do_block, NULL},
    {"frame_lines", do_frame_lines, NULL},
    {"frame_indexed", do_frame_indexed, NULL},
    {"peek", do_peek, NULL},
    {"lines", do_lines, NULL},
    {"teletype", do_teletype, NULL},
    {"cycles", do_cycles, NULL},
    {"cycles_of_mode", do_cycles_of_mode, NULL},
    {"read_registers", do_read_registers, NULL},
    {"read_beam", do_read_beam, NULL},
    {"show_regs", do_show_regs, NULL},
    {"save", do_save, NULL},
    {"save_fixed", do_save_fixed, NULL},
    {"restore_fixed", do_restore_fixed, NULL},
    {"restore", do_restore, NULL},
    {"run_on_one", do_run_on_first, make_one},
    {"run_on_first", do_run_on_first, make_puts},
    {"run_on_last", do_run_on_last, make_puts},
    {"run_on_all", do_run_on_all, make_puts},
    {"run_whole", do_run_whole, make_run},
    {"puts", do_puts, NULL},
    {"assemble", do_assemble, make_lines},
    {"print", do_print, make_lines},
    {"explain_step", do_explain_step, make_refused},
    {"explain_dot", do_explain_dot, NULL},
    {"explain_put", do_explain_put, NULL},
    {"explain_get", do_explain_get, NULL},
    {"explain_text", do_explain_text, make_bad_line},
    {"rebuild", do_rebuild, NULL},
};

static zak_status repeat(const struct call *call, uint32_t times)
{
    zak_status status = ZAK_OK;
    if (call->prepare)
        call->prepare();
    for (uint32_t i = 0; status == ZAK_OK && i < times; i++)
        status = call->make(i);
    return status;
}

int main(int argc, char **argv)
{
    FILE *file = argc == 5 ? fopen(argv[1], "rb") : NULL;
    if (!file || fread(fonts, 1, sizeof fonts, file) != sizeof fonts)
        return 2;
    fclose(file);
    zak_status status = zak_open(&card, fonts, sizeof fonts);
    uint16_t mode = (uint16_t)strtoul(argv[2], NULL, 16);
    window = mode < 4 ? 0xB8000 : 0xA0000;
    status |= call_int10(mode, 0);
    /* From the first dot of a whole frame on. */
    status |= zak_frame(&card, &size, rgb, sizeof rgb);
    for (size_t i = 0; i < sizeof CALLS / sizeof *CALLS; i++)
        if (strcmp(CALLS[i].name, argv[3]) == 0)
            status |= repeat(&CALLS[i], (uint32_t)strtoul(argv[4], NULL, 10));
    return (int)(status | zak_close(&card));
}
