/* Refuses each allocation of each call that allocates, one after the other. The call then answers
 * ZAK_OUT_OF_MEMORY, keeps no memory, and leaves the card and what its pointers name. If no
 * allocation is refused, it answers ZAK_OK. Only zak_run_on may have taken some of the first steps:
 * the card is then as after one of them, and goes on. Other calls make no allocation. The program is
 * linked with --wrap for malloc, calloc, realloc and free. With the word `kept` behind the font file
 * a card keeps memory that a call has taken, so a later call may take none.
 *
 * A line for each call tells how many of its allocations were refused. */
#include <stdbool.h>
#include <stdio.h>
#include <stdlib.h>
#include <string.h>

#include "zaklimot.h"

#define MOST_ALLOCATIONS 1000
#define MOST_STATE (4 * ZAK_MOST_TEXT)
#define UNTOUCHED 0xEE
/* How many steps steps_text has. */
#define STEPS 9u

void *__real_malloc(size_t bytes);
void *__real_calloc(size_t count, size_t bytes);
void *__real_realloc(void *block, size_t bytes);
void __real_free(void *block);
void *__wrap_malloc(size_t bytes);
void *__wrap_calloc(size_t count, size_t bytes);
void *__wrap_realloc(void *block, size_t bytes);
void __wrap_free(void *block);

/* Allocations of the call under way, the one that is refused or 0, and blocks that are held. */
static unsigned allocations, refused;
static long held;

static bool is_refused(void)
{
    return ++allocations == refused;
}

void *__wrap_malloc(size_t bytes)
{
    void *made = is_refused() ? NULL : __real_malloc(bytes);
    held += made != NULL;
    return made;
}

void *__wrap_calloc(size_t count, size_t bytes)
{
    void *made = is_refused() ? NULL : __real_calloc(count, bytes);
    held += made != NULL;
    return made;
}

void *__wrap_realloc(void *block, size_t bytes)
{
    void *made = is_refused() ? NULL : __real_realloc(block, bytes);
    held += made != NULL && block == NULL;
    return made;
}

void __wrap_free(void *block)
{
    held -= block != NULL;
    __real_free(block);
}

/* Whether a card keeps memory. */
static bool is_kept;

static uint8_t fonts[ZAK_FONTS_SIZE], answer[MOST_STATE], rgb[ZAK_MOST_RGB], report[ZAK_MOST_RGB];
static uint32_t pixels[640 * 480], widths[ZAK_HIGHEST];
static const uint8_t none[1];
static size_t len, place, taken;
static zak_card card = ZAK_CARD_INIT, opened = ZAK_CARD_INIT;
static zak_screen screen;
static zak_palette palette;
static zak_cell cell;
static uint8_t pixel;
static zak_place cursor;
static zak_mistake mistake;
static bool are_dots_other;

static zak_status call_int10(uint16_t ax, uint16_t cx)
{
    zak_regs regs = {ax, 0, cx, 0};
    return zak_int10(&card, &regs, none, 0, answer, sizeof answer, &len);
}

static zak_status do_cycles(void)
{
    zak_regs regs = {0x0E41, 7, 0, 0};
    return zak_cycles(&card, &regs, none, 0, answer, sizeof answer, &len);
}

static zak_status do_explain_text(void)
{
    static const uint8_t text[] = {'f', 'r', 'a', 'm', 'e', '\n', 'f'};
    return zak_explain_text(text, sizeof text, &mistake, answer, sizeof answer, &len);
}

static zak_status do_rebuild(void)
{
    return zak_rebuild(&card, report, sizeof report, &len, &are_dots_other);
}

static zak_status do_open(void) { return zak_open(&opened, fonts, sizeof fonts); }
static zak_status do_dac_entries(void) { return call_int10(0x1017, 256); }
static zak_status do_regs(void) { return zak_show_regs(&card, answer, sizeof answer, &len); }
static zak_status do_beam(void) { return zak_show_beam(&card, answer, sizeof answer, &len); }
static zak_status do_latches(void) { return zak_show_latches(&card, answer, sizeof answer, &len); }
static zak_status do_bda(void) { return zak_show_bda(&card, answer, sizeof answer, &len); }
static zak_status do_cells(void) { return zak_show_cells(&card, answer, sizeof answer, &len); }
static zak_status do_dac(void) { return zak_show_dac(&card, 1, answer, sizeof answer, &len); }
static zak_status do_screen(void) { return zak_screen_read(&card, &screen); }
static zak_status do_cell(void) { return zak_screen_cell(&card, 0, 0, 0, &cell); }
static zak_status do_pixel(void) { return zak_screen_pixel(&card, 0, 0, 0, &pixel); }
static zak_status do_cursor(void) { return zak_screen_cursor(&card, 0, &cursor); }

static zak_status do_indexed(void)
{
    static zak_size size;
    return zak_frame_indexed(&card, &size, &palette, report, sizeof report);
}

static zak_status do_plane(void)
{
    return zak_show_plane(&card, 0, 0, 256, answer, sizeof answer, &len);
}

static zak_status do_run(void)
{
    static const uint8_t script[] = {'V', 'G', 'A', 'S', 1, 0x0B};
    return zak_run(script, sizeof script, fonts, sizeof fonts, answer, sizeof answer, &len, &place);
}

/* Steps that take memory for their answers, with others between them that change the card. */
static const char steps_text[] = "version 2\nint ax=3\nframe\nrepeat 2\nput B8000 41\nshow cells\n"
                                 "advance 1000\nend\nint ax=1017 cx=100 ; the DAC's entries\n";
static uint8_t steps[64];
static size_t steps_len;

static zak_status do_assemble(void)
{
    return zak_assemble((const uint8_t *)steps_text, sizeof steps_text - 1, answer, sizeof answer,
                        &len, &place);
}

static zak_status do_print(void)
{
    return zak_print(steps, steps_len, answer, sizeof answer, &len, &place);
}

static zak_status take_steps(uint32_t first, uint32_t most)
{
    return zak_run_on(&card, steps, steps_len, first, most, report, sizeof report, &len, &taken,
                      &place);
}

static zak_status do_steps(void) { return take_steps(0, STEPS); }

/* A call that takes memory, the mode in which it is made, and whether it may leave the card after
 * some of the first steps. */
static const struct job {
    const char *name;
    zak_status (*call)(void);
    uint16_t mode;
    bool takes_steps;
} JOBS[] = {
    {"zak_open", do_open, 3, false},
    {"zak_int10", do_dac_entries, 3, false},
    {"zak_frame_indexed", do_indexed, 0x13, false},
    {"zak_cycles", do_cycles, 3, false},
    {"zak_rebuild", do_rebuild, 3, false},
    {"zak_show_regs", do_regs, 3, false},
    {"zak_show_beam", do_beam, 3, false},
    {"zak_show_latches", do_latches, 3, false},
    {"zak_show_bda", do_bda, 3, false},
    {"zak_show_cells", do_cells, 3, false},
    {"zak_show_dac", do_dac, 3, false},
    {"zak_show_plane", do_plane, 3, false},
    {"zak_screen_read", do_screen, 3, false},
    {"zak_screen_cell", do_cell, 3, false},
    {"zak_screen_pixel", do_pixel, 0x13, false},
    {"zak_screen_cursor", do_cursor, 3, false},
    {"zak_run", do_run, 3, false},
    {"zak_assemble", do_assemble, 3, false},
    {"zak_explain_text", do_explain_text, 3, false},
    {"zak_print", do_print, 3, false},
    {"zak_run_on", do_steps, 0x12, true},
};

static void wrong(const char *name, const char *what)
{
    printf("%s: allocation %u: %s\n", name, refused, what);
    exit(1);
}

/* The state of the card as text. */
static size_t read_state(uint8_t *state)
{
    size_t at = 0, part;
    zak_status status = zak_show_regs(&card, state, ZAK_MOST_TEXT, &part);
    at += part;
    status |= zak_show_beam(&card, state + at, ZAK_MOST_TEXT, &part);
    at += part;
    status |= zak_show_latches(&card, state + at, ZAK_MOST_TEXT, &part);
    at += part;
    status |= zak_show_bda(&card, state + at, ZAK_MOST_TEXT, &part);
    if (status)
        wrong("the state", "it can't be shown");
    return at + part;
}

/* A state of the card as bytes. */
struct saved {
    uint8_t bytes[ZAK_MOST_STATE];
    size_t len;
};

/* Those after none of the steps, after the first, and so on, and the one that is looked at. */
static struct saved after_steps[STEPS + 1], looked_at;

static void save(struct saved *saved)
{
    if (zak_save(&card, saved->bytes, sizeof saved->bytes, &saved->len))
        wrong("zak_save", "it fails");
}

static void restore(const struct saved *saved)
{
    if (zak_restore(&card, saved->bytes, saved->len))
        wrong("zak_restore", "it fails");
}

/* Takes the steps one by one, keeps the state after each, and goes back. */
static void save_steps(void)
{
    save(&after_steps[0]);
    for (uint32_t first = 0; first < STEPS; first++) {
        if (take_steps(first, 1) || taken != 1)
            wrong("zak_run_on", "a step can't be taken");
        save(&after_steps[first + 1]);
    }
    if (take_steps(STEPS, 1) || taken != 0)
        wrong("zak_run_on", "there are more steps");
    restore(&after_steps[0]);
}

/* How many of the steps the card has taken, at least so many. */
static uint32_t steps_taken(uint32_t least)
{
    save(&looked_at);
    for (uint32_t count = least; count <= STEPS; count++)
        if (looked_at.len == after_steps[count].len &&
            memcmp(looked_at.bytes, after_steps[count].bytes, looked_at.len) == 0)
            return count;
    wrong("zak_run_on", "the card is as after no step, or after fewer than before");
    return 0;
}

/* How many steps the card had taken when an allocation was refused last. A later allocation is
 * refused after the same step, or a later one. */
static uint32_t refused_after;

/* The card goes on after the steps that it took, and comes to where they all lead; then it goes
 * back. */
static void finish_steps(void)
{
    uint32_t count = refused_after = steps_taken(refused_after);
    if (take_steps(count, STEPS) || taken != STEPS - count || steps_taken(STEPS) != STEPS)
        wrong("zak_run_on", "the card does not go on");
    restore(&after_steps[0]);
}

static void clear_answers(void)
{
    memset(answer, UNTOUCHED, sizeof answer);
    memset(report, UNTOUCHED, sizeof report);
    memset(&screen, UNTOUCHED, sizeof screen);
    memset(&palette, UNTOUCHED, sizeof palette);
    memset(&cell, UNTOUCHED, sizeof cell);
    memset(&cursor, UNTOUCHED, sizeof cursor);
    memset(&mistake, UNTOUCHED, sizeof mistake);
    are_dots_other = true;
    pixel = UNTOUCHED;
    len = place = taken = 999;
}

static bool are_untouched(const void *bytes, size_t count)
{
    const uint8_t *at = bytes;
    for (size_t i = 0; i < count; i++)
        if (at[i] != UNTOUCHED)
            return false;
    return true;
}

static bool has_no_answer(void)
{
    return are_untouched(&mistake.line, sizeof mistake.line) &&
           are_untouched(&mistake.kind, sizeof mistake.kind) && are_dots_other &&
           are_untouched(answer, sizeof answer) && are_untouched(report, sizeof report) &&
           are_untouched(&screen, sizeof screen) &&
           are_untouched(&palette, sizeof palette) && are_untouched(&cell, sizeof cell) &&
           are_untouched(&cursor, sizeof cursor) && are_untouched(&pixel, 1) && len == 999 &&
           place == 999 && taken == 999 && !opened.is_open;
}

/* Makes a call with one allocation refused; whether there was one. */
static bool refuse_allocation(const struct job *job, unsigned number)
{
    static uint8_t before[MOST_STATE], after[MOST_STATE];
    size_t before_len = read_state(before);
    long held_before = held;
    clear_answers();
    allocations = 0;
    refused = number;
    zak_status status = job->call();
    bool was_refused = allocations >= number;
    refused = 0;
    if (!was_refused) {
        if (status != ZAK_OK)
            wrong(job->name, "it fails where nothing is refused");
        return false;
    }
    refused = number;
    if (status != ZAK_OUT_OF_MEMORY)
        wrong(job->name, "it does not answer ZAK_OUT_OF_MEMORY");
    if (held != held_before)
        wrong(job->name, "it keeps memory");
    if (!has_no_answer())
        wrong(job->name, "it answers something");
    refused = 0;
    if (job->takes_steps)
        finish_steps();
    size_t after_len = read_state(after);
    if (after_len != before_len || memcmp(before, after, after_len) != 0)
        wrong(job->name, "it changes the card");
    return true;
}

static void refuse_all(const struct job *job)
{
    unsigned number = 1;
    if (call_int10(job->mode, 0))
        wrong(job->name, "its mode can't be set");
    /* To the first dot of a whole frame. */
    zak_size size;
    zak_frame(&card, &size, rgb, sizeof rgb);
    if (job->takes_steps)
        save_steps();
    while (number < MOST_ALLOCATIONS && refuse_allocation(job, number))
        number++;
    if (number == 1 && !is_kept)
        wrong(job->name, "it takes no memory");
    if (job->takes_steps) {
        if (steps_taken(STEPS) != STEPS || (refused_after < STEPS - 2 && !is_kept))
            wrong(job->name, "allocations of the last steps are not refused");
        restore(&after_steps[0]);
    }
    printf("%s %u\n", job->name, number - 1);
    if (opened.is_open && zak_close(&opened))
        wrong(job->name, "the card can't be closed");
}

/* How the card explains a refused step, a dot and cycles of memory, which takes no memory either. */
static zak_status explanations(void)
{
    static const uint8_t script[] = {'V', 'G', 'A', 'S', 1, 0x0B, 1, 0x60, 0, 1};
    zak_beam beam = {0, 0, 0, 0, 0, 0, 0, 0, 0};
    zak_reason reason;
    zak_dot_source source;
    zak_write_stages written;
    zak_read_stages read;
    zak_status status = zak_explain_step(&card, script, sizeof script, 1, &reason, answer,
                                         sizeof answer, &len, &place);
    if (reason.kind != ZAK_WHY_NO_PORT)
        wrong("zak_explain_step", "the reason is another");
    status |= zak_explain_dot(&card, &beam, &source);
    status |= zak_explain_put(&card, 0xA0000, 1, &written);
    return status | zak_explain_get(&card, 0xA0000, &read);
}

/* The calls that take no memory. */
static zak_status other_calls(void)
{
    uint8_t byte;
    uint16_t word;
    zak_size size;
    zak_registers registers;
    zak_colour colour;
    zak_beam beam;
    zak_latches latches;
    zak_bda bda;
    zak_timing timing;
    zak_picture picture;
    zak_rows changed;
    zak_scan_line line;
    zak_source source;
    zak_regs regs = {0x1300, 0, 5, 0};
    zak_status status = zak_out(&card, 0x3C4, 2) | zak_out_word(&card, 0x3C4, 0x0F02);
    status |= zak_in(&card, 0x3CC, &byte) | zak_in_word(&card, 0x3C4, &word);
    status |= zak_put(&card, 0xA0000, 1) | zak_put_word(&card, 0xA0000, 1);
    status |= zak_get(&card, 0xA0000, &byte) | zak_get_word(&card, 0xA0000, &word);
    status |= zak_put_bytes(&card, 0xA0000, rgb, 100, false, &len);
    status |= zak_fill_bytes(&card, 0xA0000, 1, 100, true, &len);
    status |= zak_get_bytes(&card, 0xA0000, rgb, 100, false, &len);
    status |= zak_move_bytes(&card, 0xA0000, 0xA0100, 100, true, &len);
    status |= zak_clock(&card, &timing) | zak_block(&card, &regs, &source);
    status |= zak_advance(&card, 100) | zak_frame(&card, &size, rgb, sizeof rgb);
    status |= zak_frame_xrgb(&card, &size, pixels, sizeof pixels / 4, 640);
    status |= zak_frame_words(&card, ZAK_ONCE, &picture, pixels, sizeof pixels / 4, 640);
    status |= zak_frame_update(&card, 0, &picture, pixels, sizeof pixels / 4, 640, &changed);
    status |= zak_line(&card, 0, &line, pixels, sizeof pixels / 4);
    status |= zak_frame_lines(&card, widths, rgb, sizeof rgb, &len);
    status |= zak_save_size(&card, &len) | zak_save(&card, rgb, sizeof rgb, &len);
    status |= zak_restore(&card, rgb, len);
    status |= zak_save_fixed(&card, rgb, sizeof rgb) | zak_restore_fixed(&card, rgb, sizeof rgb);
    status |= zak_read_registers(&card, &registers) | zak_read_colour(&card, 1, &colour);
    status |= zak_read_beam(&card, &beam) | zak_read_latches(&card, &latches);
    status |= zak_read_bda(&card, &bda) | zak_read_plane(&card, 0, 0, rgb, 65536);
    return status | call_int10(0x0C01, 0);
}

int main(int argc, char **argv)
{
    static char out[4096];
    FILE *file = argc >= 2 ? fopen(argv[1], "rb") : NULL;
    if (!file || fread(fonts, 1, sizeof fonts, file) != sizeof fonts)
        return 2;
    fclose(file);
    is_kept = argc == 3 && strcmp(argv[2], "kept") == 0;
    /* So that printing takes no memory among the calls. */
    setvbuf(stdout, out, _IOFBF, sizeof out);
    held = 0;
    if (zak_open(&card, fonts, sizeof fonts) || do_assemble() || len > sizeof steps)
        wrong("zak_open", "it fails, or the steps can't be assembled");
    steps_len = len;
    memcpy(steps, answer, steps_len);
    for (size_t i = 0; i < sizeof JOBS / sizeof *JOBS; i++)
        refuse_all(&JOBS[i]);
    if (call_int10(0x12, 0) || zak_frame(&card, &(zak_size){0, 0}, rgb, sizeof rgb))
        wrong("zak_int10", "mode 12 can't be set");
    allocations = 0;
    zak_status status = other_calls() | explanations();
    if (status || allocations)
        wrong("the other calls", status ? "one fails" : "one takes memory");
    zak_close(&card);
    if (held)
        wrong("zak_close", "it keeps memory");
    printf("others 0\n");
    return 0;
}
