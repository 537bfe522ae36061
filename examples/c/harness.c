/* Performs a script's steps by the library, and writes the report that docs/REPORT.md tells.
 *
 *     harness SCRIPT FONTS [--until STEPS]     a text, by a call for each step
 *     harness --restored SCRIPT FONTS [--until STEPS]
 *                                              the same, but the card is saved at pseudo-random
 *                                              steps and dots, and another goes on from its state
 *     harness --joined SCRIPT FONTS [--until STEPS]
 *                                              the same as the first, but writes, and reads, of
 *                                              addresses that follow one another are one call
 *     harness --bytes SCRIPT FONTS             the bytes of a script, by zak_run
 *     harness --slices N [--bytes] SCRIPT FONTS [--until STEPS]
 *                                              a text or bytes, by zak_run_on: N steps a call, and
 *                                              more where many are taken, which a call passes over
 *
 * A fault is a line on standard error, and the status is 1 then; it is 2 for words that are none.
 *
 * SPDX-License-Identifier: MIT
 */
#include <stdio.h>
#include <stdlib.h>
#include <string.h>

#include "script.h"
#include "zaklimot.h"

#define MOST_FILE (SCRIPT_MOST + 1u)
#define FIRST_ROOM ((size_t)1 << 20)
/* A slice has at least one in so many of the steps that are taken already. */
#define SHARE 64u
/* So many writes or reads are one call at most. */
#define MOST_JOINED 4096u

/* Bytes of a file, or what a text spells. */
struct bytes {
    uint8_t *at;
    size_t len;
};

/* What a run has: the card, what is written, the number of the last step, and buffers for what
 * calls answer. Where cards are restored, the fonts of the next one, and behind which step it goes
 * on. */
struct run {
    zak_card card;
    FILE *out;
    unsigned long number;
    bool is_restored;
    struct bytes fonts;
    unsigned long next;
    uint32_t random;
    uint8_t rgb[ZAK_MOST_RGB];
    uint8_t text[ZAK_MOST_TEXT];
    uint8_t table[ZAK_MOST_TABLE];
    uint8_t state[ZAK_MOST_STATE];
};

static const char *const REFUSALS[] = {
    NULL,        "NotDecoded", "NotInProfile", "NoMode",      "BadFunction", "BadMode", "WrongKind",
    "BadPage",   "Outside",    "CountPast",    "BadRegister", "BadBlock",    "TooFar",  "BadHeight",
};

/* What a fault of a script is called, and whether it has a place. */
static const struct fault {
    zak_status status;
    const char *name;
    bool has_place;
} FAULTS[] = {
    {ZAK_FONT_SIZE, "F1 FontSize", false},
    {ZAK_BAD_MAGIC, "F2 BadMagic", false},
    {ZAK_BAD_VERSION, "F3 BadVersion", false},
    {ZAK_BAD_STEP, "F4 BadStep", true},
    {ZAK_TRUNCATED, "F5 Truncated", true},
    {ZAK_TOO_LONG, "F6 TooLong", false},
    {ZAK_BAD_LINE, "F7 BadLine", true},
    {ZAK_OUT_OF_MEMORY, "F10 OutOfMemory", false},
    {ZAK_TOO_MANY, "F11 TooMany", true},
};

/* Says how a run failed, and answers the status. */
static int fail(zak_status status, size_t place)
{
    for (size_t i = 0; i < sizeof FAULTS / sizeof *FAULTS; i++) {
        if (FAULTS[i].status != status)
            continue;
        fprintf(stderr, "harness: %s", FAULTS[i].name);
        if (FAULTS[i].has_place)
            fprintf(stderr, "(%zu)", place);
        fputc('\n', stderr);
        return 1;
    }
    fprintf(stderr, "harness: status %u\n", (unsigned)status);
    return 1;
}

/* All bytes of a file, up to one more than a script may have; NULL where it can't be read. */
static struct bytes read_file(const char *path)
{
    FILE *file = fopen(path, "rb");
    struct bytes bytes = {file ? malloc(MOST_FILE) : NULL, 0};
    bytes.len = bytes.at ? fread(bytes.at, 1, MOST_FILE, file) : 0;
    if (bytes.at && ferror(file)) {
        free(bytes.at);
        bytes.at = NULL;
    }
    if (file)
        fclose(file);
    if (!bytes.at)
        fprintf(stderr, "harness: F8 ReadFault\n");
    return bytes;
}

/* A number below another one. */
static uint32_t random_below(struct run *run, uint32_t limit)
{
    run->random = 1664525u * run->random + 1013904223u;
    return (run->random >> 8) % limit;
}

/* Whether another card is to go on: often at first and then ever more seldom, so that a long script
 * has some hundred of them. */
static bool is_time(struct run *run)
{
    if (!run->is_restored || run->number < run->next)
        return false;
    run->next = run->number + 1 + random_below(run, 2 + (uint32_t)(run->number / 8));
    return true;
}

/* Makes another card that has these bytes. */
static zak_status open_restored(const struct run *run, zak_card *card, const uint8_t *state,
                                size_t len)
{
    zak_status status = zak_open(card, run->fonts.at, run->fonts.len);
    if (status)
        return status;
    status = zak_restore(card, state, len);
    if (status)
        zak_close(card);
    return status;
}

/* Saves the card and closes it; another one goes on. */
static zak_status go_on(struct run *run)
{
    zak_card other = ZAK_CARD_INIT;
    size_t len = 0;
    zak_status status = zak_save_size(&run->card, &len);
    uint8_t *state = status ? NULL : malloc(len);
    if (!state)
        return status ? status : ZAK_OUT_OF_MEMORY;
    status = zak_save(&run->card, state, len, &len);
    if (status == ZAK_OK)
        status = open_restored(run, &other, state, len);
    free(state);
    if (status)
        return status;
    zak_close(&run->card);
    run->card = other;
    return ZAK_OK;
}

/* Dots of the clock, at one of which another card goes on where it is time. */
static zak_status advance(struct run *run, uint32_t dots)
{
    if (dots > ZAK_MOST_DOTS || !is_time(run))
        return zak_advance(&run->card, dots);
    uint32_t first = random_below(run, dots + 1);
    zak_status status = zak_advance(&run->card, first);
    if (status == ZAK_OK)
        status = go_on(run);
    return status ? status : zak_advance(&run->card, dots - first);
}

static zak_status write_picture(struct run *run)
{
    zak_size size = {0, 0};
    zak_status status = zak_frame(&run->card, &size, run->rgb, sizeof run->rgb);
    if (status == ZAK_RAGGED) {
        fprintf(run->out, "ragged\n");
        return ZAK_OK;
    }
    if (status)
        return status;
    char header[32];
    int front = snprintf(header, sizeof header, "P6\n%u %u\n63\n", (unsigned)size.width,
                         (unsigned)size.height);
    size_t dots = (size_t)size.width * size.height;
    fprintf(run->out, "picture %zu\n%s", (size_t)front + 3 * dots, header);
    fwrite(run->rgb, 3, dots, run->out);
    fputc('\n', run->out);
    return ZAK_OK;
}

static zak_status write_call(struct run *run, const struct step *step)
{
    zak_regs regs = step->regs;
    size_t len = 0;
    zak_status status = zak_int10(&run->card, &regs, step->block, step->block_len, run->table,
                                  sizeof run->table, &len);
    if (status)
        return status;
    fprintf(run->out, "ax=%04X bx=%04X cx=%04X dx=%04X", regs.ax, regs.bx, regs.cx, regs.dx);
    if (len)
        fprintf(run->out, " block ");
    for (size_t i = 0; i < len; i++)
        fprintf(run->out, "%02X", run->table[i]);
    fputc('\n', run->out);
    return ZAK_OK;
}

static zak_status show(struct run *run, const struct step *step, size_t *len)
{
    zak_card *card = &run->card;
    uint8_t *text = run->text;
    size_t room = sizeof run->text;
    switch (step->shown) {
    case SHOW_REGS:
        return zak_show_regs(card, text, room, len);
    case SHOW_DAC:
        return zak_show_dac(card, (uint8_t)step->value, text, room, len);
    case SHOW_BEAM:
        return zak_show_beam(card, text, room, len);
    case SHOW_LATCHES:
        return zak_show_latches(card, text, room, len);
    case SHOW_PLANE:
        return zak_show_plane(card, (uint8_t)step->value, (uint16_t)step->place,
                              (uint16_t)step->count, text, room, len);
    case SHOW_BDA:
        return zak_show_bda(card, text, room, len);
    default:
        return zak_show_cells(card, text, room, len);
    }
}

static zak_status write_dump(struct run *run, const struct step *step)
{
    size_t len = 0;
    zak_status status = show(run, step, &len);
    if (status == ZAK_OK)
        fwrite(run->text, 1, len, run->out);
    return status;
}

/* A step that reads nothing. */
static zak_status perform(struct run *run, const struct step *step)
{
    zak_card *card = &run->card;
    uint16_t port = (uint16_t)step->place, word = (uint16_t)step->value;
    switch (step->kind) {
    case STEP_OUT:
        return zak_out(card, port, (uint8_t)word);
    case STEP_OUT_WORD:
        return zak_out_word(card, port, word);
    case STEP_PUT:
        return zak_put(card, step->place, (uint8_t)word);
    case STEP_PUT_WORD:
        return zak_put_word(card, step->place, word);
    default:
        return advance(run, step->value);
    }
}

static zak_status write_ok(struct run *run, const struct step *step)
{
    zak_status status = perform(run, step);
    if (status == ZAK_OK)
        fprintf(run->out, "ok\n");
    return status;
}

/* A step that reads a byte. */
static zak_status write_byte(struct run *run, const struct step *step)
{
    uint8_t byte = 0;
    zak_status status = step->kind == STEP_IN
                            ? zak_in(&run->card, (uint16_t)step->place, &byte)
                            : zak_get(&run->card, step->place, &byte);
    if (status == ZAK_OK)
        fprintf(run->out, "%02X\n", byte);
    return status;
}

static zak_status write_word(struct run *run, const struct step *step)
{
    uint16_t word = 0;
    zak_status status = step->kind == STEP_IN_WORD
                            ? zak_in_word(&run->card, (uint16_t)step->place, &word)
                            : zak_get_word(&run->card, step->place, &word);
    if (status == ZAK_OK)
        fprintf(run->out, "%04X\n", word);
    return status;
}

static zak_status answer(struct run *run, const struct step *step)
{
    switch (step->kind) {
    case STEP_OUT:
    case STEP_OUT_WORD:
    case STEP_PUT:
    case STEP_PUT_WORD:
    case STEP_ADVANCE:
        return write_ok(run, step);
    case STEP_IN:
    case STEP_GET:
        return write_byte(run, step);
    case STEP_IN_WORD:
    case STEP_GET_WORD:
        return write_word(run, step);
    case STEP_INT10:
        return write_call(run, step);
    case STEP_FRAME:
        return write_picture(run);
    default:
        return write_dump(run, step);
    }
}

/* Writes the line of a step, which a refusal is too. Any other status ends the run. */
static zak_status take(struct run *run, const struct step *step)
{
    zak_status status = step->kind != STEP_ADVANCE && is_time(run) ? go_on(run) : ZAK_OK;
    fprintf(run->out, "%lu ", ++run->number);
    if (status == ZAK_OK)
        status = answer(run, step);
    if (status == ZAK_OK || status >= sizeof REFUSALS / sizeof *REFUSALS)
        return status;
    fprintf(run->out, "E%u %s\n", (unsigned)status, REFUSALS[status]);
    return ZAK_OK;
}

/* Writes, or reads, of bytes at addresses that follow one another, up or down, in the order of their
 * steps. */
struct joined {
    enum step_kind kind;
    uint32_t first; /* the address of the first of them */
    bool down;
    size_t len;
    uint8_t bytes[MOST_JOINED];
};

/* Whether a step goes on where the others end. The last address of all takes no part. */
static bool joins(const struct joined *joined, const struct step *step)
{
    if (step->place == UINT32_MAX)
        return false;
    if (joined->len == 0)
        return step->kind == STEP_PUT || step->kind == STEP_GET;
    uint32_t up = joined->first + (uint32_t)joined->len, down = joined->first - (uint32_t)joined->len;
    if (joined->kind != step->kind || joined->len == MOST_JOINED)
        return false;
    return joined->len == 1 ? step->place == up || step->place == down
                            : step->place == (joined->down ? down : up);
}

static void join(struct joined *joined, const struct step *step)
{
    if (joined->len == 0) {
        joined->kind = step->kind;
        joined->first = step->place;
    }
    joined->down = joined->len > 0 && step->place < joined->first;
    joined->bytes[joined->len++] = (uint8_t)step->value;
}

/* The same bytes from the last to the first. */
static void turn(struct joined *joined)
{
    for (size_t i = 0; i < joined->len / 2; i++) {
        uint8_t byte = joined->bytes[i];
        joined->bytes[i] = joined->bytes[joined->len - 1 - i];
        joined->bytes[joined->len - 1 - i] = byte;
    }
}

/* Performs the steps by one call, whose bytes are in the order of the addresses. */
static zak_status transfer(struct run *run, struct joined *joined, size_t *decoded)
{
    uint32_t address = joined->down ? joined->first - (uint32_t)(joined->len - 1) : joined->first;
    if (joined->down)
        turn(joined);
    zak_status status = joined->kind == STEP_PUT
                            ? zak_put_bytes(&run->card, address, joined->bytes, joined->len,
                                            joined->down, decoded)
                            : zak_get_bytes(&run->card, address, joined->bytes, joined->len,
                                            joined->down, decoded);
    if (joined->down)
        turn(joined);
    return status;
}

/* Whether the adapter decodes an address, by the registers. */
static bool is_decoded(const zak_registers *registers, uint32_t address)
{
    static const uint32_t START[] = {0xA0000, 0xA0000, 0xB0000, 0xB8000};
    static const uint32_t SIZE[] = {0x20000, 0x10000, 0x8000, 0x8000};
    uint8_t map = registers->gfx[6] >> 2 & 3;
    return registers->misc & 2 && address >= START[map] && address - START[map] < SIZE[map];
}

/* Writes the lines of steps that were performed together. */
static size_t write_joined(struct run *run, const struct joined *joined,
                           const zak_registers *registers)
{
    size_t decoded = 0;
    for (size_t i = 0; i < joined->len; i++) {
        uint32_t step = (uint32_t)i;
        uint32_t address = joined->down ? joined->first - step : joined->first + step;
        bool is_there = is_decoded(registers, address);
        decoded += is_there;
        fprintf(run->out, "%lu ", ++run->number);
        if (!is_there)
            fprintf(run->out, "E1 NotDecoded\n");
        else if (joined->kind == STEP_PUT)
            fprintf(run->out, "ok\n");
        else
            fprintf(run->out, "%02X\n", joined->bytes[i]);
    }
    return decoded;
}

static zak_status take_joined(struct run *run, struct joined *joined)
{
    zak_registers registers;
    size_t decoded = 0;
    if (joined->len == 0)
        return ZAK_OK;
    zak_status status = zak_read_registers(&run->card, &registers);
    if (status == ZAK_OK)
        status = transfer(run, joined, &decoded);
    if (status == ZAK_OK && write_joined(run, joined, &registers) != decoded)
        status = ZAK_BAD_ARGUMENT;
    joined->len = 0;
    return status;
}

/* Takes the steps of a script, up to a number of them; those that join by one call. */
static zak_status take_all_joined(struct run *run, struct bytes bytes, unsigned long until)
{
    struct script script = script_begin(bytes.at, bytes.len);
    struct joined joined = {.len = 0};
    struct step step;
    zak_status status = ZAK_OK;
    while (status == ZAK_OK && run->number + joined.len < until && script_next(&script, &step)) {
        if (!joins(&joined, &step))
            status = take_joined(run, &joined);
        if (status == ZAK_OK && joins(&joined, &step))
            join(&joined, &step);
        else if (status == ZAK_OK)
            status = take(run, &step);
    }
    return status == ZAK_OK ? take_joined(run, &joined) : status;
}

/* Takes the steps of a script by a call each, up to a number of them. */
static zak_status take_all(struct run *run, struct bytes bytes, unsigned long until)
{
    struct script script = script_begin(bytes.at, bytes.len);
    struct step step;
    zak_status status = ZAK_OK;
    while (status == ZAK_OK && run->number < until && script_next(&script, &step))
        status = take(run, &step);
    return status;
}

/* A slice's report, and how many steps it tells of. */
struct slice {
    struct bytes report;
    size_t room, taken, place;
};

/* Takes the next steps, at most so many. Where there is too little room for their report, they are
 * taken all the same: so the card goes back to the state before them, and takes them again. */
static zak_status take_slice(struct run *run, struct bytes script, uint32_t most,
                             struct slice *slice)
{
    size_t len;
    zak_status status = zak_save(&run->card, run->state, sizeof run->state, &len);
    while (status == ZAK_OK) {
        status = zak_run_on(&run->card, script.at, script.len, (uint32_t)run->number, most,
                            slice->report.at, slice->room, &slice->report.len, &slice->taken,
                            &slice->place);
        if (status != ZAK_NO_ROOM)
            return status;
        free(slice->report.at);
        slice->room = slice->report.len;
        slice->report.at = malloc(slice->room);
        if (!slice->report.at)
            return ZAK_OUT_OF_MEMORY;
        status = zak_restore(&run->card, run->state, len);
    }
    return status;
}

/* How many steps the next slice has: so many, or more where many are taken. */
static uint32_t steps_of_slice(const struct run *run, uint32_t steps, unsigned long until)
{
    unsigned long share = run->number / SHARE, left = until - run->number;
    unsigned long wanted = share > steps ? share : steps;
    return (uint32_t)(wanted < left ? wanted : left);
}

/* Takes the steps of a script slice by slice, up to a number of them. A slice of fewer steps than
 * were asked for is the last. */
static zak_status take_slices(struct run *run, struct bytes script, uint32_t steps,
                              unsigned long until, size_t *place)
{
    struct slice slice = {.report = {malloc(1), 0}, .room = 1};
    zak_status status = slice.report.at ? ZAK_OK : ZAK_OUT_OF_MEMORY;
    uint32_t most = 0;
    while (status == ZAK_OK && slice.taken == most) {
        most = steps_of_slice(run, steps, until);
        status = take_slice(run, script, most, &slice);
        if (status)
            break;
        fwrite(slice.report.at, 1, slice.report.len, run->out);
        run->number += slice.taken;
        if (run->number == until)
            break;
    }
    *place = slice.place;
    free(slice.report.at);
    return status;
}

/* The looks at the state behind the last step. */
static zak_status take_looks(struct run *run)
{
    static const struct step LOOKS[] = {
        {.kind = STEP_SHOW, .shown = SHOW_REGS},
        {.kind = STEP_SHOW, .shown = SHOW_BEAM},
        {.kind = STEP_SHOW, .shown = SHOW_LATCHES},
        {.kind = STEP_SHOW, .shown = SHOW_BDA},
    };
    for (size_t i = 0; i < sizeof LOOKS / sizeof *LOOKS; i++) {
        zak_status status = take(run, &LOOKS[i]);
        if (status)
            return status;
    }
    return ZAK_OK;
}

/* What the words of the command line ask for. */
struct words {
    bool is_bytes, is_restored, is_joined;
    uint32_t slices; /* steps of a slice, or 0 */
    const char *script, *fonts, *until;
};

static zak_status take_steps(struct run *run, struct bytes script, const struct words *words,
                             size_t *place)
{
    unsigned long until = words->until ? strtoul(words->until, NULL, 10) : (unsigned long)-1;
    zak_status status = words->slices      ? take_slices(run, script, words->slices, until, place)
                        : words->is_joined ? take_all_joined(run, script, until)
                                           : take_all(run, script, until);
    return status == ZAK_OK && words->until ? take_looks(run) : status;
}

/* Takes the steps of a script's bytes on a card. */
static zak_status run_steps(struct bytes script, struct bytes fonts, const struct words *words,
                            size_t *place)
{
    struct run *run = calloc(1, sizeof *run);
    if (!run)
        return ZAK_OUT_OF_MEMORY;
    run->out = stdout;
    run->is_restored = words->is_restored;
    run->fonts = fonts;
    zak_status status = zak_open(&run->card, fonts.at, fonts.len);
    if (status == ZAK_OK) {
        status = take_steps(run, script, words, place);
        zak_close(&run->card);
    }
    free(run);
    return status;
}

static zak_status run_text(struct bytes text, struct bytes fonts, const struct words *words,
                           size_t *place)
{
    struct bytes script;
    zak_status status = script_assemble(text.at, text.len, &script.at, &script.len, place);
    if (status == ZAK_OK) {
        status = run_steps(script, fonts, words, place);
        free(script.at);
    }
    return status;
}

/* A whole run by one call, with more room where the first was too little. */
static zak_status run_bytes(struct bytes script, struct bytes fonts, size_t *place)
{
    size_t room = FIRST_ROOM, len = 0;
    uint8_t *report = malloc(room);
    zak_status status = ZAK_OUT_OF_MEMORY;
    while (report) {
        status = zak_run(script.at, script.len, fonts.at, fonts.len, report, room, &len, place);
        if (status != ZAK_NO_ROOM)
            break;
        free(report);
        room = len;
        report = malloc(room);
        status = ZAK_OUT_OF_MEMORY;
    }
    if (status == ZAK_OK)
        fwrite(report, 1, len, stdout);
    free(report);
    return status;
}

static zak_status run_script(struct bytes script, struct bytes fonts, const struct words *words,
                             size_t *place)
{
    if (!words->is_bytes)
        return run_text(script, fonts, words, place);
    return words->slices ? run_steps(script, fonts, words, place) : run_bytes(script, fonts, place);
}

/* Takes a word that stands next, if it does. */
static bool takes_word(char **argv, int *at, const char *word)
{
    bool is_there = argv[*at] && strcmp(argv[*at], word) == 0;
    *at += is_there;
    return is_there;
}

/* Takes a number above 0 that stands next. */
static bool takes_number(char **argv, int *at, uint32_t *number)
{
    char *end = argv[*at];
    unsigned long value = end ? strtoul(argv[*at], &end, 10) : 0;
    if (value == 0 || value > UINT32_MAX || *end)
        return false;
    *number = (uint32_t)value;
    ++*at;
    return true;
}

/* Whether the words of the command line are some, and what they ask for. */
static bool read_words(int argc, char **argv, struct words *words)
{
    int at = 1;
    words->is_restored = takes_word(argv, &at, "--restored");
    words->is_joined = takes_word(argv, &at, "--joined");
    if (takes_word(argv, &at, "--slices") && !takes_number(argv, &at, &words->slices))
        return false;
    words->is_bytes = takes_word(argv, &at, "--bytes");
    if (words->is_restored + words->is_joined + (words->is_bytes || words->slices) > 1)
        return false;
    if (argc < at + 2)
        return false;
    words->script = argv[at++];
    words->fonts = argv[at++];
    if ((!words->is_bytes || words->slices) && takes_word(argv, &at, "--until"))
        words->until = argv[at++];
    return at == argc;
}

int main(int argc, char **argv)
{
    struct words words = {0};
    if (!read_words(argc, argv, &words)) {
        fprintf(stderr, "harness [--restored | --joined] SCRIPT FONTS [--until STEPS]\n"
                        "harness --bytes SCRIPT FONTS\n"
                        "harness --slices N [--bytes] SCRIPT FONTS [--until STEPS]\n");
        return 2;
    }
    struct bytes script = read_file(words.script), fonts = {NULL, 0};
    int failed = 1;
    if (script.at)
        fonts = read_file(words.fonts);
    if (fonts.at) {
        size_t place = 0;
        zak_status status = run_script(script, fonts, &words, &place);
        failed = status ? fail(status, place) : 0;
    }
    free(fonts.at);
    free(script.at);
    return failed;
}
