/* Calls by which a card explains itself that are answered by a status: on a card that is not open,
 * with buffers that are too short, with a beam or a step that there is not, with damaged scripts,
 * and over states that no steps lead to. Each buffer is as long as a call is told, so that a
 * sanitizer sees a byte past it that is touched. What is printed is to be that of
 * misuse_explained.txt. */
#include "trial.h"

#define SHOW(call) printf("%-79s %u\n", #call, (unsigned)(call))

#define UNTOUCHED 0xEE
#define MOST_SCRIPT 16777216u

/* A script with a step that is refused, and its sentence. */
static const char refused[] = "VGAS\1\13\1\140\0\1";
#define REFUSED (sizeof refused - 1)
static const char sentence[] = "No part of the adapter decodes port 060.";
#define SENTENCE (sizeof sentence - 1)

static zak_reason reason;
static zak_dot_source source;
static zak_write_stages write;
static zak_read_stages read;
static zak_mistake mistake;
static size_t len, place;
static bool are_dots_other;

/* A buffer of so many bytes, all of which are UNTOUCHED. */
static uint8_t *buffer(size_t size)
{
    uint8_t *bytes = malloc(size ? size : 1);
    if (!bytes)
        exit(2);
    memset(bytes, UNTOUCHED, size ? size : 1);
    return bytes;
}

static void clear(void)
{
    memset(&reason, UNTOUCHED, sizeof reason);
    memset(&source, UNTOUCHED, sizeof source);
    memset(&write, UNTOUCHED, sizeof write);
    memset(&read, UNTOUCHED, sizeof read);
    memset(&mistake, UNTOUCHED, sizeof mistake);
    reason.is_high = are_dots_other = true;
    len = place = 999;
}

/* Whether a call has written none of its numbers. */
static bool is_clear(void)
{
    static zak_reason old_reason;
    zak_mistake old_mistake;
    zak_dot_source old_source;
    memset(&old_reason, UNTOUCHED, sizeof old_reason);
    memset(&old_mistake, UNTOUCHED, sizeof old_mistake);
    memset(&old_source, UNTOUCHED, sizeof old_source);
    return reason.status == old_reason.status && reason.kind == old_reason.kind &&
           memcmp(reason.numbers, old_reason.numbers, sizeof reason.numbers) == 0 &&
           reason.is_high && are_dots_other && len == 999 &&
           memcmp(&source, &old_source, sizeof source) == 0 &&
           memcmp(&write, &old_source, sizeof write) == 0 &&
           memcmp(&read, &old_source, sizeof read) == 0 && mistake.line == old_mistake.line &&
           mistake.start == old_mistake.start && mistake.length == old_mistake.length &&
           mistake.kind == old_mistake.kind;
}

/* Asks of a step of a script whose bytes are as many as the call is told. */
static zak_status explain(const void *script, size_t script_len, uint32_t step, size_t room)
{
    uint8_t *exact = buffer(script_len), *text = buffer(room);
    memcpy(exact, script, script_len);
    zak_status status =
        zak_explain_step(&card, exact, script_len, step, &reason, text, room, &len, &place);
    if (status == ZAK_OK)
        require(len <= room && memcmp(text, sentence, len) == 0, "a step", "it says otherwise");
    else
        require(text[0] == UNTOUCHED, "a step", "something is written");
    free(exact);
    free(text);
    return status;
}

static void calls_of_closed(void)
{
    zak_beam beam = {0, 0, 0, 0, 0, 0, 0, 0, 0};
    uint8_t *bytes = buffer(1);
    clear();
    SHOW(explain(refused, REFUSED, 0, 1));
    SHOW(explain(bytes, 0, 0, 1));
    SHOW(zak_explain_dot(&card, &beam, &source));
    SHOW(zak_explain_put(&card, 0xA0000, 1, &write));
    SHOW(zak_explain_get(&card, 0xA0000, &read));
    SHOW(zak_rebuild(&card, bytes, 1, &len, &are_dots_other));
    SHOW(is_clear() && place == 999 && *bytes == UNTOUCHED);
    free(bytes);
}

/* Steps that are done and refused, steps that there are not, and repeats, whose steps count each
 * time. */
static void steps(void)
{
    clear();
    SHOW(explain(refused, REFUSED, 0, 0));
    SHOW(len == 0 && reason.status == 0 && reason.kind == 0 && reason.numbers[0] == 0);
    SHOW(explain(refused, REFUSED, 1, SENTENCE));
    SHOW(len == SENTENCE && reason.status == 1 && reason.kind == ZAK_WHY_NO_PORT);
    SHOW(reason.numbers[0] == 0x60 && reason.numbers[1] == 0 && reason.numbers[4] == 0);
    SHOW(reason.is_high);
    clear();
    SHOW(explain(refused, REFUSED, 1, SENTENCE - 1));
    SHOW(len == SENTENCE && reason.kind == ZAK_WHY_NO_PORT && !reason.is_high && place == 999);
    clear();
    SHOW(explain(refused, REFUSED, 1, 0));
    SHOW(len == SENTENCE && reason.status == 1);
    clear();
    SHOW(explain(refused, REFUSED, 2, SENTENCE));
    SHOW(explain(refused, REFUSED, 0xFFFFFFFF, SENTENCE));
    SHOW(explain("VGAS\1", 5, 0, SENTENCE));
    SHOW(is_clear() && place == 999);
    SHOW(explain("VGAS\2\15\3\0\13\1\140\0\1\16", 14, 5, SENTENCE));
    SHOW(reason.kind == ZAK_WHY_NO_PORT);
    SHOW(explain("VGAS\2\15\3\0\13\1\140\0\1\16", 14, 4, SENTENCE));
    SHOW(reason.kind == 0);
    clear();
    SHOW(explain("VGAS\2\15\3\0\13\1\140\0\1\16", 14, 6, SENTENCE));
    SHOW(is_clear() && place == 999);
}

/* The faults of a script, in a step that is asked for or in another. */
static void damaged_steps(void)
{
    uint8_t *bytes = buffer(MOST_SCRIPT + 1);
    clear();
    SHOW(explain("VGAX\1\13", 6, 0, SENTENCE));
    SHOW(explain("VGAS\3\13", 6, 0, SENTENCE));
    SHOW(explain(bytes, MOST_SCRIPT + 1, 0, SENTENCE));
    SHOW(is_clear() && place == 999);
    SHOW(explain("VGAS", 4, 0, SENTENCE));
    SHOW(place);
    SHOW(explain("VGAS\1\13\377", 7, 0, SENTENCE));
    SHOW(place);
    SHOW(explain("VGAS\1\13\13\1", 8, 0, SENTENCE));
    SHOW(place);
    SHOW(explain("VGAS\1\13\13\1", 8, 9, SENTENCE));
    memset(bytes, 0x0B, 266);
    memcpy(bytes, "VGAS\2\15\377\377", 8);
    bytes[265] = 0x0E;
    SHOW(explain(bytes, 266, 0, SENTENCE));
    SHOW(place);
    SHOW(is_clear());
    free(bytes);
}

static zak_status dot_at(uint16_t line, uint16_t character, uint16_t dot, uint16_t scan,
                         uint8_t frame, uint8_t half, uint8_t split)
{
    /* What `rows` says does not matter. */
    zak_beam beam = {line, character, dot, 0xFFFF, scan, 0xFFFF, frame, half, split};
    return zak_explain_dot(&card, &beam, &source);
}

static void dots(void)
{
    clear();
    SHOW(dot_at(1025, 0, 0, 0, 0, 0, 0));
    SHOW(dot_at(0, 260, 0, 0, 0, 0, 0));
    SHOW(dot_at(0, 0, 9, 0, 0, 0, 0));
    SHOW(dot_at(0, 0, 0, 32, 0, 0, 0));
    SHOW(dot_at(0, 0, 0, 0, 32, 0, 0));
    SHOW(dot_at(0xFFFF, 0xFFFF, 0xFFFF, 0xFFFF, 0xFF, 0xFF, 0xFF));
    SHOW(is_clear());
    SHOW(dot_at(1024, 259, 8, 31, 31, 1, 1));
    SHOW(is_clear());
}

/* At power-on the adapter decodes no address. */
static void cycles(void)
{
    clear();
    SHOW(zak_explain_put(&card, 0xA0000, 1, &write));
    SHOW(zak_explain_put(&card, 0xFFFFFFFF, 1, &write));
    SHOW(zak_explain_get(&card, 0xA0000, &read));
    SHOW(zak_explain_get(&card, 0, &read));
    SHOW(is_clear());
}

static zak_status explain_text(const char *text, size_t room)
{
    uint8_t *exact = buffer(strlen(text)), *told = buffer(room);
    memcpy(exact, text, strlen(text));
    zak_status status = zak_explain_text(exact, strlen(text), &mistake, told, room, &len);
    require(status == ZAK_OK || told[0] == UNTOUCHED, text, "something is written");
    free(exact);
    free(told);
    return status;
}

static void texts(void)
{
    clear();
    SHOW(explain_text("frame\nout 3C4", 0));
    SHOW(len > 0 && len <= ZAK_MOST_MISTAKE_TEXT && mistake.line == 2);
    size_t needed = len;
    clear();
    SHOW(explain_text("frame\nout 3C4", needed - 1));
    SHOW(len == needed && mistake.line == 2 && mistake.kind == ZAK_MISTAKE_FORM);
    clear();
    SHOW(explain_text("frame\nout 3C4", needed));
    SHOW(len == needed && mistake.line == 2 && mistake.kind == ZAK_MISTAKE_FORM);
    SHOW(explain_text("frame", 0));
    SHOW(len == 0 && mistake.line == 0 && mistake.start == 0 && mistake.length == 0);
    SHOW(mistake.kind);
    SHOW(explain_text("", 0));
}

/* Where a saved state has underline location, register 14 of the CRT controller (docs/STATE.md). The
 * adapter refuses its bit 5. */
#define UNDERLINE_LOCATION (41 + 0x14)

/* Whatever steps lead to is rebuilt, but no restored state with a bit that the adapter refuses. */
static void states(void)
{
    static uint8_t state[ZAK_MOST_STATE], table[ZAK_MOST_TABLE], script[ZAK_MOST_STATE];
    zak_regs regs = {0x0003, 0, 0, 0};
    size_t table_len, state_len;
    clear();
    SHOW(zak_rebuild(&card, script, 0, &len, &are_dots_other));
    SHOW(len > 5 && len < 1000 && !are_dots_other && script[0] == 0);
    size_t needed = len;
    are_dots_other = true;
    SHOW(zak_rebuild(&card, script, needed - 1, &len, &are_dots_other));
    SHOW(len == needed && !are_dots_other && script[0] == 0);
    SHOW(zak_rebuild(&card, script, needed, &len, &are_dots_other));
    SHOW(len == needed && !are_dots_other && script[0] == 'V');
    SHOW(zak_int10(&card, &regs, script, 0, table, sizeof table, &table_len));
    SHOW(zak_rebuild(&card, script, sizeof script, &len, &are_dots_other));
    state_len = saved(&card, state);
    state[UNDERLINE_LOCATION] |= 0x20;
    SHOW(zak_restore(&card, state, state_len));
    clear();
    memset(script, UNTOUCHED, sizeof script);
    SHOW(zak_rebuild(&card, script, sizeof script, &len, &are_dots_other));
    SHOW(is_clear() && script[0] == UNTOUCHED && script[sizeof script - 1] == UNTOUCHED);
    SHOW(saved(&card, script) == state_len && memcmp(script, state, state_len) == 0);
}

int main(int argc, char **argv)
{
    calls_of_closed();
    if (!begin(argc, argv, 2))
        return 2;
    steps();
    damaged_steps();
    dots();
    cycles();
    texts();
    states();
    SHOW(zak_close(&card));
    calls_of_closed();
    return 0;
}
