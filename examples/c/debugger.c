/* Steps through a script, forward and back: debugger FONTS SCRIPT
 *
 * Reads commands from standard input, one a line:
 *
 *     step [N]     takes a step, or N, and writes their answers
 *     back [N]     goes back a step, or N
 *     list         writes the script as zak_print does
 *     beam         tells where the beam is
 *
 * SPDX-License-Identifier: MIT
 */
#include <stdio.h>
#include <stdlib.h>
#include <string.h>

#include "script.h"
#include "zaklimot.h"

/* A state is kept after each so many steps. */
#define SPACING 100u
/* Room for the report of any one step. Pictures are the longest answers. */
#define STEP_ROOM (ZAK_MOST_RGB + 100u)

struct state {
    uint8_t *bytes;
    size_t len;
};

static uint8_t fonts[ZAK_FONTS_SIZE], text[SCRIPT_MOST + 1u], report[STEP_ROOM];
static uint8_t *script;
static size_t script_len;
static zak_card card = ZAK_CARD_INIT;
static uint32_t number; /* of the step that was taken last */
static struct state *states;
static uint32_t states_count;

static void check(zak_status status, const char *call)
{
    if (status == ZAK_OK)
        return;
    fprintf(stderr, "debugger: %s: status %u\n", call, (unsigned)status);
    exit(1);
}

/* Keeps the state after the step that was taken last, where it is the next to be kept. */
static void keep_state(void)
{
    if (number != states_count * SPACING)
        return;
    struct state state;
    check(zak_save_size(&card, &state.len), "zak_save_size");
    state.bytes = malloc(state.len);
    states = realloc(states, (states_count + 1) * sizeof *states);
    if (!state.bytes || !states)
        check(ZAK_OUT_OF_MEMORY, "malloc");
    check(zak_save(&card, state.bytes, state.len, &state.len), "zak_save");
    states[states_count++] = state;
}

/* Takes the next steps, at most so many, with so much room for their report. Answers how many. */
static size_t take(uint32_t most, size_t room, size_t *len)
{
    size_t taken, place;
    zak_status status =
        zak_run_on(&card, script, script_len, number, most, report, room, len, &taken, &place);
    /* With no room the steps are taken all the same. */
    check(status == ZAK_NO_ROOM && room == 0 ? ZAK_OK : status, "zak_run_on");
    number += (uint32_t)taken;
    return taken;
}

/* How much of a step's report is text: all of it, or the first line where a picture follows. */
static size_t text_len(size_t len)
{
    const uint8_t *answer = (const uint8_t *)memchr(report, ' ', len) + 1;
    if (memcmp(answer, "picture ", 8) != 0)
        return len;
    return (size_t)((const uint8_t *)memchr(report, '\n', len) + 1 - report);
}

static void step(uint32_t count)
{
    size_t len;
    while (count-- && take(1, sizeof report, &len)) {
        fwrite(report, 1, text_len(len), stdout);
        keep_state();
    }
}

static void back(uint32_t count)
{
    uint32_t wanted = count < number ? number - count : 0, at = wanted / SPACING;
    size_t len;
    check(zak_restore(&card, states[at].bytes, states[at].len), "zak_restore");
    number = at * SPACING;
    take(wanted - number, 0, &len);
    printf("after step %u\n", (unsigned)number);
}

static void list(void)
{
    size_t len, place;
    zak_status status = zak_print(script, script_len, report, 0, &len, &place);
    uint8_t *printed = status == ZAK_NO_ROOM ? malloc(len) : NULL;
    if (printed) {
        check(zak_print(script, script_len, printed, len, &len, &place), "zak_print");
        fwrite(printed, 1, len, stdout);
    }
    free(printed);
}

static void show_beam(void)
{
    zak_beam beam;
    check(zak_read_beam(&card, &beam), "zak_read_beam");
    printf("line %u, character %u, dot %u\n", beam.line, beam.character, beam.dot);
}

static void obey(const char *command)
{
    char word[8] = "";
    unsigned count = 1;
    /* No script has a step that nine digits can't count, so no more of them are read. */
    sscanf(command, "%7s %9u", word, &count);
    if (strcmp(word, "step") == 0)
        step(count);
    else if (strcmp(word, "back") == 0)
        back(count);
    else if (strcmp(word, "list") == 0)
        list();
    else if (strcmp(word, "beam") == 0)
        show_beam();
    else
        puts("step [N], back [N], list, beam");
}

static size_t read_file(const char *path, uint8_t *bytes, size_t room)
{
    FILE *file = fopen(path, "rb");
    size_t len = file ? fread(bytes, 1, room, file) : 0;
    if (!file || ferror(file)) {
        fprintf(stderr, "debugger: %s can't be read\n", path);
        exit(1);
    }
    fclose(file);
    return len;
}

int main(int argc, char **argv)
{
    char command[80];
    size_t line = 0;
    if (argc != 3) {
        fprintf(stderr, "debugger FONTS SCRIPT\n");
        return 2;
    }
    size_t fonts_len = read_file(argv[1], fonts, sizeof fonts);
    size_t len = read_file(argv[2], text, sizeof text);
    zak_status status = script_assemble(text, len, &script, &script_len, &line);
    if (status == ZAK_BAD_LINE)
        fprintf(stderr, "debugger: %s: line %zu is bad\n", argv[2], line);
    check(status, "zak_assemble");
    check(zak_open(&card, fonts, fonts_len), "zak_open");
    keep_state();
    while (fgets(command, sizeof command, stdin))
        obey(command);
    zak_close(&card);
    for (uint32_t i = 0; i < states_count; i++)
        free(states[i].bytes);
    free(states);
    free(script);
    return 0;
}
