/* Explains a script: explain FONTS SCRIPT [REBUILT]
 *
 * Says what is wrong in the text. If nothing is, takes its steps, says why those are refused that
 * are, and where the next dot would come from. Then writes a script that leads to the same state.
 *
 * SPDX-License-Identifier: MIT
 */
#include <stdio.h>
#include <stdlib.h>

#include "script.h"
#include "zaklimot.h"

static uint8_t fonts[ZAK_FONTS_SIZE], text[SCRIPT_MOST + 1u], nothing[1];
static uint8_t *script;
static size_t script_len;
static zak_card card = ZAK_CARD_INIT;

static void check(zak_status status, const char *call)
{
    if (status == ZAK_OK)
        return;
    fprintf(stderr, "explain: %s: status %u\n", call, (unsigned)status);
    exit(1);
}

/* Says what is wrong in a text that zak_assemble refuses. */
static void say_mistake(size_t text_len)
{
    uint8_t sentence[ZAK_MOST_MISTAKE_TEXT];
    zak_mistake mistake;
    size_t len;
    check(zak_explain_text(text, text_len, &mistake, sentence, sizeof sentence, &len),
          "zak_explain_text");
    printf("line %zu, column %zu: %.*s\n", mistake.line, mistake.start + 1, (int)len,
           (char *)sentence);
}

/* Says why the card refuses a step, if it does. Answers false if the script has no such step. */
static bool say_refusal(uint32_t step)
{
    uint8_t sentence[ZAK_MOST_REASON_TEXT];
    zak_reason reason;
    size_t len, place;
    zak_status status = zak_explain_step(&card, script, script_len, step, &reason, sentence,
                                         sizeof sentence, &len, &place);
    if (status == ZAK_BAD_ARGUMENT)
        return false;
    check(status, "zak_explain_step");
    if (reason.status != ZAK_OK)
        printf("step %u: E%u: %.*s\n", (unsigned)step + 1, (unsigned)reason.status, (int)len,
               (char *)sentence);
    return true;
}

static void take_steps(void)
{
    for (uint32_t step = 0; say_refusal(step); step++) {
        size_t len, taken, place;
        /* With no room for its report the step is taken all the same. */
        zak_status status =
            zak_run_on(&card, script, script_len, step, 1, nothing, 0, &len, &taken, &place);
        check(status == ZAK_NO_ROOM ? ZAK_OK : status, "zak_run_on");
    }
}

/* Says where the colour of the next dot comes from. */
static void say_dot(void)
{
    zak_beam beam;
    zak_dot_source dot;
    check(zak_read_beam(&card, &beam), "zak_read_beam");
    check(zak_explain_dot(&card, &beam, &dot), "zak_explain_dot");
    printf("line %u: bytes %02X %02X %02X %02X at %04X", beam.line, dot.bytes[0], dot.bytes[1],
           dot.bytes[2], dot.bytes[3], dot.address);
    if (dot.is_text)
        printf(", character %02X, attribute %02X", dot.character, dot.attribute);
    printf(", entry %02X: %u %u %u\n", dot.entry, dot.colour.red, dot.colour.green,
           dot.colour.blue);
}

/* Writes the text of a script. */
static void print(const uint8_t *bytes, size_t len, const char *path)
{
    size_t text_len, place;
    zak_status status = zak_print(bytes, len, nothing, 0, &text_len, &place);
    check(status == ZAK_NO_ROOM ? ZAK_OK : status, "zak_print");
    uint8_t *printed = malloc(text_len + 1);
    FILE *file = printed ? fopen(path, "wb") : NULL;
    if (!file) {
        fprintf(stderr, "explain: %s can't be written\n", path);
        exit(1);
    }
    check(zak_print(bytes, len, printed, text_len, &text_len, &place), "zak_print");
    fwrite(printed, 1, text_len, file);
    free(printed);
    if (fclose(file))
        exit(1);
}

/* Writes a script that leads from power-on to the state of the card. */
static void rebuild(const char *path)
{
    size_t len;
    bool are_dots_other;
    /* The first call tells how long the script is, which has at least its header. */
    zak_status status = zak_rebuild(&card, nothing, 0, &len, &are_dots_other);
    uint8_t *rebuilt = status == ZAK_NO_ROOM ? malloc(len) : NULL;
    if (!rebuilt)
        check(status == ZAK_NO_ROOM ? ZAK_OUT_OF_MEMORY : status, "zak_rebuild");
    check(zak_rebuild(&card, rebuilt, len, &len, &are_dots_other), "zak_rebuild");
    print(rebuilt, len, path);
    free(rebuilt);
    if (are_dots_other)
        puts("the frame under way was drawn otherwise");
}

static size_t read_file(const char *path, uint8_t *bytes, size_t room)
{
    FILE *file = fopen(path, "rb");
    size_t len = file ? fread(bytes, 1, room, file) : 0;
    if (!file || ferror(file)) {
        fprintf(stderr, "explain: %s can't be read\n", path);
        exit(1);
    }
    fclose(file);
    return len;
}

int main(int argc, char **argv)
{
    size_t line;
    if (argc != 3 && argc != 4) {
        fprintf(stderr, "explain FONTS SCRIPT [REBUILT]\n");
        return 2;
    }
    size_t fonts_len = read_file(argv[1], fonts, sizeof fonts);
    size_t len = read_file(argv[2], text, sizeof text);
    zak_status status = script_assemble(text, len, &script, &script_len, &line);
    if (status == ZAK_BAD_LINE) {
        say_mistake(len);
        return 1;
    }
    check(status, "zak_assemble");
    check(zak_open(&card, fonts, fonts_len), "zak_open");
    take_steps();
    say_dot();
    if (argc == 4)
        rebuild(argv[3]);
    zak_close(&card);
    free(script);
    return 0;
}
