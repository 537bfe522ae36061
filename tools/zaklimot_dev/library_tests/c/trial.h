/* What the programs share that try how a card explains itself: a card, pseudo-random numbers, and
 * scripts from texts. */
#include <stdio.h>
#include <stdlib.h>
#include <string.h>

#include "zaklimot.h"

static uint8_t fonts[ZAK_FONTS_SIZE];
static zak_card card = ZAK_CARD_INIT;
static uint32_t random_state = 1;
static unsigned long compared;

static inline uint32_t random_below(uint32_t limit)
{
    random_state = 1664525u * random_state + 1013904223u;
    return (random_state >> 8) % limit;
}

/* Ends the program if something is not as it should be, and says what, and about what. */
static inline void require(bool holds, const char *about, const char *what)
{
    if (holds)
        return;
    printf("%lu, %s: %s\n", compared, about, what);
    exit(1);
}

/* Reads the fonts and opens the card. Whether the words are right: FONTS and, if there are more,
 * a number. */
static inline bool begin(int argc, char **argv, int words)
{
    FILE *file = argc == words ? fopen(argv[1], "rb") : NULL;
    if (!file || fread(fonts, 1, sizeof fonts, file) != sizeof fonts)
        return false;
    fclose(file);
    require(zak_open(&card, fonts, sizeof fonts) == ZAK_OK, "zak_open", "it fails");
    return true;
}

/* Assembles a text that is good, and answers how many bytes its script has. */
static inline size_t assembled(const char *text, uint8_t *script, size_t room)
{
    size_t len = 0, line = 0;
    require(zak_assemble((const uint8_t *)text, strlen(text), script, room, &len, &line) == ZAK_OK,
            text, "it can't be assembled");
    return len;
}

/* Takes all steps of a script on a card. Answers how many bytes the report has. */
static inline size_t take_all(zak_card *on, const uint8_t *script, size_t len, uint8_t *report,
                              size_t room)
{
    size_t report_len = 0, taken = 0, place = 0;
    zak_status status = zak_run_on(on, script, len, 0, 0xFFFFFFFF, report, room, &report_len,
                                   &taken, &place);
    require(status == ZAK_OK, "zak_run_on", "it fails");
    return report_len;
}

/* The number of the refusal that the report of one step tells, or 0. A value has no name behind it,
 * as in "1 E1 NotDecoded". */
static inline uint32_t refusal_in(const uint8_t *report, size_t len)
{
    bool is_refusal = len > 4 && memcmp(report, "1 E", 3) == 0 && memchr(report + 3, ' ', len - 3);
    return is_refusal ? (uint32_t)atoi((const char *)report + 3) : 0;
}

static inline size_t saved(zak_card *from, uint8_t *state)
{
    size_t len = 0;
    require(zak_save(from, state, ZAK_MOST_STATE, &len) == ZAK_OK, "zak_save", "it fails");
    return len;
}
