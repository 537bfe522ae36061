/* zak_cycles against zak_int10: pseudo-random calls in pseudo-random modes. The listed steps, taken
 * on a card that was restored, leave what the call leaves, but for the BIOS data; a call that is
 * refused is refused by both, and has no list. Prints how many calls were compared, or what was
 * wrong.
 *
 *     cycles FONTS CALLS */
#include <stdio.h>
#include <stdlib.h>
#include <string.h>

#include "zaklimot.h"

#define MOST_SCRIPT 16777216u
#define MOST_BLOCK 65536u
/* Where the BIOS data lie in a saved state, and how long they are (docs/STATE.md). */
#define DATA 9u
#define DATA_LEN 31u

static uint8_t fonts[ZAK_FONTS_SIZE], block[MOST_BLOCK], script[MOST_SCRIPT], report[1 << 24];
static uint8_t before[ZAK_MOST_STATE], after[ZAK_MOST_STATE], same[ZAK_MOST_STATE];
static zak_card card = ZAK_CARD_INIT, other = ZAK_CARD_INIT;
static uint32_t random_state = 1;
static unsigned long calls, listed;

static uint32_t random_below(uint32_t limit)
{
    random_state = 1664525u * random_state + 1013904223u;
    return (random_state >> 8) % limit;
}

static void require(bool holds, const zak_regs *regs, const char *what)
{
    if (holds)
        return;
    printf("call %lu, %04X %04X %04X %04X: %s\n", calls, (unsigned)regs->ax, (unsigned)regs->bx,
           (unsigned)regs->cx, (unsigned)regs->dx, what);
    exit(1);
}

static size_t save(zak_card *from, uint8_t *state, const zak_regs *regs)
{
    size_t len;
    require(zak_save(from, state, ZAK_MOST_STATE, &len) == ZAK_OK, regs, "it can't be saved");
    return len;
}

static zak_status call(zak_regs regs, size_t len)
{
    static uint8_t table[ZAK_MOST_TABLE];
    size_t table_len;
    return zak_int10(&card, &regs, block, len, table, sizeof table, &table_len);
}

/* Takes the listed steps on the other card, which was the same; its BIOS data are then set right. */
static size_t take(const zak_regs *regs, size_t len, size_t script_len, uint8_t *state)
{
    size_t report_len, taken, place;
    require(zak_restore(&other, before, len) == ZAK_OK, regs, "it can't be restored");
    require(zak_run_on(&other, script, script_len, 0, MOST_SCRIPT, report, sizeof report,
                       &report_len, &taken, &place) == ZAK_OK, regs, "its steps can't be taken");
    return save(&other, state, regs);
}

static void compare_call(zak_regs regs, size_t block_len)
{
    size_t script_len = 999, len = save(&card, before, &regs);
    zak_status status = zak_cycles(&card, &regs, block, block_len, script, sizeof script,
                                   &script_len);
    require(save(&card, same, &regs) == len && !memcmp(before, same, len), &regs,
            "a list changes the card");
    zak_status done = call(regs, block_len);
    calls++;
    if (status == ZAK_TOO_LONG)
        return;
    require(status == done, &regs, "another status");
    require(status == ZAK_OK || script_len == 999, &regs, "a length though there is no list");
    if (status != ZAK_OK || script_len > sizeof report / 4)
        return;
    size_t left = take(&regs, len, script_len, same), needed = 0;
    require(save(&card, after, &regs) == left, &regs, "states of two sizes");
    memcpy(same + DATA, after + DATA, DATA_LEN);
    require(!memcmp(after, same, left), &regs, "the steps leave another card");
    listed++;
    /* Without room the length alone is told. */
    require(zak_restore(&card, before, len) == ZAK_OK, &regs, "it can't be restored");
    script[0] = 7;
    require(zak_cycles(&card, &regs, block, block_len, script, script_len - 1, &needed) ==
                    ZAK_NO_ROOM && needed == script_len && script[0] == 7,
            &regs, "room is found where there is none");
    call(regs, block_len);
}

/* Functions that there are, mostly, with few characters, so that not all are refused. */
static zak_regs random_regs(void)
{
    uint8_t function = (uint8_t)(random_below(8) ? random_below(0x14) : random_below(256));
    uint8_t low = (uint8_t)(random_below(2) ? random_below(0x1A) : random_below(256));
    uint16_t count = (uint16_t)(random_below(16) ? random_below(9) : random_below(300));
    return (zak_regs){(uint16_t)(256 * function + low),
                      (uint16_t)(random_below(4) ? 256 * random_below(17) + random_below(16)
                                                 : random_below(65536)),
                      count, (uint16_t)(random_below(4) ? random_below(80) + 256 * random_below(26)
                                                        : random_below(65536))};
}

int main(int argc, char **argv)
{
    static const uint8_t modes[] = {0, 1, 2, 3, 4, 6, 7, 0x0D, 0x0E, 0x0F, 0x10, 0x11, 0x12, 0x13};
    FILE *file = argc == 3 ? fopen(argv[1], "rb") : NULL;
    zak_regs mode = {0x0003, 0, 0, 0};
    if (!file || fread(fonts, 1, sizeof fonts, file) != sizeof fonts)
        return 2;
    fclose(file);
    for (size_t i = 0; i < sizeof block; i++)
        block[i] = (uint8_t)random_below(256);
    require(zak_open(&card, fonts, sizeof fonts) == ZAK_OK, &mode, "open");
    require(zak_open(&other, fonts, sizeof fonts) == ZAK_OK, &mode, "open");
    for (int n = atoi(argv[2]); n > 0; n--) {
        zak_source source;
        zak_regs regs = random_regs();
        if (n % 16 == 0) {
            mode.ax = (uint16_t)(modes[random_below(sizeof modes)] + 128 * random_below(2));
            compare_call(mode, 0);
        }
        require(zak_block(&card, &regs, &source) == ZAK_OK, &regs, "zak_block fails");
        compare_call(regs, source.len < MOST_BLOCK ? source.len : 0);
    }
    require(listed > calls / 8, &mode, "most calls have no list");
    zak_close(&other);
    zak_close(&card);
    printf("%lu\n", calls);
    return 0;
}
