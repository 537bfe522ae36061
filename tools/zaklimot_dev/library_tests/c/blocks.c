/* zak_block against zak_int10: each function and subfunction with pseudo-random registers, before
 * and after a mode is set. Prints how many calls were made, or what was wrong.
 *
 *     blocks FONTS CALLS */
#include <stdio.h>
#include <stdlib.h>

#include "zaklimot.h"

/* 255 lines of 65,535 characters, and one byte more. */
#define MOST_BLOCK 16711426u

/* Where the reference says that the function's block lies, and how long it is. */
struct known {
    zak_regs regs;
    zak_source source;
};

static const struct known known[] = {
    {{0x1300, 0, 5, 0}, {5, false}},         {{0x1301, 0, 0xFFFF, 0}, {65535, false}},
    {{0x1302, 0, 5, 0}, {10, false}},        {{0x1303, 0, 0xFFFF, 0}, {131070, false}},
    {{0x1304, 0, 5, 0}, {0, false}},         {{0x1002, 0, 5, 0}, {17, true}},
    {{0x1012, 3, 5, 0}, {15, true}},         {{0x1110, 0x1000, 2, 0}, {32, false}},
    {{0x1110, 0xFF00, 0xFFFF, 0}, {16711425, false}}, {{0x1110, 0x1001, 2, 0}, {0, false}},
    {{0x1112, 0, 2, 0}, {0, false}},         {{0x0003, 0, 5, 0}, {0, false}},
    {{0x0E41, 0, 5, 0}, {0, false}},
};

static uint8_t fonts[ZAK_FONTS_SIZE], block[MOST_BLOCK];
static zak_card card = ZAK_CARD_INIT;
static uint32_t random_state = 1;
static unsigned long calls;

static uint32_t random_below(uint32_t limit)
{
    random_state = 1664525u * random_state + 1013904223u;
    return (random_state >> 8) % limit;
}

static void require(bool holds, const zak_regs *regs, const char *what)
{
    if (holds)
        return;
    printf("call %lu, %04X %04X %04X %04X: %s\n", calls, (unsigned)regs->ax, (unsigned)regs->bx,
           (unsigned)regs->cx, (unsigned)regs->dx, what);
    exit(1);
}

static zak_status call(zak_regs regs, size_t len)
{
    static uint8_t table[ZAK_MOST_TABLE];
    size_t table_len;
    calls++;
    return zak_int10(&card, &regs, block, len, table, sizeof table, &table_len);
}

static zak_source source_of(zak_regs regs)
{
    zak_source source;
    require(zak_block(&card, &regs, &source) == ZAK_OK, &regs, "zak_block fails");
    return source;
}

static void compare_known(const struct known *call)
{
    zak_source source = source_of(call->regs);
    require(source.len == call->source.len, &call->regs, "another length");
    require(source.len == 0 || source.is_at_dx == call->source.is_at_dx, &call->regs,
            "another place");
}

/* With as many bytes as are told the call is not refused for them, and with others it is refused. */
static void compare_call(zak_regs regs)
{
    zak_source source = source_of(regs);
    if (source.len != 0) {
        require(call(regs, source.len - 1) != ZAK_OK, &regs, "a byte fewer is enough");
        require(call(regs, source.len + 1) != ZAK_OK, &regs, "a byte more is taken");
    }
    require(call(regs, source.len) != ZAK_BAD_BLOCK, &regs, "so many bytes are refused");
}

/* Functions that there are, mostly, with few characters, so that not all are refused. */
static zak_regs random_regs(void)
{
    static const uint8_t functions[] = {0x10, 0x11, 0x13};
    uint8_t function = random_below(4) ? functions[random_below(3)] : (uint8_t)random_below(256);
    uint16_t count = (uint16_t)(random_below(8) ? random_below(9) : random_below(65536));
    uint8_t subfunction = (uint8_t)random_below(0x1A);
    return (zak_regs){(uint16_t)(256 * function + subfunction),
                      (uint16_t)(random_below(4) ? 256 * random_below(17) : random_below(65536)),
                      count, (uint16_t)(random_below(4) ? random_below(80) : random_below(65536))};
}

int main(int argc, char **argv)
{
    FILE *file = argc == 3 ? fopen(argv[1], "rb") : NULL;
    zak_regs mode = {0x0003, 0, 0, 0};
    if (!file || fread(fonts, 1, sizeof fonts, file) != sizeof fonts)
        return 2;
    fclose(file);
    require(zak_open(&card, fonts, sizeof fonts) == ZAK_OK, &mode, "open");
    for (int n = atoi(argv[2]); n > 0; n--) {
        /* A call may set another mode. Some are made before any. */
        if (n % 64 == 0)
            require(call(mode, 0) == ZAK_OK, &mode, "mode set");
        compare_call(random_regs());
    }
    for (size_t i = 0; i < sizeof known / sizeof *known; i++)
        compare_known(&known[i]);
    zak_close(&card);
    printf("%lu\n", calls);
    return 0;
}
