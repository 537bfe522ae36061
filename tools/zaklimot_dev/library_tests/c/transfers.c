/* Calls for many bytes against single calls: two cards with the same pseudo-random registers, of
 * which one takes a transfer and the other its cycles. Prints how many transfers were tried, or
 * what was wrong.
 *
 *     transfers FONTS TRANSFERS */
#include <stdio.h>
#include <stdlib.h>
#include <string.h>

#include "zaklimot.h"

#define MOST 300u

static uint8_t fonts[ZAK_FONTS_SIZE], one_state[ZAK_FIRST_STATE], other_state[ZAK_FIRST_STATE];
static zak_card one = ZAK_CARD_INIT, other = ZAK_CARD_INIT;
static uint32_t random_state = 1;
static unsigned long transfer;

static uint32_t random_below(uint32_t limit)
{
    random_state = 1664525u * random_state + 1013904223u;
    return (random_state >> 8) % limit;
}

static void require(bool holds, const char *what)
{
    if (holds)
        return;
    printf("transfer %lu: %s\n", transfer, what);
    exit(1);
}

static void out_both(uint16_t port, uint16_t word)
{
    zak_status status = zak_out_word(&one, port, word);
    require(status == zak_out_word(&other, port, word), "a register");
}

/* A register of the host path, or the clock select and memory enable bits. */
static void set_register(void)
{
    uint32_t which = random_below(12), value = random_below(256);
    if (which < 9)
        out_both(0x3CE, (uint16_t)(256 * value + which));
    else if (which < 11)
        out_both(0x3C4, (uint16_t)(256 * value + (which == 9 ? 2 : 4)));
    else if (random_below(8) != 0)
        require(!zak_out(&one, 0x3C2, 0x63) && !zak_out(&other, 0x3C2, 0x63), "misc");
    else
        require(!zak_out(&one, 0x3C2, (uint8_t)value) && !zak_out(&other, 0x3C2, (uint8_t)value), "misc");
}

/* The registers that programs have: plain writes in a chain of four, in pairs, or to all planes. */
static void set_usual(void)
{
    static const uint16_t GRAPHICS[] = {0x0000, 0x0001, 0x0003, 0x0005, 0xFF08};
    static const uint16_t MEMORY_MODE[] = {0x0E04, 0x0204, 0x0604, 0x0604};
    static const uint16_t MAP[] = {0x0506, 0x0E06, 0x0506, 0x0506};
    uint32_t kind = random_below(4);
    for (size_t i = 0; i < sizeof GRAPHICS / sizeof *GRAPHICS; i++)
        out_both(0x3CE, GRAPHICS[i]);
    out_both(0x3C4, MEMORY_MODE[kind]);
    out_both(0x3CE, MAP[kind]);
    out_both(0x3C4, (uint16_t)(kind == 1 ? 0x0302 : 0x0F02));
    if (kind == 1)
        out_both(0x3CE, 0x1005);
    if (kind == 3)
        out_both(0x3CE, 0x0105);
    require(!zak_out(&one, 0x3C2, 0x63) && !zak_out(&other, 0x3C2, 0x63), "misc");
}

/* An address near an end of a window, or anywhere in the adapter's memory. */
static uint32_t some_address(void)
{
    static const uint32_t ENDS[] = {0xA0000, 0xB0000, 0xB8000, 0xC0000};
    return random_below(3) ? 0xA0000 + random_below(0x20000) : ENDS[random_below(4)] - random_below(MOST);
}

static void require_decoded(size_t decoded, size_t expected)
{
    require(decoded == expected, "another number is decoded");
}

static void put(uint32_t address, uint32_t len, bool down, bool is_fill)
{
    uint8_t bytes[MOST];
    size_t decoded, expected = 0;
    for (uint32_t i = 0; i < len; i++)
        bytes[i] = is_fill && i ? bytes[0] : (uint8_t)random_below(256);
    zak_status status = is_fill ? zak_fill_bytes(&one, address, bytes[0], len, down, &decoded)
                                : zak_put_bytes(&one, address, bytes, len, down, &decoded);
    require(status == ZAK_OK, "it fails");
    for (uint32_t i = 0; i < len; i++) {
        uint32_t at = down ? len - 1 - i : i;
        expected += zak_put(&other, address + at, bytes[at]) == ZAK_OK;
    }
    require_decoded(decoded, expected);
}

static uint8_t get_one(uint32_t address, size_t *decoded)
{
    uint8_t byte = 0xFF;
    *decoded += zak_get(&other, address, &byte) == ZAK_OK;
    return byte;
}

static void get(uint32_t address, uint32_t len, bool down)
{
    uint8_t bytes[MOST], expected_bytes[MOST];
    size_t decoded, expected = 0;
    require(zak_get_bytes(&one, address, bytes, len, down, &decoded) == ZAK_OK, "it fails");
    for (uint32_t i = 0; i < len; i++) {
        uint32_t at = down ? len - 1 - i : i;
        expected_bytes[at] = get_one(address + at, &expected);
    }
    require_decoded(decoded, expected);
    require(memcmp(bytes, expected_bytes, len) == 0, "other bytes are read");
}

static void move(uint32_t from, uint32_t to, uint32_t len, bool down)
{
    size_t decoded, expected = 0;
    require(zak_move_bytes(&one, from, to, len, down, &decoded) == ZAK_OK, "it fails");
    for (uint32_t i = 0; i < len; i++) {
        uint32_t at = down ? len - 1 - i : i;
        uint8_t byte = get_one(from + at, &expected);
        expected += zak_put(&other, to + at, byte) == ZAK_OK;
    }
    require_decoded(decoded, expected);
}

static void do_transfer(void)
{
    uint32_t address = some_address(), kind = random_below(4);
    uint32_t len = random_below(MOST + 1), near = address + random_below(64) - 32;
    bool down = random_below(2);
    if (kind < 2)
        put(address, len, down, kind == 1);
    else if (kind == 2)
        get(address, len, down);
    else
        move(address, random_below(2) ? near : some_address(), len, down);
}

static void compare(void)
{
    size_t len;
    require(!zak_save(&one, one_state, sizeof one_state, &len), "it can't be saved");
    require(!zak_save(&other, other_state, sizeof other_state, &len), "it can't be saved");
    require(memcmp(one_state, other_state, len) == 0, "the states differ");
}

int main(int argc, char **argv)
{
    FILE *file = argc == 3 ? fopen(argv[1], "rb") : NULL;
    if (!file || fread(fonts, 1, sizeof fonts, file) != sizeof fonts)
        return 2;
    fclose(file);
    require(!zak_open(&one, fonts, sizeof fonts) && !zak_open(&other, fonts, sizeof fonts), "open");
    unsigned long transfers = strtoul(argv[2], NULL, 10);
    for (transfer = 1; transfer <= transfers; transfer++) {
        if (random_below(3) == 0)
            set_usual();
        for (uint32_t i = random_below(4); i > 0; i--)
            set_register();
        do_transfer();
        if (transfer % 16 == 0)
            compare();
    }
    printf("%lu\n", transfers);
    zak_close(&one);
    zak_close(&other);
    return 0;
}
