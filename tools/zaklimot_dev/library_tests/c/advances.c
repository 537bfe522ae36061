/* zak_advance in any pieces, with cycles among them: one card that may leave dots to be drawn later,
 * and one that is looked at after each advance, so that it has drawn them all. Now and then a frame
 * ends, which the first card skips and the other draws. Each cycle answers the same on both, and the
 * states are the same at last. Prints how many advances were compared, or what
 * was wrong.
 *
 *     advances FONTS ROUNDS */
#include <stdio.h>
#include <stdlib.h>
#include <string.h>

#include "zaklimot.h"

/* A round has fewer advances than this, most of them of a few dots, and a cycle after every other. */
#define MOST_ADVANCES 40u
#define FEW_DOTS 64u

static uint8_t fonts[ZAK_FONTS_SIZE], states[2][ZAK_MOST_STATE];
static zak_card card = ZAK_CARD_INIT, other = ZAK_CARD_INIT;
static uint32_t random_state = 1;
static unsigned long advances;

static uint32_t random_below(uint32_t limit)
{
    random_state = 1664525u * random_state + 1013904223u;
    return (random_state >> 8) % limit;
}

static void require(bool holds, const char *what)
{
    if (holds)
        return;
    printf("after advance %lu: %s\n", advances, what);
    exit(1);
}

static void set_mode(zak_card *each, uint16_t mode)
{
    static const uint8_t none[1];
    uint8_t table[1];
    size_t len;
    zak_regs regs = {mode, 0, 0, 0};
    require(zak_int10(each, &regs, none, 0, table, sizeof table, &len) == ZAK_OK, "mode set");
}

/* Mostly a few dots; now and then a line, frames, the most that there may be, and one more. */
static uint32_t random_dots(void)
{
    switch (random_below(64)) {
    case 0:
        return random_below(3000);
    case 1:
        return random_below(1000000);
    case 2:
        return random_below(8) == 0 ? ZAK_MOST_DOTS : 0;
    case 3:
        return ZAK_MOST_DOTS + 1 + random_below(3);
    default:
        return random_below(FEW_DOTS);
    }
}

static void advance_both(void)
{
    zak_beam beam;
    uint32_t dots = random_dots();
    zak_status wanted = dots > ZAK_MOST_DOTS ? ZAK_TOO_FAR : ZAK_OK;
    require(zak_advance(&card, dots) == wanted, "another status");
    require(zak_advance(&other, dots) == wanted, "another status");
    require(zak_read_beam(&other, &beam) == ZAK_OK, "the beam can't be read");
    advances++;
}

/* An address of the window that most modes have, or of text; near the beam's line now and then. */
static uint32_t random_address(void)
{
    static uint32_t near;
    if (random_below(4) == 0)
        near = random_below(0x10000);
    uint32_t offset = (near + random_below(random_below(2) ? 0x200 : 0x10000)) & 0xFFFF;
    return random_below(4) ? 0xA0000 + offset : 0xB8000 + (offset & 0x7FFF);
}

/* A write of a register: mostly of those that software writes again and again as it draws. */
static void write_register(void)
{
    static const uint16_t words[] = {0x3C4, 0x3CE, 0x3CE, 0x3CE, 0x3D4};
    static const uint16_t bytes[] = {0x3C0, 0x3C4, 0x3C5, 0x3C8, 0x3C9, 0x3CE, 0x3CF, 0x3D5};
    uint16_t value = (uint16_t)random_below(0x10000);
    if (random_below(2)) {
        uint16_t port = words[random_below(sizeof words / sizeof *words)];
        /* Of the CRT controller only the cursor and the start address, so that frames stay short. */
        value = (uint16_t)((value & 0xFF00) | (port == 0x3D4 ? 0x0A + random_below(6) : random_below(10)));
        require(zak_out_word(&card, port, value) == zak_out_word(&other, port, value), "out of a word");
    } else {
        uint16_t port = bytes[random_below(sizeof bytes / sizeof *bytes)];
        require(zak_out(&card, port, (uint8_t)value) == zak_out(&other, port, (uint8_t)value), "out");
    }
}

static void read_port(void)
{
    static const uint16_t ports[] = {0x3DA, 0x3DA, 0x3BA, 0x3C1, 0x3C5, 0x3C9, 0x3CC, 0x3CF, 0x3D5};
    uint16_t port = ports[random_below(sizeof ports / sizeof *ports)];
    uint8_t answers[2] = {0, 0};
    require(zak_in(&card, port, &answers[0]) == zak_in(&other, port, &answers[1]), "in");
    require(answers[0] == answers[1], "in answers something else");
}

static void read_memory(void)
{
    uint32_t address = random_address();
    uint8_t answers[2] = {0, 0};
    require(zak_get(&card, address, &answers[0]) == zak_get(&other, address, &answers[1]), "get");
    require(answers[0] == answers[1], "get answers something else");
}

static void word_of_memory(void)
{
    uint32_t address = random_below(64) ? random_address() : 0xFFFFFFFF - random_below(2);
    uint16_t value = (uint16_t)random_below(0x10000), answers[2] = {0, 0};
    if (random_below(2)) {
        require(zak_put_word(&card, address, value) == zak_put_word(&other, address, value), "put of a word");
    } else {
        zak_status status = zak_get_word(&card, address, &answers[0]);
        require(status == zak_get_word(&other, address, &answers[1]), "get of a word");
        require(answers[0] == answers[1], "get of a word answers something else");
    }
}

/* Ends the frame: the first card skips it, and the other draws it. */
static void end_frame(void)
{
    static uint8_t rgb[ZAK_MOST_RGB];
    uint32_t widths[ZAK_HIGHEST];
    size_t used;
    require(zak_skip_frame(&card) == ZAK_OK, "skip");
    require(zak_frame_lines(&other, widths, rgb, sizeof rgb, &used) == ZAK_OK, "frame");
}

/* A cycle, so that the dots before it and after it differ. */
static void cycle_both(void)
{
    uint32_t address = random_address();
    uint8_t value = (uint8_t)random_below(256);
    switch (random_below(10)) {
    case 0:
        write_register();
        break;
    case 1:
        read_port();
        break;
    case 2:
        read_memory();
        break;
    case 3:
    case 4:
        word_of_memory();
        break;
    default:
        require(zak_put(&card, address, value) == zak_put(&other, address, value), "put");
    }
}

static void compare_states(void)
{
    size_t used[2];
    require(zak_save(&card, states[0], ZAK_MOST_STATE, &used[0]) == ZAK_OK, "save");
    require(zak_save(&other, states[1], ZAK_MOST_STATE, &used[1]) == ZAK_OK, "save");
    require(used[0] == used[1] && memcmp(states[0], states[1], used[0]) == 0, "the states differ");
}

int main(int argc, char **argv)
{
    static const uint16_t modes[] = {0x03, 0x07, 0x0D, 0x12, 0x13};
    FILE *file = argc == 3 ? fopen(argv[1], "rb") : NULL;
    if (!file || fread(fonts, 1, sizeof fonts, file) != sizeof fonts)
        return 2;
    fclose(file);
    require(zak_open(&card, fonts, sizeof fonts) == ZAK_OK, "open");
    require(zak_open(&other, fonts, sizeof fonts) == ZAK_OK, "open");
    for (int round = atoi(argv[2]); round > 0; round--) {
        if (random_below(16) == 0) {
            uint16_t mode = modes[random_below(sizeof modes / sizeof *modes)];
            set_mode(&card, mode);
            set_mode(&other, mode);
        }
        for (uint32_t n = random_below(MOST_ADVANCES); n > 0; n--) {
            advance_both();
            if (random_below(2))
                cycle_both();
            if (random_below(40) == 0)
                end_frame();
        }
        cycle_both();
        compare_states();
    }
    zak_close(&card);
    zak_close(&other);
    printf("%lu\n", advances);
    return 0;
}
