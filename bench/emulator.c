/* The main loop of an emulator with a card: emulator FONTS MODE WAY FRAMES
 *
 * MODE is 13, X, 12 or 3. In every frame, software makes a cycle for each 25 dots: a processor of
 * 16 MHz makes one for each 16 of its clocks. Of 20 cycles, 12 write to memory and 2 read from it, 4
 * read input status 1, and 2 write to map mask. WAY is
 *
 *   single       the dots pass before each cycle, and each cycle is a call of its own
 *   bulk         the dots of a line pass at once, and one call writes the bytes of the line
 *   single-skip  as single, but only one frame in three is drawn
 *   bulk-skip    as bulk, but only one frame in three is drawn
 *
 * bench/emulator.py counts the instructions that a frame takes. */
#include <stdio.h>
#include <stdlib.h>
#include <string.h>

#include "zaklimot.h"

/* Dots between two cycles, and cycles of which each kind has its share. */
#define DOTS 25u
#define ROUND 20u
/* Bytes that one call writes. */
#define MOST_BYTES 64u

static uint8_t fonts[ZAK_FONTS_SIZE];
static uint8_t table[ZAK_MOST_TABLE];
static uint32_t pixels[ZAK_WIDEST * ZAK_HIGHEST];
static uint8_t line[MOST_BYTES];
static zak_card card = ZAK_CARD_INIT;
static zak_status status;
/* Where the memory of the mode begins, how many of its bytes are written in turn, and the word that
 * selects the mode's planes. */
static uint32_t window = 0xA0000, bytes = 32000;
static uint16_t planes = 0x0F02;
/* The next of these bytes, and the number of the next cycle. */
static uint32_t next_byte, cycle;

static void check(zak_status said)
{
    status |= said;
}

static void set_mode(uint16_t mode)
{
    zak_regs regs = {mode, 0, 0, 0};
    size_t len;
    check(zak_int10(&card, &regs, line, 0, table, sizeof table, &len));
}

/* Mode X is mode 13 without chain 4. */
static void set_mode_x(void)
{
    set_mode(0x13);
    check(zak_out_word(&card, 0x3C4, 0x0604));
    check(zak_out_word(&card, 0x3D4, 0x0014));
    check(zak_out_word(&card, 0x3D4, 0xE317));
}

static void write_byte(void)
{
    check(zak_put(&card, window + next_byte, (uint8_t)(next_byte * 7 + cycle)));
    next_byte = (next_byte + 1) % bytes;
}

/* Makes the next cycle of the software. */
static void make_cycle(void)
{
    uint32_t kind = cycle++ % ROUND;
    uint8_t value;
    if (kind < 12)
        write_byte();
    else if (kind < 14)
        check(zak_get(&card, window + next_byte, &value));
    else if (kind < 18)
        check(zak_in(&card, 0x3DA, &value));
    else
        check(zak_out_word(&card, 0x3C4, planes));
}

/* Lets the dots of a frame pass but for a few, with a cycle after each 25 of them. */
static void run_single(uint32_t dots)
{
    for (; dots > 2 * DOTS; dots -= DOTS) {
        check(zak_advance(&card, DOTS));
        make_cycle();
    }
}

/* The same by calls for a line of 800 or 900 dots. */
static void run_bulk(uint32_t dots, uint32_t line_dots)
{
    for (; dots > 2 * line_dots; dots -= line_dots) {
        size_t decoded;
        uint32_t writes = line_dots / DOTS * 12 / ROUND;
        check(zak_advance(&card, line_dots));
        for (uint32_t i = 0; i < writes; i++)
            line[i] = (uint8_t)(cycle++ * 7);
        check(zak_put_bytes(&card, window + next_byte, line, writes, false, &decoded));
        next_byte = (next_byte + writes) % (bytes - MOST_BYTES);
    }
}

static void end_frame(bool is_drawn)
{
    zak_picture picture;
#ifdef ZAK_MOST_STATUS_TEXT
    if (!is_drawn) {
        check(zak_skip_frame(&card));
        return;
    }
#endif
    (void)is_drawn;
    check(zak_frame_words(&card, ZAK_ONCE, &picture, pixels, sizeof pixels / 4, ZAK_WIDEST));
}

static void run_frame(const char *way, uint32_t number)
{
    zak_timing timing;
    check(zak_clock(&card, &timing));
    if (strncmp(way, "bulk", 4) == 0)
        run_bulk(timing.to_frame, window == 0xB8000 ? 900 : 800);
    else
        run_single(timing.to_frame);
    end_frame(strstr(way, "skip") == NULL || number % 3 == 0);
}

int main(int argc, char **argv)
{
    FILE *file = argc == 5 ? fopen(argv[1], "rb") : NULL;
    if (!file || fread(fonts, 1, sizeof fonts, file) != sizeof fonts)
        return 2;
    fclose(file);
    check(zak_open(&card, fonts, sizeof fonts));
    if (strcmp(argv[2], "X") == 0) {
        set_mode_x();
    } else {
        set_mode((uint16_t)strtoul(argv[2], NULL, 16));
        if (strcmp(argv[2], "3") == 0) {
            window = 0xB8000;
            bytes = 4000;
            planes = 0x0302;
        }
    }
    end_frame(true);
    for (uint32_t number = 0; number < (uint32_t)strtoul(argv[4], NULL, 10); number++)
        run_frame(argv[3], number);
    return (int)(status | zak_close(&card)) != 0;
}
