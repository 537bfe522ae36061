/* A processor core in miniature whose display is the library: core FONTS PICTURE.ppm
 *
 * A few instructions of an 80286 are interpreted, enough for the program below, which sets mode 12,
 * draws sixteen bars into its four planes, and waits for the vertical retrace. What any core has to
 * do is in look_at_clock, spend and settle, and in the cycles and the call behind them.
 *
 * SPDX-License-Identifier: MIT
 */
#include <stdio.h>
#include <stdlib.h>

#include "zaklimot.h"

#define CLOCK_RATE 10000000u /* clocks of the core in a second */

enum { AX, CX, DX, BX, SP, BP, SI, DI };

static zak_card card = ZAK_CARD_INIT;
static uint8_t fonts[ZAK_FONTS_SIZE], rgb[ZAK_MOST_RGB], table[ZAK_MOST_TABLE];
static zak_size size;
static unsigned frames;

/* Dots of the clock, and what is owed to the card: dots that it has not been told of yet. */
static uint64_t dot_rate, parts_of_dot;
static uint32_t owed, left;

static uint16_t registers[8], extra_segment, instruction;
static bool is_zero, is_below, is_halted;

static const uint8_t program[] = {
    0xB8, 0x12, 0x00,       /*         mov ax, 0012     mode 12                  */
    0xCD, 0x10,             /*         int 10                                    */
    0xB8, 0x00, 0xA0,       /*         mov ax, A000                              */
    0x8E, 0xC0,             /*         mov es, ax                                */
    0xBB, 0x60, 0x09,       /*         mov bx, 2400     bytes of a bar           */
    0xB8, 0x02, 0x01,       /*         mov ax, 0102     map mask: plane 0        */
    0xBA, 0xC4, 0x03,       /* plane:  mov dx, 03C4                              */
    0xEF,                   /*         out dx, ax                                */
    0x89, 0xC6,             /*         mov si, ax                                */
    0x89, 0xDF,             /*         mov di, bx                                */
    0x89, 0xD9,             /* bar:    mov cx, bx                                */
    0xB0, 0xFF,             /*         mov al, FF                                */
    0xF3, 0xAA,             /*         rep stosb                                 */
    0x01, 0xDF,             /*         add di, bx                                */
    0x81, 0xFF, 0x00, 0x96, /*         cmp di, 38400                             */
    0x72, 0xF2,             /*         jb bar                                    */
    0x01, 0xDB,             /*         add bx, bx       bars twice as high       */
    0x89, 0xF0,             /*         mov ax, si                                */
    0x00, 0xE4,             /*         add ah, ah       the next plane           */
    0x80, 0xFC, 0x10,       /*         cmp ah, 10                                */
    0x75, 0xDF,             /*         jne plane                                 */
    0xBA, 0xDA, 0x03,       /*         mov dx, 03DA                              */
    0xEC,                   /* wait:   in al, dx                                 */
    0xA8, 0x08,             /*         test al, 8       vertical retrace         */
    0x74, 0xFB,             /*         jz wait                                   */
    0xF4,                   /*         hlt                                       */
};

static void check(zak_status status, const char *what)
{
    if (status == ZAK_OK)
        return;
    fprintf(stderr, "core: %s: status %u\n", what, (unsigned)status);
    exit(1);
}

/* Asks how many dots are left of the frame, and how many a second has. */
static void look_at_clock(void)
{
    zak_timing timing;
    check(zak_clock(&card, &timing), "clock");
    left = timing.to_frame;
    dot_rate = timing.rate / timing.rate_divisor;
}

/* A frame of which two rows differ in width has no picture, as where a mode was set within it. */
static void take_frame(void)
{
    zak_status status = zak_frame(&card, &size, rgb, sizeof rgb);
    if (status != ZAK_RAGGED)
        check(status, "frame");
    frames++;
}

/* Pays what is owed. A frame that ends is taken here, so none is missed. */
static void settle(void)
{
    while (owed >= left) {
        owed -= left;
        take_frame();
        look_at_clock();
    }
    check(zak_advance(&card, owed), "advance");
    left -= owed;
    owed = 0;
}

/* The clocks of an instruction become dots, which are owed, and paid where a frame has ended. */
static void spend(uint32_t clocks)
{
    parts_of_dot += clocks * dot_rate;
    owed += (uint32_t)(parts_of_dot / CLOCK_RATE);
    parts_of_dot %= CLOCK_RATE;
    if (owed >= left)
        settle();
}

/* A cycle that the card refuses is nobody's: a write is lost, and a read gives bits of 1. A word of
 * which one byte is refused does nothing, so its bytes are written by themselves. */
static void write_port(uint16_t port, uint16_t value)
{
    settle();
    if (zak_out_word(&card, port, value) != ZAK_OK) {
        zak_out(&card, port, (uint8_t)value);
        zak_out(&card, (uint16_t)(port + 1), (uint8_t)(value >> 8));
    }
    look_at_clock();
}

static uint8_t read_port(uint16_t port)
{
    uint8_t value = 0xFF;
    settle();
    zak_in(&card, port, &value);
    return value;
}

/* Interrupt 10 by the library's video BIOS. With a ROM of one's own it is an interrupt as any. */
static void call_bios(void)
{
    static const uint8_t none[1];
    zak_regs regs = {registers[AX], registers[BX], registers[CX], registers[DX]};
    size_t table_len;
    settle();
    check(zak_int10(&card, &regs, none, 0, table, sizeof table, &table_len), "interrupt 10");
    registers[AX] = regs.ax;
    registers[BX] = regs.bx;
    registers[CX] = regs.cx;
    registers[DX] = regs.dx;
    look_at_clock();
}

static uint8_t fetch(void)
{
    return instruction < sizeof program ? program[instruction++] : 0xF4;
}

static uint16_t fetch_word(void)
{
    uint16_t low = fetch();
    return (uint16_t)(low | fetch() << 8);
}

static void set_low(uint8_t value)
{
    registers[AX] = (uint16_t)((registers[AX] & 0xFF00) | value);
}

/* add ah, ah */
static void double_high(void)
{
    fetch();
    registers[AX] = (uint16_t)(registers[AX] + (registers[AX] & 0xFF00));
}

static void compare(uint32_t left_side, uint32_t right_side)
{
    is_zero = left_side == right_side;
    is_below = left_side < right_side;
}

static void jump_if(bool is_taken)
{
    int8_t distance = (int8_t)fetch();
    spend(is_taken ? 8 : 3);
    if (is_taken)
        instruction = (uint16_t)(instruction + distance);
}

static void compare_register(void)
{
    uint16_t value = registers[fetch() & 7];
    compare(value, fetch_word());
}

/* rep stosb, whose bytes stay within the segment here. */
static void store_string(void)
{
    size_t decoded;
    uint32_t address = 16u * extra_segment + registers[DI];
    settle();
    zak_fill_bytes(&card, address, (uint8_t)registers[AX], registers[CX], false, &decoded);
    spend(3u * registers[CX]);
    registers[DI] = (uint16_t)(registers[DI] + registers[CX]);
    registers[CX] = 0;
}

/* A byte names two registers: the one that is written, and the one that is read. */
static void move_or_add(bool is_sum)
{
    uint8_t pair = fetch();
    uint16_t *target = &registers[pair & 7], source = registers[pair >> 3 & 7];
    *target = is_sum ? (uint16_t)(*target + source) : source;
}

static void perform(void)
{
    uint8_t code = fetch();
    spend(2);
    if (code >= 0xB8 && code <= 0xBF) {
        registers[code - 0xB8] = fetch_word();
        return;
    }
    switch (code) {
    case 0x00: double_high(); break;
    case 0x01: move_or_add(true); break;
    case 0x72: jump_if(is_below); break;
    case 0x74: jump_if(is_zero); break;
    case 0x75: jump_if(!is_zero); break;
    case 0x80: fetch(); compare(registers[AX] >> 8, fetch()); break;
    case 0x81: compare_register(); break;
    case 0x89: move_or_add(false); break;
    case 0x8E: fetch(); extra_segment = registers[AX]; break;
    case 0xA8: compare(registers[AX] & fetch(), 0); break;
    case 0xB0: set_low(fetch()); break;
    case 0xCD: fetch(); call_bios(); break;
    case 0xEC: set_low(read_port(registers[DX])); break;
    case 0xEF: write_port(registers[DX], registers[AX]); break;
    case 0xF3: fetch(); store_string(); break;
    default: is_halted = true; break;
    }
}

int main(int argc, char **argv)
{
    FILE *file = argc == 3 ? fopen(argv[1], "rb") : NULL;
    if (!file || fread(fonts, 1, sizeof fonts, file) != sizeof fonts)
        return 2;
    fclose(file);
    check(zak_open(&card, fonts, sizeof fonts), "open");
    look_at_clock();
    while (!is_halted)
        perform();
    check(zak_frame(&card, &size, rgb, sizeof rgb), "frame");
    check(zak_close(&card), "close");
    printf("%u frames, and the last of %u by %u dots\n", frames, (unsigned)size.width,
           (unsigned)size.height);
    file = fopen(argv[2], "wb");
    if (!file)
        return 2;
    fprintf(file, "P6\n%u %u\n63\n", (unsigned)size.width, (unsigned)size.height);
    fwrite(rgb, 3, (size_t)size.width * size.height, file);
    return fclose(file) != 0;
}
