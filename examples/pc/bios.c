/* The services of a PC's BIOS, as far as a boot sector asks for them.
 *
 * SPDX-License-Identifier: MIT
 */
#include "bios.h"

#include <string.h>

#include "floppy.h"
#include "window.h"

#define CARRY 0
#define ZERO 6

/* Places of the BIOS data. */
#define EQUIPMENT 0x410u
#define MEMORY_SIZE 0x413u
#define VIDEO_MODE 0x449u
#define TICKS 0x46Cu
#define LAST_ROW 0x484u
#define KILOBYTES 640u
/* A floppy, and a display of 80 columns in colour. */
#define HAS_FLOPPY_AND_COLOUR 0x0021u

#define AX(machine) machine_register(machine, UC_X86_REG_AX)
#define BX(machine) machine_register(machine, UC_X86_REG_BX)
#define CX(machine) machine_register(machine, UC_X86_REG_CX)
#define DX(machine) machine_register(machine, UC_X86_REG_DX)

static uint8_t high(uint16_t word)
{
    return (uint8_t)(word >> 8);
}

static uint32_t place_at(struct machine *machine, int offset)
{
    return machine_address(machine_register(machine, UC_X86_REG_ES),
                           machine_register(machine, offset));
}

/* Writes the data of the library's video BIOS where software looks for them. */
static void write_video_data(struct machine *machine)
{
    zak_bda bda;
    if (zak_read_bda(&machine->display.card, &bda) != ZAK_OK)
        return;
    machine_write(machine, VIDEO_MODE, &bda.mode, 1);
    machine_write_word(machine, VIDEO_MODE + 1, bda.columns);
    machine_write_word(machine, VIDEO_MODE + 3, bda.size);
    machine_write_word(machine, VIDEO_MODE + 5, bda.start);
    for (unsigned page = 0; page < 8; page++)
        machine_write_word(machine, VIDEO_MODE + 7 + 2 * page, bda.cursor_places[page]);
    machine_write_word(machine, VIDEO_MODE + 23, bda.cursor_type);
    machine_write(machine, VIDEO_MODE + 25, &bda.page, 1);
    machine_write_word(machine, VIDEO_MODE + 26, bda.crtc_address);
    machine_write(machine, LAST_ROW, &bda.last_row, 1);
    machine_write_word(machine, LAST_ROW + 1, bda.height);
}

/* Interrupt 10 by the library. What it refuses leaves the registers, as a BIOS that lacks it. */
static void serve_video(struct machine *machine)
{
    static uint8_t block[0x20000], table[ZAK_MOST_TABLE];
    zak_regs regs = {AX(machine), BX(machine), CX(machine), DX(machine)};
    zak_source source;
    size_t table_len = 0;
    if (zak_block(&machine->display.card, &regs, &source) != ZAK_OK || source.len > sizeof block)
        return;
    machine_read(machine, place_at(machine, source.is_at_dx ? UC_X86_REG_DX : UC_X86_REG_BP), block,
                 source.len);
    display_settle(&machine->display);
    if (zak_int10(&machine->display.card, &regs, block, source.len, table, sizeof table, &table_len) !=
        ZAK_OK)
        return;
    machine_write(machine, place_at(machine, UC_X86_REG_DX), table, table_len);
    machine_set_register(machine, UC_X86_REG_AX, regs.ax);
    machine_set_register(machine, UC_X86_REG_BX, regs.bx);
    machine_set_register(machine, UC_X86_REG_CX, regs.cx);
    machine_set_register(machine, UC_X86_REG_DX, regs.dx);
    display_look(&machine->display);
    write_video_data(machine);
}

void bios_begin(struct machine *machine)
{
    machine_write_word(machine, EQUIPMENT, HAS_FLOPPY_AND_COLOUR);
    machine_write_word(machine, MEMORY_SIZE, KILOBYTES);
    if (machine->has_rom)
        return;
    /* A ROM sets mode 3 by itself. */
    machine_set_register(machine, UC_X86_REG_AX, 0x0003);
    serve_video(machine);
}

/* Answers a service of the floppy: 0 where it is done, or a number of a fault. */
static void answer_disk(struct machine *machine, uint8_t fault, uint8_t value)
{
    machine_set_register(machine, UC_X86_REG_AX, (uint16_t)(fault << 8 | value));
    machine_give_flag(machine, CARRY, fault != 0);
}

/* Reads or writes so many sectors, which may go on to the next track. */
static void move_sectors(struct machine *machine, bool is_read)
{
    uint8_t bytes[FLOPPY_SECTOR_SIZE], wanted = (uint8_t)AX(machine), done = 0;
    uint16_t place = CX(machine);
    unsigned sector = place & 0x3F, cylinder = high(place) | (place & 0xC0u) << 2;
    unsigned head = high(DX(machine));
    uint32_t at = place_at(machine, UC_X86_REG_BX);
    for (bool is_good = true; is_good && done < wanted; done = (uint8_t)(done + is_good)) {
        if (!is_read)
            machine_read(machine, at, bytes, sizeof bytes);
        is_good = is_read ? floppy_read(cylinder, head, sector, bytes)
                          : floppy_write(cylinder, head, sector, bytes);
        if (is_good && is_read)
            machine_write(machine, at, bytes, sizeof bytes);
        at += FLOPPY_SECTOR_SIZE;
        sector = sector % FLOPPY_SECTORS + 1;
        head += sector == 1;
        cylinder += head == FLOPPY_HEADS;
        head %= FLOPPY_HEADS;
    }
    answer_disk(machine, done == wanted ? 0 : 4, done);
}

static void tell_form(struct machine *machine)
{
    machine_set_register(machine, UC_X86_REG_BX, 4);
    machine_set_register(machine, UC_X86_REG_CX,
                         (FLOPPY_CYLINDERS - 1) << 8 | FLOPPY_SECTORS);
    machine_set_register(machine, UC_X86_REG_DX, (FLOPPY_HEADS - 1) << 8 | 1);
    answer_disk(machine, 0, 0);
}

static void serve_disk(struct machine *machine)
{
    bool is_floppy = (DX(machine) & 0xFF) == 0;
    switch (is_floppy ? high(AX(machine)) : 0xFF) {
    case 0x00: answer_disk(machine, 0, 0); break;
    case 0x02: move_sectors(machine, true); break;
    case 0x03: move_sectors(machine, false); break;
    case 0x08: tell_form(machine); break;
    case 0x15: machine_set_register(machine, UC_X86_REG_AX, 0x0100); break;
    default: answer_disk(machine, 1, 0); break;
    }
}

/* Whether the processor is to come again. */
static bool serve_keyboard(struct machine *machine)
{
    uint8_t function = high(AX(machine));
    bool is_taken = (function & 0x0F) == 0, is_asked = (function & 0x0F) == 1;
    uint16_t key = is_taken || is_asked ? window_key(is_taken) : 0;
    if (is_taken && !key)
        return true;
    if (is_asked)
        machine_give_flag(machine, ZERO, key == 0);
    if (key || !is_asked)
        machine_set_register(machine, UC_X86_REG_AX, key);
    return false;
}

static void serve_clock(struct machine *machine)
{
    uint8_t ticks[4];
    if (high(AX(machine)) != 0) {
        machine_give_flag(machine, CARRY, true);
        return;
    }
    machine_read(machine, TICKS, ticks, sizeof ticks);
    machine_set_register(machine, UC_X86_REG_AX, 0);
    machine_set_register(machine, UC_X86_REG_CX, (uint16_t)(ticks[2] | ticks[3] << 8));
    machine_set_register(machine, UC_X86_REG_DX, (uint16_t)(ticks[0] | ticks[1] << 8));
}

static void count_tick(struct machine *machine)
{
    uint8_t ticks[4];
    machine_read(machine, TICKS, ticks, sizeof ticks);
    for (size_t i = 0; i < sizeof ticks && ++ticks[i] == 0; i++)
        ;
    machine_write(machine, TICKS, ticks, sizeof ticks);
}

bool bios_serve(struct machine *machine, unsigned number)
{
    switch (number) {
    case BIOS_TIMER: count_tick(machine); break;
    case BIOS_VIDEO: serve_video(machine); break;
    case 0x11: machine_set_register(machine, UC_X86_REG_AX, HAS_FLOPPY_AND_COLOUR); break;
    case 0x12: machine_set_register(machine, UC_X86_REG_AX, KILOBYTES); break;
    case 0x13: serve_disk(machine); break;
    case 0x15: answer_disk(machine, 0x86, 0); break;
    case BIOS_KEYBOARD: return serve_keyboard(machine);
    case 0x18:
    case 0x19: machine->is_off = true; break;
    case 0x1A: serve_clock(machine); break;
    default: break;
    }
    return false;
}
