/* The clock and its memory, and interrupt 1A. Machine time begins at a date that is always the same, so that a run can
 * be done again.
 */
#include "machine.h"

enum { SECONDS = 0, MINUTES = 2, HOURS = 4, WEEKDAY = 6, DAY = 7, MONTH = 8, YEAR = 9, STATUS_A = 10, STATUS_B = 11,
       STATUS_D = 13, DISKETTES = 16, EQUIPMENT = 20, BASE_LOW = 21, BASE_HIGH = 22, EXTENDED_LOW = 23,
       EXTENDED_HIGH = 24, FOUND_LOW = 48, FOUND_HIGH = 49, CENTURY = 50 };
enum { TICKS_A_DAY = 0x1800B0, TICKS = BIOS_DATA + 0x6C, PASSED_MIDNIGHT = BIOS_DATA + 0x70, BASE_KIB = 640 };
#define NANOSECONDS 1000000000ull
static u8 picked;

void begin_cmos(void)
{
    picked = 0;
}

u32 ticks(void)
{
    return read_word(TICKS) | read_word(TICKS + 2) << 16;
}

static u32 decimal(u32 number)
{
    return number / 10 % 10 << 4 | number % 10;
}

/* The second of the day: the machine is switched on at noon. */
static u32 second_of_day(void)
{
    return (u32)((now() / NANOSECONDS + 43200) % 86400);
}

u32 cmos_in(u32 port)
{
    u32 second = second_of_day(), extended = (RAM_BYTES >> 10) - 1024;
    if (port == 0x70) return 0xFF;
    switch (picked) {
    case SECONDS: return decimal(second % 60);
    case MINUTES: return decimal(second / 60 % 60);
    case HOURS: return decimal(second / 3600);
    case WEEKDAY: return decimal(6);
    case DAY: return decimal(1);
    case MONTH: return decimal(7);
    case YEAR: return decimal(94);
    case CENTURY: return decimal(19);
    case STATUS_A: return 0x26;
    case STATUS_B: return 0x02; /* 24 hours, decimal digits */
    case STATUS_D: return 0x80;
    case DISKETTES: return has_drive(1) ? 0x44 : 0x40;
    case EQUIPMENT: return 0x21 | (has_drive(1) ? 0x40 : 0);
    case BASE_LOW: return BASE_KIB & 0xFF;
    case BASE_HIGH: return BASE_KIB >> 8;
    case EXTENDED_LOW: case FOUND_LOW: return extended & 0xFF;
    case EXTENDED_HIGH: case FOUND_HIGH: return extended >> 8;
    }
    return 0;
}

void cmos_out(u32 port, u32 value)
{
    /* What is written is not kept: no program here needs it. */
    if (port == 0x70) picked = value & 0x7F;
}

void clock_service(void)
{
    u32 second = second_of_day();
    give_flag(CARRY, 0);
    switch (AH) {
    case 0x00: {
        u32 passed = ticks();
        CX = (u16)(passed >> 16);
        DX = (u16)passed;
        AL = (u8)read_byte(PASSED_MIDNIGHT);
        write_byte(PASSED_MIDNIGHT, 0);
        break;
    }
    case 0x01:
        write_word(TICKS, DX);
        write_word(TICKS + 2, CX);
        break;
    case 0x02:
        CH = (u8)decimal(second / 3600);
        CL = (u8)decimal(second / 60 % 60);
        DH = (u8)decimal(second % 60);
        DL = 0;
        break;
    case 0x04:
        CX = 0x1994;
        DX = 0x0701;
        break;
    case 0x03: case 0x05: break;
    default: give_flag(CARRY, 1);
    }
}
