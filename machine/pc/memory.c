/* Memory that isn't plain: the windows of the display, the BIOS, and what lies past its end. */
#include "machine.h"

u8 ram[RAM_BYTES] __attribute__((aligned(4096)));
u8 is_written[PARTS] __attribute__((aligned(4096)));
u32 high_bytes = HIGH_BYTES;
enum { NOTHING = 0xFF, BIOS_BEGIN = 0xC0000 };

/* Opens the 21st address line, or closes it: the processor then reaches the megabyte below in place of each odd one. */
void open_line(u32 is_open)
{
    high_bytes = is_open ? HIGH_BYTES : 0;
}

u32 is_line_open(void)
{
    return high_bytes != 0;
}

u32 read_byte(u32 place)
{
    if (is_window(place)) return display_get(place);
    return place < RAM_BYTES ? ram[place] : NOTHING;
}

void write_byte(u32 place, u32 value)
{
    if (is_window(place)) {
        display_put(place, value & 0xFF);
        return;
    }
    if (place >= RAM_BYTES || (place >= BIOS_BEGIN && place < HIGH_BEGIN)) return;
    ram[place] = (u8)value;
    mark(place, 1);
}

u32 read_word(u32 place)
{
    if (is_window(place) && is_window(place + 1)) return display_get_word(place);
    return read_byte(place) | read_byte(place + 1) << 8;
}

void write_word(u32 place, u32 value)
{
    if (is_window(place) && is_window(place + 1)) {
        display_put_word(place, value & 0xFFFF);
        return;
    }
    write_byte(place, value);
    write_byte(place + 1, value >> 8);
}

void write_bytes(u32 place, const void *bytes, u32 count)
{
    for (u32 i = 0; i < count; i++) write_byte(place + i, ((const u8 *)bytes)[i]);
}

void write_text(u32 place, const char *text)
{
    write_bytes(place, text, (u32)strlen(text));
}

u32 place_of(u32 segment, u32 offset)
{
    return (segment << 4) + (offset & 0xFFFF);
}

/* A word of the stack, so many bytes above its top. */
u32 word_of_stack(u32 at)
{
    return read_word(place_of(SS, REG(SP) + at));
}

unsigned reach(x86emu_t *emu, u32 place, u32 *value, unsigned type)
{
    (void)emu;
    if (!high_bytes) place &= ~(u32)HIGH_BEGIN;
    switch (type) {
    case X86EMU_MEMIO_X + X86EMU_MEMIO_8:
    case X86EMU_MEMIO_R + X86EMU_MEMIO_8: *value = read_byte(place); break;
    case X86EMU_MEMIO_X + X86EMU_MEMIO_16:
    case X86EMU_MEMIO_R + X86EMU_MEMIO_16: *value = read_word(place); break;
    case X86EMU_MEMIO_X + X86EMU_MEMIO_32:
    case X86EMU_MEMIO_R + X86EMU_MEMIO_32: *value = read_word(place) | read_word(place + 2) << 16; break;
    case X86EMU_MEMIO_W + X86EMU_MEMIO_8: write_byte(place, *value); break;
    case X86EMU_MEMIO_W + X86EMU_MEMIO_16: write_word(place, *value); break;
    case X86EMU_MEMIO_W + X86EMU_MEMIO_32:
        write_word(place, *value);
        write_word(place + 2, *value >> 16);
        break;
    case X86EMU_MEMIO_I + X86EMU_MEMIO_8: *value = port_in(place & 0xFFFF); break;
    case X86EMU_MEMIO_I + X86EMU_MEMIO_16: *value = port_in_word(place & 0xFFFF); break;
    case X86EMU_MEMIO_I + X86EMU_MEMIO_32:
        *value = port_in_word(place & 0xFFFF) | port_in_word((place + 2) & 0xFFFF) << 16;
        break;
    case X86EMU_MEMIO_O + X86EMU_MEMIO_8: port_out(place & 0xFFFF, *value & 0xFF); break;
    case X86EMU_MEMIO_O + X86EMU_MEMIO_16: port_out_word(place & 0xFFFF, *value & 0xFFFF); break;
    case X86EMU_MEMIO_O + X86EMU_MEMIO_32:
        port_out_word(place & 0xFFFF, *value & 0xFFFF);
        port_out_word((place + 2) & 0xFFFF, *value >> 16);
        break;
    default: *value = NOTHING; return 1;
    }
    return 0;
}

u32 reach_other(x86emu_t *emu, u32 place, u32 value, unsigned type)
{
    if (emu->memio == reach) reach(emu, place, &value, type);
    else emu->memio(emu, place, &value, type);
    return value;
}
