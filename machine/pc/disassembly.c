/* Instructions as text without doing them: each is done on a copy of the processor, whose memory can't be written and
 * whose ports are not there.
 */
#include "machine.h"

FROM("host", "told") void host_told(u32 segment, u32 place, u32 text, u32 length);

/* No memory is plain where each segment begins so much higher. */
#define AWAY 0xC0000000u
enum { NOTHING = 0xFF, MOST_LINES = 200, RETURN = 0xCF, HALT = 0xF4 };
static x86emu_t kept;
static u32 code_bytes; /* of the instruction that is told */

static u32 byte_at(u32 place)
{
    return place < RAM_BYTES && !is_window(place) ? ram[place] : NOTHING;
}

static unsigned look(x86emu_t *emu, u32 place, u32 *value, unsigned type)
{
    unsigned bytes = 1u << (type & 3), kind = type & ~0xFFu;
    (void)emu;
    if (kind == X86EMU_MEMIO_W || kind == X86EMU_MEMIO_O) return 0;
    if (kind == X86EMU_MEMIO_X) code_bytes += bytes;
    *value = 0;
    for (unsigned i = 0; i < bytes; i++) {
        u32 byte = kind == X86EMU_MEMIO_I ? NOTHING : byte_at(place - AWAY + i);
        *value |= byte << 8 * i;
    }
    return 0;
}

/* An instruction at a place of a segment that begins at `base`; how many bytes it has. */
static u32 tell_one(u32 segment, u32 base, u32 offset)
{
    processor = kept;
    processor.memio = look;
    processor.code_check = 0;
    processor.intr = 0; /* what is only looked at lacks nothing */
    for (int i = 0; i < 8; i++) processor.x86.seg[i].base += AWAY;
    processor.x86.R_CS_BASE = base + AWAY;
    processor.x86.R_EIP = offset;
    processor.max_instr = processor.x86.R_TSC + 1;
    code_bytes = 0;
    x86emu_run(&processor, X86EMU_RUN_MAX_INSTR);
    u32 length = (u32)(processor.x86.disasm_ptr - processor.x86.disasm_buf);
    host_told(segment, offset, (u32)processor.x86.disasm_buf, length);
    return code_bytes ? code_bytes : 1;
}

/* Whether a stub of the BIOS ends with this instruction: what stands behind it is none. */
static int is_end(u32 base, u32 offset)
{
    u32 code = byte_at(base + offset);
    return base == STUBS && (code == RETURN || code == HALT);
}

/* Tells so many instructions from a place on, one after the other; of the BIOS those of one stub. */
SHOWN("disassemble") void disassemble(u32 segment, u32 offset, u32 count)
{
    u32 was_told = is_told, is_over = 0;
    kept = processor;
    is_told = 1;
    u32 base = segment == kept.x86.R_CS ? kept.x86.R_CS_BASE : segment << 4;
    for (u32 i = 0; i < count && i < MOST_LINES && !is_over; i++) {
        is_over = is_end(base, offset);
        offset += tell_one(segment, base, offset);
    }
    processor = kept;
    is_told = was_told;
}
