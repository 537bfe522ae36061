/* Memory as the processor reaches it: included where libx86emu asks for memory (X86EMU_MEMORY).
 *
 * Plain memory is reached without a call, and parts that are written are marked. All else is the machine's: the
 * windows of the display, read-only memory, ports.
 */
#ifndef MACHINE_MEMORY_H
#define MACHINE_MEMORY_H

enum {
    RAM_BYTES = 16 << 20,
    PART_SHIFT = 12, /* memory is marked, and kept, in parts of 4 KiB */
    PARTS = RAM_BYTES >> PART_SHIFT,
    LOW_END = 0xA0000, /* the windows of the display begin */
    HIGH_BEGIN = 0x100000
};

extern u8 ram[RAM_BYTES], is_written[PARTS];
extern u32 is_told; /* whether each instruction makes its text (X86EMU_TELLS) */
/* How much memory from HIGH_BEGIN on is plain: none while the 21st address line is closed. */
extern u32 high_bytes;
enum { HIGH_BYTES = RAM_BYTES - HIGH_BEGIN - 3 };

static inline __attribute__((always_inline)) int is_plain(u32 place)
{
    return place < LOW_END - 3 || place - HIGH_BEGIN < high_bytes;
}

static inline __attribute__((always_inline)) void mark(u32 place, u32 bytes)
{
    is_written[place >> PART_SHIFT] = is_written[(place + bytes - 1) >> PART_SHIFT] = 1;
}

/* What is not plain memory, by the machine; a value is written, or answered. A function of its own: so the instructions
 * that only reach plain memory need no room for a value whose place is told. */
u32 reach_other(x86emu_t *emu, u32 place, u32 value, unsigned type) __attribute__((noinline));

/* It never fails: what is not there answers as an open bus does. */
static inline __attribute__((always_inline)) unsigned decode_memio(x86emu_t *emu, u32 place, u32 *value, unsigned type)
{
    if (__builtin_expect(!is_plain(place), 0)) {
        *value = reach_other(emu, place, *value, type);
        return 0;
    }
    u8 *at = ram + place;
    switch (type) {
    case X86EMU_MEMIO_X + X86EMU_MEMIO_8:
    case X86EMU_MEMIO_R + X86EMU_MEMIO_8:
        *value = *at;
        return 0;
    case X86EMU_MEMIO_X + X86EMU_MEMIO_16:
    case X86EMU_MEMIO_R + X86EMU_MEMIO_16:
        *value = *(u16 *)at;
        return 0;
    case X86EMU_MEMIO_X + X86EMU_MEMIO_32:
    case X86EMU_MEMIO_R + X86EMU_MEMIO_32:
        *value = *(u32 *)at;
        return 0;
    case X86EMU_MEMIO_W + X86EMU_MEMIO_8:
        *at = (u8)*value;
        mark(place, 1);
        return 0;
    case X86EMU_MEMIO_W + X86EMU_MEMIO_16:
        *(u16 *)at = (u16)*value;
        mark(place, 2);
        return 0;
    case X86EMU_MEMIO_W + X86EMU_MEMIO_32:
        *(u32 *)at = *value;
        mark(place, 4);
        return 0;
    }
    *value = reach_other(emu, place, *value, type);
    return 0;
}
#define emu_memio decode_memio

#endif
