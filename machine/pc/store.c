/* Room for drives and files behind the machine's own memory. What is written there is marked, in parts of 4 KiB, so
 * that snapshots keep it as they keep memory.
 */
#include "machine.h"

enum { MOST_STORE = 160 << 20, STORE_PARTS = MOST_STORE >> PART_SHIFT };
static u8 is_store_written[STORE_PARTS] __attribute__((aligned(4096)));
static u32 store, store_used;

SHOWN("store_marks") u32 place_of_marks(void)
{
    return (u32)is_store_written;
}

SHOWN("store_used") u32 used_store(void)
{
    return store_used;
}

/* The host has made the module's memory so large that the store begins at a place behind all else. */
SHOWN("begin_store") void begin_store_at(u32 place)
{
    store = place;
    store_used = 0;
}

SHOWN("store_at") u8 *store_at(u32 place)
{
    return (u8 *)(store + place);
}

void begin_store(void)
{
    memset(is_store_written, 1, sizeof is_store_written);
}

/* A place in the store for so many bytes, at the begin of a part; 0xFFFFFFFF where there is no room, in the store or
 * in the module's memory. */
SHOWN("store_take") u32 store_take(u32 bytes)
{
    u32 parts = (bytes + (1 << PART_SHIFT) - 1) >> PART_SHIFT, place = store_used;
    u64 end = (u64)store + place + ((u64)parts << PART_SHIFT);
    if (parts > STORE_PARTS - (place >> PART_SHIFT)) return ~0u;
    u64 size = (u64)__builtin_wasm_memory_size(0) << 16;
    if (end > size && __builtin_wasm_memory_grow(0, (u32)((end - size + 0xFFFF) >> 16)) == (size_t)-1) return ~0u;
    store_used += parts << PART_SHIFT;
    memset(store_at(place), 0, (size_t)parts << PART_SHIFT);
    return place;
}

void store_write(u32 place, u32 offset, u32 value)
{
    *store_at(place + offset) = (u8)value;
    is_store_written[(place + offset) >> PART_SHIFT] = 1;
}
