/* What libx86emu asks of a C library, and of those of its own parts that are not here. */
#include "x86emu_int.h"

void *memcpy(void *to, const void *from, size_t count)
{
    return __builtin_memcpy(to, from, count);
}

void *memset(void *to, int value, size_t count)
{
    return __builtin_memset(to, value, count);
}

void *memmove(void *to, const void *from, size_t count)
{
    return __builtin_memmove(to, from, count);
}

int memcmp(const void *one, const void *other, size_t count)
{
    const u8 *a = one, *b = other;
    for (size_t i = 0; i < count; i++) if (a[i] != b[i]) return a[i] < b[i] ? -1 : 1;
    return 0;
}

size_t strlen(const char *text)
{
    size_t length = 0;
    while (text[length]) length++;
    return length;
}

unsigned x86emu_clear_log(x86emu_t *emu, int flush)
{
    (void)emu, (void)flush;
    return 0;
}

unsigned x86emu_read_byte_noperm(x86emu_t *emu, unsigned place)
{
    u32 value = 0;
    emu->memio(emu, place, &value, X86EMU_MEMIO_R + X86EMU_MEMIO_8);
    return value;
}

void x86emu_dump(x86emu_t *emu, int what)
{
    (void)emu, (void)what;
}

void x86emu_reset_access_stats(x86emu_t *emu)
{
    (void)emu;
}
