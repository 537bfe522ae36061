#include <stdlib.h>
#include <string.h>

#include "zaklimot.h"

typedef uint8_t u8;
typedef int8_t s8;
typedef uint16_t u16;
typedef int16_t s16;
typedef uint32_t u32;
typedef int32_t s32;
typedef uint64_t u64;
typedef int64_t s64;

/* Memory comes in pages, and at most 4 GiB of it. */
#define PAGE 65536u
#define MOST_PAGES 65536u
/* What memory_grow answers where there is no more. */
#define NO_PAGES 0xFFFFFFFFu

/* A module: the proved code's own memory, in which each of its addresses is a place, and its
 * globals. A card has one for itself, and a call with no card has one while it runs. */
typedef struct module {
    u8 *memory;
    u32 pages;
    MODULE_GLOBALS
    bool is_broken; /* a trap has ended a call, which answers ZAK_BROKEN */
    u8 *outside;    /* the caller's bytes that a call writes, at addresses from OUTSIDE on */
} module;

/* A call that gives many bytes copies them as its last work, in one piece. They go straight to the
 * caller's memory: there they have addresses that lie far above the module's own. */
#define OUTSIDE ((u64)1 << 48)

#if defined(__GNUC__)
#define NEVER(condition) __builtin_expect(!!(condition), 0)
#define IS_KNOWN(number) __builtin_constant_p(number)
/* What is called rarely stands apart, so that no caller saves a register for it at each call. */
#define APART __attribute__((noinline))
#else
#define NEVER(condition) (condition)
#define IS_KNOWN(number) 0
#define APART
#endif

/* With ZAKLIMOT_CHECKED the program ends at an access beside the memory, for tests. */
#if defined(ZAKLIMOT_CHECKED)
static u64 checked(module *self, u64 at, u64 len)
{
    u64 size = (u64)self->pages * PAGE;
    if (NEVER(len > size || at > size - len))
        abort();
    return at;
}
#define AT(at, len) (m + (size_t)checked(self, at, len))
#else
#define AT(at, len) (m + (size_t)(at))
#endif

/* In a module's memory the low byte of a number comes first, whatever the processor does. */
#if (defined(__BYTE_ORDER__) && __BYTE_ORDER__ == __ORDER_LITTLE_ENDIAN__) || defined(_WIN32)
#define LOW_BYTE_FIRST 1
#define NUMBER(bits)                                                                               \
    static inline u##bits number##bits(const u8 *at)                                               \
    {                                                                                              \
        u##bits value;                                                                             \
        memcpy(&value, at, sizeof value);                                                          \
        return value;                                                                              \
    }                                                                                              \
    static inline void put##bits(u8 *at, u##bits value)                                            \
    {                                                                                              \
        memcpy(at, &value, sizeof value);                                                          \
    }
#else
#define LOW_BYTE_FIRST 0
#define NUMBER(bits)                                                                               \
    static inline u##bits number##bits(const u8 *at)                                               \
    {                                                                                              \
        u64 value = 0;                                                                             \
        for (int i = bits / 8; i-- > 0;)                                                           \
            value = value << 8 | at[i];                                                            \
        return (u##bits)value;                                                                     \
    }                                                                                              \
    static inline void put##bits(u8 *at, u##bits value)                                            \
    {                                                                                              \
        u64 rest = value;                                                                          \
        for (int i = 0; i < bits / 8; i++, rest >>= 8)                                             \
            at[i] = (u8)rest;                                                                      \
    }
#endif
NUMBER(16)
NUMBER(32)
NUMBER(64)

/* The instructions that the generated code is made of. In each of its functions m is the memory. */
#define i32_load8_u(at) ((u32)*AT(at, 1))
#define i32_load8_s(at) ((u32)(s32)(s8)*AT(at, 1))
#define i32_load16_u(at) ((u32)number16(AT(at, 2)))
#define i32_load(at) number32(AT(at, 4))
#define i64_load8_u(at) ((u64)*AT(at, 1))
#define i64_load8_s(at) ((u64)(s64)(s8)*AT(at, 1))
#define i64_load16_u(at) ((u64)number16(AT(at, 2)))
#define i64_load32_u(at) ((u64)number32(AT(at, 4)))
#define i64_load(at) number64(AT(at, 8))
#define i32_store8(at, value) ((void)(*AT(at, 1) = (u8)(value)))
#define i32_store16(at, value) put16(AT(at, 2), (u16)(value))
#define i32_store(at, value) put32(AT(at, 4), value)
#define i64_store8(at, value) ((void)(*AT(at, 1) = (u8)(value)))
#define i64_store16(at, value) put16(AT(at, 2), (u16)(value))
#define i64_store32(at, value) put32(AT(at, 4), (u32)(value))
#define i64_store(at, value) put64(AT(at, 8), value)
#define memory_copy(to, from, len)                                                                 \
    ((void)(IS_KNOWN(len)                                                                          \
                ? memmove(AT(to, len), AT(from, len), (size_t)(len))                               \
                : memmove((to) >= OUTSIDE ? self->outside + (size_t)((to)-OUTSIDE) : AT(to, len),  \
                          AT(from, len), (size_t)(len))))
#define memory_fill(at, value, len) ((void)memset(AT(at, len), (int)(value), (size_t)(len)))
#if defined(__GNUC__)
#define I32_CTZ(x) ((x) == 0 ? 32u : (u32)__builtin_ctz(x))
#define I64_CTZ(x) ((x) == 0 ? 64u : (u64)__builtin_ctzll(x))
#else
static u64 I64_CTZ(u64 x)
{
    u64 count = 0;
    while (count < 64 && (x >> count & 1) == 0)
        count++;
    return count;
}

static u32 I32_CTZ(u32 x)
{
    return x == 0 ? 32u : (u32)I64_CTZ(x);
}
#endif

/* Makes the memory so many pages larger, and answers how many it had. */
static u32 memory_grow(module *self, u32 more)
{
    u32 had = self->pages;
    if (more > MOST_PAGES - had || (u64)(had + more) * PAGE > SIZE_MAX)
        return NO_PAGES;
    u8 *memory = realloc(self->memory, (size_t)(had + more) * PAGE);
    if (!memory)
        return NO_PAGES;
    memset(memory + (size_t)had * PAGE, 0, (size_t)more * PAGE);
    self->memory = memory;
    self->pages = had + more;
    return had;
}

/* What the module's calls of a single cycle end with, which stands below. */
static u8 told8(module *self, u32 place);
static u16 told16(module *self, u32 place);
static zak_status close_broken(zak_card *card);
