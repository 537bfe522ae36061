/* The timer, 8254: counter 0 asks for interrupts, counter 2 is read by programs that measure time. Each counts down at
 * 1,193,182 Hz from its reload value, and begins again; counter 0 in mode 0 once.
 */
#include "machine.h"

enum { COUNTERS = 3, LATCH = 0, LOW = 1, HIGH = 2, BOTH = 3, READ_BACK = 3 };
enum { GATE = 1, DATA_ENABLE = 2, REFRESH = 0x10, OUTPUT = 0x20 };
#define PERIOD_NUMERATOR 838095345ull /* a count lasts 838.095345 nanoseconds */
#define PERIOD_DENOMINATOR 1000000ull

struct counter {
    u64 begun; /* when its count was at the reload value */
    u16 reload, latched;
    u8 access, mode, low, is_latched, reads_high, writes_high;
};
static struct counter counters[COUNTERS];
static u64 next_tick;
static u8 speaker, refresh;

static u32 counts_of(const struct counter *one)
{
    return one->reload ? one->reload : 0x10000;
}

static u64 time_of(u64 counts)
{
    return counts * PERIOD_NUMERATOR / PERIOD_DENOMINATOR;
}

static u32 count_of(const struct counter *one)
{
    u64 passed = (now() - one->begun) * PERIOD_DENOMINATOR / PERIOD_NUMERATOR;
    u32 counts = counts_of(one);
    /* A square wave counts by two. */
    if (one->mode == 3) passed *= 2;
    return (u32)(counts - passed % counts) & 0xFFFF;
}

void begin_timer(void)
{
    memset(counters, 0, sizeof counters);
    for (u32 i = 0; i < COUNTERS; i++) counters[i] = (struct counter){.access = BOTH, .mode = 3};
    next_tick = time_of(0x10000);
    speaker = refresh = 0;
}

u64 next_tick_time(void)
{
    return next_tick;
}

/* Counter 0 has come to its end. */
void tick(void)
{
    raise_line(0);
    counters[0].begun = next_tick;
    next_tick = counters[0].mode == 0 ? ~0ull : next_tick + time_of(counts_of(&counters[0]));
}

static void load(u32 number, u32 value)
{
    struct counter *one = &counters[number];
    one->reload = (u16)value;
    one->begun = now();
    if (number == 0) next_tick = one->begun + time_of(counts_of(one));
}

u32 timer_in(u32 port)
{
    struct counter *one = &counters[port - 0x40];
    u32 value = one->is_latched ? one->latched : count_of(one);
    int is_high = one->access == HIGH || (one->access == BOTH && one->reads_high);
    if (one->access == BOTH) one->reads_high ^= 1;
    if (!one->reads_high) one->is_latched = 0;
    return is_high ? value >> 8 : value & 0xFF;
}

static void latch(struct counter *one)
{
    if (one->is_latched) return;
    one->latched = (u16)count_of(one);
    one->is_latched = 1;
}

static void control(u32 value)
{
    u32 number = value >> 6, access = value >> 4 & 3;
    if (number == READ_BACK) {
        for (u32 i = 0; i < COUNTERS; i++) if (!(value & 0x20) && value >> (i + 1) & 1) latch(&counters[i]);
        return;
    }
    struct counter *one = &counters[number];
    if (access == LATCH) {
        latch(one);
        return;
    }
    one->access = (u8)access;
    one->mode = value >> 1 & 3;
    one->reads_high = one->writes_high = one->is_latched = 0;
}

void timer_out(u32 port, u32 value)
{
    if (port == 0x43) {
        control(value);
        return;
    }
    struct counter *one = &counters[port - 0x40];
    if (one->access == LOW) load(port - 0x40, value);
    else if (one->access == HIGH) load(port - 0x40, value << 8);
    else if (one->writes_high) load(port - 0x40, one->low | value << 8);
    else one->low = (u8)value;
    if (one->access == BOTH) one->writes_high ^= 1;
}

u32 speaker_in(void)
{
    const struct counter *one = &counters[2];
    u32 counts = counts_of(one);
    u64 passed = (now() - one->begun) * PERIOD_DENOMINATOR / PERIOD_NUMERATOR;
    int is_over = one->mode == 0 ? passed >= counts : passed % counts < counts / 2;
    refresh ^= REFRESH;
    return (speaker & (GATE | DATA_ENABLE)) | refresh | (is_over ? OUTPUT : 0);
}

void speaker_out(u32 value)
{
    if (value & ~speaker & GATE) counters[2].begun = now();
    speaker = (u8)value;
}
