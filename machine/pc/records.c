/* What was done, as the host wants to read it: cycles of the display with the dots before each; and where it stops. */
#include "machine.h"

FROM("host", "told") void host_told(u32 segment, u32 place, u32 text, u32 length); /* an instruction's text */

enum { MOST_RECORDS = 1 << 20, MOST_WATCHES = 16, TOLD = 4096, REFUSED = 1 << 27, MOST_UNSEEN = 1 << 30 };
enum { TEXTS = 2, TIMES = 3, MICROSECOND = 1000 };

/* Dots before it; kind in bits 28 to 31, whether it was refused in bit 27, and address; value in bits 0 to 15, and the
 * code's segment; its offset. Of a call there are two: AX and BX, CX and DX, and the place as segment and offset in
 * one. page/machine/recording.js reads them. */
struct record {
    u32 dots, what, value, place;
};

/* How the host looks at the machine. The host sets all of it again when it has restored a snapshot. */
static struct record *records;
static u32 record_count, has_wrapped, is_recording, has_times, dots_before;
static u32 told_places[TOLD], told_sums[TOLD];
u32 is_told; /* whether each instruction makes its text: libx86emu's X86EMU_TELLS */

static u64 cycles;
static u64 stop_cycle = ~0ull;
static u32 watches[MOST_WATCHES], watch_count, stops_on_mode, stops_on_refusal;
static u32 refusals, is_refused; /* the cycle that is recorded next */

SHOWN("cycles") double cycles_done(void)
{
    return (double)cycles;
}

SHOWN("refusals") u32 refusals_seen(void)
{
    return refusals;
}

void begin_records(void)
{
    cycles = 0;
    refusals = 0;
}

/* Records from here on, in room for MOST_RECORDS that the host has made: with the instructions' text by TEXTS, with the
 * microsecond of each instead of its place by TIMES. */
SHOWN("set_recording") void set_recording(u32 how, u32 place)
{
    is_recording = how != 0;
    is_told = how == TEXTS;
    has_times = how == TIMES;
    records = (struct record *)place;
    record_count = has_wrapped = dots_before = 0;
    processor.x86.disasm_ptr = processor.x86.disasm_buf;
    memset(told_places, 0, sizeof told_places);
    memset(told_sums, 0, sizeof told_sums);
}

/* Whether somebody wants to know at which dot each cycle comes. */
int is_followed(void)
{
    return is_recording || processor.code_check;
}

SHOWN("record_count") u32 records_made(void)
{
    return record_count;
}

SHOWN("has_wrapped") u32 have_records_wrapped(void)
{
    return has_wrapped;
}

/* The dots after the last record. */
SHOWN("dots_due") u32 dots_due(void)
{
    return dots_before;
}

SHOWN("stop_at_cycle") void stop_at_cycle(double cycle)
{
    stop_cycle = cycle < 9e15 ? (u64)cycle : ~0ull;
}

/* Stops behind the instruction that next reaches a port or an address; none is left by clear_watches. */
SHOWN("watch") void watch(u32 address)
{
    if (watch_count < MOST_WATCHES) watches[watch_count++] = address;
}

SHOWN("clear_watches") void clear_watches(void)
{
    watch_count = stops_on_mode = stops_on_refusal = 0;
}

SHOWN("stop_on") void stop_on(u32 mode, u32 refusal)
{
    stops_on_mode = mode;
    stops_on_refusal = refusal;
}

void note_refusal(void)
{
    refusals++;
    is_refused = 1;
    if (stops_on_refusal) stop(AT_REFUSAL);
}

void note_mode(void)
{
    if (stops_on_mode) stop(AT_MODE);
}

/* Tells an instruction's text where it is another than was told of the place before. */
static void tell_instruction(u32 segment, u32 place)
{
    const char *text = processor.x86.disasm_buf;
    u32 length = (u32)(processor.x86.disasm_ptr - text), sum = length;
    u32 slot = (place ^ place >> 12 ^ segment) % TOLD;
    for (u32 i = 0; i < length; i++) sum = sum * 31 + (u8)text[i];
    if (told_places[slot] == place && told_sums[slot] == sum) return;
    told_places[slot] = place;
    told_sums[slot] = sum;
    host_told(segment, place, (u32)text, length);
}

static void add(struct record one)
{
    if (has_times) one.place = (u32)(now() / MICROSECOND);
    records[record_count] = one;
    dots_before = 0;
    if (++record_count < MOST_RECORDS) return;
    record_count = 0;
    has_wrapped = 1;
}

static int is_watched(enum record_kind kind, u32 address)
{
    int is_word = !(kind & 1);
    for (u32 i = 0; i < watch_count; i++) {
        if (watches[i] == address || (is_word && watches[i] == address + 1)) return 1;
    }
    return 0;
}

void record(enum record_kind kind, u32 address, u32 value)
{
    u32 was_refused = is_refused;
    is_refused = 0;
    cycles++;
    if (__builtin_expect(cycles >= stop_cycle, 0)) stop(AT_CYCLE);
    if (__builtin_expect(watch_count != 0, 0) && kind < RECORD_CALL && is_watched(kind, address)) stop(AT_WATCH);
    if (!is_recording) return;
    u32 place = processor.x86.saved_eip, segment = processor.x86.saved_cs;
    if (is_told) tell_instruction(segment, place);
    u32 what = (u32)kind << 28 | (was_refused ? REFUSED : 0) | address;
    add((struct record){dots_before, what, (value & 0xFFFF) | segment << 16, place});
}

/* How many cycles may pass that nobody looks at: none where the last one stopped the processor. */
u32 cycles_unseen(void)
{
    u64 left = stop_cycle > cycles ? stop_cycle - cycles - 1 : 0;
    int is_seen = is_recording || processor.code_check || (processor.x86.mode & _MODE_HALTED);
    return is_seen ? 0 : left < MOST_UNSEEN ? (u32)left : MOST_UNSEEN;
}

void pass_cycles(u32 count)
{
    cycles += count;
}

/* A call of interrupt 10: the place is that of the instruction that called. */
void record_call(u32 ax_bx, u32 cx_dx)
{
    u32 place = word_of_stack(2) << 16 | ((word_of_stack(0) - 2) & 0xFFFF);
    cycles += 2;
    if (cycles >= stop_cycle) stop(AT_CYCLE);
    if (!is_recording) return;
    add((struct record){dots_before, (u32)RECORD_CALL << 28, ax_bx, place});
    add((struct record){dots_before, (u32)RECORD_CALL << 28 | 1, cx_dx, place});
}

void record_dots(u32 dots)
{
    dots_before += dots;
}
