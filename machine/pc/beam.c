/* Time, and the dots that the display draws meanwhile.
 *
 * The adapter's clock tells when its frame ends and how many dots pass in a second. Dots are handed over before each
 * cycle that a picture or an answer hangs on.
 */
#include "machine.h"

FROM("adapter", "zak_advance") u32 zak_advance(u32 card, u32 dots);
FROM("adapter", "zak_clock") u32 zak_clock(u32 card, u32 room);
FROM("reads", "word") u32 room_word(u32 place);
FROM("reads", "in") u32 adapter_in(u32 card, u32 room, u32 port);
FROM("host", "frame") void host_frame(void); /* lets the dots of the frame pass that are left */

extern u32 card, room;
#define SECOND 1000000000ull
/* Where a zak_timing has its parts. */
enum { TO_FRAME = 0, TO_DISPLAY = 4, TO_RETRACE = 8, RATE = 24, RATE_DIVISOR = 28 };
/* A write of memory comes behind whole parts of so many dots of a frame: nobody sees that it is so few dots early.
 * Reads of ports and writes of registers see the beam at each dot. */
enum { GRAIN = 32 };

static u32 instruction_time = 160;
static u64 passed; /* beside the instructions' time */
static u64 settled_at, owed, dot_time; /* owed is in dots times dot_time */
static u32 rate, to_frame, frames;
static int is_clock_known;
/* When memory was reached last, or a register that says what later cycles do; until when it is known what is shown. */
static u64 memory_time, shown_until;
/* Dots of the frame until now, and until the first write in it that pictures hang on; NONE for none. */
enum { NONE = ~0u };
static u32 frame_dots, first_write;
/* What input status 1 answers for so many dots more: the adapter's clock tells when it changes. */
static u32 status_dots, status, status_port;

u64 now(void)
{
    return processor.x86.R_TSC * instruction_time + passed;
}

/* What takes so long ends the processor's quantum: instructions behind it wait until what is due has come. */
void pass(u64 nanoseconds)
{
    passed += nanoseconds;
    processor.max_instr = 1;
}

/* The instructions that fill so many nanoseconds, and a part of one. */
u64 instructions_in(u64 nanoseconds)
{
    return nanoseconds / instruction_time + 1;
}

/* A cycle of the display takes as long as an instruction. */
void pass_cycle(void)
{
    passed += instruction_time;
}

/* It comes from outside, as a key does. */
SHOWN("set_instruction_time") void set_instruction_time(u32 nanoseconds)
{
    note_input();
    passed = now() - processor.x86.R_TSC * nanoseconds;
    instruction_time = nanoseconds;
}

SHOWN("frames") u32 frames_ended(void)
{
    return frames;
}

SHOWN("first_write") u32 first_write_of_frame(void)
{
    return first_write;
}

/* A register is written, or the BIOS called; dots are handed over until now. */
void note_write(void)
{
    if (frame_dots < first_write) first_write = frame_dots;
}

void begin_time(void)
{
    passed = settled_at = owed = memory_time = 0;
    frames = frame_dots = 0;
    first_write = NONE;
    is_clock_known = 0;
    status_dots = 0;
    forget_shown();
}

/* What was known of the adapter's clock may be so no longer. */
void forget_clock(void)
{
    is_clock_known = 0;
    status_dots = 0;
}

/* What was known of what the beam shows may be so no longer. */
void forget_shown(void)
{
    shown_until = 0;
    forget_layout();
}

/* The dots until a time that the adapter has not drawn, times dot_time. */
static u64 due(u64 time)
{
    return owed + (time - settled_at) * rate;
}

/* Input status 1 is asked of the adapter once more: the read also turns the attribute controller to its index. */
void forget_status(void)
{
    status_dots = 0;
}

static void look_at_clock(void)
{
    zak_clock(card, room);
    to_frame = room_word(room + TO_FRAME);
    rate = room_word(room + RATE);
    dot_time = SECOND * room_word(room + RATE_DIVISOR);
    is_clock_known = 1;
}

static void end_frame(void)
{
    owed -= to_frame * dot_time;
    record_dots(to_frame);
    record(RECORD_FRAME, 0, 0);
    frames++;
    status_dots = 0;
    host_frame();
    look_at_clock();
    frame_dots = 0;
    first_write = NONE;
}

static void draw(u32 dots)
{
    zak_advance(card, dots);
    status_dots = status_dots > dots ? status_dots - dots : 0;
    owed -= dots * dot_time;
    to_frame -= dots;
    frame_dots += dots;
    record_dots(dots);
}

/* All frames that have ended until a time. */
static void pass_frames(u64 time)
{
    give_held();
    if (!is_clock_known) look_at_clock();
    owed += (time - settled_at) * rate;
    settled_at = time;
    while (owed >= to_frame * dot_time) end_frame();
}

/* Hands over the dots of the time since. */
void settle(void)
{
    pass_frames(now());
    if (owed >= dot_time) draw((u32)(owed / dot_time));
}

/* The same until a time, in whole parts of a frame; whether there was one. It hangs on nothing but that time. */
static int settle_parts(u64 time)
{
    u64 part = (GRAIN - frame_dots % GRAIN) * dot_time;
    if (is_clock_known && due(time) < part && due(time) < to_frame * dot_time) return 0;
    pass_frames(time);
    u32 dots = frame_dots + (u32)(owed / dot_time), whole = dots - dots % GRAIN;
    if (whole > frame_dots) draw(whole - frame_dots);
    return 1;
}

/* Amid a quantum: the display is what it was at the last cycle, however that came to it. */
void settle_amid(void)
{
    if (memory_time <= settled_at) return;
    settle_parts(memory_time);
    owed = due(memory_time);
    settled_at = memory_time;
}

/* Before a cycle that no dot hangs on, in this frame: a read of memory, or a write to a register that says what later
 * cycles do. Who follows each cycle gets the dots before it all the same. */
void settle_unseen(void)
{
    memory_time = now();
    if (is_followed() || !is_clock_known || due(memory_time) >= to_frame * dot_time) settle_parts(memory_time);
}

/* Before a write of so many bytes of memory. One that the beam does not come to is the same before its dots. */
void settle_write(u32 place, u32 bytes)
{
    u64 time = memory_time = now();
    if (is_followed()) {
        settle_parts(time);
        return;
    }
    if (time < shown_until && !is_shown(place, bytes)) return;
    if (settle_parts(time) && time >= shown_until) {
        u32 dots = look_at_shown(to_frame);
        u64 come = dots * dot_time;
        shown_until = dots && come > owed ? settled_at + (come - owed) / rate : 0;
    }
}

/* Input status 1, asked of the adapter where it may have changed. */
u32 read_status(u32 port)
{
    if (status_dots && status_port == port) return status;
    status = adapter_in(card, room, port);
    status_port = port;
    zak_clock(card, room);
    status_dots = smaller(room_word(room + TO_DISPLAY), room_word(room + TO_RETRACE));
    rate = room_word(room + RATE);
    to_frame = room_word(room + TO_FRAME);
    return status;
}

/* How many reads of input status 1 more answer what the last one did, if one comes in so many instructions and no
 * frame ends. */
u32 reads_alike(u32 instructions)
{
    u64 until = smaller(status_dots, to_frame) * dot_time, step = (instructions + 1ull) * instruction_time * rate;
    return until > owed ? (u32)((until - owed - 1) / step) : 0;
}

/* So many of such reads; the processor has done the instructions before the last one. */
void pass_reads(u32 reads)
{
    passed += (reads - 1ull) * instruction_time;
    settle();
    pass_cycle();
}
