/* The display: its cycles go to the proved adapter, and are recorded. */
#include "machine.h"

FROM("adapter", "zak_put") u32 zak_put(u32 card, u32 address, u32 value);
FROM("adapter", "zak_put_word") u32 zak_put_word(u32 card, u32 address, u32 value);
FROM("adapter", "zak_out") u32 zak_out(u32 card, u32 port, u32 value);
FROM("adapter", "zak_out_word") u32 zak_out_word(u32 card, u32 port, u32 value);
FROM("reads", "put_bytes") u32 adapter_put_bytes(u32 card, u32 room, u32 address, u32 count, u64 first, u64 second,
                                                 u64 third, u64 fourth);
FROM("reads", "get") u32 adapter_get(u32 card, u32 room, u32 address);
FROM("reads", "get_word") u32 adapter_get_word(u32 card, u32 room, u32 address);
FROM("reads", "in") u32 adapter_in(u32 card, u32 room, u32 port);
FROM("host", "video") void host_video(void); /* interrupt 10, by the registers and this memory */

enum { REFUSED = 0x10000 };
enum ports {
    FIRST_PORT = 0x3B0, PORTS = 0x30, MISCELLANEOUS = 0x3C2, SEQUENCER = 0x3C4, SEQUENCER_DATA = 0x3C5,
    DAC_MASK = 0x3C6, DAC_DATA = 0x3C9, GRAPHICS = 0x3CE, GRAPHICS_DATA = 0x3CF, ATTRIBUTES = 0x3C0,
    STATUS_COLOUR = 0x3DA, STATUS_MONO = 0x3BA
};
enum registers { MAP_MASK = 2, GRAPHICS_MODE = 5, MEMORY_MAP = 6 };
enum { CALL_TIME = 20 }; /* cycles that a call of the video BIOS takes */

u32 card, room; /* in the adapter's memory: the card, and room for what its calls tell */
u16 call_registers[8]; /* AX, BX, CX, DX, ES, BP, SI, DS: what the host gives interrupt 10, and takes from it */
/* The registers that the next writes of data reach, as far as writes of the index tell: the BIOS moves them too. */
static u8 sequencer_index, graphics_index;
enum { UNKNOWN = 0xFF };

/* Writes of memory that follow each other, up and without dots between, are one call of the adapter: they are held
 * until anything else reaches it. It takes them as single ones only if it decodes them all. That hangs on registers,
 * and is the same within a block of 32 KiB: the one of the last write that was taken. */
enum { MOST_HELD = 32, BLOCK_SHIFT = 15, NO_BLOCK = ~0u };
static u64 held[MOST_HELD / 8];
static u32 held_at, held_bytes, taken_block;

/* None is held, and which ones were is not kept: it depends on how the machine was looked at. */
void forget_held(void)
{
    memset(held, 0, sizeof held);
    held_at = held_bytes = 0;
}

void begin_display(u32 the_card, u32 the_room)
{
    card = the_card;
    room = the_room;
    sequencer_index = graphics_index = UNKNOWN;
    forget_held();
    taken_block = NO_BLOCK;
    begin_colours();
}

/* The adapter has all writes. */
void give_held(void)
{
    u32 bytes = held_bytes;
    held_bytes = 0;
    if (bytes == 2) zak_put_word(card, held_at, held[0] & 0xFFFF);
    else if (bytes == 1) zak_put(card, held_at, held[0] & 0xFF);
    else if (bytes) adapter_put_bytes(card, room, held_at, bytes, held[0], held[1], held[2], held[3]);
}

/* Whether a write is held. */
static int hold(u32 place, u32 value, u32 bytes)
{
    if (place >> BLOCK_SHIFT != taken_block || (place + bytes - 1) >> BLOCK_SHIFT != taken_block) return 0;
    if (place != held_at + held_bytes || held_bytes + bytes > MOST_HELD) give_held();
    if (!held_bytes) held_at = place;
    memcpy((u8 *)held + held_bytes, &value, bytes);
    held_bytes += bytes;
    return 1;
}

/* Makes a write at once; whether it is taken. */
static int give(u32 place, u32 value, u32 bytes)
{
    give_held();
    int is_refused = (bytes == 1 ? zak_put(card, place, value) : zak_put_word(card, place, value)) != 0;
    taken_block = is_refused ? NO_BLOCK : place >> BLOCK_SHIFT;
    return !is_refused;
}

SHOWN("call_registers") u32 place_of_call_registers(void)
{
    return (u32)call_registers;
}

int is_display_port(u32 port)
{
    return port - FIRST_PORT < PORTS;
}

int is_window(u32 place)
{
    return place - LOW_END < 0x20000;
}

static u32 answered(u32 answer)
{
    pass_cycle();
    if (answer & REFUSED) note_refusal();
    return answer & 0xFFFF;
}

u32 display_get(u32 place)
{
    settle_unseen();
    give_held();
    u32 value = answered(adapter_get(card, room, place)) & 0xFF;
    record(RECORD_GET, place, value);
    return value;
}

u32 display_get_word(u32 place)
{
    settle_unseen();
    give_held();
    u32 answer = adapter_get_word(card, room, place);
    if (answer & REFUSED) return display_get(place) | display_get(place + 1) << 8;
    u32 value = answered(answer);
    record(RECORD_GET_WORD, place, value);
    return value;
}

void display_put(u32 place, u32 value)
{
    settle_write(place, 1);
    if (!hold(place, value, 1) && !give(place, value, 1)) note_refusal();
    pass_cycle();
    record(RECORD_PUT, place, value);
}

void display_put_word(u32 place, u32 value)
{
    settle_write(place, 2);
    if (!hold(place, value, 2) && !give(place, value, 2)) {
        display_put(place, value & 0xFF);
        display_put(place + 1, value >> 8);
        return;
    }
    pass_cycle();
    record(RECORD_PUT_WORD, place, value);
}

u32 display_in(u32 port)
{
    settle();
    int is_status = port == STATUS_COLOUR || port == STATUS_MONO;
    u32 answer = is_status ? read_status(port) : adapter_in(card, room, port), value = answered(answer) & 0xFF;
    record(RECORD_IN, port, value);
    if (is_status && !(answer & REFUSED)) pass_wait(value);
    return value;
}

static int is_unseen_graphics(void)
{
    return graphics_index != GRAPHICS_MODE && graphics_index != MEMORY_MAP && graphics_index != UNKNOWN;
}

/* Whether a write changes only the way of later cycles, and no dot: an index, map mask, bit mask, set/reset .. */
static int is_unseen(u32 port, u32 value, int is_word)
{
    switch (port) {
    case GRAPHICS:
        graphics_index = value & 15;
        return !is_word || is_unseen_graphics();
    case GRAPHICS_DATA: return is_unseen_graphics();
    case SEQUENCER:
        sequencer_index = value & 7;
        return !is_word || sequencer_index == MAP_MASK;
    case SEQUENCER_DATA: return sequencer_index == MAP_MASK;
    }
    return 0;
}

/* Whether a write may change when frames end and how fast dots pass. */
static int moves_clock(u32 port)
{
    int is_controller = (port & ~0x60u) == 0x394 || (port & ~0x60u) == 0x395;
    return is_controller || port == MISCELLANEOUS || port == SEQUENCER || port == SEQUENCER_DATA;
}

static void settle_for(int is_unseen_write)
{
    forget_status();
    give_held();
    taken_block = NO_BLOCK;
    if (is_unseen_write) {
        settle_unseen();
        return;
    }
    settle();
    forget_shown();
    note_write();
}

void display_out(u32 port, u32 value)
{
    int is_quiet = is_unseen(port, value, 0);
    settle_for(is_quiet);
    if (zak_out(card, port, value)) note_refusal();
    pass_cycle();
    record(RECORD_OUT, port, value);
    if (!is_quiet && moves_clock(port)) forget_clock();
}

void display_out_word(u32 port, u32 value)
{
    int is_quiet = is_unseen(port, value, 1);
    settle_for(is_quiet);
    if (zak_out_word(card, port, value)) {
        display_out(port, value & 0xFF);
        display_out(port + 1, value >> 8);
        return;
    }
    pass_cycle();
    record(RECORD_OUT_WORD, port, value);
    if (!is_quiet) forget_clock();
}

/* Interrupt 10 by the adapter's own BIOS. The host keeps its block, where it has one. */
void video(void)
{
    settle();
    forget_shown();
    sequencer_index = graphics_index = UNKNOWN;
    taken_block = NO_BLOCK;
    note_write();
    u16 given[] = {AX, BX, CX, DX, ES, REG(BP), REG(SI), DS};
    memcpy(call_registers, given, sizeof given);
    int sets_mode = AH == 0;
    host_video();
    record_call((u32)given[0] << 16 | given[1], (u32)given[2] << 16 | given[3]);
    AX = call_registers[0];
    BX = call_registers[1];
    CX = call_registers[2];
    DX = call_registers[3];
    forget_clock();
    for (int i = 0; i < CALL_TIME; i++) pass_cycle();
    load_colours(given[0], given[1]);
    if (sets_mode) note_mode();
}
