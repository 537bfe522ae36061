/* The keyboard: its controller, whose bytes the host gives, the BIOS' buffer of keys, and interrupt 16. */
#include "machine.h"

enum { MOST_SCANS = 128, OUTPUT_FULL = 1, SYSTEM = 4, KEYBOARD_ENABLED = 0x10, ACKNOWLEDGED = 0xFA, PASSED_TEST = 0x55 };
enum commands { READ_BYTE = 0x20, WRITE_BYTE = 0x60, TEST = 0xAA, TEST_LINES = 0xAB, DISABLE = 0xAD, ENABLE = 0xAE,
                READ_OUTPUT = 0xD0, WRITE_OUTPUT = 0xD1, CLOSE_LINE = 0xDD, OPEN_LINE = 0xDF, RESET = 0xFE };
enum { NO_RESET = 1, LINE = 2 }; /* of the controller's output */
/* In the BIOS' data: shift keys, where keys are taken and put, and their room. */
enum { SHIFTS = BIOS_DATA + 0x17, TAKEN = BIOS_DATA + 0x1A, PUT = BIOS_DATA + 0x1C, FIRST = 0x1E, END = 0x3E };
enum { BYTE_TIME = 1000000 }; /* a byte of the keyboard takes a millisecond */
enum { EXTENDED = 0xE0 };
/* Questions whether a key waits: so many that are alike, each so many nanoseconds after the one before at most, and
 * what each further one takes. */
enum { MOST_POLLS = 256, POLL_GAP = 400000, POLL_TIME = 2000000 };

/* A byte of the keyboard, and the word that the BIOS makes of it: scan code and letter; 0 for none. */
struct scan {
    u8 byte;
    u16 word;
};
static struct scan scans[MOST_SCANS];
static u32 scans_put, scans_taken;
static struct scan output;
static u64 next_byte;
static u8 is_full, command, is_disabled;
/* The last question whether a key waits, and how many were alike. */
static struct poll {
    double cycles;
    u32 registers[16];
    u64 caller;
} poll;
static u64 poll_end;
static u32 polls;

void begin_keyboard(void)
{
    scans_put = scans_taken = 0;
    output = (struct scan){0, 0};
    next_byte = 0;
    is_full = command = is_disabled = 0;
    memset(&poll, 0, sizeof poll);
    poll_end = polls = 0;
    write_word(TAKEN, FIRST);
    write_word(PUT, FIRST);
    write_word(BIOS_DATA + 0x80, FIRST);
    write_word(BIOS_DATA + 0x82, END);
    write_byte(BIOS_DATA + 0x96, 0x10);
}

/* A byte of the keyboard comes; whether there is room for it. */
SHOWN("key") u32 key(u32 byte, u32 word)
{
    note_input();
    if (scans_put - scans_taken == MOST_SCANS) return 0;
    scans[scans_put++ % MOST_SCANS] = (struct scan){(u8)byte, (u16)word};
    return 1;
}

/* The controller takes the keyboard's next byte, when its last one was read. */
void send_scan(void)
{
    if (is_full || is_disabled || scans_taken == scans_put || now() < next_byte) return;
    output = scans[scans_taken++ % MOST_SCANS];
    is_full = 1;
    next_byte = now() + BYTE_TIME;
    raise_line(1);
}

static void answer(u32 byte)
{
    output = (struct scan){(u8)byte, 0};
    is_full = 1;
}

/* No key waits, and the program asks whether one does: by a function that was called from a place, or else by the
 * controller's port. If it asks over and over and does nothing else, it waits for a key: its registers are the same at
 * each question, and no cycle of the display lies between. The questions then take longer, so the host has less to do.
 * Whether this one does. */
static int pass_question(u32 caller)
{
    struct poll last = poll;
    memcpy(poll.registers, (const void *)registers(), sizeof poll.registers);
    poll.caller = caller;
    poll.cycles = cycles_done() - frames_ended();
    int is_alike = !memcmp(&poll, &last, sizeof poll) && now() - poll_end <= POLL_GAP;
    polls = is_alike ? polls + 1 : 0;
    if (polls >= MOST_POLLS) {
        u64 left = next_tick_time() - now();
        pass(left < POLL_TIME ? left : POLL_TIME);
        polls = MOST_POLLS;
    }
    poll_end = now();
    return polls == MOST_POLLS;
}

void pass_poll(void)
{
    /* Interrupts may come meanwhile, or the key would not. */
    if (pass_question(word_of_stack(2) << 16 | word_of_stack(0))) processor.x86.R_FLG |= INTERRUPT;
}

u32 keyboard_in(u32 port)
{
    if (port == 0x64) {
        if (!is_full) pass_question(0);
        return SYSTEM | KEYBOARD_ENABLED | (is_full ? OUTPUT_FULL : 0);
    }
    is_full = 0;
    return output.byte;
}

static void put_out(u32 value)
{
    open_line(value & LINE);
    if (!(value & NO_RESET)) stop(RESTARTED);
}

static void take_command(u32 value)
{
    command = 0;
    switch (value) {
    case READ_BYTE: answer(0x45); break;
    case TEST: answer(PASSED_TEST); break;
    case TEST_LINES: answer(0); break;
    case DISABLE: is_disabled = 1; break;
    case ENABLE: is_disabled = 0; break;
    case READ_OUTPUT: answer(is_line_open() ? OPEN_LINE : CLOSE_LINE); break;
    case CLOSE_LINE: case OPEN_LINE: open_line(value & LINE); break;
    case WRITE_BYTE: case WRITE_OUTPUT: command = (u8)value; break;
    case RESET: stop(RESTARTED); break;
    }
}

void keyboard_out(u32 port, u32 value)
{
    if (port == 0x64) {
        take_command(value);
    } else if (command) {
        if (command == WRITE_OUTPUT) put_out(value);
        command = 0;
    } else {
        answer(ACKNOWLEDGED);
        raise_line(1);
    }
}

static u32 after(u32 place)
{
    return place + 2 == END ? FIRST : place + 2;
}

int has_key(void)
{
    return read_word(TAKEN) != read_word(PUT);
}

static u32 next_key(void)
{
    return read_word(BIOS_DATA + read_word(TAKEN));
}

u32 take_key(void)
{
    u32 word = next_key();
    write_word(TAKEN, after(read_word(TAKEN)));
    return word;
}

/* No key waits: a program may have moved the places so that taking one after the other comes to no end. */
void forget_keys(void)
{
    write_word(TAKEN, read_word(PUT));
}

static void put_key(u32 word)
{
    u32 place = read_word(PUT);
    if (after(place) == read_word(TAKEN)) return;
    write_word(BIOS_DATA + place, word);
    write_word(PUT, after(place));
}

/* The bit of the shift keys that a scan code sets and clears. */
static u32 shift_bit(u32 scan)
{
    switch (scan) {
    case 0x36: return 0x01;
    case 0x2A: return 0x02;
    case 0x1D: return 0x04;
    case 0x38: return 0x08;
    }
    return 0;
}

/* What the BIOS does with the byte that was read. */
void keyboard_interrupt(void)
{
    u32 bit = shift_bit(output.byte & 0x7F), shifts = read_byte(SHIFTS);
    if (output.byte == 0x3A) write_byte(SHIFTS, shifts ^ 0x40);
    else if (bit) write_byte(SHIFTS, output.byte & 0x80 ? shifts & ~bit : shifts | bit);
    if (output.word) put_key(output.word);
}

/* A key as the old functions tell it: keys that an old keyboard lacks look like those that it has. */
static u32 told(u32 word, int is_new)
{
    return !is_new && (word & 0xFF) == EXTENDED && word >> 8 ? word & 0xFF00 : word;
}

void keyboard_service(void)
{
    int is_new = AH >> 4 == 1;
    switch (AH) {
    case 0x00: case 0x10:
        if (!has_key()) {
            wait_here();
            return;
        }
        AX = (u16)told(take_key(), is_new);
        break;
    case 0x01: case 0x11:
        give_flag(ZERO, !has_key());
        if (has_key()) AX = (u16)told(next_key(), is_new);
        else pass_poll();
        break;
    case 0x12:
        AL = (u8)read_byte(SHIFTS);
        /* The left Ctrl and Alt; of both keys the BIOS knows one. */
        AH = AL >> 2 & 3;
        break;
    case 0x02: AL = (u8)read_byte(SHIFTS); break;
    case 0x05:
        put_key(CX);
        AL = 0;
        break;
    }
}
