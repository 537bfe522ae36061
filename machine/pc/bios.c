/* The BIOS, but for the display's: what begins an interrupt, and interrupts 11, 12, 15, 18 to 1A. */
#include "machine.h"

FROM("host", "tell") void host_tell(u32 number, u32 value); /* the software asks for something that is missing */

enum { BASE_KIB = 640, TICKS = BIOS_DATA + 0x6C, MIDNIGHT = 0x1800B0, NOON = MIDNIGHT / 2 };
enum { EXTENDED_KIB = (RAM_BYTES >> 10) - 1024, MEMORY_MAP = 0x534D4150 };
enum { MOST_WORDS = 0x8000, WORD_TIME = 200 }; /* of a block that is moved; nanoseconds a word */
enum { STUB_BYTES = 4, TIMER_STUB = 0x600, KEYBOARD_STUB = 0x620, ROM_STUB = 0x640, DOS_STUB = 0x660,
       CONFIGURATION = 0x680, DATE = 0xFFF5, MODEL = 0xFFFE };

void tell_host(u32 number, u32 value)
{
    host_tell(number, value);
}

/* Sets or clears a flag of the caller's, which a stub's return takes from the stack. */
void give_flag(u32 flag, int is_set)
{
    u32 place = place_of(SS, REG(SP) + 4), flags = read_word(place);
    write_word(place, is_set ? flags | flag : flags & ~flag);
}

static void lay(u32 offset, const u8 *code, u32 count)
{
    memcpy(ram + STUBS + offset, code, count);
}

static void point(u32 number, u32 offset)
{
    write_word(4 * number, offset);
    write_word(4 * number + 2, BIOS_SEGMENT);
}

/* The stubs: each calls the machine by a port, and returns. */
static void lay_stubs(void)
{
    static const u8 STUB[] = {0xE6, 0xF1, 0xCF};
    /* out F1; int 1C; the end of the interrupt, and back */
    static const u8 TIMER[] = {0xE6, 0xF1, 0xCD, 0x1C, 0x50, 0xB0, 0x20, 0xE6, 0x20, 0x58, 0xCF};
    /* push ax; in al, 60; out F1; the end of the interrupt, and back */
    static const u8 KEYBOARD[] = {0x50, 0xE4, 0x60, 0xE6, 0xF1, 0xB0, 0x20, 0xE6, 0x20, 0x58, 0xCF};
    /* call C000:0003; mode 3, which a ROM leaves to the BIOS; out F2: the software begins */
    static const u8 ROM[] = {0x9A, 0x03, 0x00, 0x00, 0xC0, 0xB8, 0x03, 0x00, 0xCD, 0x10, 0xE6, 0xF2, 0xF4};
    /* out F1; then letter after letter by interrupt 10: out F3; jc 6; int 10; jmp F3; iret */
    static const u8 DOS[] = {0xE6, 0xF1, 0xE6, 0xF3, 0x72, 0x04, 0xCD, 0x10, 0xEB, 0xF8, 0xCF};
    /* An AT of the first date; it has a clock and two interrupt controllers, and asks nobody about its keys. */
    static const u8 ROM_TABLE[] = {8, 0, 0xFC, 1, 0, 0x60, 0, 0, 0, 0};
    for (u32 number = 0; number < 256; number++) {
        lay(STUB_BYTES * number, STUB, sizeof STUB);
        point(number, STUB_BYTES * number);
    }
    lay(TIMER_STUB, TIMER, sizeof TIMER);
    lay(KEYBOARD_STUB, KEYBOARD, sizeof KEYBOARD);
    lay(ROM_STUB, ROM, sizeof ROM);
    lay(DOS_STUB, DOS, sizeof DOS);
    lay(CONFIGURATION, ROM_TABLE, sizeof ROM_TABLE);
    lay(DATE, (const u8 *)"01/01/92", 8);
    ram[STUBS + MODEL] = 0xFC;
    point(0x08, TIMER_STUB);
    point(0x09, KEYBOARD_STUB);
    point(0x21, DOS_STUB);
}

void begin_bios(void)
{
    open_line(1);
    lay_stubs();
    write_word(BIOS_DATA + 0x13, BASE_KIB);
    write_word(TICKS, NOON & 0xFFFF);
    write_word(TICKS + 2, NOON >> 16);
}

/* The stub's instruction is done again once something has come; interrupts may come meanwhile. */
void wait_here(void)
{
    processor.x86.R_EIP = processor.x86.saved_eip;
    processor.x86.R_FLG |= INTERRUPT;
    stop(RUNS);
}

static void tell_memory_map(void)
{
    static const struct range {
        u32 from, bytes, kind;
    } RANGES[] = {{0, 0xA0000, 1}, {0xF0000, 0x10000, 2}, {HIGH_BEGIN, RAM_BYTES - HIGH_BEGIN, 1}};
    u32 which = processor.x86.R_EBX % 3, to = place_of(ES, REG(DI));
    const u32 words[] = {RANGES[which].from, 0, RANGES[which].bytes, 0, RANGES[which].kind};
    write_bytes(to, words, sizeof words);
    processor.x86.R_EAX = MEMORY_MAP;
    processor.x86.R_ECX = sizeof words;
    processor.x86.R_EBX = which == 2 ? 0 : which + 1;
    give_flag(CARRY, 0);
}

/* Moves words in all of memory, by two descriptors of a table at ES:SI. */
static void move_block(void)
{
    u32 table = place_of(ES, REG(SI)), bases[2];
    for (u32 i = 0; i < 2; i++) {
        u32 one = table + 0x10 + 8 * i;
        bases[i] = read_word(one + 2) | read_byte(one + 4) << 16 | read_byte(one + 7) << 24;
    }
    u32 count = CX < MOST_WORDS ? CX : MOST_WORDS;
    for (u32 i = 0; i < count; i++) write_word(bases[1] + 2 * i, read_word(bases[0] + 2 * i));
    pass((u64)count * WORD_TIME);
    AH = 0;
    give_flag(CARRY, 0);
    give_flag(ZERO, 1);
}

/* The 21st address line: closed, opened, how it is, and by what it can be changed: both the controller and port 92. */
static void address_line(void)
{
    switch (AL) {
    case 0: case 1: open_line(AL); break;
    case 2: AL = (u8)is_line_open(); break;
    case 3: BX = 3; break;
    }
}

static void system_service(void)
{
    if (AX == 0xE820 && processor.x86.R_EDX == MEMORY_MAP) {
        tell_memory_map();
        return;
    }
    give_flag(CARRY, 0);
    switch (AH) {
    case 0x24:
        if (AL > 3) break;
        AH = 0;
        address_line();
        return;
    case 0x86: has_waited(((u64)CX << 16 | DX) * 1000); return;
    case 0x87: move_block(); return;
    case 0x88: AX = EXTENDED_KIB; return;
    case 0xC0:
        processor.x86.R_BX = CONFIGURATION;
        x86emu_set_seg_register(&processor, processor.x86.R_ES_SEL, BIOS_SEGMENT);
        AH = 0;
        return;
    case 0xE8:
        if (AL != 0x01) break;
        AX = CX = EXTENDED_KIB;
        BX = DX = 0;
        return;
    }
    AH = 0x86;
    give_flag(CARRY, 1);
}

static void count_tick(void)
{
    u32 next = ticks() + 1;
    if (next >= MIDNIGHT) {
        next = 0;
        write_byte(BIOS_DATA + 0x70, 1);
    }
    write_word(TICKS, next & 0xFFFF);
    write_word(TICKS + 2, next >> 16);
}

static void fault(u32 number)
{
    u32 place = word_of_stack(2) << 16 | word_of_stack(0);
    if (number != 0x06 || !is_told_lacking(place)) tell_host(number, place);
    stop(ENDED);
}

/* What an interrupt does whose stub was reached. */
void serve(u32 number)
{
    switch (number) {
    case 0x00: case 0x06: case 0x0D: fault(number); break;
    case 0x08: count_tick(); break;
    case 0x09: keyboard_interrupt(); break;
    case 0x10: video(); break;
    case 0x11: AX = (u16)read_word(BIOS_DATA + 0x10); break;
    case 0x12: AX = BASE_KIB; break;
    case 0x13: disk_service(); break;
    case 0x15: system_service(); break;
    case 0x16: keyboard_service(); break;
    case 0x1A: clock_service(); break;
    case 0x18: case 0x19: stop(RESTARTED); break;
    case 0x20: case 0x27: dos_end(); break;
    case DOS_STUB / STUB_BYTES: dos(); break;
    case 0x33: mouse_service(); break;
    }
}
