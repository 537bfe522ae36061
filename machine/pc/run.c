/* How the machine begins, and how it goes on: quanta of machine time, in which the processor works until something
 * else is due. Both kinds of run end at the same places for the same keys, so a run can be done again.
 */
#include "machine.h"

enum { QUANTUM = 50000 }; /* nanoseconds */

x86emu_t processor;
static u64 model_registers[X86EMU_MSRS];
static u8 model_permissions[X86EMU_MSRS];
static enum stopped stopped;
static u8 is_waiting, is_halted;
/* The processor was stopped before it had done what it was to do. When the machine goes on it does that first, so a
 * run with stops does what a run without them does. */
static u8 is_amid;
static u64 work_end;
static u64 wake_time; /* when a wait for time ends; 0 where a key is waited for */

/* What the host wants to know of the machine. */
SHOWN("is_amid") u32 was_stopped_amid(void)
{
    return is_amid;
}

SHOWN("now") double now_shown(void)
{
    return (double)now();
}

SHOWN("instructions") double instructions(void)
{
    return (double)processor.x86.R_TSC;
}

SHOWN("stopped") u32 why_stopped(void)
{
    return stopped;
}

/* How many keys and places of the mouse have come. */
static u32 inputs;
SHOWN("inputs") u32 inputs_taken(void)
{
    return inputs;
}

void note_input(void)
{
    inputs++;
}

SHOWN("is_idle") u32 is_idle(void)
{
    return is_waiting || is_halted;
}

/* The processor's registers, for who looks at it: eight general ones, EIP, flags; six segments behind. */
static u32 shown_registers[16];
SHOWN("registers") u32 registers(void)
{
    const u32 found[] = {processor.x86.R_EAX, processor.x86.R_ECX, processor.x86.R_EDX, processor.x86.R_EBX,
                         processor.x86.R_ESP, processor.x86.R_EBP, processor.x86.R_ESI, processor.x86.R_EDI,
                         processor.x86.R_EIP, processor.x86.R_EFLG};
    memcpy(shown_registers, found, sizeof found);
    for (int i = 0; i < 6; i++) shown_registers[10 + i] = processor.x86.seg[i].sel;
    return (u32)shown_registers;
}

SHOWN("ram") u32 place_of_ram(void)
{
    return (u32)ram;
}

SHOWN("ram_bytes") u32 bytes_of_ram(void)
{
    return RAM_BYTES;
}

SHOWN("ram_marks") u32 place_of_ram_marks(void)
{
    return (u32)is_written;
}

/* Ends the processor's run behind the instruction under way. RUNS waits without an end. */
void stop(enum stopped why)
{
    if (why == RUNS) is_waiting = 1, wake_time = 0;
    else if (stopped == RUNS) stopped = why;
    x86emu_stop(&processor);
}

/* Whether so many nanoseconds are over since this was asked first; until then the stub waits, and asks again. */
int has_waited(u64 nanoseconds)
{
    u64 until = wake_time ? wake_time : now() + nanoseconds;
    wake_time = 0;
    if (now() >= until) return 1;
    wait_here();
    wake_time = until;
    return 0;
}

SHOWN("go_on") void go_on(void)
{
    if (stopped != ENDED && stopped != RESTARTED) stopped = RUNS;
}

/* Places of code at which the machine stops, each segment and offset in one. */
enum { MOST_PLACES = 16 };
static u32 places[MOST_PLACES], place_count, passed_place;

static int check_place(x86emu_t *emu)
{
    u32 place = (u32)emu->x86.R_CS << 16 | (emu->x86.R_EIP & 0xFFFF);
    if (place == passed_place) {
        passed_place = ~0u;
        return 0;
    }
    passed_place = ~0u;
    for (u32 i = 0; i < place_count; i++) {
        if (places[i] != place) continue;
        passed_place = place;
        stop(AT_PLACE);
        return 1;
    }
    return 0;
}

SHOWN("set_places") void clear_places(void)
{
    place_count = 0;
    passed_place = ~0u;
    processor.code_check = 0;
}

SHOWN("add_place") void add_place(u32 place)
{
    if (place_count < MOST_PLACES) places[place_count++] = place;
    processor.code_check = check_place;
}

/* Goes on at the instruction that comes next, even if the machine stops there. */
SHOWN("pass_place") void pass_place(void)
{
    passed_place = (u32)processor.x86.R_CS << 16 | (processor.x86.R_EIP & 0xFFFF);
}

static void no_register(x86emu_t *emu)
{
    (void)emu;
}

static void tell_processor(x86emu_t *emu)
{
    emu->x86.R_EAX = emu->x86.R_EBX = emu->x86.R_ECX = emu->x86.R_EDX = 0;
}

/* An instruction that the processor lacks is told to the host, whoever handles the fault: in protected mode no stub of
 * the BIOS does. One at the same place is told once. */
enum { LACKING = 6, COPROCESSOR = 7, FLAT = 0x100 }; /* a place past 64 KiB is an offset, and else segment and offset in one */
static u32 lacking_place;
int is_told_lacking(u32 place)
{
    return place == lacking_place;
}

static int tell_fault(x86emu_t *emu, u8 number, unsigned type)
{
    u32 is_flat = emu->x86.saved_eip > 0xFFFF;
    u32 place = is_flat ? emu->x86.saved_eip : (u32)emu->x86.saved_cs << 16 | emu->x86.saved_eip;
    if (number != LACKING || (type & 0xFF) != INTR_TYPE_FAULT || place == lacking_place) return 0;
    lacking_place = place;
    u32 is_coprocessors = (read_byte(emu->x86.R_CS_BASE + emu->x86.saved_eip) & 0xF8) == 0xD8;
    tell_host((is_coprocessors ? COPROCESSOR : LACKING) | (is_flat ? FLAT : 0), place);
    return 0;
}

static void begin_processor(void)
{
    lacking_place = 0;
    memset(&processor, 0, sizeof processor);
    memset(model_registers, 0, sizeof model_registers);
    processor.x86.msr = model_registers;
    processor.x86.msr_perm = model_permissions;
    processor.memio = reach;
    processor.rdmsr = processor.wrmsr = no_register;
    processor.cpuid = tell_processor;
    processor.intr = tell_fault;
    processor.x86.disasm_ptr = processor.x86.disasm_buf;
    processor.x86.R_EFLG = 2 | INTERRUPT;
    for (int i = 0; i < 8; i++) {
        processor.x86.seg[i].limit = 0xFFFF;
        processor.x86.seg[i].acc = 0x93;
    }
    processor.x86.R_CS_ACC = 0x9B;
    processor.x86.R_IDT_LIMIT = 0x3FF;
}

/* What is started: a program of DOS', or the first sector of a disk; and a video ROM before it. */
enum kind { PROGRAM = 0, BOOT = 1 };
static u32 kind, boot_drive, program_place, program_bytes, rom_place, rom_bytes;
enum { ROM = 0xC0000, MOST_ROM = 0x10000, ROM_STUB = 0x640, PROGRAM_SEGMENT = 0x1000, BOOT_PLACE = 0x7C00 };

void load_segments(u32 segment, u32 code, u32 offset, u32 stack)
{
    for (int i = 0; i < 4; i++) {
        x86emu_set_seg_register(&processor, processor.x86.seg + i, (u16)(i == R_CS_INDEX ? code : segment));
    }
    processor.x86.R_ESP = stack;
    processor.x86.R_EIP = offset;
    processor.x86.R_FLG |= INTERRUPT;
}

static u32 file_word(const u8 *file, u32 at)
{
    return at + 1 < program_bytes ? file[at] | file[at + 1] << 8 : 0;
}

/* A program with a head, "MZ": its code, moved to a segment, and where its segments are named. */
static void load_moved(const u8 *file)
{
    u32 head = file_word(file, 8) * 16, pages = file_word(file, 4), last = file_word(file, 2);
    u32 bytes = pages * 512 - (last ? 512 - last : 0), code = PROGRAM_SEGMENT + 16;
    if (bytes > program_bytes) bytes = program_bytes;
    if (bytes > head) write_bytes(code * 16, file + head, bytes - head);
    for (u32 i = 0, at = file_word(file, 24); i < file_word(file, 6); i++, at += 4) {
        u32 place = place_of(code + file_word(file, at + 2), file_word(file, at));
        write_word(place, read_word(place) + code);
    }
    load_segments(PROGRAM_SEGMENT, code + file_word(file, 22), file_word(file, 20), file_word(file, 16));
    x86emu_set_seg_register(&processor, processor.x86.R_SS_SEL, (u16)(code + file_word(file, 14)));
}

void set_transfer_place(u32 place);

/* The words behind a program's name, for it to read; the host has put them into memory. */
static char arguments[128];
SHOWN("arguments") u32 place_of_arguments(void)
{
    return (u32)arguments;
}

static void start_program(void)
{
    static const u8 PREFIX[] = {0xCD, 0x20};
    const u8 *file = store_at(program_place);
    u32 prefix = PROGRAM_SEGMENT * 16, environment = first_memory(PROGRAM_SEGMENT, 0x9FFF - PROGRAM_SEGMENT);
    u32 length = (u32)strlen(arguments);
    write_bytes(prefix, PREFIX, sizeof PREFIX);
    write_word(prefix + 2, 0x9FFF);
    write_word(prefix + 0x2C, environment);
    write_byte(prefix + 0x80, length);
    write_bytes(prefix + 0x81, arguments, length);
    write_byte(prefix + 0x81 + length, 13);
    write_bytes(environment * 16, "PATH=C:\\\0\0\1\0C:\\PROGRAM.COM", 27);
    set_transfer_place(PROGRAM_SEGMENT << 16 | 0x80);
    AX = 0;
    if (file_word(file, 0) == 0x5A4D || file_word(file, 0) == 0x4D5A) {
        load_moved(file);
        return;
    }
    write_bytes(prefix + 0x100, file, program_bytes > 0xFF00 ? 0xFF00 : program_bytes);
    load_segments(PROGRAM_SEGMENT, PROGRAM_SEGMENT, 0x100, 0xFFFE);
}

/* What was to be started begins, once a video ROM has. */
void start_software(void)
{
    if (kind == PROGRAM) {
        start_program();
        return;
    }
    write_bytes(BOOT_PLACE, store_at(program_place), program_bytes < 512 ? program_bytes : 512);
    load_segments(0, 0, BOOT_PLACE, BOOT_PLACE);
    DX = (u16)boot_drive;
}

void begin_machine(void)
{
    begin_processor();
    memset(ram, 0, sizeof ram);
    memset(is_written, 1, sizeof is_written);
    begin_time();
    begin_records();
    begin_interrupts();
    begin_timer();
    begin_bios();
    begin_keyboard();
    begin_mouse();
    begin_disks();
    begin_cmos();
    begin_dos();
    begin_memory();
    begin_store();
    clear_places();
    stopped = RUNS;
    is_waiting = is_halted = is_amid = 0;
    wake_time = 0;
    inputs = 0;
}

/* A ROM of a video BIOS in the store, which serves interrupt 10 then; no bytes for none. */
SHOWN("set_rom") void set_rom(u32 place, u32 bytes)
{
    rom_place = place;
    rom_bytes = bytes > MOST_ROM ? MOST_ROM : bytes;
}

/* Begins anew: with a program, or the first sector of a drive, whose bytes are in the store. `card` and `room` are in
 * the adapter's memory: an open card, and 128 bytes for what its calls tell. */
SHOWN("boot") void boot(u32 card, u32 room, u32 what, u32 drive, u32 place, u32 bytes)
{
    begin_display(card, room);
    begin_machine();
    kind = what;
    boot_drive = drive;
    program_place = place;
    program_bytes = bytes;
    if (!rom_bytes) {
        AX = 3;
        video();
        AX = 0;
        start_software();
        return;
    }
    memcpy(ram + ROM, store_at(rom_place), rom_bytes);
    load_segments(0x50, BIOS_SEGMENT, ROM_STUB, 0x1000);
}

static void skip_to(u64 time)
{
    if (time > now()) pass(time - now());
}

/* What comes by itself: the timer, the keyboard's bytes, and the interrupts of both. */
static void attend(void)
{
    while (now() >= next_tick_time()) tick();
    send_scan();
    if (deliver_interrupt()) is_halted = is_waiting = 0;
    if (is_waiting && (wake_time ? now() >= wake_time : has_key())) is_waiting = 0;
}

static u64 sooner(u64 one, u64 other)
{
    return one < other ? one : other;
}

static void run_processor(void)
{
    u32 ended = x86emu_run(&processor, X86EMU_RUN_MAX_INSTR) & X86EMU_RUN_MAX_INSTR;
    give_held();
    is_amid = !ended && stopped != RUNS && !is_waiting;
    if (!ended && stopped == RUNS && !is_waiting) is_halted = 1;
}

static void work(u64 end)
{
    if (!is_amid) work_end = end;
    while ((is_amid || now() < work_end) && stopped == RUNS) {
        if (!is_amid) {
            attend();
            u64 until = sooner(work_end, next_tick_time()), time = now();
            if (is_halted && !(processor.x86.R_FLG & INTERRUPT)) {
                stop(HALTED);
                continue;
            }
            if (is_waiting || is_halted) {
                skip_to(is_waiting && wake_time ? sooner(until, wake_time) : until);
                continue;
            }
            processor.max_instr = processor.x86.R_TSC + (until > time ? instructions_in(until - time) : 1);
        }
        run_processor();
    }
    if (is_amid) settle_amid();
    else settle();
}

/* The host may look now, or keep what is here. What the machine knows of the display's place hangs on how it was run
 * until here, and is looked at again. */
static u32 rest(void)
{
    forget_held();
    forget_shown();
    return stopped == RUNS;
}

static u64 next_quantum(void)
{
    return now() / QUANTUM * QUANTUM + QUANTUM;
}

/* Runs whole quanta until a time has come; whether it goes on. */
SHOWN("run") u32 run(double until)
{
    while ((is_amid || (double)now() < until) && stopped == RUNS) work(next_quantum());
    return rest();
}

/* Runs to the end of a frame, or until a time has come; whether it goes on. */
SHOWN("run_frame") u32 run_frame(double until)
{
    u32 frame = frames_ended();
    while ((double)now() < until && stopped == RUNS && frame == frames_ended()) work(next_quantum());
    return rest();
}
