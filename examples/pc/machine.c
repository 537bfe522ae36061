/* A PC's processor, memory, ports and interrupts.
 *
 * Each vector points to an IRET of its own at F000:00nn, and before one of these is executed the
 * BIOS serves interrupt nn. So software may take a vector over, and call on what stood there. The
 * vectors of the timer and of the keyboard point to a few more instructions.
 *
 * SPDX-License-Identifier: MIT
 */
#include "machine.h"

#include <stdio.h>
#include <string.h>

#include "bios.h"
#include "window.h"

#define LOW_SIZE 0xA0000u
#define WINDOW 0xA0000u
#define WINDOW_SIZE 0x20000u
#define ROM 0xC0000u
#define HIGH_SIZE 0x40000u
#define STUBS 0xF0000u
#define STUB_SEGMENT 0xF000u
#define TIMER_STUB 0x100u
#define KEYBOARD_STUB 0x110u
#define KEYBOARD_WAITS 0x120u
#define BOOT_STUB 0x130u
#define BOOT_SECTOR 0x7C00u
#define SECTOR_SIZE 512u
#define IRET 0xCF

/* Nanoseconds of an instruction: the processor has six million a second. */
#define INSTRUCTION 160u
/* Nanoseconds between two interrupts of the timer, 65,536 of its clocks of 1,193,182 a second. */
#define TICK 54925402u
/* Nanoseconds that a processor which halts lets pass at once. */
#define PAUSE 100000u

/* Of the processor's flags: whether interrupts are taken. */
#define INTERRUPT_FLAG 0x0200u

/* The timer counts, and then calls what software may have hung behind it. */
static const uint8_t TIMER_CODE[] = {0x90, 0xCD, 0x1C, IRET};
/* nop; cmp byte cs:[KEYBOARD_WAITS], 0; jne to the nop; iret */
static const uint8_t KEYBOARD_CODE[] = {0x90, 0x2E, 0x80, 0x3E, 0x20, 0x01,
                                        0x00, 0x75, 0xF7, IRET};
/* call C000:0003; jmp 0000:7C00 */
static const uint8_t BOOT_CODE[] = {0x9A, 0x03, 0x00, 0x00, 0xC0, 0xEA, 0x00, 0x7C, 0x00, 0x00};

uint16_t machine_register(struct machine *machine, int which)
{
    uint16_t value = 0;
    uc_reg_read(machine->engine, which, &value);
    return value;
}

void machine_set_register(struct machine *machine, int which, uint16_t value)
{
    uc_reg_write(machine->engine, which, &value);
}

static bool is_in_window(uint32_t address)
{
    return address >= WINDOW && address - WINDOW < WINDOW_SIZE;
}

/* How many of so many bytes lie in the same memory as the first. */
static size_t bytes_alike(uint32_t address, size_t len)
{
    static const uint32_t ENDS[] = {WINDOW, ROM, ROM + HIGH_SIZE};
    for (size_t i = 0; i < sizeof ENDS / sizeof *ENDS; i++)
        if (address < ENDS[i])
            return len < ENDS[i] - address ? len : ENDS[i] - address;
    return len;
}

void machine_read(struct machine *machine, uint32_t address, void *bytes, size_t len)
{
    uint8_t *target = bytes;
    memset(target, 0xFF, len);
    while (len) {
        size_t part = bytes_alike(address, len);
        if (is_in_window(address))
            display_get_bytes(&machine->display, address, target, part);
        else
            uc_mem_read(machine->engine, address, target, part);
        address += (uint32_t)part;
        target += part;
        len -= part;
    }
}

void machine_write(struct machine *machine, uint32_t address, const void *bytes, size_t len)
{
    const uint8_t *source = bytes;
    while (len) {
        size_t part = bytes_alike(address, len);
        if (is_in_window(address))
            display_put_bytes(&machine->display, address, source, part);
        else
            uc_mem_write(machine->engine, address, source, part);
        address += (uint32_t)part;
        source += part;
        len -= part;
    }
}

void machine_write_word(struct machine *machine, uint32_t address, uint16_t value)
{
    uint8_t bytes[] = {(uint8_t)value, (uint8_t)(value >> 8)};
    machine_write(machine, address, bytes, sizeof bytes);
}

static uint16_t read_word(struct machine *machine, uint32_t address)
{
    uint8_t bytes[2];
    machine_read(machine, address, bytes, sizeof bytes);
    return (uint16_t)(bytes[0] | bytes[1] << 8);
}

uint32_t machine_address(uint16_t segment, uint16_t offset)
{
    return 16u * segment + offset;
}

void machine_give_flag(struct machine *machine, unsigned bit, bool value)
{
    uint32_t at = machine_address(machine_register(machine, UC_X86_REG_SS),
                                  (uint16_t)(machine_register(machine, UC_X86_REG_SP) + 4));
    uint16_t flags = read_word(machine, at), mask = (uint16_t)(1u << bit);
    machine_write_word(machine, at, value ? flags | mask : flags & (uint16_t)~mask);
}

static void push(struct machine *machine, uint16_t value)
{
    uint16_t top = (uint16_t)(machine_register(machine, UC_X86_REG_SP) - 2);
    machine_set_register(machine, UC_X86_REG_SP, top);
    machine_write_word(machine, machine_address(machine_register(machine, UC_X86_REG_SS), top),
                       value);
}

static uint32_t flags_of(struct machine *machine)
{
    uint32_t flags = 0;
    uc_reg_read(machine->engine, UC_X86_REG_EFLAGS, &flags);
    return flags;
}

/* What the processor does at an interrupt in real mode. */
static void interrupt(struct machine *machine, unsigned number)
{
    uint32_t flags = flags_of(machine);
    push(machine, (uint16_t)flags);
    push(machine, machine_register(machine, UC_X86_REG_CS));
    push(machine, machine_register(machine, UC_X86_REG_IP));
    flags &= ~INTERRUPT_FLAG;
    uc_reg_write(machine->engine, UC_X86_REG_EFLAGS, &flags);
    machine_set_register(machine, UC_X86_REG_CS, read_word(machine, 4 * number + 2));
    machine_set_register(machine, UC_X86_REG_IP, read_word(machine, 4 * number));
}

static void on_interrupt(uc_engine *engine, uint32_t number, void *given)
{
    (void)engine;
    interrupt(given, number);
}

/* What stands at these places is served before it is executed. */
static void serve(struct machine *machine, uint32_t stub)
{
    if (stub == TIMER_STUB)
        bios_serve(machine, BIOS_TIMER);
    else if (stub == KEYBOARD_STUB) {
        uint8_t waits = bios_serve(machine, BIOS_KEYBOARD);
        uc_mem_write(machine->engine, STUBS + KEYBOARD_WAITS, &waits, 1);
    } else if (stub < TIMER_STUB)
        bios_serve(machine, stub);
}

/* Lets time pass, and sees what comes with it. */
static void spend(struct machine *machine, uint32_t nanoseconds)
{
    display_spend(&machine->display, nanoseconds);
    if (machine->display.time >= machine->next_tick) {
        machine->next_tick += TICK;
        machine->is_tick_due = true;
    }
    if (window_is_closed() || machine->display.time >= machine->end)
        machine->is_off = true;
}

static bool takes_interrupts(struct machine *machine)
{
    return flags_of(machine) & INTERRUPT_FLAG;
}

static void on_instruction(uc_engine *engine, uint64_t address, uint32_t size, void *given)
{
    struct machine *machine = given;
    (void)size;
    machine->instructions++;
    spend(machine, INSTRUCTION);
    if (address >= STUBS && address < STUBS + BOOT_STUB)
        serve(machine, (uint32_t)(address - STUBS));
    if (machine->is_off || (machine->is_tick_due && takes_interrupts(machine))) {
        machine->is_stopped = true;
        uc_emu_stop(engine);
    }
}

static void on_out(uc_engine *engine, uint32_t port, int size, uint32_t value, void *given)
{
    static const char SHUTDOWN[] = "Shutdown";
    static size_t spelled;
    struct machine *machine = given;
    (void)engine;
    if (display_has_port((uint16_t)port))
        display_out(&machine->display, (uint16_t)port, size, value);
    /* The port at which software tells an emulator to end itself. */
    if (port == 0x8900) {
        spelled = (char)value == SHUTDOWN[spelled] ? spelled + 1 : 0;
        machine->is_off = spelled == sizeof SHUTDOWN - 1;
    }
}

static uint32_t on_in(uc_engine *engine, uint32_t port, int size, void *given)
{
    struct machine *machine = given;
    (void)engine;
    if (display_has_port((uint16_t)port))
        return display_in(&machine->display, (uint16_t)port, size);
    return 0xFFFFFFFFu;
}

static uint64_t on_read(uc_engine *engine, uint64_t offset, unsigned size, void *given)
{
    struct machine *machine = given;
    (void)engine;
    return display_get(&machine->display, (uint32_t)(WINDOW + offset), size);
}

static void on_write(uc_engine *engine, uint64_t offset, unsigned size, uint64_t value, void *given)
{
    struct machine *machine = given;
    (void)engine;
    display_put(&machine->display, (uint32_t)(WINDOW + offset), size, value);
}

static bool map_memory(struct machine *machine)
{
    uc_engine *engine = machine->engine;
    return uc_mem_map(engine, 0, LOW_SIZE, UC_PROT_ALL) == UC_ERR_OK &&
           uc_mem_map(engine, ROM, HIGH_SIZE, UC_PROT_ALL) == UC_ERR_OK &&
           uc_mmio_map(engine, WINDOW, WINDOW_SIZE, on_read, machine, on_write, machine) ==
               UC_ERR_OK;
}

static bool add_hooks(struct machine *machine)
{
    uc_engine *engine = machine->engine;
    uc_hook hook;
    uc_err error = uc_hook_add(engine, &hook, UC_HOOK_CODE, (void *)on_instruction, machine, 1, 0);
    error |= uc_hook_add(engine, &hook, UC_HOOK_INTR, (void *)on_interrupt, machine, 1, 0);
    error |= uc_hook_add(engine, &hook, UC_HOOK_INSN, (void *)on_out, machine, 1, 0,
                         UC_X86_INS_OUT);
    error |= uc_hook_add(engine, &hook, UC_HOOK_INSN, (void *)on_in, machine, 1, 0, UC_X86_INS_IN);
    return error == UC_ERR_OK;
}

static void set_vector(struct machine *machine, unsigned number, uint16_t offset)
{
    machine_write_word(machine, 4 * number, offset);
    machine_write_word(machine, 4 * number + 2, STUB_SEGMENT);
}

static void write_stubs(struct machine *machine)
{
    static const uint8_t CODE[] = {IRET};
    for (unsigned number = 0; number < 256; number++) {
        machine_write(machine, STUBS + number, CODE, 1);
        set_vector(machine, number, (uint16_t)number);
    }
    machine_write(machine, STUBS + TIMER_STUB, TIMER_CODE, sizeof TIMER_CODE);
    machine_write(machine, STUBS + KEYBOARD_STUB, KEYBOARD_CODE, sizeof KEYBOARD_CODE);
    machine_write(machine, STUBS + BOOT_STUB, BOOT_CODE, sizeof BOOT_CODE);
    set_vector(machine, BIOS_TIMER, TIMER_STUB);
    set_vector(machine, BIOS_KEYBOARD, KEYBOARD_STUB);
}

bool machine_open(struct machine *machine, const uint8_t *rom, size_t rom_len)
{
    machine->next_tick = TICK;
    machine->end = UINT64_MAX;
    if (uc_open(UC_ARCH_X86, UC_MODE_16, &machine->engine) != UC_ERR_OK)
        return false;
    if (!map_memory(machine) || !add_hooks(machine))
        return false;
    machine->has_rom = rom != NULL;
    if (rom)
        machine_write(machine, ROM, rom, rom_len);
    write_stubs(machine);
    bios_begin(machine);
    return true;
}

void machine_close(struct machine *machine)
{
    uc_close(machine->engine);
}

/* The processor halts until the timer's interrupt comes. Where it takes none, nothing wakes it. */
static void halt(struct machine *machine)
{
    if (!takes_interrupts(machine))
        machine->is_off = true;
    while (!machine->is_off && !machine->is_tick_due) {
        uint64_t rest = machine->next_tick - machine->display.time;
        spend(machine, rest < PAUSE ? (uint32_t)rest : PAUSE);
    }
}

static void begin(struct machine *machine, const uint8_t *boot_sector)
{
    uint32_t flags = flags_of(machine) | INTERRUPT_FLAG;
    machine_write(machine, BOOT_SECTOR, boot_sector, SECTOR_SIZE);
    uc_reg_write(machine->engine, UC_X86_REG_EFLAGS, &flags);
    machine_set_register(machine, UC_X86_REG_SP, BOOT_SECTOR);
    machine_set_register(machine, UC_X86_REG_CS, machine->has_rom ? STUB_SEGMENT : 0);
    machine_set_register(machine, UC_X86_REG_IP, machine->has_rom ? BOOT_STUB : BOOT_SECTOR);
}

void machine_run(struct machine *machine, const uint8_t *boot_sector)
{
    begin(machine, boot_sector);
    while (!machine->is_off) {
        uint32_t from = machine_address(machine_register(machine, UC_X86_REG_CS),
                                        machine_register(machine, UC_X86_REG_IP));
        machine->is_stopped = false;
        uc_err error = uc_emu_start(machine->engine, from, (uint64_t)-1, 0, 0);
        if (error != UC_ERR_OK) {
            fprintf(stderr, "pc: at %05X: %s\n", (unsigned)from, uc_strerror(error));
            return;
        }
        if (!machine->is_stopped)
            halt(machine);
        if (machine->is_tick_due && takes_interrupts(machine)) {
            machine->is_tick_due = false;
            interrupt(machine, BIOS_TIMER);
        }
    }
    display_settle(&machine->display);
}
