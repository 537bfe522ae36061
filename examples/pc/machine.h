/* A PC: an x86 in real mode by Unicorn, memory, ports, interrupts, and the adapter as its display.
 *
 * SPDX-License-Identifier: MIT
 */
#ifndef MACHINE_H
#define MACHINE_H

#include <stdbool.h>
#include <stddef.h>
#include <stdint.h>
#include <unicorn/unicorn.h>

#include "display.h"

struct machine {
    uc_engine *engine;
    struct display display;
    bool has_rom;       /* a ROM serves interrupt 10, and not the library */
    bool is_off;
    bool is_stopped;    /* the machine stopped the processor, which did not halt */
    bool is_tick_due;   /* the timer's interrupt is to come */
    uint64_t next_tick; /* in nanoseconds since the machine was switched on */
    uint64_t end;       /* when it is switched off, in nanoseconds too */
    uint64_t instructions;
};

/* Makes a machine; `rom` is a video BIOS, or NULL where the library's is to serve. */
bool machine_open(struct machine *machine, const uint8_t *rom, size_t rom_len);
void machine_close(struct machine *machine);

/* Runs what the boot sector holds, until the machine is switched off. */
void machine_run(struct machine *machine, const uint8_t *boot_sector);

/* Registers and memory, for the BIOS. `which` is a number of Unicorn's, as UC_X86_REG_AX. */
uint16_t machine_register(struct machine *machine, int which);
void machine_set_register(struct machine *machine, int which, uint16_t value);
void machine_read(struct machine *machine, uint32_t address, void *bytes, size_t len);
void machine_write(struct machine *machine, uint32_t address, const void *bytes, size_t len);
void machine_write_word(struct machine *machine, uint32_t address, uint16_t value);

/* Where a segment and an offset point. */
uint32_t machine_address(uint16_t segment, uint16_t offset);

/* A flag of those that the interrupt under way gives back: carry is bit 0, zero is bit 6. */
void machine_give_flag(struct machine *machine, unsigned bit, bool value);

#endif
