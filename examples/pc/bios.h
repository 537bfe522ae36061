/* The services of a PC's BIOS.
 *
 * SPDX-License-Identifier: MIT
 */
#ifndef BIOS_H
#define BIOS_H

#include "machine.h"

/* Interrupts that have more than a service. */
#define BIOS_TIMER 0x08
#define BIOS_VIDEO 0x10
#define BIOS_KEYBOARD 0x16

/* Writes the BIOS data that software reads, and sets mode 3 where no ROM will. */
void bios_begin(struct machine *machine);

/* Serves an interrupt; whether it is to be asked again, since no key was pressed yet. */
bool bios_serve(struct machine *machine, unsigned number);

#endif
