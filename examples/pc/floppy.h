/* A floppy of 1.44 MB in a file.
 *
 * SPDX-License-Identifier: MIT
 */
#ifndef FLOPPY_H
#define FLOPPY_H

#include <stdbool.h>
#include <stdint.h>

#define FLOPPY_CYLINDERS 80u
#define FLOPPY_HEADS 2u
#define FLOPPY_SECTORS 18u
#define FLOPPY_SECTOR_SIZE 512u

bool floppy_open(const char *path);
void floppy_close(void);

/* Reads or writes a sector, 1 to 18 of a track; whether there is one. */
bool floppy_read(unsigned cylinder, unsigned head, unsigned sector, uint8_t *bytes);
bool floppy_write(unsigned cylinder, unsigned head, unsigned sector, const uint8_t *bytes);

#endif
