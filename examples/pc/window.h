/* Where frames are shown, and where keys come from: window-sdl.c, or without one window-files.c.
 *
 * SPDX-License-Identifier: MIT
 */
#ifndef WINDOW_H
#define WINDOW_H

#include <stdbool.h>
#include <stdint.h>

/* What the words of the command line ask for. */
struct wishes {
    const char *pictures; /* a folder for frames that differ from the one before; NULL for none */
    const char *keys;     /* what is typed, as the machine asks for it; NULL for nothing */
};

bool window_open(const struct wishes *wishes);
void window_close(void);

/* Shows a frame, whose rows are `pitch` words apart. It ends at this time of the machine, in
 * nanoseconds. */
void window_show(const uint32_t *pixels, uint32_t width, uint32_t height, uint32_t pitch,
                 uint64_t time);

/* Whether the user has closed it. */
bool window_is_closed(void);

/* The key that is next: its scan code as the high byte, its character as the low one. 0 is none. */
uint16_t window_key(bool is_taken);

#endif
