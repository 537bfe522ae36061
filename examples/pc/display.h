/* The adapter as a PC's display: cycles, time that passes, and frames that are shown.
 *
 * SPDX-License-Identifier: MIT
 */
#ifndef DISPLAY_H
#define DISPLAY_H

#include <stdbool.h>
#include <stddef.h>
#include <stdint.h>

#include "zaklimot.h"

struct display {
    zak_card card;
    uint64_t time;       /* nanoseconds since the machine was switched on */
    uint64_t owed;       /* time that the card is to be told of, in parts of a dot */
    uint64_t dot;        /* how many parts a dot has: a nanosecond has `rate` */
    uint32_t rate, left; /* dots of the frame under way */
    bool is_looked_at;   /* whether these three are those of the registers as they are */
    uint64_t next_shown; /* no frame is shown before this time */
    unsigned frames;     /* that were shown */
    uint32_t pixels[ZAK_WIDEST * ZAK_HIGHEST];
};

/* Opens the card with a font file. */
zak_status display_open(struct display *display, const uint8_t *fonts, size_t fonts_len);
void display_close(struct display *display);

/* Lets time pass, at most a millisecond; the card is told of it before its next cycle. */
void display_spend(struct display *display, uint32_t nanoseconds);

/* Tells the card of the time that has passed. The frames that end are shown, some 70 a second. */
void display_settle(struct display *display);

bool display_has_port(uint16_t port);

/* Cycles of 1, 2 or 4 bytes at a port or an address. What is refused is lost, and reads as 1. */
void display_out(struct display *display, uint16_t port, int bytes, uint32_t value);
uint32_t display_in(struct display *display, uint16_t port, int bytes);
void display_put(struct display *display, uint32_t address, unsigned bytes, uint64_t value);
uint64_t display_get(struct display *display, uint32_t address, unsigned bytes);

/* Cycles of many bytes, from the first address up. */
void display_put_bytes(struct display *display, uint32_t address, const uint8_t *bytes, size_t len);
void display_get_bytes(struct display *display, uint32_t address, uint8_t *bytes, size_t len);

/* Behind a call of the BIOS: the registers may be others. */
void display_look(struct display *display);

#endif
