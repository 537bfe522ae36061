/* The adapter as a PC's display. docs/LIBRARY.md tells why time is added up.
 *
 * SPDX-License-Identifier: MIT
 */
#include "display.h"

#include <string.h>

#include "window.h"

#define ALL_BITS 0xFFFFFFFFu
#define NANOSECONDS 1000000000u
/* Time between two frames that are shown. Frames of the modes end every 14.3 or 16.7 milliseconds;
 * but before the first mode is set they are of 90 dots. */
#define SHOWN_EVERY 14000000u

zak_status display_open(struct display *display, const uint8_t *fonts, size_t fonts_len)
{
    memset(display, 0, sizeof *display);
    return zak_open(&display->card, fonts, fonts_len);
}

void display_close(struct display *display)
{
    zak_close(&display->card);
}

bool display_has_port(uint16_t port)
{
    return port >= 0x3B0 && port <= 0x3DF;
}

/* Asks the clock how fast it is, and how many dots are left of the frame. */
static void look(struct display *display)
{
    zak_timing timing;
    zak_clock(&display->card, &timing);
    display->rate = timing.rate;
    display->dot = (uint64_t)NANOSECONDS * timing.rate_divisor;
    display->left = timing.to_frame;
    display->is_looked_at = true;
}

void display_spend(struct display *display, uint32_t nanoseconds)
{
    if (!display->is_looked_at)
        look(display);
    display->time += nanoseconds;
    display->owed += (uint64_t)nanoseconds * display->rate;
    if (display->owed >= display->left * display->dot)
        display_settle(display);
}

/* The frame ends. It is drawn only where it is shown. */
static void end_frame(struct display *display)
{
    zak_size size;
    if (display->time < display->next_shown) {
        zak_advance(&display->card, display->left);
        return;
    }
    display->next_shown = display->time + SHOWN_EVERY;
    display->frames++;
    if (zak_frame_xrgb(&display->card, &size, display->pixels, sizeof display->pixels / 4,
                       ZAK_WIDEST) == ZAK_OK)
        window_show(display->pixels, size.width, size.height, ZAK_WIDEST, display->time);
}

void display_settle(struct display *display)
{
    if (!display->is_looked_at)
        look(display);
    while (display->owed >= display->left * display->dot) {
        display->owed -= display->left * display->dot;
        end_frame(display);
        look(display);
    }
    uint32_t dots = (uint32_t)(display->owed / display->dot);
    zak_advance(&display->card, dots);
    display->owed -= dots * display->dot;
    display->left -= dots;
}

void display_look(struct display *display)
{
    display->is_looked_at = false;
}

/* A word of which one byte is refused does nothing: its bytes are then written by themselves. */
static void out_word(struct display *display, uint16_t port, uint16_t word)
{
    if (zak_out_word(&display->card, port, word) == ZAK_OK)
        return;
    zak_out(&display->card, port, (uint8_t)word);
    zak_out(&display->card, (uint16_t)(port + 1), (uint8_t)(word >> 8));
}

void display_out(struct display *display, uint16_t port, int bytes, uint32_t value)
{
    display_settle(display);
    if (bytes == 1)
        zak_out(&display->card, port, (uint8_t)value);
    for (int i = 0; i + 1 < bytes; i += 2)
        out_word(display, (uint16_t)(port + i), (uint16_t)(value >> 8 * i));
    display_look(display);
}

uint32_t display_in(struct display *display, uint16_t port, int bytes)
{
    uint32_t value = ALL_BITS;
    display_settle(display);
    for (int i = 0; i < bytes; i++) {
        uint8_t byte = 0xFF;
        zak_in(&display->card, (uint16_t)(port + i), &byte);
        value = (value & ~(0xFFu << 8 * i)) | (uint32_t)byte << 8 * i;
    }
    return value;
}

void display_put(struct display *display, uint32_t address, unsigned bytes, uint64_t value)
{
    uint8_t parts[sizeof value];
    for (unsigned i = 0; i < bytes; i++)
        parts[i] = (uint8_t)(value >> 8 * i);
    display_put_bytes(display, address, parts, bytes);
}

uint64_t display_get(struct display *display, uint32_t address, unsigned bytes)
{
    uint64_t value = 0;
    uint8_t parts[sizeof value];
    display_get_bytes(display, address, parts, bytes);
    for (unsigned i = 0; i < bytes; i++)
        value |= (uint64_t)parts[i] << 8 * i;
    return value;
}

void display_put_bytes(struct display *display, uint32_t address, const uint8_t *bytes, size_t len)
{
    size_t decoded;
    display_settle(display);
    zak_put_bytes(&display->card, address, bytes, len, false, &decoded);
}

void display_get_bytes(struct display *display, uint32_t address, uint8_t *bytes, size_t len)
{
    size_t decoded;
    display_settle(display);
    zak_get_bytes(&display->card, address, bytes, len, false, &decoded);
}
