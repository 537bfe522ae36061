/* How large each struct of the header is, and where its parts lie, as the proved side has them. It is
 * compiled as C and as C++. */
#include <assert.h>
#include <stddef.h>

#include "zaklimot.h"

#define LIES(type, part, at) \
    static_assert(offsetof(type, part) == (at), #type " has " #part " at " #at)
#define TAKES(type, bytes) static_assert(sizeof(type) == (bytes), #type " takes " #bytes)

TAKES(zak_status, 4);

TAKES(zak_card, 24);
LIES(zak_card, is_open, 0);
LIES(zak_card, owed, 4);
LIES(zak_card, line, 8);
LIES(zak_card, machine, 16);

TAKES(zak_size, 8);
LIES(zak_size, height, 4);

TAKES(zak_picture, 16);
LIES(zak_picture, height, 4);
LIES(zak_picture, across, 8);
LIES(zak_picture, down, 12);

TAKES(zak_rows, 8);
LIES(zak_rows, count, 4);

TAKES(zak_palette, 1028);
LIES(zak_palette, colours, 4);

TAKES(zak_scan_line, 12);
LIES(zak_scan_line, width, 4);
LIES(zak_scan_line, ends_frame, 8);

TAKES(zak_source, 16);
LIES(zak_source, is_at_dx, 8);

TAKES(zak_regs, 8);
LIES(zak_regs, bx, 2);
LIES(zak_regs, cx, 4);
LIES(zak_regs, dx, 6);

TAKES(zak_registers, 71);
LIES(zak_registers, seq_index, 1);
LIES(zak_registers, seq, 2);
LIES(zak_registers, crtc_index, 7);
LIES(zak_registers, crtc, 8);
LIES(zak_registers, gfx_index, 33);
LIES(zak_registers, gfx, 34);
LIES(zak_registers, attr_index, 43);
LIES(zak_registers, attr_is_data, 44);
LIES(zak_registers, attr, 45);
LIES(zak_registers, dac_index, 66);
LIES(zak_registers, dac_component, 67);
LIES(zak_registers, dac_mask, 68);
LIES(zak_registers, dac_waiting_red, 69);
LIES(zak_registers, dac_waiting_green, 70);

TAKES(zak_colour, 3);
LIES(zak_colour, green, 1);
LIES(zak_colour, blue, 2);

TAKES(zak_beam, 16);
LIES(zak_beam, character, 2);
LIES(zak_beam, dot, 4);
LIES(zak_beam, base, 6);
LIES(zak_beam, scan, 8);
LIES(zak_beam, rows, 10);
LIES(zak_beam, frame, 12);
LIES(zak_beam, half, 13);
LIES(zak_beam, split, 14);

TAKES(zak_timing, 32);
LIES(zak_timing, to_display, 4);
LIES(zak_timing, to_retrace, 8);
LIES(zak_timing, line_dots, 12);
LIES(zak_timing, frame_dots, 16);
LIES(zak_timing, lines, 20);
LIES(zak_timing, rate, 24);
LIES(zak_timing, rate_divisor, 28);

TAKES(zak_latches, 4);

TAKES(zak_bda, 32);
LIES(zak_bda, size, 2);
LIES(zak_bda, start, 4);
LIES(zak_bda, cursor_places, 6);
LIES(zak_bda, cursor_type, 22);
LIES(zak_bda, crtc_address, 24);
LIES(zak_bda, height, 26);
LIES(zak_bda, mode, 28);
LIES(zak_bda, page, 29);
LIES(zak_bda, last_row, 30);

TAKES(zak_screen, 16);
LIES(zak_screen, height, 4);
LIES(zak_screen, columns, 8);
LIES(zak_screen, rows, 10);
LIES(zak_screen, mode, 12);
LIES(zak_screen, is_text, 13);
LIES(zak_screen, page, 14);
LIES(zak_screen, pages, 15);

TAKES(zak_cell, 2);
LIES(zak_cell, attribute, 1);

TAKES(zak_place, 2);
LIES(zak_place, column, 1);

TAKES(zak_reason, 32);
LIES(zak_reason, kind, 4);
LIES(zak_reason, numbers, 8);
LIES(zak_reason, is_high, 28);

TAKES(zak_dot_source, 38);
LIES(zak_dot_source, address, 2);
LIES(zak_dot_source, glyph_address, 4);
LIES(zak_dot_source, is_display, 6);
LIES(zak_dot_source, panning, 7);
LIES(zak_dot_source, dot, 8);
LIES(zak_dot_source, bytes, 9);
LIES(zak_dot_source, is_text, 13);
LIES(zak_dot_source, character, 14);
LIES(zak_dot_source, attribute, 15);
LIES(zak_dot_source, map, 16);
LIES(zak_dot_source, glyph_row, 17);
LIES(zak_dot_source, is_cursor, 18);
LIES(zak_dot_source, is_blinked_away, 19);
LIES(zak_dot_source, is_underlined, 20);
LIES(zak_dot_source, is_glyph_dot, 21);
LIES(zak_dot_source, is_foreground, 22);
LIES(zak_dot_source, has_palette, 23);
LIES(zak_dot_source, nibble, 24);
LIES(zak_dot_source, palette_register, 25);
LIES(zak_dot_source, palette_value, 26);
LIES(zak_dot_source, is_colour_select_wide, 27);
LIES(zak_dot_source, middle, 28);
LIES(zak_dot_source, high, 29);
LIES(zak_dot_source, is_palette_shown, 30);
LIES(zak_dot_source, number, 31);
LIES(zak_dot_source, mask, 32);
LIES(zak_dot_source, entry, 33);
LIES(zak_dot_source, is_screen_off, 34);
LIES(zak_dot_source, colour, 35);

TAKES(zak_write_stages, 24);
LIES(zak_write_stages, offset, 2);
LIES(zak_write_stages, write_mode, 4);
LIES(zak_write_stages, rotated, 5);
LIES(zak_write_stages, data, 6);
LIES(zak_write_stages, combined, 10);
LIES(zak_write_stages, mask, 14);
LIES(zak_write_stages, planes, 15);
LIES(zak_write_stages, before, 16);
LIES(zak_write_stages, written, 20);

TAKES(zak_read_stages, 12);
LIES(zak_read_stages, offset, 2);
LIES(zak_read_stages, loaded, 4);
LIES(zak_read_stages, is_compare, 8);
LIES(zak_read_stages, plane, 9);
LIES(zak_read_stages, value, 10);

TAKES(zak_mistake, 32);
LIES(zak_mistake, start, 8);
LIES(zak_mistake, length, 16);
LIES(zak_mistake, kind, 24);
