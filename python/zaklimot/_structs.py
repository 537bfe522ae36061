"""The structs of include/zaklimot.h, under the same names.

tests/test_header.py compares them with the header, field by field.
"""

from __future__ import annotations

import ctypes
from ctypes import Structure

U8, U16, U32, SIZE = ctypes.c_uint8, ctypes.c_uint16, ctypes.c_uint32, ctypes.c_size_t
BOOL = ctypes.c_bool

OPAQUE, ONCE = 1, 2

FONTS_SIZE = 9728
MOST_DOTS = 16_777_216
NEVER = 0xFFFF_FFFF
WIDEST, HIGHEST = 2304, 1024
MOST_RGB = 3 * WIDEST * HIGHEST
MOST_TABLE = 768
MOST_TEXT = 32_768
MOST_STATUS_TEXT, MOST_REASON_TEXT, MOST_MISTAKE_TEXT = 128, 160, 256
FIRST_STATE, MOST_STATE = 265_086, 7_342_974


class zak_card(Structure):
    _fields_ = [
        ("is_open", BOOL),
        ("owed", U32),
        ("line", U32 * 2),
        ("machine", ctypes.c_void_p),
    ]


class zak_timing(Structure):
    _fields_ = [
        ("to_frame", U32),
        ("to_display", U32),
        ("to_retrace", U32),
        ("line_dots", U32),
        ("frame_dots", U32),
        ("lines", U32),
        ("rate", U32),
        ("rate_divisor", U32),
    ]


class zak_size(Structure):
    _fields_ = [("width", U32), ("height", U32)]


class zak_picture(Structure):
    _fields_ = [("width", U32), ("height", U32), ("across", U32), ("down", U32)]


class zak_rows(Structure):
    _fields_ = [("first", U32), ("count", U32)]


class zak_palette(Structure):
    _fields_ = [("len", U32), ("colours", U32 * 256)]


class zak_scan_line(Structure):
    _fields_ = [("number", U32), ("width", U32), ("ends_frame", BOOL)]


class zak_source(Structure):
    _fields_ = [("len", SIZE), ("is_at_dx", BOOL)]


class zak_regs(Structure):
    _fields_ = [("ax", U16), ("bx", U16), ("cx", U16), ("dx", U16)]


class zak_registers(Structure):
    _fields_ = [
        ("misc", U8),
        ("seq_index", U8),
        ("seq", U8 * 5),
        ("crtc_index", U8),
        ("crtc", U8 * 25),
        ("gfx_index", U8),
        ("gfx", U8 * 9),
        ("attr_index", U8),
        ("attr_is_data", U8),
        ("attr", U8 * 21),
        ("dac_index", U8),
        ("dac_component", U8),
        ("dac_mask", U8),
        ("dac_waiting_red", U8),
        ("dac_waiting_green", U8),
    ]


class zak_colour(Structure):
    _fields_ = [("red", U8), ("green", U8), ("blue", U8)]


class zak_beam(Structure):
    _fields_ = [
        ("line", U16),
        ("character", U16),
        ("dot", U16),
        ("base", U16),
        ("scan", U16),
        ("rows", U16),
        ("frame", U8),
        ("half", U8),
        ("split", U8),
    ]


class zak_latches(Structure):
    _fields_ = [("plane", U8 * 4)]


class zak_bda(Structure):
    _fields_ = [
        ("columns", U16),
        ("size", U16),
        ("start", U16),
        ("cursor_places", U16 * 8),
        ("cursor_type", U16),
        ("crtc_address", U16),
        ("height", U16),
        ("mode", U8),
        ("page", U8),
        ("last_row", U8),
    ]


class zak_screen(Structure):
    _fields_ = [
        ("width", U32),
        ("height", U32),
        ("columns", U16),
        ("rows", U16),
        ("mode", U8),
        ("is_text", U8),
        ("page", U8),
        ("pages", U8),
    ]


class zak_cell(Structure):
    _fields_ = [("character", U8), ("attribute", U8)]


class zak_place(Structure):
    _fields_ = [("row", U8), ("column", U8)]


class zak_reason(Structure):
    _fields_ = [("status", U32), ("kind", U32), ("numbers", U32 * 5), ("is_high", BOOL)]


class zak_dot_source(Structure):
    _fields_ = [
        ("counter", U16),
        ("address", U16),
        ("glyph_address", U16),
        ("is_display", U8),
        ("panning", U8),
        ("dot", U8),
        ("bytes", U8 * 4),
        ("is_text", U8),
        ("character", U8),
        ("attribute", U8),
        ("map", U8),
        ("glyph_row", U8),
        ("is_cursor", U8),
        ("is_blinked_away", U8),
        ("is_underlined", U8),
        ("is_glyph_dot", U8),
        ("is_foreground", U8),
        ("has_palette", U8),
        ("nibble", U8),
        ("palette_register", U8),
        ("palette_value", U8),
        ("is_colour_select_wide", U8),
        ("middle", U8),
        ("high", U8),
        ("is_palette_shown", U8),
        ("number", U8),
        ("mask", U8),
        ("entry", U8),
        ("is_screen_off", U8),
        ("colour", zak_colour),
    ]


class zak_write_stages(Structure):
    _fields_ = [
        ("in_window", U16),
        ("offset", U16),
        ("write_mode", U8),
        ("rotated", U8),
        ("data", U8 * 4),
        ("combined", U8 * 4),
        ("mask", U8),
        ("planes", U8),
        ("before", U8 * 4),
        ("written", U8 * 4),
    ]


class zak_read_stages(Structure):
    _fields_ = [
        ("in_window", U16),
        ("offset", U16),
        ("loaded", U8 * 4),
        ("is_compare", U8),
        ("plane", U8),
        ("value", U8),
    ]


class zak_mistake(Structure):
    _fields_ = [("line", SIZE), ("start", SIZE), ("length", SIZE), ("kind", U32)]
