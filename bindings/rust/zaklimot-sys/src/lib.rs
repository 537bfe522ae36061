//! The declarations of `zaklimot.h`, under the same names: a VGA display adapter with its video
//! BIOS, as a library. The crate `zaklimot` makes them safe.
//!
//! The header and `docs/LIBRARY.md` of the repository say what each call does, and what it requires
//! of its caller. `tests/header.rs` compares these declarations with the header.
#![no_std]
#![allow(non_camel_case_types, missing_docs)]
// The header writes its numbers without separators, and so does this crate.
#![allow(clippy::unreadable_literal)]

use core::ffi::c_void;

#[cfg(doctest)]
#[doc = include_str!("../README.md")]
struct Readme;

/// The kind of library that this crate was built with: `proved`, `portable`, or `unknown` if no
/// file beside the library says it.
pub const KIND: &str = match option_env!("ZAKLIMOT_KIND") {
    Some(kind) => kind,
    None => "unknown",
};

/// The status that a call returns.
pub type zak_status = u32;

/// `zak_card` of the header. It must be closed only once, so you can't copy it.
#[repr(C)]
#[derive(Debug)]
pub struct zak_card {
    pub is_open: bool,
    pub owed: u32,
    pub line: [u32; 2],
    pub machine: *mut c_void,
}

/// `zak_timing` of the header.
#[repr(C)]
#[derive(Clone, Copy, Debug, Default, PartialEq, Eq)]
pub struct zak_timing {
    pub to_frame: u32,
    pub to_display: u32,
    pub to_retrace: u32,
    pub line_dots: u32,
    pub frame_dots: u32,
    pub lines: u32,
    pub rate: u32,
    pub rate_divisor: u32,
}

/// `zak_picture` of the header.
#[repr(C)]
#[derive(Clone, Copy, Debug, Default, PartialEq, Eq)]
pub struct zak_picture {
    pub width: u32,
    pub height: u32,
    pub across: u32,
    pub down: u32,
}

/// `zak_rows` of the header.
#[repr(C)]
#[derive(Clone, Copy, Debug, Default, PartialEq, Eq)]
pub struct zak_rows {
    pub first: u32,
    pub count: u32,
}

/// `zak_palette` of the header.
#[repr(C)]
#[derive(Clone, Copy, Debug, PartialEq, Eq)]
pub struct zak_palette {
    pub len: u32,
    pub colours: [u32; 256],
}

impl Default for zak_palette {
    fn default() -> zak_palette {
        zak_palette { len: 0, colours: [0; 256] }
    }
}

/// `zak_scan_line` of the header.
#[repr(C)]
#[derive(Clone, Copy, Debug, Default, PartialEq, Eq)]
pub struct zak_scan_line {
    pub number: u32,
    pub width: u32,
    pub ends_frame: bool,
}

/// `zak_source` of the header.
#[repr(C)]
#[derive(Clone, Copy, Debug, Default, PartialEq, Eq)]
pub struct zak_source {
    pub len: usize,
    pub is_at_dx: bool,
}

/// `zak_size` of the header.
#[repr(C)]
#[derive(Clone, Copy, Debug, Default, PartialEq, Eq)]
pub struct zak_size {
    pub width: u32,
    pub height: u32,
}

/// `zak_regs` of the header.
#[repr(C)]
#[derive(Clone, Copy, Debug, Default, PartialEq, Eq)]
pub struct zak_regs {
    pub ax: u16,
    pub bx: u16,
    pub cx: u16,
    pub dx: u16,
}

/// `zak_registers` of the header.
#[repr(C)]
#[derive(Clone, Copy, Debug, Default, PartialEq, Eq)]
pub struct zak_registers {
    pub misc: u8,
    pub seq_index: u8,
    pub seq: [u8; 5],
    pub crtc_index: u8,
    pub crtc: [u8; 25],
    pub gfx_index: u8,
    pub gfx: [u8; 9],
    pub attr_index: u8,
    pub attr_is_data: u8,
    pub attr: [u8; 21],
    pub dac_index: u8,
    pub dac_component: u8,
    pub dac_mask: u8,
    pub dac_waiting_red: u8,
    pub dac_waiting_green: u8,
}

/// `zak_colour` of the header.
#[repr(C)]
#[derive(Clone, Copy, Debug, Default, PartialEq, Eq)]
pub struct zak_colour {
    pub red: u8,
    pub green: u8,
    pub blue: u8,
}

/// `zak_beam` of the header.
#[repr(C)]
#[derive(Clone, Copy, Debug, Default, PartialEq, Eq)]
pub struct zak_beam {
    pub line: u16,
    pub character: u16,
    pub dot: u16,
    pub base: u16,
    pub scan: u16,
    pub rows: u16,
    pub frame: u8,
    pub half: u8,
    pub split: u8,
}

/// `zak_latches` of the header.
#[repr(C)]
#[derive(Clone, Copy, Debug, Default, PartialEq, Eq)]
pub struct zak_latches {
    pub plane: [u8; 4],
}

/// `zak_bda` of the header.
#[repr(C)]
#[derive(Clone, Copy, Debug, Default, PartialEq, Eq)]
pub struct zak_bda {
    pub columns: u16,
    pub size: u16,
    pub start: u16,
    pub cursor_places: [u16; 8],
    pub cursor_type: u16,
    pub crtc_address: u16,
    pub height: u16,
    pub mode: u8,
    pub page: u8,
    pub last_row: u8,
}

/// `zak_screen` of the header.
#[repr(C)]
#[derive(Clone, Copy, Debug, Default, PartialEq, Eq)]
pub struct zak_screen {
    pub width: u32,
    pub height: u32,
    pub columns: u16,
    pub rows: u16,
    pub mode: u8,
    pub is_text: u8,
    pub page: u8,
    pub pages: u8,
}

/// `zak_cell` of the header.
#[repr(C)]
#[derive(Clone, Copy, Debug, Default, PartialEq, Eq)]
pub struct zak_cell {
    pub character: u8,
    pub attribute: u8,
}

/// `zak_place` of the header.
#[repr(C)]
#[derive(Clone, Copy, Debug, Default, PartialEq, Eq)]
pub struct zak_place {
    pub row: u8,
    pub column: u8,
}

/// `zak_reason` of the header.
#[repr(C)]
#[derive(Clone, Copy, Debug, Default, PartialEq, Eq)]
pub struct zak_reason {
    pub status: u32,
    pub kind: u32,
    pub numbers: [u32; 5],
    pub is_high: bool,
}

/// `zak_dot_source` of the header.
#[repr(C)]
#[derive(Clone, Copy, Debug, Default, PartialEq, Eq)]
pub struct zak_dot_source {
    pub counter: u16,
    pub address: u16,
    pub glyph_address: u16,
    pub is_display: u8,
    pub panning: u8,
    pub dot: u8,
    pub bytes: [u8; 4],
    pub is_text: u8,
    pub character: u8,
    pub attribute: u8,
    pub map: u8,
    pub glyph_row: u8,
    pub is_cursor: u8,
    pub is_blinked_away: u8,
    pub is_underlined: u8,
    pub is_glyph_dot: u8,
    pub is_foreground: u8,
    pub has_palette: u8,
    pub nibble: u8,
    pub palette_register: u8,
    pub palette_value: u8,
    pub is_colour_select_wide: u8,
    pub middle: u8,
    pub high: u8,
    pub is_palette_shown: u8,
    pub number: u8,
    pub mask: u8,
    pub entry: u8,
    pub is_screen_off: u8,
    pub colour: zak_colour,
}

/// `zak_write_stages` of the header.
#[repr(C)]
#[derive(Clone, Copy, Debug, Default, PartialEq, Eq)]
pub struct zak_write_stages {
    pub in_window: u16,
    pub offset: u16,
    pub write_mode: u8,
    pub rotated: u8,
    pub data: [u8; 4],
    pub combined: [u8; 4],
    pub mask: u8,
    pub planes: u8,
    pub before: [u8; 4],
    pub written: [u8; 4],
}

/// `zak_read_stages` of the header.
#[repr(C)]
#[derive(Clone, Copy, Debug, Default, PartialEq, Eq)]
pub struct zak_read_stages {
    pub in_window: u16,
    pub offset: u16,
    pub loaded: [u8; 4],
    pub is_compare: u8,
    pub plane: u8,
    pub value: u8,
}

/// `zak_mistake` of the header.
#[repr(C)]
#[derive(Clone, Copy, Debug, Default, PartialEq, Eq)]
pub struct zak_mistake {
    pub line: usize,
    pub start: usize,
    pub length: usize,
    pub kind: u32,
}

pub const ZAK_OK: zak_status = 0;
pub const ZAK_NOT_DECODED: zak_status = 1;
pub const ZAK_NOT_IN_PROFILE: zak_status = 2;
pub const ZAK_NO_MODE: zak_status = 3;
pub const ZAK_BAD_FUNCTION: zak_status = 4;
pub const ZAK_BAD_MODE: zak_status = 5;
pub const ZAK_WRONG_KIND: zak_status = 6;
pub const ZAK_BAD_PAGE: zak_status = 7;
pub const ZAK_OUTSIDE: zak_status = 8;
pub const ZAK_COUNT_PAST: zak_status = 9;
pub const ZAK_BAD_REGISTER: zak_status = 10;
pub const ZAK_BAD_BLOCK: zak_status = 11;
pub const ZAK_TOO_FAR: zak_status = 12;
pub const ZAK_BAD_HEIGHT: zak_status = 13;
pub const ZAK_NO_CARD: zak_status = 20;
pub const ZAK_OPEN_ALREADY: zak_status = 21;
pub const ZAK_FONT_SIZE: zak_status = 22;
pub const ZAK_OUT_OF_MEMORY: zak_status = 23;
pub const ZAK_RAGGED: zak_status = 24;
pub const ZAK_NO_ROOM: zak_status = 25;
pub const ZAK_BAD_ARGUMENT: zak_status = 26;
pub const ZAK_BAD_CARD: zak_status = 27;
pub const ZAK_NO_SCREEN: zak_status = 28;
pub const ZAK_BROKEN: zak_status = 29;
pub const ZAK_STATE_MAGIC: zak_status = 30;
pub const ZAK_STATE_VERSION: zak_status = 31;
pub const ZAK_STATE_LENGTH: zak_status = 32;
pub const ZAK_STATE_PART: zak_status = 33;
pub const ZAK_STATE_CHECKSUM: zak_status = 34;
pub const ZAK_MANY_COLOURS: zak_status = 35;
pub const ZAK_NOT_REBUILT: zak_status = 36;
pub const ZAK_BAD_MAGIC: zak_status = 102;
pub const ZAK_BAD_VERSION: zak_status = 103;
pub const ZAK_BAD_STEP: zak_status = 104;
pub const ZAK_TRUNCATED: zak_status = 105;
pub const ZAK_TOO_LONG: zak_status = 106;
pub const ZAK_BAD_LINE: zak_status = 107;
pub const ZAK_TOO_MANY: zak_status = 111;
pub const ZAK_API_MAJOR: u32 = 1;
pub const ZAK_API_MINOR: u32 = 6;
pub const ZAK_API_VERSION: u32 = 65542;
pub const ZAK_FONTS_SIZE: u32 = 9728;
pub const ZAK_MOST_DOTS: u32 = 16777216;
pub const ZAK_NEVER: u32 = 4294967295;
pub const ZAK_WIDEST: u32 = 2304;
pub const ZAK_HIGHEST: u32 = 1024;
pub const ZAK_MOST_RGB: u32 = 7077888;
pub const ZAK_OPAQUE: u32 = 1;
pub const ZAK_ONCE: u32 = 2;
pub const ZAK_MOST_TABLE: u32 = 768;
pub const ZAK_MOST_TEXT: u32 = 32768;
pub const ZAK_MOST_STATUS_TEXT: u32 = 128;
pub const ZAK_MOST_REASON_TEXT: u32 = 160;
pub const ZAK_MOST_MISTAKE_TEXT: u32 = 256;
pub const ZAK_FIRST_STATE: u32 = 265086;
pub const ZAK_MOST_STATE: u32 = 7342974;
pub const ZAK_WHY_NO_PORT: u32 = 1;
pub const ZAK_WHY_OTHER_CRT_CONTROLLER: u32 = 2;
pub const ZAK_WHY_READ_ONLY: u32 = 3;
pub const ZAK_WHY_PORT_LEFT_OUT: u32 = 4;
pub const ZAK_WHY_NO_REGISTER: u32 = 5;
pub const ZAK_WHY_BIT_LEFT_OUT: u32 = 6;
pub const ZAK_WHY_FIELD_LEFT_OUT: u32 = 7;
pub const ZAK_WHY_MEMORY_OFF: u32 = 8;
pub const ZAK_WHY_OUTSIDE_WINDOW: u32 = 9;
pub const ZAK_WHY_LAST_PORT: u32 = 10;
pub const ZAK_WHY_LAST_ADDRESS: u32 = 11;
pub const ZAK_WHY_NO_MODE_SET: u32 = 12;
pub const ZAK_WHY_NO_SERVICE: u32 = 13;
pub const ZAK_WHY_NO_SUCH_MODE: u32 = 14;
pub const ZAK_WHY_NO_PIXELS: u32 = 15;
pub const ZAK_WHY_NO_CHARACTER_MAP: u32 = 16;
pub const ZAK_WHY_NO_PAGE: u32 = 17;
pub const ZAK_WHY_CURSOR_OUTSIDE: u32 = 18;
pub const ZAK_WHY_POSITION_OUTSIDE: u32 = 19;
pub const ZAK_WHY_PIXEL_OUTSIDE: u32 = 20;
pub const ZAK_WHY_CELLS_PAST: u32 = 21;
pub const ZAK_WHY_GLYPHS_PAST: u32 = 22;
pub const ZAK_WHY_NO_PALETTE_REGISTER: u32 = 23;
pub const ZAK_WHY_NO_BLINKING: u32 = 24;
pub const ZAK_WHY_NO_ENTRY: u32 = 25;
pub const ZAK_WHY_NO_ENTRIES: u32 = 26;
pub const ZAK_WHY_WRONG_BLOCK: u32 = 27;
pub const ZAK_WHY_NO_HEIGHT: u32 = 28;
pub const ZAK_WHY_TOO_MANY_DOTS: u32 = 29;
pub const ZAK_WHY_NO_CELLS_YET: u32 = 30;
pub const ZAK_WHY_NO_CELLS: u32 = 31;
pub const ZAK_GROUP_SEQUENCER: u32 = 0;
pub const ZAK_GROUP_GRAPHICS_CONTROLLER: u32 = 1;
pub const ZAK_GROUP_CRT_CONTROLLER: u32 = 2;
pub const ZAK_GROUP_ATTRIBUTE_CONTROLLER: u32 = 3;
pub const ZAK_PART_INPUT_STATUS_0: u32 = 0;
pub const ZAK_PART_SUBSYSTEM_ENABLE: u32 = 1;
pub const ZAK_PART_DAC_STATE: u32 = 2;
pub const ZAK_PART_FEATURE_CONTROL: u32 = 3;
pub const ZAK_MISTAKE_CHARACTER: u32 = 1;
pub const ZAK_MISTAKE_COMMENT: u32 = 2;
pub const ZAK_MISTAKE_STEP: u32 = 3;
pub const ZAK_MISTAKE_FORM: u32 = 4;
pub const ZAK_MISTAKE_NUMBER: u32 = 5;
pub const ZAK_MISTAKE_SHOW: u32 = 6;
pub const ZAK_MISTAKE_CALL: u32 = 7;
pub const ZAK_MISTAKE_BLOCK: u32 = 8;
pub const ZAK_MISTAKE_ORDER: u32 = 9;
pub const ZAK_MISTAKE_UNKNOWN: u32 = 10;
pub const ZAK_MISTAKE_LONG_TEXT: u32 = 11;
pub const ZAK_MISTAKE_LONG_SCRIPT: u32 = 12;
extern "C" {
    pub fn zak_version() -> u32;
    pub fn zak_status_text(
        status: zak_status,
        text: *mut u8,
        text_cap: usize,
        text_len: *mut usize,
    ) -> zak_status;
    pub fn zak_open(card: *mut zak_card, fonts: *const u8, fonts_len: usize) -> zak_status;
    pub fn zak_close(card: *mut zak_card) -> zak_status;
    pub fn zak_out(card: *mut zak_card, port: u16, value: u8) -> zak_status;
    pub fn zak_out_word(card: *mut zak_card, port: u16, value: u16) -> zak_status;
    pub fn zak_in(card: *mut zak_card, port: u16, value: *mut u8) -> zak_status;
    pub fn zak_in_word(card: *mut zak_card, port: u16, value: *mut u16) -> zak_status;
    pub fn zak_put(card: *mut zak_card, address: u32, value: u8) -> zak_status;
    pub fn zak_put_word(card: *mut zak_card, address: u32, value: u16) -> zak_status;
    pub fn zak_get(card: *mut zak_card, address: u32, value: *mut u8) -> zak_status;
    pub fn zak_get_word(card: *mut zak_card, address: u32, value: *mut u16) -> zak_status;
    pub fn zak_put_bytes(
        card: *mut zak_card,
        address: u32,
        bytes: *const u8,
        len: usize,
        down: bool,
        decoded: *mut usize,
    ) -> zak_status;
    pub fn zak_fill_bytes(
        card: *mut zak_card,
        address: u32,
        value: u8,
        count: usize,
        down: bool,
        decoded: *mut usize,
    ) -> zak_status;
    pub fn zak_get_bytes(
        card: *mut zak_card,
        address: u32,
        bytes: *mut u8,
        len: usize,
        down: bool,
        decoded: *mut usize,
    ) -> zak_status;
    pub fn zak_move_bytes(
        card: *mut zak_card,
        from: u32,
        to: u32,
        count: usize,
        down: bool,
        decoded: *mut usize,
    ) -> zak_status;
    pub fn zak_advance(card: *mut zak_card, dots: u32) -> zak_status;
    pub fn zak_clock(card: *mut zak_card, timing: *mut zak_timing) -> zak_status;
    pub fn zak_frame(
        card: *mut zak_card,
        size: *mut zak_size,
        rgb: *mut u8,
        rgb_cap: usize,
    ) -> zak_status;
    pub fn zak_frame_xrgb(
        card: *mut zak_card,
        size: *mut zak_size,
        pixels: *mut u32,
        pixels_cap: usize,
        pitch: usize,
    ) -> zak_status;
    pub fn zak_frame_words(
        card: *mut zak_card,
        flags: u32,
        picture: *mut zak_picture,
        pixels: *mut u32,
        pixels_cap: usize,
        pitch: usize,
    ) -> zak_status;
    pub fn zak_frame_update(
        card: *mut zak_card,
        flags: u32,
        picture: *mut zak_picture,
        pixels: *mut u32,
        pixels_cap: usize,
        pitch: usize,
        changed: *mut zak_rows,
    ) -> zak_status;
    pub fn zak_frame_indexed(
        card: *mut zak_card,
        size: *mut zak_size,
        palette: *mut zak_palette,
        numbers: *mut u8,
        numbers_cap: usize,
    ) -> zak_status;
    pub fn zak_line(
        card: *mut zak_card,
        flags: u32,
        line: *mut zak_scan_line,
        pixels: *mut u32,
        pixels_cap: usize,
    ) -> zak_status;
    pub fn zak_frame_lines(
        card: *mut zak_card,
        widths: *mut u32,
        rgb: *mut u8,
        rgb_cap: usize,
        rgb_used: *mut usize,
    ) -> zak_status;
    pub fn zak_skip_frame(card: *mut zak_card) -> zak_status;
    pub fn zak_peek(
        card: *mut zak_card,
        widths: *mut u32,
        rgb: *mut u8,
        rgb_cap: usize,
        rgb_used: *mut usize,
    ) -> zak_status;
    pub fn zak_block(
        card: *mut zak_card,
        regs: *const zak_regs,
        source: *mut zak_source,
    ) -> zak_status;
    pub fn zak_int10(
        card: *mut zak_card,
        regs: *mut zak_regs,
        block: *const u8,
        block_len: usize,
        table: *mut u8,
        table_cap: usize,
        table_len: *mut usize,
    ) -> zak_status;
    pub fn zak_cycles(
        card: *mut zak_card,
        regs: *const zak_regs,
        block: *const u8,
        block_len: usize,
        script: *mut u8,
        script_cap: usize,
        script_len: *mut usize,
    ) -> zak_status;
    pub fn zak_show_regs(
        card: *mut zak_card,
        text: *mut u8,
        text_cap: usize,
        text_len: *mut usize,
    ) -> zak_status;
    pub fn zak_show_beam(
        card: *mut zak_card,
        text: *mut u8,
        text_cap: usize,
        text_len: *mut usize,
    ) -> zak_status;
    pub fn zak_show_latches(
        card: *mut zak_card,
        text: *mut u8,
        text_cap: usize,
        text_len: *mut usize,
    ) -> zak_status;
    pub fn zak_show_bda(
        card: *mut zak_card,
        text: *mut u8,
        text_cap: usize,
        text_len: *mut usize,
    ) -> zak_status;
    pub fn zak_show_cells(
        card: *mut zak_card,
        text: *mut u8,
        text_cap: usize,
        text_len: *mut usize,
    ) -> zak_status;
    pub fn zak_show_dac(
        card: *mut zak_card,
        index: u8,
        text: *mut u8,
        text_cap: usize,
        text_len: *mut usize,
    ) -> zak_status;
    pub fn zak_show_plane(
        card: *mut zak_card,
        plane: u8,
        offset: u16,
        count: u16,
        text: *mut u8,
        text_cap: usize,
        text_len: *mut usize,
    ) -> zak_status;
    pub fn zak_read_registers(card: *mut zak_card, registers: *mut zak_registers) -> zak_status;
    pub fn zak_read_colour(card: *mut zak_card, index: u8, colour: *mut zak_colour) -> zak_status;
    pub fn zak_read_beam(card: *mut zak_card, beam: *mut zak_beam) -> zak_status;
    pub fn zak_read_latches(card: *mut zak_card, latches: *mut zak_latches) -> zak_status;
    pub fn zak_read_bda(card: *mut zak_card, bda: *mut zak_bda) -> zak_status;
    pub fn zak_read_plane(
        card: *mut zak_card,
        plane: u8,
        offset: u16,
        bytes: *mut u8,
        bytes_len: usize,
    ) -> zak_status;
    pub fn zak_screen_read(card: *mut zak_card, screen: *mut zak_screen) -> zak_status;
    pub fn zak_screen_cell(
        card: *mut zak_card,
        page: u8,
        row: u8,
        column: u8,
        cell: *mut zak_cell,
    ) -> zak_status;
    pub fn zak_screen_pixel(
        card: *mut zak_card,
        page: u8,
        x: u16,
        y: u16,
        pixel: *mut u8,
    ) -> zak_status;
    pub fn zak_screen_cursor(card: *mut zak_card, page: u8, place: *mut zak_place) -> zak_status;
    pub fn zak_save_size(card: *mut zak_card, len: *mut usize) -> zak_status;
    pub fn zak_save(
        card: *mut zak_card,
        bytes: *mut u8,
        bytes_cap: usize,
        len: *mut usize,
    ) -> zak_status;
    pub fn zak_restore(card: *mut zak_card, bytes: *const u8, bytes_len: usize) -> zak_status;
    pub fn zak_save_fixed(card: *mut zak_card, bytes: *mut u8, bytes_len: usize) -> zak_status;
    pub fn zak_restore_fixed(card: *mut zak_card, bytes: *const u8, bytes_len: usize)
        -> zak_status;
    pub fn zak_explain_step(
        card: *mut zak_card,
        script: *const u8,
        script_len: usize,
        step: u32,
        reason: *mut zak_reason,
        text: *mut u8,
        text_cap: usize,
        text_len: *mut usize,
        place: *mut usize,
    ) -> zak_status;
    pub fn zak_explain_dot(
        card: *mut zak_card,
        beam: *const zak_beam,
        source: *mut zak_dot_source,
    ) -> zak_status;
    pub fn zak_explain_put(
        card: *mut zak_card,
        address: u32,
        value: u8,
        stages: *mut zak_write_stages,
    ) -> zak_status;
    pub fn zak_explain_get(
        card: *mut zak_card,
        address: u32,
        stages: *mut zak_read_stages,
    ) -> zak_status;
    pub fn zak_rebuild(
        card: *mut zak_card,
        script: *mut u8,
        script_cap: usize,
        script_len: *mut usize,
        are_dots_other: *mut bool,
    ) -> zak_status;
    pub fn zak_run(
        script: *const u8,
        script_len: usize,
        fonts: *const u8,
        fonts_len: usize,
        report: *mut u8,
        report_cap: usize,
        report_len: *mut usize,
        place: *mut usize,
    ) -> zak_status;
    pub fn zak_run_on(
        card: *mut zak_card,
        script: *const u8,
        script_len: usize,
        first: u32,
        most: u32,
        report: *mut u8,
        report_cap: usize,
        report_len: *mut usize,
        taken: *mut usize,
        place: *mut usize,
    ) -> zak_status;
    pub fn zak_assemble(
        text: *const u8,
        text_len: usize,
        script: *mut u8,
        script_cap: usize,
        script_len: *mut usize,
        line: *mut usize,
    ) -> zak_status;
    pub fn zak_explain_text(
        text: *const u8,
        text_len: usize,
        mistake: *mut zak_mistake,
        sentence: *mut u8,
        sentence_cap: usize,
        sentence_len: *mut usize,
    ) -> zak_status;
    pub fn zak_print(
        script: *const u8,
        script_len: usize,
        text: *mut u8,
        text_cap: usize,
        text_len: *mut usize,
        place: *mut usize,
    ) -> zak_status;
}
