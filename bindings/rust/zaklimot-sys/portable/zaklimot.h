/* zaklimot.h: a VGA display adapter with its video BIOS, as a library.
 *
 * SPDX-License-Identifier: MIT
 *
 * Each call does what the step of the same name does in a script (docs/SCRIPT.md), by the register
 * table (docs/REGISTERS.md). A refused call changes nothing. docs/LIBRARY.md is the guide.
 *
 *     zak_card card = ZAK_CARD_INIT;
 *     zak_size size;
 *     zak_open(&card, fonts, sizeof fonts);                 // fonts/zaklimot.fnt
 *     zak_out_word(&card, 0x3C4, 0x0402);                   // a cycle of the processor
 *     zak_put(&card, 0xA0000, 0x55);
 *     zak_advance(&card, 25);                               // the dots that pass meanwhile
 *     zak_frame(&card, &size, rgb, sizeof rgb);             // to the frame's end, and its picture
 *     zak_close(&card);
 *
 * You own the struct of a card. A zero-filled card is a closed card. Do not write or copy an open
 * card, and close it once. Two cards share nothing. A card may move from one thread to another, but
 * takes one call at a time, and none from a signal handler. After fork, parent and child each have
 * a card of their own, and each closes its own.
 *
 * Pointers must not be NULL, even when the length is 0, and no two pointers of a call overlap. On
 * any status but ZAK_OK, output arguments are unchanged unless the call says otherwise. Lengths
 * count elements: bytes, or words where the pointer is to uint32_t.
 */
#ifndef ZAKLIMOT_H
#define ZAKLIMOT_H

#include <stdbool.h>
#include <stddef.h>
#include <stdint.h>

#ifdef __cplusplus
extern "C" {
#endif

/* The interface that this header describes. The major number grows when a call, a struct or a
 * status changes; the minor number grows when calls, structs or statuses are added. */
#define ZAK_API_MAJOR 1
#define ZAK_API_MINOR 6
#define ZAK_API_VERSION (65536u * ZAK_API_MAJOR + ZAK_API_MINOR) /* as zak_version() answers it */

/* What a call answers. 1 to 13 are the refusals E1 to E13 of docs/REPORT.md; 102 and up are the
 * faults of scripts, 100 more than their numbers F2 to F11 there. */
typedef uint32_t zak_status;
enum {
    ZAK_OK = 0,
    ZAK_NOT_DECODED = 1,     /* no part of the adapter decodes the port or the address */
    ZAK_NOT_IN_PROFILE = 2,  /* a register, value or port that docs/PROFILE.md leaves out */
    ZAK_NO_MODE = 3,         /* no mode is set yet */
    ZAK_BAD_FUNCTION = 4,
    ZAK_BAD_MODE = 5,
    ZAK_WRONG_KIND = 6,      /* a call for text in graphics, or for pixels in text */
    ZAK_BAD_PAGE = 7,
    ZAK_OUTSIDE = 8,
    ZAK_COUNT_PAST = 9,
    ZAK_BAD_REGISTER = 10,
    ZAK_BAD_BLOCK = 11,
    ZAK_TOO_FAR = 12,        /* more than ZAK_MOST_DOTS */
    ZAK_BAD_HEIGHT = 13,
    ZAK_NO_CARD = 20,        /* the card is not open */
    ZAK_OPEN_ALREADY = 21,
    ZAK_FONT_SIZE = 22,      /* the font file does not have ZAK_FONTS_SIZE bytes */
    ZAK_OUT_OF_MEMORY = 23,  /* malloc failed; nothing has changed, but see zak_run_on */
    ZAK_RAGGED = 24,         /* two rows of the frame differ in width: there is no picture */
    ZAK_NO_ROOM = 25,        /* the caller's buffer is too short, and nothing was written there */
    ZAK_BAD_ARGUMENT = 26,   /* an argument is out of the range that the call names */
    ZAK_BAD_CARD = 27,       /* corrupt BIOS data: the card's memory was overwritten */
    ZAK_NO_SCREEN = 28,      /* the adapter shows no plain screen (docs/SCREENS.md) */
    ZAK_BROKEN = 29,         /* only from portable/zaklimot.c: it was compiled wrongly; see there */
    ZAK_STATE_MAGIC = 30,    /* of zak_restore: the bytes are no saved state */
    ZAK_STATE_VERSION = 31,  /* the state has another version of the format */
    ZAK_STATE_LENGTH = 32,   /* the state is cut off, or bytes follow it */
    ZAK_STATE_PART = 33,     /* a part of the state is out of its bounds */
    ZAK_STATE_CHECKSUM = 34, /* of zak_restore_fixed: the checksum is wrong */
    ZAK_MANY_COLOURS = 35,   /* of zak_frame_indexed: the picture has more than 256 colours */
    ZAK_NOT_REBUILT = 36,    /* of zak_rebuild: the steps that it tried lead to another state */
    ZAK_BAD_MAGIC = 102,
    ZAK_BAD_VERSION = 103,
    ZAK_BAD_STEP = 104,
    ZAK_TRUNCATED = 105,
    ZAK_TOO_LONG = 106,
    ZAK_BAD_LINE = 107,      /* of zak_assemble: a line of the text is bad */
    ZAK_TOO_MANY = 111
};

#define ZAK_FONTS_SIZE 9728u                           /* bytes of a font file */
#define ZAK_MOST_DOTS 16777216u                        /* dots of one zak_advance */
#define ZAK_NEVER 0xFFFFFFFFu                          /* zak_clock: the bit never changes */
#define ZAK_WIDEST 2304u                               /* dots in a row of a picture */
#define ZAK_HIGHEST 1024u                              /* rows of a picture */
#define ZAK_MOST_RGB (3u * ZAK_WIDEST * ZAK_HIGHEST)   /* bytes of a picture */
#define ZAK_MOST_TABLE 768u                            /* bytes of a table of zak_int10 */
#define ZAK_MOST_TEXT 32768u                           /* bytes of a zak_show_.. */
#define ZAK_MOST_STATUS_TEXT 128u                      /* bytes of zak_status_text */
#define ZAK_MOST_REASON_TEXT 160u                      /* bytes of a sentence of zak_explain_step */
#define ZAK_MOST_MISTAKE_TEXT 256u                     /* bytes of a sentence of zak_explain_text */
#define ZAK_OPAQUE 1u                                  /* zak_frame_words: words FFRRGGBB */
#define ZAK_ONCE 2u                                    /* zak_frame_words: each pixel once */
#define ZAK_FIRST_STATE 265086u                        /* bytes of a state at a frame's first dot */
#define ZAK_MOST_STATE 7342974u                        /* bytes of a state at any dot */

/* A card. `machine` points to everything that the card keeps, except the dots that it owes. */
typedef struct zak_card {
    bool is_open;     /* read only */
    uint32_t owed;    /* private */
    uint32_t line[2]; /* private */
    void *machine;    /* private */
} zak_card;

#define ZAK_CARD_INIT { false, 0, { 0, 0 }, NULL }

/* The interface of the linked library: 65,536 times its major number, plus its minor number. It
 * fits the header if the major numbers are equal and its minor number is not lower. */
uint32_t zak_version(void);

/* Says what a status means: its name and a sentence, such as "ZAK_NO_MODE: No mode is set yet.". No
 * NUL ends it. A number that is no status gets a sentence that says so. ZAK_NO_ROOM: *text_len is
 * the number of bytes needed, and text is unchanged. */
zak_status zak_status_text(zak_status status, uint8_t *text, size_t text_cap, size_t *text_len);

/* Opens a machine in its power-on state, with the glyphs of a font file, such as
 * fonts/zaklimot.fnt. It allocates 7.4 MB with malloc, which zak_close frees. Few other calls
 * allocate memory: zak_show_.., zak_screen_.., zak_frame_indexed, zak_run, zak_run_on,
 * zak_assemble, zak_print, zak_cycles, zak_explain_text, zak_rebuild, and zak_int10 with AX = 1017
 * (hexadecimal). They free it before they return. Answers ZAK_OPEN_ALREADY, ZAK_FONT_SIZE,
 * ZAK_OUT_OF_MEMORY. */
zak_status zak_open(zak_card *card, const uint8_t *fonts, size_t fonts_len);
zak_status zak_close(zak_card *card);

/* Cycles of a byte, and of a word: the low byte at the port or the address, the high byte at the
 * next. Addresses are the processor's, 0xA0000 to 0xBFFFF; the registers say which of them the
 * adapter decodes. Refused with ZAK_NOT_DECODED and ZAK_NOT_IN_PROFILE. */
zak_status zak_out(zak_card *card, uint16_t port, uint8_t value);
zak_status zak_out_word(zak_card *card, uint16_t port, uint16_t value);
zak_status zak_in(zak_card *card, uint16_t port, uint8_t *value);
zak_status zak_in_word(zak_card *card, uint16_t port, uint16_t *value);
zak_status zak_put(zak_card *card, uint32_t address, uint8_t value);
zak_status zak_put_word(zak_card *card, uint32_t address, uint16_t value);
zak_status zak_get(zak_card *card, uint32_t address, uint8_t *value);
zak_status zak_get_word(zak_card *card, uint32_t address, uint16_t *value);

/* Make a byte cycle at each of len or count consecutive addresses: from the first up or, if down is
 * true, from the last down, as an 8086 moves strings. Each cycle does what the single call does;
 * one that the adapter does not decode changes nothing, and reads FF. bytes[i] is the byte of
 * address + i, in either direction. zak_move_bytes reads from + i and then writes to + i, for each
 * i in turn. *decoded is the number of addresses that the adapter decodes; zak_move_bytes counts
 * reads and writes, 2 * count if it decodes all. Words and doublewords that go up are one call over
 * all their bytes. If they go down, make a call for each, since the bytes of each go up. In write
 * mode 1 a word that is moved is zak_get_word and zak_put_word: both its bytes are read before one
 * is written, so both get the latches of the second.
 * ZAK_BAD_ARGUMENT: address, from or to, plus the length, is above 0xFFFFFFFF. */
zak_status zak_put_bytes(zak_card *card, uint32_t address, const uint8_t *bytes, size_t len,
                         bool down, size_t *decoded);
zak_status zak_fill_bytes(zak_card *card, uint32_t address, uint8_t value, size_t count, bool down,
                          size_t *decoded);
zak_status zak_get_bytes(zak_card *card, uint32_t address, uint8_t *bytes, size_t len, bool down,
                         size_t *decoded);
zak_status zak_move_bytes(zak_card *card, uint32_t from, uint32_t to, size_t count, bool down,
                          size_t *decoded);

/* Lets the clock run for 0 to ZAK_MOST_DOTS dots; more are refused with ZAK_TOO_FAR. n and then m
 * dots are n + m dots. The library adds up the dots of successive calls, and draws them when a call
 * needs them drawn: a call of a few dots costs little. */
zak_status zak_advance(zak_card *card, uint32_t dots);

/* Says when the frame ends and when input status 1 changes next, if no register is written until
 * then. The frame under way ends after to_frame dots. Bit 0 of input status 1 changes after exactly
 * to_display dots (it is 1 where no dot is displayed), and bit 3 after exactly to_retrace dots (it
 * is 1 in the vertical retrace). ZAK_NEVER: the bit never changes. rate / rate_divisor is the
 * number of dots per second: 25,175,000 or 28,322,000 by the clock select bits of the miscellaneous
 * output register, divided by 2 if the sequencer halves the clock (clocking mode, bit 3). */
typedef struct zak_timing {
    uint32_t to_frame, to_display, to_retrace; /* dots; the last two may be ZAK_NEVER */
    uint32_t line_dots, frame_dots, lines;     /* dots of a line and of a frame; lines of a frame */
    uint32_t rate, rate_divisor;               /* dots per second */
} zak_timing;

zak_status zak_clock(zak_card *card, zak_timing *timing);

/* Seven calls give a frame. zak_frame gives its dots in 18-bit colour, zak_frame_xrgb in words for
 * a window, and zak_frame_indexed in numbers of a palette. zak_frame_words gives each pixel of the
 * software once, and zak_frame_update also tells which rows have changed. zak_frame_lines gives a
 * ragged frame too, and zak_line each line as it ends. zak_skip_frame passes a frame unseen. */
typedef struct zak_size { uint32_t width, height; } zak_size; /* dots in a row, and rows */

/* Let the clock run to the end of the frame under way, by at least one dot, and write the frame's
 * picture, rows from the top, each from the left. zak_frame writes three bytes per dot: red, green
 * and blue, 0 to 63 each. zak_frame_xrgb writes a word 00RRGGBB per dot, with eight bits per colour
 * (a component c of six bits becomes 4 * c + c / 16). Row y begins at pixels[pitch * y], the pitch
 * counts words, and words beside the picture are unchanged. ZAK_RAGGED: *size is unchanged.
 * ZAK_NO_ROOM: rgb_cap is below 3 * width * height, or the pitch below width, or pixels_cap below
 * pitch * height; *size is the size of the picture. With either status the frame has passed. */
zak_status zak_frame(zak_card *card, zak_size *size, uint8_t *rgb, size_t rgb_cap);
zak_status zak_frame_xrgb(zak_card *card, zak_size *size, uint32_t *pixels, size_t pixels_cap,
                          size_t pitch);

typedef struct zak_picture {
    uint32_t width, height; /* words in a row, and rows */
    uint32_t across, down;  /* dots of a line, and scan lines, that a word stands for */
} zak_picture;

/* Does what zak_frame_xrgb does, in the form that flags ask for: 0, or a sum of ZAK_OPAQUE and
 * ZAK_ONCE. With ZAK_ONCE a pixel that the screen shows several times is written once. The screen
 * of mode 13 (hexadecimal) then has 320 by 200 words, each for 2 dots on 2 lines. The screen of
 * mode D has 320 by 200, each for 1 dot on 2 lines. The words are every across-th dot of every
 * down-th line of the picture that zak_frame writes, from the first on. across is 2 in 256 colours
 * with characters of eight dots, otherwise 1. down is 1 in text; in graphics it is the number of
 * scan lines of a row of characters. It is doubled if the CRT controller shows each line twice.
 * Both follow from the registers at the call. ZAK_NO_ROOM and ZAK_RAGGED: as for zak_frame_xrgb.
 * ZAK_BAD_ARGUMENT: flags are above 3, and no dot has passed. */
zak_status zak_frame_words(zak_card *card, uint32_t flags, zak_picture *picture, uint32_t *pixels,
                           size_t pixels_cap, size_t pitch);

typedef struct zak_rows { uint32_t first, count; } zak_rows; /* some rows; 0 and 0 for none */

/* Does what zak_frame_words does, for a core that keeps one buffer and hands on only the rows that
 * have changed. A row has changed if one of its words differs from what pixels held there when the
 * call began, whoever wrote that. *changed tells the first such row, and how many rows there are
 * from it to the last such row. If no word differs, both numbers are 0, and nothing is written.
 * Words beside the picture do not count. ZAK_RAGGED, ZAK_NO_ROOM and ZAK_BAD_ARGUMENT: as for
 * zak_frame_words, and *changed is unchanged. */
zak_status zak_frame_update(zak_card *card, uint32_t flags, zak_picture *picture, uint32_t *pixels,
                            size_t pixels_cap, size_t pitch, zak_rows *changed);

/* Does what zak_frame does, for a core whose pictures have palettes: numbers[width * y + x] is the
 * number of the dot's colour in *palette. The palette has the colours of this picture, each once,
 * in the order in which they first appear. ZAK_MANY_COLOURS: they are more than 256, which takes
 * writes to the DAC amid the frame; *size is written, numbers is overwritten in part, and zak_peek
 * still gives the frame. ZAK_RAGGED and ZAK_NO_ROOM: as for zak_frame. ZAK_OUT_OF_MEMORY: the call
 * allocates 256 KiB, which it frees before it returns; nothing has changed. */
typedef struct zak_palette {
    uint32_t len;          /* how many colours, 0 to 256: none if the picture has no dot */
    uint32_t colours[256]; /* words 00RRGGBB, and 0 behind them */
} zak_palette;

zak_status zak_frame_indexed(zak_card *card, zak_size *size, zak_palette *palette,
                             uint8_t *numbers, size_t numbers_cap);

/* Lets the clock run to the end of the line under way, by at least one dot, for a core that shows
 * each line as it ends. pixels[x] is the word of the line's dot x: 00RRGGBB, or FFRRGGBB with
 * ZAK_OPAQUE in flags. ZAK_NO_ROOM: pixels_cap is below the width; the line has passed, and *line
 * is written. ZAK_BAD_ARGUMENT: flags are above 1, and no dot has passed. */
typedef struct zak_scan_line {
    uint32_t number; /* the line's number in the frame, from 0; lines without a dot count too */
    uint32_t width;  /* dots, at most ZAK_WIDEST; 0 for a line with none */
    bool ends_frame; /* whether the frame ends with this line */
} zak_scan_line;

zak_status zak_line(zak_card *card, uint32_t flags, zak_scan_line *line, uint32_t *pixels,
                    size_t pixels_cap);

/* Lets the clock run to the end of the frame under way, and writes the frame's dots line by line,
 * even if it is ragged. widths[y], for y from 0 to ZAK_HIGHEST - 1, is the number of dots of line
 * y, at most ZAK_WIDEST, and 0 for a line with none. rgb gets three bytes per dot: line 0 from the
 * left, then line 1, and so on. *rgb_used is the number of bytes. ZAK_NO_ROOM: widths and *rgb_used
 * are written, but rgb is not. */
zak_status zak_frame_lines(zak_card *card, uint32_t widths[ZAK_HIGHEST], uint8_t *rgb,
                           size_t rgb_cap, size_t *rgb_used);

/* Lets the clock run to the end of the frame under way, by at least one dot, and draws nothing of
 * it: for a frame that nobody looks at. The card goes on as after zak_frame. */
zak_status zak_skip_frame(zak_card *card);

/* What is drawn until now of the frame under way, line by line as zak_frame_lines writes a whole
 * frame. The clock stands still. At the first dot of a frame it is the frame before; it is empty if
 * that was skipped, or if there was none since zak_open or zak_restore. ZAK_NO_ROOM: widths and *rgb_used are written, but rgb is not. */
zak_status zak_peek(zak_card *card, uint32_t widths[ZAK_HIGHEST], uint8_t *rgb, size_t rgb_cap,
                    size_t *rgb_used);

typedef struct zak_regs { uint16_t ax, bx, cx, dx; } zak_regs;

/* Calls interrupt 10 (hexadecimal). *regs are the processor's registers, and afterwards the answer.
 * block is what the caller's memory contains at ES:BP or ES:DX, for functions that read it. table
 * is room for what a function writes there, at most ZAK_MOST_TABLE bytes; *table_len is their
 * number. Refused with ZAK_NO_MODE to ZAK_BAD_BLOCK, and ZAK_BAD_HEIGHT. ZAK_NO_ROOM: the call is
 * done, *regs and *table_len are written, but the table is not. ZAK_OUT_OF_MEMORY: only with AX =
 * 1017 (hexadecimal). ZAK_BAD_CARD. */
zak_status zak_int10(zak_card *card, zak_regs *regs, const uint8_t *block, size_t block_len,
                     uint8_t *table, size_t table_cap, size_t *table_len);

/* Says what a call of zak_int10 with these registers reads from the caller's memory: len bytes, 0
 * for none, at ES:DX if is_at_dx is true, otherwise at ES:BP. With a block of exactly len bytes
 * zak_int10 never answers ZAK_BAD_BLOCK. With another length it is refused, unless len is 0. */
typedef struct zak_source {
    size_t len; /* 0 to 16,711,425 */
    bool is_at_dx;
} zak_source;

zak_status zak_block(zak_card *card, const zak_regs *regs, zak_source *source);

/* Lists the cycles that zak_int10 with these registers and this block would make on the card as it
 * is, in order, and leaves the card as it is: for debuggers, and for drivers that do without the
 * BIOS. The list is a script of version 1 in bytes, with a step out, in, put or get for each cycle,
 * which zak_print disassembles. If you run it with zak_run_on, the card gets the registers and the
 * memory that zak_int10 leaves, but the BIOS data stay as they are. Cycles that the card refuses
 * are in the list too. Refused as zak_int10 is. ZAK_NO_ROOM: *script_len is the number of bytes
 * needed, and script is unchanged. ZAK_TOO_LONG: the list would have more than 16,777,216 bytes.
 * The call allocates 8 MB and script_cap bytes, which it frees before it returns.
 * ZAK_OUT_OF_MEMORY, ZAK_BAD_CARD. */
zak_status zak_cycles(zak_card *card, const zak_regs *regs, const uint8_t *block, size_t block_len,
                      uint8_t *script, size_t script_cap, size_t *script_len);

/* Dump the state as the text of the script's step `show` (docs/REPORT.md), with a newline and no 0
 * after it. ZAK_MOST_TEXT bytes are always enough. ZAK_NO_ROOM: *text_len is the number of bytes
 * needed. zak_show_cells is refused with ZAK_NO_MODE and ZAK_WRONG_KIND. zak_show_plane dumps count
 * bytes, 1 to 256, of plane 0 to 3 from an offset on, none past the plane's end. Any other count,
 * plane or offset is ZAK_BAD_ARGUMENT. ZAK_OUT_OF_MEMORY, ZAK_BAD_CARD. */
zak_status zak_show_regs(zak_card *card, uint8_t *text, size_t text_cap, size_t *text_len);
zak_status zak_show_beam(zak_card *card, uint8_t *text, size_t text_cap, size_t *text_len);
zak_status zak_show_latches(zak_card *card, uint8_t *text, size_t text_cap, size_t *text_len);
zak_status zak_show_bda(zak_card *card, uint8_t *text, size_t text_cap, size_t *text_len);
zak_status zak_show_cells(zak_card *card, uint8_t *text, size_t text_cap, size_t *text_len);
zak_status zak_show_dac(zak_card *card, uint8_t index, uint8_t *text, size_t text_cap,
                        size_t *text_len);
zak_status zak_show_plane(zak_card *card, uint8_t plane, uint16_t offset, uint16_t count,
                          uint8_t *text, size_t text_cap, size_t *text_len);

/* Read the state. Nothing changes, not even an index, a latch or the flip-flop. */
typedef struct zak_registers {
    uint8_t misc;                         /* miscellaneous output register */
    uint8_t seq_index, seq[5];            /* sequencer */
    uint8_t crtc_index, crtc[25];         /* CRT controller */
    uint8_t gfx_index, gfx[9];            /* graphics controller */
    uint8_t attr_index, attr_is_data;     /* index with bit 5; 1 if 3C0 takes data next */
    uint8_t attr[21];                     /* attribute controller */
    uint8_t dac_index, dac_component;     /* next is 0 red, 1 green, 2 blue */
    uint8_t dac_mask, dac_waiting_red, dac_waiting_green;
} zak_registers;

typedef struct zak_colour { uint8_t red, green, blue; } zak_colour; /* 0 to 63 each */

typedef struct zak_beam {
    uint16_t line, character, dot;        /* the next dot's: 0 to 1024, 0 to 259, 0 to 8 */
    uint16_t base;                        /* counter of the row's first character */
    uint16_t scan;                        /* scan line of the row of characters, 0 to 31 */
    uint16_t rows;                        /* rows of this frame with a dot so far */
    uint8_t frame;                        /* number of the frame, 0 to 31 */
    uint8_t half;                         /* 1 on the second line of two under double scan */
    uint8_t split;                        /* 1 if line compare was reached in this frame */
} zak_beam;

typedef struct zak_latches { uint8_t plane[4]; } zak_latches;

typedef struct zak_bda {                  /* the BIOS data; all 0 until a mode is set */
    uint16_t columns, size, start;        /* of a row; bytes of a page; first of the active page */
    uint16_t cursor_places[8];            /* cursor positions: 256 * row + column */
    uint16_t cursor_type;                 /* 256 * first scan line + last */
    uint16_t crtc_address, height;        /* the CRT controller's port; lines of a character */
    uint8_t mode, page, last_row;
} zak_bda;

zak_status zak_read_registers(zak_card *card, zak_registers *registers);
zak_status zak_read_colour(zak_card *card, uint8_t index, zak_colour *colour);
zak_status zak_read_beam(zak_card *card, zak_beam *beam);
zak_status zak_read_latches(zak_card *card, zak_latches *latches);
zak_status zak_read_bda(zak_card *card, zak_bda *bda);

/* Reads bytes_len bytes of plane 0 to 3 from an offset on. ZAK_BAD_ARGUMENT: there is no such
 * plane, or the bytes go past its end at 65,536. */
zak_status zak_read_plane(zak_card *card, uint8_t plane, uint16_t offset, uint8_t *bytes,
                          size_t bytes_len);

/* Read the plain screen that the adapter shows: cells of text or pixels, page after page, as
 * programs that use only the video BIOS see it. If it shows none, they answer ZAK_NO_SCREEN. A call
 * reads the whole screen, into up to 0.8 MB that it allocates and frees. ZAK_BAD_ARGUMENT: there is
 * no such page, row, column, x or y, or you ask for a cell in graphics, or for a pixel in text. The
 * BIOS keeps a cursor position for each of pages 0 to 7 in every mode: zak_screen_cursor takes
 * these pages. ZAK_OUT_OF_MEMORY. */
typedef struct zak_screen {
    uint32_t width, height;               /* in pixels; 0 in text, which has none */
    uint16_t columns, rows;               /* in characters */
    uint8_t mode, is_text;                /* number of the mode; 1 in text, 0 in graphics */
    uint8_t page, pages;                  /* the active page, and the number of pages */
} zak_screen;

typedef struct zak_cell { uint8_t character, attribute; } zak_cell;
typedef struct zak_place { uint8_t row, column; } zak_place;

zak_status zak_screen_read(zak_card *card, zak_screen *screen);
zak_status zak_screen_cell(zak_card *card, uint8_t page, uint8_t row, uint8_t column,
                           zak_cell *cell);
zak_status zak_screen_pixel(zak_card *card, uint8_t page, uint16_t x, uint16_t y, uint8_t *pixel);
zak_status zak_screen_cursor(zak_card *card, uint8_t page, zak_place *place);

/* Save the state of a card as bytes, and restore it on this card or on another, which then goes on
 * as if it had never stopped. The state is the BIOS data and the adapter, with three bytes for each
 * dot drawn of the frame under way, and without the fonts (docs/STATE.md). At the first dot of a
 * frame it has ZAK_FIRST_STATE bytes. zak_save: *len is the number of bytes, as zak_save_size gives
 * it, even with ZAK_NO_ROOM. zak_restore takes the bytes of a state with each part within its
 * bounds. It refuses others with one of ZAK_STATE_.., and the card is unchanged. */
zak_status zak_save_size(zak_card *card, size_t *len);
zak_status zak_save(zak_card *card, uint8_t *bytes, size_t bytes_cap, size_t *len);
zak_status zak_restore(zak_card *card, const uint8_t *bytes, size_t bytes_len);

/* Save and restore the state in a number of bytes that you choose, for a core whose states all have
 * one size: the bytes of zak_save, then zeros, and in the last four bytes the Adler-32 checksum of
 * everything before it, low byte first. ZAK_MOST_STATE + 4 bytes are always enough. ZAK_NO_ROOM:
 * bytes_len is too short for the state and its checksum. zak_restore_fixed takes all of these
 * bytes; it ignores those between the state and the checksum, but the checksum covers them. It
 * answers ZAK_STATE_CHECKSUM if the checksum is wrong, otherwise what zak_restore answers. */
zak_status zak_save_fixed(zak_card *card, uint8_t *bytes, size_t bytes_len);
zak_status zak_restore_fixed(zak_card *card, const uint8_t *bytes, size_t bytes_len);

/* The card explains itself: why it refuses a step, where a dot comes from, and what becomes of a
 * byte on its way to the planes or from them. These calls change nothing.
 *
 * zak_explain_step asks of one step of a script: the script's first step if `step` is 0. If the
 * card would do the step as it is, *reason is all 0. Otherwise reason->status is what the step
 * would answer, reason->kind says why, and text is a sentence, such as "There is no mode 04. ..".
 * You may ask after the refusal as well, since a refused step changes nothing. ZAK_NO_ROOM:
 * *reason is written, *text_len is the number of bytes needed, and text is unchanged.
 * ZAK_MOST_REASON_TEXT bytes are always enough. ZAK_BAD_ARGUMENT: the script has no such step.
 * The faults of zak_run_on, with *place, and ZAK_BAD_CARD. */
typedef struct zak_reason {
    uint32_t status;     /* what the step would answer, 1 to 13; 0 if it would be done */
    uint32_t kind;       /* ZAK_WHY_.., or 0 */
    uint32_t numbers[5]; /* those that the kind lists, in its order, and 0 behind them */
    bool is_high;        /* it is the high byte of a word that is refused */
} zak_reason;

enum {
    ZAK_WHY_NO_PORT = 1,              /* port */
    ZAK_WHY_OTHER_CRT_CONTROLLER = 2, /* port; the base now, 3B4 or 3D4; what the port is there */
    ZAK_WHY_READ_ONLY = 3,            /* port */
    ZAK_WHY_PORT_LEFT_OUT = 4,        /* port; ZAK_PART_.. */
    ZAK_WHY_NO_REGISTER = 5,          /* ZAK_GROUP_..; index; the last register */
    ZAK_WHY_BIT_LEFT_OUT = 6,         /* ZAK_GROUP_..; index; bit; value */
    ZAK_WHY_FIELD_LEFT_OUT = 7,       /* ZAK_GROUP_..; index; highest bit; lowest; value it needs */
    ZAK_WHY_MEMORY_OFF = 8,           /* address */
    ZAK_WHY_OUTSIDE_WINDOW = 9,       /* address; memory map; first and last address it decodes */
    ZAK_WHY_LAST_PORT = 10,           /* a word at port FFFF has no second byte */
    ZAK_WHY_LAST_ADDRESS = 11,        /* nor has one at address FFFFFFFF */
    ZAK_WHY_NO_MODE_SET = 12,         /* function */
    ZAK_WHY_NO_SERVICE = 13,          /* function; AL; BL */
    ZAK_WHY_NO_SUCH_MODE = 14,        /* mode */
    ZAK_WHY_NO_PIXELS = 15,           /* mode, which is text */
    ZAK_WHY_NO_CHARACTER_MAP = 16,    /* mode, which is graphics */
    ZAK_WHY_NO_PAGE = 17,             /* page; how many pages */
    ZAK_WHY_CURSOR_OUTSIDE = 18,      /* page; cell at its cursor; cells of a page */
    ZAK_WHY_POSITION_OUTSIDE = 19,    /* row; column; rows; columns */
    ZAK_WHY_PIXEL_OUTSIDE = 20,       /* x; y; width; height */
    ZAK_WHY_CELLS_PAST = 21,          /* count; first cell; cells of a page */
    ZAK_WHY_GLYPHS_PAST = 22,         /* count; first character */
    ZAK_WHY_NO_PALETTE_REGISTER = 23, /* register */
    ZAK_WHY_NO_BLINKING = 24,         /* value, neither 0 nor 1 */
    ZAK_WHY_NO_ENTRY = 25,            /* entry of the DAC */
    ZAK_WHY_NO_ENTRIES = 26,          /* count; first entry */
    ZAK_WHY_WRONG_BLOCK = 27,         /* bytes of the block; bytes that the service takes */
    ZAK_WHY_NO_HEIGHT = 28,           /* scan lines of a glyph; mode */
    ZAK_WHY_TOO_MANY_DOTS = 29,       /* dots; ZAK_MOST_DOTS */
    ZAK_WHY_NO_CELLS_YET = 30,        /* no mode is set, so there are no cells to show */
    ZAK_WHY_NO_CELLS = 31             /* mode, which is graphics */
};

enum { /* a group of registers with an index */
    ZAK_GROUP_SEQUENCER = 0,
    ZAK_GROUP_GRAPHICS_CONTROLLER = 1,
    ZAK_GROUP_CRT_CONTROLLER = 2,
    ZAK_GROUP_ATTRIBUTE_CONTROLLER = 3
};

enum { /* a part of the VGA that the adapter leaves out */
    ZAK_PART_INPUT_STATUS_0 = 0,
    ZAK_PART_SUBSYSTEM_ENABLE = 1,
    ZAK_PART_DAC_STATE = 2,
    ZAK_PART_FEATURE_CONTROL = 3
};

zak_status zak_explain_step(zak_card *card, const uint8_t *script, size_t script_len, uint32_t step,
                            zak_reason *reason, uint8_t *text, size_t text_cap, size_t *text_len,
                            size_t *place);

/* Says where the colour of the dot at a beam comes from, by the registers and the memory as they
 * are now. zak_read_beam gives the card's own beam, which is at the next dot. Another beam asks of
 * a dot that was drawn before or is still to come; the answer is true of the picture if nothing
 * that decides the dot has changed in between. `rows` of the beam does not matter. The parts for
 * text are 0 in graphics, and those of the palette are 0 in 256 colours. What the memory makes of
 * the dot is told even if something else decides its colour: if is_screen_off is 1, the dot is
 * black; otherwise, if is_palette_shown is 0, number is the overscan colour. In text is_cursor
 * decides first, then is_blinked_away, is_underlined and is_glyph_dot. ZAK_BAD_ARGUMENT: a number
 * of the beam is out of its bounds. */
typedef struct zak_dot_source {
    uint16_t counter;                     /* counter of the character that the dot comes from */
    uint16_t address;                     /* where it is fetched in each plane */
    uint16_t glyph_address;               /* text: where the row of the glyph is in plane 2 */
    uint8_t is_display;                   /* 1 for a display dot, as the picture shows */
    uint8_t panning;                      /* dots by which the picture is panned left, 0 to 8 */
    uint8_t dot;                          /* the dot of the character, 0 to 8, after panning */
    uint8_t bytes[4];                     /* bytes of planes 0 to 3 at the address */
    uint8_t is_text;
    uint8_t character, attribute;         /* text: the cell */
    uint8_t map;                          /* text: the character map, 0 to 7 */
    uint8_t glyph_row;                    /* text: the row of the glyph; its left dot is bit 7 */
    uint8_t is_cursor, is_blinked_away;   /* text: a dot of the cursor; blinks and is away now */
    uint8_t is_underlined, is_glyph_dot;  /* text: a dot of the underline; of the glyph */
    uint8_t is_foreground;                /* text: the dot has the foreground of its cell */
    uint8_t has_palette;                  /* 1 unless the adapter shows 256 colours */
    uint8_t nibble;                       /* palette: the four bits of the dot */
    uint8_t palette_register;             /* palette: those of planes that are enabled */
    uint8_t palette_value;                /* palette: what the palette register holds, 0 to 63 */
    uint8_t is_colour_select_wide;        /* palette: colour select gives bits 5 and 4, too */
    uint8_t middle, high;                 /* palette: bits 5 and 4 of the number; bits 7 and 6 */
    uint8_t is_palette_shown;             /* 0: the overscan colour is shown instead */
    uint8_t number;                       /* the number of the colour */
    uint8_t mask, entry;                  /* the DAC's mask; the DAC's entry, 0 to 255 */
    uint8_t is_screen_off;
    zak_colour colour;
} zak_dot_source;

zak_status zak_explain_dot(zak_card *card, const zak_beam *beam, zak_dot_source *source);

/* Say what a write of a byte or a read does on its way, and do not do it. Refused as zak_put and
 * zak_get are. The arrays have the byte of each plane. In write mode 1 the planes get the latches,
 * so rotated, data, combined and mask do not matter. */
typedef struct zak_write_stages {
    uint16_t in_window, offset;           /* the offset in the window, and in each plane */
    uint8_t write_mode;                   /* 0 to 3 */
    uint8_t rotated;                      /* the byte, rotated right */
    uint8_t data[4];                      /* what goes into the function: it, or set/reset */
    uint8_t combined[4];                  /* what comes out of the function with the latches */
    uint8_t mask;                         /* the bits that may change; others are the latches' */
    uint8_t planes;                       /* bit p: the write reaches plane p */
    uint8_t before[4], written[4];        /* before; what the planes get that it reaches */
} zak_write_stages;

typedef struct zak_read_stages {
    uint16_t in_window, offset;           /* the offset in the window, and in each plane */
    uint8_t loaded[4];                    /* what the latches get */
    uint8_t is_compare;                   /* 1 in read mode 1, which compares colours */
    uint8_t plane;                        /* the plane that read mode 0 reads */
    uint8_t value;                        /* the byte that the read returns */
} zak_read_stages;

zak_status zak_explain_put(zak_card *card, uint32_t address, uint8_t value,
                           zak_write_stages *stages);
zak_status zak_explain_get(zak_card *card, uint32_t address, zak_read_stages *stages);

/* Writes a script that leads from power-on to the state of the card, with the same fonts. The call
 * runs the script and compares before it answers. *are_dots_other is true if the frame under way
 * was drawn otherwise until now; all else is the same. As far as tests show, it rebuilds each state
 * that steps led to. A restored state may be one that no steps lead to: ZAK_NOT_REBUILT.
 * ZAK_NO_ROOM: *script_len is the number of bytes needed, *are_dots_other is written, and script is
 * unchanged. ZAK_TOO_LONG: the script would have more than 16,777,216 bytes. The call allocates up
 * to four more cards, bytes for two states, and the script. ZAK_OUT_OF_MEMORY. */
zak_status zak_rebuild(zak_card *card, uint8_t *script, size_t script_cap, size_t *script_len,
                       bool *are_dots_other);

/* Makes a whole run without a card: a script in (docs/SCRIPT.md), its report out (docs/REPORT.md).
 * ZAK_NO_ROOM: *report_len is the number of bytes needed. ZAK_BAD_STEP, ZAK_TRUNCATED,
 * ZAK_TOO_MANY: *place is the offset of the step or repeat in the script, in bytes. ZAK_FONT_SIZE,
 * ZAK_OUT_OF_MEMORY, ZAK_BAD_MAGIC, ZAK_BAD_VERSION and ZAK_TOO_LONG have no place. If a run fails,
 * no report is written. */
zak_status zak_run(const uint8_t *script, size_t script_len, const uint8_t *fonts, size_t fonts_len,
                   uint8_t *report, size_t report_cap, size_t *report_len, size_t *place);

/* Takes steps of a script on an open card: it skips the first `first` steps, and takes at most
 * `most` steps after them. The steps of a `repeat` count each time they are taken. The report
 * contains the lines of zak_run for the steps that were taken, numbered from first + 1 on. *taken
 * is their number: fewer than `most` only if the script ends. A refused step says so in its line,
 * and the call answers ZAK_OK. You can take a script in slices, with other calls between them. Each
 * call decodes the whole script and walks over the first `first` steps. ZAK_NO_ROOM: the steps are
 * taken; *report_len and *taken are written, but the report is not. The report of a single step has
 * at most ZAK_MOST_RGB + 100 bytes. The faults of zak_run, with *place: no step is taken, even if
 * the fault is not in the steps that you asked for. ZAK_OUT_OF_MEMORY: some of the first of the
 * steps may have been taken, each as a whole, and nothing says how many; restore a saved state.
 * ZAK_BAD_CARD: no step is taken. */
zak_status zak_run_on(zak_card *card, const uint8_t *script, size_t script_len, uint32_t first,
                      uint32_t most, uint8_t *report, size_t report_cap, size_t *report_len,
                      size_t *taken, size_t *place);

/* Assembles a text into a script (docs/SCRIPT.md). ZAK_NO_ROOM: *script_len is the number of bytes
 * needed; a first call with a script_cap of 0 says how much room to get. ZAK_BAD_LINE: *line is the
 * number of the first bad line, from 1. ZAK_TOO_LONG: the text or the script has more than
 * 16,777,216 bytes. ZAK_OUT_OF_MEMORY. */
zak_status zak_assemble(const uint8_t *text, size_t text_len, uint8_t *script, size_t script_cap,
                        size_t *script_len, size_t *line);

/* Says what is wrong in a text that zak_assemble refuses: the line, the part of it, what kind of
 * mistake it is, and a sentence in lower case with no full stop. If the text spells a script, all
 * of *mistake is 0, and the sentence has no bytes. ZAK_NO_ROOM: *mistake is written, *sentence_len
 * is the number of bytes needed, and sentence is unchanged. ZAK_MOST_MISTAKE_TEXT bytes are always
 * enough. ZAK_OUT_OF_MEMORY. */
typedef struct zak_mistake {
    size_t line;          /* number of the line, from 1; 0 if the mistake is in none */
    size_t start, length; /* the part of the line, in bytes; start is 0 at its first */
    uint32_t kind;        /* ZAK_MISTAKE_.., or 0 */
} zak_mistake;

enum {
    ZAK_MISTAKE_CHARACTER = 1,   /* a character that no line has outside comments */
    ZAK_MISTAKE_COMMENT = 2,     /* a comment that begins as in another language */
    ZAK_MISTAKE_STEP = 3,        /* a first word that begins no line */
    ZAK_MISTAKE_FORM = 4,        /* a word too few or too many */
    ZAK_MISTAKE_NUMBER = 5,
    ZAK_MISTAKE_SHOW = 6,        /* what `show` is to show */
    ZAK_MISTAKE_CALL = 7,        /* a register of `int` */
    ZAK_MISTAKE_BLOCK = 8,       /* the block of `int` */
    ZAK_MISTAKE_ORDER = 9,       /* a good line that may not stand there */
    ZAK_MISTAKE_UNKNOWN = 10,
    ZAK_MISTAKE_LONG_TEXT = 11,  /* more than 16,777,216 bytes of text */
    ZAK_MISTAKE_LONG_SCRIPT = 12 /* more than 16,777,216 bytes of script */
};

zak_status zak_explain_text(const uint8_t *text, size_t text_len, zak_mistake *mistake,
                            uint8_t *sentence, size_t sentence_cap, size_t *sentence_len);

/* Disassembles a script into text: a line for each step, with every number at full width, and for
 * each `version 2`, `repeat` and `end`. A script contains no comments. ZAK_NO_ROOM: *text_len is
 * the number of bytes needed. The faults of zak_run, with *place, and ZAK_OUT_OF_MEMORY. */
zak_status zak_print(const uint8_t *script, size_t script_len, uint8_t *text, size_t text_cap,
                     size_t *text_len, size_t *place);

#ifdef __cplusplus
}
#endif
#endif
