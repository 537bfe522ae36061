/* Which bytes of the planes the beam shows in the dots that come: docs/RASTER.md says how it finds them. A write of any
 * other byte is the same before these dots and behind them.
 */
#include "machine.h"

FROM("adapter", "zak_read_beam") u32 zak_read_beam(u32 card, u32 room);
FROM("adapter", "zak_read_registers") u32 zak_read_registers(u32 card, u32 room);
FROM("reads", "word") u32 room_word(u32 place);

extern u32 card, room;
/* Where a zak_registers has its parts, and a zak_beam. */
enum { CLOCKING = 3, CRTC = 8, MISCELLANEOUS = 40 };
enum { BEAM_LINE = 0, BEAM_DOT = 4 };
enum crtc {
    HORIZONTAL_TOTAL = 0x00, HORIZONTAL_END = 0x01, OVERFLOW = 0x07, MAXIMUM_SCAN_LINE = 0x09, VERTICAL_END = 0x12,
    OFFSET = 0x13, UNDERLINE = 0x14, MODE_CONTROL = 0x17, LINE_COMPARE = 0x18
};
/* It is known for so many lines at most: the more, the more bytes are taken for shown. */
enum { MOST_LINES = 4, PLANE_BYTES = 0x10000 };

/* What the registers say: dots of a character, characters of a line, of them those displayed; the last line displayed,
 * and the line compare; lines of a row, and by how many counters rows are apart; how many bytes a counter is. A display
 * of text, or with memory elsewhere, has no unit. */
static struct {
    u32 is_known, width, characters, columns, last_line, compare, height, row, unit;
} layout;
/* The first byte of each plane that is shown, and the last. */
static u32 first_shown, last_shown;

static u32 byte_of_room(u32 at)
{
    return room_word(room + at) & 0xFF;
}

static u32 controller(enum crtc number)
{
    return byte_of_room(CRTC + number);
}

/* A bit of a register as another bit. */
static u32 moved(u32 value, u32 from, u32 to)
{
    return (value >> from & 1) << to;
}

static void look_at_layout(void)
{
    zak_read_registers(card, room);
    u32 overflow = controller(OVERFLOW), miscellaneous = byte_of_room(MISCELLANEOUS);
    int is_graphics = miscellaneous & 1, is_at_a0000 = (miscellaneous >> 2 & 3) < 2;
    layout.width = 9 - (byte_of_room(CLOCKING) & 1);
    layout.characters = controller(HORIZONTAL_TOTAL) + 5;
    layout.columns = controller(HORIZONTAL_END) + 1;
    layout.last_line = controller(VERTICAL_END) | moved(overflow, 1, 8) | moved(overflow, 6, 9);
    u32 scan_lines = controller(MAXIMUM_SCAN_LINE);
    layout.compare = controller(LINE_COMPARE) | moved(overflow, 4, 8) | moved(scan_lines, 6, 9);
    layout.height = ((scan_lines & 31) + 1) << (scan_lines >> 7 & 1);
    layout.row = 2 * controller(OFFSET);
    layout.unit = controller(UNDERLINE) >> 6 & 1 ? 4 : controller(MODE_CONTROL) >> 6 & 1 ? 1 : 2;
    if (!is_graphics || !is_at_a0000) layout.unit = 0;
    layout.is_known = 1;
}

/* A register was written, or the BIOS called. */
void forget_layout(void)
{
    memset(&layout, 0, sizeof layout);
    first_shown = last_shown = 0;
}

/* Looks what is shown from the beam's place on, and answers for how many dots that is known; 0 for none. `to_frame` are
 * the dots until the frame ends. */
u32 look_at_shown(u32 to_frame)
{
    if (!layout.is_known) look_at_layout();
    if (!layout.unit) return 0;
    zak_read_beam(card, room);
    u32 place = room_word(room + BEAM_LINE), line = place & 0xFFFF, character = place >> 16;
    u32 rest = room_word(room + BEAM_DOT), dot = rest & 0xFFFF, base = rest >> 16;
    if (line > layout.last_line) {
        first_shown = PLANE_BYTES;
        last_shown = 0;
        return to_frame;
    }
    /* The first dot of a frame takes the start address. Behind a change of the registers the beam may be anywhere. */
    if (!(line | character | dot) || character >= layout.characters || dot >= layout.width) return 0;
    u32 lines = line <= layout.compare ? smaller(MOST_LINES, layout.compare - line + 1) : MOST_LINES;
    /* The next row may begin with the next line. */
    u32 rows = (lines - 1 + layout.height - 1) / layout.height, last = base + rows * layout.row + layout.columns;
    first_shown = base * layout.unit;
    last_shown = last * layout.unit + layout.unit - 1;
    /* They go round behind the end of the planes: all are taken for shown. */
    if (last_shown >= PLANE_BYTES) first_shown = 0;
    return smaller((lines * layout.characters - character) * layout.width - dot, to_frame);
}

/* Whether one of so many bytes of memory is shown, as the host's path reaches the planes. Where odd and even addresses,
 * or four of them, have the same place in different planes, it is the lowest one's. */
int is_shown(u32 place, u32 bytes)
{
    u32 at = place % PLANE_BYTES, last = at + bytes - 1;
    return last >= PLANE_BYTES || (last >= first_shown && (at & ~3u) <= last_shown);
}
