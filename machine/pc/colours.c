/* The colours of mode 13 that the BIOSes of PCs load, which the user may have in place of the adapter's own. They are
 * loaded by cycles, as a program would. */
#include "machine.h"

enum { MODE_13 = 0x13, SET_MODE = 0, ALTERNATE = 0x12, LOADING = 0x31, SUMMING = 0x33 };
enum { DAC_INDEX = 0x3C8, DAC_DATA = 0x3C9, HUES = 24, SHADES = 9, BLACK = 8 };

static int is_asked;
/* What the software has asked the BIOS for: no palette at a mode set, or sums of grey. */
static int loads_none, sums_grey;

/* The sixteen colours of text, two bits of red, green and blue each: a third of them, and another two thirds. */
static const u8 text_colours[16] = {
    0x00, 0x02, 0x08, 0x0A, 0x20, 0x22, 0x24, 0x2A, 0x15, 0x17, 0x1D, 0x1F, 0x35, 0x37, 0x3D, 0x3F};
static const u8 thirds[4] = {0x00, 0x15, 0x2A, 0x3F};
static const u8 greys[16] = {
    0x00, 0x05, 0x08, 0x0B, 0x0E, 0x11, 0x14, 0x18, 0x1C, 0x20, 0x24, 0x28, 0x2D, 0x32, 0x38, 0x3F};
/* The levels of a component in each circle of hues: of three lights, each in three strengths of colour. */
static const u8 levels[SHADES][5] = {{0x00, 0x10, 0x1F, 0x2F, 0x3F}, {0x1F, 0x27, 0x2F, 0x37, 0x3F},
    {0x2D, 0x31, 0x36, 0x3A, 0x3F}, {0x00, 0x07, 0x0E, 0x15, 0x1C}, {0x0E, 0x11, 0x15, 0x18, 0x1C},
    {0x14, 0x16, 0x18, 0x1A, 0x1C}, {0x00, 0x04, 0x08, 0x0C, 0x10}, {0x08, 0x0A, 0x0C, 0x0E, 0x10},
    {0x0B, 0x0C, 0x0D, 0x0F, 0x10}};

static void load(u32 red, u32 green, u32 blue)
{
    display_out(DAC_DATA, red);
    display_out(DAC_DATA, green);
    display_out(DAC_DATA, blue);
}

/* The level of a component that rises in the first of six parts of the circle, stays for two, falls, and stays low. */
static u32 level(const u8 *of, u32 hue)
{
    u32 part = hue / 4 % 6, at = hue % 4;
    return part == 0 ? of[at] : part < 3 ? of[4] : part == 3 ? of[4 - at] : of[0];
}

static void load_all(void)
{
    display_out(DAC_INDEX, 0);
    for (u32 i = 0; i < 16; i++) {
        u32 colour = text_colours[i];
        load(thirds[colour >> 4], thirds[colour >> 2 & 3], thirds[colour & 3]);
    }
    for (u32 i = 0; i < 16; i++) load(greys[i], greys[i], greys[i]);
    for (u32 shade = 0; shade < SHADES; shade++) {
        const u8 *of = levels[shade];
        /* The circle begins with blue. */
        for (u32 hue = 0; hue < HUES; hue++) load(level(of, hue), level(of, hue + 16), level(of, hue + 8));
    }
    for (u32 i = 0; i < BLACK; i++) load(0, 0, 0);
}

void begin_colours(void)
{
    is_asked = loads_none = sums_grey = 0;
}

/* It comes from outside, as a key does. */
SHOWN("set_palette") void set_palette(u32 is_theirs)
{
    note_input();
    is_asked = is_theirs != 0;
}

/* After a call of the video BIOS with AX and BX. */
void load_colours(u32 ax, u32 bx)
{
    u32 function = ax >> 8, al = ax & 0xFF;
    if (function == ALTERNATE && (bx & 0xFF) == LOADING && al < 2) loads_none = al == 1;
    if (function == ALTERNATE && (bx & 0xFF) == SUMMING && al < 2) sums_grey = al == 0;
    if (function == SET_MODE && (al & 0x7F) == MODE_13 && is_asked && !loads_none && !sums_grey) load_all();
}
