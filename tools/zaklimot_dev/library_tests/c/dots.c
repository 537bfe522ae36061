/* zak_explain_dot against the frames that are drawn: a frame of each mode, and short frames with
 * pseudo-random registers, memory and colours. Each dot of a frame is asked for when the beam is at
 * it. Those that are display dots have, one after the other, the colours of the picture. What is
 * told of a dot is what planes, registers and DAC hold, and what the others make of it. Some dots
 * are asked for again when the frame has passed, and before it is drawn. Prints how many dots were
 * compared, or what was wrong.
 *
 *     dots FONTS FRAMES */
#include "trial.h"

#define MOST_ASKED 8192u

/* What the frame under way shows, as it is told dot by dot. */
static uint32_t widths[ZAK_HIGHEST], drawn_widths[ZAK_HIGHEST];
static uint8_t rgb[ZAK_MOST_RGB], drawn[ZAK_MOST_RGB];
static size_t used;

/* What decides a dot, as other calls read it, and a state at a frame's first dot. */
static uint8_t planes[4][65536], state[ZAK_MOST_STATE];
static zak_registers registers;
static zak_colour colours[256];

static struct asked {
    zak_beam beam;
    zak_dot_source source;
} asked[MOST_ASKED];
static size_t asked_count;

/* How many dots of each kind were seen. */
static struct seen {
    unsigned long display, others, text, graphics, cursor, blinked, underlined, glyph, foreground,
        panned, colours_16, colours_256, wide, overscan, off, masked;
} seen;

static zak_dot_source source_at(const zak_beam *beam)
{
    zak_dot_source source;
    require(zak_explain_dot(&card, beam, &source) == ZAK_OK, "zak_explain_dot", "it fails");
    return source;
}

static void read_all(void)
{
    zak_status status = zak_read_registers(&card, &registers);
    for (uint8_t plane = 0; plane < 4; plane++)
        status |= zak_read_plane(&card, plane, 0, planes[plane], sizeof planes[plane]);
    for (unsigned entry = 0; entry < 256; entry++)
        status |= zak_read_colour(&card, (uint8_t)entry, &colours[entry]);
    require(status == ZAK_OK, "the state", "it can't be read");
}

/* The glyph's place: the map is one of two that a register has, by bit 3 of the attribute. */
static void check_glyph(const zak_dot_source *told)
{
    unsigned maps = registers.seq[3];
    unsigned a = (maps >> 2 & 3) | (maps >> 3 & 4), b = (maps & 3) | (maps >> 2 & 4);
    unsigned place = 16384u * (told->map & 3u) + 8192u * (told->map >> 2) + 32u * told->character;
    require(told->map == (told->attribute & 8 ? a : b), "text", "the map is another");
    require((uint16_t)(told->glyph_address - place) < 32, "text", "the glyph is elsewhere");
    require(told->glyph_row == planes[2][told->glyph_address], "text", "the glyph is another");
    require(told->dot > 7 || (told->glyph_row >> (7 - told->dot) & 1) == told->is_glyph_dot, "text",
            "the dot of the glyph is another");
}

/* The cell, and what text makes of the dot. */
static void check_text(const zak_dot_source *told)
{
    bool is_blinking = registers.attr[0x10] & 8;
    uint8_t background = told->attribute >> 4 & (is_blinking ? 7 : 15);
    bool is_foreground = told->is_cursor ||
                         (!told->is_blinked_away && (told->is_underlined || told->is_glyph_dot));
    require(told->character == told->bytes[0] && told->attribute == told->bytes[1], "text",
            "the cell is another");
    check_glyph(told);
    require(told->is_foreground == is_foreground, "text", "the foreground is decided otherwise");
    require(told->nibble == (is_foreground ? told->attribute & 15 : background), "text",
            "the bits are another cell's");
    require(!told->is_blinked_away || (is_blinking && told->attribute & 0x80), "text",
            "a cell blinks that can't");
}

static void check_palette(const zak_dot_source *told)
{
    require(told->palette_register == (told->nibble & registers.attr[0x12]), "palette",
            "the register is another");
    require(told->palette_value == registers.attr[told->palette_register], "palette",
            "the register holds something else");
    require(told->is_colour_select_wide == registers.attr[0x10] >> 7, "palette",
            "colour select has another width");
    require(told->high == (registers.attr[0x14] >> 2 & 3), "palette", "bits 7 and 6 are others");
    require(told->middle == (told->is_colour_select_wide ? registers.attr[0x14] & 3
                                                         : told->palette_value >> 4), "palette",
            "bits 5 and 4 are others");
}

/* The number of the colour, and the colour itself. */
static void check_colour(const zak_dot_source *told)
{
    static const zak_colour black;
    const zak_colour *wanted = told->is_screen_off ? &black : &colours[told->entry];
    unsigned number = (unsigned)told->high << 6 | (unsigned)told->middle << 4 |
                      (told->palette_value & 15u);
    require(told->is_palette_shown == (registers.attr_index >> 5 & 1), "colour",
            "the palette is shown, or not");
    require(told->is_screen_off == (registers.seq[1] >> 5 & 1), "colour",
            "the screen is off, or not");
    require(told->is_palette_shown || told->number == registers.attr[0x11], "colour",
            "it is not the overscan colour");
    require(!told->is_palette_shown || !told->has_palette || told->number == number, "colour",
            "it is not the palette's");
    require(told->mask == registers.dac_mask && told->entry == (told->number & told->mask),
            "colour", "the mask lets other bits pass");
    require(memcmp(&told->colour, wanted, sizeof told->colour) == 0, "colour",
            "the entry has another one");
}

/* The parts of a source agree with what the card holds, and with each other. */
static void check_source(const zak_dot_source *told)
{
    static const zak_dot_source none;
    for (size_t plane = 0; plane < 4; plane++)
        require(told->bytes[plane] == planes[plane][told->address], "planes", "a byte is another");
    require(told->panning <= 8 && told->dot <= 8, "panning", "there is no such dot");
    require(told->is_text == !(registers.gfx[6] & 1), "text", "it is graphics");
    require(told->has_palette == (told->is_text || !(registers.gfx[5] & 0x40)), "palette",
            "it is 256 colours, or not");
    check_colour(told);
    if (told->is_text)
        check_text(told);
    else
        require(memcmp(&told->character, &none.character, 9) == 0 && told->glyph_address == 0,
                "graphics", "parts of text are told");
    if (told->has_palette)
        check_palette(told);
    else
        require(memcmp(&told->nibble, &none.nibble, 6) == 0, "256 colours",
                "parts of the palette are told");
}

static void count(const zak_dot_source *told)
{
    seen.display += told->is_display;
    seen.others += !told->is_display;
    seen.text += told->is_text;
    seen.graphics += !told->is_text;
    seen.cursor += told->is_cursor;
    seen.blinked += told->is_blinked_away;
    seen.underlined += told->is_underlined;
    seen.glyph += told->is_glyph_dot;
    seen.foreground += told->is_foreground;
    seen.panned += told->panning != 0;
    seen.colours_16 += told->has_palette;
    seen.colours_256 += !told->has_palette;
    seen.wide += told->is_colour_select_wide;
    seen.overscan += !told->is_palette_shown;
    seen.off += told->is_screen_off;
    seen.masked += told->entry != told->number;
}

/* Asks for the dot at the card's beam, and keeps some of the answers. */
static void ask_at_beam(void)
{
    zak_beam beam;
    require(zak_read_beam(&card, &beam) == ZAK_OK, "zak_read_beam", "it fails");
    zak_dot_source source = source_at(&beam);
    if (source.is_display) {
        require(used + 3 <= sizeof rgb, "a frame", "it has too many dots");
        memcpy(rgb + used, &source.colour, 3);
        used += 3;
        widths[beam.line]++;
    }
    if (random_below(37) == 0) {
        check_source(&source);
        beam.rows = (uint16_t)random_below(1025);
        if (asked_count < MOST_ASKED)
            asked[asked_count++] = (struct asked){beam, source};
    }
    count(&source);
    compared++;
}

static void ask_again(const char *when)
{
    for (size_t i = 0; i < asked_count; i++) {
        zak_dot_source source = source_at(&asked[i].beam);
        require(memcmp(&source, &asked[i].source, sizeof source) == 0, when,
                "something else is told of a dot");
    }
}

/* Lets a frame pass dot by dot, from its first one. */
static void compare_frame(const char *about)
{
    zak_timing timing;
    size_t drawn_used = 0, state_len = saved(&card, state);
    read_all();
    memset(widths, 0, sizeof widths);
    used = asked_count = 0;
    require(zak_clock(&card, &timing) == ZAK_OK, about, "zak_clock fails");
    for (uint32_t dot = 0; dot < timing.to_frame; dot++) {
        ask_at_beam();
        require(zak_advance(&card, 1) == ZAK_OK, about, "zak_advance fails");
    }
    require(zak_peek(&card, drawn_widths, drawn, sizeof drawn, &drawn_used) == ZAK_OK, about,
            "zak_peek fails");
    require(memcmp(widths, drawn_widths, sizeof widths) == 0, about, "lines have other widths");
    require(drawn_used == used && memcmp(rgb, drawn, used) == 0, about, "a dot has another colour");
    ask_again("a dot of a frame that has passed");
    require(zak_restore(&card, state, state_len) == ZAK_OK, about, "zak_restore fails");
    ask_again("a dot of a frame to come");
}

static void call_bios(uint16_t ax)
{
    static const uint8_t none[1];
    static uint8_t table[ZAK_MOST_TABLE];
    zak_regs regs = {ax, 0, 0, 0};
    size_t len;
    require(zak_int10(&card, &regs, none, 0, table, sizeof table, &len) == ZAK_OK, "zak_int10",
            "it fails");
}

/* Fills what the mode shows with pseudo-random bytes. */
static void fill(void)
{
    static uint8_t bytes[65536];
    size_t decoded;
    for (size_t i = 0; i < sizeof bytes; i++)
        bytes[i] = (uint8_t)random_below(256);
    for (uint8_t map = 1; map < 16; map = (uint8_t)(2 * map)) {
        zak_read_registers(&card, &registers);
        if (registers.gfx[6] & 1)
            zak_out_word(&card, 0x3C4, (uint16_t)(256 * map + 2));
        zak_put_bytes(&card, 0xA0000, bytes + map, 65000, false, &decoded);
        zak_put_bytes(&card, 0xB0000, bytes + map, 65000, false, &decoded);
    }
}

/* Writes a register behind an index. Values that are left out are refused. */
static void write(uint16_t port, unsigned index, unsigned value)
{
    zak_out(&card, port, (uint8_t)index);
    zak_out(&card, (uint16_t)(port + 1), (uint8_t)value);
}

static void write_attribute(unsigned index, unsigned value)
{
    uint8_t status;
    zak_in(&card, 0x3DA, &status);
    zak_in(&card, 0x3BA, &status);
    zak_out(&card, 0x3C0, (uint8_t)index);
    zak_out(&card, 0x3C0, (uint8_t)value);
}

/* Frames of few lines, with other rows of characters and another start. */
static void stir_frame(uint16_t port)
{
    write(port, 0x11, 0);
    write(port, 0x06, 20 + random_below(20));
    write(port, 0x07, random_below(2) ? 0x10 : 0);
    write(port, 0x12, 16 + random_below(16));
    write(port, 0x09, (random_below(4) ? random_below(32) : 15) | (random_below(4) ? 0 : 0x80));
    write(port, 0x08, random_below(2) ? random_below(128) : 0);
    write(port, 0x0C, random_below(256));
    write(port, 0x0D, random_below(256));
    write(port, 0x13, random_below(256));
    write(port, 0x14, random_below(256) & 0xDF);
    write(port, 0x17, random_below(256) | 3);
    write(port, 0x18, random_below(64));
}

/* A cursor on the first rows, as the start address has them. */
static void stir_cursor(uint16_t port)
{
    zak_read_registers(&card, &registers);
    unsigned start = 256u * registers.crtc[0x0C] + registers.crtc[0x0D] + random_below(160);
    write(port, 0x0A, random_below(4));
    write(port, 0x0B, random_below(128));
    write(port, 0x0E, start >> 8 & 255);
    write(port, 0x0F, start & 255);
}

static void stir_colours(void)
{
    for (unsigned index = 0; index < 16; index++)
        write_attribute(index, random_below(64));
    write_attribute(0x10, random_below(256));
    write_attribute(0x11, random_below(256));
    write_attribute(0x12, random_below(2) ? 15 : random_below(16));
    write_attribute(0x13, random_below(16));
    write_attribute(0x14, random_below(16));
    if (random_below(6))
        write_attribute(0x30, random_below(256));
    for (unsigned byte = 0; byte < 768; byte++)
        zak_out(&card, 0x3C9, (uint8_t)random_below(64));
    zak_out(&card, 0x3C6, (uint8_t)(random_below(2) ? 255 : random_below(256)));
}

static void stir(void)
{
    zak_bda bda;
    require(zak_read_bda(&card, &bda) == ZAK_OK, "zak_read_bda", "it fails");
    stir_frame(bda.crtc_address);
    stir_cursor(bda.crtc_address);
    stir_colours();
    write(0x3C4, 1, (random_below(2) ? 1u : 0u) | (random_below(6) ? 0 : 0x20));
    write(0x3C4, 3, random_below(64));
    if (random_below(4) == 0)
        write(0x3CE, 5, random_below(256));
    if (random_below(4) == 0)
        write(0x3CE, 6, random_below(16));
    /* Characters blink by the number of the frame. */
    for (uint32_t frames = random_below(32); frames > 0; frames--)
        zak_skip_frame(&card);
}

static void require_all_seen(void)
{
    const unsigned long *counts = (const unsigned long *)&seen;
    for (size_t i = 0; i < sizeof seen / sizeof *counts; i++)
        require(counts[i] > 100, "all dots", "there are few of a kind");
}

int main(int argc, char **argv)
{
    static const uint8_t modes[] = {3, 7, 0x0D, 0x10, 0x12, 0x13};
    if (!begin(argc, argv, 3))
        return 2;
    for (size_t i = 0; i < sizeof modes; i++) {
        call_bios(modes[i]);
        fill();
        zak_skip_frame(&card);
        compare_frame("a frame of a mode");
    }
    for (int n = atoi(argv[2]); n > 0; n--) {
        call_bios(modes[random_below(sizeof modes)]);
        fill();
        stir();
        zak_skip_frame(&card);
        compare_frame("a frame of other registers");
    }
    require_all_seen();
    zak_close(&card);
    printf("%lu\n", compared);
    return 0;
}
