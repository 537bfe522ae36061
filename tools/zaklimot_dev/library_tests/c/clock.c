/* zak_clock against the dots themselves: pseudo-random registers, and dots up to the events that it
 * tells, some one at a time. Prints how many settings were tried, or what was wrong.
 *
 *     clock FONTS SETTINGS */
#include <stdio.h>
#include <stdlib.h>

#include "zaklimot.h"

/* An event further away than this is not waited for, and one nearer than that is waited for dot by
 * dot. */
#define FAR_AWAY 60000u
#define NEAR 100u

static uint8_t fonts[ZAK_FONTS_SIZE];
static zak_card card = ZAK_CARD_INIT;
static uint32_t random_state = 1;
static unsigned long setting;

static uint32_t random_below(uint32_t limit)
{
    random_state = 1664525u * random_state + 1013904223u;
    return (random_state >> 8) % limit;
}

static void require(bool holds, const char *what)
{
    if (holds)
        return;
    printf("setting %lu: %s\n", setting, what);
    exit(1);
}

/* What is seen of the card without the clock. */
struct seen {
    uint8_t display, retrace;
    zak_beam beam;
};

static struct seen look(void)
{
    struct seen seen;
    uint8_t status;
    require(zak_in(&card, 0x3DA, &status) == ZAK_OK, "status can't be read");
    require(zak_read_beam(&card, &seen.beam) == ZAK_OK, "the beam can't be read");
    seen.display = status & 0x01;
    seen.retrace = status & 0x08;
    return seen;
}

static zak_timing timing_of(void)
{
    zak_timing timing;
    require(zak_clock(&card, &timing) == ZAK_OK, "zak_clock fails");
    return timing;
}

static void set_crtc(uint8_t index, uint8_t value)
{
    require(zak_out_word(&card, 0x3D4, (uint16_t)(256 * value + index)) == ZAK_OK, "crtc");
}

/* Registers that move the beam. Most frames have few lines, so that their events are near. */
static void set_registers(void)
{
    bool is_low = random_below(8) != 0;
    set_crtc(0x11, (uint8_t)random_below(16));
    for (uint8_t index = 0; index <= 1; index++)
        set_crtc(index, (uint8_t)random_below(random_below(2) ? 256 : 12));
    set_crtc(0x07, (uint8_t)(random_below(256) & (is_low ? 0x10 : 0xFF)));
    static const uint8_t LINES[] = {0x06, 0x09, 0x10, 0x12, 0x18};
    for (size_t i = 0; i < sizeof LINES; i++)
        set_crtc(LINES[i], (uint8_t)random_below(is_low ? 20 : 256));
    uint8_t misc = (uint8_t)(random_below(256) | 0x01);
    require(zak_out(&card, 0x3C2, misc) == ZAK_OK, "misc");
    uint8_t mode = (uint8_t)(random_below(2) + 8 * random_below(2));
    require(zak_out_word(&card, 0x3C4, (uint16_t)(256 * mode + 1)) == ZAK_OK, "clocking mode");
    uint32_t rate = (misc >> 2 & 3) == 1 ? 28322000 : 25175000;
    zak_timing timing = timing_of();
    require(timing.rate == rate && timing.rate_divisor == (mode & 8 ? 2u : 1u), "rate");
    require(timing.frame_dots == timing.lines * timing.line_dots, "dots of a frame");
}

/* Dots left to an event after some others: none tell of another event. */
static bool is_left(uint32_t before, uint32_t after, uint32_t dots)
{
    return before == ZAK_NEVER ? after == ZAK_NEVER : before <= dots || after == before - dots;
}

/* After so many dots, no event that is further away has come. */
static void pass(const zak_timing *start, const struct seen *first, uint32_t dots)
{
    struct seen seen = look();
    zak_timing now = timing_of();
    require(dots >= start->to_display || seen.display == first->display, "display changes early");
    require(dots >= start->to_retrace || seen.retrace == first->retrace, "retrace changes early");
    require(dots >= start->to_frame || seen.beam.frame == first->beam.frame, "frame ends early");
    require(is_left(start->to_display, now.to_display, dots), "other dots to display");
    require(is_left(start->to_retrace, now.to_retrace, dots), "other dots to retrace");
    require(is_left(start->to_frame, now.to_frame, dots), "other dots to the frame's end");
}

/* Just then the event has come. */
static void arrive(const zak_timing *start, const struct seen *first, uint32_t dots)
{
    struct seen seen = look();
    require(dots != start->to_display || seen.display != first->display, "display stays");
    require(dots != start->to_retrace || seen.retrace != first->retrace, "retrace stays");
    if (dots != start->to_frame)
        return;
    require(seen.beam.frame == (first->beam.frame + 1) % 32, "the frame goes on");
    require(seen.beam.line + seen.beam.character + seen.beam.dot == 0, "no frame begins");
}

static void advance(uint32_t dots)
{
    require(zak_advance(&card, dots) == ZAK_OK, "advance");
}

/* Waits for one of the events: dot by dot if it is near, else in two parts. */
static void wait_for(uint32_t dots)
{
    zak_timing start = timing_of();
    struct seen first = look();
    uint32_t part = random_below(dots);
    for (uint32_t dot = 1; dots < NEAR && dot < dots; dot++) {
        advance(1);
        pass(&start, &first, dot);
    }
    if (dots >= NEAR) {
        advance(part);
        pass(&start, &first, part);
        advance(dots - 1 - part);
        pass(&start, &first, dots - 1);
    }
    advance(1);
    pass(&start, &first, dots);
    arrive(&start, &first, dots);
}

static void wait_for_all(void)
{
    zak_timing timing = timing_of();
    uint32_t events[] = {timing.to_display, timing.to_retrace, timing.to_frame};
    uint32_t chosen = events[random_below(3)];
    if (chosen <= FAR_AWAY)
        wait_for(chosen);
    else
        wait_for(timing.to_display <= FAR_AWAY ? timing.to_display : 1 + random_below(FAR_AWAY));
}

int main(int argc, char **argv)
{
    FILE *file = argc == 3 ? fopen(argv[1], "rb") : NULL;
    if (!file || fread(fonts, 1, sizeof fonts, file) != sizeof fonts)
        return 2;
    fclose(file);
    require(zak_open(&card, fonts, sizeof fonts) == ZAK_OK, "open");
    require(zak_out(&card, 0x3C2, 0x01) == ZAK_OK, "misc");
    unsigned long settings = strtoul(argv[2], NULL, 10);
    for (setting = 1; setting <= settings; setting++) {
        set_registers();
        wait_for_all();
    }
    printf("%lu\n", settings);
    zak_close(&card);
    return 0;
}
