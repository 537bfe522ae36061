/* Two cards in two threads draw what one card draws alone, and so does a card that goes from thread
 * to thread. Two more in two threads draw it by the slices of a script that each assembles. */
#include <pthread.h>
#include <stdint.h>
#include <stdio.h>
#include <stdlib.h>
#include <string.h>

#include "zaklimot.h"

#define PUTS 2000000u
#define PARTS 4u
#define PIXELS 64000u
#define MOST_LINE 16u
#define SLICE 1000u

static uint8_t fonts[ZAK_FONTS_SIZE];

/* A card with what it has drawn, and what its calls answered. */
struct drawing {
    zak_card card;
    uint32_t at;
    zak_status status;
    uint64_t sum;
};

static void *open_card(void *given)
{
    static const uint8_t none[1];
    struct drawing *drawing = given;
    uint8_t table[ZAK_MOST_TABLE];
    zak_regs regs = {0x0013, 0, 0, 0};
    size_t len;
    drawing->status |= zak_open(&drawing->card, fonts, sizeof fonts);
    drawing->status |= zak_int10(&drawing->card, &regs, none, 0, table, sizeof table, &len);
    return NULL;
}

/* The next part of the bytes that are put. */
static void *put_part(void *given)
{
    struct drawing *drawing = given;
    for (uint32_t i = 0; i < PUTS / PARTS; i++, drawing->at++)
        drawing->status |=
            zak_put(&drawing->card, 0xA0000 + drawing->at % 64000, (uint8_t)(drawing->at >> 7));
    return NULL;
}

static void *close_card(void *given)
{
    struct drawing *drawing = given;
    uint8_t *rgb = malloc(ZAK_MOST_RGB);
    zak_size size = {0, 0};
    if (!rgb)
        exit(2);
    drawing->status |= zak_frame(&drawing->card, &size, rgb, ZAK_MOST_RGB);
    drawing->sum = size.width;
    for (size_t i = 0; i < 3 * (size_t)size.width * size.height; i++)
        drawing->sum = 31 * drawing->sum + rgb[i];
    drawing->status |= zak_close(&drawing->card);
    free(rgb);
    return NULL;
}

static void *draw(void *given)
{
    open_card(given);
    for (uint32_t part = 0; part < PARTS; part++)
        put_part(given);
    return close_card(given);
}

/* The text of the puts that the others make last, which leave every pixel. */
static char *text_of_puts(void)
{
    char *text = malloc(PIXELS * MOST_LINE);
    size_t len = 0;
    if (!text)
        exit(2);
    for (uint32_t at = PUTS - PIXELS; at < PUTS; at++)
        len += (size_t)snprintf(text + len, MOST_LINE, "put %X %X\n",
                                (unsigned)(0xA0000 + at % PIXELS), (unsigned)(uint8_t)(at >> 7));
    return text;
}

static void take_slices(struct drawing *drawing, const uint8_t *script, size_t script_len)
{
    uint8_t report[MOST_LINE * SLICE];
    size_t len, place, taken = SLICE;
    for (uint32_t first = 0; drawing->status == ZAK_OK && taken == SLICE; first += SLICE)
        drawing->status |= zak_run_on(&drawing->card, script, script_len, first, SLICE, report,
                                      sizeof report, &len, &taken, &place);
}

static void *draw_slices(void *given)
{
    struct drawing *drawing = given;
    char *text = text_of_puts();
    uint8_t *script = malloc(PIXELS * MOST_LINE);
    size_t len, line;
    if (!script)
        exit(2);
    open_card(drawing);
    drawing->status |= zak_assemble((const uint8_t *)text, strlen(text), script,
                                    PIXELS * MOST_LINE, &len, &line);
    take_slices(drawing, script, len);
    free(script);
    free(text);
    return close_card(drawing);
}

static pthread_t start(void *(*work)(void *), struct drawing *drawing)
{
    pthread_t thread;
    if (pthread_create(&thread, NULL, work, drawing) != 0)
        exit(2);
    return thread;
}

static void in_thread(void *(*work)(void *), struct drawing *drawing)
{
    pthread_join(start(work, drawing), NULL);
}

int main(int argc, char **argv)
{
    static struct drawing alone, one, other, moved, sliced, resliced;
    FILE *file = argc == 2 ? fopen(argv[1], "rb") : NULL;
    if (!file || fread(fonts, 1, sizeof fonts, file) != sizeof fonts)
        return 2;
    fclose(file);
    draw(&alone);
    pthread_t first = start(draw, &one), second = start(draw, &other);
    pthread_join(first, NULL);
    pthread_join(second, NULL);
    in_thread(open_card, &moved);
    for (uint32_t part = 0; part < PARTS; part++)
        in_thread(put_part, &moved);
    in_thread(close_card, &moved);
    first = start(draw_slices, &sliced);
    second = start(draw_slices, &resliced);
    pthread_join(first, NULL);
    pthread_join(second, NULL);
    printf("statuses %u %u %u %u %u %u\n", (unsigned)alone.status, (unsigned)one.status,
           (unsigned)other.status, (unsigned)moved.status, (unsigned)sliced.status,
           (unsigned)resliced.status);
    printf("two at a time %s\n", one.sum == alone.sum && other.sum == alone.sum ? "alike" : "differ");
    printf("one that moves %s\n", moved.sum == alone.sum ? "alike" : "differs");
    bool are_alike = sliced.sum == alone.sum && resliced.sum == alone.sum;
    printf("two by slices %s\n", are_alike ? "alike" : "differ");
    return 0;
}
