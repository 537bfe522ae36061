/* No window: frames go into files, and keys come from the command line. A key comes two frames
 * after it is asked for, so that what is seen then is in a file. Where the machine waits for a key
 * that will not come, it is switched off once its picture has come to rest.
 *
 * SPDX-License-Identifier: MIT
 */
#include <stdio.h>
#include <stdlib.h>
#include <string.h>

#include "keys.h"
#include "window.h"
#include "zaklimot.h"

#define MOST_PATH 4096
#define FRAMES_OF_KEY 2

static struct wishes wanted;
static unsigned shown;
static uint32_t *last;
static uint32_t last_width, last_height;
static bool is_asked, is_waited_for, is_closed;
static unsigned key_comes; /* with this frame, where a key is asked for */

bool window_open(const struct wishes *wishes)
{
    wanted = *wishes;
    last = calloc((size_t)ZAK_WIDEST * ZAK_HIGHEST, sizeof *last);
    return last != NULL;
}

void window_close(void)
{
    free(last);
    last = NULL;
}

/* Keeps a frame; whether it is another than the one before. */
static bool is_new(const uint32_t *pixels, uint32_t width, uint32_t height, uint32_t pitch)
{
    bool differs = width != last_width || height != last_height;
    last_width = width;
    last_height = height;
    for (uint32_t y = 0; y < height; y++) {
        uint32_t *row = last + (size_t)y * width;
        const uint32_t *given = pixels + (size_t)y * pitch;
        differs = differs || memcmp(row, given, 4 * (size_t)width) != 0;
        memcpy(row, given, 4 * (size_t)width);
    }
    return differs;
}

static void write_frame(void)
{
    char path[MOST_PATH];
    snprintf(path, sizeof path, "%s/%06u.ppm", wanted.pictures, shown);
    FILE *file = fopen(path, "wb");
    if (!file)
        return;
    fprintf(file, "P6\n%u %u\n255\n", (unsigned)last_width, (unsigned)last_height);
    for (size_t i = 0; i < (size_t)last_width * last_height; i++) {
        fputc((int)(last[i] >> 16 & 0xFF), file);
        fputc((int)(last[i] >> 8 & 0xFF), file);
        fputc((int)(last[i] & 0xFF), file);
    }
    fclose(file);
}

void window_show(const uint32_t *pixels, uint32_t width, uint32_t height, uint32_t pitch,
                 uint64_t time)
{
    (void)time;
    bool differs = is_new(pixels, width, height, pitch);
    shown++;
    if (differs && wanted.pictures)
        write_frame();
    is_closed = is_waited_for && !differs;
}

bool window_is_closed(void)
{
    return is_closed;
}

uint16_t window_key(bool is_taken)
{
    if (!wanted.keys || !*wanted.keys) {
        is_waited_for = is_waited_for || is_taken;
        return 0;
    }
    if (!is_asked)
        key_comes = shown + FRAMES_OF_KEY;
    is_asked = true;
    if (shown < key_comes)
        return 0;
    uint16_t key = key_of_character(*wanted.keys);
    if (is_taken) {
        wanted.keys++;
        is_asked = false;
    }
    return key;
}
