/* A PC whose display is the library: pc FLOPPY FONTS [--rom FILE] [--keys TEXT] [--seconds N]
 *     [--pictures FOLDER]
 *
 * SPDX-License-Identifier: MIT
 */
#include <stdio.h>
#include <stdlib.h>
#include <string.h>

#include "floppy.h"
#include "machine.h"
#include "window.h"

#define MOST_ROM 0x10000u
#define NANOSECONDS 1000000000u

static const char USAGE[] =
    "pc FLOPPY FONTS [--rom FILE] [--keys TEXT] [--seconds N] [--pictures FOLDER]\n";

struct words {
    const char *floppy, *fonts, *rom;
    uint32_t seconds; /* of the machine's time; 0 for no end */
    struct wishes wishes;
};

/* Reads a whole number of seconds. */
static bool read_seconds(const char *word, uint32_t *seconds)
{
    char *end;
    unsigned long number = strtoul(word, &end, 10);
    *seconds = (uint32_t)number;
    return *word >= '0' && *word <= '9' && *end == '\0' && number <= UINT32_MAX;
}

static bool read_words(int argc, char **argv, struct words *words)
{
    if (argc < 3 || argc % 2 == 0)
        return false;
    *words = (struct words){.floppy = argv[1], .fonts = argv[2]};
    for (int i = 3; i < argc; i += 2) {
        const char *name = argv[i], *value = argv[i + 1];
        if (strcmp(name, "--rom") == 0)
            words->rom = value;
        else if (strcmp(name, "--keys") == 0)
            words->wishes.keys = value;
        else if (strcmp(name, "--pictures") == 0)
            words->wishes.pictures = value;
        else if (strcmp(name, "--seconds") != 0 || !read_seconds(value, &words->seconds))
            return false;
    }
    return true;
}

/* Reads a file of at most so many bytes; 0 where there is none. */
static size_t read_file(const char *path, uint8_t *bytes, size_t most)
{
    FILE *file = fopen(path, "rb");
    size_t len = file ? fread(bytes, 1, most, file) : 0;
    if (file)
        fclose(file);
    return len;
}

static int fail(const char *what, const char *path)
{
    fprintf(stderr, "pc: %s: %s\n", path, what);
    return 1;
}

static int run(struct machine *machine, const struct words *words)
{
    static uint8_t fonts[ZAK_FONTS_SIZE + 1], rom[MOST_ROM];
    uint8_t sector[FLOPPY_SECTOR_SIZE];
    size_t fonts_len = read_file(words->fonts, fonts, sizeof fonts);
    size_t rom_len = words->rom ? read_file(words->rom, rom, sizeof rom) : 0;
    if (words->rom && rom_len == 0)
        return fail("it is no ROM", words->rom);
    if (!floppy_open(words->floppy) || !floppy_read(0, 0, 1, sector))
        return fail("it can't be read", words->floppy);
    if (display_open(&machine->display, fonts, fonts_len) != ZAK_OK)
        return fail("the card can't be opened with it", words->fonts);
    if (!window_open(&words->wishes))
        return fail("there is no window", words->floppy);
    if (!machine_open(machine, words->rom ? rom : NULL, rom_len))
        return fail("the processor can't be made", words->floppy);
    if (words->seconds)
        machine->end = (uint64_t)words->seconds * NANOSECONDS;
    machine_run(machine, sector);
    printf("%llu instructions, %u frames were shown\n", (unsigned long long)machine->instructions,
           machine->display.frames);
    machine_close(machine);
    display_close(&machine->display);
    window_close();
    floppy_close();
    return 0;
}

int main(int argc, char **argv)
{
    struct words words;
    if (!read_words(argc, argv, &words)) {
        fputs(USAGE, stderr);
        return 2;
    }
    struct machine *machine = calloc(1, sizeof *machine);
    int status = machine ? run(machine, &words) : fail("there is no memory", words.floppy);
    free(machine);
    return status;
}
