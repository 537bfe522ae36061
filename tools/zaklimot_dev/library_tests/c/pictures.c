/* zak_frame_words against zak_frame, in each mode and over pseudo-random registers: two cards in
 * one state, of which one gives bytes and the other words in each form. zak_frame_update against
 * zak_frame_words: its words, and the rows that differ from what its buffer had. Prints how many
 * pictures were compared, or what was wrong.
 *
 *     pictures FONTS SETTINGS */
#include <stdio.h>
#include <stdlib.h>
#include <string.h>

#include "zaklimot.h"

#define FLAGS 4u
#define UNTOUCHED 0x12345678u
#define MOST_WORDS (ZAK_WIDEST * ZAK_HIGHEST)

/* What the screen of a mode is with ZAK_ONCE. */
struct known {
    uint8_t mode;
    zak_picture picture;
};

static const struct known known[] = {
    {0x03, {720, 400, 1, 1}}, {0x07, {720, 400, 1, 1}}, {0x0D, {320, 200, 1, 2}},
    {0x10, {640, 350, 1, 1}}, {0x12, {640, 480, 1, 1}}, {0x13, {320, 200, 2, 2}},
};

static uint8_t fonts[ZAK_FONTS_SIZE], state[ZAK_MOST_STATE], rgb[ZAK_MOST_RGB];
static uint32_t pixels[2 * MOST_WORDS];
/* The words that zak_frame_update brings up to date, and what they were. */
static uint32_t buffer[2 * MOST_WORDS + 1], before[2 * MOST_WORDS + 1];
static zak_card card = ZAK_CARD_INIT, other = ZAK_CARD_INIT;
static uint32_t random_state = 1;
static unsigned long compared;

static uint32_t random_below(uint32_t limit)
{
    random_state = 1664525u * random_state + 1013904223u;
    return (random_state >> 8) % limit;
}

static void require(bool holds, const char *what)
{
    if (holds)
        return;
    printf("picture %lu: %s\n", compared, what);
    exit(1);
}

static void set_mode(uint8_t mode)
{
    static const uint8_t none[1];
    uint8_t table[1];
    size_t len;
    zak_regs regs = {mode, 0, 0, 0};
    require(zak_int10(&card, &regs, none, 0, table, sizeof table, &len) == ZAK_OK, "mode set");
}

static uint8_t graphics_register(uint8_t index)
{
    zak_registers registers;
    require(zak_read_registers(&card, &registers) == ZAK_OK, "registers can't be read");
    return registers.gfx[index];
}

/* Bytes in the window, so that dots and lines differ. */
static void fill_memory(void)
{
    for (uint32_t i = 0; i < 2000; i++) {
        zak_put(&card, 0xA0000 + random_below(0x8000), (uint8_t)random_below(256));
        zak_put(&card, 0xB8000 + random_below(0x1000), (uint8_t)random_below(256));
    }
}

/* Registers that choose how large pixels are, and how large the picture. */
static void set_registers(void)
{
    uint8_t shift = (uint8_t)(graphics_register(5) & 0x9F);
    zak_out_word(&card, 0x3D4, 0x0011);
    zak_out_word(&card, 0x3D4, (uint16_t)(0x09 | random_below(256) << 8));
    zak_out_word(&card, 0x3D4, (uint16_t)(0x01 | random_below(80) << 8));
    zak_out_word(&card, 0x3D4, (uint16_t)(0x12 | random_below(256) << 8));
    zak_out_word(&card, 0x3CE, (uint16_t)(0x05 | (shift | (random_below(2) ? 0x40 : 0)) << 8));
    zak_out_word(&card, 0x3C4, (uint16_t)(0x01 | random_below(2) << 8));
}

static uint32_t eight_bits(uint8_t six)
{
    return 4u * six + six / 16u;
}

/* The word that a dot of the picture in bytes has. */
static uint32_t word_of(size_t dot, uint32_t flags)
{
    const uint8_t *at = rgb + 3 * dot;
    return (flags & ZAK_OPAQUE ? 0xFF000000u : 0) | eight_bits(at[0]) << 16 |
           eight_bits(at[1]) << 8 | eight_bits(at[2]);
}

/* How large the registers say that a pixel is. */
static zak_picture pixel_of(uint32_t flags)
{
    zak_registers registers;
    zak_picture pixel = {0, 0, 1, 1};
    require(zak_read_registers(&card, &registers) == ZAK_OK, "registers can't be read");
    if (!(flags & ZAK_ONCE))
        return pixel;
    bool is_graphics = registers.gfx[6] & 0x01;
    if (is_graphics && registers.gfx[5] & 0x40 && registers.seq[1] & 0x01)
        pixel.across = 2;
    if (is_graphics)
        pixel.down = (registers.crtc[9] & 0x1Fu) + 1;
    if (registers.crtc[9] & 0x80)
        pixel.down *= 2;
    return pixel;
}

/* The words are those of every across-th dot of every down-th line, and what stands beside them is
 * as it was. */
static void compare_words(zak_size size, zak_picture picture, uint32_t flags, size_t pitch)
{
    require(picture.width == (size.width + picture.across - 1) / picture.across, "width");
    require(picture.height == (size.height + picture.down - 1) / picture.down, "height");
    for (size_t y = 0; y < picture.height; y++) {
        for (size_t x = 0; x < pitch; x++) {
            size_t dot = size.width * (y * picture.down) + x * picture.across;
            uint32_t wanted = x < picture.width ? word_of(dot, flags) : UNTOUCHED;
            require(pixels[pitch * y + x] == wanted, "a word differs");
        }
    }
    require(pixels[pitch * picture.height] == UNTOUCHED, "what stands behind was written");
}

/* The rows of a picture from the first that differs between two buffers to the last. */
static zak_rows rows_between(const uint32_t *one, const uint32_t *two, zak_picture picture,
                             size_t pitch)
{
    zak_rows rows = {0, 0};
    for (uint32_t y = 0; y < picture.height; y++) {
        if (memcmp(one + pitch * y, two + pitch * y, 4 * picture.width) == 0)
            continue;
        if (rows.count == 0)
            rows.first = y;
        rows.count = y + 1 - rows.first;
    }
    return rows;
}

/* What the buffer has before a call: mostly the picture's own words, with a few bits of them or of
 * what stands beside them changed, or none; sometimes what an earlier call has left. */
static void vary_buffer(zak_picture picture, size_t pitch, size_t buffer_pitch)
{
    size_t words = buffer_pitch * picture.height;
    if (random_below(4) == 0)
        return;
    for (uint32_t y = 0; y < picture.height; y++)
        memcpy(buffer + buffer_pitch * y, pixels + pitch * y, 4 * picture.width);
    for (uint32_t n = random_below(4); n > 0 && words > 0; n--)
        buffer[random_below((uint32_t)words)] ^= 1u << random_below(32);
}

/* A call that gives no picture leaves the buffer, and does not tell any rows. */
static void refuse_update(uint32_t flags, size_t used, size_t cap, size_t pitch, zak_status status)
{
    zak_rows changed = {7, 7};
    zak_picture picture;
    memcpy(before, buffer, 4 * (cap + 1));
    require(zak_restore(&other, state, used) == ZAK_OK, "restore");
    require(zak_frame_update(&other, flags, &picture, buffer, cap, pitch, &changed) == status,
            "an update has another status");
    require(changed.first == 7 && changed.count == 7, "rows without a picture");
    require(memcmp(before, buffer, 4 * (cap + 1)) == 0, "words without a picture");
}

/* The same frame for a buffer that has something: its words are those of `pixels`, and the rows
 * that are told are those that differ from what it had. */
static void compare_update(zak_picture picture, uint32_t flags, size_t pitch, size_t used)
{
    size_t buffer_pitch = random_below(8) ? picture.width + random_below(3)
                                          : ZAK_WIDEST + random_below(ZAK_WIDEST);
    size_t words = buffer_pitch * picture.height;
    zak_picture told = {7, 7, 7, 7};
    zak_rows changed = {7, 7}, wanted;
    vary_buffer(picture, pitch, buffer_pitch);
    if (words > 0 && random_below(4) == 0)
        refuse_update(flags, used, words - 1, buffer_pitch, ZAK_NO_ROOM);
    memcpy(before, buffer, 4 * (words + 1));
    require(zak_restore(&other, state, used) == ZAK_OK, "restore");
    require(zak_frame_update(&other, flags, &told, buffer, words, buffer_pitch, &changed) == ZAK_OK,
            "an update fails");
    require(memcmp(&told, &picture, sizeof told) == 0, "an update tells another picture");
    wanted = rows_between(before, buffer, picture, buffer_pitch);
    require(changed.first == wanted.first && changed.count == wanted.count, "other rows");
    for (size_t y = 0; y < picture.height; y++) {
        size_t at = buffer_pitch * y, beside = at + picture.width;
        require(memcmp(buffer + at, pixels + pitch * y, 4 * picture.width) == 0,
                "a word that was updated differs");
        require(memcmp(buffer + beside, before + beside, 4 * (at + buffer_pitch - beside)) == 0,
                "what stands beside was updated");
    }
    require(buffer[words] == before[words], "what stands behind was updated");
    compared++;
}

/* The palette has the colours of the picture, each once, in the order in which they first appear. */
static void compare_numbers(zak_size size, const zak_palette *palette, const uint8_t *numbers)
{
    uint32_t seen = 0;
    for (size_t i = 0; i < (size_t)size.width * size.height; i++) {
        require(numbers[i] <= seen && numbers[i] < palette->len, "a number is not the next");
        require(palette->colours[numbers[i]] == word_of(i, 0), "a number of another colour");
        seen += numbers[i] == seen;
    }
    require(seen == palette->len, "the palette has a colour without dots");
    for (uint32_t j = 0; j < 256; j++)
        for (uint32_t k = j + 1; k < palette->len; k++)
            require(palette->colours[j] != palette->colours[k], "a colour stands twice");
    for (uint32_t k = palette->len; k < 256; k++)
        require(palette->colours[k] == 0, "a colour behind the last");
}

/* The same frame by numbers of colours. */
static void compare_indexed(zak_size size, zak_status status, size_t used)
{
    static uint8_t numbers[ZAK_WIDEST * ZAK_HIGHEST];
    zak_palette palette = {.len = 999};
    zak_size told = {0, 0};
    require(zak_restore(&other, state, used) == ZAK_OK, "restore");
    require(zak_frame_indexed(&other, &told, &palette, numbers, sizeof numbers) == status, "status");
    compared++;
    if (status != ZAK_OK) {
        require(palette.len == 999, "a palette without a picture");
        return;
    }
    require(told.width == size.width && told.height == size.height, "another size");
    compare_numbers(size, &palette, numbers);
}

/* A frame in each form, each from the same state. */
static zak_picture compare_frames(void)
{
    zak_size size = {0, 0};
    zak_picture picture = {7, 7, 7, 7}, pixel;
    size_t used, pitch;
    require(zak_save(&card, state, sizeof state, &used) == ZAK_OK, "save");
    zak_status status = zak_frame(&card, &size, rgb, sizeof rgb), words;
    for (uint32_t flags = 0; flags < FLAGS; flags++) {
        require(zak_restore(&other, state, used) == ZAK_OK, "restore");
        pixel = pixel_of(flags);
        pitch = size.width / pixel.across + 1 + random_below(3);
        for (size_t i = 0; i <= pitch * size.height; i++)
            pixels[i] = UNTOUCHED;
        words = zak_frame_words(&other, flags, &picture, pixels, MOST_WORDS, pitch);
        require(words == status, "another status");
        if (status != ZAK_OK) {
            refuse_update(flags, used, MOST_WORDS, ZAK_WIDEST, status);
            continue;
        }
        require(picture.across == pixel.across && picture.down == pixel.down, "a pixel's size");
        compare_words(size, picture, flags, pitch);
        compare_update(picture, flags, pitch, used);
        compared++;
    }
    compare_indexed(size, status, used);
    return picture;
}

/* Each dot of the screen is that of its pixel, of which `pixels` has each once. */
static void compare_dots(zak_picture picture)
{
    size_t width = picture.width * picture.across;
    for (size_t y = 0; y < picture.height * picture.down; y++)
        for (size_t x = 0; x < width; x++)
            require(pixels[picture.width * (y / picture.down) + x / picture.across] ==
                        word_of(width * y + x, 0),
                    "a dot is not its pixel's");
}

static void compare_mode(const struct known *mode)
{
    zak_picture picture;
    set_mode(mode->mode);
    fill_memory();
    picture = compare_frames();
    require(memcmp(&picture, &mode->picture, sizeof picture) == 0, "a mode's picture");
    require(zak_frame_words(&other, ZAK_ONCE, &picture, pixels, MOST_WORDS, picture.width) == ZAK_OK,
            "the next frame");
    compare_dots(picture);
}

/* The next frame of mode 13 in a buffer that is kept changes these rows. */
static void require_rows(uint32_t flags, size_t pitch, uint32_t first, uint32_t count)
{
    zak_picture picture;
    zak_rows changed = {7, 7};
    require(zak_frame_update(&card, flags, &picture, buffer, MOST_WORDS, pitch, &changed) == ZAK_OK,
            "a frame of mode 13");
    require(changed.first == first && changed.count == count, "rows of mode 13");
    compared++;
}

/* Rows that are known: pixels that are written between two frames, of one card and of another. */
static void compare_known_rows(void)
{
    set_mode(0x13);
    memset(buffer, 0xFF, sizeof buffer);
    require_rows(ZAK_ONCE, 320, 0, 200);
    require_rows(ZAK_ONCE, 320, 0, 0);
    zak_put(&card, 0xA0000, 1);
    require_rows(ZAK_ONCE, 320, 0, 1);
    zak_put(&card, 0xA0000, 1);
    require_rows(ZAK_ONCE, 320, 0, 0);
    zak_put(&card, 0xA0000 + 320 * 199 + 319, 1);
    require_rows(ZAK_ONCE, 320, 199, 1);
    zak_put(&card, 0xA0000 + 320 * 7, 2);
    zak_put(&card, 0xA0000 + 320 * 100 + 9, 3);
    require_rows(ZAK_ONCE, 320, 7, 94);
    zak_skip_frame(&card);
    require_rows(ZAK_ONCE, 320, 0, 0);
    require_rows(ZAK_ONCE | ZAK_OPAQUE, 320, 0, 200);
    require_rows(0, 640, 0, 400);
    zak_put(&card, 0xA0000 + 320 * 50, 4);
    require_rows(0, 640, 100, 2);
    buffer[640 * 399 + 639] ^= 1;
    require_rows(0, 640, 399, 1);
}

int main(int argc, char **argv)
{
    FILE *file = argc == 3 ? fopen(argv[1], "rb") : NULL;
    if (!file || fread(fonts, 1, sizeof fonts, file) != sizeof fonts)
        return 2;
    fclose(file);
    require(zak_open(&card, fonts, sizeof fonts) == ZAK_OK, "open");
    require(zak_open(&other, fonts, sizeof fonts) == ZAK_OK, "open");
    for (size_t i = 0; i < sizeof known / sizeof *known; i++)
        compare_mode(&known[i]);
    compare_known_rows();
    for (int n = atoi(argv[2]); n > 0; n--) {
        set_mode(known[random_below(sizeof known / sizeof *known)].mode);
        fill_memory();
        set_registers();
        compare_frames();
    }
    zak_close(&card);
    zak_close(&other);
    printf("%lu\n", compared);
    return 0;
}
