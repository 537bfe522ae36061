/* Whether a call that had no room has written the numbers all the same. */
static bool is_told(zak_status status)
{
    return status == ZAK_OK || status == ZAK_NO_ROOM;
}

static zak_status frame(module *self, zak_size *size, uint8_t *rgb, size_t rgb_cap)
{
    self->outside = rgb;
    zak_status status = module_zak_frame(self, CARD, TOLD, OUTSIDE, rgb_cap);
    if (is_told(status))
        *size = (zak_size){told32(self, 0), told32(self, 4)};
    return status;
}

zak_status zak_frame(zak_card *card, zak_size *size, uint8_t *rgb, size_t rgb_cap)
{
    BEGIN(card);
    END(card, frame(self, size, rgb, rgb_cap));
}

/* A picture in words lies on the desk without what the caller's rows have beside it. */
typedef struct canvas {
    uint32_t *pixels;
    size_t pitch;     /* of the caller's rows, in words */
    size_t desk_rows; /* those that the caller has room for, */
    u32 desk_pitch;   /* and how they lie on the desk */
} canvas;

static canvas canvas_of(uint32_t *pixels, size_t pixels_cap, size_t pitch)
{
    size_t rows = pitch ? least(pixels_cap / pitch, ZAK_HIGHEST) : 0;
    return (canvas){pixels, pitch, rows, (u32)least(pitch, ZAK_WIDEST)};
}

static void get_words(module *self, uint32_t *words, u32 at, size_t count)
{
#if LOW_BYTE_FIRST
    get_back(self, words, at, 4 * count);
#else
    for (size_t i = 0; i < count; i++)
        words[i] = number32(self->memory + at + 4 * i);
#endif
}

static void put_words(module *self, u32 at, const uint32_t *words, size_t count)
{
#if LOW_BYTE_FIRST
    hand_over(self, at, words, 4 * count);
#else
    for (size_t i = 0; i < count; i++)
        put32(self->memory + at + 4 * i, words[i]);
#endif
}

static u32 row_on_desk(const canvas *canvas, uint32_t y)
{
    return DESK + 4 * canvas->desk_pitch * y;
}

static void get_rows(module *self, const canvas *canvas, uint32_t width, zak_rows rows)
{
    for (uint32_t y = rows.first; y < rows.first + rows.count; y++)
        get_words(self, canvas->pixels + canvas->pitch * y, row_on_desk(canvas, y), width);
}

/* Lays on the desk all words that the picture may get: how large it is shows only once it is
 * drawn. */
static void put_rows(module *self, const canvas *canvas)
{
    for (uint32_t y = 0; y < canvas->desk_rows; y++)
        put_words(self, row_on_desk(canvas, y), canvas->pixels + canvas->pitch * y,
                  canvas->desk_pitch);
}

static zak_status frame_xrgb(module *self, zak_size *size, const canvas *canvas)
{
    zak_status status = module_zak_frame_xrgb(
        self, CARD, TOLD, DESK, canvas->desk_rows * canvas->desk_pitch, canvas->desk_pitch);
    if (is_told(status))
        *size = (zak_size){told32(self, 0), told32(self, 4)};
    if (status == ZAK_OK)
        get_rows(self, canvas, size->width, (zak_rows){0, size->height});
    return status;
}

zak_status zak_frame_xrgb(zak_card *card, zak_size *size, uint32_t *pixels, size_t pixels_cap,
                          size_t pitch)
{
    canvas canvas = canvas_of(pixels, pixels_cap, pitch);
    BEGIN(card);
    END(card, frame_xrgb(self, size, &canvas));
}

static zak_picture told_picture(module *self)
{
    return (zak_picture){told32(self, 0), told32(self, 4), told32(self, 8), told32(self, 12)};
}

static zak_status frame_words(module *self, uint32_t flags, zak_picture *picture,
                              const canvas *canvas)
{
    zak_status status = module_zak_frame_words(
        self, CARD, flags, TOLD, DESK, canvas->desk_rows * canvas->desk_pitch, canvas->desk_pitch);
    if (is_told(status))
        *picture = told_picture(self);
    if (status == ZAK_OK)
        get_rows(self, canvas, picture->width, (zak_rows){0, picture->height});
    return status;
}

zak_status zak_frame_words(zak_card *card, uint32_t flags, zak_picture *picture, uint32_t *pixels,
                           size_t pixels_cap, size_t pitch)
{
    canvas canvas = canvas_of(pixels, pixels_cap, pitch);
    BEGIN(card);
    END(card, frame_words(self, flags, picture, &canvas));
}

/* Where a call tells which rows have changed: behind the picture. */
#define TOLD_ROWS 16u

static zak_status frame_update(module *self, uint32_t flags, zak_picture *picture,
                               const canvas *canvas, zak_rows *changed)
{
    put_rows(self, canvas);
    zak_status status = module_zak_frame_update(
        self, CARD, flags, TOLD, DESK, canvas->desk_rows * canvas->desk_pitch, canvas->desk_pitch,
        TOLD + TOLD_ROWS);
    if (is_told(status))
        *picture = told_picture(self);
    if (status == ZAK_OK) {
        *changed = (zak_rows){told32(self, TOLD_ROWS), told32(self, TOLD_ROWS + 4)};
        get_rows(self, canvas, picture->width, *changed);
    }
    return status;
}

zak_status zak_frame_update(zak_card *card, uint32_t flags, zak_picture *picture, uint32_t *pixels,
                            size_t pixels_cap, size_t pitch, zak_rows *changed)
{
    canvas canvas = canvas_of(pixels, pixels_cap, pitch);
    BEGIN(card);
    END(card, frame_update(self, flags, picture, &canvas, changed));
}

/* Where a call tells the size of a picture: behind the palette. */
#define TOLD_SIZE (4u + 4u * 256u)

static zak_status frame_indexed(module *self, zak_size *size, zak_palette *palette,
                                uint8_t *numbers, size_t numbers_cap)
{
    zak_status status = module_zak_frame_indexed(self, CARD, TOLD + TOLD_SIZE, TOLD, DESK,
                                                 least(numbers_cap, ZAK_WIDEST * ZAK_HIGHEST));
    if (is_told(status) || status == ZAK_MANY_COLOURS)
        *size = (zak_size){told32(self, TOLD_SIZE), told32(self, TOLD_SIZE + 4)};
    if (status == ZAK_OK) {
        palette->len = told32(self, 0);
        get_words(self, palette->colours, TOLD + 4, 256);
        get_back(self, numbers, DESK, (size_t)size->width * size->height);
    }
    return status;
}

zak_status zak_frame_indexed(zak_card *card, zak_size *size, zak_palette *palette,
                             uint8_t *numbers, size_t numbers_cap)
{
    BEGIN(card);
    END(card, frame_indexed(self, size, palette, numbers, numbers_cap));
}

static zak_status line(module *self, uint32_t flags, zak_scan_line *line, uint32_t *pixels,
                       size_t pixels_cap)
{
    zak_status status =
        module_zak_line(self, CARD, flags, TOLD, DESK, least(pixels_cap, ZAK_WIDEST));
    if (is_told(status))
        *line = (zak_scan_line){told32(self, 0), told32(self, 4), told8(self, 8) != 0};
    if (status == ZAK_OK)
        get_words(self, pixels, DESK, line->width);
    return status;
}

zak_status zak_line(zak_card *card, uint32_t flags, zak_scan_line *scan_line, uint32_t *pixels,
                    size_t pixels_cap)
{
    BEGIN(card);
    END(card, line(self, flags, scan_line, pixels, pixels_cap));
}

/* A call that gives dots line by line. */
typedef u32 lines_call(module *, u64, u64, u64, u64, u64);

static zak_status give_lines(module *self, lines_call *call, uint32_t *widths, uint8_t *rgb,
                             size_t rgb_cap, size_t *rgb_used)
{
    self->outside = rgb;
    zak_status status = call(self, CARD, TOLD, OUTSIDE, rgb_cap, DESK);
    if (is_told(status)) {
        get_words(self, widths, TOLD, ZAK_HIGHEST);
        *rgb_used = (size_t)number64(self->memory + DESK);
    }
    return status;
}

zak_status zak_frame_lines(zak_card *card, uint32_t widths[ZAK_HIGHEST], uint8_t *rgb,
                           size_t rgb_cap, size_t *rgb_used)
{
    BEGIN(card);
    END(card, give_lines(self, module_zak_frame_lines, widths, rgb, rgb_cap, rgb_used));
}

zak_status zak_peek(zak_card *card, uint32_t widths[ZAK_HIGHEST], uint8_t *rgb, size_t rgb_cap,
                    size_t *rgb_used)
{
    BEGIN(card);
    END(card, give_lines(self, module_zak_peek, widths, rgb, rgb_cap, rgb_used));
}
