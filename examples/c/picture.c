/* Sets mode 13, draws its 256 colours, and writes a picture: picture FONTS PICTURE.ppm */
#include <stdio.h>

#include "zaklimot.h"

static uint8_t fonts[ZAK_FONTS_SIZE], rgb[ZAK_MOST_RGB], table[ZAK_MOST_TABLE];

static zak_status draw(zak_card *card, zak_size *size)
{
    static const uint8_t none[1];
    zak_regs regs = {0x0013, 0, 0, 0}; /* function 00: mode 13 */
    size_t table_len;
    zak_status status = zak_int10(card, &regs, none, 0, table, sizeof table, &table_len);
    for (uint32_t at = 0; status == ZAK_OK && at < 64000; at++) {
        uint32_t x = at % 320, y = at / 320;
        status = zak_put(card, 0xA0000 + at, (uint8_t)(x / 20 + 16 * (2 * y / 25)));
    }
    return status == ZAK_OK ? zak_frame(card, size, rgb, sizeof rgb) : status;
}

int main(int argc, char **argv)
{
    FILE *file = argc == 3 ? fopen(argv[1], "rb") : NULL;
    size_t len = file ? fread(fonts, 1, sizeof fonts, file) : 0;
    zak_card card = ZAK_CARD_INIT;
    zak_size size = {0, 0};
    if (file)
        fclose(file);
    zak_status status = zak_open(&card, fonts, len);
    if (status == ZAK_OK) {
        status = draw(&card, &size);
        zak_close(&card);
    }
    file = status == ZAK_OK ? fopen(argv[2], "wb") : NULL;
    if (!file)
        return 1;
    fprintf(file, "P6\n%u %u\n63\n", (unsigned)size.width, (unsigned)size.height);
    fwrite(rgb, 3, (size_t)size.width * size.height, file);
    return fclose(file) != 0;
}
