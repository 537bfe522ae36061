/* A floppy of 1.44 MB in a file. A file that is shorter ends with sectors of zeros.
 *
 * SPDX-License-Identifier: MIT
 */
#include "floppy.h"

#include <stdio.h>
#include <string.h>

static FILE *file;

bool floppy_open(const char *path)
{
    file = fopen(path, "r+b");
    if (!file)
        file = fopen(path, "rb");
    return file != NULL;
}

void floppy_close(void)
{
    fclose(file);
}

static bool seek(unsigned cylinder, unsigned head, unsigned sector)
{
    bool is_there = cylinder < FLOPPY_CYLINDERS && head < FLOPPY_HEADS && sector >= 1 &&
                    sector <= FLOPPY_SECTORS;
    unsigned number = (cylinder * FLOPPY_HEADS + head) * FLOPPY_SECTORS + sector - 1;
    return is_there && fseek(file, (long)(number * FLOPPY_SECTOR_SIZE), SEEK_SET) == 0;
}

bool floppy_read(unsigned cylinder, unsigned head, unsigned sector, uint8_t *bytes)
{
    if (!seek(cylinder, head, sector))
        return false;
    memset(bytes, 0, FLOPPY_SECTOR_SIZE);
    size_t count = fread(bytes, 1, FLOPPY_SECTOR_SIZE, file);
    return count == FLOPPY_SECTOR_SIZE || !ferror(file);
}

bool floppy_write(unsigned cylinder, unsigned head, unsigned sector, const uint8_t *bytes)
{
    return seek(cylinder, head, sector) && fwrite(bytes, FLOPPY_SECTOR_SIZE, 1, file) == 1 &&
           fflush(file) == 0;
}
