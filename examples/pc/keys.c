/* Keys of a PC's keyboard, by the characters on them.
 *
 * SPDX-License-Identifier: MIT
 */
#include "keys.h"

#include <string.h>

/* The rows of the keyboard, each from a scan code on: what its keys type, alone and with shift. */
static const struct row {
    uint8_t first;
    const char *alone, *shifted;
} ROWS[] = {
    {0x01, "\x1B" "1234567890-=\b\t", "\x1B" "!@#$%^&*()_+\b\t"},
    {0x10, "qwertyuiop[]\r", "QWERTYUIOP{}\r"},
    {0x1E, "asdfghjkl;'`", "ASDFGHJKL:\"~"},
    {0x2B, "\\zxcvbnm,./", "|ZXCVBNM<>?"},
    {0x39, " ", " "},
};

uint16_t key_of_character(char character)
{
    char wanted = character == '\n' ? '\r' : character;
    for (size_t i = 0; wanted && i < sizeof ROWS / sizeof *ROWS; i++) {
        const char *rows[] = {ROWS[i].alone, ROWS[i].shifted};
        for (size_t j = 0; j < 2; j++) {
            const char *found = strchr(rows[j], wanted);
            if (found)
                return (uint16_t)((ROWS[i].first + (found - rows[j])) << 8 | (uint8_t)wanted);
        }
    }
    return (uint8_t)wanted;
}
