/* Keys of a PC's keyboard.
 *
 * SPDX-License-Identifier: MIT
 */
#ifndef KEYS_H
#define KEYS_H

#include <stdint.h>

/* The key of a character, as interrupt 16 answers it: its scan code and the character. */
uint16_t key_of_character(char character);

#endif
