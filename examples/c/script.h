/* A script's text as bytes, and the steps of these bytes: see docs/SCRIPT.md.
 *
 * SPDX-License-Identifier: MIT
 */
#ifndef SCRIPT_H
#define SCRIPT_H

#include <stdbool.h>
#include <stddef.h>
#include <stdint.h>

#include "zaklimot.h"

/* Bytes of a text, and bytes of a script. */
#define SCRIPT_MOST 16777216u

/* The opcode of a step. */
enum step_kind {
    STEP_OUT = 0x01,
    STEP_OUT_WORD = 0x02,
    STEP_IN = 0x03,
    STEP_IN_WORD = 0x04,
    STEP_PUT = 0x05,
    STEP_PUT_WORD = 0x06,
    STEP_GET = 0x07,
    STEP_GET_WORD = 0x08,
    STEP_INT10 = 0x09,
    STEP_ADVANCE = 0x0A,
    STEP_FRAME = 0x0B,
    STEP_SHOW = 0x0C
};

/* The kind of a `show`. */
enum step_shown {
    SHOW_REGS,
    SHOW_DAC,
    SHOW_BEAM,
    SHOW_LATCHES,
    SHOW_PLANE,
    SHOW_BDA,
    SHOW_CELLS
};

struct step {
    enum step_kind kind;
    enum step_shown shown;
    uint32_t place; /* a port or an address; an offset in a plane */
    uint32_t value; /* what is written; dots; an entry of the DAC; a plane */
    uint32_t count; /* bytes of a plane */
    zak_regs regs;
    const uint8_t *block; /* what an INT10 reads, among the script's bytes */
    size_t block_len;
};

/* Where in a script its next step is. */
struct script {
    const uint8_t *at, *end;
    const uint8_t *body; /* the first step of the block under way */
    uint32_t left;       /* how often that is still taken, this time too */
};

/* The bytes of the script that a text spells, in memory that the caller frees. Answers what
 * zak_assemble does. */
zak_status script_assemble(const uint8_t *text, size_t text_len, uint8_t **script,
                           size_t *script_len, size_t *line);

/* Begins at the first step. The bytes must be those that zak_assemble wrote: no fault is looked
 * for. */
struct script script_begin(const uint8_t *bytes, size_t len);

/* Reads the next step, those of a block so many times as it says. Answers false after the last. */
bool script_next(struct script *script, struct step *step);

#endif
