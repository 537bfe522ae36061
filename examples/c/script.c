/* Reads the steps of a script from its bytes. What a text spells is known to zak_assemble alone.
 *
 * SPDX-License-Identifier: MIT
 */
#include "script.h"

#include <stdlib.h>

#define HEADER_BYTES 5
#define REPEAT 0x0D
#define END 0x0E

/* How many bytes the numbers of a step have: its place, and then its value. */
struct form {
    uint8_t place, value;
};

/* By the opcode. INT10 and SHOW have fields of their own. */
static const struct form FORMS[] = {
    [STEP_OUT] = {2, 1},     [STEP_OUT_WORD] = {2, 2}, [STEP_IN] = {2, 0},
    [STEP_IN_WORD] = {2, 0}, [STEP_PUT] = {4, 1},      [STEP_PUT_WORD] = {4, 2},
    [STEP_GET] = {4, 0},     [STEP_GET_WORD] = {4, 0}, [STEP_ADVANCE] = {0, 4},
    [STEP_FRAME] = {0, 0},
};

zak_status script_assemble(const uint8_t *text, size_t text_len, uint8_t **script,
                           size_t *script_len, size_t *line)
{
    uint8_t nothing;
    size_t len = 0;
    *script = NULL;
    /* The first call tells how long the script is, which has at least its header. */
    zak_status status = zak_assemble(text, text_len, &nothing, 0, &len, line);
    if (status != ZAK_NO_ROOM)
        return status;
    *script = malloc(len);
    if (!*script)
        return ZAK_OUT_OF_MEMORY;
    status = zak_assemble(text, text_len, *script, len, script_len, line);
    if (status) {
        free(*script);
        *script = NULL;
    }
    return status;
}

struct script script_begin(const uint8_t *bytes, size_t len)
{
    return (struct script){bytes + HEADER_BYTES, bytes + len, NULL, 0};
}

/* The next number, of so many bytes, the low one first. */
static uint32_t number(struct script *script, size_t bytes)
{
    uint32_t value = 0;
    for (size_t i = 0; i < bytes; i++)
        value |= (uint32_t)*script->at++ << 8 * i;
    return value;
}

static void read_call(struct script *script, struct step *step)
{
    step->regs.ax = (uint16_t)number(script, 2);
    step->regs.bx = (uint16_t)number(script, 2);
    step->regs.cx = (uint16_t)number(script, 2);
    step->regs.dx = (uint16_t)number(script, 2);
    step->block_len = number(script, 2);
    step->block = script->at;
    script->at += step->block_len;
}

static void read_show(struct script *script, struct step *step)
{
    step->shown = (enum step_shown)number(script, 1);
    if (step->shown == SHOW_DAC || step->shown == SHOW_PLANE)
        step->value = number(script, 1);
    if (step->shown == SHOW_PLANE) {
        step->place = number(script, 2);
        step->count = number(script, 2);
    }
}

/* Goes to the next step, over where blocks begin and end. Answers false where there is none. */
static bool find_step(struct script *script)
{
    while (script->at < script->end) {
        if (*script->at == REPEAT) {
            script->at++;
            script->left = number(script, 2);
            script->body = script->at;
        } else if (*script->at == END) {
            bool is_empty = script->at == script->body;
            script->left--;
            script->at = script->left && !is_empty ? script->body : script->at + 1;
        } else {
            return true;
        }
    }
    return false;
}

bool script_next(struct script *script, struct step *step)
{
    if (!find_step(script))
        return false;
    *step = (struct step){.kind = (enum step_kind)*script->at++};
    if (step->kind == STEP_INT10) {
        read_call(script, step);
    } else if (step->kind == STEP_SHOW) {
        read_show(script, step);
    } else {
        step->place = number(script, FORMS[step->kind].place);
        step->value = number(script, FORMS[step->kind].value);
    }
    return true;
}
