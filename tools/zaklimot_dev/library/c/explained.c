/* What a card explains. A sentence comes behind the numbers that a call tells: the longest of them
 * has no more bytes than are left there. */
#define SENTENCE 64u
#define LONGEST (TOLD_LEN - SENTENCE)

static zak_reason told_reason(module *self)
{
    zak_reason told = {.status = told32(self, 0), .kind = told32(self, 4)};
    for (u32 i = 0; i < 5; i++)
        told.numbers[i] = told32(self, 8 + 4 * i);
    told.is_high = told8(self, 28) != 0;
    return told;
}

/* Where that call tells its lengths: behind the reason. */
#define REASON_LEN 32u
#define REASON_PLACE 40u

static zak_status explain_step(module *self, const uint8_t *script, size_t script_len,
                               uint32_t step, size_t text_cap)
{
    size_t len = least(script_len, MOST_SCRIPT + 1);
    u32 at = room(self, len);
    if (!at)
        return ZAK_OUT_OF_MEMORY;
    hand_over(self, at, script, len);
    zak_status status = module_zak_explain_step(self, CARD, at, len, step, TOLD, TOLD + SENTENCE,
                                                least(text_cap, LONGEST), TOLD + REASON_LEN,
                                                TOLD + REASON_PLACE);
    give_room(self, at);
    return status;
}

zak_status zak_explain_step(zak_card *card, const uint8_t *script, size_t script_len, uint32_t step,
                            zak_reason *reason, uint8_t *text, size_t text_cap, size_t *text_len,
                            size_t *place)
{
    BEGIN(card);
    zak_status explained = explain_step(self, script, script_len, step, text_cap);
    if (is_told(explained)) {
        *reason = told_reason(self);
        *text_len = told_size(self, REASON_LEN);
    }
    if (explained == ZAK_OK)
        get_back(self, text, TOLD + SENTENCE, *text_len);
    if (has_place(explained))
        *place = told_size(self, REASON_PLACE);
    END(card, explained);
}

/* The parts of a dot's source that are bytes lie one behind the other, like those of registers. */
static zak_dot_source told_dot_source(module *self)
{
    const u8 *at = self->memory + TOLD + 6;
    zak_dot_source told;
    told.counter = told16(self, 0);
    told.address = told16(self, 2);
    told.glyph_address = told16(self, 4);
    told.is_display = *at++;
    told.panning = *at++;
    told.dot = *at++;
    for (size_t i = 0; i < sizeof told.bytes; i++)
        told.bytes[i] = *at++;
    told.is_text = *at++;
    told.character = *at++;
    told.attribute = *at++;
    told.map = *at++;
    told.glyph_row = *at++;
    told.is_cursor = *at++;
    told.is_blinked_away = *at++;
    told.is_underlined = *at++;
    told.is_glyph_dot = *at++;
    told.is_foreground = *at++;
    told.has_palette = *at++;
    told.nibble = *at++;
    told.palette_register = *at++;
    told.palette_value = *at++;
    told.is_colour_select_wide = *at++;
    told.middle = *at++;
    told.high = *at++;
    told.is_palette_shown = *at++;
    told.number = *at++;
    told.mask = *at++;
    told.entry = *at++;
    told.is_screen_off = *at++;
    told.colour = (zak_colour){at[0], at[1], at[2]};
    return told;
}

/* The beam that is asked of lies behind the source. */
#define BEAM 64u

static void hand_beam(module *self, const zak_beam *beam)
{
    u8 *at = self->memory + TOLD + BEAM;
    put16(at, beam->line);
    put16(at + 2, beam->character);
    put16(at + 4, beam->dot);
    put16(at + 6, beam->base);
    put16(at + 8, beam->scan);
    put16(at + 10, beam->rows);
    at[12] = beam->frame;
    at[13] = beam->half;
    at[14] = beam->split;
}

zak_status zak_explain_dot(zak_card *card, const zak_beam *beam, zak_dot_source *source)
{
    BEGIN(card);
    hand_beam(self, beam);
    END_WITH(card, module_zak_explain_dot(self, CARD, TOLD + BEAM, TOLD),
             *source = told_dot_source(self));
}

static zak_write_stages told_write_stages(module *self)
{
    zak_write_stages told = {.in_window = told16(self, 0), .offset = told16(self, 2)};
    told.write_mode = told8(self, 4);
    told.rotated = told8(self, 5);
    get_back(self, told.data, TOLD + 6, sizeof told.data);
    get_back(self, told.combined, TOLD + 10, sizeof told.combined);
    told.mask = told8(self, 14);
    told.planes = told8(self, 15);
    get_back(self, told.before, TOLD + 16, sizeof told.before);
    get_back(self, told.written, TOLD + 20, sizeof told.written);
    return told;
}

zak_status zak_explain_put(zak_card *card, uint32_t address, uint8_t value,
                           zak_write_stages *stages)
{
    BEGIN(card);
    END_WITH(card, module_zak_explain_put(self, CARD, address, value, TOLD),
             *stages = told_write_stages(self));
}

static zak_read_stages told_read_stages(module *self)
{
    zak_read_stages told = {.in_window = told16(self, 0), .offset = told16(self, 2)};
    get_back(self, told.loaded, TOLD + 4, sizeof told.loaded);
    told.is_compare = told8(self, 8);
    told.plane = told8(self, 9);
    told.value = told8(self, 10);
    return told;
}

zak_status zak_explain_get(zak_card *card, uint32_t address, zak_read_stages *stages)
{
    BEGIN(card);
    END_WITH(card, module_zak_explain_get(self, CARD, address, TOLD),
             *stages = told_read_stages(self));
}

/* Where that call tells whether dots are other, behind the script's length. */
#define ARE_OTHER 8u

zak_status zak_rebuild(zak_card *card, uint8_t *script, size_t script_cap, size_t *script_len,
                       bool *are_dots_other)
{
    BEGIN(card);
    self->outside = script;
    zak_status rebuilt = module_zak_rebuild(self, CARD, OUTSIDE, least(script_cap, MOST_SCRIPT),
                                            TOLD, TOLD + ARE_OTHER);
    if (is_told(rebuilt)) {
        *script_len = told_size(self, 0);
        *are_dots_other = told8(self, ARE_OTHER) != 0;
    }
    END(card, rebuilt);
}

/* Where that call tells the sentence's length: behind the mistake. */
#define MISTAKE_LEN 32u

static void get_mistake(module *self, zak_status status, zak_mistake *mistake, uint8_t *sentence,
                        size_t *sentence_len)
{
    if (is_told(status)) {
        *mistake = (zak_mistake){told_size(self, 0), told_size(self, 8), told_size(self, 16),
                                 told32(self, 24)};
        *sentence_len = told_size(self, MISTAKE_LEN);
    }
    if (status == ZAK_OK)
        get_back(self, sentence, TOLD + SENTENCE, *sentence_len);
}

zak_status zak_explain_text(const uint8_t *text, size_t text_len, zak_mistake *mistake,
                            uint8_t *sentence, size_t sentence_cap, size_t *sentence_len)
{
    size_t len = least(text_len, MOST_SCRIPT + 1);
    module *self = new_script_module(text, len, 0);
    if (!self)
        return ZAK_OUT_OF_MEMORY;
    zak_status status = module_zak_explain_text(self, DESK, len, TOLD, TOLD + SENTENCE,
                                                least(sentence_cap, LONGEST), TOLD + MISTAKE_LEN);
    get_mistake(self, status, mistake, sentence, sentence_len);
    free_module(self);
    return status;
}
