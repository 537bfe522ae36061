/* Whether a fault has a place: the offset of a step, or the number of a line. */
static bool has_place(zak_status status)
{
    return status == ZAK_BAD_STEP || status == ZAK_TRUNCATED || status == ZAK_TOO_MANY ||
           status == ZAK_BAD_LINE;
}

/* Numbers that a call over a script tells, from TOLD on: the length of what it has written, the
 * place of a fault, and how many steps were taken. */
#define PLACE 8u
#define TAKEN 16u

static void tell(module *self, zak_status status, size_t *len, size_t *place)
{
    if (is_told(status))
        *len = told_size(self, 0);
    if (has_place(status))
        *place = told_size(self, PLACE);
}

static zak_status run_on(module *self, const uint8_t *script, size_t script_len, uint32_t first,
                         uint32_t most, size_t report_cap)
{
    size_t len = least(script_len, MOST_SCRIPT + 1);
    u32 at = room(self, len);
    if (!at)
        return ZAK_OUT_OF_MEMORY;
    hand_over(self, at, script, len);
    zak_status status = module_zak_run_on(self, CARD, at, len, first, most, OUTSIDE, report_cap,
                                          TOLD, TOLD + TAKEN, TOLD + PLACE);
    give_room(self, at);
    return status;
}

zak_status zak_run_on(zak_card *card, const uint8_t *script, size_t script_len, uint32_t first,
                      uint32_t most, uint8_t *report, size_t report_cap, size_t *report_len,
                      size_t *taken, size_t *place)
{
    BEGIN(card);
    self->outside = report;
    zak_status run = run_on(self, script, script_len, first, most, report_cap);
    tell(self, run, report_len, place);
    if (is_told(run))
        *taken = told_size(self, TAKEN);
    END(card, run);
}

/* A module for a call with no card, with a copy of a script or its text on its desk; NULL where
 * there is no memory. */
static module *new_script_module(const uint8_t *script, size_t len, u32 beside)
{
    module *self = new_module(CARD_LEN + TOLD_LEN + (u64)len + beside);
    if (self && !has_places(self, (u32)len)) {
        free_module(self);
        return NULL;
    }
    if (self)
        hand_over(self, DESK, script, len);
    return self;
}

/* Ends such a call. */
static zak_status end_script_module(module *self, zak_status status, size_t *len, size_t *place)
{
    tell(self, status, len, place);
    free_module(self);
    return status;
}

zak_status zak_run(const uint8_t *script, size_t script_len, const uint8_t *fonts, size_t fonts_len,
                   uint8_t *report, size_t report_cap, size_t *report_len, size_t *place)
{
    /* A longer file is as wrong as one that is one byte too long. */
    size_t len = least(script_len, MOST_SCRIPT + 1),
           font_len = least(fonts_len, ZAK_FONTS_SIZE + 1);
    module *self = new_script_module(script, len, MACHINE);
    u32 fonts_at = self ? (u32)module_page_take(self, font_len) : 0;
    zak_status status = ZAK_OUT_OF_MEMORY;
    if (!self)
        return status;
    if (fonts_at) {
        self->outside = report;
        hand_over(self, fonts_at, fonts, font_len);
        status = module_zak_run(self, DESK, len, fonts_at, font_len, OUTSIDE, report_cap, TOLD,
                                TOLD + PLACE);
    }
    return end_script_module(self, status, report_len, place);
}

zak_status zak_assemble(const uint8_t *text, size_t text_len, uint8_t *script, size_t script_cap,
                        size_t *script_len, size_t *bad_line)
{
    size_t len = least(text_len, MOST_SCRIPT + 1);
    module *self = new_script_module(text, len, 0);
    if (!self)
        return ZAK_OUT_OF_MEMORY;
    self->outside = script;
    zak_status status =
        module_zak_assemble(self, DESK, len, OUTSIDE, script_cap, TOLD, TOLD + PLACE);
    return end_script_module(self, status, script_len, bad_line);
}

zak_status zak_print(const uint8_t *script, size_t script_len, uint8_t *text, size_t text_cap,
                     size_t *text_len, size_t *place)
{
    size_t len = least(script_len, MOST_SCRIPT + 1);
    module *self = new_script_module(script, len, 0);
    if (!self)
        return ZAK_OUT_OF_MEMORY;
    self->outside = text;
    zak_status status = module_zak_print(self, DESK, len, OUTSIDE, text_cap, TOLD, TOLD + PLACE);
    return end_script_module(self, status, text_len, place);
}

zak_status zak_status_text(zak_status status, uint8_t *text, size_t text_cap, size_t *text_len)
{
    const uint8_t none[1] = {0};
    module *self = new_script_module(none, 0, 0);
    if (!self)
        return ZAK_OUT_OF_MEMORY;
    self->outside = text;
    zak_status told = module_zak_status_text(self, status, OUTSIDE, text_cap, TOLD);
    return end_script_module(self, told, text_len, NULL);
}
