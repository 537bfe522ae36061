/* The registers of interrupt 10, from `told` on, and behind them a number. */
#define REGISTERS 8u

static void hand_registers(module *self, const zak_regs *regs)
{
    u8 *at = self->memory + TOLD;
    put16(at, regs->ax);
    put16(at + 2, regs->bx);
    put16(at + 4, regs->cx);
    put16(at + 6, regs->dx);
}

/* What is at ES:BP or ES:DX, and the table that a service writes. */
static zak_status int10(module *self, zak_regs *regs, const uint8_t *block, size_t block_len,
                        uint8_t *table, size_t table_cap, size_t *table_len)
{
    /* No service takes a longer block, so one byte more than the longest is as wrong. */
    size_t len = least(block_len, MOST_BLOCK + 1), cap = least(table_cap, ZAK_MOST_TABLE);
    u32 at = room(self, len + ZAK_MOST_TABLE);
    if (!at)
        return ZAK_OUT_OF_MEMORY;
    hand_registers(self, regs);
    hand_over(self, at + ZAK_MOST_TABLE, block, len);
    zak_status status =
        module_zak_int10(self, CARD, TOLD, at + ZAK_MOST_TABLE, len, at, cap, TOLD + REGISTERS);
    if (is_told(status)) {
        *regs = (zak_regs){told16(self, 0), told16(self, 2), told16(self, 4), told16(self, 6)};
        *table_len = told_size(self, REGISTERS);
    }
    if (status == ZAK_OK)
        get_back(self, table, at, *table_len);
    give_room(self, at);
    return status;
}

zak_status zak_int10(zak_card *card, zak_regs *regs, const uint8_t *block, size_t block_len,
                     uint8_t *table, size_t table_cap, size_t *table_len)
{
    BEGIN(card);
    END(card, int10(self, regs, block, block_len, table, table_cap, table_len));
}

static zak_status cycles_of(module *self, const zak_regs *regs, const uint8_t *block,
                            size_t block_len, size_t script_cap, size_t *script_len)
{
    size_t len = least(block_len, MOST_BLOCK + 1);
    u32 at = room(self, len);
    if (!at)
        return ZAK_OUT_OF_MEMORY;
    hand_registers(self, regs);
    hand_over(self, at, block, len);
    zak_status status = module_zak_cycles(self, CARD, TOLD, at, len, OUTSIDE,
                                          least(script_cap, MOST_SCRIPT), TOLD + REGISTERS);
    if (is_told(status))
        *script_len = told_size(self, REGISTERS);
    give_room(self, at);
    return status;
}

zak_status zak_cycles(zak_card *card, const zak_regs *regs, const uint8_t *block, size_t block_len,
                      uint8_t *script, size_t script_cap, size_t *script_len)
{
    BEGIN(card);
    self->outside = script;
    END(card, cycles_of(self, regs, block, block_len, script_cap, script_len));
}

static zak_status block_of(module *self, const zak_regs *regs, zak_source *source)
{
    hand_registers(self, regs);
    zak_status status = module_zak_block(self, CARD, TOLD, TOLD + REGISTERS);
    if (status == ZAK_OK)
        *source = (zak_source){told_size(self, REGISTERS), told8(self, REGISTERS + 8) != 0};
    return status;
}

zak_status zak_block(zak_card *card, const zak_regs *regs, zak_source *source)
{
    BEGIN(card);
    END(card, block_of(self, regs, source));
}

/* Gives the bytes on the desk whose number is told, where there was room for them. */
static zak_status give_desk(module *self, zak_status status, uint8_t *bytes, size_t *len)
{
    if (is_told(status))
        *len = told_size(self, 0);
    if (status == ZAK_OK)
        get_back(self, bytes, DESK, *len);
    return status;
}

/* A call that shows a part of the state as text. */
#define SHOW(name, parameters, ...)                                                                \
    zak_status name parameters                                                                     \
    {                                                                                              \
        BEGIN(card);                                                                               \
        size_t cap = least(text_cap, ZAK_MOST_TEXT);                                               \
        zak_status shown = module_##name(self, CARD, __VA_ARGS__ DESK, cap, TOLD);                 \
        END(card, give_desk(self, shown, text, text_len));                                         \
    }
#define TEXT uint8_t *text, size_t text_cap, size_t *text_len

SHOW(zak_show_regs, (zak_card *card, TEXT), )
SHOW(zak_show_beam, (zak_card *card, TEXT), )
SHOW(zak_show_latches, (zak_card *card, TEXT), )
SHOW(zak_show_bda, (zak_card *card, TEXT), )
SHOW(zak_show_cells, (zak_card *card, TEXT), )
SHOW(zak_show_dac, (zak_card *card, uint8_t index, TEXT), index, )
SHOW(zak_show_plane, (zak_card *card, uint8_t plane, uint16_t offset, uint16_t count, TEXT), plane,
     offset, count, )

/* The structs lie in the module's memory as the compilers for x86-64 lay them. */
static zak_registers told_registers(module *self)
{
    const u8 *at = self->memory + TOLD;
    zak_registers told;
    told.misc = *at++;
    told.seq_index = *at++;
    for (size_t i = 0; i < sizeof told.seq; i++)
        told.seq[i] = *at++;
    told.crtc_index = *at++;
    for (size_t i = 0; i < sizeof told.crtc; i++)
        told.crtc[i] = *at++;
    told.gfx_index = *at++;
    for (size_t i = 0; i < sizeof told.gfx; i++)
        told.gfx[i] = *at++;
    told.attr_index = *at++;
    told.attr_is_data = *at++;
    for (size_t i = 0; i < sizeof told.attr; i++)
        told.attr[i] = *at++;
    told.dac_index = *at++;
    told.dac_component = *at++;
    told.dac_mask = *at++;
    told.dac_waiting_red = *at++;
    told.dac_waiting_green = *at++;
    return told;
}

static zak_beam told_beam(module *self)
{
    return (zak_beam){
        told16(self, 0),  told16(self, 2), told16(self, 4), told16(self, 6), told16(self, 8),
        told16(self, 10), told8(self, 12), told8(self, 13), told8(self, 14),
    };
}

static zak_bda told_bda(module *self)
{
    zak_bda told = {.columns = told16(self, 0), .size = told16(self, 2), .start = told16(self, 4)};
    for (u32 page = 0; page < 8; page++)
        told.cursor_places[page] = told16(self, 6 + 2 * page);
    told.cursor_type = told16(self, 22);
    told.crtc_address = told16(self, 24);
    told.height = told16(self, 26);
    told.mode = told8(self, 28);
    told.page = told8(self, 29);
    told.last_row = told8(self, 30);
    return told;
}

zak_status zak_read_registers(zak_card *card, zak_registers *registers)
{
    BEGIN(card);
    END_WITH(card, module_zak_read_registers(self, CARD, TOLD), *registers = told_registers(self));
}

zak_status zak_read_colour(zak_card *card, uint8_t index, zak_colour *colour)
{
    BEGIN(card);
    END_WITH(card, module_zak_read_colour(self, CARD, index, TOLD),
             *colour = ((zak_colour){told8(self, 0), told8(self, 1), told8(self, 2)}));
}

zak_status zak_read_beam(zak_card *card, zak_beam *beam)
{
    BEGIN(card);
    END_WITH(card, module_zak_read_beam(self, CARD, TOLD), *beam = told_beam(self));
}

zak_status zak_read_latches(zak_card *card, zak_latches *latches)
{
    BEGIN(card);
    END_WITH(card, module_zak_read_latches(self, CARD, TOLD),
             get_back(self, latches->plane, TOLD, sizeof latches->plane));
}

zak_status zak_read_bda(zak_card *card, zak_bda *bda)
{
    BEGIN(card);
    END_WITH(card, module_zak_read_bda(self, CARD, TOLD), *bda = told_bda(self));
}

zak_status zak_read_plane(zak_card *card, uint8_t plane, uint16_t offset, uint8_t *bytes,
                          size_t bytes_len)
{
    BEGIN(card);
    /* More bytes than the desk has go past the plane's end as well. */
    size_t len = least(bytes_len, DESK_LEN);
    END_WITH(card, module_zak_read_plane(self, CARD, plane, offset, DESK, len),
             get_back(self, bytes, DESK, len));
}

zak_status zak_screen_read(zak_card *card, zak_screen *screen)
{
    BEGIN(card);
    END_WITH(card, module_zak_screen_read(self, CARD, TOLD),
             *screen = ((zak_screen){told32(self, 0), told32(self, 4), told16(self, 8),
                                     told16(self, 10), told8(self, 12), told8(self, 13),
                                     told8(self, 14), told8(self, 15)}));
}

zak_status zak_screen_cell(zak_card *card, uint8_t page, uint8_t row, uint8_t column,
                           zak_cell *cell)
{
    BEGIN(card);
    END_WITH(card, module_zak_screen_cell(self, CARD, page, row, column, TOLD),
             *cell = ((zak_cell){told8(self, 0), told8(self, 1)}));
}

zak_status zak_screen_pixel(zak_card *card, uint8_t page, uint16_t x, uint16_t y, uint8_t *pixel)
{
    BEGIN(card);
    END_WITH(card, module_zak_screen_pixel(self, CARD, page, x, y, TOLD), *pixel = told8(self, 0));
}

zak_status zak_screen_cursor(zak_card *card, uint8_t page, zak_place *place)
{
    BEGIN(card);
    END_WITH(card, module_zak_screen_cursor(self, CARD, page, TOLD),
             *place = ((zak_place){told8(self, 0), told8(self, 1)}));
}

zak_status zak_save_size(zak_card *card, size_t *len)
{
    BEGIN(card);
    END_WITH(card, module_zak_save_size(self, CARD, TOLD), *len = told_size(self, 0));
}

zak_status zak_save(zak_card *card, uint8_t *bytes, size_t bytes_cap, size_t *len)
{
    BEGIN(card);
    zak_status saved = module_zak_save(self, CARD, DESK, least(bytes_cap, ZAK_MOST_STATE), TOLD);
    END(card, give_desk(self, saved, bytes, len));
}

/* Hands over a state to a call that restores it. */
#define RESTORE(name)                                                                              \
    static zak_status name(module *self, const uint8_t *bytes, size_t len)                         \
    {                                                                                              \
        u32 at = room(self, len);                                                                  \
        if (!at)                                                                                   \
            return ZAK_OUT_OF_MEMORY;                                                              \
        hand_over(self, at, bytes, len);                                                           \
        zak_status status = module_zak_##name(self, CARD, at, len);                                \
        give_room(self, at);                                                                       \
        return status;                                                                             \
    }
RESTORE(restore)
RESTORE(restore_fixed)

zak_status zak_restore(zak_card *card, const uint8_t *bytes, size_t bytes_len)
{
    BEGIN(card);
    END(card, restore(self, bytes, bytes_len));
}

static zak_status save_fixed(module *self, uint8_t *bytes, size_t len)
{
    u32 at = room(self, len);
    if (!at)
        return ZAK_OUT_OF_MEMORY;
    zak_status status = module_zak_save_fixed(self, CARD, at, len);
    if (status == ZAK_OK)
        get_back(self, bytes, at, len);
    give_room(self, at);
    return status;
}

zak_status zak_save_fixed(zak_card *card, uint8_t *bytes, size_t bytes_len)
{
    BEGIN(card);
    END(card, save_fixed(self, bytes, bytes_len));
}

zak_status zak_restore_fixed(zak_card *card, const uint8_t *bytes, size_t bytes_len)
{
    BEGIN(card);
    END(card, restore_fixed(self, bytes, bytes_len));
}
