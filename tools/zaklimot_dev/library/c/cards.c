/* The calls of zaklimot.h. Each copies what the caller's pointers name into the module's memory,
 * makes the module's call of the same name, and copies back what that has written. */

/* The first block of the module's memory that is taken lies at its heap's begin, behind the block's
 * own head. It has places for the card, for what a call tells in numbers and structs, the widths of
 * lines among them, and a desk for bytes. */
#define CARD (((HEAP_BASE + 15u) & ~15u) + 16u)
#define CARD_LEN 32u
#define TOLD (CARD + CARD_LEN)
#define TOLD_LEN (4u * ZAK_HIGHEST)
#define DESK (TOLD + TOLD_LEN)
/* The longest that a call hands over or gets back but for scripts, reports, and states of one size:
 * a picture in words. */
#define DESK_LEN (4u * ZAK_WIDEST * ZAK_HIGHEST)
/* What a machine takes of the module's memory beside that, a screen that is read among it. With
 * ZAKLIMOT_TIGHT it takes none at first, so that tests see memory refused. */
#if defined(ZAKLIMOT_TIGHT)
#define MACHINE 0u
#else
#define MACHINE 9437184u
#endif
/* A script or its text, and what a service reads of the caller's memory, have at most so many
 * bytes. */
#define MOST_SCRIPT 16777216u
#define MOST_BLOCK 16711425u

static size_t least(size_t a, size_t b)
{
    return a < b ? a : b;
}

static void free_module(module *self)
{
    free(self->memory);
    free(self);
}

/* A module as it begins, with memory for so many bytes beside its own; NULL where there is none. */
static module *new_module(u64 bytes)
{
    u64 pages = FIRST_PAGES + bytes / PAGE + 1;
    module *self = pages > MOST_PAGES ? NULL : calloc(1, sizeof *self);
    if (!self)
        return NULL;
    self->memory = calloc((size_t)pages, PAGE);
    if (!self->memory) {
        free(self);
        return NULL;
    }
    self->pages = (u32)pages;
    start(self);
    return self;
}

/* Takes the places of a module. */
static bool has_places(module *self, u32 desk_len)
{
    return module_page_take(self, CARD_LEN + TOLD_LEN + desk_len) == CARD;
}

/* A room of so many bytes in the module's memory: the desk, or one that is taken; 0 for none. */
static u32 room(module *self, size_t len)
{
    if (len <= DESK_LEN)
        return DESK;
    u64 taken = len;
    return taken >= MOST_PAGES * (u64)PAGE ? 0 : (u32)module_page_take(self, taken);
}

static void give_room(module *self, u32 at)
{
    if (at != DESK)
        module_page_give(self, at);
}

static void hand_over(module *self, u32 at, const void *bytes, size_t len)
{
    memcpy(self->memory + at, bytes, len);
}

static void get_back(module *self, void *bytes, u32 at, size_t len)
{
    memcpy(bytes, self->memory + at, len);
}

/* A struct's or an array's numbers, in the module's memory from `told` on. */
static u8 told8(module *self, u32 place)
{
    return self->memory[TOLD + place];
}

static u16 told16(module *self, u32 place)
{
    return number16(self->memory + TOLD + place);
}

static u32 told32(module *self, u32 place)
{
    return number32(self->memory + TOLD + place);
}

static size_t told_size(module *self, u32 place)
{
    return (size_t)number64(self->memory + TOLD + place);
}

/* A trap ends a card: it is closed, and its memory is free. */
APART static zak_status close_broken(zak_card *card)
{
    free_module(card->machine);
    card->is_open = false;
    card->machine = NULL;
    return ZAK_BROKEN;
}

/* Begins a call on a card, and ends it. */
#define BEGIN(card)                                                                                \
    module *const self = (card)->machine;                                                          \
    if (!(card)->is_open)                                                                          \
    return ZAK_NO_CARD
#define END(card, outcome)                                                                         \
    zak_status status = (outcome);                                                                 \
    if (NEVER(status == ZAK_BROKEN))                                                               \
        return close_broken(card);                                                                 \
    return status
/* The same, where the call gives a number or a struct if it answers ZAK_OK. */
#define END_WITH(card, outcome, given)                                                             \
    zak_status status = (outcome);                                                                 \
    if (status == ZAK_OK)                                                                          \
        given;                                                                                     \
    else if (NEVER(status == ZAK_BROKEN))                                                          \
        return close_broken(card);                                                                 \
    return status

/* No memory is needed for this. */
uint32_t zak_version(void)
{
    return module_zak_version(NULL);
}

static zak_status open_module(module *self, const uint8_t *fonts, size_t fonts_len)
{
    if (!has_places(self, DESK_LEN))
        return ZAK_OUT_OF_MEMORY;
    memset(self->memory + CARD, 0, CARD_LEN);
    /* A longer file is as wrong as one that is one byte too long. */
    size_t len = least(fonts_len, ZAK_FONTS_SIZE + 1);
    hand_over(self, DESK, fonts, len);
    return module_zak_open(self, CARD, DESK, len);
}

zak_status zak_open(zak_card *card, const uint8_t *fonts, size_t fonts_len)
{
    if (card->is_open)
        return ZAK_OPEN_ALREADY;
    module *const self = new_module(CARD_LEN + TOLD_LEN + DESK_LEN + MACHINE);
    if (!self)
        return ZAK_OUT_OF_MEMORY;
    zak_status status = open_module(self, fonts, fonts_len);
    if (status == ZAK_OK) {
        card->is_open = true;
        card->owed = 0;
        card->line[0] = card->line[1] = 0;
        card->machine = self;
    } else {
        free_module(self);
    }
    return status;
}

zak_status zak_close(zak_card *card)
{
    BEGIN(card);
    zak_status status = module_zak_close(self, CARD);
    if (status == ZAK_OK || status == ZAK_BROKEN) {
        free_module(self);
        card->is_open = false;
        card->machine = NULL;
    }
    return status;
}

zak_status zak_out(zak_card *card, uint16_t port, uint8_t value)
{
    BEGIN(card);
    return module_zak_out(self, card, CARD, port, value);
}

zak_status zak_out_word(zak_card *card, uint16_t port, uint16_t value)
{
    BEGIN(card);
    return module_zak_out_word(self, card, CARD, port, value);
}

zak_status zak_put(zak_card *card, uint32_t address, uint8_t value)
{
    BEGIN(card);
    return module_zak_put(self, card, CARD, address, value);
}

zak_status zak_put_word(zak_card *card, uint32_t address, uint16_t value)
{
    BEGIN(card);
    return module_zak_put_word(self, card, CARD, address, value);
}

zak_status zak_advance(zak_card *card, uint32_t dots)
{
    BEGIN(card);
    END(card, module_zak_advance(self, CARD, dots));
}

zak_status zak_skip_frame(zak_card *card)
{
    BEGIN(card);
    END(card, module_zak_skip_frame(self, CARD));
}

zak_status zak_in(zak_card *card, uint16_t port, uint8_t *value)
{
    BEGIN(card);
    return module_zak_in(self, card, value, CARD, port, TOLD);
}

zak_status zak_in_word(zak_card *card, uint16_t port, uint16_t *value)
{
    BEGIN(card);
    END_WITH(card, module_zak_in_word(self, CARD, port, TOLD), *value = told16(self, 0));
}

zak_status zak_get(zak_card *card, uint32_t address, uint8_t *value)
{
    BEGIN(card);
    return module_zak_get(self, card, value, CARD, address, TOLD);
}

zak_status zak_get_word(zak_card *card, uint32_t address, uint16_t *value)
{
    BEGIN(card);
    return module_zak_get_word(self, card, value, CARD, address, TOLD);
}

/* Whether the addresses of a transfer go past the last one. */
static bool is_past(uint32_t address, size_t len)
{
    return len > 0xFFFFFFFFu - address;
}

/* Bytes of a transfer go over the desk piece by piece, the first one first, or the last one. */
static zak_status put_bytes(module *self, uint32_t address, const uint8_t *bytes, size_t len,
                            bool down, size_t *decoded)
{
    size_t done = 0, sum = 0;
    if (is_past(address, len))
        return ZAK_BAD_ARGUMENT;
    do {
        size_t piece = least(len - done, DESK_LEN), at = down ? len - done - piece : done;
        hand_over(self, DESK, bytes + at, piece);
        zak_status status =
            module_zak_put_bytes(self, CARD, address + (u32)at, DESK, piece, down, TOLD);
        if (status != ZAK_OK)
            return status;
        sum += told_size(self, 0);
        done += piece;
    } while (done < len);
    *decoded = sum;
    return ZAK_OK;
}

static zak_status get_bytes(module *self, uint32_t address, uint8_t *bytes, size_t len, bool down,
                            size_t *decoded)
{
    size_t done = 0, sum = 0;
    if (is_past(address, len))
        return ZAK_BAD_ARGUMENT;
    do {
        size_t piece = least(len - done, DESK_LEN), at = down ? len - done - piece : done;
        zak_status status =
            module_zak_get_bytes(self, CARD, address + (u32)at, DESK, piece, down, TOLD);
        if (status != ZAK_OK)
            return status;
        get_back(self, bytes + at, DESK, piece);
        sum += told_size(self, 0);
        done += piece;
    } while (done < len);
    *decoded = sum;
    return ZAK_OK;
}

zak_status zak_put_bytes(zak_card *card, uint32_t address, const uint8_t *bytes, size_t len,
                         bool down, size_t *decoded)
{
    BEGIN(card);
    END(card, put_bytes(self, address, bytes, len, down, decoded));
}

zak_status zak_get_bytes(zak_card *card, uint32_t address, uint8_t *bytes, size_t len, bool down,
                         size_t *decoded)
{
    BEGIN(card);
    END(card, get_bytes(self, address, bytes, len, down, decoded));
}

zak_status zak_fill_bytes(zak_card *card, uint32_t address, uint8_t value, size_t count, bool down,
                          size_t *decoded)
{
    BEGIN(card);
    END_WITH(card, module_zak_fill_bytes(self, CARD, address, value, count, down, TOLD),
             *decoded = told_size(self, 0));
}

zak_status zak_move_bytes(zak_card *card, uint32_t from, uint32_t to, size_t count, bool down,
                          size_t *decoded)
{
    BEGIN(card);
    END_WITH(card, module_zak_move_bytes(self, CARD, from, to, count, down, TOLD),
             *decoded = told_size(self, 0));
}

static zak_timing told_timing(module *self)
{
    return (zak_timing){
        told32(self, 0),  told32(self, 4),  told32(self, 8),  told32(self, 12),
        told32(self, 16), told32(self, 20), told32(self, 24), told32(self, 28),
    };
}

zak_status zak_clock(zak_card *card, zak_timing *timing)
{
    BEGIN(card);
    END_WITH(card, module_zak_clock(self, CARD, TOLD), *timing = told_timing(self));
}
