/* zak_explain_put and zak_explain_get against the cycles themselves, over pseudo-random registers,
 * latches and memory. A write leaves in the planes what its stages say; a read loads the latches
 * and returns what its stages say. The stages follow one from the other by the registers. What is
 * refused is refused by both. Neither call changes the card. Prints how many cycles were compared,
 * or what was wrong.
 *
 *     stages FONTS CYCLES */
#include "trial.h"

static uint8_t before[ZAK_MOST_STATE], after[ZAK_MOST_STATE];
static zak_registers registers;
static zak_latches latches;
static unsigned long done, modes[4], compares;

/* Replaces some registers; values that are left out are refused. */
static void stir(void)
{
    static const uint8_t indices[] = {0, 1, 2, 3, 4, 5, 7, 8};
    zak_out_word(&card, 0x3CE, (uint16_t)(256 * random_below(256) + indices[random_below(8)]));
    zak_out_word(&card, 0x3CE, (uint16_t)(256 * (random_below(256) & 0xDF) + 5));
    zak_out_word(&card, 0x3C4, (uint16_t)(256 * random_below(16) + 2));
    if (random_below(4) == 0)
        zak_out_word(&card, 0x3C4, (uint16_t)(256 * random_below(16) + 4));
    if (random_below(4) == 0)
        zak_out_word(&card, 0x3CE, (uint16_t)(256 * random_below(16) + 6));
    if (random_below(8) == 0)
        zak_out(&card, 0x3C2, (uint8_t)(random_below(4) ? 0x23 : random_below(256)));
}

static void bytes_at(uint16_t offset, uint8_t bytes[4])
{
    for (uint8_t plane = 0; plane < 4; plane++)
        require(zak_read_plane(&card, plane, offset, &bytes[plane], 1) == ZAK_OK, "zak_read_plane",
                "it fails");
}

/* What set/reset, or a bit of the byte, gives in a plane. */
static uint8_t spread(unsigned bits, unsigned plane)
{
    return bits >> plane & 1 ? 0xFF : 0;
}

static uint8_t data_of(const zak_write_stages *told, uint8_t value, unsigned plane)
{
    const uint8_t *gfx = registers.gfx;
    if (told->write_mode == 2)
        return spread(value, plane);
    bool is_set = told->write_mode == 3 || gfx[1] >> plane & 1;
    return is_set ? spread(gfx[0], plane) : told->rotated;
}

static uint8_t combined_of(uint8_t data, uint8_t latch)
{
    switch (registers.gfx[3] >> 3 & 3) {
    case 0:
        return data;
    case 1:
        return data & latch;
    case 2:
        return data | latch;
    default:
        return data ^ latch;
    }
}

/* One stage follows from the one before. */
static void check_write(const zak_write_stages *told, uint8_t value)
{
    unsigned by = registers.gfx[3] & 7;
    uint8_t rotated = (uint8_t)(value >> by | value << (8 - by));
    uint8_t mask = registers.gfx[8] & (told->write_mode == 3 ? told->rotated : 0xFF);
    require(told->write_mode == (registers.gfx[5] & 3), "a write", "the mode is another");
    require(told->rotated == rotated, "a write", "it is rotated otherwise");
    require(told->mask == mask, "a write", "the mask is another");
    for (unsigned plane = 0; plane < 4; plane++) {
        uint8_t latch = latches.plane[plane], data = data_of(told, value, plane);
        uint8_t merged = (uint8_t)((told->combined[plane] & mask) | (latch & ~mask));
        if (told->write_mode != 1) {
            require(told->data[plane] == data, "a write", "the data are others");
            require(told->combined[plane] == combined_of(data, latch), "a write",
                    "the function is another");
        }
        require(told->written[plane] == (told->write_mode == 1 ? latch : merged), "a write",
                "something else is written");
    }
}

/* The state before a call, of some calls: a state is long. Answers how long it is, or 0. */
static size_t state_before(void)
{
    return random_below(8) ? 0 : saved(&card, before);
}

static void require_same(size_t len, const char *about)
{
    require(!len || (saved(&card, after) == len && memcmp(before, after, len) == 0), about,
            "it changes the card");
}

static void compare_put(uint32_t address)
{
    zak_write_stages told;
    uint8_t value = (uint8_t)random_below(256), was[4], is[4];
    size_t len = state_before();
    memset(&told, 0xEE, sizeof told);
    zak_status status = zak_explain_put(&card, address, value, &told);
    require_same(len, "zak_explain_put");
    if (status != ZAK_OK) {
        require(told.in_window == 0xEEEE && told.written[3] == 0xEE, "a write", "it is told of");
        require(zak_put(&card, address, value) == status, "a write", "it is not refused");
        return;
    }
    bytes_at(told.offset, was);
    require(memcmp(was, told.before, 4) == 0, "a write", "the planes hold something else");
    check_write(&told, value);
    require(zak_put(&card, address, value) == ZAK_OK, "a write", "it is refused");
    bytes_at(told.offset, is);
    for (unsigned plane = 0; plane < 4; plane++)
        require(is[plane] == (told.planes >> plane & 1 ? told.written[plane] : was[plane]),
                "a write", "it leaves something else");
    modes[told.write_mode]++;
    done++;
}

static void compare_get(uint32_t address)
{
    zak_read_stages told;
    uint8_t value = 0xEE, bytes[4];
    size_t len = state_before();
    memset(&told, 0xEE, sizeof told);
    zak_status status = zak_explain_get(&card, address, &told);
    require_same(len, "zak_explain_get");
    require(zak_get(&card, address, &value) == status, "a read", "it has another status");
    if (status != ZAK_OK) {
        require(told.in_window == 0xEEEE && told.value == 0xEE, "a read", "it is told of");
        return;
    }
    bytes_at(told.offset, bytes);
    require(zak_read_latches(&card, &latches) == ZAK_OK, "zak_read_latches", "it fails");
    require(memcmp(told.loaded, bytes, 4) == 0, "a read", "the planes hold something else");
    require(memcmp(told.loaded, latches.plane, 4) == 0, "a read", "the latches get something else");
    require(told.value == value, "a read", "it returns something else");
    require(told.is_compare == (registers.gfx[5] >> 3 & 1), "a read", "the mode is another");
    require(told.is_compare || (told.plane < 4 && told.value == bytes[told.plane]), "a read",
            "the plane is another");
    compares += told.is_compare;
    done++;
}

/* A read and a write lead to the same offset, which is counted from where the window begins. */
static void compare_window(uint32_t address)
{
    static const uint32_t first[] = {0xA0000, 0xA0000, 0xB0000, 0xB8000};
    zak_read_stages read;
    zak_write_stages write;
    if (zak_explain_get(&card, address, &read) != ZAK_OK)
        return;
    uint32_t begin = first[registers.gfx[6] >> 2 & 3];
    require(zak_explain_put(&card, address, 0, &write) == ZAK_OK, "a window", "a write is refused");
    require(read.in_window == (uint16_t)(address - begin), "a window", "the offset is another");
    require(write.in_window == read.in_window && write.offset == read.offset, "a window",
            "a write goes elsewhere");
}

static void compare_cycle(void)
{
    uint32_t address = random_below(16) ? 0xA0000 + random_below(0x20000) : random_below(0x200000);
    stir();
    require(zak_read_registers(&card, &registers) == ZAK_OK, "zak_read_registers", "it fails");
    require(zak_read_latches(&card, &latches) == ZAK_OK, "zak_read_latches", "it fails");
    compare_window(address);
    if (random_below(2))
        compare_put(address);
    else
        compare_get(address);
    compared++;
}

static void call_bios(uint16_t ax)
{
    static const uint8_t none[1];
    static uint8_t table[ZAK_MOST_TABLE];
    zak_regs regs = {ax, 0, 0, 0};
    size_t len;
    require(zak_int10(&card, &regs, none, 0, table, sizeof table, &len) == ZAK_OK, "zak_int10",
            "it fails");
}

int main(int argc, char **argv)
{
    static const uint8_t all[] = {3, 7, 0x0D, 0x10, 0x12, 0x13};
    if (!begin(argc, argv, 3))
        return 2;
    for (int n = atoi(argv[2]); n > 0; n--) {
        if (n % 64 == 0)
            call_bios((uint16_t)(0x80 + all[random_below(sizeof all)]));
        compare_cycle();
    }
    require(done > compared / 4 && compares > 0, "all cycles", "most are refused");
    for (size_t mode = 0; mode < 4; mode++)
        require(modes[mode] > compared / 100, "all cycles", "a write mode is seldom tried");
    zak_close(&card);
    printf("%lu\n", compared);
    return 0;
}
