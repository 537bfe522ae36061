/* zak_rebuild against its script: a card is led by pseudo-random steps to a state, the script that
 * rebuilds it is taken by a second card at power-on, and both cards are saved. If the dots are not
 * other, each byte of the two states is the same; otherwise all but those of the frame under way.
 * The call leaves the card. Prints how many states were rebuilt, or what was wrong.
 *
 *     rebuilding FONTS STATES */
#include "trial.h"

#define MOST_SCRIPT 16777216u
/* Where the BIOS data begin in a saved state, behind its length, and where the dots of the frame
 * under way do (docs/STATE.md). */
#define DATA 9u
#define DOTS 263038u

static uint8_t before[ZAK_MOST_STATE], after[ZAK_MOST_STATE], first[ZAK_MOST_STATE];
static uint8_t script[MOST_SCRIPT], report[1 << 24], bytes[1 << 16];
static zak_card other = ZAK_CARD_INIT;
static size_t first_len;
static unsigned long same, others, whole_frames;

static void call_bios(uint16_t ax, uint16_t bx, uint16_t cx, uint16_t dx)
{
    static const uint8_t none[1];
    static uint8_t table[ZAK_MOST_TABLE];
    zak_regs regs = {ax, bx, cx, dx};
    size_t len;
    zak_int10(&card, &regs, none, 0, table, sizeof table, &len);
}

static void write_memory(void)
{
    size_t decoded, len = 1 + random_below(4000);
    uint32_t address = 0xA0000 + random_below(0x20000);
    for (size_t i = 0; i < len; i++)
        bytes[i] = (uint8_t)random_below(256);
    zak_out_word(&card, 0x3C4, (uint16_t)(256 * random_below(16) + 2));
    zak_put_bytes(&card, address, bytes, len, false, &decoded);
}

static void call_any(void)
{
    static const uint8_t functions[] = {1, 2, 5, 6, 9, 0x0C, 0x0E, 0x10};
    uint16_t low = (uint16_t)random_below(4);
    call_bios((uint16_t)(256 * functions[random_below(8)] + low), (uint16_t)random_below(8),
              (uint16_t)random_below(2000), (uint16_t)(256 * random_below(25) + random_below(80)));
}

static void write_colours(void)
{
    uint8_t status;
    zak_out(&card, 0x3C8, (uint8_t)random_below(256));
    for (uint32_t i = random_below(100); i > 0; i--)
        zak_out(&card, 0x3C9, (uint8_t)random_below(64));
    zak_in(&card, 0x3DA, &status);
    zak_in(&card, 0x3BA, &status);
    for (uint32_t i = random_below(9); i > 0; i--)
        zak_out(&card, 0x3C0, (uint8_t)random_below(64));
}

static void write_registers(void)
{
    zak_bda bda;
    zak_read_bda(&card, &bda);
    zak_out_word(&card, 0x3CE, (uint16_t)(256 * random_below(256) + random_below(9)));
    zak_out_word(&card, 0x3C4, (uint16_t)(256 * random_below(256) + random_below(5)));
    if (bda.crtc_address)
        zak_out_word(&card, bda.crtc_address,
                     (uint16_t)(256 * random_below(256) + 8 + random_below(8)));
}

/* A step of some kind; some are refused. */
static void take_any_step(void)
{
    uint8_t byte;
    switch (random_below(8)) {
    case 0:
    case 1:
        write_memory();
        break;
    case 2:
    case 3:
        call_any();
        break;
    case 4:
        write_colours();
        break;
    case 5:
        write_registers();
        break;
    case 6:
        zak_get(&card, 0xA0000 + random_below(0x20000), &byte);
        break;
    default:
        zak_advance(&card, random_below(random_below(2) ? 1000 : 400000));
    }
}

/* A state that pseudo-random steps lead to, half of them at the first dot of a frame. */
static void make_state(void)
{
    static const uint8_t modes[] = {3, 7, 0x0D, 0x10, 0x12, 0x13};
    require(zak_restore(&card, first, first_len) == ZAK_OK, "zak_restore", "it fails");
    if (random_below(8))
        call_bios((uint16_t)(modes[random_below(sizeof modes)] + 128 * random_below(2)), 0, 0, 0);
    else
        zak_out(&card, 0x3C2, (uint8_t)random_below(256));
    for (uint32_t steps = random_below(12); steps > 0; steps--)
        take_any_step();
    if (random_below(2))
        zak_skip_frame(&card);
}

/* Without room all but the script is told. */
static size_t rebuilt_len(bool *are_dots_other)
{
    size_t len = 0;
    script[0] = 7;
    require(zak_rebuild(&card, script, 4, &len, are_dots_other) == ZAK_NO_ROOM, "zak_rebuild",
            "room is found where there is none");
    require(len > 4 && len <= MOST_SCRIPT && script[0] == 7, "zak_rebuild",
            "something is written though there is no room");
    return len;
}

static void compare_state(void)
{
    bool are_told = random_below(2), are_dots_other = random_below(2);
    size_t needed = rebuilt_len(&are_told), len = 0, state_len = saved(&card, before);
    require(zak_rebuild(&card, script, needed, &len, &are_dots_other) == ZAK_OK && len == needed,
            "zak_rebuild", "it fails");
    require(are_told == are_dots_other, "zak_rebuild", "without room other dots are told");
    require(saved(&card, after) == state_len && memcmp(before, after, state_len) == 0,
            "zak_rebuild", "it changes the card");
    require(zak_restore(&other, first, first_len) == ZAK_OK, "zak_restore", "it fails");
    take_all(&other, script, len, report, sizeof report);
    size_t other_len = saved(&other, after);
    require(memcmp(before + DATA, after + DATA, DOTS - DATA) == 0, "the script",
            "it leads to another state");
    require(are_dots_other || (other_len == state_len && memcmp(before, after, state_len) == 0),
            "the script", "it leads to other dots");
    require(!are_dots_other || other_len != state_len || memcmp(before, after, state_len) != 0,
            "the script", "it leads to the same dots");
    whole_frames += state_len == ZAK_FIRST_STATE;
    same += !are_dots_other;
    others += are_dots_other;
    compared++;
}

int main(int argc, char **argv)
{
    if (!begin(argc, argv, 3))
        return 2;
    require(zak_open(&other, fonts, sizeof fonts) == ZAK_OK, "zak_open", "it fails");
    first_len = saved(&card, first);
    compare_state();
    for (int n = atoi(argv[2]) - 1; n > 0; n--) {
        make_state();
        compare_state();
    }
    require(same > 0 && others > 0 && whole_frames > 0 && whole_frames < compared, "all states",
            "they are all of one kind");
    zak_close(&other);
    zak_close(&card);
    printf("%lu\n", compared);
    return 0;
}
