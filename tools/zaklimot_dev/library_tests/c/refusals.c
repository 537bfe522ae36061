/* zak_explain_step against what steps answer: pseudo-random steps of each kind, most of them
 * refused, on a card that those before have left. It tells the status that the step then answers,
 * and nothing of a step that is done. It leaves the card. Prints how many steps were compared, or
 * what was wrong.
 *
 *     refusals FONTS STEPS */
#include "trial.h"

static uint8_t before[ZAK_MOST_STATE], after[ZAK_MOST_STATE], script[4096], report[1 << 20];
static char line[2048];
static unsigned long refused, refused_high;

static unsigned random_number(unsigned limit)
{
    return (unsigned)random_below(limit);
}

/* A port of the adapter, mostly. */
static unsigned random_port(void)
{
    return random_below(16) ? 0x3B0 + random_number(0x30) : random_number(65536);
}

/* An address of the windows, mostly, and others near their ends. */
static unsigned random_address(void)
{
    static const unsigned ends[] = {0x9FFFF, 0xAFFFF, 0xB0000, 0xB7FFF, 0xBFFFF, 0xC0000,
                                    0xFFFFFFFF};
    return random_below(4) ? 0xA0000 + random_number(0x20000) : ends[random_below(7)];
}

static void write_cycle(void)
{
    const char *word = random_below(2) ? "w" : "";
    unsigned value = random_number(*word ? 65536 : 256);
    switch (random_below(4)) {
    case 0:
        snprintf(line, sizeof line, "out%s %X %X", word, random_port(), value);
        break;
    case 1:
        snprintf(line, sizeof line, "in%s %X", word, random_port());
        break;
    case 2:
        snprintf(line, sizeof line, "put%s %X %X", word, random_address(), value);
        break;
    default:
        snprintf(line, sizeof line, "get%s %X", word, random_address());
    }
}

/* Functions that there are, mostly, with a block of a few bytes. */
static void write_call(void)
{
    static const unsigned modes[] = {3, 7, 0x0D, 0x10, 0x12, 0x13};
    unsigned function = random_below(8) ? random_number(0x14) : random_number(256);
    unsigned low = random_below(2) ? random_number(0x1A) : random_number(256);
    if (function == 0 && random_below(4))
        low = modes[random_below(6)] + 0x80;
    int at = snprintf(line, sizeof line, "int ax=%X bx=%X cx=%X dx=%X", 256 * function + low,
                      random_below(2) ? 256 * random_number(17) + random_number(18)
                                      : random_number(65536),
                      random_below(4) ? random_number(6) : random_number(65536),
                      256 * random_number(30) + random_number(90));
    unsigned len = random_below(4) * random_number(25);
    if (len)
        at += snprintf(line + at, sizeof line - (size_t)at, " block ");
    for (unsigned i = 0; i < len; i++)
        at += snprintf(line + at, sizeof line - (size_t)at, "%02X", random_number(256));
}

static void write_step(void)
{
    switch (random_below(16)) {
    case 0:
        snprintf(line, sizeof line, "advance %lu", (unsigned long)(random_below(2)
                 ? random_below(1000) : 16777216u + random_below(3) * random_below(10000000)));
        break;
    case 1:
        snprintf(line, sizeof line, "show cells");
        break;
    case 2:
    case 3:
    case 4:
    case 5:
    case 6:
        write_call();
        break;
    default:
        write_cycle();
    }
}

static void compare_step(void)
{
    uint8_t text[ZAK_MOST_REASON_TEXT];
    zak_reason reason;
    size_t text_len = 999, place = 999, len = assembled(line, script, sizeof script);
    /* A state is long, so that few are compared. */
    size_t state_len = random_below(8) ? 0 : saved(&card, before);
    require(zak_explain_step(&card, script, len, 0, &reason, text, sizeof text, &text_len,
                             &place) == ZAK_OK, line, "zak_explain_step fails");
    require(!state_len ||
                (saved(&card, after) == state_len && memcmp(before, after, state_len) == 0),
            line, "it changes the card");
    uint32_t refusal =
        refusal_in(report, take_all(&card, script, len, report, sizeof report));
    require(reason.status == refusal, line, "the step answers something else");
    require((reason.kind != 0) == (refusal != 0), line, "a kind with no refusal, or the other way");
    require(refusal ? text_len > 10 && text[text_len - 1] == '.' : text_len == 0, line,
            "a sentence with no refusal, or the other way");
    require(place == 999, line, "a place");
    compared++;
    refused += refusal != 0;
    refused_high += reason.is_high;
}

int main(int argc, char **argv)
{
    if (!begin(argc, argv, 3))
        return 2;
    for (int n = atoi(argv[2]); n > 0; n--) {
        write_step();
        compare_step();
    }
    require(refused > compared / 4 && refused < compared / 4 * 3, "all steps",
            "most are refused, or done");
    require(refused_high > 0, "all steps", "no high byte is refused");
    zak_close(&card);
    printf("%lu\n", compared);
    return 0;
}
