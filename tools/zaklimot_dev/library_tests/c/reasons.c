/* Each reason why a card refuses a step: the step, what it would answer, the kind with its numbers,
 * and the sentence. What is printed is to be that of reasons.txt. The step is then taken: it
 * answers the status, and leaves the card, which gives the same reason once more.
 *
 *     reasons FONTS */
#include "trial.h"

/* Steps that are taken at power-on, and one that is refused after them. */
static const struct trial {
    const char *before, *step;
} TRIALS[] = {
    {"", "out 60 01"},
    {"int ax=3", "outw 3CF 0001"},
    {"int ax=3", "out 3B4 00"},
    {"int ax=3", "in 3BA"},
    {"int ax=7", "outw 3D4 0E0F"},
    {"", "out 3C1 00"},
    {"", "outw 3C0 0000"},
    {"", "in 3C2"},
    {"", "out 3C3 01"},
    {"", "in 3C7"},
    {"int ax=3", "out 3DA 00"},
    {"", "outw 3C2 0102"},
    {"", "outw 3C4 0007"},
    {"out 3CE 0B", "in 3CF"},
    {"int ax=3\nout 3D4 1F", "inw 3D4"},
    {"int ax=3\nin 3DA\nout 3C0 15", "out 3C0 00"},
    {"int ax=13", "outw 3CE 2005"},
    {"int ax=13", "outw 3D4 2814"},
    {"int ax=13", "outw 3D4 E717"},
    {"", "put A0000 01"},
    {"int ax=3", "get A0000"},
    {"int ax=13", "putw AFFFF 0000"},
    {"", "outw FFFF 0000"},
    {"int ax=3", "getw FFFFFFFF"},
    {"", "int ax=E41"},
    {"int ax=3", "int ax=9901 bx=2"},
    {"int ax=3", "int ax=1200 bx=11"},
    {"", "int ax=4"},
    {"int ax=3", "int ax=C01"},
    {"int ax=13", "int ax=1111"},
    {"int ax=3", "int ax=508"},
    {"int ax=3\nint ax=200 dx=1950", "int ax=800"},
    {"int ax=3", "int ax=1300 cx=1 dx=1851 block 41"},
    {"int ax=13", "int ax=C01 cx=140 dx=C7"},
    {"int ax=3\nint ax=200 dx=1800", "int ax=941 bx=7 cx=51"},
    {"int ax=3", "int ax=1110 bx=800 cx=2 dx=FF block 00000000000000000000000000000000"},
    {"int ax=3", "int ax=1000 bx=2010"},
    {"int ax=3", "int ax=1003 bx=2"},
    {"int ax=3", "int ax=1010 bx=100"},
    {"int ax=3", "int ax=1012 bx=FF cx=2 block 000000000000"},
    {"int ax=3", "int ax=1012 cx=1 block 0000"},
    {"int ax=3", "int ax=1110 bx=900 cx=1 block 000000000000000000"},
    {"", "advance 16777217"},
    {"", "show cells"},
    {"int ax=13", "show cells"},
};

#define KINDS 31u

static uint8_t first[ZAK_MOST_STATE], before[ZAK_MOST_STATE], after[ZAK_MOST_STATE];
static uint8_t script[4096], report[1 << 16];
static bool are_seen[KINDS + 1];

static bool are_alike(const zak_reason *one, const zak_reason *other)
{
    return one->status == other->status && one->kind == other->kind &&
           memcmp(one->numbers, other->numbers, sizeof one->numbers) == 0 &&
           one->is_high == other->is_high;
}

static zak_reason reason_of(size_t len, const char *step, uint8_t *text, size_t *text_len)
{
    zak_reason reason;
    size_t place;
    require(zak_explain_step(&card, script, len, 0, &reason, text, ZAK_MOST_REASON_TEXT, text_len,
                             &place) == ZAK_OK, step, "zak_explain_step fails");
    return reason;
}

static void show(const char *step, const zak_reason *reason, const uint8_t *text, size_t len)
{
    printf("%s\n  E%u, kind %u:", step, (unsigned)reason->status, (unsigned)reason->kind);
    for (size_t i = 0; i < 5; i++)
        printf(" %X", (unsigned)reason->numbers[i]);
    printf("%s\n  %.*s\n", reason->is_high ? ", high" : "", (int)len, (const char *)text);
}

static void try_step(const struct trial *trial)
{
    uint8_t text[ZAK_MOST_REASON_TEXT], again[ZAK_MOST_REASON_TEXT];
    size_t text_len = 0, again_len = 0, state_len, len;
    take_all(&card, script, assembled(trial->before, script, sizeof script), report, sizeof report);
    state_len = saved(&card, before);
    len = assembled(trial->step, script, sizeof script);
    zak_reason reason = reason_of(len, trial->step, text, &text_len);
    show(trial->step, &reason, text, text_len);
    len = take_all(&card, script, len, report, sizeof report);
    require(reason.status == refusal_in(report, len), trial->step, "the step answers otherwise");
    len = assembled(trial->step, script, sizeof script);
    zak_reason other = reason_of(len, trial->step, again, &again_len);
    require(are_alike(&reason, &other), trial->step, "afterwards there is another reason");
    require(text_len == again_len && memcmp(text, again, text_len) == 0, trial->step,
            "afterwards there is another sentence");
    require(saved(&card, after) == state_len && memcmp(before, after, state_len) == 0, trial->step,
            "the card is another");
    require(reason.kind >= 1 && reason.kind <= KINDS, trial->step, "there is no such kind");
    are_seen[reason.kind] = true;
}

int main(int argc, char **argv)
{
    if (!begin(argc, argv, 2))
        return 2;
    size_t first_len = saved(&card, first);
    for (size_t i = 0; i < sizeof TRIALS / sizeof *TRIALS; i++) {
        require(zak_restore(&card, first, first_len) == ZAK_OK, "zak_restore", "it fails");
        try_step(&TRIALS[i]);
    }
    for (size_t kind = 1; kind <= KINDS; kind++)
        require(are_seen[kind], "a kind", "no step is refused for it");
    zak_close(&card);
    return 0;
}
