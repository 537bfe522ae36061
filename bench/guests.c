/* Looks for the guests whose calls take the library longest, or makes the call of one guest:
 *
 *     guests FONTS find CALL TRIES SEED [GUEST ..]
 *     guests FONTS take CALL TIMES GUEST ..
 *
 * A guest is a mode; the words that it then writes to ports, such as 3CE=0105 for index 5 and value
 * 1; and the numbers of its call, such as ax=1300. Others are made of the one that is given.
 * bench/guests.py has the worst that were found. */
#define _POSIX_C_SOURCE 199309L

#include <stdint.h>
#include <stdio.h>
#include <stdlib.h>
#include <string.h>
#include <time.h>

#include "zaklimot.h"

#define MOST_WRITES 16
#define NUMBERS 5
/* The bytes of the longest block of a call; the end of the display memory's addresses, and how many
 * they are; the characters of a string while guests are looked for. */
#define MOST_BLOCK 16711425u
#define MEMORY_END 0xC0000u
#define MEMORY 0x20000u
#define SOME_CHARACTERS 10u

static const char *const NAMES[NUMBERS] = {"ax", "bx", "cx", "dx", "byte"};
enum { AX, BX, CX, DX, BYTE };

struct write { uint16_t port, word; };
struct guest {
    uint16_t mode;
    unsigned writes;
    struct write write[MOST_WRITES];
    uint16_t number[NUMBERS];
};

static const uint16_t MODES[] = {0x03, 0x07, 0x0D, 0x10, 0x12, 0x13};
#define MODE_COUNT (sizeof MODES / sizeof *MODES)
/* The ports that guests write to, each as often as it is tried, and how many indices each has. */
static const struct { uint16_t port, indices; } PORTS[] = {
    {0x3D4, 0x19}, {0x3D4, 0x19}, {0x3C4, 5}, {0x3CE, 9}, {0x3C0, 0x15}, {0x3C2, 1},
};
#define PORT_COUNT (sizeof PORTS / sizeof *PORTS)
static const uint8_t FUNCTIONS[] = {0x00, 0x01, 0x02, 0x03, 0x05, 0x06, 0x07, 0x08, 0x09, 0x0A, 0x0B,
                                    0x0C, 0x0D, 0x0E, 0x0F, 0x10, 0x11, 0x12, 0x1A, 0x1B};

static uint8_t fonts[ZAK_FONTS_SIZE], block[MOST_BLOCK], table[ZAK_MOST_TABLE], bytes[MEMORY];
static uint8_t state[MODE_COUNT][ZAK_MOST_STATE];
static size_t state_len[MODE_COUNT];
static uint32_t pixels[ZAK_WIDEST * ZAK_HIGHEST];
static zak_card card = ZAK_CARD_INIT;
static size_t decoded;

/* The blocks of code that the library has run, if it is compiled by gcc with
 * -fsanitize-coverage=trace-pc. They are the same in each run, however busy the machine is. */
static uint64_t blocks;
void __sanitizer_cov_trace_pc(void);
void __sanitizer_cov_trace_pc(void) { blocks++; }

static uint32_t random_state = 1;

/* A number below this one. */
static uint32_t below(uint32_t end)
{
    random_state ^= random_state << 13;
    random_state ^= random_state >> 17;
    random_state ^= random_state << 5;
    return random_state % end;
}

/* A register's value: often one that is extreme. */
static uint16_t some(uint32_t end)
{
    uint32_t which = below(4);
    return (uint16_t)(which == 0 ? 0 : which == 1 ? end - 1 : below(end));
}

/* A card in a mode, whose lines of memory differ. */
static zak_status prepare(size_t mode)
{
    zak_regs regs = {MODES[mode], 0, 0, 0};
    zak_status status = zak_int10(&card, &regs, block, 0, table, sizeof table, &decoded);
    for (uint32_t map = 1; map < 0x10; map <<= 1) {
        status |= zak_out_word(&card, 0x3C4, (uint16_t)(map << 8 | 2));
        for (size_t at = 0; at < MEMORY; at++)
            bytes[at] = (uint8_t)below(256);
        status |= zak_put_bytes(&card, MEMORY_END - MEMORY, bytes, MEMORY, false, &decoded);
    }
    regs.ax = MODES[mode] | 0x80;
    status |= zak_int10(&card, &regs, block, 0, table, sizeof table, &decoded);
    zak_size size;
    status |= zak_frame_xrgb(&card, &size, pixels, sizeof pixels / 4, ZAK_WIDEST);
    return status | zak_save(&card, state[mode], ZAK_MOST_STATE, &state_len[mode]);
}

static size_t place_of(uint16_t mode)
{
    size_t at = 0;
    while (at < MODE_COUNT - 1 && MODES[at] != mode)
        at++;
    return at;
}

static void do_write(struct write one)
{
    uint8_t read;
    if (one.port == 0x3C2) {
        zak_out(&card, one.port, (uint8_t)(one.word >> 8));
    } else if (one.port == 0x3C0) {
        zak_in(&card, 0x3DA, &read);
        zak_out(&card, one.port, one.word & 0x1F);
        zak_out(&card, one.port, (uint8_t)(one.word >> 8));
        zak_out(&card, one.port, 0x20);
    } else {
        zak_out_word(&card, one.port, one.word);
    }
}

/* Brings the card to the moment before a guest's call. */
static void begin(const struct guest *guest)
{
    size_t at = place_of(guest->mode);
    zak_restore(&card, state[at], state_len[at]);
    for (unsigned i = 0; i < guest->writes; i++)
        do_write(guest->write[i]);
    memset(block, guest->number[BYTE] & 0xFF, sizeof block);
}

static void do_fill(const uint16_t *number)
{
    uint32_t address = (uint32_t)number[BX] << 4;
    zak_fill_bytes(&card, address, (uint8_t)number[AX], UINT32_MAX - address, number[DX] & 1,
                   &decoded);
}

static void do_move(const uint16_t *number)
{
    uint32_t from = (uint32_t)number[BX] << 4, to = (uint32_t)number[CX] << 4;
    zak_move_bytes(&card, from, to, UINT32_MAX - (from > to ? from : to), number[DX] & 1, &decoded);
}

static void do_put(const uint16_t *number)
{
    zak_put_bytes(&card, MEMORY_END - MEMORY, bytes, MEMORY, number[DX] & 1, &decoded);
}

static void do_get(const uint16_t *number)
{
    zak_get_bytes(&card, MEMORY_END - MEMORY, bytes, MEMORY, number[DX] & 1, &decoded);
}

/* The longest advance, or one that is a little shorter, and the frame after it. */
static void do_frame(const uint16_t *number)
{
    zak_size size;
    zak_advance(&card, ZAK_MOST_DOTS - number[CX]);
    zak_frame_xrgb(&card, &size, pixels, sizeof pixels / 4, ZAK_WIDEST);
}

static void do_service(const uint16_t *number)
{
    zak_regs regs = {number[AX], number[BX], number[CX], number[DX]};
    zak_source source = {0};
    zak_block(&card, &regs, &source);
    zak_int10(&card, &regs, block, source.len, table, sizeof table, &decoded);
}

static const struct call {
    const char *name;
    void (*make)(const uint16_t *);
} CALLS[] = {
    {"fill", do_fill}, {"move", do_move},       {"put", do_put},       {"get", do_get},
    {"frame", do_frame}, {"service", do_service}, {"string", do_service},
};

static const struct call *called(const char *name)
{
    for (size_t i = 0; i < sizeof CALLS / sizeof *CALLS; i++)
        if (strcmp(CALLS[i].name, name) == 0)
            return &CALLS[i];
    return NULL;
}

static struct write some_write(void)
{
    size_t which = below(PORT_COUNT);
    uint16_t index = (uint16_t)below(PORTS[which].indices);
    return (struct write){PORTS[which].port, (uint16_t)(some(256) << 8 | index)};
}

static void number_at_random(struct guest *guest, const char *call, unsigned which)
{
    guest->number[which] = some(which == CX && strcmp(call, "frame") == 0 ? 4096 : 65536);
    if (which == AX && strcmp(call, "service") == 0)
        guest->number[AX] = (uint16_t)(FUNCTIONS[below(sizeof FUNCTIONS)] << 8 | some(64));
    if (which == BX && below(2) && (*call == 'f' || *call == 'm'))
        guest->number[BX] = 0xA000;
    if (strcmp(call, "string") == 0) {
        guest->number[AX] = (uint16_t)(0x1300 | below(4));
        guest->number[CX] = SOME_CHARACTERS;
        /* From the last row on, in text and in mode 12, each line feed scrolls the page. */
        guest->number[DX] = below(2) ? 0x1800 : 0x1D00;
        if (which == BYTE && below(2))
            guest->number[BYTE] = '\n';
    }
}

static struct guest some_guest(const char *call)
{
    struct guest guest = {MODES[below(MODE_COUNT)], 1, {{0x3D4, 0x0C11}}, {0}};
    for (unsigned count = below(MOST_WRITES); guest.writes < count; guest.writes++)
        guest.write[guest.writes] = some_write();
    for (unsigned which = 0; which < NUMBERS; which++)
        number_at_random(&guest, call, which);
    return guest;
}

/* Another guest, which does some things otherwise. */
static void change(struct guest *guest, const char *call)
{
    for (uint32_t times = 1 + below(3); times > 0; times--) {
        uint32_t which = below(8);
        uint32_t at = below(guest->writes);
        if (which < 2)
            number_at_random(guest, call, below(NUMBERS));
        else if (which == 2 && guest->writes > 1)
            guest->write[at] = guest->write[guest->writes - 1], guest->writes--;
        else if (which == 3)
            guest->mode = MODES[below(MODE_COUNT)];
        else if (which < 6 && guest->writes < MOST_WRITES)
            guest->write[guest->writes++] = some_write();
        else
            guest->write[at] = some_write();
    }
}

static void print_guest(const struct guest *guest)
{
    printf("%02X", guest->mode);
    for (unsigned i = 0; i < guest->writes; i++)
        printf(" %03X=%04X", guest->write[i].port, guest->write[i].word);
    for (unsigned which = 0; which < NUMBERS; which++)
        if (guest->number[which])
            printf(" %s=%04X", NAMES[which], guest->number[which]);
}

/* The blocks of code that the call of a guest runs. */
static uint64_t blocks_of(const struct call *call, const struct guest *guest)
{
    begin(guest);
    blocks = 0;
    call->make(guest->number);
    return blocks;
}

/* Leaves out each write and each number without which the call takes as long, but for a hundredth. */
static void shrink(const struct call *call, struct guest *guest)
{
    uint64_t wanted = blocks_of(call, guest) / 100 * 99;
    for (unsigned at = 0; at < guest->writes;) {
        struct guest other = *guest;
        other.writes--;
        memmove(other.write + at, other.write + at + 1, (other.writes - at) * sizeof *other.write);
        if (blocks_of(call, &other) >= wanted)
            *guest = other;
        else
            at++;
    }
    for (unsigned which = 0; which < NUMBERS; which++) {
        struct guest other = *guest;
        other.number[which] = 0;
        if (blocks_of(call, &other) >= wanted)
            *guest = other;
    }
}

static void find(const struct call *call, unsigned long tries, struct guest worst)
{
    uint64_t most = worst.mode ? blocks_of(call, &worst) : 0;
    for (unsigned long at = 0; at < tries; at++) {
        struct guest guest = worst;
        if (most == 0 || below(4) == 0)
            guest = some_guest(call->name);
        else
            change(&guest, call->name);
        uint64_t count = blocks_of(call, &guest);
        if (count > most) {
            most = count;
            worst = guest;
        }
    }
    shrink(call, &worst);
    printf("%llu blocks: ", (unsigned long long)blocks_of(call, &worst));
    print_guest(&worst);
    printf("\n");
}

/* A guest as it is printed; whether the words are one. */
static bool read_guest(struct guest *guest, int count, char **words)
{
    *guest = (struct guest){count ? (uint16_t)strtoul(words[0], NULL, 16) : 0, 0, {{0, 0}}, {0}};
    for (int at = 1; at < count; at++) {
        char *value = strchr(words[at], '=');
        if (!value)
            return false;
        uint16_t word = (uint16_t)strtoul(value + 1, NULL, 16);
        unsigned which = 0;
        while (which < NUMBERS && strncmp(words[at], NAMES[which], (size_t)(value - words[at])))
            which++;
        if (which < NUMBERS)
            guest->number[which] = word;
        else if (guest->writes < MOST_WRITES)
            guest->write[guest->writes++] =
                (struct write){(uint16_t)strtoul(words[at], NULL, 16), word};
        else
            return false;
    }
    return count > 0;
}

/* Makes the call of a guest, and prints how many milliseconds of a processor that takes: the best
 * of some times. With 0 times it only does what stands before the call. */
static void take(const struct call *call, const struct guest *guest, int times)
{
    double best = 0;
    for (int at = 0; at < times || at == 0; at++) {
        begin(guest);
        struct timespec before, after;
        clock_gettime(CLOCK_PROCESS_CPUTIME_ID, &before);
        if (times)
            call->make(guest->number);
        clock_gettime(CLOCK_PROCESS_CPUTIME_ID, &after);
        double took = (double)(after.tv_sec - before.tv_sec) * 1e3 +
                      (double)(after.tv_nsec - before.tv_nsec) / 1e6;
        best = at == 0 || took < best ? took : best;
    }
    printf("%.3f\n", best);
}

int main(int argc, char **argv)
{
    FILE *file = argc > 4 ? fopen(argv[1], "rb") : NULL;
    if (!file || fread(fonts, 1, sizeof fonts, file) != sizeof fonts)
        return 2;
    fclose(file);
    bool is_finding = strcmp(argv[2], "find") == 0;
    int first = is_finding ? 6 : 5;
    const struct call *call = called(argv[3]);
    struct guest guest = {0};
    if (!call || argc < first || (!read_guest(&guest, argc - first, argv + first) && argc > first))
        return 2;
    if (zak_open(&card, fonts, sizeof fonts))
        return 3;
    for (size_t mode = 0; mode < MODE_COUNT; mode++)
        if (prepare(mode))
            return 3;
    if (is_finding) {
        random_state = (uint32_t)strtoul(argv[5], NULL, 10) * 2654435761u | 1;
        find(call, strtoul(argv[4], NULL, 10), guest);
        return 0;
    }
    if (guest.mode == 0)
        return 2;
    take(call, &guest, atoi(argv[4]));
    return 0;
}
