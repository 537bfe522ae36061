/* What zak_explain_text says of texts. Each kind of mistake has texts here: the line, the part of
 * it, the kind and the sentence are printed, and are to be those of mistakes.txt. Then good texts
 * are damaged at pseudo-random places: a mistake is told of those that zak_assemble refuses, and of
 * no others, and it is in the line that zak_assemble names.
 *
 *     mistakes FONTS TEXTS */
#include "trial.h"

#define KINDS 10u
#define MOST_SCRIPT 16777216u

static const char *const TEXTS[] = {
    "frame\n\xC3\xA4 out 3C4 02",
    "out 3C4 \f02",
    "out 3C4 02 // map mask",
    "# comments",
    "move 3C4 02",
    "frame\n\n  Advanse 12",
    "out 3C4",
    "out 3C4 02 06",
    "frame 2",
    "out 0x3C4 02",
    "out 3C4 102",
    "put 1000A0000 55",
    "advance 4294967296",
    "advance 1F",
    "show cell",
    "show cells 0",
    "show",
    "show plane 4 0 1",
    "show plane 0 FFFF 2",
    "show plane 0 0 257",
    "int bx=1 ax=3",
    "int ax=3 ax=4",
    "int ax = 3",
    "int ex=3",
    "int ax=1012 block 010",
    "int block",
    "int ax=1012 block 0G",
    "repeat 2\nframe\nend",
    "frame\nversion 2",
    "version 2\nrepeat 2\nrepeat 3",
    "version 2\nrepeat 0",
    "version 2\nend",
    "version 2\nrepeat 2\nframe",
    "version 1",
    "version 2\nversion 2",
    "",
    "; nothing\nframe",
};

static bool are_seen[KINDS + 1];
static uint8_t script[1 << 16];

static zak_mistake mistake_in(const char *text, size_t len, uint8_t *sentence, size_t *sentence_len)
{
    zak_mistake mistake;
    require(zak_explain_text((const uint8_t *)text, len, &mistake, sentence, ZAK_MOST_MISTAKE_TEXT,
                             sentence_len) == ZAK_OK, text, "zak_explain_text fails");
    return mistake;
}

/* Where the line of this number begins in a text, and how many bytes it has. */
static const char *line_of(const char *text, size_t len, size_t number, size_t *line_len)
{
    const char *end = text + len, *begin = text;
    for (; number > 1 && begin < end; begin++)
        number -= *begin == '\n';
    const char *newline = memchr(begin, '\n', (size_t)(end - begin));
    *line_len = (size_t)((newline ? newline : end) - begin);
    return begin;
}

/* A part of a line, in ASCII. */
static void show_part(const char *part, size_t len)
{
    putchar('`');
    for (size_t i = 0; i < len; i++)
        printf(part[i] >= ' ' && part[i] <= '~' ? "%c" : "\\%02X", (uint8_t)part[i]);
    printf("`: ");
}

static void show(const char *text)
{
    uint8_t sentence[ZAK_MOST_MISTAKE_TEXT];
    size_t len = 0, line_len;
    zak_mistake mistake = mistake_in(text, strlen(text), sentence, &len);
    const char *line = line_of(text, strlen(text), mistake.line, &line_len);
    require(mistake.start + mistake.length <= line_len, text, "the part is outside the line");
    printf("line %u, %u to %u, kind %u: ", (unsigned)mistake.line, (unsigned)mistake.start,
           (unsigned)(mistake.start + mistake.length), (unsigned)mistake.kind);
    show_part(line + mistake.start, mistake.length);
    printf("%.*s\n", (int)len, (const char *)sentence);
    require(mistake.kind <= KINDS, text, "there is no such kind");
    are_seen[mistake.kind] = true;
}

/* Lines that are good by themselves, and blocks. */
static size_t write_text(char *text, size_t room)
{
    static const char *const LINES[] = {
        "out 3C4 02\n", "outw 3CE FF08 ; bits\n", "  in 3da\r\n", "put A0000 55\n", "getw B8000\n",
        "int ax=3\n", "int ax=1012 cx=1 block 0a0B0c\n", "advance 1000\n", "frame\n", "show regs\n",
        "show dac 7\n", "show plane 2 FF00 256\n", "show cells\n", "; nothing\n", "\n",
        "repeat 7\nput A0000 1\nend\n", "repeat 2\nend\n",
    };
    size_t len = (size_t)snprintf(text, room, "%s", random_below(2) ? "version 2\n" : "");
    for (uint32_t lines = random_below(8); lines > 0; lines--)
        len += (size_t)snprintf(text + len, room - len, "%s", LINES[random_below(17)]);
    return len;
}

/* Replaces, inserts or takes out a byte. */
static size_t damage(char *text, size_t len)
{
    static const char BYTES[] = " \n0129AFGgx=;/#\t\r\f\x7F\xC3version2repeatendshowblockint";
    size_t at = random_below((uint32_t)len + 1);
    char byte = BYTES[random_below(sizeof BYTES)];
    switch (random_below(3)) {
    case 0:
        if (at < len)
            text[at] = byte;
        return len;
    case 1:
        memmove(text + at + 1, text + at, len - at);
        text[at] = byte;
        return len + 1;
    default:
        if (at == len)
            return len;
        memmove(text + at, text + at + 1, len - at - 1);
        return len - 1;
    }
}

static bool compare(void)
{
    static char text[1024];
    uint8_t sentence[ZAK_MOST_MISTAKE_TEXT];
    size_t script_len, bad_line = 0, line_len, len = 0, text_len = write_text(text, 512);
    for (uint32_t count = random_below(4); count > 0; count--)
        text_len = damage(text, text_len);
    text[text_len] = 0;
    zak_status status = zak_assemble((const uint8_t *)text, text_len, script, sizeof script,
                                     &script_len, &bad_line);
    zak_mistake mistake = mistake_in(text, text_len, sentence, &len);
    line_of(text, text_len, mistake.line, &line_len);
    require(status == ZAK_OK || status == ZAK_BAD_LINE, text, "it is refused otherwise");
    require((mistake.kind != 0) == (status != ZAK_OK), text, "a mistake in what is good, or none");
    require(mistake.line == bad_line, text, "the line is another");
    require(mistake.kind <= KINDS, text, "there is no such kind");
    require(mistake.start + mistake.length <= line_len || mistake.kind == 0, text,
            "the part is outside the line");
    require(mistake.kind ? len > 0 && sentence[len - 1] != '.'
                         : len + mistake.start + mistake.length == 0,
            text, "the sentence is wrong");
    return mistake.kind != 0;
}

/* A text of lines that are all the same, behind others: what is wrong in it. */
static void show_lines(const char *before, const char *line, size_t count)
{
    size_t len, before_len = strlen(before), line_len = strlen(line);
    char *text = malloc(before_len + line_len * count);
    uint8_t sentence[ZAK_MOST_MISTAKE_TEXT];
    require(text != NULL, "malloc", "there is no memory");
    memcpy(text, before, before_len);
    for (size_t i = 0; i < count; i++)
        memcpy(text + before_len + line_len * i, line, line_len);
    zak_mistake mistake = mistake_in(text, before_len + line_len * count, sentence, &len);
    printf("line %u, %u to %u, kind %u: %.*s\n", (unsigned)mistake.line, (unsigned)mistake.start,
           (unsigned)(mistake.start + mistake.length), (unsigned)mistake.kind, (int)len,
           (const char *)sentence);
    free(text);
}

int main(int argc, char **argv)
{
    unsigned long mistakes = 0;
    if (!begin(argc, argv, 3))
        return 2;
    for (size_t i = 0; i < sizeof TEXTS / sizeof *TEXTS; i++)
        show(TEXTS[i]);
    /* More bytes than a text may have, or a script; more steps than a script may mean. */
    show_lines("", "\n", MOST_SCRIPT + 1);
    show_lines("", "int\n", 1525202);
    show_lines("version 2\n", "repeat 65535\nframe\nend\n", 257);
    for (size_t kind = 0; kind < KINDS; kind++)
        require(are_seen[kind], "a kind", "no text has it");
    for (int n = atoi(argv[2]); n > 0; n--, compared++)
        mistakes += compare();
    require(mistakes > compared / 4 && mistakes < compared / 4 * 3, "all texts",
            "most are good, or bad");
    zak_close(&card);
    return 0;
}
