/* vga.c: the program vga, over portable/zaklimot.c.
 *
 * SPDX-License-Identifier: MIT
 *
 *     cc -O2 -Iinclude -o vga portable/vga.c portable/zaklimot.c
 *
 * It wants C99 and its library alone. Words, files, messages and statuses are those of the proved
 * program, crates/vga, which share/man/man1/vga.1 explains. No proof covers this file: tests hold
 * it to the proved program.
 */
#include <signal.h>
#include <stdarg.h>
#include <stdbool.h>
#include <stddef.h>
#include <stdint.h>
#include <stdio.h>
#include <stdlib.h>
#include <string.h>

#if defined(_WIN32)
#include <fcntl.h>
#include <io.h>
#endif

#include "zaklimot.h"

/* What the program ends with. */
enum { DONE = 0, FAULT = 1, USAGE = 2 };

/* What a step of the work on words answers if it goes on. */
#define GOES_ON (-1)

#define ABOUT_ASM "Assembles the text of a script, and writes its binary form"
#define ABOUT_DIS "Prints a script as text on standard output"
#define ABOUT_RUN "Runs a script, and writes its report on standard output"
#define ABOUT_GO "Assembles the text of a script, and runs it as `run` does"
#define ABOUT_HELP "Print this message or the help of the given subcommand(s)"

#define RUN_OPTIONS                                                                                \
    "Options:\n"                                                                                   \
    "      --fonts <FILE>  The font file, of 9,728 bytes\n"                                        \
    "      --until <N>     Stops after N steps, and shows the card\n"                        \
    "  -h, --help          Print help\n"

static const char HELP[] =
    "A VGA display adapter that is driven by a script\n\n"
    "Usage: vga <COMMAND>\n\n"
    "Commands:\n"
    "  asm   " ABOUT_ASM "\n"
    "  dis   " ABOUT_DIS "\n"
    "  run   " ABOUT_RUN "\n"
    "  go    " ABOUT_GO "\n"
    "  help  " ABOUT_HELP "\n\n"
    "Options:\n"
    "  -h, --help  Print help\n\n"
    "Examples:\n"
    "  vga asm bars.vga bars.bin\n"
    "  vga dis bars.bin\n"
    "  vga run bars.bin --fonts zaklimot.fnt\n"
    "  vga go bars.vga --fonts zaklimot.fnt\n\n"
    "A script is a list of steps: cycles on the adapter's ports and memory, advances\n"
    "of its clock, frames, and dumps of its state. As text it has a step on each\n"
    "line, as in:\n"
    "  out 3C2 63      ; write 63 to port 3C2\n"
    "  put A0000 FF    ; write FF to address A0000\n"
    "  frame           ; draw a frame\n"
    "  show regs       ; show every register\n"
    "The report has a line for each step, with its number and its answer.\n\n"
    "/dev/stdin in the place of a file that is read is standard input.\n\n"
    "The status is 0 for success, 1 for a fault, and 2 for words that name no job.\n\n"
    "The project's README.md leads to its pages: docs/SCRIPT.md lists every step, and\n"
    "docs/REPORT.md explains each answer and each fault.\n\n"
    "vga 1.6, portable: tested, not proved\n";

static const char ASM_HELP[] =
    ABOUT_ASM "\n\n"
    "Usage: vga asm <TEXT> <BIN>\n\n"
    "Arguments:\n"
    "  <TEXT>  The script, as text\n"
    "  <BIN>   The file that its binary form is written to\n\n"
    "Options:\n"
    "  -h, --help  Print help\n\n"
    "Examples:\n"
    "  vga asm bars.vga bars.bin\n"
    "  vga asm /dev/stdin bars.bin < bars.vga\n\n"
    "The text has a step on each line, and a comment behind a semicolon. A mistake\n"
    "is named by its line, counted from 1, as `vga: F7 BadLine(12)` on standard\n"
    "error, and then <BIN> is not touched.\n\n"
    "The project's docs/SCRIPT.md lists every step.\n";

static const char DIS_HELP[] =
    ABOUT_DIS "\n\n"
    "Usage: vga dis <BIN>\n\n"
    "Arguments:\n"
    "  <BIN>  The script, in its binary form\n\n"
    "Options:\n"
    "  -h, --help  Print help\n\n"
    "Examples:\n"
    "  vga dis bars.bin > bars.vga\n"
    "  vga dis /dev/stdin < bars.bin\n\n"
    "The text has a line for each step, with its values in full. Where it has at most\n"
    "16,777,216 bytes, `vga asm` makes the same script of it.\n\n"
    "The project's docs/SCRIPT.md lists every step, as text and as bytes.\n";

static const char RUN_HELP[] =
    ABOUT_RUN "\n\n"
    "Usage: vga run <BIN> --fonts <FILE> [--until <N>]\n\n"
    "Arguments:\n"
    "  <BIN>  The script, in its binary form\n\n"
    RUN_OPTIONS "\n"
    "Examples:\n"
    "  vga run first-path.bin --fonts zaklimot.fnt\n"
    "  vga run first-path.bin --fonts zaklimot.fnt --until 12\n"
    "  vga run /dev/stdin --fonts zaklimot.fnt < first-path.bin\n\n"
    "The report has a line for each step. A fault ends it, with a line on standard\n"
    "error such as `vga: F1 FontSize`, and with status 1.\n\n"
    "With --until the run stops after <N> steps, or at the script's end, and the\n"
    "report ends with the registers, the beam, the latches and the BIOS data.\n\n"
    "The project's docs/REPORT.md explains each answer and each fault.\n";

static const char GO_HELP[] =
    ABOUT_GO "\n\n"
    "Usage: vga go <TEXT> --fonts <FILE> [--until <N>]\n\n"
    "Arguments:\n"
    "  <TEXT>  The script, as text\n\n"
    RUN_OPTIONS "\n"
    "Examples:\n"
    "  vga go bars.vga --fonts zaklimot.fnt\n"
    "  vga go bars.vga --fonts zaklimot.fnt --until 12\n"
    "  vga go /dev/stdin --fonts zaklimot.fnt < bars.vga\n\n"
    "The report is that of `vga run` on the bytes that `vga asm` makes of the text.\n\n"
    "The project's docs/SCRIPT.md lists every step, and docs/REPORT.md explains each\n"
    "answer and each fault.\n";

/* An option with a value: its name, and how a message shows it. */
struct option {
    const char *name, *shown;
};

enum { FONTS, UNTIL, OPTIONS };

static const struct option OPTION[OPTIONS] = {
    {"fonts", "--fonts <FILE>"},
    {"until", "--until <N>"},
};

/* A command: its files, in their order, and whether it has the options. */
struct command {
    const char *name, *usage, *help;
    size_t files;
    const char *file[2];
    bool has_options;
};

enum { ASM, DIS, RUN, GO, COMMANDS };

static const struct command COMMAND[COMMANDS] = {
    {"asm", "vga asm <TEXT> <BIN>", ASM_HELP, 2, {"TEXT", "BIN"}, false},
    {"dis", "vga dis <BIN>", DIS_HELP, 1, {"BIN", NULL}, false},
    {"run", "vga run <BIN> --fonts <FILE> [--until <N>]", RUN_HELP, 1, {"BIN", NULL}, true},
    {"go", "vga go <TEXT> --fonts <FILE> [--until <N>]", GO_HELP, 1, {"TEXT", NULL}, true},
};

static const char USAGE_LINE[] = "vga <COMMAND>";

/* The words of the command line, and the place of the next one. The first is the program's name. */
struct words {
    char *const *at;
    int count, next;
};

/* What is asked for: a command, its files, and the values of its options, or NULL. */
struct job {
    const struct command *command;
    const char *file[2], *value[OPTIONS];
};

static int print_help(const char *help)
{
    /* As the proved program does: a help that can't be written is no fault. */
    fputs(help, stdout);
    fflush(stdout);
    return DONE;
}

/* Tells on standard error why words are refused, as printf does. */
static void say(const char *form, ...)
{
    va_list values;
    va_start(values, form);
    vfprintf(stderr, form, values);
    va_end(values);
}

static int refuse_briefly(void)
{
    say("\n\nFor more information, try '--help'.\n");
    return USAGE;
}

static int refuse(const char *usage)
{
    say("\n\nUsage: %s", usage);
    return refuse_briefly();
}

/* The program's name: what follows the last slash. NULL where that is nothing. */
static const char *program_name(const struct words *words, int *len)
{
    const char *path = words->count ? words->at[0] : "";
    size_t end = strlen(path), begin;
    while (end && path[end - 1] == '/')
        end--;
    for (begin = end; begin && path[begin - 1] != '/'; begin--)
        continue;
#if defined(_WIN32)
    for (size_t i = begin; i < end; i++)
        if (path[i] == '\\')
            begin = i + 1;
#endif
    *len = (int)(end - begin);
    bool is_none = begin == end || (*len == 2 && !memcmp(path + begin, "..", 2));
    return is_none ? NULL : path + begin;
}

/* The usage of the command `help`, in which the program has its own name. */
static void print_help_usage(FILE *to, const struct words *words)
{
    int len;
    const char *name = program_name(words, &len);
    if (name)
        fprintf(to, "%.*s ", len, name);
    fputs("help [COMMAND]...", to);
}

static int print_help_of_help(const struct words *words)
{
    fputs(ABOUT_HELP "\n\nUsage: ", stdout);
    print_help_usage(stdout, words);
    return print_help("\n\nArguments:\n  [COMMAND]...  Print help for the subcommand(s)\n");
}

/* How like each other two words are, after Jaro: 0 to 1. A word of many letters is like no name. */
#define MOST_LETTERS 64
#define IS_LIKE 0.7

/* The letters of a word that is UTF-8, of which no more than one above the most are counted. */
static size_t letters_of(const char *word, size_t len, uint32_t *letters)
{
    size_t count = 0;
    for (size_t i = 0; i < len && count <= MOST_LETTERS; i++) {
        unsigned byte = (unsigned char)word[i];
        if ((byte & 0xC0) == 0x80 && count)
            letters[count - 1] = letters[count - 1] << 8 | byte;
        else
            letters[count++] = byte;
    }
    return count;
}

/* The letters of `word` that `name` has too, at about the same place: as the word and as the name
 * orders them. */
static size_t matching(const uint32_t *word, size_t word_len, const char *name, size_t name_len,
                       uint32_t *of_word, uint32_t *of_name)
{
    bool is_taken[MOST_LETTERS] = {false};
    size_t longest = word_len > name_len ? word_len : name_len, count = 0, picked = 0;
    size_t range = longest / 2 ? longest / 2 - 1 : 0;
    for (size_t i = 0; i < word_len; i++) {
        size_t j = i > range ? i - range : 0;
        size_t end = i + range + 1 < name_len ? i + range + 1 : name_len;
        while (j < end && (is_taken[j] || word[i] != (unsigned char)name[j]))
            j++;
        if (j < end) {
            is_taken[j] = true;
            of_word[count++] = word[i];
        }
    }
    for (size_t j = 0; j < name_len; j++)
        if (is_taken[j])
            of_name[picked++] = (unsigned char)name[j];
    return count;
}

static double likeness(const char *word, size_t len, const char *name)
{
    uint32_t letters[MOST_LETTERS + 1], of_word[MOST_LETTERS], of_name[MOST_LETTERS];
    size_t word_len = letters_of(word, len, letters), name_len = strlen(name), differing = 0;
    if (len == name_len && !memcmp(word, name, len))
        return 1.0;
    if (word_len > MOST_LETTERS)
        return 0.0;
    size_t count = matching(letters, word_len, name, name_len, of_word, of_name);
    if (!count)
        return 0.0;
    for (size_t i = 0; i < count; i++)
        differing += of_word[i] != of_name[i];
    double found = (double)count, kept = (double)(count - differing / 2);
    return (found / (double)word_len + found / (double)name_len + kept / found) / 3.0;
}

/* The long option of a command that is most like a word, the later one of two; NULL if none is. */
static const char *similar_option(const struct command *command, const char *word, size_t len)
{
    const char *names[] = {OPTION[FONTS].name, OPTION[UNTIL].name, "help"}, *best = NULL;
    double most = IS_LIKE;
    for (size_t i = command->has_options ? 0 : OPTIONS; i <= OPTIONS; i++) {
        double like = likeness(word, len, names[i]);
        if (like > IS_LIKE && like >= most) {
            best = names[i];
            most = like;
        }
    }
    return best;
}

static const struct command *command_named(const char *name)
{
    for (size_t i = 0; i < COMMANDS; i++)
        if (!strcmp(COMMAND[i].name, name))
            return &COMMAND[i];
    return NULL;
}

static bool is_help(const char *word)
{
    return !strcmp(word, "help");
}

/* What a word looks like: `--name` with or without a value, or `-x`. */
static bool is_long(const char *word)
{
    return word[0] == '-' && word[1] == '-' && word[2];
}

static bool is_short(const char *word)
{
    return word[0] == '-' && word[1] && word[1] != '-';
}

/* How many bytes the name of a long option has, and its value, or NULL. */
static size_t long_name(const char *name, const char **value)
{
    size_t len = strcspn(name, "=");
    *value = name[len] ? name + len + 1 : NULL;
    return len;
}

static bool is_name(const char *word, size_t len, const char *name)
{
    return len == strlen(name) && !memcmp(word, name, len);
}

/* How many bytes the first letter of a word has, which is UTF-8. */
static int letter_len(const char *word)
{
    int len = 1;
    while (((unsigned char)word[len] & 0xC0) == 0x80)
        len++;
    return len;
}

/* Of the commands with an option like the word, the one that stands first among the words left. */
static const struct command *command_with_option(const struct words *words, const char *word,
                                                 size_t len, const char **option)
{
    for (int i = words->next; i < words->count; i++) {
        const struct command *command = command_named(words->at[i]);
        *option = command ? similar_option(command, word, len) : NULL;
        if (*option)
            return command;
    }
    return NULL;
}

/* A long option that stands before any command. */
static int meet_long(const struct words *words, const char *name)
{
    static const struct command none = {.has_options = false};
    const char *value, *option;
    size_t len = long_name(name, &value);
    if (is_name(name, len, "help") && !value)
        return print_help(HELP);
    if (is_name(name, len, "help")) {
        say("error: unexpected value '%s' for '--help' found; no more were expected", value);
        return refuse(USAGE_LINE);
    }
    say("error: unexpected argument '--%.*s' found", (int)len, name);
    if (similar_option(&none, name, len)) {
        say("\n\n  tip: a similar argument exists: '--help'");
        return refuse(USAGE_LINE);
    }
    const struct command *command = command_with_option(words, name, len, &option);
    if (command)
        say("\n\n  tip: '%s --%s' exists", command->name, option);
    return refuse(USAGE_LINE);
}

static int meet_short(const char *word)
{
    if (word[1] == 'h')
        return print_help(HELP);
    say("error: unexpected argument '-%.*s' found", letter_len(word + 1), word + 1);
    return refuse(USAGE_LINE);
}

/* The commands that are like a word, the most like one last, and of two alike the later one. */
static size_t similar_commands(const char *word, const char *similar[COMMANDS + 1])
{
    double likes[COMMANDS + 1];
    size_t count = 0;
    for (size_t i = 0; i <= COMMANDS; i++) {
        const char *name = i < COMMANDS ? COMMAND[i].name : "help";
        double like = likeness(word, strlen(word), name);
        if (like <= IS_LIKE)
            continue;
        size_t at = count++;
        for (; at && likes[at - 1] > like; at--) {
            likes[at] = likes[at - 1];
            similar[at] = similar[at - 1];
        }
        likes[at] = like;
        similar[at] = name;
    }
    return count;
}

static int refuse_command(const char *word)
{
    const char *similar[COMMANDS + 1];
    size_t count = similar_commands(word, similar);
    say("error: unrecognized subcommand '%s'", word);
    if (count)
        say("\n\n  tip: %s", count == 1 ? "a similar subcommand exists: "
                                         : "some similar subcommands exist: ");
    for (size_t i = 0; i < count; i++)
        say("%s'%s'", i ? ", " : "", similar[i]);
    return refuse(USAGE_LINE);
}

/* A word behind `--`, with which no command begins. */
static int refuse_behind_dashes(const char *word)
{
    if (!command_named(word) && !is_help(word))
        return refuse_command(word);
    say("error: unexpected argument '%s' found\n\n  tip: subcommand '%s' exists; to use it, "
         "remove the '--' before it", word, word);
    return refuse(USAGE_LINE);
}

/* No word names a command. */
static int refuse_nothing(const struct words *words)
{
    int len;
    const char *name = program_name(words, &len);
    if (!name) {
        name = "vga";
        len = 3;
    }
    say("error: '%.*s' requires a subcommand but one was not provided\n"
         "  [subcommands: asm, dis, run, go, help]", len, name);
    return refuse(USAGE_LINE);
}

/* `help` with the words behind it. */
static int meet_help(const struct words *words)
{
    int left = words->count - words->next;
    const char *name = left ? words->at[words->next] : NULL;
    const struct command *command = left ? command_named(name) : NULL;
    if (!left)
        return print_help(HELP);
    if (!command && !is_help(name)) {
        say("error: unrecognized subcommand '%s'", name);
        return refuse(USAGE_LINE);
    }
    if (left == 1)
        return command ? print_help(command->help) : print_help_of_help(words);
    say("error: unrecognized subcommand '%s'", words->at[words->next + 1]);
    if (command)
        return refuse(command->usage);
    say("\n\nUsage: ");
    print_help_usage(stderr, words);
    say("\n");
    return USAGE;
}

/* The words of a command as they are met. An option waits until its value and the word behind it
 * are known: only then its use is checked. */
struct meeting {
    struct job *job;
    size_t files;                /* how many are met */
    const struct option *option; /* the one that waits, or NULL */
    const char *value;           /* its value, or NULL */
};

/* Checks the option that waits. */
static int settle(struct meeting *meeting)
{
    const struct option *option = meeting->option;
    if (!option)
        return GOES_ON;
    const char **value = &meeting->job->value[option - OPTION];
    meeting->option = NULL;
    if (!meeting->value) {
        say("error: a value is required for '%s' but none was supplied", option->shown);
        return refuse_briefly();
    }
    if (*value) {
        say("error: the argument '%s' cannot be used multiple times", option->shown);
        return refuse(meeting->job->command->usage);
    }
    *value = meeting->value;
    return GOES_ON;
}

static int print_help_of(struct meeting *meeting)
{
    int settled = settle(meeting);
    return settled == GOES_ON ? print_help(meeting->job->command->help) : settled;
}

static int refuse_long(const struct command *command, const char *name, size_t len)
{
    const char *similar = similar_option(command, name, len);
    say("error: unexpected argument '--%.*s' found", (int)len, name);
    if (similar)
        say("\n\n  tip: a similar argument exists: '--%s'", similar);
    else
        say("\n\n  tip: to pass '--%.*s' as a value, use '-- --%.*s'", (int)len, name, (int)len,
             name);
    return refuse(command->usage);
}

static int meet_long_of(struct meeting *meeting, const char *name)
{
    const struct command *command = meeting->job->command;
    const char *value;
    size_t len = long_name(name, &value);
    if (is_name(name, len, "help") && !value)
        return print_help_of(meeting);
    if (is_name(name, len, "help")) {
        say("error: unexpected value '%s' for '--help' found; no more were expected", value);
        return refuse(command->usage);
    }
    for (size_t i = 0; command->has_options && i < OPTIONS; i++) {
        if (is_name(name, len, OPTION[i].name)) {
            int settled = settle(meeting);
            meeting->option = &OPTION[i];
            meeting->value = value;
            return settled == GOES_ON && value ? settle(meeting) : settled;
        }
    }
    return refuse_long(command, name, len);
}

static int meet_short_of(struct meeting *meeting, const char *word)
{
    int len = letter_len(word + 1);
    if (word[1] == 'h')
        return print_help_of(meeting);
    say("error: unexpected argument '-%.*s' found\n\n  tip: to pass '-%.*s' as a value, "
         "use '-- -%.*s'", len, word + 1, len, word + 1, len, word + 1);
    return refuse(meeting->job->command->usage);
}

static int meet_file(struct meeting *meeting, const char *word)
{
    const struct command *command = meeting->job->command;
    if (meeting->files < command->files) {
        int settled = settle(meeting);
        meeting->job->file[meeting->files++] = word;
        return settled;
    }
    say("error: unexpected argument '%s' found", word);
    return refuse(command->usage);
}

static int meet_word(struct meeting *meeting, const char *word)
{
    if (is_long(word))
        return meet_long_of(meeting, word + 2);
    if (is_short(word))
        return meet_short_of(meeting, word);
    if (meeting->option && !meeting->value) {
        meeting->value = word;
        return GOES_ON;
    }
    return meet_file(meeting, word);
}

/* Whether all that the command needs was named. */
static int check_whole(const struct job *job)
{
    const struct command *command = job->command;
    bool lacks_fonts = command->has_options && !job->value[FONTS];
    if (!lacks_fonts && job->file[command->files - 1])
        return GOES_ON;
    say("error: the following required arguments were not provided:");
    if (lacks_fonts)
        say("\n  %s", OPTION[FONTS].shown);
    for (size_t i = 0; i < command->files; i++)
        if (!job->file[i])
            say("\n  <%s>", command->file[i]);
    return refuse(command->usage);
}

static int meet_command(struct words *words, struct job *job)
{
    struct meeting meeting = {.job = job};
    bool is_behind_dashes = false;
    while (words->next < words->count) {
        const char *word = words->at[words->next++];
        int met = GOES_ON;
        if (is_behind_dashes)
            met = meet_file(&meeting, word);
        else if (!strcmp(word, "--"))
            is_behind_dashes = true;
        else
            met = meet_word(&meeting, word);
        if (met != GOES_ON)
            return met;
    }
    int settled = settle(&meeting);
    return settled == GOES_ON ? check_whole(job) : settled;
}

/* The number of steps that a word names, which is digits alone. */
static bool count_of(const char *word, uint32_t *count)
{
    uint64_t value = 0;
    if (!*word)
        return false;
    for (; *word; word++) {
        if (*word < '0' || *word > '9')
            return false;
        value = 10 * value + (uint64_t)(*word - '0');
        if (value > UINT32_MAX)
            return false;
    }
    *count = (uint32_t)value;
    return true;
}

static int check_count(const struct job *job)
{
    uint32_t count;
    if (!job->value[UNTIL] || count_of(job->value[UNTIL], &count))
        return GOES_ON;
    say("error: the number after '--until' must be decimal digits, 0 to 4294967295");
    return refuse(USAGE_LINE);
}

/* Finds the job that the words ask for; or answers the status with which the program ends. */
static int find_job(struct words *words, struct job *job)
{
    bool is_behind_dashes = false;
    while (words->next < words->count) {
        const char *word = words->at[words->next++];
        if (is_behind_dashes)
            return refuse_behind_dashes(word);
        if (is_help(word))
            return meet_help(words);
        job->command = command_named(word);
        if (job->command) {
            int met = meet_command(words, job);
            return met == GOES_ON ? check_count(job) : met;
        }
        if (is_long(word))
            return meet_long(words, word + 2);
        if (is_short(word))
            return meet_short(word);
        if (strcmp(word, "--"))
            return refuse_command(word);
        is_behind_dashes = true;
    }
    return refuse_nothing(words);
}

#if !defined(_WIN32)
/* How many bytes a letter has in UTF-8, or 0 where these bytes are none. The bytes end with a 0. */
static size_t utf8_len(const unsigned char *at)
{
    if (at[0] < 0x80)
        return 1;
    size_t len = at[0] < 0xC2 ? 0 : at[0] < 0xE0 ? 2 : at[0] < 0xF0 ? 3 : at[0] < 0xF5 ? 4 : 0;
    for (size_t i = 1; i < len; i++)
        if ((at[i] & 0xC0) != 0x80)
            return 0;
    /* Letters in more bytes than they take, halves of pairs, and what is above all letters. */
    bool is_bad = (at[0] == 0xE0 && at[1] < 0xA0) || (at[0] == 0xED && at[1] >= 0xA0) ||
                  (at[0] == 0xF0 && at[1] < 0x90) || (at[0] == 0xF4 && at[1] >= 0x90);
    return is_bad ? 0 : len;
}
#endif

/* Whether each word is a text. Where names of files are bytes, a path that is none is not read. */
static bool are_texts(const struct words *words)
{
#if !defined(_WIN32)
    for (int i = 0; i < words->count; i++) {
        const unsigned char *at = (const unsigned char *)words->at[i];
        while (*at) {
            size_t len = utf8_len(at);
            if (!len)
                return false;
            at += len;
        }
    }
#else
    (void)words;
#endif
    return true;
}

/* Why a job is not done: the number of the fault, 0 for none, and its place in the script. */
typedef struct fault {
    unsigned number;
    size_t place;
} fault;

enum {
    FONT_SIZE = 1, BAD_STEP = 4, TRUNCATED = 5, BAD_LINE = 7, READ_FAULT = 8, WRITE_FAULT = 9,
    OUT_OF_MEMORY = 10, TOO_MANY = 11, BROKEN = 12
};

static const char *const FAULT_NAME[] = {
    "", "FontSize", "BadMagic", "BadVersion", "BadStep", "Truncated", "TooLong", "BadLine",
    "ReadFault", "WriteFault", "OutOfMemory", "TooMany",
};

static fault fault_numbered(unsigned number)
{
    return (fault){number, 0};
}

/* The fault of a status of the library. */
static fault fault_of(zak_status status, size_t place)
{
    unsigned number = status == ZAK_OK              ? 0
                      : status == ZAK_FONT_SIZE     ? FONT_SIZE
                      : status == ZAK_OUT_OF_MEMORY ? OUT_OF_MEMORY
                      : status >= ZAK_BAD_MAGIC && status <= ZAK_TOO_MANY
                          ? status - ZAK_BAD_MAGIC + 2
                          : BROKEN;
    bool has_place = number == BAD_STEP || number == TRUNCATED || number == BAD_LINE ||
                     number == TOO_MANY;
    return (fault){number, has_place ? place : 0};
}

static void tell_fault(fault fault)
{
    if (fault.number == BROKEN)
        say("vga: this program was compiled wrongly, or its memory was overwritten\n");
    else if (fault.number == BAD_STEP || fault.number == TRUNCATED || fault.number == BAD_LINE ||
             fault.number == TOO_MANY)
        say("vga: F%u %s(%llu)\n", fault.number, FAULT_NAME[fault.number],
             (unsigned long long)fault.place);
    else
        say("vga: F%u %s\n", fault.number, FAULT_NAME[fault.number]);
}

/* Bytes in memory from malloc, which is never NULL once there are some. */
typedef struct bytes {
    uint8_t *at;
    size_t len, room;
} bytes;

/* Room for so many bytes; those that are there stay. */
static bool make_room(bytes *bytes, size_t room)
{
    if (bytes->at && bytes->room >= room)
        return true;
    void *at = realloc(bytes->at, room ? room : 1);
    if (!at)
        return false;
    bytes->at = at;
    bytes->room = room;
    return true;
}

/* So many bytes of a text or a script are read at most, one more than is good; and of a font file
 * one more than it has. One call reads a piece. */
#define MOST_SCRIPT (16777216u + 1)
#define MOST_FONTS (ZAK_FONTS_SIZE + 1)
#define READ_PIECE 65536u

/* A file that is opened for reading, of which no byte is read ahead; NULL where it can't be. */
static FILE *open_file(const char *path)
{
#if defined(_WIN32)
    /* As the help promises. */
    if (!strcmp(path, "/dev/stdin")) {
        _setmode(_fileno(stdin), _O_BINARY);
        return stdin;
    }
#endif
    FILE *file = fopen(path, "rb");
    if (file)
        setvbuf(file, NULL, _IONBF, 0);
    return file;
}

/* Reads the first bytes of a file, so many at most. */
static fault read_bytes(FILE *file, size_t most, bytes *read)
{
    for (;;) {
        size_t piece = most - read->len < READ_PIECE ? most - read->len : READ_PIECE;
        size_t wanted = read->len + piece;
        if (wanted > read->room && wanted < 2 * read->room)
            wanted = 2 * read->room;
        if (!make_room(read, wanted))
            return fault_numbered(OUT_OF_MEMORY);
        size_t count = fread(read->at + read->len, 1, piece, file);
        read->len += count;
        if (ferror(file))
            return fault_numbered(READ_FAULT);
        if (count < piece || read->len == most)
            return fault_numbered(0);
    }
}

static fault read_file(const char *path, size_t most, bytes *read)
{
    FILE *file = open_file(path);
    if (!file)
        return fault_numbered(READ_FAULT);
    fault fault = read_bytes(file, most, read);
    fclose(file);
    return fault;
}

/* So many bytes are written by one call, at most. */
#if defined(_WIN32)
#define WRITE_PIECE 16384u /* a console takes no more than twice as many */
#else
#define WRITE_PIECE 262144u
#endif

/* Writes all bytes to a file without a buffer. */
static fault write_bytes(FILE *file, const uint8_t *at, size_t len)
{
    while (len) {
        size_t piece = len < WRITE_PIECE ? len : WRITE_PIECE;
        if (fwrite(at, 1, piece, file) != piece)
            return fault_numbered(WRITE_FAULT);
        at += piece;
        len -= piece;
    }
    return fault_numbered(0);
}

static fault write_file(const char *path, const bytes *written)
{
    FILE *file = fopen(path, "wb");
    if (!file)
        return fault_numbered(WRITE_FAULT);
    setvbuf(file, NULL, _IONBF, 0);
    fault fault = write_bytes(file, written->at, written->len);
    if (fclose(file) && !fault.number)
        return fault_numbered(WRITE_FAULT);
    return fault;
}

/* A call that turns bytes into others: zak_assemble or zak_print. */
typedef zak_status turning(const uint8_t *at, size_t len, uint8_t *made, size_t room,
                           size_t *made_len, size_t *place);

/* Turns bytes into others. Where the room is too small the call tells how much it takes. */
static fault turn(turning *call, const bytes *from, size_t room, bytes *made)
{
    size_t place = 0;
    zak_status status = ZAK_NO_ROOM;
    made->len = room;
    for (int tries = 0; status == ZAK_NO_ROOM && tries < 2; tries++) {
        if (!make_room(made, made->len))
            return fault_numbered(OUT_OF_MEMORY);
        status = call(from->at, from->len, made->at, made->room, &made->len, &place);
    }
    return fault_of(status, place);
}

/* The bytes of the script that a text spells. Most texts are longer. */
static fault assemble(const bytes *text, bytes *script)
{
    return turn(zak_assemble, text, text->len + 64, script);
}

static fault read_text(const char *path, bytes *script)
{
    bytes text = {NULL, 0, 0};
    fault fault = read_file(path, MOST_SCRIPT, &text);
    if (!fault.number)
        fault = assemble(&text, script);
    free(text.at);
    return fault;
}

static fault assemble_file(const struct job *job)
{
    bytes script = {NULL, 0, 0};
    fault fault = read_text(job->file[0], &script);
    if (!fault.number)
        fault = write_file(job->file[1], &script);
    free(script.at);
    return fault;
}

static fault print_file(const struct job *job)
{
    bytes script = {NULL, 0, 0}, text = {NULL, 0, 0};
    fault fault = read_file(job->file[0], MOST_SCRIPT, &script);
    if (!fault.number)
        fault = turn(zak_print, &script, 3 * script.len + 64, &text);
    if (!fault.number)
        fault = write_bytes(stdout, text.at, text.len);
    free(script.at);
    free(text.at);
    return fault;
}

/* A place among the bytes of a good script. The library takes the steps; here they are walked over
 * for one purpose, to know about how long the report of the next ones is. */
typedef struct walk {
    const uint8_t *at, *end;
    const uint8_t *body; /* the first step of the repeat under way */
    uint32_t left;       /* how often that is still taken, this time too */
} walk;

#define HEADER_BYTES 5

enum { OUT = 1, OUT_WORD, IN, IN_WORD, PUT, PUT_WORD, GET, GET_WORD, INT10, ADVANCE, FRAME, SHOW,
       REPEAT, END };
enum { SHOW_REGS, SHOW_DAC, SHOW_BEAM, SHOW_LATCHES, SHOW_PLANE, SHOW_BDA, SHOW_CELLS };

/* The bytes of each step, and of each `repeat` and `end`, by its opcode; those of an `int` without
 * its block, and those of a `show` without its fields. */
static const uint8_t STEP_BYTES[] = {0, 4, 5, 3, 3, 6, 7, 5, 5, 11, 5, 1, 2, 3, 1};
static const uint8_t SHOW_BYTES[] = {0, 1, 0, 0, 5, 0, 0};

static uint32_t word_at(const uint8_t *at)
{
    return at[0] | (uint32_t)at[1] << 8;
}

/* How many bytes the step here has. */
static size_t step_len(const walk *walk)
{
    size_t left = (size_t)(walk->end - walk->at);
    unsigned opcode = *walk->at;
    size_t len = opcode < sizeof STEP_BYTES ? STEP_BYTES[opcode] : 0;
    if (opcode == INT10 && len <= left)
        len += word_at(walk->at + 9);
    if (opcode == SHOW && len <= left && walk->at[1] < sizeof SHOW_BYTES)
        len += SHOW_BYTES[walk->at[1]];
    return len && len < left ? len : left;
}

/* Goes to the next step, over where repeats begin and end. Answers false where there is none. */
static bool find_step(walk *walk)
{
    while (walk->at < walk->end) {
        if (*walk->at == REPEAT && walk->end - walk->at >= 3) {
            walk->left = word_at(walk->at + 1);
            walk->body = walk->at += 3;
        } else if (*walk->at == END && walk->body) {
            bool is_empty = walk->at == walk->body;
            walk->left--;
            walk->at = walk->left && !is_empty ? walk->body : walk->at + 1;
        } else {
            return true;
        }
    }
    return false;
}

/* About how many bytes the report of a step has at most, if it is no frame. */
static size_t line_len(const walk *walk)
{
    if (*walk->at == INT10)
        return word_at(walk->at + 1) == 0x1017 ? 64 + 2 * ZAK_MOST_TABLE : 96;
    if (*walk->at != SHOW)
        return 32;
    unsigned kind = walk->at[1];
    return kind == SHOW_CELLS ? ZAK_MOST_TEXT : kind == SHOW_PLANE ? 1024 : 512;
}

/* A script that runs on a card. The report is written slice by slice, so that no more of it is in
 * memory than `report` has room for. */
typedef struct run {
    zak_card card;
    bytes script, report;
    walk walk;          /* the next step */
    uint32_t first;     /* how many steps are taken */
    uint32_t left;      /* how many more are taken at most */
    size_t frame_len;   /* about how many bytes the report of a frame has */
    size_t changed_len; /* the same, once the size of pictures may have changed */
    bool is_settled;    /* whether frame_len is that of frames since it may last have changed */
} run;

/* Steps that one call takes. */
typedef struct slice {
    walk behind;    /* the step behind them */
    uint32_t steps;
    uint32_t frames;
    bool is_changed; /* whether one of them may change the size of a picture */
} slice;

/* A step may have as many bytes of report as this, and most pictures have no more than that. */
#define MOST_REPORT (ZAK_MOST_RGB + 100)
#define USUAL_REPORT (MOST_REPORT / 8)
/* Once the size of pictures may have changed, a slice has no more frames than this: should they be
 * larger than expected, few are drawn in vain. */
#define MOST_FRAMES 64u

static bool may_change_size(unsigned opcode)
{
    return opcode == OUT || opcode == OUT_WORD || opcode == INT10;
}

/* The next steps, at least one and `most` at most, whose report is expected to have room. */
static slice next_slice(const run *run, uint32_t most)
{
    slice slice = {run->walk, 0, 0, false};
    size_t len = 0;
    uint32_t most_frames = run->is_settled ? UINT32_MAX : MOST_FRAMES;
    while (slice.steps < most && find_step(&slice.behind)) {
        unsigned opcode = *slice.behind.at;
        bool is_frame = opcode == FRAME;
        if (!is_frame)
            len += line_len(&slice.behind);
        else
            len += slice.is_changed ? run->changed_len : run->frame_len;
        if (slice.steps && (len > run->report.room || (is_frame && slice.frames >= most_frames)))
            return slice;
        if (may_change_size(opcode) && !slice.is_changed) {
            slice.is_changed = true;
            most_frames = slice.frames + MOST_FRAMES;
        }
        slice.frames += is_frame;
        slice.steps++;
        slice.behind.at += step_len(&slice.behind);
    }
    /* The library says where the script ends: it takes fewer steps than it is asked for. */
    if (slice.steps < most)
        slice.steps++;
    return slice;
}

/* The state of a card, in memory that the caller frees. */
static fault save(zak_card *card, bytes *state)
{
    size_t len = 0;
    zak_status status = zak_save_size(card, &len);
    if (!status && !make_room(state, len))
        return fault_numbered(OUT_OF_MEMORY);
    if (!status)
        status = zak_save(card, state->at, state->room, &state->len);
    return fault_of(status, 0);
}

/* Takes the steps of a slice, and has their report in memory. Where that has no room, or there is
 * no memory for it, fewer steps are taken from the same state. */
static fault take_slice(run *run, slice *slice, const bytes *state, size_t *taken)
{
    for (;;) {
        size_t place = 0;
        zak_status status = zak_run_on(&run->card, run->script.at, run->script.len, run->first,
                                       slice->steps, run->report.at, run->report.room,
                                       &run->report.len, taken, &place);
        if ((status != ZAK_NO_ROOM && status != ZAK_OUT_OF_MEMORY) || slice->steps == 1)
            return fault_of(status, place);
        status = zak_restore(&run->card, state->at, state->len);
        if (status)
            return fault_of(status, 0);
        run->frame_len = run->changed_len = MOST_REPORT;
        *slice = next_slice(run, slice->steps / 2);
    }
}

static size_t larger(size_t one, size_t other)
{
    return one > other ? one : other;
}

/* Learns from a slice about how long the report of a frame is. One slice alone never makes it much
 * shorter; and of two frames the second is whole, whatever has changed before the first. */
static void learn(run *run, const slice *slice)
{
    size_t average = slice->frames ? run->report.len / slice->frames + 1 : 0;
    if (slice->is_changed && slice->frames)
        run->changed_len = larger(average, run->changed_len / 2);
    if (slice->is_changed)
        run->frame_len = run->changed_len;
    else if (slice->frames)
        run->frame_len = larger(average, run->frame_len / 2);
    run->is_settled = !slice->is_changed && (run->is_settled || slice->frames > 1);
}

/* Takes the steps of a script, of which the first faults are known, and writes their report. */
static fault write_steps(run *run)
{
    bytes state = {NULL, 0, 0};
    fault fault = fault_numbered(0);
    size_t taken = 0;
    slice slice = {run->walk, 0, 0, false};
    do {
        slice = next_slice(run, run->left);
        fault = save(&run->card, &state);
        if (!fault.number)
            fault = take_slice(run, &slice, &state, &taken);
        if (!fault.number)
            fault = write_bytes(stdout, run->report.at, run->report.len);
        if (fault.number)
            break;
        learn(run, &slice);
        run->walk = slice.behind;
        run->first += (uint32_t)taken;
        run->left -= (uint32_t)taken;
    } while (taken == slice.steps && run->left);
    free(state.at);
    return fault;
}

/* A call that shows a part of the state. */
typedef zak_status showing(zak_card *card, uint8_t *text, size_t room, size_t *len);

/* Shows the state, as if that were the next steps. */
static fault show_card(run *run)
{
    showing *const calls[] = {zak_show_regs, zak_show_beam, zak_show_latches, zak_show_bda};
    fault fault = fault_numbered(0);
    for (unsigned i = 0; i < 4 && !fault.number; i++) {
        char *line = (char *)run->report.at;
        size_t begin = (size_t)snprintf(line, 32, "%llu ", run->first + 1ull + i), len = 0;
        fault = fault_of(calls[i](&run->card, run->report.at + begin, ZAK_MOST_TEXT, &len), 0);
        if (!fault.number)
            fault = write_bytes(stdout, run->report.at, begin + len);
    }
    return fault;
}

/* Runs a script on an open card, and writes its report. */
static fault run_script(run *run, const char *until)
{
    size_t len = 0, taken = 0, place = 0;
    /* Each slice decodes the whole script: a long one has longer slices. */
    if (!make_room(&run->report, MOST_REPORT + run->script.len))
        return fault_numbered(OUT_OF_MEMORY);
    /* A bad script has no report at all. */
    zak_status status = zak_run_on(&run->card, run->script.at, run->script.len, 0, 0,
                                   run->report.at, 0, &len, &taken, &place);
    fault fault = fault_of(status, place);
    run->walk = (walk){run->script.at + HEADER_BYTES, run->script.at + run->script.len, NULL, 0};
    run->frame_len = run->changed_len = USUAL_REPORT;
    run->left = UINT32_MAX;
    if (until)
        count_of(until, &run->left);
    if (!fault.number && run->left)
        fault = write_steps(run);
    if (!fault.number && until)
        fault = show_card(run);
    return fault;
}

static fault open_card(run *run, const bytes *fonts)
{
    return fault_of(zak_open(&run->card, fonts->at, fonts->len), 0);
}

/* Opens the card once the font file is read and the script's file is open: that is the order in
 * which faults are judged. */
static fault read_script(run *run, const char *path, const bytes *fonts)
{
    FILE *file = open_file(path);
    if (!file)
        return fault_numbered(READ_FAULT);
    fault fault = open_card(run, fonts);
    if (!fault.number)
        fault = read_bytes(file, MOST_SCRIPT, &run->script);
    fclose(file);
    return fault;
}

static fault run_file(const struct job *job)
{
    run run = {.card = ZAK_CARD_INIT};
    bytes fonts = {NULL, 0, 0};
    fault fault = read_file(job->value[FONTS], MOST_FONTS, &fonts);
    if (!fault.number && job->command == &COMMAND[RUN]) {
        fault = read_script(&run, job->file[0], &fonts);
    } else if (!fault.number) {
        fault = read_text(job->file[0], &run.script);
        if (!fault.number)
            fault = open_card(&run, &fonts);
    }
    if (!fault.number)
        fault = run_script(&run, job->value[UNTIL]);
    zak_close(&run.card);
    free(fonts.at);
    free(run.script.at);
    free(run.report.at);
    return fault;
}

static fault do_job(const struct job *job)
{
    if (job->command == &COMMAND[ASM])
        return assemble_file(job);
    return job->command == &COMMAND[DIS] ? print_file(job) : run_file(job);
}

/* Bytes go out as they are, in large pieces; and a message in one. A pipe that nobody reads is a
 * WriteFault, and does not end the program by a signal. */
static void prepare_streams(void)
{
    static char said[4096];
#if defined(SIGPIPE)
    signal(SIGPIPE, SIG_IGN);
#endif
#if defined(_WIN32)
    _setmode(_fileno(stdout), _O_BINARY);
    _setmode(_fileno(stderr), _O_BINARY);
#endif
    setvbuf(stdout, NULL, _IONBF, 0);
    setvbuf(stderr, said, _IOFBF, sizeof said);
}

int main(int count, char *words[])
{
    struct words line = {words, count, 1};
    struct job job = {.command = NULL};
    prepare_streams();
    if (!are_texts(&line)) {
        say("vga: Missing\n");
        return USAGE;
    }
    int found = find_job(&line, &job);
    if (found != GOES_ON)
        return found;
    fault fault = do_job(&job);
    if (fault.number)
        tell_fault(fault);
    return fault.number ? FAULT : DONE;
}
