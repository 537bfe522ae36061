/* Compares libx86emu, patched as the page has it and with the page's memory, with what another processor does:
 * processor [faults] < CASES
 *
 * cases.py and manual.py write the cases, and tell what they are. Each is done in the two ways that the page has: where
 * instructions are told, and where they are not. By `faults` a fault is compared too, for what it leaves. It is told how
 * many differ, by opcode, and the first of each. The exit status is 1 where one differs, or where an instruction is
 * lacking.
 */
#include <stdio.h>
#include <stdlib.h>
#include <string.h>
#include "x86emu_int.h"

enum { MEMORY = 0x100000, OFFSET = 0x100, CODE = 0x10100, MOST_WRITTEN = 512, MOST_PORTS = 64, OPCODES = 512 };
enum { INVALID_OPCODE = 6, GENERAL_PROTECTION = 13, DIVIDE = 0, MOST_TURNS = 100 };

enum kind { REAL, FLAT, DESCRIBED };
enum { TABLES = 0x40000, MOST_TABLES = 4096, FLAT_CODE = 0x08, FLAT_DATA = 0x10 };
#define NO_FAULT 0xFFFFFFFFu

struct before {
    u32 kind, registers[8], flags;
    u8 code[16];
    u32 count, segment_bytes, interrupt_bytes, given;
};
struct after {
    u32 registers[8], flags, compared, place, fault;
    u16 segments[6], written, ports;
};
#pragma pack(push, 1)
struct written {
    u32 place;
    u8 value;
};
struct port {
    u16 port;
    u8 size;
    u32 value;
};
#pragma pack(pop)

/* The page's memory (machine/cpu/memory.h). Beyond MEMORY there is none for a case. */
enum { PART = 1 << PART_SHIFT, BEYOND = 0xFF };
u8 ram[RAM_BYTES], is_written[PARTS];
u32 is_told, high_bytes = HIGH_BYTES;
static unsigned port_count;
static struct port ports[MOST_PORTS];
static unsigned all[OPCODES], differing[OPCODES], lacking[OPCODES];

static u8 pattern(u32 place)
{
    return (u8)(place * 167 + (place >> 8) * 13);
}

static u32 answer(u32 port, u32 size)
{
    u32 word = port * 0x9E3779B1u ^ size * 0x85EBCA6Bu;
    return size == 4 ? word : word & ((1u << 8 * size) - 1);
}

static unsigned reach(x86emu_t *emu, u32 place, u32 *value, unsigned type)
{
    unsigned size = 1u << (type & 3), i;
    (void)emu;
    switch (type & ~0xFFu) {
    case X86EMU_MEMIO_I:
        *value = answer(place & 0xFFFF, size);
        return 0;
    case X86EMU_MEMIO_O:
        if (port_count < MOST_PORTS) ports[port_count++] = (struct port){(u16)place, (u8)size, *value};
        return 0;
    case X86EMU_MEMIO_W:
        for (i = 0; i < size && place + i < MEMORY; i++) {
            ram[place + i] = (u8)(*value >> 8 * i);
            mark(place + i, 1);
        }
        return 0;
    }
    *value = 0;
    for (i = 0; i < size; i++) *value |= (u32)(place + i < MEMORY ? ram[place + i] : BEYOND) << 8 * i;
    return 0;
}

u32 reach_other(x86emu_t *emu, u32 place, u32 value, unsigned type)
{
    emu->memio(emu, place, &value, type);
    return value;
}

/* The segments that a case of descriptors begins with: all of memory, by the first two descriptors. */
static void begin_described(x86emu_t *emu, const struct before *given)
{
    emu->x86.R_GDT_BASE = TABLES;
    emu->x86.R_GDT_LIMIT = given->segment_bytes - 1;
    emu->x86.R_IDT_BASE = TABLES + given->segment_bytes;
    emu->x86.R_IDT_LIMIT = given->interrupt_bytes ? given->interrupt_bytes - 1 : 0;
    for (int i = 0; i < 6; i++) {
        sel_t *segment = emu->x86.seg + i;
        segment->sel = i == R_CS_INDEX ? FLAT_CODE : FLAT_DATA;
        segment->acc = (i == R_CS_INDEX ? 0x9B : 0x93) | 0xC00;
    }
}

static void begin(x86emu_t *emu, const struct before *given)
{
    int is_protected = given->kind != REAL;
    static const u16 SEGMENTS[] = {0x3000, 0x1000, 0x4000, 0x2000, 0x5000, 0x6000};
    static u64 registers[X86EMU_MSRS];
    memset(emu, 0, sizeof *emu);
    emu->x86.msr = registers;
    emu->memio = reach;
    emu->x86.disasm_ptr = emu->x86.disasm_buf;
    for (int i = 0; i < 6; i++) {
        sel_t *segment = emu->x86.seg + i;
        segment->sel = is_protected ? 0 : SEGMENTS[i];
        segment->base = is_protected ? 0 : SEGMENTS[i] * 16u;
        segment->limit = is_protected ? 0xFFFFFFFF : 0xFFFF;
        segment->acc = (i == R_CS_INDEX ? 0x9B : 0x93) | (is_protected ? 0xC00 : 0);
    }
    if (is_protected) emu->x86.R_CR0 |= 1;
    if (given->kind == DESCRIBED) begin_described(emu, given);
    u32 *all_of[] = {&emu->x86.R_EAX, &emu->x86.R_ECX, &emu->x86.R_EDX, &emu->x86.R_EBX,
                     &emu->x86.R_ESP, &emu->x86.R_EBP, &emu->x86.R_ESI, &emu->x86.R_EDI};
    for (int i = 0; i < 8; i++) *all_of[i] = given->registers[i];
    emu->x86.R_EFLG = given->flags;
    emu->x86.R_EIP = is_protected ? CODE : OFFSET;
    memcpy(ram + CODE, given->code, sizeof given->code);
    mark(CODE, sizeof given->code);
    port_count = 0;
}

/* The number of the fault that came first: none by INT. */
static u32 fault_of(const x86emu_t *emu)
{
    static const u8 FAULTS[] = {0, 6, 8, 10, 11, 12, 13, 14};
    for (unsigned i = 0; i < sizeof FAULTS; i++) if (emu->x86.intr_stats[FAULTS[i]]) return FAULTS[i];
    return NO_FAULT;
}

/* An instruction; of one that is repeated, all of its turns. */
static void take(x86emu_t *emu)
{
    u32 place = emu->x86.R_EIP;
    for (int turn = 0; turn < MOST_TURNS; turn++) {
        emu->max_instr = emu->x86.R_TSC + 1;
        x86emu_run(emu, X86EMU_RUN_MAX_INSTR);
        if (emu->x86.R_EIP != place || !(emu->x86.mode & (_MODE_REPE | _MODE_REPNE))) return;
    }
}

static int opcode_of(const u8 *code)
{
    int i = 0;
    while (i < 12 && code[i] && strchr("\x26\x2E\x36\x3E\x64\x65\x66\x67\xF0\xF2\xF3", code[i])) i++;
    return code[i] == 0x0F ? 256 + code[i + 1] : code[i];
}

/* Bytes of memory before a case: the pattern, and what the case gives. */
enum { MOST_GIVEN = 64 };
static u8 given_before[RAM_BYTES];
static u32 given_places[MOST_GIVEN], given_count;

/* The next byte that isn't as before, but for the instruction's own; MEMORY for none. */
static u32 next_changed(u32 place)
{
    for (; place < MEMORY; place++) {
        if (!is_written[place >> PART_SHIFT]) place |= PART - 1;
        else if (ram[place] != given_before[place] && place - CODE >= 16) return place;
    }
    return MEMORY;
}

static int is_same_memory(const struct after *wanted, const struct written *written)
{
    unsigned changed = 0;
    for (u32 place = next_changed(0); place < MEMORY; place = next_changed(place + 1)) {
        if (changed == wanted->written || place != written[changed].place) return 0;
        if (ram[place] != written[changed++].value) return 0;
    }
    return changed == wanted->written;
}

static int is_same(x86emu_t *emu, const struct before *given, const struct after *wanted,
                   const struct written *written, const struct port *wanted_ports)
{
    u32 found[] = {emu->x86.R_EAX, emu->x86.R_ECX, emu->x86.R_EDX, emu->x86.R_EBX,
                   emu->x86.R_ESP, emu->x86.R_EBP, emu->x86.R_ESI, emu->x86.R_EDI};
    u32 place = given->kind != REAL ? emu->x86.R_EIP : emu->x86.R_IP;
    u32 wanted_place = given->kind != REAL ? wanted->place : wanted->place & 0xFFFF;
    if (given->kind == DESCRIBED && (fault_of(emu) != NO_FAULT || wanted->fault != NO_FAULT)) {
        return fault_of(emu) == wanted->fault;
    }
    if (memcmp(found, wanted->registers, sizeof found) || place != wanted_place) return 0;
    for (int i = 0; i < 6; i++) if (emu->x86.seg[i].sel != wanted->segments[i]) return 0;
    if ((emu->x86.R_FLG ^ wanted->flags) & wanted->compared) return 0;
    if (port_count != wanted->ports || memcmp(ports, wanted_ports, port_count * sizeof *ports)) return 0;
    return is_same_memory(wanted, written);
}

static void tell(x86emu_t *emu, const struct before *given, const struct after *wanted)
{
    static const char *const NAMES[] = {"eax", "ecx", "edx", "ebx", "esp", "ebp", "esi", "edi"};
    u32 found[] = {emu->x86.R_EAX, emu->x86.R_ECX, emu->x86.R_EDX, emu->x86.R_EBX,
                   emu->x86.R_ESP, emu->x86.R_EBP, emu->x86.R_ESI, emu->x86.R_EDI};
    printf("  %s%s", is_told ? "told, " : "", given->kind == DESCRIBED ? "described:" : given->kind == FLAT ? "protected:" : "real:");
    for (int i = 0; i < 10; i++) printf(" %02X", given->code[i]);
    for (int i = 0; i < 8; i++) {
        if (found[i] != wanted->registers[i]) {
            printf(", %s %X -> %X, not %X", NAMES[i], given->registers[i], wanted->registers[i], found[i]);
        }
    }
    printf(", flags %X -> %X, not %X (of %X), eip %X, not %X, %u bytes, %u ports, not %u\n", given->flags,
           wanted->flags, emu->x86.R_FLG, wanted->compared, wanted->place, emu->x86.R_EIP, wanted->written,
           wanted->ports, port_count);
    if (given->kind != DESCRIBED) return;
    printf("    fault %d, not %d; selectors", (int)wanted->fault, (int)fault_of(emu));
    for (int i = 0; i < 6; i++) printf(" %X not %X", wanted->segments[i], emu->x86.seg[i].sel);
    puts("");
}

/* Reads what a case gives: tables, and bytes of memory; whether all was there. */
static int read_given(const struct before *given)
{
    struct written one;
    u32 bytes = given->segment_bytes + given->interrupt_bytes;
    if (bytes > MOST_TABLES || fread(ram + TABLES, 1, bytes, stdin) != bytes) return 0;
    memcpy(given_before + TABLES, ram + TABLES, bytes);
    for (u32 i = 0; i < given->given; i++) {
        if (fread(&one, sizeof one, 1, stdin) != 1 || one.place >= MEMORY) return 0;
        ram[one.place] = given_before[one.place] = one.value;
        given_places[given_count++ % MOST_GIVEN] = one.place;
    }
    return 1;
}

static void restore_given(const struct before *given)
{
    u32 bytes = given->segment_bytes + given->interrupt_bytes;
    for (u32 i = TABLES; i < TABLES + bytes; i++) ram[i] = given_before[i] = pattern(i);
    for (u32 i = 0; i < given_count; i++) {
        u32 place = given_places[i % MOST_GIVEN];
        ram[place] = given_before[place] = pattern(place);
    }
    given_count = 0;
}

/* All that was written is as before. */
static void restore(void)
{
    for (u32 part = 0; part < PARTS; part++) {
        if (is_written[part]) memcpy(ram + part * PART, given_before + part * PART, PART);
    }
    memset(is_written, 0, sizeof is_written);
}

/* A case, and what another processor left of it. */
struct compared {
    struct before given;
    struct after wanted;
    struct written written[MOST_WRITTEN];
    struct port ports[MOST_PORTS];
};
enum outcome { SAME, DIFFERS, LACKING, BEYOND_SEGMENT };

/* Does a case in one of the two ways. */
static enum outcome done(x86emu_t *emu, const struct compared *one, int has_faults)
{
    int is_compared = has_faults || one->given.kind == DESCRIBED;
    begin(emu, &one->given);
    for (u32 i = 0; i < one->given.count && fault_of(emu) == NO_FAULT; i++) take(emu);
    if (!is_compared && emu->x86.intr_stats[INVALID_OPCODE]) return LACKING;
    /* A word beyond a segment's end: QEMU lets it pass. */
    if (!is_compared && emu->x86.intr_stats[GENERAL_PROTECTION]) return BEYOND_SEGMENT;
    return is_same(emu, &one->given, &one->wanted, one->written, one->ports) ? SAME : DIFFERS;
}

/* Does a case where instructions are not told, and if that is right, where they are. */
static enum outcome done_twice(const struct compared *one, int has_faults)
{
    static x86emu_t emu;
    enum outcome found[2] = {SAME, SAME};
    for (is_told = 0; is_told < 2 && found[0] != DIFFERS; is_told++) {
        found[is_told] = done(&emu, one, has_faults);
        if (is_told && found[1] != found[0]) found[1] = DIFFERS;
        if (found[is_told] == DIFFERS && !differing[opcode_of(one->given.code)]) tell(&emu, &one->given, &one->wanted);
        restore();
    }
    return found[0] == DIFFERS ? DIFFERS : found[1];
}

static int read_case(struct compared *one)
{
    struct after *wanted = &one->wanted;
    if (fread(&one->given, sizeof one->given, 1, stdin) != 1 || !read_given(&one->given)) return 0;
    if (fread(wanted, sizeof *wanted, 1, stdin) != 1) return 0;
    if (wanted->written > MOST_WRITTEN || wanted->ports > MOST_PORTS) exit(2);
    return fread(one->written, sizeof *one->written, wanted->written, stdin) == wanted->written &&
           fread(one->ports, sizeof *one->ports, wanted->ports, stdin) == wanted->ports;
}

int main(int count, char **words)
{
    int has_faults = count > 1 && !strcmp(words[1], "faults");
    static struct compared one;
    unsigned total = 0, wrong = 0, illegal = 0, beyond = 0;
    for (u32 i = 0; i < RAM_BYTES; i++) ram[i] = given_before[i] = i < MEMORY ? pattern(i) : BEYOND;
    while (read_case(&one)) {
        int opcode = opcode_of(one.given.code);
        switch (done_twice(&one, has_faults)) {
        case LACKING:
            illegal++;
            lacking[opcode]++;
            break;
        case BEYOND_SEGMENT: beyond++; break;
        case DIFFERS:
            wrong++;
            differing[opcode]++;
            /* fallthrough */
        case SAME:
            total++;
            all[opcode]++;
        }
        restore_given(&one.given);
    }
    for (int i = 0; i < OPCODES; i++) {
        const char *front = i > 255 ? "0F " : "";
        if (differing[i]) printf("  %s%02X: %u of %u differ\n", front, i & 255, differing[i], all[i]);
        if (lacking[i]) printf("  %s%02X: lacking, %u times\n", front, i & 255, lacking[i]);
    }
    printf("%u cases: %u differ, %u lacking, %u beyond a segment's end\n", total, wrong, illegal, beyond);
    return wrong || illegal;
}
