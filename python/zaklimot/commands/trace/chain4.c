/* A plugin of qemu that logs accesses to A0000..BFFFF which qemu serves from plain memory, as
 * it does in chain 4 with all planes open, where none of its trace events fires. It is for
 * qemu 7.2, whose layout of struct qemu_plugin_hwaddr stands below: that version has no call
 * for the value of an access. docs/TRACES.md tells how it is built and used. No qemu header is
 * needed: what is taken of them is declared here.
 */
#include <stdbool.h>
#include <stddef.h>
#include <stdint.h>
#include <stdio.h>
#include <string.h>

#define EXPORT __attribute__((visibility("default")))

enum { WINDOW = 0xA0000, WINDOW_BYTES = 0x20000, MOST_BYTES = 8, NO_REGISTERS = 0, READ_AND_WRITE = 3 };

typedef uint64_t plugin_id;
typedef uint32_t memory_info;
typedef void memory_callback(unsigned cpu, memory_info info, uint64_t address, void *data);

struct qemu_plugin_tb;
struct qemu_plugin_insn;
struct qemu_plugin_hwaddr {
    bool is_io;
    bool is_store;
    union {
        struct { void *section; uint64_t offset; } io;
        struct { void *hostaddr; } ram;
    } v;
};

extern size_t qemu_plugin_tb_n_insns(const struct qemu_plugin_tb *block);
extern struct qemu_plugin_insn *qemu_plugin_tb_get_insn(const struct qemu_plugin_tb *block, size_t index);
extern void qemu_plugin_register_vcpu_mem_cb(struct qemu_plugin_insn *instruction, memory_callback *callback,
                                             int registers, int kinds, void *data);
extern void qemu_plugin_register_vcpu_tb_trans_cb(plugin_id id, void (*callback)(plugin_id, struct qemu_plugin_tb *));
extern struct qemu_plugin_hwaddr *qemu_plugin_get_hwaddr(memory_info info, uint64_t address);
extern unsigned qemu_plugin_mem_size_shift(memory_info info);
extern bool qemu_plugin_mem_is_store(memory_info info);
extern void qemu_plugin_outs(const char *text);

EXPORT int qemu_plugin_version = 1;

/* Logs a part of an access in the form of qemu's own events, of a region of another name. */
static void log_part(bool is_write, unsigned cpu, uint64_t address, const char *bytes, unsigned size)
{
    uint64_t value = 0;
    char line[128];
    memcpy(&value, bytes, size);
    snprintf(line, sizeof line, "memory_region_ops_%s cpu %u mr 0x0 addr 0x%llx value 0x%llx size %u name 'vga-chain4'\n",
             is_write ? "write" : "read", cpu, (unsigned long long)address, (unsigned long long)value, size);
    qemu_plugin_outs(line);
}

/* Logs an access, those of vector registers in parts of eight bytes. */
static void log_access(unsigned cpu, memory_info info, uint64_t address, void *data)
{
    (void)data;
    if (address - WINDOW >= WINDOW_BYTES)
        return;
    struct qemu_plugin_hwaddr *place = qemu_plugin_get_hwaddr(info, address);
    /* What the card itself serves is logged by the events. */
    if (!place || place->is_io)
        return;
    unsigned size = 1u << qemu_plugin_mem_size_shift(info);
    for (unsigned at = 0; at < size; at += MOST_BYTES)
        log_part(qemu_plugin_mem_is_store(info), cpu, address + at, (const char *)place->v.ram.hostaddr + at,
                 size < MOST_BYTES ? size : MOST_BYTES);
}

static void watch_instructions(plugin_id id, struct qemu_plugin_tb *block)
{
    (void)id;
    for (size_t i = 0; i < qemu_plugin_tb_n_insns(block); i++)
        qemu_plugin_register_vcpu_mem_cb(qemu_plugin_tb_get_insn(block, i), log_access, NO_REGISTERS, READ_AND_WRITE, NULL);
}

EXPORT int qemu_plugin_install(plugin_id id, const void *info, int count, char **words)
{
    (void)info, (void)count, (void)words;
    qemu_plugin_register_vcpu_tb_trans_cb(id, watch_instructions);
    return 0;
}
