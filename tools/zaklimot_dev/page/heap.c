/* The module's heap, in place of the C library's: the three functions that the toolchain's
 * allocator calls. No proof covers it.
 *
 * SPDX-License-Identifier: MIT
 *
 * The heap begins at __heap_base, which the linker names, and grows where no free block is large
 * enough. Free blocks form a list in order of their addresses. An allocation takes the first block
 * that is large enough, and a block that is freed joins the free blocks that touch it. Each block
 * begins with a header of 16 bytes; 16 divides its address and its size.
 */
typedef unsigned long size_t;
typedef unsigned char byte;

/* What the toolchain's allocator calls `Tried`: ok is 1 where p is a block, and else 0. */
struct tried {
    size_t ok;
    void *p;
};

struct block {
    size_t size;        /* in bytes, with this header */
    struct block *next; /* of a free block: the next free one, at a higher address */
};

#define HEADER sizeof(struct block)
#define ALIGNMENT 16ul
#define PAGE 65536ul
/* Memory of 32-bit addresses has at most so many pages. */
#define MOST_PAGES 65536ul
/* Larger requests can't be met, and their rounding could overflow. */
#define MOST_BYTES (MOST_PAGES * PAGE)

extern byte __heap_base;
static struct block *free_blocks;
static int has_first_block;

/* Whether a block ends where another begins. */
static int touches(const struct block *block, const struct block *other)
{
    return (const byte *)block + block->size == (const byte *)other;
}

/* Adds a block to the free ones, and joins it with its neighbours. */
static void release(struct block *block)
{
    struct block *before = 0, *after = free_blocks;
    while (after && after < block) {
        before = after;
        after = after->next;
    }
    block->next = after;
    if (after && touches(block, after)) {
        block->size += after->size;
        block->next = after->next;
    }
    if (!before) {
        free_blocks = block;
    } else if (touches(before, block)) {
        before->size += block->size;
        before->next = block->next;
    } else {
        before->next = block;
    }
}

/* The memory that the module begins with, from the end of its data on. */
static void release_first_block(void)
{
    size_t at = ((size_t)&__heap_base + ALIGNMENT - 1) & ~(ALIGNMENT - 1);
    size_t end = __builtin_wasm_memory_size(0) * PAGE;
    has_first_block = 1;
    if (end >= at + HEADER) {
        struct block *block = (struct block *)at;
        block->size = end - at;
        release(block);
    }
}

/* Makes more memory free, at least of this size; 0 where there is none. */
static int grow(size_t size)
{
    if (!has_first_block) {
        release_first_block();
        return 1;
    }
    size_t pages = size / PAGE + 1;
    /* Where there is none, this is -1 in 32 bits, which the lowering of memory makes 64 by zeros. */
    size_t at = __builtin_wasm_memory_grow(0, pages);
    if (at >= MOST_PAGES)
        return 0;
    struct block *block = (struct block *)(at * PAGE);
    block->size = pages * PAGE;
    release(block);
    return 1;
}

/* Takes a free block of this size out of the list; null where none is large enough. */
static struct block *first_fit(size_t size)
{
    struct block **link = &free_blocks;
    while (*link && (*link)->size < size)
        link = &(*link)->next;
    struct block *block = *link;
    if (!block)
        return 0;
    if (block->size - size < 2 * HEADER) {
        *link = block->next;
        return block;
    }
    struct block *rest = (struct block *)((byte *)block + size);
    rest->size = block->size - size;
    rest->next = block->next;
    *link = rest;
    block->size = size;
    return block;
}

/* At least one byte, so that two blocks have two addresses; null where there is no memory. */
static void *take(size_t bytes)
{
    if (bytes > MOST_BYTES)
        return 0;
    size_t size = (bytes + !bytes + ALIGNMENT - 1) / ALIGNMENT * ALIGNMENT + HEADER;
    struct block *block = first_fit(size);
    while (!block) {
        if (!grow(size))
            return 0;
        block = first_fit(size);
    }
    return block + 1;
}

/* An alignment of at most 16 is all that the module asks for. */
struct tried rattle_alloc(size_t bytes, size_t alignment)
{
    void *p = alignment > ALIGNMENT ? 0 : take(bytes);
    return (struct tried){p != 0, p};
}

/* Where the block has to move, its first `kept` bytes move with it. */
struct tried rattle_realloc(void *p, size_t kept, size_t bytes, size_t alignment)
{
    struct block *block = (struct block *)p - 1;
    if (bytes <= block->size - HEADER)
        return (struct tried){1, p};
    void *moved = alignment > ALIGNMENT ? 0 : take(bytes);
    if (moved) {
        __builtin_memcpy(moved, p, kept);
        release(block);
    }
    return (struct tried){moved != 0, moved};
}

void rattle_dealloc(void *p)
{
    release((struct block *)p - 1);
}
