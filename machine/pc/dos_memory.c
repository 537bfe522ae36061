/* DOS' memory: blocks of paragraphs, each behind a paragraph that tells its owner and its size. */
#include "machine.h"

enum { MORE = 'M', LAST = 'Z', OWNER = 1, SIZE = 3, PARAGRAPH = 16 };
enum { NO_BLOCK = 9, NO_MEMORY = 8, DAMAGED = 7 };
enum { ENVIRONMENT_PARAGRAPHS = 0xFF, MOST_SIZE = 0xFFFF };
static u32 first_block, program;

static u32 kind_of(u32 block)
{
    return read_byte(block * PARAGRAPH);
}

static u32 size_of(u32 block)
{
    return read_word(block * PARAGRAPH + SIZE);
}

static u32 owner_of(u32 block)
{
    return read_word(block * PARAGRAPH + OWNER);
}

static void lay_block(u32 block, u32 kind, u32 owner, u32 size)
{
    write_byte(block * PARAGRAPH, kind);
    write_word(block * PARAGRAPH + OWNER, owner);
    write_word(block * PARAGRAPH + SIZE, size);
}

static int is_block(u32 block)
{
    return block < 0xA000 && (kind_of(block) == MORE || kind_of(block) == LAST);
}

void begin_memory(void)
{
    first_block = program = 0;
}

/* The environment's block, and the program's with all memory behind it. Answers the segment of the environment. */
u32 first_memory(u32 segment, u32 paragraphs)
{
    program = segment;
    first_block = segment - 1 - (ENVIRONMENT_PARAGRAPHS + 1);
    lay_block(first_block, MORE, segment, ENVIRONMENT_PARAGRAPHS);
    lay_block(segment - 1, LAST, segment, paragraphs);
    return first_block + 1;
}

/* Joins a free block with the free ones behind it. */
static void join(u32 block)
{
    while (kind_of(block) == MORE) {
        u32 next = block + 1 + size_of(block);
        u32 size = size_of(block) + 1 + size_of(next);
        if (!is_block(next) || owner_of(next) || size > MOST_SIZE) return;
        lay_block(block, kind_of(next), owner_of(block), size);
    }
}

/* Leaves a block so many paragraphs, and makes the rest a free block. */
static void split(u32 block, u32 paragraphs)
{
    u32 size = size_of(block);
    if (size <= paragraphs) return;
    u32 rest = block + 1 + paragraphs;
    lay_block(rest, kind_of(block), 0, size - paragraphs - 1);
    lay_block(block, MORE, owner_of(block), paragraphs);
    join(rest);
}

static void allocate(u32 paragraphs)
{
    u32 block = first_block, largest = 0;
    for (int i = 0; i < 0x1000 && is_block(block); i++) {
        if (!owner_of(block)) {
            join(block);
            if (size_of(block) >= paragraphs) {
                lay_block(block, kind_of(block), program, size_of(block));
                split(block, paragraphs);
                AX = (u16)(block + 1);
                return;
            }
            if (size_of(block) > largest) largest = size_of(block);
        }
        if (kind_of(block) == LAST) break;
        block += 1 + size_of(block);
    }
    BX = (u16)largest;
    dos_fail(is_block(block) ? NO_MEMORY : DAMAGED);
}

static void resize(u32 block, u32 paragraphs)
{
    if (!is_block(block)) {
        dos_fail(NO_BLOCK);
        return;
    }
    join(block);
    if (size_of(block) < paragraphs) {
        BX = (u16)size_of(block);
        dos_fail(NO_MEMORY);
        return;
    }
    split(block, paragraphs);
}

static void give_back(u32 block)
{
    if (!is_block(block)) {
        dos_fail(NO_BLOCK);
        return;
    }
    lay_block(block, kind_of(block), 0, size_of(block));
    join(block);
}

/* Functions of memory; whether this is one. */
int memory_service(void)
{
    switch (AH) {
    case 0x48: allocate(BX); return 1;
    case 0x49: give_back(ES - 1u); return 1;
    case 0x4A: resize(ES - 1u, BX); return 1;
    case 0x51: case 0x62: BX = (u16)program; return 1;
    case 0x58: AX = 0; return 1;
    }
    return 0;
}
