/* Drives, and interrupt 13: two floppies, and a hard disk with the extensions by block numbers. */
#include "machine.h"

enum { SECTOR = 512, MOST_DRIVES = 3, HARD_DISK = 0x80, SECTOR_TIME = 2000000, MOST_TRANSFER = 128 };
enum status { DONE = 0, BAD_COMMAND = 1, NOT_FOUND = 4, TIMED_OUT = 0x80 };

struct drive {
    u32 place, bytes; /* in the store; no bytes, no drive */
    u32 cylinders, heads, sectors;
    u8 kind; /* of a floppy, as function 08 tells it */
};
static struct drive drives[MOST_DRIVES];
static u8 last_status;

static const struct form {
    u32 bytes;
    u8 heads, sectors, kind;
} FORMS[] = {
    {163840, 1, 8, 1}, {184320, 1, 9, 1}, {327680, 2, 8, 1}, {368640, 2, 9, 1}, {737280, 2, 9, 3},
    {1228800, 2, 15, 2}, {1474560, 2, 18, 4}, {1720320, 2, 21, 4}, {2949120, 2, 36, 6},
};

static struct drive *drive_of(u32 number)
{
    u32 slot = number >= HARD_DISK ? number - HARD_DISK + 2 : number;
    return slot < MOST_DRIVES && (number < 2 || number >= HARD_DISK) && drives[slot].bytes ? &drives[slot] : 0;
}

int has_drive(u32 number)
{
    return drive_of(number) != 0;
}

static u32 at_least_one(u32 number)
{
    return number ? number : 1;
}

static void shape_floppy(struct drive *one)
{
    const struct form *found = &FORMS[6];
    for (u32 i = 0; i < sizeof FORMS / sizeof *FORMS; i++) {
        if (FORMS[i].bytes >= one->bytes) {
            found = &FORMS[i];
            break;
        }
    }
    one->heads = found->heads;
    one->sectors = found->sectors;
    one->kind = found->kind;
    one->cylinders = found->bytes / SECTOR / found->heads / found->sectors;
}

/* Puts a disk of so many bytes into a slot: 0 and 1 floppies, 2 the hard disk. The host has put them into the store. */
SHOWN("insert") void insert(u32 slot, u32 place, u32 bytes)
{
    struct drive *one = &drives[slot % MOST_DRIVES];
    *one = (struct drive){.place = place, .bytes = bytes};
    if (slot < 2) {
        shape_floppy(one);
        return;
    }
    one->heads = 16;
    one->sectors = 63;
    one->cylinders = at_least_one(bytes / SECTOR / one->heads / one->sectors);
}

SHOWN("remove_disks") void remove_disks(void)
{
    memset(drives, 0, sizeof drives);
}

static void tell_drives(void)
{
    write_byte(BIOS_DATA + 0x75, has_drive(HARD_DISK));
    write_word(BIOS_DATA + 0x10, 0x21 | (has_drive(1) ? 0x40 : 0));
}

void begin_disks(void)
{
    last_status = DONE;
    tell_drives();
}

/* Puts a floppy in the place of another one, or into an empty drive, while the machine runs. Drives of this kind tell
 * nobody that their disk is another one: function 15 says so. */
SHOWN("change") void change_floppy(u32 slot, u32 place, u32 bytes)
{
    note_input();
    insert(slot & 1, place, bytes);
    tell_drives();
}

static void read_sector(const struct drive *one, u32 sector, u32 to)
{
    write_bytes(to, store_at(one->place + sector * SECTOR), SECTOR);
}

static void write_sector(const struct drive *one, u32 sector, u32 from)
{
    for (u32 i = 0; i < SECTOR; i++) store_write(one->place, sector * SECTOR + i, read_byte(from + i));
}

enum transfer { READ = 2, WRITE = 3, VERIFY = 4 };

/* Sectors from one on; how many went over. A disk may end amid its last sector. */
static u32 move(const struct drive *one, enum transfer how, u64 first, u32 count, u32 place)
{
    u32 all = one->bytes / SECTOR, i;
    for (i = 0; i < count && first + i < all; i++) {
        if (how == READ) read_sector(one, (u32)first + i, place + i * SECTOR);
        if (how == WRITE) write_sector(one, (u32)first + i, place + i * SECTOR);
        pass(SECTOR_TIME);
    }
    return i;
}

static enum status move_by_place(const struct drive *one)
{
    u32 cylinder = CH | (CL & 0xC0) << 2, sector = CL & 63, head = DH, count = AL;
    if (!sector || sector > one->sectors || head >= one->heads) {
        AL = 0;
        return NOT_FOUND;
    }
    u32 first = (cylinder * one->heads + head) * one->sectors + sector - 1;
    AL = (u8)move(one, (enum transfer)AH, first, count, place_of(ES, BX));
    return AL == count ? DONE : NOT_FOUND;
}

/* The extensions: a packet at DS:SI tells count, place and the first block. */
static enum status move_by_number(const struct drive *one)
{
    u32 packet = place_of(DS, REG(SI)), count = read_word(packet + 2);
    u64 first = read_word(packet + 8) | (u64)read_word(packet + 10) << 16 | (u64)read_word(packet + 12) << 32;
    u32 to = place_of(read_word(packet + 6), read_word(packet + 4));
    enum transfer how = AH == 0x42 ? READ : AH == 0x43 ? WRITE : VERIFY;
    if (count > MOST_TRANSFER) return BAD_COMMAND;
    u32 moved = move(one, how, first, count, to);
    write_word(packet + 2, moved);
    return moved == count ? DONE : NOT_FOUND;
}

static void tell_shape(const struct drive *one)
{
    u32 last = at_least_one(one->cylinders) - 1;
    int is_hard = DL >= HARD_DISK;
    AX = 0;
    BL = one->kind;
    CX = (u16)((last & 0xFF) << 8 | last >> 2 & 0xC0 | one->sectors);
    DH = (u8)(one->heads - 1);
    DL = (u8)(is_hard ? 1 : 1 + has_drive(1));
}

static enum status tell_extended(const struct drive *one)
{
    u32 place = place_of(DS, REG(SI)), sectors = one->bytes / SECTOR;
    const u32 words[] = {26, 0, one->cylinders, 0, one->heads, 0, one->sectors, 0, sectors & 0xFFFF, sectors >> 16, 0, 0,
                         SECTOR};
    if (read_word(place) < 26) return BAD_COMMAND;
    for (u32 i = 0; i < sizeof words / sizeof *words; i++) write_word(place + 2 * i, words[i]);
    return DONE;
}

static enum status serve_drive(const struct drive *one)
{
    switch (AH) {
    case 0x00: case 0x05: case 0x0C: case 0x0D: case 0x10: case 0x11: case 0x14: case 0x16: case 0x17: case 0x18:
        return DONE;
    case READ: case WRITE: case VERIFY: return move_by_place(one);
    case 0x08: tell_shape(one); return DONE;
    case 0x41:
        if (DL < HARD_DISK || BX != 0x55AA) return BAD_COMMAND;
        BX = 0xAA55;
        CX = 1;
        AX = 0x2100;
        give_flag(CARRY, 0);
        return DONE;
    case 0x42: case 0x43: case 0x44: case 0x47: return DL < HARD_DISK ? BAD_COMMAND : move_by_number(one);
    case 0x48: return DL < HARD_DISK ? BAD_COMMAND : tell_extended(one);
    }
    return BAD_COMMAND;
}

void disk_service(void)
{
    const struct drive *one = drive_of(DL);
    u32 function = AH;
    if (function == 0x01) {
        AH = last_status;
        give_flag(CARRY, last_status != DONE);
        return;
    }
    if (function == 0x15) {
        AH = (u8)(!one ? 0 : DL < HARD_DISK ? 1 : 3);
        if (one && DL >= HARD_DISK) {
            CX = (u16)(one->bytes / SECTOR >> 16);
            DX = (u16)(one->bytes / SECTOR);
        }
        give_flag(CARRY, 0);
        return;
    }
    enum status status = one ? serve_drive(one) : DL < HARD_DISK && DL > 1 ? BAD_COMMAND : TIMED_OUT;
    last_status = (u8)status;
    if (function != 0x41 || status) AH = (u8)status;
    give_flag(CARRY, status != DONE);
}
