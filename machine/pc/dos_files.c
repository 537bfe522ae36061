/* DOS' files: those of a folder that the host has put into the store. What is written stays there, and the host can
 * read it. Names are upper-case, with \ between folders, from the root of drive C.
 */
#include "machine.h"

enum { MOST_FILES = 512, MOST_NAME = 80, MOST_HANDLES = 20, FIRST_HANDLE = 5, NO_PLACE = -1 };
enum { MOST_BYTES = 1 << 26, BYTE_TIME = 100 }; /* of a file; nanoseconds that a byte takes */
enum errors { NO_SUCH_FILE = 2, NO_SUCH_PATH = 3, TOO_MANY = 4, DENIED = 5, NO_SUCH_HANDLE = 6, NO_DRIVE = 15,
              NO_MORE = 18, EXISTS = 80 };
enum { READS = 0, ARCHIVE = 0x20, FOLDER = 0x10, FILE_DATE = 0x1CE1, DEVICE = 0x80D3, CURRENT_DRIVE = 2 };

struct file {
    char name[MOST_NAME];
    u32 place, bytes, room;
    u8 is_there, is_changed;
};
static struct file files[MOST_FILES];
static u32 file_count;
struct handle {
    s16 file;
    u32 at;
};
static struct handle handles[MOST_HANDLES];
static char folder[MOST_NAME]; /* the current one, with \ at its end; empty for the root */

u32 transfer_place(void);
void type_bytes(u32 place, u32 count);

SHOWN("begin_files") void begin_files(void)
{
    memset(files, 0, sizeof files);
    file_count = 0;
    folder[0] = 0;
    for (u32 i = 0; i < MOST_HANDLES; i++) handles[i] = (struct handle){NO_PLACE, 0};
}

/* Room for the name of a file that the host adds, and of the one that it asks for. */
static char host_name[MOST_NAME];
SHOWN("file_name") u32 place_of_name(void)
{
    return (u32)host_name;
}

static u32 length_of(const char *text)
{
    return (u32)strlen(text);
}

static int is_same(const char *one, const char *other)
{
    while (*one && *one == *other) one++, other++;
    return *one == *other;
}

static s32 find(const char *name)
{
    for (u32 i = 0; i < file_count; i++) if (files[i].is_there && is_same(files[i].name, name)) return (s32)i;
    return NO_PLACE;
}

static s32 new_file(const char *name)
{
    u32 at = 0;
    while (at < file_count && files[at].is_there) at++;
    if (at == MOST_FILES) return NO_PLACE;
    if (at == file_count) file_count++;
    files[at] = (struct file){.is_there = 1};
    memcpy(files[at].name, name, length_of(name) + 1);
    return (s32)at;
}

/* The host adds a file, whose name stands at file_name and whose bytes are in the store. */
SHOWN("add_file") s32 add_file(u32 place, u32 bytes)
{
    s32 at = new_file(host_name);
    if (at == NO_PLACE) return at;
    files[at].place = place;
    files[at].bytes = bytes;
    files[at].room = (bytes + 4095) & ~4095u;
    return at;
}

/* What a file is, for the host: its name at file_name; whether it is there and was changed. */
SHOWN("file_state") u32 file_state(u32 at)
{
    if (at >= file_count) return 0;
    memcpy(host_name, files[at].name, MOST_NAME);
    return files[at].is_there | files[at].is_changed << 1;
}

SHOWN("file_place") u32 file_place(u32 at)
{
    return files[at % MOST_FILES].place;
}

SHOWN("file_bytes") u32 file_bytes(u32 at)
{
    return files[at % MOST_FILES].bytes;
}

SHOWN("file_total") u32 file_total(void)
{
    return file_count;
}

static char upper(u32 letter)
{
    if (letter == '/') return '\\';
    return (char)(letter >= 'a' && letter <= 'z' ? letter - 32 : letter);
}

/* Puts a part of a path behind what there is: `.` is nothing, `..` takes the last part away. */
static void add_part(char *path, const char *part, u32 length)
{
    u32 end = length_of(path);
    if (length == 1 && part[0] == '.') return;
    if (length == 2 && part[0] == '.' && part[1] == '.') {
        if (end) path[--end] = 0;
        while (end && path[end - 1] != '\\') path[--end] = 0;
        return;
    }
    if (end + length + 1 >= MOST_NAME) return;
    memcpy(path + end, part, length);
    path[end + length] = '\\';
    path[end + length + 1] = 0;
}

/* The whole name that a path in memory means, without the last \; whether it is one of drive C. */
static int read_path(u32 place, char *path)
{
    char part[MOST_NAME];
    u32 length = 0, is_done = 0;
    memcpy(path, folder, MOST_NAME);
    if (read_byte(place) && read_byte(place + 1) == ':') {
        if (upper(read_byte(place)) != 'C') return 0;
        place += 2;
    }
    if (upper(read_byte(place)) == '\\') path[0] = 0;
    for (u32 i = 0; i < 2 * MOST_NAME && !is_done; i++) {
        char letter = upper(read_byte(place + i));
        is_done = letter == 0;
        if (letter && letter != '\\') {
            if (length + 1 < MOST_NAME) part[length++] = letter;
            continue;
        }
        if (length) add_part(path, part, length);
        length = 0;
    }
    u32 end = length_of(path);
    if (end) path[end - 1] = 0;
    return 1;
}

static int is_folder(const char *path)
{
    u32 length = length_of(path);
    if (!length) return 1;
    for (u32 i = 0; i < file_count; i++) {
        if (files[i].is_there && !memcmp(files[i].name, path, length) && files[i].name[length] == '\\') return 1;
    }
    return 0;
}

static struct handle *handle_of(u32 number)
{
    u32 at = number - FIRST_HANDLE;
    return at < MOST_HANDLES && handles[at].file != NO_PLACE ? &handles[at] : 0;
}

static void open_file(s32 file)
{
    if (file == NO_PLACE) {
        dos_fail(NO_SUCH_FILE);
        return;
    }
    for (u32 i = 0; i < MOST_HANDLES; i++) {
        if (handles[i].file != NO_PLACE) continue;
        handles[i] = (struct handle){(s16)file, 0};
        AX = (u16)(i + FIRST_HANDLE);
        return;
    }
    dos_fail(TOO_MANY);
}

static void create(int is_only_new)
{
    char path[MOST_NAME];
    if (!read_path(place_of(DS, DX), path)) {
        dos_fail(NO_SUCH_PATH);
        return;
    }
    s32 file = find(path);
    if (file != NO_PLACE && is_only_new) {
        dos_fail(EXISTS);
        return;
    }
    if (file == NO_PLACE) file = new_file(path);
    if (file == NO_PLACE) {
        dos_fail(DENIED);
        return;
    }
    files[file].bytes = 0;
    files[file].is_changed = 1;
    open_file(file);
}

/* Devices by their names: the console, which handles 0 to 2 are, and nothing. */
static int is_console(const char *path)
{
    return is_same(path, "CON");
}

static void open_by_name(void)
{
    char path[MOST_NAME];
    if (!read_path(place_of(DS, DX), path)) dos_fail(NO_SUCH_PATH);
    else if (is_console(path)) AX = 1;
    else open_file(find(path));
}

static void read_file(struct handle *one)
{
    const struct file *file = &files[one->file];
    u32 left = one->at < file->bytes ? file->bytes - one->at : 0, count = CX < left ? CX : left;
    write_bytes(place_of(DS, DX), store_at(file->place + one->at), count);
    pass((u64)count * BYTE_TIME);
    one->at += count;
    AX = (u16)count;
}

/* Makes room for so many bytes of a file; whether there is any. */
static int widen(struct file *file, u32 bytes)
{
    if (bytes <= file->room) return 1;
    u32 room = (bytes > 2 * file->room ? bytes : 2 * file->room) + 4095;
    room &= ~4095u;
    u32 place = store_take(room);
    if (place == ~0u) return 0;
    for (u32 i = 0; i < file->bytes; i++) store_write(place, i, *store_at(file->place + i));
    file->place = place;
    file->room = room;
    return 1;
}

/* Writes so many bytes; none ends the file there. */
static void write_file(struct handle *one)
{
    struct file *file = &files[one->file];
    u32 from = place_of(DS, DX), end = one->at + CX;
    file->is_changed = 1;
    if (!CX) {
        if (one->at < file->bytes) file->bytes = one->at;
        return;
    }
    if (one->at > MOST_BYTES || !widen(file, end)) {
        AX = 0;
        return;
    }
    pass((CX + (one->at > file->bytes ? one->at - file->bytes : 0ull)) * BYTE_TIME);
    for (u32 i = file->bytes; i < one->at; i++) store_write(file->place, i, 0);
    for (u32 i = 0; i < CX; i++) store_write(file->place, one->at + i, read_byte(from + i));
    one->at = end;
    if (end > file->bytes) file->bytes = end;
    AX = CX;
}

static void seek(struct handle *one)
{
    s32 by = (s32)((u32)CX << 16 | DX);
    u32 from = AL == 0 ? 0 : AL == 1 ? one->at : files[one->file].bytes;
    one->at = from + (u32)by;
    DX = (u16)(one->at >> 16);
    AX = (u16)one->at;
}

static void transfer(void)
{
    struct handle *one = handle_of(BX);
    if (AH == 0x40 && (BX == 1 || BX == 2)) {
        type_bytes(place_of(DS, DX), CX);
        AX = CX;
    } else if (AH == 0x3F && BX == 0) {
        AX = 0;
    } else if (!one) {
        dos_fail(NO_SUCH_HANDLE);
    } else if (AH == 0x3F) {
        read_file(one);
    } else if (AH == 0x40) {
        write_file(one);
    } else {
        seek(one);
    }
}

static void close(void)
{
    struct handle *one = handle_of(BX);
    if (one) one->file = NO_PLACE;
    else if (BX >= FIRST_HANDLE) dos_fail(NO_SUCH_HANDLE);
}

static void delete(void)
{
    char path[MOST_NAME];
    s32 file = read_path(place_of(DS, DX), path) ? find(path) : NO_PLACE;
    if (file == NO_PLACE) dos_fail(NO_SUCH_FILE);
    else files[file].is_there = 0;
}

static void rename(void)
{
    char path[MOST_NAME], other[MOST_NAME];
    s32 file = read_path(place_of(DS, DX), path) ? find(path) : NO_PLACE;
    if (file == NO_PLACE || !read_path(place_of(ES, REG(DI)), other)) dos_fail(NO_SUCH_FILE);
    else if (find(other) != NO_PLACE) dos_fail(DENIED);
    else memcpy(files[file].name, other, MOST_NAME);
}

static void change_folder(void)
{
    char path[MOST_NAME];
    if (!read_path(place_of(DS, DX), path) || !is_folder(path)) {
        dos_fail(NO_SUCH_PATH);
        return;
    }
    u32 end = length_of(path);
    memcpy(folder, path, end + 1);
    if (end && end + 1 < MOST_NAME) memcpy(folder + end, "\\", 2);
}

static void tell_folder(void)
{
    u32 place = place_of(DS, REG(SI)), length = length_of(folder);
    write_bytes(place, folder, length);
    write_byte(place + (length ? length - 1 : 0), 0);
    AX = 0x0100;
}

/* Names in searches: eight letters and three, filled up with blanks. */
enum { STEM = 8, LETTERS = 11 };
/* The transfer area, as DOS has it: the drive, the name that is looked for, the attributes, how many files were looked at;
 * and a sum of the folder's name, in the place of its cluster. Then what was found. A search is all there, so that several
 * go on by turns. */
enum search { DRIVE = 0, WANTED = 1, SOUGHT = 12, NEXT = 13, FOLDER_SUM = 15, ATTRIBUTE = 21, TIME = 22, DATE = 24,
              BYTES = 26, NAME = 30 };
enum { DRIVE_C = 3, VOLUME = 0x08 };

/* The letters of a name or a pattern, in which * is as many ? as there is room for. Whether they have room. */
static int spread(const char *name, char *letters)
{
    u32 at = 0, end = STEM;
    int is_whole = 1;
    memset(letters, ' ', LETTERS);
    for (; *name; name++) {
        if (*name == '.' && end == STEM) {
            at = STEM;
            end = LETTERS;
        } else if (*name == '*') {
            while (at < end) letters[at++] = '?';
        } else if (at < end && *name != '.') {
            letters[at++] = *name;
        } else {
            is_whole = 0;
        }
    }
    return is_whole;
}

static int is_wanted(const char *letters, u32 area)
{
    for (u32 i = 0; i < LETTERS; i++) {
        char wanted = (char)read_byte(area + WANTED + i);
        if (wanted != '?' && wanted != letters[i]) return 0;
    }
    return 1;
}

/* Where the last part of a path begins, behind its folder. */
static u32 last_part(const char *path)
{
    u32 last = 0;
    for (u32 i = 0; path[i]; i++) if (path[i] == '\\') last = i + 1;
    return last;
}

static u32 sum_of(const char *path, u32 length)
{
    u32 sum = 2166136261u;
    for (u32 i = 0; i < length; i++) sum = (sum ^ (u8)path[i]) * 16777619u;
    return sum;
}

/* Whether a file is one that the search of an area looks for. A name that has no room in the area is none. */
static int is_found(const struct file *file, u32 area)
{
    char letters[LETTERS];
    u32 last = last_part(file->name), sum = read_word(area + FOLDER_SUM) | read_word(area + FOLDER_SUM + 2) << 16;
    if (!file->is_there || sum_of(file->name, last) != sum) return 0;
    return spread(file->name + last, letters) && is_wanted(letters, area);
}

static u32 search_area(void)
{
    return place_of(transfer_place() >> 16, transfer_place());
}

static void find_next(void)
{
    u32 area = search_area();
    for (u32 i = read_word(area + NEXT); i < file_count && read_byte(area + SOUGHT) != VOLUME; i++) {
        if (!is_found(&files[i], area)) continue;
        const char *name = files[i].name + last_part(files[i].name);
        write_word(area + NEXT, i + 1);
        write_byte(area + ATTRIBUTE, ARCHIVE);
        write_word(area + TIME, 0);
        write_word(area + DATE, FILE_DATE);
        write_word(area + BYTES, files[i].bytes & 0xFFFF);
        write_word(area + BYTES + 2, files[i].bytes >> 16);
        write_bytes(area + NAME, name, length_of(name) + 1);
        AX = 0;
        return;
    }
    dos_fail(NO_MORE);
}

static void find_first(void)
{
    char path[MOST_NAME], letters[LETTERS];
    u32 area = search_area();
    if (!read_path(place_of(DS, DX), path)) {
        dos_fail(NO_SUCH_PATH);
        return;
    }
    u32 last = last_part(path), sum = sum_of(path, last);
    spread(path + last, letters);
    write_byte(area + DRIVE, DRIVE_C);
    write_bytes(area + WANTED, letters, LETTERS);
    write_byte(area + SOUGHT, CL);
    write_word(area + NEXT, 0);
    write_word(area + FOLDER_SUM, sum & 0xFFFF);
    write_word(area + FOLDER_SUM + 2, sum >> 16);
    find_next();
}

static void attributes(void)
{
    char path[MOST_NAME];
    int is_read = read_path(place_of(DS, DX), path);
    if (is_read && find(path) != NO_PLACE) CX = AL ? CX : ARCHIVE;
    else if (is_read && is_folder(path)) CX = FOLDER;
    else dos_fail(NO_SUCH_FILE);
}

static void device_information(void)
{
    if (AL == 0) DX = BX < FIRST_HANDLE ? DEVICE : CURRENT_DRIVE;
    else if (AL == 6 || AL == 7) AL = 0xFF;
    if (AL == 0 && BX >= FIRST_HANDLE && !handle_of(BX)) dos_fail(NO_SUCH_HANDLE);
}

static void file_time(void)
{
    if (!handle_of(BX)) dos_fail(NO_SUCH_HANDLE);
    else if (AL == 0) CX = 0, DX = FILE_DATE;
}

static void free_space(void)
{
    AX = 8;
    BX = 4096;
    CX = 512;
    DX = 8192;
}

/* Functions of files; whether this is one. */
int file_service(void)
{
    switch (AH) {
    case 0x0E: AL = 3; return 1;
    case 0x19: AL = CURRENT_DRIVE; return 1;
    case 0x36: free_space(); return 1;
    case 0x39: case 0x3A: dos_fail(DENIED); return 1;
    case 0x3B: change_folder(); return 1;
    case 0x3C: create(0); return 1;
    case 0x3D: open_by_name(); return 1;
    case 0x3E: close(); return 1;
    case 0x3F: case 0x40: case 0x42: transfer(); return 1;
    case 0x41: delete(); return 1;
    case 0x43: attributes(); return 1;
    case 0x44: device_information(); return 1;
    case 0x45: dos_fail(TOO_MANY); return 1;
    case 0x47: tell_folder(); return 1;
    case 0x4E: find_first(); return 1;
    case 0x4F: find_next(); return 1;
    case 0x56: rename(); return 1;
    case 0x57: file_time(); return 1;
    case 0x5B: create(1); return 1;
    case 0x68: return 1;
    }
    return 0;
}
