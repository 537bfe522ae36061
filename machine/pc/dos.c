/* DOS for programs: interrupt 21. Letters go to interrupt 10 by machine code, so that whoever serves that shows them.
 *
 * Files, folders and memory stand in files of their own. A function that is missing is told to the host by its number,
 * and answers "no such function".
 */
#include "machine.h"

enum { MOST_LETTERS = 8, NO_FUNCTION = 1, MOST_LINE = 255, END_MARK = '$', FIRST_STUB = 0x660 };
enum { BELL = 7, BACKSPACE = 8, TAB = 9, NEWLINE = 10, RETURN = 13, BREAK = 3 };

/* What is to be typed: letters of its own first, then bytes of memory, up to a mark or so many. */
static struct {
    u8 letters[MOST_LETTERS], count, taken;
    u32 place, left;
    u16 ax, bx;
    u8 is_typing, goes_on; /* whether the function is done again once all is typed */
} typing;
static u8 scan_due, has_scan_due, line_length, is_in_line, is_ended_code;
static u32 transfer_area;

void begin_dos(void)
{
    memset(&typing, 0, sizeof typing);
    scan_due = has_scan_due = line_length = is_in_line = is_ended_code = 0;
    transfer_area = 0;
}

/* Where directory searches leave what they find. */
u32 transfer_place(void)
{
    return transfer_area;
}

void set_transfer_place(u32 place)
{
    transfer_area = place;
}

void dos_end(void)
{
    is_ended_code = AL;
    stop(ENDED);
}

SHOWN("exit_code") u32 exit_code(void)
{
    return is_ended_code;
}

void dos_fail(u32 error)
{
    AX = (u16)error;
    give_flag(CARRY, 1);
}

static void type(u32 letter)
{
    if (typing.count < MOST_LETTERS) typing.letters[typing.count++] = (u8)letter;
}

void type_bytes(u32 place, u32 count)
{
    typing.place = place;
    typing.left = count;
}

/* Types the next letter by interrupt 10, to which the stub goes on; carry tells that there is none. */
void type_on(void)
{
    if (!typing.is_typing) {
        typing.ax = AX;
        typing.bx = BX;
        typing.is_typing = 1;
    }
    int has_own = typing.taken < typing.count;
    if (has_own || typing.left) {
        u32 letter = has_own ? typing.letters[typing.taken++] : read_byte(typing.place);
        if (!has_own) {
            typing.place++;
            typing.left--;
        }
        AX = (u16)(0x0E00 | letter);
        BX = 7;
        processor.x86.R_FLG &= ~CARRY;
        return;
    }
    AX = typing.ax;
    BX = typing.bx;
    processor.x86.R_FLG |= CARRY;
    if (typing.goes_on) processor.x86.R_EIP = FIRST_STUB;
    memset(&typing, 0, sizeof typing);
}

/* The next letter that was typed; -1 where the function is to wait. A key without a letter is two: 0, and its code. */
static int letter(void)
{
    if (has_scan_due) {
        has_scan_due = 0;
        return scan_due;
    }
    if (!has_key()) {
        wait_here();
        return -1;
    }
    u32 word = take_key();
    if (word & 0xFF && (word & 0xFF) != 0xE0) return word & 0xFF;
    scan_due = (u8)(word >> 8);
    has_scan_due = 1;
    return 0;
}

static int has_letter(void)
{
    return has_scan_due || has_key();
}

static void read_letter(int is_echoed)
{
    int found = letter();
    if (found < 0) return;
    AL = (u8)found;
    if (is_echoed) type((u32)found);
}

/* Direct input and output: DL is a letter, or FF for input without waiting. */
static void direct(void)
{
    if (DL != 0xFF) {
        type(DL);
        AL = DL;
        return;
    }
    give_flag(ZERO, !has_letter());
    if (!has_letter()) pass_poll();
    AL = has_letter() ? (u8)letter() : 0;
}

static void erase_letter(void)
{
    line_length--;
    type(BACKSPACE);
    type(' ');
    type(BACKSPACE);
}

/* A line into the buffer at DS:DX: its room, its length, its letters, a return. A letter at a time. */
static void read_line(void)
{
    u32 buffer = place_of(DS, DX), room = read_byte(buffer);
    if (!is_in_line) {
        line_length = 0;
        is_in_line = 1;
    }
    int found = letter();
    if (found < 0) return;
    typing.goes_on = 1;
    if (found == RETURN) {
        write_byte(buffer + 1, line_length);
        write_byte(buffer + 2 + line_length, RETURN);
        is_in_line = 0;
        typing.goes_on = 0;
        type(RETURN);
    } else if (found == BACKSPACE) {
        if (line_length) erase_letter();
    } else if (found && line_length + 1u < room) {
        write_byte(buffer + 2 + line_length++, (u32)found);
        type((u32)found);
    }
}

static void type_string(void)
{
    u32 place = place_of(DS, DX), count = 0;
    while (count < 0xFFFF && read_byte(place + count) != END_MARK) count++;
    type_bytes(place, count);
    AL = END_MARK;
}

static void time_of_day(void)
{
    u32 hundredths = (u32)((u64)ticks() * 100 * 65536 / 1193182);
    CX = (u16)((hundredths / 360000 % 24) << 8 | hundredths / 6000 % 60);
    DX = (u16)((hundredths / 100 % 60) << 8 | hundredths % 100);
}

/* Functions of the console; whether this is one. */
static int console_service(void)
{
    switch (AH) {
    case 0x01: read_letter(1); return 1;
    case 0x02:
        type(DL);
        AL = DL;
        return 1;
    case 0x06: direct(); return 1;
    case 0x07: case 0x08: read_letter(0); return 1;
    case 0x09: type_string(); return 1;
    case 0x0A: read_line(); return 1;
    case 0x0B:
        AL = has_letter() ? 0xFF : 0;
        if (!AL) pass_poll();
        return 1;
    case 0x0C:
        has_scan_due = 0;
        forget_keys();
        AH = AL;
        if (AL == 1 || (AL >= 6 && AL <= 8) || AL == 10) console_service();
        return 1;
    }
    return 0;
}

static void set_vector(void)
{
    write_word(4 * AL, DX);
    write_word(4 * AL + 2, DS);
}

static void get_vector(void)
{
    u32 vector = 4 * AL;
    BX = (u16)read_word(vector);
    x86emu_set_seg_register(&processor, processor.x86.R_ES_SEL, (u16)read_word(vector + 2));
}

static void get_transfer_place(void)
{
    BX = (u16)transfer_area;
    x86emu_set_seg_register(&processor, processor.x86.R_ES_SEL, (u16)(transfer_area >> 16));
}

/* Functions of the system; whether this is one. */
static int system_service(void)
{
    switch (AH) {
    case 0x00: case 0x31: case 0x4C: dos_end(); return 1;
    case 0x0D: case 0x2E: case 0x50: case 0x6C: return 1;
    case 0x1A: transfer_area = (u32)DS << 16 | DX; return 1;
    case 0x25: set_vector(); return 1;
    case 0x2A:
        CX = 1994;
        DX = 0x0701;
        AL = 5;
        return 1;
    case 0x2C: time_of_day(); return 1;
    case 0x2B: case 0x2D: AL = 0; return 1;
    case 0x2F: get_transfer_place(); return 1;
    case 0x30:
        AX = 5;
        BX = CX = 0;
        return 1;
    case 0x33: DL = 0; return 1;
    case 0x35: get_vector(); return 1;
    case 0x4D: AX = is_ended_code; return 1;
    }
    return 0;
}

void dos(void)
{
    give_flag(CARRY, 0);
    if (console_service() || system_service() || file_service() || memory_service()) return;
    tell_host(0x21, AX);
    dos_fail(NO_FUNCTION);
}
