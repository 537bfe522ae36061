/* Shifts and rotations of libx86emu's processor, in place of its own.
 *
 * Its own ones take counts modulo the operand's size, and change flags where the count is 0. Here counts are those of
 * processors since the 286: five bits. Source: Intel's 80386 Programmer's Reference Manual, sections RCL, SAL, SHLD
 * and SHRD. Where that leaves a flag undefined, the flag stays as it is.
 */
#include "x86emu_int.h"

typedef struct {
    x86emu_t *emu;
    unsigned bits; /* of the operand */
} operand;

static u32 top(operand of)
{
    return 1u << (of.bits - 1);
}

static u32 inside(operand of, u64 value)
{
    return (u32)(value & (top(of) * 2ull - 1));
}

static void set_flag(x86emu_t *emu, u32 flag, int is_set)
{
    CONDITIONAL_SET_FLAG(is_set, flag);
}

/* Carry, and by a count of 1 overflow. */
static void set_carry(operand of, int carry, unsigned count, int overflow)
{
    set_flag(of.emu, F_CF, carry);
    if (count == 1) set_flag(of.emu, F_OF, overflow);
}

static u32 with_result(operand of, u32 result)
{
    set_flag(of.emu, F_ZF, result == 0);
    set_flag(of.emu, F_SF, (result & top(of)) != 0);
    set_flag(of.emu, F_PF, !__builtin_parity(result & 0xFF));
    return result;
}

static u32 rotate_left(operand of, u32 value, unsigned count)
{
    count &= 31;
    if (count == 0) return value;
    unsigned turns = count % of.bits;
    u32 result = inside(of, (u64)value << turns | (u64)value >> (of.bits - turns));
    set_carry(of, result & 1, count, !(result & top(of)) != !(result & 1));
    return result;
}

static u32 rotate_right(operand of, u32 value, unsigned count)
{
    count &= 31;
    if (count == 0) return value;
    unsigned turns = count % of.bits;
    u32 result = inside(of, (u64)value >> turns | (u64)value << (of.bits - turns));
    set_carry(of, (result & top(of)) != 0, count, !(result & top(of)) != !(result & top(of) / 2));
    return result;
}

/* Through carry: a rotation of one bit more, whose highest is carry. */
static u32 rotate_carry(operand of, u32 value, unsigned turns, unsigned count)
{
    x86emu_t *emu = of.emu;
    if (turns == 0) return value;
    u64 wide = value | (u64)(ACCESS_FLAG(F_CF) != 0) << of.bits;
    wide = wide << turns | wide >> (of.bits + 1 - turns);
    u32 result = inside(of, wide);
    set_flag(emu, F_CF, (int)(wide >> of.bits & 1));
    if (count == 1) set_flag(emu, F_OF, ((result ^ value) & top(of)) != 0);
    return result;
}

static u32 rotate_carry_left(operand of, u32 value, unsigned count)
{
    count &= 31;
    return rotate_carry(of, value, count % (of.bits + 1), count);
}

static u32 rotate_carry_right(operand of, u32 value, unsigned count)
{
    count &= 31;
    unsigned turns = count % (of.bits + 1);
    return rotate_carry(of, value, turns ? of.bits + 1 - turns : 0, count);
}

static u32 shift_left(operand of, u32 value, unsigned count)
{
    count &= 31;
    if (count == 0) return value;
    u64 wide = (u64)value << count;
    u32 result = inside(of, wide);
    int carry = (int)(wide >> of.bits & 1);
    set_carry(of, carry, count, carry != ((result & top(of)) != 0));
    return with_result(of, result);
}

static u32 shift_right(operand of, u32 value, unsigned count)
{
    count &= 31;
    if (count == 0) return value;
    set_carry(of, value >> (count - 1) & 1, count, (value & top(of)) != 0);
    return with_result(of, (u32)((u64)value >> count));
}

static u32 shift_signed_right(operand of, u32 value, unsigned count)
{
    count &= 31;
    if (count == 0) return value;
    s64 wide = (s64)((value ^ top(of)) - (u64)top(of));
    set_carry(of, (int)(wide >> (count - 1) & 1), count, 0);
    return with_result(of, inside(of, (u64)(wide >> count)));
}

/* Of two operands. A word by more than 16 takes bits of itself once more, as Intel's processors do. */
static u32 shift_double_left(operand of, u32 value, u32 fill, unsigned count)
{
    count &= 31;
    if (count == 0) return value;
    u64 wide = of.bits == 32 ? (u64)value << 32 | fill : (u64)value << 32 | (u64)fill << 16 | value;
    u32 result = inside(of, wide >> (32 - count));
    int carry = (int)(wide >> (32 + of.bits - count) & 1);
    set_carry(of, carry, count, ((result ^ value) & top(of)) != 0);
    return with_result(of, result);
}

static u32 shift_double_right(operand of, u32 value, u32 fill, unsigned count)
{
    count &= 31;
    if (count == 0) return value;
    u64 wide = of.bits == 32 ? (u64)fill << 32 | value : (u64)value << 32 | (u64)fill << 16 | value;
    u32 result = inside(of, wide >> count);
    set_carry(of, (int)(wide >> (count - 1) & 1), count, ((result ^ value) & top(of)) != 0);
    return with_result(of, result);
}

/* The names that the processor calls them by. */
#define SIZES(name, does) \
    u8 name##_byte(x86emu_t *emu, u8 d, u8 s) { return (u8)does((operand){emu, 8}, d, s); } \
    u16 name##_word(x86emu_t *emu, u16 d, u8 s) { return (u16)does((operand){emu, 16}, d, s); } \
    u32 name##_long(x86emu_t *emu, u32 d, u8 s) { return does((operand){emu, 32}, d, s); }
#define DOUBLE_SIZES(name, does) \
    u16 name##_word(x86emu_t *emu, u16 d, u16 fill, u8 s) { return (u16)does((operand){emu, 16}, d, fill, s); } \
    u32 name##_long(x86emu_t *emu, u32 d, u32 fill, u8 s) { return does((operand){emu, 32}, d, fill, s); }

SIZES(rol, rotate_left)
SIZES(ror, rotate_right)
SIZES(rcl, rotate_carry_left)
SIZES(rcr, rotate_carry_right)
SIZES(shl, shift_left)
SIZES(shr, shift_right)
SIZES(sar, shift_signed_right)
DOUBLE_SIZES(shld, shift_double_left)
DOUBLE_SIZES(shrd, shift_double_right)
