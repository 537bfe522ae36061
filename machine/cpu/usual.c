/* The processor's loop for instructions without prefixes, of which nobody is told. The usual ones are done in the loop
 * itself.
 *
 * What an instruction does is libx86emu's: its file of instructions is compiled here once more, without the parts that
 * tell, and the compiler puts those that are named below into the loop. There the instruction pointer, which each byte
 * of code moves, need not go through memory for each, and no jump by a pointer leads to an instruction and back. The
 * others are reached by libx86emu's table.
 */
#undef X86EMU_TELLS
#define X86EMU_TELLS 0
#define x86emu_optab usual_table
#define tell_cond usual_tell_cond
#include "ops.c"
#undef x86emu_optab

extern void (*x86emu_optab[256])(x86emu_t *emu, u8 op1);

/* The first bytes that are no instructions of their own, but say something of the one that comes. */
static const u8 is_prefix[256] = {
    [0x26] = 1, [0x2E] = 1, [0x36] = 1, [0x3E] = 1, [0x64] = 1, [0x65] = 1,
    [0x66] = 1, [0x67] = 1, [0xF0] = 1, [0xF2] = 1, [0xF3] = 1,
};

#define EACH_ALU(n) \
    case n: case n + 0x08: case n + 0x10: case n + 0x18: case n + 0x20: case n + 0x28: case n + 0x30: case n + 0x38
#define DO(n, name) \
    case n: x86emuOp_##name(emu, op1); return 1
#define DO_EACH_ALU(n, name) \
    EACH_ALU(n): x86emuOp_##name(emu, op1); return 1

/* Does an instruction that moves or calculates; whether it was one. */
static inline __attribute__((always_inline)) int calculate(x86emu_t *emu, u8 op1)
{
    switch (op1) {
    DO_EACH_ALU(0x00, op_A_byte_RM_R);
    DO_EACH_ALU(0x01, op_A_word_RM_R);
    DO_EACH_ALU(0x02, op_A_byte_R_RM);
    DO_EACH_ALU(0x03, op_A_word_R_RM);
    DO_EACH_ALU(0x04, op_A_byte_AL_IMM);
    DO_EACH_ALU(0x05, op_A_word_AX_IMM);
    DO(0x40, inc_AX); DO(0x41, inc_CX); DO(0x42, inc_DX); DO(0x43, inc_BX); DO(0x46, inc_SI); DO(0x47, inc_DI);
    DO(0x48, dec_AX); DO(0x49, dec_CX); DO(0x4A, dec_DX); DO(0x4B, dec_BX); DO(0x4E, dec_SI); DO(0x4F, dec_DI);
    DO(0x80, opc80_byte_RM_IMM); DO(0x81, opc81_word_RM_IMM); DO(0x83, opc83_word_RM_IMM);
    DO(0x88, mov_byte_RM_R); DO(0x89, mov_word_RM_R); DO(0x8A, mov_byte_R_RM); DO(0x8B, mov_word_R_RM);
    DO(0xA1, mov_AX_M_IMM); DO(0xA8, test_AL_IMM); DO(0xAA, stos_byte); DO(0xAB, stos_word);
    DO(0xD1, opcD1_word_RM_1); DO(0xF7, opcF7_word_RM); DO(0xFE, opcFE_byte_RM);
    }
    return 0;
}

/* Does an instruction that goes on elsewhere, or leaves a value on the stack; whether it was one. */
static inline __attribute__((always_inline)) int go(x86emu_t *emu, u8 op1)
{
    switch (op1) {
    case 0x70 ... 0x7F: x86emuOp_jump_short_cc(emu, op1); return 1;
    DO(0x50, push_AX); DO(0x51, push_CX); DO(0x52, push_DX); DO(0x53, push_BX); DO(0x56, push_SI); DO(0x57, push_DI);
    DO(0x58, pop_AX); DO(0x59, pop_CX); DO(0x5A, pop_DX); DO(0x5B, pop_BX); DO(0x5E, pop_SI); DO(0x5F, pop_DI);
    DO(0xC3, ret_near); DO(0xE2, loop); DO(0xE8, call_near_IMM); DO(0xEB, jump_byte_IMM);
    }
    return 0;
}

/* Does instructions until another kind comes, max_instr is reached, or somebody wants to be told; whether the processor
 * was halted. Who is told, and max_instr, may change with each. What the usual ones leave alone is asked again only
 * behind another one: the sizes of code and stack, the code's segment. */
int run_usual(x86emu_t *emu)
{
    u64 *count = &emu->x86.R_TSC;
    u32 mode = 0;
    int is_known = 0;
    while (!is_told && *count < emu->max_instr) {
        u32 place = emu->x86.R_CS_BASE + emu->x86.R_EIP;
        u8 op1;
        if (!is_plain(place) || is_prefix[op1 = ram[place]]) return 0;
        if (!is_known) {
            mode = ACC_D(emu->x86.R_CS_ACC) ? _MODE_DATA32 | _MODE_ADDR32 | _MODE_CODE32 : 0;
            if (ACC_D(emu->x86.R_SS_ACC)) mode |= _MODE_STACK32;
            emu->x86.default_seg = NULL;
            emu->x86.saved_cs = emu->x86.R_CS;
        }
        emu->x86.mode = mode;
        emu->x86.saved_eip = emu->x86.R_EIP;
        PASS_CODE(1);
        is_known = calculate(emu, op1) || go(emu, op1);
        if (!is_known) (*x86emu_optab[op1])(emu, op1);
        if (emu->x86.intr_type) {
            handle_interrupt(emu);
            is_known = 0;
        }
        ++*count;
        if (MODE_HALTED) return 1;
    }
    return 0;
}
