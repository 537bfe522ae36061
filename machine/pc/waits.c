/* Loops that only read input status 1 until a bit changes: programs that draw once a frame spend most of their time there.
 *
 * The adapter's clock tells how long the port answers the same. So many rounds pass at once behind a read, as far as
 * nobody looks at each and no interrupt may come between. The last round is the processor's, and leaves its registers
 * and flags as all of them would.
 */
#include "machine.h"

enum code { IN_AL_DX = 0xEC, TEST_AL = 0xA8, AND_AL = 0x24, IF_ZERO = 0x74, UNLESS_ZERO = 0x75, LOAD_DX = 0xBA };
/* The read; a test of a byte, and a jump by it; before them the port, where it stands in the loop. */
enum { READ_BYTES = 1, REST_BYTES = 4, PORT_BYTES = 3, LOOP_BYTES = PORT_BYTES + READ_BYTES + REST_BYTES };

/* Whether a loop goes round by the value that was read; `rest` is what stands behind the read. */
static int goes_round(const u8 *rest, u32 value)
{
    int is_test = rest[0] == TEST_AL || rest[0] == AND_AL;
    return is_test && rest[2] == ((value & rest[1]) ? UNLESS_ZERO : IF_ZERO);
}

/* How many instructions the loop has in which the byte that was read last is waited for; 0 where there is none. */
static u32 loop_length(u32 value)
{
    u32 at = processor.x86.saved_eip, place = processor.x86.R_CS_BASE + at;
    int is_wide = ACC_D(processor.x86.R_CS_ACC);
    if (is_wide || at < PORT_BYTES || at > 0xFFFF - LOOP_BYTES || !is_plain(place - PORT_BYTES)) return 0;
    const u8 *code = ram + place, *rest = code + READ_BYTES;
    if (!is_plain(place + LOOP_BYTES) || processor.x86.R_EIP != at + READ_BYTES) return 0;
    if (code[0] != IN_AL_DX || !goes_round(rest, value)) return 0;
    switch (READ_BYTES + REST_BYTES + (s8)rest[3]) {
    case 0: return 3;
    case -PORT_BYTES: return code[-3] == LOAD_DX && (code[-2] | code[-1] << 8) == DX ? 4 : 0;
    }
    return 0;
}

/* After a read of input status 1, before the processor has counted it. The test behind the last read is done before
 * anybody looks at the flags. */
void pass_wait(u32 value)
{
    u64 done = processor.x86.R_TSC + 2;
    u32 unseen = cycles_unseen(), length = unseen ? loop_length(value) : 0;
    if (!length || processor.max_instr <= done) return;
    u32 reads = smaller((u32)((processor.max_instr - done) / length), smaller(reads_alike(length), unseen));
    if (!reads) return;
    processor.x86.R_TSC += (u64)reads * length;
    pass_reads(reads);
    pass_cycles(reads);
}
