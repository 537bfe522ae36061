/* A small PC round libx86emu's processor, whose display is the proved adapter of another module.
 *
 * All of the machine's state lies in this module's memory, so copies of that and of the adapter's state are a snapshot.
 * The same state and the same keys give the same cycles: time is counted in instructions, and the processor works in
 * quanta of machine time.
 */
#ifndef MACHINE_H
#define MACHINE_H

#include <stddef.h>
#include <string.h>
#include "x86emu.h"
#include "memory.h"

#define FROM(module, name) __attribute__((import_module(module), import_name(name)))
#define SHOWN(name) __attribute__((export_name(name)))

enum flags { CARRY = 0x001, ZERO = 0x040, INTERRUPT = 0x200 };
/* Where the stubs of interrupts stand, four bytes each, and what is behind them. */
enum places { BIOS_SEGMENT = 0xF000, STUBS = 0xF0000, BIOS_DATA = 0x400 };

/* The processor, and its registers by their names. */
extern x86emu_t processor;
#define AX processor.x86.R_AX
#define BX processor.x86.R_BX
#define CX processor.x86.R_CX
#define DX processor.x86.R_DX
#define AL processor.x86.R_AL
#define AH processor.x86.R_AH
#define BL processor.x86.R_BL
#define BH processor.x86.R_BH
#define CL processor.x86.R_CL
#define CH processor.x86.R_CH
#define DL processor.x86.R_DL
#define DH processor.x86.R_DH
#define REG(name) processor.x86.R_##name
#define CS processor.x86.R_CS
#define DS processor.x86.R_DS
#define ES processor.x86.R_ES
#define SS processor.x86.R_SS

void generate_int(x86emu_t *emu, u8 number, unsigned type, unsigned errcode); /* libx86emu's */

static inline u32 smaller(u32 one, u32 other)
{
    return one < other ? one : other;
}

/* memory.c: bytes of memory, wherever they stand; words of plain memory; an address of real mode. */
u32 read_byte(u32 place);
u32 read_word(u32 place);
void write_byte(u32 place, u32 value);
void write_word(u32 place, u32 value);
void write_bytes(u32 place, const void *bytes, u32 count);
void write_text(u32 place, const char *text);
u32 place_of(u32 segment, u32 offset);
u32 word_of_stack(u32 at);
unsigned reach(x86emu_t *emu, u32 place, u32 *value, unsigned type);
void open_line(u32 is_open);
u32 is_line_open(void);

/* beam.c: time in nanoseconds, and the dots that are the display's share of it. */
u64 now(void);
void pass(u64 nanoseconds);
void pass_cycle(void);
u64 instructions_in(u64 nanoseconds);
void begin_time(void);
u32 frames_ended(void);
void settle(void);
void settle_amid(void);
void settle_unseen(void);
void settle_write(u32 place, u32 bytes);
void forget_shown(void);
void forget_clock(void);
void forget_status(void);
void note_write(void);
u32 read_status(u32 port);
u32 reads_alike(u32 instructions);
void pass_reads(u32 reads);

/* shown.c: which bytes of the display's memory the beam shows in the dots that come. */
u32 look_at_shown(u32 to_frame);
int is_shown(u32 place, u32 bytes);
void forget_layout(void);

/* display.c: cycles of the adapter, and interrupt 10. */
int is_display_port(u32 port);
int is_window(u32 place);
u32 display_get(u32 place);
u32 display_get_word(u32 place);
void display_put(u32 place, u32 value);
void display_put_word(u32 place, u32 value);
void give_held(void);
void forget_held(void);
u32 display_in(u32 port);
void display_out(u32 port, u32 value);
void display_out_word(u32 port, u32 value);
void video(void);
void begin_display(u32 the_card, u32 the_room);

/* colours.c: the palette of mode 13 that PCs' BIOSes load. */
void begin_colours(void);
void load_colours(u32 ax, u32 bx);

/* waits.c: loops that wait for a bit of input status 1. */
void pass_wait(u32 value);

/* records.c: what was done, where that is wanted, and where the machine stops. */
enum record_kind {
    RECORD_OUT = 1, RECORD_OUT_WORD, RECORD_IN, RECORD_IN_WORD, RECORD_PUT, RECORD_PUT_WORD, RECORD_GET,
    RECORD_GET_WORD, RECORD_CALL, RECORD_FRAME
};
void record(enum record_kind kind, u32 address, u32 value);
void record_call(u32 ax_bx, u32 cx_dx);
void record_dots(u32 dots);
u32 cycles_unseen(void);
int is_followed(void);
void pass_cycles(u32 count);
double cycles_done(void);
void note_refusal(void);
void note_mode(void);
void begin_records(void);

/* ports.c */
u32 port_in(u32 port);
u32 port_in_word(u32 port);
void port_out(u32 port, u32 value);
void port_out_word(u32 port, u32 value);

/* interrupts.c: the two interrupt controllers. */
void begin_interrupts(void);
void raise_line(u32 line);
int deliver_interrupt(void);
u32 controller_in(u32 port);
void controller_out(u32 port, u32 value);

/* timer.c: counters 0 and 2 of the timer, and the speaker's port, which tells of them. */
void begin_timer(void);
void tick(void);
u64 next_tick_time(void);
u32 timer_in(u32 port);
void timer_out(u32 port, u32 value);
u32 speaker_in(void);
void speaker_out(u32 value);

/* keyboard.c: the controller, scan codes, and the BIOS' buffer of keys. */
void begin_keyboard(void);
void send_scan(void);
u32 keyboard_in(u32 port);
void keyboard_out(u32 port, u32 value);
void keyboard_interrupt(void);
int has_key(void);
u32 take_key(void);
void forget_keys(void);
void keyboard_service(void);
void pass_poll(void);

/* cmos.c */
void begin_cmos(void);
u32 cmos_in(u32 port);
void cmos_out(u32 port, u32 value);
void clock_service(void);
u32 ticks(void);

/* mouse.c */
void begin_mouse(void);
void mouse_service(void);

/* store.c: room for drives and files, which is kept in snapshots as memory is. */
u32 store_take(u32 bytes);
u8 *store_at(u32 place);
void store_write(u32 place, u32 offset, u32 value);
void begin_store(void);

/* disk.c */
void disk_service(void);
int has_drive(u32 number);
void begin_disks(void);

/* bios.c: what a stub's interrupt does; flags of the caller. */
void serve(u32 number);
void give_flag(u32 flag, int is_set);
void wait_here(void);
void begin_bios(void);
void write_video_data(void);

/* dos.c, dos_files.c, dos_memory.c */
void dos(void);
void begin_dos(void);
void type_on(void);
void dos_end(void);
void dos_fail(u32 error);
int file_service(void);
int memory_service(void);
void begin_memory(void);
u32 first_memory(u32 segment, u32 paragraphs);

/* run.c */
enum stopped { RUNS, ENDED, AT_CYCLE, AT_WATCH, AT_PLACE, AT_MODE, AT_REFUSAL, RESTARTED, HALTED };
void stop(enum stopped why);
int has_waited(u64 nanoseconds);
u32 registers(void);
void note_input(void);
void begin_machine(void);
void tell_host(u32 number, u32 value);
int is_told_lacking(u32 place);
void load_segments(u32 segment, u32 code, u32 offset, u32 stack);
void start_software(void);

#endif
