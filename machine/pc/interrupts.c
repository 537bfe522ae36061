/* The two interrupt controllers, 8259A, the second behind line 2 of the first. Intel's data sheet names the words. */
#include "machine.h"

enum { COMMAND = 0, DATA = 1, SECOND_LINE = 2 };
enum { INITIALIZE = 0x10, NEEDS_FOURTH = 0x01, END_OF_INTERRUPT = 0x20, SPECIFIC = 0x60, READ_SERVED = 0x0B,
       READ_ASKED = 0x0A };

struct controller {
    u8 asked, served, mask, base, awaited, needs_fourth, reads_served, ends_itself;
};
static struct controller controllers[2];

void begin_interrupts(void)
{
    controllers[0] = (struct controller){.base = 0x08};
    controllers[1] = (struct controller){.base = 0x70, .mask = 0xFF};
}

/* An interrupt of a line, 0 to 15, is asked for. */
void raise_line(u32 line)
{
    controllers[line >> 3].asked |= (u8)(1 << (line & 7));
}

/* The line of a controller that comes next; 8 for none. A line waits for those before it that are served. */
static u32 next_line(const struct controller *one)
{
    u8 wanted = one->asked & (u8)~one->mask;
    for (u32 line = 0; line < 8; line++) {
        if (one->served >> line & 1) return 8;
        if (wanted >> line & 1) return line;
    }
    return 8;
}

static u32 serve_line(struct controller *one, u32 line)
{
    one->asked &= (u8)~(1 << line);
    if (!one->ends_itself) one->served |= (u8)(1 << line);
    return one->base + line;
}

/* Delivers the interrupt that comes next; whether there was one, and the processor takes it. */
int deliver_interrupt(void)
{
    struct controller *first = &controllers[0], *second = &controllers[1];
    if (!(processor.x86.R_FLG & INTERRUPT)) return 0;
    if (next_line(second) < 8) first->asked |= 1 << SECOND_LINE;
    else first->asked &= (u8)~(1 << SECOND_LINE);
    u32 line = next_line(first);
    if (line == 8) return 0;
    u32 number = serve_line(first, line);
    if (line == SECOND_LINE) number = serve_line(second, next_line(second));
    generate_int(&processor, (u8)number, INTR_TYPE_SOFT, 0);
    return 1;
}

u32 controller_in(u32 port)
{
    struct controller *one = &controllers[port >> 7 & 1];
    if (port & DATA) return one->mask;
    return one->reads_served ? one->served : one->asked;
}

static void end_highest(struct controller *one)
{
    one->served &= (u8)(one->served - 1);
}

static void command(struct controller *one, u32 value)
{
    if (value & INITIALIZE) {
        *one = (struct controller){.base = one->base, .awaited = 2, .needs_fourth = value & NEEDS_FOURTH};
    } else if (value == READ_SERVED || value == READ_ASKED) {
        one->reads_served = value == READ_SERVED;
    } else if ((value & 0xF8) == SPECIFIC) {
        one->served &= (u8)~(1 << (value & 7));
    } else if ((value & 0xF8) == END_OF_INTERRUPT) {
        end_highest(one);
    }
}

/* The second to fourth words after the first of an initialization; else the mask. */
static void data(struct controller *one, u32 value)
{
    switch (one->awaited) {
    case 2:
        one->base = value & 0xF8;
        one->awaited = 3;
        break;
    case 3:
        one->awaited = one->needs_fourth ? 4 : 0;
        break;
    case 4:
        one->ends_itself = value >> 1 & 1;
        one->awaited = 0;
        break;
    default: one->mask = (u8)value;
    }
}

void controller_out(u32 port, u32 value)
{
    struct controller *one = &controllers[port >> 7 & 1];
    if (port & DATA) data(one, value);
    else command(one, value);
}
