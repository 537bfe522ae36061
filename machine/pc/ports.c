/* Which part of the machine a port is of. */
#include "machine.h"

enum {
    DELAY = 0x80, SPEAKER = 0x61, ADDRESS_GATE = 0x92, JOYSTICK = 0x201, NOTHING = 0xFF,
    /* The stubs of the BIOS: an interrupt, what the software begins with, a letter of DOS' output. */
    SERVICE = 0xF1, START = 0xF2, TYPE = 0xF3
};

static int is_controller(u32 port)
{
    return (port & ~0x81u) == 0x20;
}

static int is_bios(void)
{
    return processor.x86.saved_cs == BIOS_SEGMENT;
}

u32 port_in(u32 port)
{
    if (is_display_port(port)) return display_in(port);
    if (is_controller(port)) return controller_in(port);
    switch (port) {
    case 0x40: case 0x41: case 0x42: return timer_in(port);
    case 0x60: case 0x64: return keyboard_in(port);
    case SPEAKER: return speaker_in();
    case 0x70: case 0x71: return cmos_in(port);
    case ADDRESS_GATE: return is_line_open() << 1;
    case JOYSTICK: return 0xF0;
    }
    return NOTHING;
}

/* The number of a stub: four bytes each; those of the timer and the keyboard stand behind them. */
static u32 stub_number(void)
{
    u32 place = processor.x86.saved_eip;
    return place == 0x600 ? 8 : place == 0x623 ? 9 : place / 4;
}

/* Bit 1 opens the 21st address line, and bit 0 restarts the PC. */
static void gate_out(u32 value)
{
    open_line(value & 2);
    if (value & 1) stop(RESTARTED);
}

void port_out(u32 port, u32 value)
{
    if (is_display_port(port)) {
        display_out(port, value);
        return;
    }
    if (is_controller(port)) {
        controller_out(port, value);
        return;
    }
    switch (port) {
    case 0x40: case 0x41: case 0x42: case 0x43: timer_out(port, value); break;
    case 0x60: case 0x64: keyboard_out(port, value); break;
    case SPEAKER: speaker_out(value); break;
    case 0x70: case 0x71: cmos_out(port, value); break;
    case ADDRESS_GATE: gate_out(value); break;
    case SERVICE: if (is_bios()) serve(stub_number()); break;
    case START: if (is_bios()) start_software(); break;
    case TYPE: if (is_bios()) type_on(); break;
    }
}

u32 port_in_word(u32 port)
{
    return port_in(port) | port_in(port + 1) << 8;
}

void port_out_word(u32 port, u32 value)
{
    if (is_display_port(port) && is_display_port(port + 1)) {
        display_out_word(port, value);
        return;
    }
    port_out(port, value & 0xFF);
    port_out(port + 1, value >> 8);
}
