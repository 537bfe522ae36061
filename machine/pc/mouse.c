/* Interrupt 33, as a driver of a Microsoft mouse has it: the position is one of 640 by 200 places, 8 a cell. */
#include "machine.h"

enum { LEAST_X = 0, MOST_X = 639, MOST_Y = 199, BUTTONS = 3 };
struct axis {
    u16 place, least, most;
};
static struct axis across, down;
static u16 buttons, pressed[BUTTONS], pressed_x[BUTTONS], pressed_y[BUTTONS];
static s16 moved_x, moved_y;
static u8 is_used; /* the software has asked for the mouse: before, the host need not tell where it goes */

SHOWN("uses_mouse") u32 uses_mouse(void)
{
    return is_used;
}

void begin_mouse(void)
{
    is_used = 0;
    across = (struct axis){320, LEAST_X, MOST_X};
    down = (struct axis){100, LEAST_X, MOST_Y};
    buttons = 0;
    moved_x = moved_y = 0;
    memset(pressed, 0, sizeof pressed);
    memset(pressed_x, 0, sizeof pressed_x);
    memset(pressed_y, 0, sizeof pressed_y);
}

static u16 within(const struct axis *one, u32 place)
{
    return place < one->least ? one->least : place > one->most ? one->most : (u16)place;
}

/* The mouse is at a place of 640 by 200, with these buttons pressed: bit 0 the left one, 1 the right, 2 the middle. */
SHOWN("mouse") void mouse(u32 x, u32 y, u32 now_pressed)
{
    note_input();
    moved_x += (s16)(x - across.place);
    moved_y += (s16)(y - down.place);
    across.place = within(&across, x);
    down.place = within(&down, y);
    for (u32 i = 0; i < BUTTONS; i++) {
        if (!(now_pressed & ~buttons & 1u << i)) continue;
        pressed[i]++;
        pressed_x[i] = across.place;
        pressed_y[i] = down.place;
    }
    buttons = (u16)now_pressed;
}

static void set_range(struct axis *one)
{
    one->least = CX < DX ? CX : DX;
    one->most = CX < DX ? DX : CX;
    one->place = within(one, one->place);
}

static void serve_mouse(void)
{
    u32 which = BX < BUTTONS ? BX : 0;
    switch (AX) {
    case 0x00: case 0x21:
        begin_mouse();
        AX = 0xFFFF;
        BX = BUTTONS;
        break;
    case 0x03:
        BX = buttons;
        CX = across.place;
        DX = down.place;
        break;
    case 0x04:
        across.place = within(&across, CX);
        down.place = within(&down, DX);
        break;
    case 0x05: case 0x06:
        AX = buttons;
        BX = AX == 5 ? pressed[which] : 0;
        CX = pressed_x[which];
        DX = pressed_y[which];
        pressed[which] = 0;
        break;
    case 0x07: set_range(&across); break;
    case 0x08: set_range(&down); break;
    case 0x0B:
        CX = (u16)moved_x;
        DX = (u16)moved_y;
        moved_x = moved_y = 0;
        break;
    }
}

void mouse_service(void)
{
    serve_mouse();
    is_used = 1;
}
