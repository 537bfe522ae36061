/*
 * -device zaklimot-vga: a VGA for QEMU whose adapter is the library Zaklimot.
 *
 * SPDX-License-Identifier: MIT
 *
 * This file is the glue between QEMU 7.2 and zaklimot.h, and goes to hw/display/. The guest's video
 * BIOS is SeaBIOS's for a VGA without extensions. The cycles of ports 3B0 to 3DF and of addresses
 * A0000 to BFFFF go to the card. Before each of them the card's clock comes to QEMU's virtual
 * clock. If somebody looks, the next frame is drawn where it ends.
 */
#include "qemu/osdep.h"
#include "qemu/error-report.h"
#include "qemu/log.h"
#include "qemu/module.h"
#include "qemu/timer.h"
#include "qapi/error.h"
#include "hw/isa/isa.h"
#include "hw/loader.h"
#include "hw/qdev-properties.h"
#include "migration/vmstate.h"
#include "sysemu/runstate.h"
#include "ui/console.h"
#include "zaklimot.h"

#define TYPE_ZAKLIMOT_VGA "zaklimot-vga"
OBJECT_DECLARE_SIMPLE_TYPE(ZaklimotVGA, ZAKLIMOT_VGA)

/* At power-on frames have 90 dots. Nobody looks at such frames. */
#define FEWEST_DOTS 80000
/* The longest time that is handed over at once, so that no product is too long. */
#define MOST_NS (NANOSECONDS_PER_SECOND / 4)

struct ZaklimotVGA {
    ISADevice parent_obj;
    MemoryRegion mono_ports, colour_ports, memory;
    QemuConsole *con;
    QEMUTimer *frame_timer;
    char *romfile;          /* the video BIOS */
    zak_card card;
    int64_t now;            /* the virtual time to which the card's clock has come, in ns */
    uint64_t fraction;      /* of a dot, which time has brought since: of dot_ns */
    uint64_t rate, dot_ns;  /* rate dots come in dot_ns */
    uint32_t left;          /* dots to the frame's end */
    bool has_frames;
    bool is_stale;          /* whether a write may have changed these */
    bool is_wanted;         /* whether somebody looks */
    uint8_t *state;         /* the card, for a snapshot or a migration */
    uint32_t state_len;
};

/* --- The clock --- */

static void look_at_clock(ZaklimotVGA *s)
{
    zak_timing timing;

    zak_clock(&s->card, &timing);
    s->rate = timing.rate;
    s->dot_ns = (uint64_t)NANOSECONDS_PER_SECOND * timing.rate_divisor;
    s->has_frames = timing.frame_dots >= FEWEST_DOTS;
    s->left = s->has_frames ? timing.to_frame : ZAK_MOST_DOTS;
    s->is_stale = false;
}

static void take_frame(ZaklimotVGA *s);

/* Lets the card's clock come to the virtual time. */
static void settle(ZaklimotVGA *s)
{
    int64_t time = qemu_clock_get_ns(QEMU_CLOCK_VIRTUAL);

    if (s->is_stale) {
        look_at_clock(s);
    }
    while (time > s->now) {
        int64_t step = MIN(time - s->now, MOST_NS);
        uint64_t owed = s->fraction + step * s->rate;
        uint64_t dots = owed / s->dot_ns;

        if (dots >= s->left) {
            /* As many ns as the frame still takes, rounded up. */
            owed = s->left * s->dot_ns - s->fraction;
            step = DIV_ROUND_UP(owed, s->rate);
            s->fraction = step * s->rate - owed;
            s->now += step;
            take_frame(s);
            look_at_clock(s);
        } else {
            s->fraction = owed % s->dot_ns;
            s->now += step;
            zak_advance(&s->card, dots);
            s->left -= dots;
        }
    }
}

/* --- Frames --- */

/* Shows a picture that the card has drawn into the console's surface. */
static void show(ZaklimotVGA *s, zak_status status, const zak_picture *picture,
                 const zak_rows *changed)
{
    DisplaySurface *surface = qemu_console_surface(s->con);

    if (status != ZAK_OK && status != ZAK_NO_ROOM) {
        return; /* a ragged frame: the last picture stays */
    }
    if (picture->width != surface_width(surface) || picture->height != surface_height(surface)) {
        qemu_console_resize(s->con, picture->width, picture->height);
        /* The next frame fills it. */
        s->is_wanted = true;
    } else if (changed->count) {
        dpy_gfx_update(s->con, 0, changed->first, picture->width, changed->count);
    }
}

/* Draws the frame that is under way to its end. Rows that have not changed are not handed on. */
static void draw_frame(ZaklimotVGA *s)
{
    DisplaySurface *surface = qemu_console_surface(s->con);
    size_t pitch = surface_stride(surface) / sizeof(uint32_t);
    zak_picture picture;
    zak_rows changed = { 0, 0 };
    zak_status status;

    s->is_wanted = false;
    status = zak_frame_update(&s->card, 0, &picture, surface_data(surface),
                              pitch * surface_height(surface), pitch, &changed);
    show(s, status, &picture, &changed);
}

static void take_frame(ZaklimotVGA *s)
{
    if (!s->is_wanted) {
        zak_skip_frame(&s->card);
        return;
    }
    draw_frame(s);
    if (!s->is_wanted) {
        graphic_hw_update_done(s->con);
    }
}

static bool save_card(ZaklimotVGA *s)
{
    size_t len;

    g_free(s->state);
    s->state = g_malloc(ZAK_MOST_STATE);
    if (zak_save(&s->card, s->state, ZAK_MOST_STATE, &len) != ZAK_OK) {
        return false;
    }
    s->state_len = len;
    return true;
}

/* A machine that stands still ends no frame. It shows what the frame under way will be if nothing
 * changes, and the card goes back. */
static void show_stopped(ZaklimotVGA *s)
{
    for (int tries = 0; s->is_wanted && tries < 3; tries++) {
        if (!save_card(s)) {
            break;
        }
        draw_frame(s);
        zak_restore(&s->card, s->state, s->state_len);
    }
    s->is_wanted = false;
    graphic_hw_update_done(s->con);
}

static void wait_for_frame(void *opaque)
{
    ZaklimotVGA *s = opaque;

    settle(s);
    if (s->is_stale) {
        look_at_clock(s);
    }
    if (s->is_wanted) {
        uint64_t owed = s->left * s->dot_ns - s->fraction;

        timer_mod(s->frame_timer, s->now + DIV_ROUND_UP(owed, s->rate));
    }
}

/* Somebody looks: a window some 30 times a second, a screendump once. */
static void update(void *opaque)
{
    ZaklimotVGA *s = opaque;

    settle(s);
    if (s->is_stale) {
        look_at_clock(s);
    }
    if (!s->has_frames) {
        graphic_hw_update_done(s->con);
        return;
    }
    s->is_wanted = true;
    if (runstate_is_running()) {
        wait_for_frame(s);
    } else {
        show_stopped(s);
    }
}

static const GraphicHwOps graphic_ops = {
    .gfx_update = update,
    .gfx_update_async = true,
};

/* --- Ports and memory --- */

/* Cycles that the card refuses are written to the log, with `-d unimp`. */
static void refuse(zak_status status, const char *what, hwaddr place, uint64_t value)
{
    uint8_t text[ZAK_MOST_STATUS_TEXT];
    size_t len = 0;

    if (qemu_loglevel_mask(LOG_UNIMP)) {
        zak_status_text(status, text, sizeof(text), &len);
        qemu_log("zaklimot-vga: %s %03" HWADDR_PRIx " %02" PRIx64 ": %.*s\n", what, place, value,
                 (int)len, (char *)text);
    }
}

static uint64_t read_port(ZaklimotVGA *s, uint16_t port)
{
    uint8_t value = 0xff; /* what an open bus gives */
    zak_status status;

    settle(s);
    status = zak_in(&s->card, port, &value);
    if (status) {
        refuse(status, "in", port, value);
    }
    return value;
}

static void write_port(ZaklimotVGA *s, uint16_t port, uint8_t value)
{
    zak_status status;

    settle(s);
    status = zak_out(&s->card, port, value);
    if (status) {
        refuse(status, "out", port, value);
    }
    s->is_stale = true;
}

static uint64_t read_mono(void *opaque, hwaddr at, unsigned size)
{
    return read_port(opaque, 0x3b0 + at);
}

static void write_mono(void *opaque, hwaddr at, uint64_t value, unsigned size)
{
    write_port(opaque, 0x3b0 + at, value);
}

static uint64_t read_colour(void *opaque, hwaddr at, unsigned size)
{
    return read_port(opaque, 0x3c0 + at);
}

static void write_colour(void *opaque, hwaddr at, uint64_t value, unsigned size)
{
    write_port(opaque, 0x3c0 + at, value);
}

static uint64_t read_memory(void *opaque, hwaddr at, unsigned size)
{
    ZaklimotVGA *s = opaque;
    uint8_t value = 0xff;
    zak_status status;

    settle(s);
    status = zak_get(&s->card, 0xa0000 + at, &value);
    if (status) {
        refuse(status, "get", 0xa0000 + at, value);
    }
    return value;
}

static void write_memory(void *opaque, hwaddr at, uint64_t value, unsigned size)
{
    ZaklimotVGA *s = opaque;
    zak_status status;

    settle(s);
    status = zak_put(&s->card, 0xa0000 + at, value);
    if (status) {
        refuse(status, "put", 0xa0000 + at, value);
    }
}

/* QEMU makes cycles of a byte of words and doublewords, the low one first, and hands on those that
 * the card takes if it refuses another. */
#define BYTES                                                                                      \
    .endianness = DEVICE_LITTLE_ENDIAN,                                                            \
    .valid = { .min_access_size = 1, .max_access_size = 4, .unaligned = true },                    \
    .impl = { .min_access_size = 1, .max_access_size = 1, .unaligned = true }

static const MemoryRegionOps mono_ops = { .read = read_mono, .write = write_mono, BYTES };
static const MemoryRegionOps colour_ops = { .read = read_colour, .write = write_colour, BYTES };
static const MemoryRegionOps memory_ops = { .read = read_memory, .write = write_memory, BYTES };

/* --- The device --- */

/* The video BIOS loads its own fonts. */
static const uint8_t fonts[ZAK_FONTS_SIZE];

static void reset(DeviceState *dev)
{
    ZaklimotVGA *s = ZAKLIMOT_VGA(dev);

    zak_close(&s->card);
    if (zak_open(&s->card, fonts, sizeof(fonts)) != ZAK_OK) {
        error_report("zaklimot-vga: no memory for a card");
        exit(1);
    }
    s->now = qemu_clock_get_ns(QEMU_CLOCK_VIRTUAL);
    s->fraction = 0;
    look_at_clock(s);
}

static void realize(DeviceState *dev, Error **errp)
{
    ZaklimotVGA *s = ZAKLIMOT_VGA(dev);
    ISADevice *isa = ISA_DEVICE(dev);

    if (zak_open(&s->card, fonts, sizeof(fonts)) != ZAK_OK) {
        error_setg(errp, "no memory for a card");
        return;
    }
    look_at_clock(s);
    s->frame_timer = timer_new_ns(QEMU_CLOCK_VIRTUAL, wait_for_frame, s);
    /* Ports 3BC to 3BF are a printer's. */
    memory_region_init_io(&s->mono_ports, OBJECT(s), &mono_ops, s, "zaklimot-mono", 0xc);
    isa_register_ioport(isa, &s->mono_ports, 0x3b0);
    memory_region_init_io(&s->colour_ports, OBJECT(s), &colour_ops, s, "zaklimot-colour", 0x20);
    isa_register_ioport(isa, &s->colour_ports, 0x3c0);
    memory_region_init_io(&s->memory, OBJECT(s), &memory_ops, s, "zaklimot-memory", 0x20000);
    memory_region_add_subregion_overlap(isa_address_space(isa), 0xa0000, &s->memory, 1);
    s->con = graphic_console_init(dev, 0, &graphic_ops, s);
    rom_add_vga(s->romfile);
}

static int pre_save(void *opaque)
{
    ZaklimotVGA *s = opaque;

    settle(s);
    return save_card(s) ? 0 : -ENOMEM;
}

static int post_load(void *opaque, int version)
{
    ZaklimotVGA *s = opaque;

    if (zak_restore(&s->card, s->state, s->state_len) != ZAK_OK) {
        return -EINVAL;
    }
    look_at_clock(s);
    return 0;
}

static const VMStateDescription vmstate = {
    .name = TYPE_ZAKLIMOT_VGA,
    .version_id = 1,
    .minimum_version_id = 1,
    .pre_save = pre_save,
    .post_load = post_load,
    .fields = (VMStateField[]) {
        VMSTATE_INT64(now, ZaklimotVGA),
        VMSTATE_UINT64(fraction, ZaklimotVGA),
        VMSTATE_UINT32(state_len, ZaklimotVGA),
        VMSTATE_VBUFFER_ALLOC_UINT32(state, ZaklimotVGA, 1, NULL, state_len),
        VMSTATE_END_OF_LIST()
    }
};

static Property properties[] = {
    DEFINE_PROP_STRING("romfile", ZaklimotVGA, romfile),
    DEFINE_PROP_END_OF_LIST()
};

static void init(Object *obj)
{
    ZAKLIMOT_VGA(obj)->romfile = g_strdup("vgabios.bin");
}

static void class_init(ObjectClass *klass, void *data)
{
    DeviceClass *dc = DEVICE_CLASS(klass);

    dc->realize = realize;
    dc->reset = reset;
    dc->vmsd = &vmstate;
    dc->hotpluggable = false;
    dc->desc = "VGA by the library Zaklimot";
    device_class_set_props(dc, properties);
    set_bit(DEVICE_CATEGORY_DISPLAY, dc->categories);
}

static const TypeInfo info = {
    .name = TYPE_ZAKLIMOT_VGA,
    .parent = TYPE_ISA_DEVICE,
    .instance_size = sizeof(ZaklimotVGA),
    .instance_init = init,
    .class_init = class_init,
};

static void register_types(void)
{
    type_register_static(&info);
}

type_init(register_types)
