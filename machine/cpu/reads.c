/* What the machine does in the adapter's memory: a module that imports this memory and the adapter's calls.
 *
 * The processor, whose module has another memory, reads the adapter here, so no read goes through JavaScript. A refused
 * read answers REFUSED and the open bus. And a picture becomes what a canvas shows.
 */
typedef unsigned int u32;
typedef unsigned long long u64;
#define FROM(name) __attribute__((import_module("adapter"), import_name(name)))
#define SHOWN(name) __attribute__((export_name(name)))
#define REFUSED 0x10000u

FROM("zak_get") u32 zak_get(u32 card, u32 address, void *told);
FROM("zak_get_word") u32 zak_get_word(u32 card, u32 address, void *told);
FROM("zak_in") u32 zak_in(u32 card, u32 port, void *told);
FROM("zak_put_bytes") u32 zak_put_bytes(u32 card, u32 address, const void *bytes, u32 count, u32 is_down, void *told);

SHOWN("get") u32 get(u32 card, unsigned char *told, u32 address)
{
    return zak_get(card, address, told) ? REFUSED | 0xFF : *told;
}

SHOWN("get_word") u32 get_word(u32 card, unsigned short *told, u32 address)
{
    return zak_get_word(card, address, told) ? REFUSED | 0xFFFF : *told;
}

SHOWN("in") u32 in(u32 card, unsigned char *told, u32 port)
{
    return zak_in(card, port, told) ? REFUSED | 0xFF : *told;
}

/* Up to 32 bytes of memory, the first one lowest; `room` has as many and what the call tells. */
SHOWN("put_bytes") u32 put_bytes(u32 card, u64 *room, u32 address, u32 count, u64 first, u64 second, u64 third,
                                 u64 fourth)
{
    room[0] = first;
    room[1] = second;
    room[2] = third;
    room[3] = fourth;
    return zak_put_bytes(card, address, room, count, 0, room + 4);
}

SHOWN("word") u32 word(const u32 *place)
{
    return *place;
}

/* Two words FFRRGGBB as a canvas has them: red is their first byte. */
static u64 turned(u64 two)
{
    return (two & 0xFF00FF00FF00FF00) | (two >> 16 & 0x000000FF000000FF) | (two & 0x000000FF000000FF) << 16;
}

/* Writes a row of words as a canvas has them; whether others stood there. */
static int paint_row(const u32 *from, u32 *to, u32 width)
{
    u64 differing = 0;
    for (u32 x = 0; x + 1 < width; x += 2) {
        u64 two, old;
        __builtin_memcpy(&two, from + x, sizeof two);
        __builtin_memcpy(&old, to + x, sizeof old);
        two = turned(two);
        differing |= two ^ old;
        __builtin_memcpy(to + x, &two, sizeof two);
    }
    if (width & 1) {
        u32 one = (u32)turned(from[width - 1]);
        differing |= one ^ to[width - 1];
        to[width - 1] = one;
    }
    return differing != 0;
}

/* Paints a picture, whose rows are so many words apart, for a canvas: the first row that differs from what stood there,
 * and in the upper half the one behind the last; 0 where none does. */
SHOWN("paint") u32 paint(const u32 *from, u32 pitch, u32 *to, u32 width, u32 height)
{
    u32 first = height, end = 0;
    for (u32 y = 0; y < height; y++) {
        if (!paint_row(from + y * pitch, to + y * width, width)) continue;
        if (first == height) first = y;
        end = y + 1;
    }
    return end ? end << 16 | first : 0;
}
