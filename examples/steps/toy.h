/* A toy adapter: the memory of a VGA and the registers by which it is written and read.
 * docs/HOST-PATH.md has the rules. loader.c and loader.cpp hold it to single-step tests. */
#ifndef TOY_H
#define TOY_H

#include <stdbool.h>
#include <stdint.h>

typedef struct toy {
    uint8_t misc, seq[5], gfx[9], latches[4];
    uint8_t planes[65536][4];
} toy;

/* Whether an address is decoded, and its place in the window. */
static inline bool toy_place(const toy *card, uint32_t address, uint16_t *place)
{
    static const uint32_t windows[4][2] = {
        {0xA0000, 0x20000}, {0xA0000, 0x10000}, {0xB0000, 0x8000}, {0xB8000, 0x8000}};
    const uint32_t *window = windows[card->gfx[6] >> 2 & 3];
    *place = (uint16_t)(address - window[0]);
    return (card->misc & 2) && address >= window[0] && address - window[0] < window[1];
}

static inline uint16_t toy_offset(const toy *card, uint16_t place)
{
    if (card->seq[4] & 8)
        return place & 0xFFFC;
    return card->gfx[6] & 2 ? place & 0xFFFE : place;
}

/* The byte that a write stores in a plane. */
static inline uint8_t toy_stored(const toy *card, int plane, uint8_t byte)
{
    unsigned mode = card->gfx[5] & 3, count = card->gfx[3] & 7, latch = card->latches[plane];
    unsigned rotated = ((unsigned)byte << 8 | byte) >> count & 0xFF, mask = card->gfx[8];
    unsigned set = card->gfx[0] >> plane & 1 ? 0xFF : 0, data = rotated;
    if (mode == 1)
        return (uint8_t)latch;
    if (mode == 0 && card->gfx[1] >> plane & 1)
        data = set;
    if (mode == 2)
        data = byte >> plane & 1 ? 0xFF : 0;
    if (mode == 3) {
        data = set;
        mask &= rotated;
    }
    switch (card->gfx[3] >> 3 & 3) {
    case 1: data &= latch; break;
    case 2: data |= latch; break;
    case 3: data ^= latch; break;
    }
    return (uint8_t)((data & mask) | (latch & ~mask));
}

/* A write of a byte; whether it is decoded. */
static inline bool toy_put(toy *card, uint32_t address, uint8_t byte)
{
    uint16_t place;
    unsigned reached = card->seq[2];
    if (!toy_place(card, address, &place))
        return false;
    if (card->seq[4] & 8)
        reached &= 1u << (place & 3);
    else if (!(card->seq[4] & 4))
        reached &= place & 1 ? 0xA : 0x5;
    for (int plane = 0; plane < 4; plane++)
        if (reached >> plane & 1)
            card->planes[toy_offset(card, place)][plane] = toy_stored(card, plane, byte);
    return true;
}

/* A read of a byte, which loads the latches; whether it is decoded. */
static inline bool toy_get(toy *card, uint32_t address, uint8_t *byte)
{
    uint16_t place;
    unsigned differing = 0, picked = card->gfx[4] & 3;
    if (!toy_place(card, address, &place))
        return false;
    for (int plane = 0; plane < 4; plane++) {
        unsigned colour = card->gfx[2] >> plane & 1 ? 0xFF : 0;
        card->latches[plane] = card->planes[toy_offset(card, place)][plane];
        if (card->gfx[7] >> plane & 1)
            differing |= card->latches[plane] ^ colour;
    }
    if (card->seq[4] & 8)
        picked = place & 3;
    else if (card->gfx[5] & 0x10)
        picked = (picked & 2) | (place & 1);
    *byte = card->gfx[5] & 8 ? (uint8_t)~differing : card->latches[picked];
    return true;
}

#endif
