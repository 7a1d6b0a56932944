/* A book of 1,001 blocks, filled by senders, for the measurements. */
#include "../tests/blocks.h"
#include <stdlib.h>

enum { SLOTS = MOST_BLOCKS - 1, N = 96 };

static uint8_t book[MOST_BLOCKS * BLOCK];
static size_t used;

/* Party s and its series as kept: series k is bought from party s + k + 1, which keeps no series of that pair; so all marks say alone. */
static inline void sender_with_series(unsigned s, unsigned series) {
    uint8_t *b = book + BLOCK * ++used;
    size_t slot = used;
    sender_block(b, book, s, 1, series);
    for (unsigned k = 0; k < series; k++) {
        uint8_t *x = book + BLOCK * ++used;
        series_block(x, book, k, 1, s, s + k + 1, 1000 * k);
        put(x + 6, 2, (uint32_t)slot);
        for (unsigned p = 0; p < N; p++) put(b + 108 + 4 * p, 4, number(b + 108 + 4 * p, 4) + 1000 * k + p);
        tetherbay_seal(x, BLOCK);
    }
    tetherbay_seal(b, BLOCK);
}

/* So many senders fill so many slots, each with as many series as the next, or one fewer. */
static inline void make_book(unsigned senders, unsigned slots) {
    uint8_t area[16], receiver[16];
    memcpy(area, eic(9000), 16);
    memcpy(receiver, eic(9001), 16);
    if (tetherbay_open(book, sizeof book, N, 45, (const uint8_t *)"20190131", 8, area, 16, receiver, 16).number) exit(3);
    for (unsigned s = 0; s < senders; s++) {
        unsigned left = slots - (unsigned)used, senders_left = senders - s;
        sender_with_series(s, (left + senders_left - 1) / senders_left - 1);
    }
    if (!tetherbay_sound(book, sizeof book)) exit(4);
}
