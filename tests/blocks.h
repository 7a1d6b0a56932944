/* Blocks of messages and books for the C tests and the measurements. */
#ifndef BLOCKS_H
#define BLOCKS_H

#include "../include/tetherbay.h"
#include <stdio.h>
#include <string.h>

enum { BLOCK = 512, MOST_BLOCKS = 1001, MOST_SERIES = 200 };

static inline void put(uint8_t *at, size_t width, uint32_t x) {
    for (size_t i = 0; i < width; i++) at[i] = (uint8_t)(x >> (8 * i));
}

static inline uint32_t number(const uint8_t *at, size_t width) {
    uint32_t x = 0;
    while (width--) x = x << 8 | at[width];
    return x;
}

/* The first valid EIC with this number in its middle; it stands until the next call. */
static inline const uint8_t *eic(unsigned party) {
    static char code[17];
    static const char digits[] = "0123456789ABCDEFGHIJKLMNOPQRSTUVWXYZ";
    for (unsigned tail = 0;; tail++) {
        snprintf(code, sizeof code, "14XPARTY-%04u-%c", party % 10000, digits[tail]);
        for (size_t last = 0; last < 36; last++) {
            code[15] = digits[last];
            if (tetherbay_eic_valid((const uint8_t *)code, 16)) return (const uint8_t *)code;
        }
    }
}

/* The sender block of a party's message for the day of this day block, its check not yet put right. */
static inline void sender_block(uint8_t *b, const uint8_t *day, unsigned party, unsigned version, unsigned series) {
    memset(b, 0, BLOCK);
    b[0] = 1;
    b[1] = day[1];
    put(b + 2, 2, version);
    put(b + 4, 2, series);
    snprintf((char *)b + 8, 16, "MESSAGE-%04u", party % 10000);
    memcpy(b + 24, eic(party), 16);
    memcpy(b + 40, day + 40, 16);
    memcpy(b + 56, day + 8, 8);
}

/* Series k of a message: buyer and seller, and at each position of the day a value one above that of the position before it. */
static inline void series_block(uint8_t *x, const uint8_t *day, unsigned k, unsigned version, unsigned buyer, unsigned seller, uint32_t base) {
    memset(x, 0, BLOCK);
    x[0] = 2;
    x[1] = day[1];
    put(x + 2, 2, version);
    x[4] = 2;
    snprintf((char *)x + 8, 16, "SERIES-%04u", k % 10000);
    memcpy(x + 24, day + 24, 16);
    memcpy(x + 40, day + 24, 16);
    memcpy(x + 56, eic(buyer), 16);
    memcpy(x + 72, eic(seller), 16);
    for (unsigned p = 0; p < day[1]; p++) put(x + 108 + 4 * p, 4, base + p);
}

/* The area beyond the border, by the number of its EIC. */
enum { ABROAD = 9002 };

/* The two areas of what comes in over the border, or goes out. */
static inline void cross_border(uint8_t *x, const uint8_t *day, bool in) {
    memcpy(x + (in ? 24 : 40), day + 24, 16);
    memcpy(x + (in ? 40 : 24), eic(ABROAD), 16);
}

/* What right k and a series on it (A03) have in common: business type, contract type, areas and agreement. */
static inline void name_right(uint8_t *x, const uint8_t *day, unsigned k, bool in) {
    x[4] = 3;
    x[5] = (uint8_t)(1 + k % 99);
    cross_border(x, day, in);
    snprintf((char *)x + 88, 16, "AGREEMENT-%04u", k % 10000);
}

/* Right k of a party: at each position of the day a limit that is a step above that of the position before it. Its check is not yet put right. */
static inline void right_block(uint8_t *r, const uint8_t *day, unsigned k, unsigned holder, bool in, uint32_t base, uint32_t step) {
    memset(r, 0, BLOCK);
    r[0] = 4;
    r[1] = day[1];
    name_right(r, day, k, in);
    memcpy(r + 56, eic(holder), 16);
    memcpy(r + 72, eic(holder), 16);
    for (unsigned p = 0; p < day[1]; p++) put(r + 108 + 4 * p, 4, base + step * p);
}

/* Series k of a message as an external schedule without capacity (A06); name_right puts it on a right. Its quantities go up as those of a trade. */
static inline void external_block(uint8_t *x, const uint8_t *day, unsigned k, unsigned version, unsigned in_party, unsigned out_party, bool in, uint32_t base) {
    series_block(x, day, k, version, in_party, out_party, base);
    x[4] = 6;
    cross_border(x, day, in);
}

/* Whole blocks of a book as the old layout had them: byte 104 of a series is a state, here 1, 2 and 3 in turn. A conversion does not ask whether they are true. */
static inline void old_layout(uint8_t *blocks, size_t length) {
    for (size_t at = 0; at + BLOCK <= length; at += BLOCK) {
        if (blocks[at] != 2) continue;
        blocks[at + 104] = (uint8_t)(1 + at / BLOCK % 3);
        tetherbay_seal(blocks + at, BLOCK);
    }
}

#endif
