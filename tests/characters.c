/* The table of document 01, kept here alone: what each of the 256 byte values is worth as a character of an EIC, 255 where it is none. The built
   library must judge every byte by it, as one of the first fifteen characters and as the sixteenth, and name the character that is wrong. */
#include <stdio.h>
#include <string.h>
#include "../include/tetherbay.h"

#define NONE 255

static const uint8_t table[256] = {
    255, 255, 255, 255, 255, 255, 255, 255, 255, 255, 255, 255, 255, 255, 255, 255,
    255, 255, 255, 255, 255, 255, 255, 255, 255, 255, 255, 255, 255, 255, 255, 255,
    255, 255, 255, 255, 255, 255, 255, 255, 255, 255, 255, 255, 255,  36, 255, 255,
      0,   1,   2,   3,   4,   5,   6,   7,   8,   9, 255, 255, 255, 255, 255, 255,
    255,  10,  11,  12,  13,  14,  15,  16,  17,  18,  19,  20,  21,  22,  23,  24,
     25,  26,  27,  28,  29,  30,  31,  32,  33,  34,  35, 255, 255, 255, 255, 255,
    255, 255, 255, 255, 255, 255, 255, 255, 255, 255, 255, 255, 255, 255, 255, 255,
    255, 255, 255, 255, 255, 255, 255, 255, 255, 255, 255, 255, 255, 255, 255, 255,
    255, 255, 255, 255, 255, 255, 255, 255, 255, 255, 255, 255, 255, 255, 255, 255,
    255, 255, 255, 255, 255, 255, 255, 255, 255, 255, 255, 255, 255, 255, 255, 255,
    255, 255, 255, 255, 255, 255, 255, 255, 255, 255, 255, 255, 255, 255, 255, 255,
    255, 255, 255, 255, 255, 255, 255, 255, 255, 255, 255, 255, 255, 255, 255, 255,
    255, 255, 255, 255, 255, 255, 255, 255, 255, 255, 255, 255, 255, 255, 255, 255,
    255, 255, 255, 255, 255, 255, 255, 255, 255, 255, 255, 255, 255, 255, 255, 255,
    255, 255, 255, 255, 255, 255, 255, 255, 255, 255, 255, 255, 255, 255, 255, 255,
    255, 255, 255, 255, 255, 255, 255, 255, 255, 255, 255, 255, 255, 255, 255, 255,
};

/* Which of the sixteen characters is wrong by the table, 0 where they are an EIC. */
static unsigned wrong_character(const uint8_t *code) {
    unsigned sum = 0;
    for (unsigned i = 0; i < 15; i++) {
        if (table[code[i]] == NONE) return i + 1;
        sum += (16 - i) * table[code[i]];
    }
    bool right = sum != 0 && code[15] != '-' && table[code[15]] == 36 - (sum - 1) % 37;
    return right ? 0 : 16;
}

/* Each byte as each of the first fifteen characters of a code, with each byte as the sixteenth: a value that is off by one asks for another
   sixteenth. */
int main(void) {
    unsigned long asked = 0, good = 0;
    for (unsigned place = 0; place < 15; place++) {
        for (unsigned byte = 0; byte < 256; byte++) {
            for (unsigned last = 0; last < 256; last++) {
                uint8_t code[16];
                memcpy(code, "10XAT-APG------Z", 16);
                code[place] = (uint8_t)byte;
                code[15] = (uint8_t)last;
                unsigned wrong = wrong_character(code);
                if (tetherbay_eic(code, 16) != wrong || tetherbay_eic_valid(code, 16) != !wrong) {
                    printf("byte %u as character %u, byte %u as the last: not what the table says\n", byte, place + 1, last);
                    return 1;
                }
                asked++;
                good += !wrong;
            }
        }
    }
    printf("256 bytes, %lu codes, %lu of them valid: as the table says\n", asked, good);
    return 0;
}
