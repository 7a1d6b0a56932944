/* Calls one leaf of the static library a given number of times; bench/run counts the instructions which that executes. */
#include "../include/tetherbay.h"
#include <stdio.h>
#include <stdlib.h>
#include <string.h>

static uint8_t blocks[64 * 512];
static const uint8_t eic[] = "14XBILANZGR-1--F", wrong_eic[] = "14XBILANZGR-1-aF", id[16] = "TS0001", text[] = "9999.999";
static uint8_t buffer[16];
static uint64_t sum;

#define LOOP(name, expression) \
    static void name(long times) { \
        for (long k = 0; k < times; k++) { \
            expression; \
            __asm__ volatile("" ::: "memory"); \
        } \
    }

LOOP(none, sum += 1)
LOOP(check, sum += tetherbay_check(blocks + 512 * (k % 64), 512))
LOOP(checks, sum += tetherbay_checks_right(blocks, sizeof blocks))
LOOP(seal, tetherbay_seal(blocks + 512 * (k % 64), 512))
LOOP(eic_valid, sum += tetherbay_eic_valid(eic, 16))
LOOP(eic_character, sum += tetherbay_eic(wrong_eic, 16))
LOOP(id_well_formed, sum += tetherbay_id_well_formed(id, 16))
LOOP(quantity_read, sum += tetherbay_quantity_read(text, 8).kilowatts)
LOOP(quantity_print, sum += tetherbay_quantity_print(9999999, buffer, sizeof buffer).length)
LOOP(reason_code, sum += tetherbay_reason_code((uint32_t)(k % 32)))

static const struct {
    const char *name;
    void (*loop)(long);
} leaves[] = {
    {"none", none}, {"check", check}, {"checks", checks}, {"seal", seal}, {"eic", eic_valid}, {"character", eic_character},
    {"id", id_well_formed}, {"read", quantity_read}, {"print", quantity_print}, {"code", reason_code},
};

int main(int argc, char **argv) {
    if (argc != 3) return 2;
    for (size_t i = 0; i < sizeof blocks; i++) blocks[i] = (uint8_t)(i * 37 + i / 512);
    for (size_t b = 0; b < 64; b++) tetherbay_seal(blocks + 512 * b, 512);
    for (size_t i = 0; i < sizeof leaves / sizeof *leaves; i++)
        if (!strcmp(leaves[i].name, argv[1])) leaves[i].loop(atol(argv[2]));
    printf("%llu\n", (unsigned long long)sum);
    return 0;
}
