/* A first lesson: one day's book, a sale and a purchase that do not quite agree, and what the desk says of them.
   tools/c-tests builds this program and holds what it prints to desk.out. Numbers in blocks are little-endian. */
#include "../include/tetherbay.h"
#include <stdio.h>
#include <string.h>

enum { BLOCK = 512, N = 96, MIDNIGHT = 10080 }; /* minutes are counted from a week before the day */

static const char AREA[] = "10YAT-APG------L", RECEIVER[] = "14XAT-APCS-----Q", DAY[] = "20190131";
static const char SELLER[] = "14XBILANZGR-1--F", BUYER[] = "14XBG-EMPFANG--0";

static uint8_t book[8 * BLOCK];    /* the day block and room for seven more */
static uint8_t message[2 * BLOCK]; /* the sender's block and one series */

static const uint8_t *bytes(const char *text) { return (const uint8_t *)text; }

/* A field of sixteen bytes: the text, then zero bytes. */
static void field(uint8_t *at, const char *text) {
    memset(at, 0, 16);
    memcpy(at, text, strlen(text));
}

static void quantity(uint8_t *series, unsigned position, uint32_t kilowatts) {
    for (unsigned i = 0; i < 4; i++) series[108 + 4 * (position - 1) + i] = (uint8_t)(kilowatts >> (8 * i));
}

/* A sender's first message: the trade between seller and buyer, the same quantity at each position. Every byte not written here is 0. */
static void write_message(const char *sender, const char *message_id, const char *series_id, uint32_t kilowatts) {
    uint8_t *head = message, *series = message + BLOCK;
    memset(message, 0, sizeof message);
    head[0] = 1; /* kind: sender */
    head[1] = N;
    head[2] = 1; /* message version */
    head[4] = 1; /* count of series */
    field(head + 8, message_id);
    field(head + 24, sender);
    field(head + 40, RECEIVER);
    field(head + 56, DAY);
    series[0] = 2; /* kind: series */
    series[1] = N;
    series[2] = 1; /* series version */
    series[4] = 2; /* business type A02 */
    field(series + 8, series_id);
    field(series + 24, AREA);
    field(series + 40, AREA);
    field(series + 56, BUYER);
    field(series + 72, SELLER);
    for (unsigned p = 1; p <= N; p++) quantity(series, p, kilowatts);
}

/* Puts the checks right, hands the message in and prints what the acknowledgement says, and at how many slots the search for counterparts looked. */
static void submit(const char *who) {
    tetherbay_seal(message, BLOCK);
    tetherbay_seal(message + BLOCK, BLOCK);
    tetherbay_submit_answer a = tetherbay_submit(book, sizeof book, message, sizeof message);
    tetherbay_verdict v = a.verdict;
    printf("%s: number %u, code A%02u, series %zu, position %zu, character %u; looked %zu\n", who, v.number, v.code, v.series, v.position, v.character, a.looked);
}

static void print_mark(const char *sender, const char *series_id) {
    uint8_t id[16];
    field(id, series_id);
    tetherbay_mark_answer m = tetherbay_mark(book, sizeof book, bytes(sender), 16, id, 16);
    printf("%s %s: differ %u, first %zu, partner %zu\n", sender, series_id, m.differ, m.first, m.partner);
}

static void print_final(size_t position) {
    tetherbay_final_answer f = tetherbay_final(book, sizeof book, bytes(SELLER), 16, bytes(BUYER), 16, position);
    uint8_t text[8];
    tetherbay_printed t = tetherbay_quantity_print(f.kilowatts, text, sizeof text);
    printf("position %zu: number %u, %.*s MW\n", position, f.number, (int)t.length, (const char *)text);
}

int main(void) {
    printf("open: number %u\n", tetherbay_open(book, sizeof book, N, 45, bytes(DAY), 8, bytes(AREA), 16, bytes(RECEIVER), 16).number);

    write_message(SELLER, "SALES", "TS0001", 45000);
    submit("seller");
    write_message(BUYER, "PURCHASES", "FPL01", 45000);
    quantity(message + BLOCK, 2, 44000);
    submit("buyer");
    submit("buyer again"); /* version 1 is stored already: rule 6 */
    print_mark(SELLER, "TS0001");
    print_mark(BUYER, "FPL01");

    tetherbay_clock_answer c = tetherbay_clock(book, sizeof book, MIDNIGHT);
    printf("clock: number %u, n %u, lead %u, minute %d of the day\n", c.number, c.state.n, c.state.lead, c.state.clock - MIDNIGHT);
    print_final(2); /* closed: the lesser of 45.000 and 44.000 counts */
    print_final(4); /* open for as long as the clock is not past this minute: 25 */
    uint8_t text[6000];
    printf("%.*s", (int)tetherbay_listing(book, sizeof book, text, sizeof text), (const char *)text);
    tetherbay_plain_run_answer plain = tetherbay_plain_run(book, sizeof book);
    printf("plain run: number %u, marks and nets %s\n", plain.number, plain.holds ? "true" : "false");
    return 0;
}
