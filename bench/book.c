/* Makes one call on a full book, 1,001 blocks with 1,000 of them used: SENDERS senders, each with as many series as fit; a conversion on the same book in the
   old layout, and "enter" on a book with one free slot. bench/run counts the instructions which that executes, less those of making the book. */
#include "full_book.h"

/* All slots but one: 500 senders would leave the last of them no series. */
static void make_book_with_room(unsigned senders) { make_book(2 * senders < SLOTS ? senders : senders - 1, SLOTS - 1); }

int main(int argc, char **argv) {
    if (argc != 3) return 2;
    unsigned senders = (unsigned)atoi(argv[2]), series = SLOTS / senders - 1;
    uint8_t party[16], other[16], id[16] = {0}, right[BLOCK];
    if (!strcmp(argv[1], "room") || !strcmp(argv[1], "enter")) make_book_with_room(senders);
    else make_book(senders, senders * (series + 1));
    right_block(right, book, 0, 0, true, 1000, 1);
    tetherbay_seal(right, BLOCK);
    memcpy(party, eic(senders - 1), 16);
    memcpy(other, eic(senders), 16);
    snprintf((char *)id, 16, "SERIES-%04u", series - 1);
    if (tetherbay_clock(book, sizeof book, 10080 + 1500).number) return 5; /* every position closed */
    uint64_t r = 0;
    const char *call = argv[1];
    if (!strcmp(call, "old") || !strcmp(call, "convert")) old_layout(book, sizeof book);
    if (!strcmp(call, "checks")) r = tetherbay_checks_right(book, sizeof book);
    if (!strcmp(call, "sound")) r = tetherbay_sound(book, sizeof book);
    if (!strcmp(call, "clock")) r = tetherbay_clock(book, sizeof book, 10080 + 1500).number;
    if (!strcmp(call, "mark")) r = tetherbay_mark(book, sizeof book, party, 16, id, 16).differ;
    if (!strcmp(call, "block")) r = tetherbay_accepted_block(book, sizeof book, party, 16, id, 16).offset;
    if (!strcmp(call, "final")) r = tetherbay_final(book, sizeof book, other, 16, party, 16, 1).number; /* the buyer has the pair, the seller has none */
    if (!strcmp(call, "settled")) r = tetherbay_settled(book, sizeof book, party, 16, 1).bought;
    if (!strcmp(call, "plain")) r = tetherbay_plain_run(book, sizeof book).holds;
    if (!strcmp(call, "convert")) r = tetherbay_convert(book, sizeof book);
    if (!strcmp(call, "right") || !strcmp(call, "enter")) r = tetherbay_enter_right(book, sizeof book, right, BLOCK); /* 17; 0 */
    printf("%llu of %zu\n", (unsigned long long)r, used);
    return 0;
}
