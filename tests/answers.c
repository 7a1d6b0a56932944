/* Known answers of every export, each field of each answer among them: that the header's types are those of the library. */
#include "blocks.h"

static unsigned wrong, asked;

static void is(const char *what, uint64_t found, uint64_t expected) {
    asked++;
    if (found == expected) return;
    wrong++;
    printf("%s: %llu, not %llu\n", what, (unsigned long long)found, (unsigned long long)expected);
}

static void is_field(const char *what, const char *field, uint64_t found, uint64_t expected) {
    char label[80];
    snprintf(label, sizeof label, "%s, %s", what, field);
    is(label, found, expected);
}

static uint8_t book[8 * BLOCK], message[3 * BLOCK];

static const uint8_t *bytes(const char *text) { return (const uint8_t *)text; }

/* A buffer that is one byte short of a block, or one byte longer, or empty, stays as it was. */
static void seal_refused(void) {
    static const size_t lengths[] = {0, 508, 511, 513, 1024};
    uint8_t buffer[2 * BLOCK], before[2 * BLOCK];
    memset(before, 7, sizeof before);
    for (size_t i = 0; i < sizeof lengths / sizeof *lengths; i++) {
        memcpy(buffer, before, sizeof buffer);
        is("seal of another length", tetherbay_seal(buffer, lengths[i]), false);
        is("seal of another length, a byte written", (uint64_t)memcmp(buffer, before, sizeof buffer), 0);
    }
}

static void replied(uint32_t to, uint8_t kind, uint8_t status, uint8_t code) {
    tetherbay_reply_answer r = tetherbay_reply(to);
    is("reply, kind", r.kind, kind);
    is("reply, status", r.status, status);
    is("reply, code", r.code, code);
}

static void replies(void) {
    replied(0, TETHERBAY_ACKNOWLEDGEMENT, 1, 1);
    replied(1, TETHERBAY_DESK_NOTICE, 0, 0);
    replied(2, TETHERBAY_UNINTERPRETABLE_MESSAGE, 0, 0);
    replied(3, TETHERBAY_ACKNOWLEDGEMENT, 2, 53);
    replied(16, TETHERBAY_ACKNOWLEDGEMENT, 2, 52);
    replied(17, TETHERBAY_DESK_NOTICE, 0, 0);
    replied(18, TETHERBAY_ACKNOWLEDGEMENT, 2, 59);
    replied(19, TETHERBAY_ACKNOWLEDGEMENT, 2, 59);
    replied(40, TETHERBAY_DESK_NOTICE, 0, 0);
    replied(UINT32_MAX, TETHERBAY_UNINTERPRETABLE_MESSAGE, 0, 0);
}

static void named(const char *code, size_t length, uint8_t character) {
    is_field("EIC", code, tetherbay_eic(bytes(code), length), character);
    is_field("EIC valid", code, tetherbay_eic_valid(bytes(code), length), character == 0);
}

static void characters(void) {
    named("10XAT-APG------Z", 16, 0);
    named("a0XAT-APG------Z", 16, 1);
    named("10XAT-aPG------Z", 16, 7);
    named("10XAT-APG-----aZ", 16, 15);
    named("10XAT-APG------Y", 16, 16);
    named("10XAT-APG------a", 16, 16);
    named("10XAT-aPG-----aY", 16, 7);
    named("0000000000000000", 16, 16); /* the sixteenth would be due if fifteen zeros were allowed */
    named("000000000000000A", 16, 16);
    named("", 0, 1);
    named("10XAT-APG------", 15, 16);
    named("10XAT-APG------Z0", 17, 16);
    named("10XAT-aPG------Z0", 17, 7);
}

static void leaves(void) {
    uint8_t block[BLOCK] = {0}, id[16] = "TS0001", text[10] = "..........";
    block[506] = 1;
    is("check", tetherbay_check(block, BLOCK), 31);
    is("checks right, a wrong one", tetherbay_checks_right(block, BLOCK), false);
    is("seal", tetherbay_seal(block, BLOCK), true);
    is("sealed", number(block + 508, 4), 31);
    is("checks right", tetherbay_checks_right(block, BLOCK), true);
    seal_refused();
    memset(block, 255, 508);
    is("check, all its bits", tetherbay_check(block, BLOCK), 1715091520);
    is("id", tetherbay_id_well_formed(id, 16), true);
    is("id, a space", tetherbay_id_well_formed(bytes("TS 0001---------"), 16), false);
    characters();
    is("read, number", tetherbay_quantity_read(bytes("9999.999"), 8).number, 0);
    is("read, kilowatts", tetherbay_quantity_read(bytes("9999.999"), 8).kilowatts, 9999999);
    is("read, 30", tetherbay_quantity_read(bytes("10000"), 5).number, 30);
    is("read, 31", tetherbay_quantity_read(bytes("-0"), 2).number, 31);
    tetherbay_printed p = tetherbay_quantity_print(60000, text, sizeof text);
    is("print, number", p.number, 0);
    is("print, length", p.length, 6);
    is("print, text", (uint64_t)memcmp(text, "60.000....", 10), 0);
    is("print, 30", tetherbay_quantity_print(10000000, text, sizeof text).number, 30);
    is("print, 32", tetherbay_quantity_print(60000, text, 5).number, 32);
    is("code of 0", tetherbay_reason_code(0), 1);
    is("code of 4", tetherbay_reason_code(4), 78);
    is("code of 17", tetherbay_reason_code(17), 0);
    is("code of 18", tetherbay_reason_code(18), 59);
    is("code of 19", tetherbay_reason_code(19), 59);
    is("code of 40", tetherbay_reason_code(40), 0);
    is("code of the largest number", tetherbay_reason_code(UINT32_MAX), 0);
    replies();
}

static void opened(const char *what, tetherbay_open_answer a, uint32_t number, uint8_t character) {
    is_field(what, "number", a.number, number);
    is_field(what, "character", a.character, character);
}

/* Each wrong code has its first wrong character elsewhere. The last opening is accepted. */
static void openings(void) {
    const uint8_t *day = bytes("20190131"), *area = bytes("10YAT-APG------L"), *receiver = bytes("14XAT-APCS-----Q");
    const uint8_t *wrong_area = bytes("10YAT-aPG------L"), *wrong_receiver = bytes("14XAT-APCS-----R");
    size_t length = sizeof book;
    opened("open, another length", tetherbay_open(book, length - 1, 100, 1440, day, 8, wrong_area, 16, receiver, 16), 20, 0);
    opened("open, n", tetherbay_open(book, length, 93, 1440, day, 8, area, 16, receiver, 16), 21, 0);
    opened("open, lead", tetherbay_open(book, length, 100, 65535, day, 8, area, 16, receiver, 16), 21, 0);
    opened("open, area", tetherbay_open(book, length, 100, 1440, day, 8, wrong_area, 16, receiver, 16), 21, 7);
    opened("open, receiver", tetherbay_open(book, length, 100, 1440, day, 8, area, 16, wrong_receiver, 16), 21, 16);
    opened("open, area and receiver", tetherbay_open(book, length, 100, 1440, day, 8, wrong_area, 16, wrong_receiver, 16), 21, 7);
    opened("open, n and receiver", tetherbay_open(book, length, 93, 1440, day, 8, area, 16, wrong_receiver, 16), 21, 16);
    opened("open, an area of fifteen", tetherbay_open(book, length, 100, 1440, day, 8, area, 15, receiver, 16), 21, 16);
    opened("open, an area of five", tetherbay_open(book, length, 100, 1440, day, 8, area, 5, receiver, 16), 21, 6);
    opened("open by a third rule", tetherbay_open_by(book, length, 100, 1440, 2, day, 8, area, 16, receiver, 16), 21, 0);
    opened("open by a rule of 255, area", tetherbay_open_by(book, length, 100, 1440, 255, day, 8, wrong_area, 16, receiver, 16), 21, 7);
    opened("open by a third rule, another length", tetherbay_open_by(book, length - 1, 100, 1440, 2, day, 8, area, 16, receiver, 16), 20, 0);
    opened("open by the seller's rule", tetherbay_open_by(book, length, 100, 1440, TETHERBAY_SELLERS, day, 8, area, 16, receiver, 16), 0, 0);
    is("the seller's rule", book[6], 0);
    opened("open by the lesser rule", tetherbay_open_by(book, length, 100, 1440, TETHERBAY_LESSER, day, 8, area, 16, receiver, 16), 0, 0);
    is("the lesser rule", book[6], 1);
    opened("open", tetherbay_open(book, length, 100, 1440, day, 8, area, 16, receiver, 16), 0, 0);
    is("the rule of an opening that names none", book[6], 1);
}

static void seal_message(void) {
    for (size_t at = 0; at < sizeof message; at += BLOCK) tetherbay_seal(message + at, BLOCK);
}

/* A party's message: the trade of parties 1 and 2, at the highest values, and, unchanged since the first version, what it buys from party 3. */
static void write_message(unsigned party, unsigned version) {
    sender_block(message, book, party, version, 2);
    series_block(message + BLOCK, book, 1, version, 2, 1, 9999900);
    series_block(message + 2 * BLOCK, book, 2, 1, party, 3, 0);
    seal_message();
}

static void verdict(const char *what, tetherbay_verdict v, tetherbay_verdict expected) {
    is_field(what, "number", v.number, expected.number);
    is_field(what, "code", v.code, expected.code);
    is_field(what, "series", v.series, expected.series);
    is_field(what, "position", v.position, expected.position);
    is_field(what, "character", v.character, expected.character);
}

static void submitted(const char *what, tetherbay_verdict expected, size_t looked) {
    tetherbay_submit_answer a = tetherbay_submit(book, sizeof book, message, sizeof message);
    verdict(what, a.verdict, expected);
    is_field(what, "looked", a.looked, looked);
}

/* Both calls answer so, without a look, and the next message is party 2's once more. */
static void refused(const char *what, tetherbay_verdict expected) {
    seal_message();
    verdict(what, tetherbay_judge(book, sizeof book, message, sizeof message), expected);
    submitted(what, expected, 0);
    write_message(2, 1);
}

static void wrong_codes(void) {
    uint8_t *sender = message + 24, *in_party = message + 2 * BLOCK + 56, *out_party = message + 2 * BLOCK + 72;
    write_message(2, 1);
    sender[6] = 'a';
    refused("sender", (tetherbay_verdict){4, 78, 0, 0, 7});
    in_party[0] = 'a';
    refused("in party", (tetherbay_verdict){8, 22, 2, 0, 1});
    out_party[14] = 'a';
    refused("out party", (tetherbay_verdict){8, 22, 2, 0, 15});
    in_party[15] ^= 1;
    out_party[0] = 'a';
    refused("both parties", (tetherbay_verdict){8, 22, 2, 0, 16});
    memcpy(out_party, in_party, 16);
    refused("parties equal", (tetherbay_verdict){8, 22, 2, 0, 0});
    memcpy(in_party, eic(4), 16);
    refused("neither the sender", (tetherbay_verdict){8, 22, 2, 0, 0});
}

static void mark(const char *what, unsigned party, const char *id, tetherbay_mark_answer expected) {
    uint8_t sender[16], field[16] = {0};
    memcpy(sender, eic(party), 16);
    memcpy(field, id, strlen(id));
    tetherbay_mark_answer m = tetherbay_mark(book, sizeof book, sender, 16, field, 16);
    is_field(what, "number", m.number, expected.number);
    is_field(what, "differ", m.differ, expected.differ);
    is_field(what, "code", m.code, expected.code);
    is_field(what, "first", m.first, expected.first);
    is_field(what, "partner", m.partner, expected.partner);
}

static void submissions(void) {
    write_message(1, 1);
    submitted("submit", (tetherbay_verdict){0, 1, 0, 0, 0}, 3); /* its own three slots, into which it has just come */
    tetherbay_part p = tetherbay_series(message, sizeof message, 2);
    is("series, offset", p.offset, 2 * BLOCK);
    is("series, length", p.length, BLOCK);
    p = tetherbay_series(message, sizeof message, 3);
    is("series past the last, offset", p.offset, 0);
    is("series past the last, length", p.length, 0);

    wrong_codes();
    put(message + 2 * BLOCK + 108 + 4 * 98, 4, 0x80000000);
    refused("top bit", (tetherbay_verdict){11, 46, 2, 99, 0});

    submitted("submit the other side", (tetherbay_verdict){0, 1, 0, 0, 0}, 6);
    mark("mark agreeing", 2, "SERIES-0001", (tetherbay_mark_answer){0, 0, 0, 0, 2});
    mark("mark agreeing, the other side", 1, "SERIES-0001", (tetherbay_mark_answer){0, 0, 0, 0, 5});

    write_message(2, 2);
    put(message + BLOCK + 108 + 4 * 97, 4, 7);
    put(message + BLOCK + 108 + 4 * 99, 4, 7);
    seal_message();
    submitted("submit a change", (tetherbay_verdict){0, 1, 0, 0, 0}, 6); /* no slot more is used */
    submitted("submit it again", (tetherbay_verdict){6, 51, 0, 0, 0}, 0);
}

static void settled(const char *what, unsigned party, size_t position, tetherbay_settled_answer expected) {
    tetherbay_settled_answer s = tetherbay_settled(book, sizeof book, eic(party), 16, position);
    is_field(what, "number", s.number, expected.number);
    is_field(what, "bought", s.bought, expected.bought);
    is_field(what, "sold", s.sold, expected.sold);
}

/* Slots 1 to 6: party 1 and its two series, party 2 and its two. They differ at positions 98 and 100. */
static void readings(void) {
    uint8_t one[16], two[16], id[16] = "SERIES-0001", text[400];
    memcpy(one, eic(1), 16);
    memcpy(two, eic(2), 16);
    mark("mark", 2, "SERIES-0001", (tetherbay_mark_answer){0, 2, 9, 98, 2});
    mark("mark alone", 2, "SERIES-0002", (tetherbay_mark_answer){0, 0, 28, 0, 0});
    mark("mark, 23", 2, "SERIES-0003", (tetherbay_mark_answer){23, 0, 0, 0, 0});
    is("mark, a short id", tetherbay_mark(book, sizeof book, two, 16, id, 15).number, 23);
    tetherbay_part p = tetherbay_accepted_block(book, sizeof book, two, 16, id, 16);
    is("accepted block, offset", p.offset, 5 * BLOCK);
    is("accepted block, length", p.length, BLOCK);
    is("final, 25", tetherbay_final(book, sizeof book, one, 16, two, 16, 100).number, 25);
    settled("settled, 25", 2, 100, (tetherbay_settled_answer){25, 0, 0});

    tetherbay_clock_answer c = tetherbay_clock(book, sizeof book, 11580);
    is("clock, number", c.number, 0);
    is("clock, n", c.state.n, 100);
    is("clock, lead", c.state.lead, 1440);
    is("clock, minute", c.state.clock, 11580);
    c = tetherbay_clock(book, sizeof book, 65535);
    is("clock, 22", c.number, 22);
    is("clock kept", c.state.clock, 11580);

    tetherbay_final_answer f = tetherbay_final(book, sizeof book, one, 16, two, 16, 100);
    is("final, number", f.number, 0);
    is("final, the lesser", f.kilowatts, 7);
    is("final where both agree", tetherbay_final(book, sizeof book, one, 16, two, 16, 99).kilowatts, 9999998);
    f = tetherbay_final(book, sizeof book, eic(3), 16, two, 16, 100);
    is("final of a lone side, number", f.number, 0);
    is("final of a lone side", f.kilowatts, 0);
    settled("settled, the buyer", 2, 100, (tetherbay_settled_answer){0, 7, 0}); /* once, though both sides keep the trade */
    settled("settled, the seller", 1, 100, (tetherbay_settled_answer){0, 0, 7});
    settled("settled, no sender", 3, 100, (tetherbay_settled_answer){0, 0, 0}); /* sells to both, who alone keep it */
    settled("settled where both agree", 2, 99, (tetherbay_settled_answer){0, 9999998, 0});
    settled("settled, in no trade", 4, 100, (tetherbay_settled_answer){0, 0, 0});
    settled("settled, 24", 2, SIZE_MAX, (tetherbay_settled_answer){24, 0, 0});
    is("settled, a short name", tetherbay_settled(book, sizeof book, two, 15, 100).bought, 0);
    is("settled, 1", tetherbay_settled(book, sizeof book - 1, two, 16, 100).number, 1);
    book[6] = TETHERBAY_SELLERS; /* as a book on file has it */
    tetherbay_seal(book, BLOCK);
    is("final, the seller's", tetherbay_final(book, sizeof book, one, 16, two, 16, 100).kilowatts, 9999999);
    settled("settled by the seller's rule, the buyer", 2, 100, (tetherbay_settled_answer){0, 9999999, 0});
    settled("settled by the seller's rule, the seller", 1, 100, (tetherbay_settled_answer){0, 0, 9999999});
    book[6] = TETHERBAY_LESSER;
    tetherbay_seal(book, BLOCK);
    is("final, 24", tetherbay_final(book, sizeof book, one, 16, two, 16, SIZE_MAX).number, 24);
    is("final, 26", tetherbay_final(book, sizeof book, two, 16, one, 16, 1).number, 26);
    is("plain run, number", tetherbay_plain_run(book, sizeof book).number, 0);
    is("plain run, holds", tetherbay_plain_run(book, sizeof book).holds, true);
    is("listing, length", tetherbay_listing(book, sizeof book, text, sizeof text), 47 + 2 * 72 + 2 * 71);
    is("listing, a buffer too short", tetherbay_listing(book, sizeof book, text, 46), 0);
}

/* The book with a state in byte 104 of each series, all nets and the rest of the marks false, is converted to the book. */
static void conversions(void) {
    static uint8_t before[sizeof book];
    memcpy(before, book, sizeof book);
    is("convert a book of the present layout", tetherbay_convert(book, sizeof book), 1);
    is("convert refused, a byte written", (uint64_t)memcmp(book, before, sizeof book), 0);
    for (size_t slot = 1; slot <= 6; slot++) {
        uint8_t *b = book + BLOCK * slot;
        if (b[0] == 2) put(b + 104, 4, 3 | 7 << 8 | 5 << 16);
        else memset(b + 108, 1, 4 * 100);
        tetherbay_seal(b, BLOCK);
    }
    is("plain run, false", tetherbay_plain_run(book, sizeof book).holds, false);
    is("convert", tetherbay_convert(book, sizeof book), 0);
    is("converted", (uint64_t)memcmp(book, before, sizeof book), 0);
}

/* ---- rights and external schedules, in a new book of seven slots: the right, party 1 and its two series, party 2 and its two */

static uint8_t right[2 * BLOCK];

/* A right of party 1 to bring in 2,000 kW at the first position and two more at each that follows. */
static void write_right(void) {
    right_block(right, book, 1, 1, true, 2000, 2);
    tetherbay_seal(right, BLOCK);
}

/* On a refusal the book stays as it was, and the next right is party 1's once more. */
static void enter_refused(const char *what, size_t length, uint32_t number) {
    static uint8_t before[sizeof book];
    memcpy(before, book, sizeof book);
    is(what, tetherbay_enter_right(book, sizeof book, right, length), number);
    is_field(what, "a byte written", (uint64_t)memcmp(book, before, sizeof book), 0);
    write_right();
}

static void altered(const char *what, size_t at, uint8_t byte) {
    right[at] = byte;
    tetherbay_seal(right, BLOCK);
    enter_refused(what, BLOCK, 40);
}

static void malformed(void) {
    write_right();
    altered("enter, another kind", 0, 2);
    altered("enter, another n", 1, 96);
    altered("enter, a version", 2, 1);
    altered("enter, another business type", 4, 6);
    altered("enter, contract type 0", 5, 0);
    altered("enter, contract type 100", 5, 100);
    altered("enter, a slot", 7, 1);
    altered("enter, an id", 8, 'A');
    altered("enter, no area ours", 24, '9');
    memcpy(right + 40, book + 24, 16);
    altered("enter, both areas ours", 0, 4);
    altered("enter, the other area no EIC", 55, '-');
    memcpy(right + 72, eic(2), 16);
    altered("enter, two holders", 0, 4);
    memset(right + 56, '0', 32);
    altered("enter, a holder that is no EIC", 0, 4);
    altered("enter, no agreement", 88, 0);
    altered("enter, a mark", 104, 1);
    altered("enter, a limit above 9,999,999", 108 + 4 * 99 + 2, 0x99);
    right[508] ^= 1;
    enter_refused("enter, a wrong check", BLOCK, 40);
    enter_refused("enter, no byte", 0, 40);
    enter_refused("enter, a byte short", BLOCK - 1, 40);
    enter_refused("enter, a byte long", BLOCK + 1, 40);
    enter_refused("enter, two blocks", 2 * BLOCK, 40);
}

/* The block as given in slot 1, and no other byte. */
static void entered(void) {
    static uint8_t expected[sizeof book];
    memcpy(expected, book, sizeof book);
    write_right();
    memcpy(expected + BLOCK, right, BLOCK);
    is("enter", tetherbay_enter_right(book, sizeof book, right, BLOCK), 0);
    is("entered", (uint64_t)memcmp(book, expected, sizeof book), 0);
    enter_refused("enter it again", BLOCK, 40);
    right_block(right, book, 1, 1, true, 7, 0);
    tetherbay_seal(right, BLOCK);
    enter_refused("enter it with other limits", BLOCK, 40);
}

/* Two schedules of a party on the right of party 1, at its limit together at each position. The second has the parties of a trade. */
static void write_on_right(unsigned party, unsigned version) {
    sender_block(message, book, party, version, 2);
    external_block(message + BLOCK, book, 1, version, party, party, true, 1200);
    external_block(message + 2 * BLOCK, book, 2, version, 2, 1, true, 800);
    for (size_t k = 1; k <= 2; k++) name_right(message + BLOCK * k, book, 1, true);
    seal_message();
}

static void judged(const char *what, tetherbay_verdict expected) {
    seal_message();
    verdict(what, tetherbay_judge(book, sizeof book, message, sizeof message), expected);
    submitted(what, expected, 0);
    write_on_right(1, 1);
}

static void on_rights(void) {
    uint8_t *first = message + BLOCK, *second = message + 2 * BLOCK;
    write_on_right(2, 1);
    judged("a right that another holds", (tetherbay_verdict){18, 59, 1, 0, 0});
    second[5] = 99;
    judged("another contract type", (tetherbay_verdict){18, 59, 2, 0, 0});
    second[101] = 'X';
    judged("another agreement", (tetherbay_verdict){18, 59, 2, 0, 0});
    cross_border(second, book, false);
    judged("another direction", (tetherbay_verdict){18, 59, 2, 0, 0});
    put(first + 108 + 4 * 4, 4, 2000 + 2 * 4 + 1);
    judged("one above the limit", (tetherbay_verdict){19, 59, 1, 5, 0});
    put(second + 108 + 4 * 99, 4, 800 + 99 + 1);
    put(second + 108 + 4 * 97, 4, 800 + 97 + 1);
    judged("one above it together", (tetherbay_verdict){19, 59, 2, 98, 0});
    memcpy(second + 40, book + 24, 16);
    judged("both areas ours", (tetherbay_verdict){9, 23, 2, 0, 0});
    second[88] = 0;
    judged("a schedule on no agreement", (tetherbay_verdict){10, 62, 2, 0, 0});
    second[4] = 6;
    judged("capacity without a right", (tetherbay_verdict){10, 62, 2, 0, 0});
    second[4] = 2;
    judged("a trade over the border", (tetherbay_verdict){9, 23, 2, 0, 0});
    memcpy(second + 56, first + 56, 32);
    judged("one key twice", (tetherbay_verdict){7, 55, 2, 0, 0});
    submitted("submit at the limit", (tetherbay_verdict){0, 1, 0, 0, 0}, 4); /* the right is looked at too */
    write_on_right(1, 2);
    external_block(first, book, 1, 2, 1, 1, true, 1200);
    judged("an id with another key", (tetherbay_verdict){7, 55, 1, 0, 0});
}

/* A purchase from party 1, which keeps no trade of the two, and a schedule out of the area with the sender on both sides. */
static void without_capacity(void) {
    sender_block(message, book, 2, 1, 2);
    series_block(message + BLOCK, book, 1, 1, 2, 1, 500);
    external_block(message + 2 * BLOCK, book, 2, 1, 2, 2, false, 700);
    seal_message();
    submitted("submit without capacity", (tetherbay_verdict){0, 1, 0, 0, 0}, 7);
    is("net, both on the right", number(book + 2 * BLOCK + 108 + 4 * 99, 4), 2000 + 2 * 99);
    is("net, bought less gone out", number(book + 5 * BLOCK + 108 + 4 * 99, 4), UINT32_MAX - 199);
}

static void external_readings(void) {
    uint8_t one[16], two[16], id[16] = "SERIES-0002", text[400];
    memcpy(one, eic(1), 16);
    memcpy(two, eic(2), 16);
    mark("mark on a right", 1, "SERIES-0001", (tetherbay_mark_answer){0, 0, 28, 0, 0});
    mark("mark on a right, a trade's parties", 1, "SERIES-0002", (tetherbay_mark_answer){0, 0, 28, 0, 0});
    mark("mark of the trade", 2, "SERIES-0001", (tetherbay_mark_answer){0, 0, 28, 0, 0});
    mark("mark without capacity", 2, "SERIES-0002", (tetherbay_mark_answer){0, 0, 28, 0, 0});
    is("accepted block without capacity", tetherbay_accepted_block(book, sizeof book, two, 16, id, 16).offset, 7 * BLOCK);
    is("listing with schedules, length", tetherbay_listing(book, sizeof book, text, sizeof text), 47 + 4 * 71);
    is("clock, number", tetherbay_clock(book, sizeof book, 11580).number, 0);
    tetherbay_final_answer f = tetherbay_final(book, sizeof book, one, 16, two, 16, 1);
    is("final beside a schedule, number", f.number, 0);
    is("final beside a schedule", f.kilowatts, 0); /* the lesser: no trade of the seller's */
    is("final on a right, 26", tetherbay_final(book, sizeof book, one, 16, one, 16, 1).number, 26);
    is("final without capacity, 26", tetherbay_final(book, sizeof book, two, 16, two, 16, 1).number, 26);
    is("plain run with schedules", tetherbay_plain_run(book, sizeof book).holds, true);
}

/* No slot is free: a right that is malformed, or kept already, is told so before that. */
static void full(void) {
    static uint8_t before[sizeof book];
    right_block(right, book, 1, 1, false, 2000, 2);
    tetherbay_seal(right, BLOCK);
    enter_refused("enter into a full book", BLOCK, 17);
    enter_refused("enter it again, no slot free", BLOCK, 40);
    enter_refused("enter, a byte short, no slot free", BLOCK - 1, 40);
    memcpy(before, book, sizeof book);
    old_layout(book, sizeof book);
    is("convert with rights", tetherbay_convert(book, sizeof book), 0);
    is("converted with rights", (uint64_t)memcmp(book, before, sizeof book), 0);
}

static void rights(void) {
    opened("open for rights", tetherbay_open(book, sizeof book, 100, 0, bytes("20190131"), 8, bytes("10YAT-APG------L"), 16, bytes("14XAT-APCS-----Q"), 16), 0, 0);
    malformed();
    entered();
    on_rights();
    without_capacity();
    external_readings();
    full();
}

int main(void) {
    leaves();
    openings();
    submissions();
    readings();
    conversions();
    rights();
    is("sound", tetherbay_sound(book, sizeof book), true);
    put(book + 6, 1, 2);
    tetherbay_seal(book, BLOCK);
    is("sound, a third rule", tetherbay_sound(book, sizeof book), false);
    put(book + 6, 2, TETHERBAY_LESSER | 1 << 8);
    tetherbay_seal(book, BLOCK);
    is("sound, a byte that must be 0", tetherbay_sound(book, sizeof book), false);
    submitted("submit, 1", (tetherbay_verdict){1, 0, 0, 0, 0}, 0);
    enter_refused("enter, 1", BLOCK, 1);
    enter_refused("enter no byte, 1", 0, 1);
    is("plain run, 1", tetherbay_plain_run(book, sizeof book).number, 1);
    is("plain run, 1, holds", tetherbay_plain_run(book, sizeof book).holds, false);
    printf("%u answers asked for, %u wrong\n", asked, wrong);
    return wrong != 0;
}
