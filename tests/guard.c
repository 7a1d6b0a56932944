/* guard [SEED [CALLS]]: calls every export, over and over, with buffers that end where a page without access begins, or begin where one ends; what a call only
   reads stands in pages that can't be written. A byte read or written outside a lent buffer ends the program with the name of the call. Books and messages
   are sound ones, nearly sound ones and random bytes of every length, so that refusals and acceptances of all depths occur. */
#define _GNU_SOURCE
#include "../bench/full_book.h"
#include <signal.h>
#include <sys/mman.h>
#include <unistd.h>

/* A multiple of the page size of any machine that may emulate this one. */
enum { PAGE = 65536, LONGEST = 16 * PAGE, MARGIN = 256, PARTIES = 6, RIGHTS = 4 };

static const char *calling = "none";
static char said[64];

static void fail(const char *what) {
    printf("guard: %s in %s\n", what, calling);
    exit(1);
}

static void faulted(int signal) {
    (void)signal;
    int length = snprintf(said, sizeof said, "guard: a fault in %s\n", calling);
    _exit(write(1, said, (size_t)length) < 0 ? 2 : 1);
}

/* ---- chance */

static uint64_t seed = 1;

static uint32_t below(uint32_t n) {
    seed ^= seed << 13;
    seed ^= seed >> 7;
    seed ^= seed << 17;
    return (uint32_t)((seed >> 16) % n);
}

static bool one_in(uint32_t n) { return below(n) == 0; }

static void random_bytes(uint8_t *at, size_t length) {
    for (size_t i = 0; i < length; i++) at[i] = (uint8_t)below(256);
}

/* ---- buffers between pages without access: `fill` is the test's own view of what is lent at `lent` */

typedef struct {
    uint8_t *fill, *lent;
    size_t room, at, length;
} arena;

static arena make_arena(size_t room, bool writable) {
    arena a = {.room = room};
    int file = memfd_create("lent", 0);
    if (file < 0 || ftruncate(file, (off_t)room)) fail("no memory");
    uint8_t *whole = mmap(0, room + 3 * PAGE, PROT_NONE, MAP_PRIVATE | MAP_ANONYMOUS, -1, 0);
    if (whole == MAP_FAILED) fail("no memory");
    whole += PAGE - (uintptr_t)whole % PAGE;
    a.fill = mmap(0, room, PROT_READ | PROT_WRITE, MAP_SHARED, file, 0);
    a.lent = mmap(whole + PAGE, room, writable ? PROT_READ | PROT_WRITE : PROT_READ, MAP_SHARED | MAP_FIXED, file, 0);
    if (a.fill == MAP_FAILED || a.lent == MAP_FAILED) fail("no memory");
    close(file);
    return a;
}

/* The bytes beside a lent buffer, on the side where no guard stands. */
static uint8_t *margin(const arena *a) { return a->at ? a->fill + a->at - MARGIN : a->fill + a->length; }

static uint8_t *lend(arena *a, const uint8_t *content, size_t length) {
    a->length = length;
    a->at = one_in(2) ? 0 : a->room - length;
    memcpy(a->fill + a->at, content, length);
    memset(margin(a), 0xa5, MARGIN);
    return a->lent + a->at;
}

static void check_margin(const arena *a) {
    for (size_t i = 0; i < MARGIN; i++)
        if (margin(a)[i] != 0xa5) fail("a byte written outside the buffer");
}

static arena read_book, written_book, read_message, fields[3], written_text;

/* ---- the desk: a sound book that grows by the messages it accepts and the rights that are entered */

static uint8_t desk[MOST_BLOCKS * BLOCK], message[(MOST_SERIES + 1) * BLOCK], right[BLOCK], content[LONGEST];
static size_t desk_length, message_length;

static bool is_closed(unsigned position) { return number(desk + 4, 2) + number(desk + 2, 2) > 15 * (position - 1) + 10080; }

static const uint8_t *stored_sender(const uint8_t *code) {
    for (size_t at = BLOCK; at < desk_length; at += BLOCK)
        if (desk[at] == 1 && !memcmp(desk + at + 24, code, 16)) return desk + at;
    return 0;
}

static void add_series(const uint8_t *series) {
    if (message_length == sizeof message) return;
    memcpy(message + message_length, series, BLOCK);
    message_length += BLOCK;
}

/* A series whose id does not stand in the message yet. */
static void add_new(const uint8_t *series) {
    for (size_t at = BLOCK; at < message_length; at += BLOCK)
        if (!memcmp(message + at + 8, series + 8, 16)) return;
    add_series(series);
}

/* A new series has 0 at each closed position, and here and there at an open one. */
static void clear_closed(uint8_t *series) {
    for (unsigned p = 1; p <= desk[1]; p++)
        if (is_closed(p) || one_in(200)) put(series + 104 + 4 * p, 4, 0);
}

/* The sender's stored series again, each changed at the last position or not, and one in many left out. */
static void repeat_series(const uint8_t *sender, unsigned version) {
    uint8_t x[BLOCK];
    for (size_t at = BLOCK; at < desk_length; at += BLOCK) {
        if (desk[at] != 2 || desk + BLOCK * number(desk + at + 6, 2) != sender || one_in(80)) continue;
        memcpy(x, desk + at, BLOCK);
        put(x + 6, 2, 0);
        put(x + 104, 4, 0);
        if (!is_closed(desk[1]) && one_in(2)) {
            put(x + 108 + 4 * (desk[1] - 1u), 4, 1 + (number(x + 108 + 4 * (desk[1] - 1u), 4) + below(1000)) % 9999999);
            put(x + 2, 2, version);
        }
        add_series(x);
    }
}

/* The trades of a party with the others, each bought or sold, as far as none is stored under that id. */
static void new_series(unsigned party, unsigned version, unsigned many) {
    uint8_t x[BLOCK];
    for (unsigned other = 0; other < many; other++) {
        bool bought = one_in(2);
        unsigned k = 2 * other + bought, buyer = bought ? party : other, seller = bought ? other : party;
        if (other == party) continue;
        series_block(x, desk, k, version, buyer, seller, 1000 * (buyer + seller));
        clear_closed(x);
        add_new(x);
    }
}

/* One of the rights that a party holds at the desk, if it holds any. */
static const uint8_t *held_right(const uint8_t *holder) {
    const uint8_t *held = 0;
    uint32_t many = 0;
    for (size_t at = BLOCK; at < desk_length; at += BLOCK)
        if (desk[at] == 4 && !memcmp(desk + at + 56, holder, 16) && one_in(++many)) held = desk + at;
    return held;
}

/* Schedules of a party over the border, each without capacity or on a right, which it may not hold or whose limits may be lower. An id tells which of them it is:
   two on one right have different parties. */
static void new_schedules(unsigned party, unsigned version) {
    uint8_t x[BLOCK];
    for (unsigned many = 1 + below(3); many; many--) {
        bool in = one_in(2), alone = one_in(2);
        unsigned k = below(RIGHTS + 1);
        const uint8_t *held = held_right(eic(party));
        if (held && !one_in(4)) {
            in = !memcmp(held + 24, desk + 24, 16);
            k = held[5] - 1u;
        }
        external_block(x, desk, 1000 + 4 * k + 2 * alone + in, version, party, alone ? party : PARTIES, in, below(1200));
        if (k) name_right(x, desk, k, in);
        clear_closed(x);
        add_new(x);
    }
}

/* The next message of some party, which the desk accepts where it has room and no series was left out. */
static void next_message(void) {
    unsigned party = below(PARTIES);
    const uint8_t *stored = stored_sender(eic(party));
    unsigned version = stored ? number(stored + 2, 2) + 1 : 1;
    message_length = BLOCK;
    if (stored) repeat_series(stored, version);
    if (!stored || one_in(4)) new_series(party, version, one_in(40) ? 110 : 1 + below(PARTIES));
    if (one_in(4)) new_schedules(party, version);
    if (message_length == BLOCK) new_series(party, version, PARTIES);
    sender_block(message, desk, party, version, (unsigned)(message_length / BLOCK - 1));
    for (size_t at = 0; at < message_length; at += BLOCK) tetherbay_seal(message + at, BLOCK);
}

/* ---- contents to lend */

/* A length near an edge, or any up to two blocks. */
static size_t some_length(size_t longest) {
    static const size_t edges[] = {0, 1, 15, 16, 17, 507, 508, 511, 512, 513, 1023, 1024, 1025, 1536, 102911, 102912, 102913, 103424, 512511, 512512, 512513, 513024};
    size_t length = one_in(2) ? edges[below(sizeof edges / sizeof *edges)] : below(1100);
    return length <= longest ? length : below((uint32_t)longest + 1);
}

/* Whole blocks as they are, or altered in a byte, or in their length; or random bytes. */
static size_t shape(const uint8_t *blocks, size_t length) {
    uint32_t way = below(16);
    if (way == 0) {
        length = some_length(LONGEST / 2);
        random_bytes(content, length);
        return length;
    }
    memcpy(content, blocks, length);
    if (way < 5) {
        uint8_t *block = content + BLOCK * below((uint32_t)(length / BLOCK));
        block[one_in(2) ? below(108) : below(BLOCK)] ^= (uint8_t)(1 << below(8));
        if (way < 4) tetherbay_seal(block, BLOCK);
    }
    if (way == 5) length -= 1 + below(BLOCK);
    if (way == 6) {
        size_t more = 1 + below(BLOCK);
        memset(content + length, 0, more);
        length += more;
    }
    return length;
}

static size_t lent_length;

static uint8_t *lend_book(arena *a) {
    lent_length = shape(desk, desk_length);
    return lend(a, content, lent_length);
}

static size_t lent_message_length;

static const uint8_t *lend_message(void) {
    if (one_in(8) || !message_length) next_message();
    lent_message_length = shape(message, message_length);
    return lend(&read_message, content, lent_message_length);
}

/* Into arena 0: a right of a party, which the desk may hold with these limits or others; altered now and then, or of a length beside a block's. */
static const uint8_t *lend_right(void) {
    static const size_t edges[] = {0, 511, 512, 513};
    right_block(right, desk, 1 + below(RIGHTS), below(PARTIES), one_in(2), 1000 * (1 + below(3)), below(3));
    tetherbay_seal(right, BLOCK);
    size_t length = shape(right, BLOCK);
    if (length > PAGE - MARGIN || one_in(8)) length = edges[below(4)];
    return lend(&fields[0], content, length);
}

/* Into arena f: a party's EIC, a field of a slot of the desk, or random bytes. */
static const uint8_t *lend_field(size_t f, size_t in_block) {
    size_t length = one_in(8) ? some_length(MARGIN) : 16;
    random_bytes(content, length > 16 ? length : 16);
    if (one_in(3)) memcpy(content, eic(below(PARTIES + 2)), 16);
    else if (!one_in(8)) memcpy(content, desk + BLOCK * below((uint32_t)(desk_length / BLOCK)) + in_block, 16);
    return lend(&fields[f], content, length);
}

/* ---- the calls */

static void call_check(void) {
    const uint8_t *b = lend_book(&read_book);
    tetherbay_check(b, lent_length);
}

static void call_checks_right(void) {
    const uint8_t *b = lend_book(&read_book);
    tetherbay_checks_right(b, lent_length);
}

static void call_seal(void) {
    uint8_t *b = lend_book(&written_book);
    tetherbay_seal(b, lent_length < BLOCK || one_in(4) ? lent_length : BLOCK);
}

static void call_id_well_formed(void) {
    const uint8_t *id = lend_field(0, 8);
    tetherbay_id_well_formed(id, fields[0].length);
}

static void call_eic(void) {
    const uint8_t *code = lend_field(0, 24);
    if (tetherbay_eic(code, fields[0].length) > 16) fail("a character behind the sixteenth");
}

static void call_eic_valid(void) {
    const uint8_t *code = lend_field(0, 24);
    tetherbay_eic_valid(code, fields[0].length);
}

static void call_quantity_read(void) {
    static const char characters[] = "0123456789.-x";
    size_t length = one_in(4) ? some_length(MARGIN) : below(12);
    for (size_t i = 0; i < length; i++) content[i] = (uint8_t)characters[one_in(3) ? below(13) : below(10)];
    const uint8_t *text = lend(&fields[0], content, length);
    tetherbay_quantity_read(text, length);
}

static void call_quantity_print(void) {
    size_t length = one_in(4) ? some_length(MARGIN) : below(12);
    random_bytes(content, length);
    uint8_t *text = lend(&written_text, content, length);
    tetherbay_quantity_print(one_in(2) ? below(10000100) : below(5000), text, length);
}

static void call_reason_code(void) { tetherbay_reason_code(one_in(4) ? (uint32_t)seed : below(48)); }

static void call_reply(void) { tetherbay_reply(one_in(4) ? (uint32_t)seed : below(48)); }

static void call_sound(void) {
    const uint8_t *b = lend_book(&read_book);
    tetherbay_sound(b, lent_length);
}

/* What the book held is of no account, but its length and the parameters are. */
static void open_lent(bool by) {
    static const uint8_t days[] = {92, 96, 100};
    uint8_t *b = lend_book(&written_book);
    memcpy(content, "20190131", 8);
    if (one_in(8)) content[below(8)] = (uint8_t)below(256);
    const uint8_t *day = lend(&fields[0], content, one_in(8) ? below(17) : 8);
    const uint8_t *area = lend_field(1, 24), *receiver = lend_field(2, 40);
    uint8_t n = one_in(8) ? (uint8_t)below(256) : days[below(3)];
    uint16_t lead = (uint16_t)(one_in(8) ? below(65536) : below(1441));
    if (by) {
        uint8_t rule = one_in(4) ? (uint8_t)below(256) : (uint8_t)below(2);
        tetherbay_open_by(b, lent_length, n, lead, rule, day, fields[0].length, area, fields[1].length, receiver, fields[2].length);
    } else tetherbay_open(b, lent_length, n, lead, day, fields[0].length, area, fields[1].length, receiver, fields[2].length);
}

static void call_open(void) { open_lent(false); }
static void call_open_by(void) { open_lent(true); }

static uint32_t conversions[2];

/* What a conversion makes of the desk's old layout is the desk. */
static void call_convert(void) {
    uint8_t *b = lend_book(&written_book);
    bool own = lent_length == desk_length && !memcmp(b, desk, desk_length);
    if (!one_in(4)) old_layout(b, lent_length);
    uint32_t number = tetherbay_convert(b, lent_length);
    conversions[number]++;
    if (!number && own && memcmp(b, desk, desk_length)) fail("a mark or a net that is not the desk's");
}

/* A book whose every slot is used, up to either edge. */
static void convert_full_books(void) {
    calling = "tetherbay_convert";
    make_book(20, SLOTS);
    for (int turn = 0; turn < 16; turn++) {
        uint8_t *b = lend(&written_book, book, sizeof book);
        old_layout(b, sizeof book);
        if (tetherbay_convert(b, sizeof book)) fail("a full book refused");
        if (memcmp(b, book, sizeof book)) fail("a mark or a net that is not the book's");
        check_margin(&written_book);
    }
}

static void call_clock(void) {
    uint8_t *b = lend_book(&written_book);
    tetherbay_clock(b, lent_length, (uint16_t)(one_in(4) ? below(65536) : below(12000)));
}

static size_t used_slots(const uint8_t *b) {
    size_t slot = 1;
    while (BLOCK * slot < lent_length && b[BLOCK * slot]) slot++;
    return slot - 1;
}

static uint32_t enterings[41];

/* What stands in the last used slot is the right as it is lent. Some of those that the desk itself takes stay there from then on. */
static void call_enter_right(void) {
    const uint8_t *r = lend_right();
    uint8_t *b = lend_book(&written_book);
    bool own = lent_length == desk_length && !memcmp(b, desk, desk_length);
    uint32_t number = tetherbay_enter_right(b, lent_length, r, fields[0].length);
    enterings[number]++;
    if (number) return;
    if (memcmp(b + BLOCK * used_slots(b), r, BLOCK)) fail("a right that is not as it was lent");
    if (own && one_in(3)) memcpy(desk, b, desk_length);
}

/* A right of each length about a block's, up to either edge, for a book with one free slot. */
static void enter_each_length(void) {
    static const size_t lengths[] = {0, 511, 512, 513};
    calling = "tetherbay_enter_right";
    used = 0;
    make_book(20, SLOTS - 1);
    for (size_t turn = 0; turn < 64; turn++) {
        size_t length = lengths[turn % 4];
        memset(content, 0, 2 * BLOCK);
        right_block(content, book, 1, 1, true, 1000, 1);
        tetherbay_seal(content, BLOCK);
        const uint8_t *r = lend(&fields[0], content, length);
        uint8_t *b = lend(&written_book, book, sizeof book), *last = b + BLOCK * SLOTS;
        uint32_t number = tetherbay_enter_right(b, sizeof book, r, length);
        if (number != (length == BLOCK ? 0 : 40)) fail("a right of another length taken, or one of a block's refused");
        if (memcmp(b, book, BLOCK * SLOTS)) fail("a slot altered that was used");
        if (memcmp(last, number ? book + BLOCK * SLOTS : r, BLOCK)) fail("a free slot that is not as it should be");
        check_margin(&written_book);
    }
}

static uint32_t verdicts[20], on_rights;

/* Whether a series of the message is sent on a right. */
static bool has_capacity(void) {
    for (size_t at = BLOCK; at < message_length; at += BLOCK)
        if (message[at + 4] == 3) return true;
    return false;
}

/* What an acceptance of the desk itself leaves is the desk from then on. */
static void call_submit(void) {
    const uint8_t *m = lend_message();
    uint8_t *b = lend_book(&written_book);
    bool own = lent_length == desk_length && !memcmp(b, desk, desk_length);
    tetherbay_submit_answer a = tetherbay_submit(b, lent_length, m, lent_message_length);
    verdicts[a.verdict.number]++;
    if (a.looked != (a.verdict.number ? 0 : used_slots(b))) fail("looks other than one at each used slot, or on a refusal");
    if (a.verdict.number || !own) return;
    memcpy(desk, b, desk_length);
    on_rights += has_capacity();
    next_message();
}

static void call_judge(void) {
    const uint8_t *m = lend_message(), *b = lend_book(&read_book);
    verdicts[tetherbay_judge(b, lent_length, m, lent_message_length).number]++;
}

static void call_mark(void) {
    const uint8_t *b = lend_book(&read_book), *sender = lend_field(0, 24), *id = lend_field(1, 8);
    tetherbay_mark(b, lent_length, sender, fields[0].length, id, fields[1].length);
}

static void call_accepted_block(void) {
    const uint8_t *b = lend_book(&read_book), *sender = lend_field(0, 24), *id = lend_field(1, 8);
    tetherbay_part p = tetherbay_accepted_block(b, lent_length, sender, fields[0].length, id, fields[1].length);
    if (p.offset + p.length > lent_length) fail("a part outside the buffer");
}

static void call_final(void) {
    const uint8_t *b = lend_book(&read_book), *seller = lend_field(0, 72), *buyer = lend_field(1, 56);
    tetherbay_final(b, lent_length, seller, fields[0].length, buyer, fields[1].length, one_in(8) ? (size_t)seed : below(102));
}

static void call_settled(void) {
    const uint8_t *b = lend_book(&read_book), *party = lend_field(0, 72);
    tetherbay_settled(b, lent_length, party, fields[0].length, one_in(8) ? (size_t)seed : below(102));
}

static void call_plain_run(void) {
    const uint8_t *b = lend_book(&read_book);
    tetherbay_plain_run(b, lent_length);
}

static void call_listing(void) {
    const uint8_t *b = lend_book(&read_book);
    size_t length = one_in(2) ? 6000 : below(6000);
    memset(content, 0, length);
    uint8_t *text = lend(&written_text, content, length);
    tetherbay_listing(b, lent_length, text, length);
}

static void call_series(void) {
    const uint8_t *m = lend_message();
    tetherbay_part p = tetherbay_series(m, lent_message_length, one_in(8) ? (size_t)seed : below(204));
    if (p.offset + p.length > lent_message_length) fail("a part outside the buffer");
}

static const struct {
    const char *name;
    void (*call)(void);
} calls[] = {
    {"tetherbay_check", call_check},
    {"tetherbay_checks_right", call_checks_right},
    {"tetherbay_seal", call_seal},
    {"tetherbay_id_well_formed", call_id_well_formed},
    {"tetherbay_eic", call_eic},
    {"tetherbay_eic_valid", call_eic_valid},
    {"tetherbay_quantity_read", call_quantity_read},
    {"tetherbay_quantity_print", call_quantity_print},
    {"tetherbay_reason_code", call_reason_code},
    {"tetherbay_reply", call_reply},
    {"tetherbay_sound", call_sound},
    {"tetherbay_open", call_open},
    {"tetherbay_open_by", call_open_by},
    {"tetherbay_convert", call_convert},
    {"tetherbay_clock", call_clock},
    {"tetherbay_enter_right", call_enter_right},
    {"tetherbay_submit", call_submit},
    {"tetherbay_judge", call_judge},
    {"tetherbay_mark", call_mark},
    {"tetherbay_accepted_block", call_accepted_block},
    {"tetherbay_final", call_final},
    {"tetherbay_settled", call_settled},
    {"tetherbay_plain_run", call_plain_run},
    {"tetherbay_listing", call_listing},
    {"tetherbay_series", call_series},
};

/* A new desk, most of them small; its clock is moved on while it fills. */
static void open_desk(void) {
    static const uint8_t days[] = {92, 96, 100};
    uint8_t area[16], receiver[16];
    memcpy(area, eic(9000), 16);
    memcpy(receiver, eic(9001), 16);
    desk_length = BLOCK * (size_t)(one_in(20) ? MOST_BLOCKS : one_in(4) ? 2 + below(200) : 2 + below(30));
    if (tetherbay_open(desk, desk_length, days[below(3)], (uint16_t)below(100), (const uint8_t *)"20190131", 8, area, 16, receiver, 16).number) fail("the desk is not opened");
    message_length = 0;
}

int main(int argc, char **argv) {
    if (argc > 1) seed = strtoull(argv[1], 0, 10) * 2 + 1;
    uint64_t least = argc > 2 ? strtoull(argv[2], 0, 10) : 100000, made = 0;
    size_t exports = sizeof calls / sizeof *calls;
    signal(SIGSEGV, faulted);
    signal(SIGBUS, faulted);
    read_book = make_arena(LONGEST, false);
    written_book = make_arena(LONGEST, true);
    read_message = make_arena(LONGEST, false);
    written_text = make_arena(PAGE, true);
    for (size_t f = 0; f < 3; f++) fields[f] = make_arena(PAGE, false);
    lend(&written_book, content, 0);
    lend(&written_text, content, 0);
    convert_full_books();
    enter_each_length();
    for (uint64_t round = 0; made < least; round++) {
        if (round % 60 == 0) open_desk();
        if (round % 60 == 40) tetherbay_clock(desk, desk_length, (uint16_t)(10080 + below(1500)));
        for (size_t c = 0; c < exports; c++, made++) {
            calling = calls[c].name;
            calls[c].call();
            check_margin(&written_book);
            check_margin(&written_text);
        }
        calling = "the desk itself";
        if (!tetherbay_sound(desk, desk_length)) fail("a book that is not sound");
    }
    printf("verdicts 0 to 19, how often:");
    for (size_t v = 0; v < 20; v++) {
        printf(" %u", verdicts[v]);
        calling = "the messages of this run";
        if (!verdicts[v] && made >= 100000) fail("a verdict that never came");
    }
    printf("\nconversions 0 and 1, how often: %u %u\n", conversions[0], conversions[1]);
    if ((!conversions[0] || !conversions[1]) && made >= 100000) fail("a conversion that never came");
    printf("rights 0, 1, 17 and 40, how often: %u %u %u %u\n", enterings[0], enterings[1], enterings[17], enterings[40]);
    printf("messages accepted with schedules on rights: %u\n", on_rights);
    bool all = enterings[0] && enterings[1] && enterings[17] && enterings[40] && on_rights;
    if (!all && made >= 100000) fail("an answer to a right, or a schedule on one, that never came");
    printf("%llu calls of %zu exports, no fault\n", (unsigned long long)made, exports);
    return 0;
}
