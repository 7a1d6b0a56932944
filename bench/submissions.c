/* submissions CASE BOOK MESSAGE [SERIES USED]: writes the book and the message of a case, or the right that is to be entered, to two files, for the programs that
   make the call. The sender, who holds the right, is party 20. No position of the day is closed. The case "changed" takes the number of the sender's series and
   that of the used slots. */
#include "full_book.h"

enum { SENDERS = 20 };

static uint8_t message[(MOST_SERIES + 1) * BLOCK];
static unsigned many;

static void seal_message(void) {
    for (size_t i = 0; i <= many; i++) tetherbay_seal(message + BLOCK * i, BLOCK);
}

/* The first twenty series are sold to the other senders, at their quantities and then by an added kilowatt at other ones; the rest is bought. */
static void make_message(unsigned series, unsigned version, uint32_t added) {
    many = series;
    sender_block(message, book, SENDERS, version, series);
    for (unsigned k = 0; k < series; k++) {
        uint8_t *x = message + BLOCK * (k + 1);
        if (k < SENDERS)
            series_block(x, book, k, version, k, SENDERS, 1000 * (SENDERS - 1 - k) + k % 2 + added);
        else
            series_block(x, book, k, version, SENDERS, k + 1, 1000 * k + added);
    }
    seal_message();
}

static void submit(void) {
    if (tetherbay_submit(book, sizeof book, message, BLOCK * (many + 1)).verdict.number) exit(5);
}

/* The sender has so many series stored among so many used slots, and its message changes all of them. */
static void changed(unsigned series, unsigned slots) {
    make_book(SENDERS, slots - series - 1);
    make_message(series, 1, 0);
    submit();
    make_message(series, 2, 100);
}

static void all_changed(void) { changed(MOST_SERIES, SLOTS); }

static void one_into_empty(void) {
    make_book(0, 0);
    make_message(1, 1, 0);
}

static void one_into_full(void) {
    make_book(SENDERS, SLOTS - 2);
    make_message(1, 1, 0);
}

static void all_new(void) {
    make_book(SENDERS, SLOTS - MOST_SERIES - 1);
    make_message(MOST_SERIES, 1, 0);
}

static void wrong_check(void) {
    all_changed();
    message[BLOCK * many + 508] ^= 1;
}

/* The last series has the first one's id. */
static void id_twice(void) {
    all_changed();
    memcpy(message + BLOCK * many + 8, message + BLOCK + 8, 16);
    seal_message();
}

static void one_absent(void) {
    all_changed();
    make_message(MOST_SERIES - 1, 2, 100);
}

/* The book in its old layout; the message is not asked for. */
static void old(void) {
    all_changed();
    old_layout(book, sizeof book);
}

/* The limits of a right are what its holder's schedules, below, come to at each position where all of them are on it. */
enum { ADDED = 100, LIMIT = (MOST_SERIES - 1) * MOST_SERIES / 2 + ADDED * MOST_SERIES };

/* Right k of the sender, in place of a message. */
static void make_right(unsigned k) {
    many = 0;
    right_block(message, book, k, SENDERS, true, LIMIT, MOST_SERIES);
    seal_message();
}

static void right_into_room(void) {
    make_book(SENDERS, SLOTS - 1);
    make_right(0);
}

static void right_into_full(void) {
    make_book(SENDERS, SLOTS);
    make_right(0);
}

/* As many schedules as a message takes, each with another partner: on so many rights in turn, or without capacity where these are none. */
static void make_schedules(unsigned rights, unsigned version, uint32_t added) {
    many = MOST_SERIES;
    sender_block(message, book, SENDERS, version, many);
    for (unsigned k = 0; k < many; k++) {
        uint8_t *x = message + BLOCK * (k + 1);
        external_block(x, book, k, version, SENDERS, SENDERS + k + 1, true, k + added);
        if (rights) name_right(x, book, k % rights, true);
    }
    seal_message();
}

/* All slots are used, two of them by rights; the schedules are stored, and the message changes all of them. */
static void schedules(unsigned rights) {
    make_book(SENDERS, SLOTS - MOST_SERIES - 3);
    for (unsigned k = 0; k < 2; k++) {
        make_right(k);
        if (tetherbay_enter_right(book, sizeof book, message, BLOCK)) exit(5);
    }
    make_schedules(rights, 1, 0);
    submit();
    make_schedules(rights, 2, ADDED);
}

static void without_capacity(void) { schedules(0); }
static void on_one_right(void) { schedules(1); }
static void on_two_rights(void) { schedules(2); }

/* The last of them is a kilowatt more at the first position. */
static void above_limit(void) {
    on_one_right();
    uint8_t *x = message + BLOCK * many;
    put(x + 108, 4, number(x + 108, 4) + 1);
    seal_message();
}

static const struct {
    const char *name;
    void (*make)(void);
} cases[] = {
    {"one-into-empty", one_into_empty}, {"one-into-full", one_into_full}, {"all-new", all_new}, {"all-changed", all_changed},
    {"wrong-check", wrong_check}, {"id-twice", id_twice}, {"one-absent", one_absent}, {"old", old},
    {"right-into-room", right_into_room}, {"right-into-full", right_into_full},
    {"without-capacity", without_capacity}, {"on-one-right", on_one_right}, {"on-two-rights", on_two_rights}, {"above-limit", above_limit},
};

static void write_file(const char *name, const uint8_t *bytes, size_t length) {
    FILE *f = fopen(name, "wb");
    if (!f || fwrite(bytes, 1, length, f) != length || fclose(f)) exit(6);
}

static int write_case(char **names) {
    write_file(names[0], book, sizeof book);
    write_file(names[1], message, BLOCK * (many + 1));
    return 0;
}

int main(int argc, char **argv) {
    if (argc == 6 && !strcmp(argv[1], "changed")) {
        changed((unsigned)atoi(argv[4]), (unsigned)atoi(argv[5]));
        return write_case(argv + 2);
    }
    if (argc != 4) return 2;
    for (size_t i = 0; i < sizeof cases / sizeof *cases; i++) {
        if (strcmp(cases[i].name, argv[1])) continue;
        cases[i].make();
        return write_case(argv + 2);
    }
    return 2;
}
