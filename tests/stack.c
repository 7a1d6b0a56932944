/* Makes every call on a stack of its own, with TETHERBAY_STACK bytes above a page without access: a call that needs more than the header says ends the
   program with its name. What each used at most is found by paint, and printed. */
#define _GNU_SOURCE
#include "../bench/full_book.h"
#include <signal.h>
#include <sys/mman.h>
#include <ucontext.h>
#include <unistd.h>

/* The page size is a multiple of that of any machine that may emulate this one; OWN is for what this program itself puts on the stack. */
enum { PAGE = 65536, OWN = 1024, ROOM = TETHERBAY_STACK + OWN, PAINT = 0xa5, SMALL = 64 * BLOCK };

static const char *calling = "none";
static uint8_t *stack, handlers[PAGE];

static void faulted(int signal) {
    static char said[64];
    (void)signal;
    int length = snprintf(said, sizeof said, "stack: a fault in %s\n", calling);
    _exit(write(1, said, (size_t)length) < 0 ? 2 : 1);
}

/* A fault of the painted stack is told on another one. */
static void make_stack(void) {
    size_t pages = (ROOM + PAGE - 1) / PAGE * PAGE;
    uint8_t *whole = mmap(0, pages + 2 * PAGE, PROT_NONE, MAP_PRIVATE | MAP_ANONYMOUS, -1, 0);
    if (whole == MAP_FAILED) exit(3);
    whole += PAGE - (uintptr_t)whole % PAGE;
    if (mprotect(whole + PAGE, pages, PROT_READ | PROT_WRITE)) exit(3);
    stack = whole + PAGE;
    stack_t other = {.ss_sp = handlers, .ss_size = sizeof handlers};
    struct sigaction action = {.sa_handler = faulted, .sa_flags = SA_ONSTACK};
    if (sigaltstack(&other, 0) || sigaction(SIGSEGV, &action, 0) || sigaction(SIGBUS, &action, 0)) exit(3);
}

/* How far down the call wrote. */
static size_t used_by(void (*call)(void)) {
    static ucontext_t here, there;
    size_t untouched = 0;
    memset(stack, PAINT, ROOM);
    if (getcontext(&there)) exit(3);
    there.uc_stack.ss_sp = stack;
    there.uc_stack.ss_size = ROOM;
    there.uc_link = &here;
    makecontext(&there, call, 0);
    if (swapcontext(&here, &there)) exit(3);
    while (stack[untouched] == PAINT) untouched++;
    return ROOM - untouched;
}

/* ---- the calls, on a full book and the longest message; the listing's book has 64 blocks */

static uint8_t message[(MOST_SERIES + 1) * BLOCK], right[BLOCK], small[SMALL], text[6000], party[16], other[16], id[16] = "SERIES-0000";
static size_t message_length;
static uint64_t answer;

static const uint8_t *day(void) { return (const uint8_t *)"20190131"; }

static void nothing(void) {}
static void call_check(void) { answer = tetherbay_check(book, BLOCK); }
static void call_checks_right(void) { answer = tetherbay_checks_right(book, sizeof book); }
static void call_seal(void) { answer = tetherbay_seal(message, BLOCK); }
static void call_id_well_formed(void) { answer = tetherbay_id_well_formed(id, 16); }
static void call_eic(void) { answer = tetherbay_eic(party, 16); }
static void call_eic_valid(void) { answer = tetherbay_eic_valid(party, 16); }
static void call_quantity_read(void) { answer = tetherbay_quantity_read((const uint8_t *)"9999.999", 8).number; }
static void call_quantity_print(void) { answer = tetherbay_quantity_print(9999999, text, sizeof text).number; }
static void call_reason_code(void) { answer = tetherbay_reason_code(30); }
static void call_reply(void) { answer = tetherbay_reply(16).kind; }
static void call_sound(void) { answer = tetherbay_sound(book, sizeof book); }
static void call_convert(void) { answer = tetherbay_convert(book, sizeof book); }
static void call_clock(void) { answer = tetherbay_clock(book, sizeof book, 10080).number; }
static void call_enter_right(void) { answer = tetherbay_enter_right(book, sizeof book, right, BLOCK); }
static void call_judge(void) { answer = tetherbay_judge(book, sizeof book, message, message_length).number; }
static void call_submit(void) { answer = tetherbay_submit(book, sizeof book, message, message_length).verdict.number; }
static void call_mark(void) { answer = tetherbay_mark(book, sizeof book, party, 16, id, 16).number; }
static void call_accepted_block(void) { answer = tetherbay_accepted_block(book, sizeof book, party, 16, id, 16).length; }
static void call_final(void) { answer = tetherbay_final(book, sizeof book, other, 16, party, 16, 1).number; }
static void call_settled(void) { answer = tetherbay_settled(book, sizeof book, party, 16, 1).number; }
static void call_plain_run(void) { answer = tetherbay_plain_run(book, sizeof book).number; }
static void call_listing(void) { answer = tetherbay_listing(small, sizeof small, text, sizeof text); }
static void call_series(void) { answer = tetherbay_series(message, message_length, MOST_SERIES).length; }
static void call_open_by(void) { answer = tetherbay_open_by(book, sizeof book, N, 45, TETHERBAY_SELLERS, day(), 8, party, 16, other, 16).number; }
static void call_open(void) { answer = tetherbay_open(book, sizeof book, N, 45, day(), 8, party, 16, other, 16).number; }

/* Those that alter the book come last. */
static struct {
    const char *name;
    void (*call)(void);
    size_t used;
} calls[] = {
    {"tetherbay_check", call_check, 0},
    {"tetherbay_checks_right", call_checks_right, 0},
    {"tetherbay_seal", call_seal, 0},
    {"tetherbay_id_well_formed", call_id_well_formed, 0},
    {"tetherbay_eic", call_eic, 0},
    {"tetherbay_eic_valid", call_eic_valid, 0},
    {"tetherbay_quantity_read", call_quantity_read, 0},
    {"tetherbay_quantity_print", call_quantity_print, 0},
    {"tetherbay_reason_code", call_reason_code, 0},
    {"tetherbay_reply", call_reply, 0},
    {"tetherbay_series", call_series, 0},
    {"tetherbay_listing", call_listing, 0},
    {"tetherbay_sound", call_sound, 0},
    {"tetherbay_mark", call_mark, 0},
    {"tetherbay_accepted_block", call_accepted_block, 0},
    {"tetherbay_final", call_final, 0},
    {"tetherbay_settled", call_settled, 0},
    {"tetherbay_plain_run", call_plain_run, 0},
    {"tetherbay_judge", call_judge, 0},
    {"tetherbay_enter_right", call_enter_right, 0},
    {"tetherbay_submit", call_submit, 0},
    {"tetherbay_convert", call_convert, 0},
    {"tetherbay_clock", call_clock, 0},
    {"tetherbay_open_by", call_open_by, 0},
    {"tetherbay_open", call_open, 0},
};

enum { CALLS = sizeof calls / sizeof *calls };

/* A right of the party whose number is above those in the book. */
static void make_right(unsigned holder) {
    right_block(right, book, 0, holder, true, 1000, 0);
    tetherbay_seal(right, BLOCK);
}

/* A message of that party. The first series are sold to the book's last senders, which keep the other side; the rest is bought, but for the last one, which comes
   over the border on the right. */
static void make_message(unsigned sender, unsigned series, unsigned version) {
    message_length = BLOCK * (size_t)(series + 1);
    sender_block(message, book, sender, version, series);
    for (unsigned k = 0; k < series; k++) {
        bool sold = k < 20 && k < sender;
        series_block(message + BLOCK * (k + 1), book, k, version, sold ? sender - 1 - k : sender, sold ? sender : sender + k + 1, version);
    }
    name_right(message + BLOCK * series, book, 0, true);
    for (size_t at = 0; at < message_length; at += BLOCK) tetherbay_seal(message + at, BLOCK);
}

static void answered(uint32_t number) {
    if (answer == number) return;
    printf("stack: %s is answered %llu, not %u\n", calling, (unsigned long long)answer, number);
    exit(4);
}

static void make_all(size_t own) {
    for (size_t c = 0; c < CALLS; c++) {
        calling = calls[c].name;
        if (calls[c].call == call_convert) old_layout(book, sizeof book);
        size_t used = used_by(calls[c].call) - own;
        if (used > calls[c].used) calls[c].used = used;
        if (calls[c].call == call_convert) answered(0);
    }
}

/* A call that is made before the others, and how it must be answered. */
static void make_first(const char *name, void (*call)(void), uint32_t number, size_t own) {
    calling = name;
    size_t used = used_by(call) - own;
    answered(number);
    for (size_t c = 0; c < CALLS; c++)
        if (calls[c].call == call && used > calls[c].used) calls[c].used = used;
}

/* A book of so many senders, into which the right is entered; the message is new, with its 200 series, where there is room for it, and then changes all of them. */
static void on_a_book(unsigned senders, bool room, size_t own) {
    used = 0;
    make_book(senders, (room ? SLOTS - MOST_SERIES - 1 : SLOTS) - 1);
    make_right(senders);
    make_first("tetherbay_enter_right", call_enter_right, 0, own);
    make_message(senders, MOST_SERIES, 1);
    make_first("tetherbay_submit", call_submit, room ? 0 : 17, own);
    make_message(senders, MOST_SERIES, room ? 2 : 1);
    memcpy(party, eic(room ? senders : 0), 16);
    memcpy(other, eic(1), 16);
    make_all(own);
}

static void make_small_book(void) {
    memcpy(party, eic(9000), 16);
    memcpy(other, eic(9001), 16);
    if (tetherbay_open(small, sizeof small, N, 45, day(), 8, party, 16, other, 16).number) exit(5);
    memcpy(book, small, BLOCK);
    make_right(0);
    if (tetherbay_enter_right(small, sizeof small, right, BLOCK)) exit(5);
    make_message(0, SMALL / BLOCK - 3, 1);
    if (tetherbay_submit(small, sizeof small, message, message_length).verdict.number) exit(5);
}

int main(void) {
    make_stack();
    make_small_book();
    size_t own = used_by(nothing), most = 0;
    static const unsigned senders[] = {5, 20, 100, 399};
    for (size_t i = 0; i < sizeof senders / sizeof *senders; i++)
        for (int room = 0; room < 2; room++) on_a_book(senders[i], room, own);
    for (size_t c = 0; c < CALLS; c++) {
        printf("%6zu %s\n", calls[c].used, calls[c].name);
        if (calls[c].used > most) most = calls[c].used;
    }
    printf("%zu bytes of stack at most, of %d\n", most, TETHERBAY_STACK);
    return most > TETHERBAY_STACK;
}
