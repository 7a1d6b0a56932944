/* The desk's calls for C. Link with crates/export/out/libexport.a (tools/prove export), for x86-64; examples/desk.c is a first lesson.

   A buffer is a pointer and a length in bytes. Every call answers for all contents and all lengths of what it is lent, keeps nothing of it past its
   return, and reads and writes nothing outside it. A pointer may be any but null where its length is 0. crates/export/src has each call's promise as it
   is proved, docs/PROMISES.md the same in words.

   Open, convert, clock, enter_right and submit alter the book that they are lent, seal its block, print and listing their text; no other buffer is altered, and
   no call alters one that is const here. No other buffer of such a call may be the one that it alters, or overlap it: not the day, area or receiver of an opening,
   nor the right that is entered, nor the message of a submission, nor the book that is listed. Buffers that a call only reads may be one, or overlap.

   Where an answer has a number, 0 says that the call did what was asked; any other is a refusal, which leaves every byte of the buffers as it was and
   every other field of the answer 0, unless its comment says otherwise. Seal refuses by false, listing by 0, accepted_block and series by an empty part. A
   position counts from 1, a slot and a series from 1, a minute from 10,080 minutes before the day's start; where an answer has none of them, 0 stands for
   it. A sender, a party and an id are fields of sixteen bytes, an id filled up with zero bytes; nothing is known under a field of another length. */
#ifndef TETHERBAY_H
#define TETHERBAY_H

#include <stdbool.h>
#include <stddef.h>
#include <stdint.h>

/* Bytes of stack that a call needs at most. No call takes other memory than that, nor more of it for a larger buffer. Measured, not proved: submit needs
   most, docs/PERFORMANCE.md has the others. */
#define TETHERBAY_STACK 45056

/* ---- blocks, fields and text */

/* The check over bytes 0 to 507 of a block; of a shorter buffer, over the bytes that there are. */
uint32_t tetherbay_check(const uint8_t *block, size_t length);

/* Whether each whole block of 512 bytes holds its check in bytes 508 to 511. Bytes behind the last whole block are not looked at. */
bool tetherbay_checks_right(const uint8_t *blocks, size_t length);

/* Puts the check of a block into its bytes 508 to 511; no other byte changes. Whether it did: a buffer that has not 512 bytes is left as it was. */
bool tetherbay_seal(uint8_t *block, size_t length);

/* Whether these are sixteen bytes: 1 to 16 of A-Z, 0-9 and hyphen, then zero bytes. */
bool tetherbay_id_well_formed(const uint8_t *id, size_t length);

/* 0 for sixteen bytes that are a valid EIC; else which character is wrong: 1 to 15 for the first that is not allowed (none of 0-9, A-Z and hyphen) or is missing;
   16 where these fifteen are allowed and the sixteenth is wrong or missing, or is not the last, or where the first fifteen are all 0. */
uint8_t tetherbay_eic(const uint8_t *code, size_t length);

/* Whether these are sixteen bytes, and a valid EIC: whether tetherbay_eic gives 0. */
bool tetherbay_eic_valid(const uint8_t *code, size_t length);

/* 0 and the kilowatts; 31 where a minus stands before a quantity text, 30 for any other text. */
typedef struct {
    uint32_t number;
    uint32_t kilowatts;
} tetherbay_quantity;

/* What a quantity text in megawatts says: 1 to 4 digits, then optionally a point and 1 to 3 digits. */
tetherbay_quantity tetherbay_quantity_read(const uint8_t *text, size_t length);

/* 0 and the text's length; 30 for more than 9,999,999 kilowatts, else 32 for a buffer that is too short. */
typedef struct {
    uint32_t number;
    size_t length;
} tetherbay_printed;

/* Prints a quantity in megawatts, with a point and three digits and no zero byte at the end. Bytes after the text stay. */
tetherbay_printed tetherbay_quantity_print(uint32_t kilowatts, uint8_t *buffer, size_t length);

/* The reason code of an answer's number, from the one fixed table: 53 for A53, and 1 (A01) for 0. 0 where the number has none. */
uint8_t tetherbay_reason_code(uint32_t number);

/* The kinds of reply to a message. */
enum { TETHERBAY_ACKNOWLEDGEMENT = 0, TETHERBAY_UNINTERPRETABLE_MESSAGE = 1, TETHERBAY_DESK_NOTICE = 2 };

/* An acknowledgement has a status, 1 (A01) or 2 (A02), and a reason code; the other two have neither, and both fields are 0. */
typedef struct {
    uint8_t kind;
    uint8_t status;
    uint8_t code;
} tetherbay_reply_answer;

/* How the sender of a message is to be answered, by the number of its submission: acknowledged where the number has a code; told by a desk notice on 1 and 17;
   told that the message can't be read where any other number has none. 40, which no submission gives, is a desk notice too. */
tetherbay_reply_answer tetherbay_reply(uint32_t number);

/* ---- a day book: blocks of 512 bytes, from 2 to 1,001 of them, the day block and then slots 1, 2 and on

   A used slot holds a sender, a series of one, or a right to capacity. A series is a trade within the book's area, business type 2 (A02), or an external schedule:
   type 3 (A03), which is sent on a right that its sender holds, or 6 (A06), without capacity. A sender's net is the sum of what it buys in trades less what it
   sells; an external schedule, whatever its parties, counts + in it where its in area is the book's, and - where its out area is.

   Of a book that was opened or converted and that only open, convert, clock, enter_right and submit have altered since: its marks and nets are what the plain
   matching rule gives on the messages that submit has answered with 0 since then, and a final value once given is given unchanged until the book is opened again.
   A conversion begins these messages with one for each sender, made of the blocks that the book keeps. */

/* Whether the buffer is a sound book; the book is only read. Every other call on a book but open and convert asks this first, and refuses with 1 where it
   is not. */
bool tetherbay_sound(const uint8_t *book, size_t length);

/* 0, 20 or 21, and on 21 which character is wrong, as tetherbay_eic gives it: of the area, or of the receiver where the area is a valid EIC, whatever else is
   wrong; 0 where both are valid. */
typedef struct {
    uint32_t number;
    uint8_t character;
} tetherbay_open_answer;

/* Opens a book for a day of n quarter-hours, whose positions close `lead` minutes before they begin, and which settles at the lesser of two quantities. Alters
   the book: writes the day block and frees every slot, whatever the buffer held. 0; 20 where the length is not that of 2 to 1,001 blocks; else 21 where n is not
   92, 96 or 100, the lead above 1,440, the day not eight digits, or the area or the receiver not a valid EIC. */
tetherbay_open_answer tetherbay_open(uint8_t *book, size_t length, uint8_t n, uint16_t lead, const uint8_t *day, size_t day_length, const uint8_t *area,
                                     size_t area_length, const uint8_t *receiver, size_t receiver_length);

/* The rule by which a book's final values are chosen, as byte 6 of its day block names it; no call but an opening writes it. Books from before the lesser rule
   have 0 there, and keep their finals. */
enum { TETHERBAY_SELLERS = 0, TETHERBAY_LESSER = 1 };

/* The same by a rule that is named: tetherbay_open is this call with TETHERBAY_LESSER. 21 also where the rule is neither of the two. */
tetherbay_open_answer tetherbay_open_by(uint8_t *book, size_t length, uint8_t n, uint16_t lead, uint8_t rule, const uint8_t *day, size_t day_length,
                                        const uint8_t *area, size_t area_length, const uint8_t *receiver, size_t receiver_length);

/* Converts a book of the old layout, whose series keep a state of 1 to 3 in byte 104, where the present one keeps at how many positions the counterpart differs.
   Convert before any other call: an old book is taken for one of the present layout, and its states for such counts. Alters the book: every mark and all
   nets, worked out afresh by the plain rule, and their checks. 0; 1 where the book is not sound in the old layout, and then nothing is written: it is damaged,
   or a series has 0 or more than 3 in byte 104, as the present layout has it and as a submission before the conversion writes it. Where all marks and nets
   are true already no byte changes, whatever the answer; the plain run says whether they are. */
uint32_t tetherbay_convert(uint8_t *book, size_t length);

typedef struct {
    uint8_t n;
    uint16_t lead;
    uint16_t clock; /* a minute */
} tetherbay_day;

/* 0, 1 or 22, and the day's state as kept when the call returns: the advanced clock on 0, the old one on 22, zeros on 1. */
typedef struct {
    uint32_t number;
    tetherbay_day state;
} tetherbay_clock_answer;

/* Moves the clock to a minute. Alters the book: clock and check of the day block. 1 where the book is not sound; else 22 where the minute is below the kept
   clock or above 11,580. */
tetherbay_clock_answer tetherbay_clock(uint8_t *book, size_t length, uint16_t minute);

/* Enters a right to capacity, on which its holder may send external schedules (A03). A rights block has the layout of a series: kind 4 in byte 0, the book's n in
   byte 1, then zeros, business type 3 in byte 4 and a contract type from 1 to 99 in byte 5; zeros in bytes 6 to 23; in area and out area in 24 to 55, of which
   exactly one is the book's and the other is a valid EIC; the holder, a valid EIC that need not be a sender of the book, as in party and as out party in 56 to 87;
   the agreement, an id, in 88 to 103; zeros in 104 to 107; in 108 to 507 a hundred limits in kilowatts, at most 9,999,999 each and 0 above n; then the check.
   Alters the book: on 0 the block stands as it is given in the lowest free slot, and no other byte has changed. It is entered once, and no later call but an opening
   alters it. 1 where the book is not sound; else 40 where the buffer is no such block, or where a right is kept that has the same bytes 0 to 107, so that it differs
   in limits at most; else 17 where no slot is free. */
uint32_t tetherbay_enter_right(uint8_t *book, size_t length, const uint8_t *right, size_t right_length);

/* 0, or the number of the first broken rule, 1 to 19, with its reason code (1 for A01 on 0; 0 where a number has none); 7 to 15, 18 and 19 give the number of the
   series, and 11 to 14 and 19 the position, no other does. 18 and 19, both A59, are asked of each series after 13 and before 14: 18 where an A03 series names no
   right that its sender holds, by areas, contract type and agreement; 19 at the lowest position at which this series and the earlier ones of the message on that
   right are together above its limit. On 4 and 8 also which character is wrong, as tetherbay_eic gives it: on 4 of the sender; on 8 of the in party (the buyer of a
   trade), or of the out party where the in party is a valid EIC, 0 where both are, and equal in a trade or neither the sender. On every other number it is 0. */
typedef struct {
    uint32_t number;
    uint8_t code;
    size_t series;
    size_t position;
    uint8_t character;
} tetherbay_verdict;

/* The verdict, and how many slots the search for counterparts looked at. On 0 these are all used slots as they are after the call, each once, the sender's own, the
   new ones and the rights among them: never more than the used slots and the series of the message together. On a refusal 0. */
typedef struct {
    tetherbay_verdict verdict;
    size_t looked;
} tetherbay_submit_answer;

/* Judges a message and, on 0, enters it. Alters the book: sender block, series, marks of both sides, nets and checks. */
tetherbay_submit_answer tetherbay_submit(uint8_t *book, size_t length, const uint8_t *message, size_t message_length);

/* The verdict that a submission would get now. The book is only read. */
tetherbay_verdict tetherbay_judge(const uint8_t *book, size_t length, const uint8_t *message, size_t message_length);

/* 0 and the kept mark: at how many positions the counterpart differs, the first of these and the counterpart's slot. A series that has no counterpart has 0, 0
   and slot 0, and so has every external schedule, since only trades are paired; one whose counterpart agrees has 0, 0 and its slot. The code is 9 (A09) where
   they differ, 28 (A28) where there is no counterpart, else 0. */
typedef struct {
    uint32_t number;
    uint8_t differ;
    uint8_t code;
    size_t first;
    size_t partner;
} tetherbay_mark_answer;

/* The mark of a sender's series, a trade or an external schedule; the book is only read. 1 where the book is not sound; 23 where it keeps no such series. */
tetherbay_mark_answer tetherbay_mark(const uint8_t *book, size_t length, const uint8_t *sender, size_t sender_length, const uint8_t *id, size_t id_length);

/* A part of a buffer that the caller lent: where it begins and how many bytes it has. Offset 0 and length 0 where there is none. */
typedef struct {
    size_t offset;
    size_t length;
} tetherbay_part;

/* The block of a sender's series, a trade or an external schedule, 512 bytes of the book, which is only read; none where the book is not sound or keeps no such
   series. A right is no series. */
tetherbay_part tetherbay_accepted_block(const uint8_t *book, size_t length, const uint8_t *sender, size_t sender_length, const uint8_t *id, size_t id_length);

/* 0, 1, 24, 25 or 26, and on 0 the kilowatts. */
typedef struct {
    uint32_t number;
    uint32_t kilowatts;
} tetherbay_final_answer;

/* The final value of a trade at a position, by the book's rule: the lesser of the seller's and the buyer's quantity, or the seller's; a side that keeps no such
   series counts 0, so that by the lesser rule a trade that one side alone keeps settles at 0. The book is only read. 1 where it is not sound; else 24 where the
   position is 0 or above n; else 25 where it is not closed yet; else 26 where neither party keeps a trade of the two: an external schedule has no final value. */
tetherbay_final_answer tetherbay_final(const uint8_t *book, size_t length, const uint8_t *seller, size_t seller_length, const uint8_t *buyer, size_t buyer_length,
                                       size_t position);

/* 0, 1, 24 or 25, and on 0 the kilowatts bought and sold; they may pass 32 bits. */
typedef struct {
    uint32_t number;
    uint64_t bought;
    uint64_t sold;
} tetherbay_settled_answer;

/* What a party buys and what it sells at a closed position: the final values of the trades in which it is the buyer, and of those in which it is the seller. A trade
   counts once though both sides keep it; A's sale to B and B's sale to A are two. The settled position is bought less sold, and may be below 0. At one closed position,
   over all parties of the book's trades, each once, as much is bought as is sold. The book is only read; whether its marks and nets are true makes no difference.
   1, 24 and 25 as for a final value, with both sums 0; else 0, and both sums are 0 for a name that is no party of a trade. */
tetherbay_settled_answer tetherbay_settled(const uint8_t *book, size_t length, const uint8_t *party, size_t party_length, size_t position);

/* 0 and whether all kept marks and nets are true, or 1 and false where the book is not sound. */
typedef struct {
    uint32_t number;
    bool holds;
} tetherbay_plain_run_answer;

/* Works all marks and nets out afresh and compares; the book is only read. */
tetherbay_plain_run_answer tetherbay_plain_run(const uint8_t *book, size_t length);

/* Prints the listing of a book of at most 64 blocks, which is only read: a header, then one line per series by ascending slot, with the kept marks; external
   schedules are among them, rights are not. "too long" where the book has more than 32,768 bytes, else "not sound" where it is not. Every line ends in a newline, no
   zero byte follows, and bytes after the text stay. The text's length; 0 where the buffer is too short for the whole of it, and then nothing is written. 6,000 bytes
   are always enough. */
size_t tetherbay_listing(const uint8_t *book, size_t length, uint8_t *buffer, size_t buffer_length);

/* ---- a message: 2 to 201 blocks of 512 bytes, the sender's and then its series

   One party of a series is the sender. A trade has the book's area twice, two different parties and no contract type or agreement. An external schedule has the
   book's area once and beside it another valid EIC, and both its parties may be the sender; on a right (A03) it has that right's contract type and agreement,
   without capacity (A06) neither. A message may have series of all three types. To an id of the sender belongs one key, which is business type, areas, parties,
   contract type and agreement together, and to a key one id. */

/* Series 1, 2 and on of a message, 512 bytes of it each; none for 0, past the last, or where the message breaks rule 2. */
tetherbay_part tetherbay_series(const uint8_t *message, size_t length, size_t number);

#endif
