//! The worked examples of the paper: both sides of each edge, and the listing from its opening
//! to its lines. The self-check runs them, and so do the unit tests.

use std::fmt::Debug;

use crate::block::*;
use crate::book::SoundBook;
use crate::codes::reason_code;
use crate::conversion::convert;
use crate::counts::{Minute, Position, Slot, DAY_START};
use crate::crafted::reordered;
use crate::day::{move_clock, open, open_by, DayState};
use crate::desk::Desk;
use crate::identifier::{is_valid_eic, wrong_character, VALUES as CHARACTER_VALUES};
use crate::listing::listing;
use crate::looks::search;
use crate::message::{series_of_message, SeriesReader};
use crate::names::valid_eic;
use crate::plain_rule;
use crate::quantity_text;
use crate::random::Random;
use crate::readings::{accepted_block, final_value, mark_of, plain_run};
use crate::right::enter;
use crate::settlement::{pairs, parties, settled};
use crate::sound::{is_sound, MOST_BLOCKS};
use crate::stream::Record;
use crate::submission::{self, judge, Verdict};

pub type Outcome = Result<(), String>;

/// An example and its name.
pub type Example = (&'static str, fn() -> Outcome);

pub const EXAMPLES: &[Example] = &[
    ("EICs", eics),
    ("quantity text", texts),
    ("open and closed positions", edges_of_closing),
    ("the check of a block", checks),
    ("lengths of a book", lengths),
    ("message versions", message_versions),
    ("first versions", first_versions),
    ("a version raised after a refusal", raised_after_refusal),
    ("the last version", last_version),
    ("a message with nothing changed", nothing_changed),
    ("a new series at a closed position", late_new_series),
    ("absent series and full books", absent_and_full),
    ("series versions", series_versions),
    ("the clock and the day's state", clock_states),
    ("finals", finals),
    ("the reader", reader),
    ("the table of codes", codes),
    ("the listing", printed_listing),
    ("the wrong character of a code", wrong_characters),
    ("the wrong character in an opening", wrong_characters_in_opening),
    ("the wrong character in a submission", wrong_characters_in_submission),
    ("judging", judging),
    ("counts of differing positions", differing_positions),
    ("a count in a sound book", counts_in_sound_books),
    ("conversion", conversion),
    ("conversions that are refused", refused_conversions),
    ("a book converted in the midst of its day", converted_midway),
    ("the rule of an opening", rules_of_openings),
    ("the rule in a sound book", rules_in_sound_books),
    ("the rule stays", rule_stays),
    ("finals by both rules", finals_by_both_rules),
    ("a late counterpart", late_counterparts),
    ("looks of a first sender and of others", looks_of_senders),
    ("looks of a renewed message", looks_of_renewals),
    ("looks of a refusal", looks_of_refusals),
    ("looks in the answer line", looks_in_lines),
    ("partners at both ends of a book", partners_at_both_ends),
    ("partners in a full book", partners_in_full_book),
    ("entering rights", entered_rights),
    ("blocks that are no rights", malformed_rights),
    ("where a right stands", slots_of_rights),
    ("series on rights", series_on_rights),
    ("several series on one right", sums_on_rights),
    ("whose right", whose_right),
    ("what a kept id is known by", known_keys),
    ("areas and capacity of a series", areas_and_capacity),
    ("parties of an external schedule", external_parties),
    ("nets of external schedules", external_nets),
    ("external schedules are alone", external_marks),
    ("finals of internal trades only", external_finals),
    ("the place of rules 18 and 19", order_of_rights),
    ("a trade does not turn external", turned_trades),
    ("rights in a sound book", rights_in_sound_books),
    ("external schedules converted", converted_externals),
    ("rights in the answer line", rights_in_lines),
    ("settled positions of two", settled_of_two),
    ("each pair counted once", pairs_counted_once),
    ("settled positions that are refused", settled_refused),
    ("settled positions of strangers", settled_of_strangers),
    ("settled positions without external schedules", settled_without_externals),
    ("settled positions whatever the marks say", settled_beside_marks),
    ("settled positions above 32 bits", settled_above_32_bits),
    ("settled positions in the answer line", settled_in_lines),
];

fn same<T: PartialEq + Debug>(what: &str, found: T, expected: T) -> Outcome {
    if found == expected {
        Ok(())
    } else {
        Err(format!("{what}: found {found:?}, expected {expected:?}"))
    }
}

const AREA_CODE: &[u8; 16] = b"10YAT-APG------L";
const RECEIVER_CODE: &[u8; 16] = b"14XAT-APCS-----Q";
const SELLER: &[u8; 16] = b"14XBILANZGR-1--F";
const BUYER: &[u8; 16] = b"14XBG-EMPFANG--0";
const OTHER: &[u8; 16] = b"13XBILANZGR-2--Q";
const DAY_TEXT: &[u8; 8] = b"20190131";

fn name(text: &str) -> Field {
    let mut id = [0; 16];
    id[..text.len()].copy_from_slice(text.as_bytes());
    id
}

/// A series as a message carries it, the same quantity at every position.
fn series(id: &str, in_party: &Field, out_party: &Field, version: u16, n: u8, value: u32) -> Block {
    let mut block = [0; BLOCK_BYTES];
    block[KIND] = KIND_SERIES;
    block[N] = n;
    put_u16(&mut block, VERSION, version);
    block[BUSINESS_TYPE] = INTERNAL_TRADE;
    put_field(&mut block, ID, &name(id));
    put_field(&mut block, IN_AREA, AREA_CODE);
    put_field(&mut block, OUT_AREA, AREA_CODE);
    put_field(&mut block, IN_PARTY, in_party);
    put_field(&mut block, OUT_PARTY, out_party);
    for position in (1..=u16::from(n)).map(Position) {
        put_quantity(&mut block, position, value);
    }
    block
}

fn message(sender: &Field, version: u16, n: u8, list: &[Block]) -> Vec<u8> {
    let mut head = [0; BLOCK_BYTES];
    head[KIND] = KIND_SENDER;
    head[N] = n;
    put_u16(&mut head, VERSION, version);
    put_u16(&mut head, COUNT, list.len() as u16);
    put_field(&mut head, ID, &name("MESSAGE-1"));
    put_field(&mut head, SENDER, sender);
    put_field(&mut head, RECEIVER, RECEIVER_CODE);
    head[DAY_IN_SENDER..DAY_IN_SENDER + DAY_DIGITS].copy_from_slice(DAY_TEXT);
    let mut bytes = Vec::new();
    for mut block in [&[head], list].concat() {
        seal(&mut block);
        bytes.extend(block);
    }
    bytes
}

fn opened(blocks: usize, n: u8, lead: u16) -> Vec<u8> {
    let mut book = vec![0xAA; blocks * BLOCK_BYTES];
    assert_eq!(open(&mut book, n, lead, DAY_TEXT, AREA_CODE, RECEIVER_CODE), (0, 0));
    book
}

/// A book of ten blocks whose finals are given by this rule.
fn opened_by(rule: u8) -> Vec<u8> {
    let mut book = vec![0xAA; 10 * BLOCK_BYTES];
    assert_eq!(open_by(&mut book, 96, 45, rule, DAY_TEXT, AREA_CODE, RECEIVER_CODE), (0, 0));
    book
}

/// Enters a message. What is told but for the looks, which have examples of their own.
fn submit(book: &mut [u8], message: &[u8]) -> Verdict {
    submission::submit(book, message).0
}

/// Number, code, series number and position.
fn answer(verdict: Verdict) -> (u8, u8, u16, u16) {
    (verdict.number(), verdict.code(), verdict.series, verdict.position.0)
}

const ACCEPTED: (u8, u8, u16, u16) = (0, 1, 0, 0);
const REFUSED_BY_6: (u8, u8, u16, u16) = (6, 51, 0, 0);

fn eics() -> Outcome {
    let sums: [(&[u8; 16], u32); 6] = [
        (b"10XAT-APG------Z", 2_777),
        (AREA_CODE, 2_791),
        (RECEIVER_CODE, 2_749),
        (BUYER, 2_331),
        (SELLER, 2_353),
        (OTHER, 2_342),
    ];
    for (code, expected) in sums {
        let text = String::from_utf8_lossy(code);
        let sum: u32 = code[..15]
            .iter()
            .zip((2..=16).rev())
            .map(|(&c, weight)| weight * u32::from(CHARACTER_VALUES[usize::from(c)]))
            .sum();
        same(&format!("sum of {text}"), sum, expected)?;
        same(&format!("validity of {text}"), is_valid_eic(code), true)?;
    }
    same("Y for Z", is_valid_eic(b"10XAT-APG------Y"), false)?;
    same("fifteen zeros", (0..=255).any(|last| is_valid_eic(&[&[b'0'; 15][..], &[last]].concat())), false)
}

fn texts() -> Outcome {
    let read: [(&str, (u8, u32)); 26] = [
        ("0.194", (0, 194)),
        ("9999.999", (0, 9_999_999)),
        ("10000", (30, 0)),
        (".5", (30, 0)),
        ("1.", (30, 0)),
        ("", (30, 0)),
        ("-0", (31, 0)),
        ("60.0", (0, 60_000)),
        ("-", (30, 0)),
        ("-10000", (30, 0)),
        ("-.5", (30, 0)),
        ("-1.", (30, 0)),
        ("--5", (30, 0)),
        ("+5", (30, 0)),
        (" 5", (30, 0)),
        ("-9999.999", (31, 0)),
        ("0000", (0, 0)),
        ("0007.5", (0, 7_500)),
        ("7.05", (0, 7_050)),
        ("7.005", (0, 7_005)),
        ("7.0005", (30, 0)),
        ("1.2.3", (30, 0)),
        ("5 ", (30, 0)),
        ("1..2", (30, 0)),
        ("1,5", (30, 0)),
        (".", (30, 0)),
    ];
    for (text, expected) in read {
        same(&format!("reading {text:?}"), quantity_text::read(text.as_bytes()), expected)?;
    }
    let mut buffer = *b"xxxxxxxxx";
    same("printing 60,000", quantity_text::print(60_000, &mut buffer), (0, 6))?;
    same("bytes behind the text", buffer, *b"60.000xxx")?;
    same("printing 194", quantity_text::print(194, &mut buffer), (0, 5))?;
    same("the text of 194", buffer, *b"0.1940xxx")?;
    same("printing the highest", quantity_text::print(9_999_999, &mut buffer), (0, 8))?;
    same("the highest text", buffer, *b"9999.999x")?;
    same("above the highest", quantity_text::print(10_000_000, &mut buffer[..1]), (30, 0))?;
    same("a short buffer", quantity_text::print(0, &mut buffer[..4]), (32, 0))?;
    same("a buffer just long enough", quantity_text::print(0, &mut buffer[..5]), (0, 5))?;
    same("the text of 0", buffer, *b"0.000999x")
}

fn edges_of_closing() -> Outcome {
    let minute = |clock: u16| Minute(DAY_START + clock);
    same("position 5, lead 45, clock 15", Position(5).is_open(minute(15), 45), true)?;
    same("position 5, lead 45, clock 16", Position(5).is_open(minute(16), 45), false)?;
    same("position 1, lead 0, clock 0", Position(1).is_open(minute(0), 0), true)?;
    same("position 1, lead 0, clock 1", Position(1).is_open(minute(1), 0), false)
}

fn checks() -> Outcome {
    let with = |at: usize, value: u8| {
        let mut block = [0; BLOCK_BYTES];
        block[at] = value;
        check_of(&block)
    };
    same("byte 505", with(505, 1), 961)?;
    same("byte 506", with(506, 1), 31)?;
    same("byte 507", with(507, 1), 1)?;
    same("the collision", with(506, 1), with(507, 31))?;
    let mut block = [0; BLOCK_BYTES];
    block[505] = 1;
    seal(&mut block);
    same("a seal", &block[CHECK..], &[193, 3, 0, 0][..])?;
    same("a sealed block", check_is_right(&block), true)?;
    same("a free block", check_is_right(&[0; BLOCK_BYTES]), true)
}

fn lengths() -> Outcome {
    for (blocks, expected) in [(0, 20), (1, 20), (2, 0), (MOST_BLOCKS, 0), (MOST_BLOCKS + 1, 20)] {
        let mut book = vec![7; blocks * BLOCK_BYTES];
        let (number, _) = open(&mut book, 96, 0, DAY_TEXT, AREA_CODE, RECEIVER_CODE);
        same(&format!("opening {blocks} blocks"), number, expected)?;
        same("soundness afterwards", is_sound(&book), expected == 0)?;
    }
    let mut book = opened(MOST_BLOCKS, 96, 0);
    book.extend([0; BLOCK_BYTES]);
    same("a book of 1,002 blocks", is_sound(&book), false)?;
    for (n, lead, expected) in [(96, 1_440, 0), (96, 1_441, 21), (95, 0, 21), (92, 0, 0), (100, 0, 0)] {
        let (number, _) = open(&mut book[..1_024], n, lead, DAY_TEXT, AREA_CODE, RECEIVER_CODE);
        same(&format!("opening with n {n} and lead {lead}"), number, expected)?;
    }
    Ok(())
}

/// A book in which the seller has filed 45,000 throughout and changed it once: version 2.
fn book_at_version_2(lead: u16) -> Result<Vec<u8>, String> {
    let mut book = opened(10, 96, lead);
    for version in 1..=2u16 {
        let value = 44_000 + 500 * u32::from(version);
        let list = [series("TS0001", BUYER, SELLER, version, 96, value)];
        same("filing", answer(submit(&mut book, &message(SELLER, version, 96, &list))), ACCEPTED)?;
    }
    Ok(book)
}

fn message_versions() -> Outcome {
    let book = book_at_version_2(45)?;
    let passing = [3, 4, 5, 258, 998, 999].map(|version| (version, ACCEPTED));
    let refused = [2, 1, 0, 1_000, 1_001, 65_535].map(|version| (version, REFUSED_BY_6));
    for (version, expected) in [passing, refused].concat() {
        let mut copy = book.clone();
        let list = [series("TS0001", BUYER, SELLER, version, 96, 50_000)];
        let verdict = submit(&mut copy, &message(SELLER, version, 96, &list));
        same(&format!("version {version} after 2"), answer(verdict), expected)?;
        same("whether the book changed", copy == book, expected != ACCEPTED)?;
    }
    let mut other = message(SELLER, 4, 96, &[series("TS0001", BUYER, SELLER, 4, 96, 50_000)]);
    put_field(block_at_mut(&mut other, 0), ID, &name("MESSAGE-2"));
    seal(block_at_mut(&mut other, 0));
    same("another id", answer(judge(&book, &other)), REFUSED_BY_6)
}

fn first_versions() -> Outcome {
    let book = opened(10, 96, 45);
    let passing = [1, 2, 256, 999].map(|version| (version, ACCEPTED));
    let refused = [0, 1_000, 1_024, 65_535].map(|version| (version, REFUSED_BY_6));
    for (version, expected) in [passing, refused].concat() {
        let mut copy = book.clone();
        let list = [series("TS0001", BUYER, SELLER, version, 96, 50_000)];
        let verdict = submit(&mut copy, &message(SELLER, version, 96, &list));
        same(&format!("first version {version}"), answer(verdict), expected)?;
        same("soundness afterwards", is_sound(&copy), true)?;
        same("whether the book changed", copy == book, expected != ACCEPTED)?;
    }
    let low = [series("TS0001", BUYER, SELLER, 1, 96, 50_000)];
    same("a new series has the message's", answer(judge(&book, &message(SELLER, 7, 96, &low))), (15, 50, 1, 0))
}

/// A refusal keeps nothing of the version it refused, so the next filing may use it or go on.
fn raised_after_refusal() -> Outcome {
    let book = book_at_version_2(45)?;
    let mut foreign = series("TS0001", BUYER, SELLER, 3, 96, 50_000);
    put_field(&mut foreign, IN_AREA, RECEIVER_CODE);
    for version in [3, 4] {
        let mut copy = book.clone();
        // Since C-14 the area belongs to what a kept id is known by.
        same("refused", answer(submit(&mut copy, &message(SELLER, 3, 96, &[foreign]))), (7, 55, 1, 0))?;
        same("the book", copy == book, true)?;
        let list = [series("TS0001", BUYER, SELLER, version, 96, 50_000)];
        same("put right", answer(submit(&mut copy, &message(SELLER, version, 96, &list))), ACCEPTED)?;
        same("the message version", u16_at(block_at(&copy, 1), VERSION), version)?;
        same("the series version", u16_at(block_at(&copy, 2), VERSION), version)?;
    }
    Ok(())
}

/// Version 999 shuts its sender out for the day, and nobody else.
fn last_version() -> Outcome {
    let mut book = opened(10, 96, 45);
    let filed =
        |version: u16, value: u32| message(SELLER, version, 96, &[series("TS0001", BUYER, SELLER, version, 96, value)]);
    same("version 1", answer(submit(&mut book, &filed(1, 1))), ACCEPTED)?;
    same("version 999", answer(submit(&mut book, &filed(999, 2))), ACCEPTED)?;
    for version in (0..=1_001).chain([65_535]) {
        same(&format!("version {version} after 999"), answer(judge(&book, &filed(version, 3))), REFUSED_BY_6)?;
    }
    let unchanged = message(SELLER, 1_000, 96, &[series("TS0001", BUYER, SELLER, 999, 96, 2)]);
    same("nothing changed", answer(submit(&mut book, &unchanged)), REFUSED_BY_6)?;
    let bought = message(BUYER, 1, 96, &[series("B", BUYER, SELLER, 1, 96, 2)]);
    same("another sender", answer(submit(&mut book, &bought)), ACCEPTED)
}

fn nothing_changed() -> Outcome {
    let mut book = book_at_version_2(45)?;
    let list = [series("TS0001", BUYER, SELLER, 2, 96, 45_000)];
    same("nothing changed", answer(submit(&mut book, &message(SELLER, 3, 96, &list))), ACCEPTED)?;
    same("the message version", u16_at(block_at(&book, 1), VERSION), 3)?;
    let (number, block) = accepted_block(&book, SELLER, &name("TS0001"));
    same("reading the block", number, 0)?;
    same("the series version", u16_at(block_at(block, 0), VERSION), 2)
}

fn late_new_series() -> Outcome {
    let mut book = book_at_version_2(45)?;
    same("clock", move_clock(&mut book, Minute(DAY_START + 16)).0, 0)?;
    let stored = series("TS0001", BUYER, SELLER, 2, 96, 45_000);
    let mut late = series("TS0002", SELLER, BUYER, 3, 96, 0);
    put_quantity(&mut late, Position(5), 5);
    let before = book.clone();
    same("5 kW where closed", answer(submit(&mut book, &message(SELLER, 3, 96, &[stored, late]))), (14, 57, 2, 5))?;
    same("the book", book == before, true)?;
    put_quantity(&mut late, Position(5), 0);
    put_quantity(&mut late, Position(6), 5);
    same("0 where closed", answer(submit(&mut book, &message(SELLER, 3, 96, &[stored, late]))), ACCEPTED)
}

fn absent_and_full() -> Outcome {
    let mut book = opened(3, 96, 0);
    let first = series("A", BUYER, SELLER, 1, 96, 1);
    let second = series("B", SELLER, BUYER, 1, 96, 1);
    let before = book.clone();
    same(
        "three blocks for two slots",
        answer(submit(&mut book, &message(SELLER, 1, 96, &[first, second]))),
        (17, 0, 0, 0),
    )?;
    same("the book", book == before, true)?;
    same("two blocks for two slots", answer(submit(&mut book, &message(SELLER, 1, 96, &[first]))), ACCEPTED)?;
    let other = series("B", SELLER, BUYER, 2, 96, 1);
    same("absent", answer(submit(&mut book, &message(SELLER, 2, 96, &[other]))), (16, 52, 0, 0))?;
    let twin = series("A", BUYER, SELLER, 2, 96, 2);
    same("a change needs no slot", answer(submit(&mut book, &message(SELLER, 2, 96, &[twin]))), ACCEPTED)
}

fn series_versions() -> Outcome {
    let book = book_at_version_2(0)?;
    // The stored series has version 2 and 45,000 kW.
    for message_version in [3, 4, 999] {
        for version in [1, 2, 3, 4, 998, 999] {
            for (value, right) in [(45_000, 2), (46_000, message_version)] {
                let list = [series("TS0001", BUYER, SELLER, version, 96, value)];
                let verdict = submit(&mut book.clone(), &message(SELLER, message_version, 96, &list));
                let expected = if version == right { ACCEPTED } else { (15, 50, 1, 0) };
                let what = format!("series version {version} with {value} in message version {message_version}");
                same(&what, answer(verdict), expected)?;
            }
        }
    }
    // A new series beside one that stays.
    let stored = series("TS0001", BUYER, SELLER, 2, 96, 45_000);
    for (version, expected) in [(5, ACCEPTED), (3, (15, 50, 2, 0)), (1, (15, 50, 2, 0))] {
        let new = series("TS0002", SELLER, BUYER, version, 96, 1);
        let verdict = submit(&mut book.clone(), &message(SELLER, 5, 96, &[stored, new]));
        same(&format!("new series with version {version}"), answer(verdict), expected)?;
    }
    Ok(())
}

fn clock_states() -> Outcome {
    let mut book = opened(2, 92, 45);
    let state = |clock: u16| DayState { n: 92, lead: 45, clock: Minute(clock) };
    same("the earliest minute", move_clock(&mut book, Minute(0)), (0, state(0)))?;
    same("forward", move_clock(&mut book, Minute(10_000)), (0, state(10_000)))?;
    same("back", move_clock(&mut book, Minute(9_999)), (22, state(10_000)))?;
    same("equal", move_clock(&mut book, Minute(10_000)), (0, state(10_000)))?;
    same("too late", move_clock(&mut book, Minute(11_581)), (22, state(10_000)))?;
    same("the latest", move_clock(&mut book, Minute(11_580)), (0, state(11_580)))?;
    book[0] = 0;
    let zeros = DayState { n: 0, lead: 0, clock: Minute(0) };
    same("not sound", move_clock(&mut book, Minute(11_580)), (1, zeros))
}

/// By the seller's rule, which books on file have.
fn finals() -> Outcome {
    let mut book = opened_by(SELLERS_RULE);
    let sold = series("S", BUYER, SELLER, 1, 96, 45_000);
    let bought = series("B", BUYER, SELLER, 1, 96, 44_000);
    same("the buyer files", answer(submit(&mut book, &message(BUYER, 1, 96, &[bought]))), ACCEPTED)?;
    let read = |book: &[u8], p: u16| final_value(book, SELLER, BUYER, Position(p));
    same("position 0", read(&book, 0), (24, 0))?;
    same("position 97", read(&book, 97), (24, 0))?;
    same("not closed", read(&book, 5), (25, 0))?;
    let mut unanswered = book.clone();
    same("clock", move_clock(&mut unanswered, Minute(DAY_START + 16)).0, 0)?;
    same("only the buyer filed", read(&unanswered, 5), (0, 0))?;
    same("the other direction", final_value(&unanswered, BUYER, SELLER, Position(5)), (26, 0))?;
    same("equal parties", final_value(&unanswered, BUYER, BUYER, Position(5)), (26, 0))?;
    same("the seller files", answer(submit(&mut book, &message(SELLER, 1, 96, &[sold]))), ACCEPTED)?;
    same("clock", move_clock(&mut book, Minute(DAY_START + 16)).0, 0)?;
    same("closed", read(&book, 5), (0, 45_000))?;
    same("still open", read(&book, 6), (25, 0))?;
    same("not sound", read(&book[..100], 0), (1, 0))
}

fn reader() -> Outcome {
    let first = series("A", BUYER, SELLER, 1, 96, 1);
    let second = series("B", SELLER, BUYER, 1, 96, 1);
    let mut bytes = message(SELLER, 1, 96, &[first, second]);
    same("series 0", series_of_message(&bytes, 0).len(), 0)?;
    same("series 1", series_of_message(&bytes, 1) == &bytes[512..1_024], true)?;
    same("series 2", series_of_message(&bytes, 2) == &bytes[1_024..], true)?;
    same("series 3", series_of_message(&bytes, 3).len(), 0)?;
    let mut walk = SeriesReader::over(&bytes);
    let lengths: Vec<usize> = (0..4).map(|_| walk.next_series().len()).collect();
    same("a walk", lengths, vec![512, 512, 0, 0])?;
    bytes[100] = 1;
    same("a wrong check", series_of_message(&bytes, 1).len(), 0)?;
    same("a walk over nothing", SeriesReader::over(&bytes).next_series().len(), 0)
}

fn codes() -> Outcome {
    let table = [0, 0, 53, 78, 4, 51, 55, 22, 23, 62, 46, 42, 49, 57, 50, 52, 0];
    for (number, code) in (1..=17).zip(table) {
        same(&format!("code of {number}"), reason_code(number), code)?;
    }
    same("acceptance", reason_code(0), 1)?;
    same("no quantity", reason_code(30), 42)?;
    same("negative", reason_code(31), 46)?;
    same("no right, and above its limit", [18, 19].map(reason_code), [59, 59])?;
    same("others", [20, 21, 22, 23, 24, 25, 26, 32, 33, 40, 255].iter().all(|&number| reason_code(number) == 0), true)
}

fn printed_listing() -> Outcome {
    let mut book = opened(8, 96, 45);
    let header = "slot sender series in out differ first partner\n";
    same("an empty book", String::from_utf8_lossy(&listing(&book)).as_ref(), header)?;
    let sold = message(SELLER, 1, 96, &[series("TS0001", BUYER, SELLER, 1, 96, 45_000)]);
    same("the seller files", answer(submit(&mut book, &sold)), ACCEPTED)?;
    let unmatched = Mark { differ: 0, first: Position(0), partner: Slot(0) };
    same("unmatched", mark_of(&book, SELLER, &name("TS0001")), (0, unmatched))?;
    let mut block = series("FPL01", BUYER, SELLER, 1, 96, 45_000);
    put_quantity(&mut block, Position(2), 44_000);
    let bought = message(BUYER, 1, 96, &[block]);
    same("the buyer files", answer(submit(&mut book, &bought)), ACCEPTED)?;
    let text = listing(&book);
    let expected = format!(
        "{header}2 14XBILANZGR-1--F TS0001 14XBG-EMPFANG--0 14XBILANZGR-1--F 1 2 4\n\
         4 14XBG-EMPFANG--0 FPL01 14XBG-EMPFANG--0 14XBILANZGR-1--F 1 2 2\n"
    );
    same("the lines", String::from_utf8_lossy(&text).as_ref(), expected.as_str())?;
    same("the plain run", plain_run(&book), (0, true))?;
    same(
        "the seller's net",
        nets(block_at(&book, 1)).take(97).collect::<Vec<_>>(),
        [vec![-45_000; 96], vec![0]].concat(),
    )?;
    same("the buyer's net at 2", nets(block_at(&book, 3)).nth(1), Some(44_000))?;
    let found = plain_rule::matching(&[sold, bought], AREA_CODE);
    let mark = found.marks[&(*SELLER, name("TS0001"))];
    same("the plain rule", (mark.differ, mark.first, mark.partner), (1, Position(2), Some((*BUYER, name("FPL01")))))?;
    same("the plain net", found.nets[BUYER][1], 44_000)?;

    // The lengths the listing takes, and a book that is not sound.
    let mut long = opened(64, 96, 45);
    same("64 blocks", String::from_utf8_lossy(&listing(&long)).as_ref(), header)?;
    long.push(0);
    same("a byte more", listing(&long), b"too long\n".to_vec())?;
    book[9] ^= 1;
    same("a changed byte", listing(&book), b"not sound\n".to_vec())?;
    same("the plain run on it", plain_run(&book), (1, false))
}

/// Document 02, C-11.
fn wrong_characters() -> Outcome {
    for (code, expected) in [
        ("10XAT-APG------Z", 0),
        ("10XAT-APG------Y", 16),
        ("10XAT-APG-------", 16),
        ("10XAT-APG------z", 16),
        ("a0XAT-APG------Z", 1),
        ("10XAT_APG------Y", 6),
        ("10XAT_APG-----_Z", 6),
        ("10XAT-APG-----_Z", 15),
        ("00000000000000J-", 16),
        ("0000000000000000", 16),
        ("00000000000000_0", 15),
        ("", 1),
        ("1", 2),
        ("10XAT-APG", 10),
        ("10XAT-AP_", 9),
        ("10XAT-APG------", 16),
        ("000000000000000", 16),
        ("10XAT-APG------Z0", 16),
        ("10XAT_APG------Z0", 6),
    ] {
        same(code, wrong_character(code.as_bytes()), expected)?;
    }
    Ok(())
}

fn wrong_characters_in_opening() -> Outcome {
    let mut book = vec![7; 2 * BLOCK_BYTES];
    let (area, receiver) = (&b"10YAT-APG_-----L"[..], &b"14_AT-APCS-----Q"[..]);
    for (n, area, receiver, expected) in [
        (96, area, receiver, (21, 10)),
        (96, area, RECEIVER_CODE, (21, 10)),
        (96, AREA_CODE, receiver, (21, 3)),
        (95, AREA_CODE, receiver, (21, 3)),
        (95, area, RECEIVER_CODE, (21, 10)),
        (95, AREA_CODE, RECEIVER_CODE, (21, 0)),
        (96, &AREA_CODE[..4], RECEIVER_CODE, (21, 5)),
        (96, AREA_CODE, &[&RECEIVER_CODE[..], b"Q"].concat()[..], (21, 16)),
        (96, AREA_CODE, RECEIVER_CODE, (0, 0)),
    ] {
        same(&format!("opening {area:?} {receiver:?}"), open(&mut book, n, 0, DAY_TEXT, area, receiver), expected)?;
    }
    same("a wrong length", open(&mut book[..512], 96, 0, DAY_TEXT, area, receiver), (20, 0))?;
    same("a wrong day", open(&mut book, 96, 0, b"2019013x", AREA_CODE, receiver), (21, 3))
}

fn wrong_characters_in_submission() -> Outcome {
    let book = opened(4, 96, 0);
    let told = |sender: &Field, in_party: &Field, out_party: &Field| {
        let verdict = judge(&book, &message(sender, 1, 96, &[series("A", in_party, out_party, 1, 96, 1)]));
        (verdict.number(), verdict.series, verdict.character)
    };
    let (third, sixteenth) = (b"14xBILANZGR-1--F", b"14XBG-EMPFANG--1");
    same("a good message", told(SELLER, BUYER, SELLER), (0, 0, 0))?;
    same("the sender", told(third, BUYER, SELLER), (4, 0, 3))?;
    same("the sender before the parties", told(third, sixteenth, third), (4, 0, 3))?;
    same("the in party", told(SELLER, sixteenth, SELLER), (8, 1, 16))?;
    same("the out party", told(BUYER, BUYER, third), (8, 1, 3))?;
    same("both, the in party first", told(SELLER, sixteenth, third), (8, 1, 16))?;
    same("one wrong code twice", told(SELLER, third, third), (8, 1, 3))?;
    same("parties equal", told(SELLER, SELLER, SELLER), (8, 1, 0))?;
    same("neither the sender", told(SELLER, BUYER, OTHER), (8, 1, 0))?;
    let mut foreign = series("A", BUYER, SELLER, 1, 96, 1);
    put_field(&mut foreign, IN_AREA, third);
    let verdict = judge(&book, &message(SELLER, 1, 96, &[foreign]));
    same("an area", (verdict.number(), verdict.character), (9, 0))
}

/// What a submission would answer, and then what it answers.
fn judging() -> Outcome {
    let mut book = book_at_version_2(45)?;
    let good = message(SELLER, 3, 96, &[series("TS0001", BUYER, SELLER, 3, 96, 50_000)]);
    let stale = message(SELLER, 2, 96, &[series("TS0001", BUYER, SELLER, 2, 96, 50_000)]);
    for (bytes, expected) in [(&stale, (6, 51, 0, 0)), (&good, ACCEPTED)] {
        same("judged", answer(judge(&book, bytes)), expected)?;
        same("judged again", answer(judge(&book, bytes)), expected)?;
        same("submitted", answer(submit(&mut book, bytes)), expected)?;
    }
    same("judged when it is in", answer(judge(&book, &good)), (6, 51, 0, 0))?;
    book[9] ^= 1;
    same("not sound", answer(judge(&book, &good)), (1, 0, 0, 0))
}

/// The book of the listing, with these quantities of the buyer's in place of 45,000.
fn book_of_two(n: u8, others: &[(u16, u32)]) -> Result<Vec<u8>, String> {
    let mut book = opened(8, n, 45);
    let sold = series("TS0001", BUYER, SELLER, 1, n, 45_000);
    let mut bought = series("FPL01", BUYER, SELLER, 1, n, 45_000);
    for &(position, value) in others {
        put_quantity(&mut bought, Position(position), value);
    }
    same("the seller files", answer(submit(&mut book, &message(SELLER, 1, n, &[sold]))), ACCEPTED)?;
    same("the buyer files", answer(submit(&mut book, &message(BUYER, 1, n, &[bought]))), ACCEPTED)?;
    Ok(book)
}

/// Document 02, C-16: count, first and partner of the seller's series and of the buyer's.
fn differing_positions() -> Outcome {
    for n in [92u8, 96, 100] {
        let last = u16::from(n);
        let all: Vec<(u16, u32)> = (1..=last).map(|position| (position, 44_999)).collect();
        let some = [(1, 0), (2, 45_001), (50, 1), (last, 44_999)];
        let cases: [(&[(u16, u32)], u8, u16); 9] = [
            (&[], 0, 0),
            (&[(1, 0)], 1, 1),
            (&[(last, 0)], 1, last),
            (&some[1..3], 2, 2),
            (&some[1..], 3, 2),
            (&some, 4, 1),
            (&all[3..], n - 3, 4),
            (&all[1..], n - 1, 2),
            (&all, n, 1),
        ];
        for (others, differ, first) in cases {
            let mut book = book_of_two(n, others)?;
            let mark = |partner| (0, Mark { differ, first: Position(first), partner: Slot(partner) });
            same("the seller's mark", mark_of(&book, SELLER, &name("TS0001")), mark(4))?;
            same("the buyer's mark", mark_of(&book, BUYER, &name("FPL01")), mark(2))?;
            same("the plain run", plain_run(&book), (0, true))?;
            let agreeing = message(BUYER, 2, n, &[series("FPL01", BUYER, SELLER, 2, n, 45_000)]);
            if differ > 0 {
                same("the buyer agrees", answer(submit(&mut book, &agreeing)), ACCEPTED)?;
                let agreed = (0, Mark { partner: Slot(4), ..Mark::ALONE });
                same("the seller's mark then", mark_of(&book, SELLER, &name("TS0001")), agreed)?;
            }
        }
    }
    Ok(())
}

/// Byte 104 of a series, its check put right.
fn with_byte_104(book: &[u8], slot: usize, byte: u8) -> Vec<u8> {
    let mut other = book.to_vec();
    block_at_mut(&mut other, slot)[104] = byte;
    seal(block_at_mut(&mut other, slot));
    other
}

fn counts_in_sound_books() -> Outcome {
    for n in [92u8, 96, 100] {
        let book = book_of_two(n, &[(2, 44_000)])?;
        for byte in 0..=255 {
            let other = with_byte_104(&book, 4, byte);
            same(&format!("a count of {byte} with n {n}"), is_sound(&other), byte <= n)?;
            same("the plain run", plain_run(&other), if byte > n { (1, false) } else { (0, byte == 1) })?;
        }
    }
    Ok(())
}

/// The listing's book as it was kept before C-16.
fn old_book_of_two() -> Result<Vec<u8>, String> {
    let book = book_of_two(96, &[(2, 44_000)])?;
    Ok(with_byte_104(&with_byte_104(&book, 2, 3), 4, 3))
}

fn conversion() -> Outcome {
    let (new, old) = (book_of_two(96, &[(2, 44_000)])?, old_book_of_two()?);
    same("the plain run warns", plain_run(&old), (0, false))?;
    let mut book = old.clone();
    same("the old book", (convert(&mut book), book == new), (0, true))?;
    // Whatever the old marks and nets said.
    let mut wrong = with_byte_104(&with_byte_104(&old, 2, 1), 4, 2);
    put_mark(block_at_mut(&mut wrong, 2), Mark { differ: 2, first: Position(96), partner: Slot(2) });
    put_mark(block_at_mut(&mut wrong, 4), Mark { differ: 1, first: Position(0), partner: Slot(0) });
    for slot in [1, 3] {
        put_nets(block_at_mut(&mut wrong, slot), &[0; POSITIONS]);
    }
    (1..=4).for_each(|slot| seal(block_at_mut(&mut wrong, slot)));
    same("a false old book", (convert(&mut wrong), wrong == new), (0, true))?;
    let empty = opened(2, 92, 0);
    let mut book = empty.clone();
    same("a book without series", (convert(&mut book), book == empty), (0, true))
}

fn refused_conversions() -> Outcome {
    let old = old_book_of_two()?;
    for byte in (0..=255).filter(|byte| !(1..=3).contains(byte)) {
        for slot in [2, 4] {
            let other = with_byte_104(&old, slot, byte);
            let mut book = other.clone();
            same(&format!("state {byte}"), (convert(&mut book), book == other), (1, true))?;
        }
    }
    let mut damaged = old.clone();
    damaged[9] ^= 1;
    let mut book = damaged.clone();
    same("a changed byte", (convert(&mut book), book == damaged), (1, true))?;
    same("no book", convert(&mut []), 1)
}

/// Old and new cannot be told apart: a new book passes where each of its counts is 1 to 3.
fn converted_midway() -> Outcome {
    let differing = [(1, 1), (2, 1), (3, 1), (4, 1)];
    for (count, expected) in [(0, 1), (1, 0), (2, 0), (3, 0), (4, 1)] {
        let book = book_of_two(96, &differing[..count])?;
        let mut converted = book.clone();
        same(&format!("counts of {count}"), (convert(&mut converted), converted == book), (expected, true))?;
    }
    // An old book that takes a message first is old no longer.
    let mut used = old_book_of_two()?;
    let agreeing = message(BUYER, 2, 96, &[series("FPL01", BUYER, SELLER, 2, 96, 45_000)]);
    same("a message", answer(submit(&mut used, &agreeing)), ACCEPTED)?;
    same("then the conversion", convert(&mut used), 1)?;
    let mut late = old_book_of_two()?;
    same("the conversion", convert(&mut late), 0)?;
    same("then the message", answer(submit(&mut late, &agreeing)), ACCEPTED)?;
    same("the marks", plain_run(&late), (0, true))
}

/// Document 02, C-17.
fn rules_of_openings() -> Outcome {
    same("no rule named", opened(2, 96, 45)[RULE], LESSER_RULE)?;
    let foreign = &b"14_AT-APCS-----Q"[..];
    for rule in 0..=255 {
        let mut book = vec![0xAA; 2 * BLOCK_BYTES];
        let before = book.clone();
        let mut open = |length: usize, area: &[u8], receiver: &[u8]| {
            open_by(&mut book[..length], 96, 45, rule, DAY_TEXT, area, receiver)
        };
        same("a wrong length comes first", open(512, AREA_CODE, foreign), (20, 0))?;
        same("a wrong receiver", open(1_024, AREA_CODE, foreign), (21, 3))?;
        same("a wrong area", open(1_024, &AREA_CODE[..7], foreign), (21, 8))?;
        let expected = if rule <= 1 { (0, 0) } else { (21, 0) };
        same(&format!("the rule {rule}"), open(1_024, AREA_CODE, RECEIVER_CODE), expected)?;
        if rule <= 1 {
            same("the byte", (book[RULE], book[7], is_sound(&book)), (rule, 0, true))?;
        } else {
            same("the buffer", book == before, true)?;
        }
    }
    Ok(())
}

fn rules_in_sound_books() -> Outcome {
    let book = book_of_two(96, &[(2, 44_000)])?;
    for (at, byte, expected) in [(6, 0, true), (6, 1, true), (6, 2, false), (6, 255, false), (7, 1, false)] {
        let mut other = book.clone();
        other[at] = byte;
        seal(block_at_mut(&mut other, 0));
        same(&format!("byte {at} of {byte}"), is_sound(&other), expected)?;
    }
    Ok(())
}

fn rule_stays() -> Outcome {
    for rule in [SELLERS_RULE, LESSER_RULE] {
        let mut book = opened_by(rule);
        same("clock", move_clock(&mut book, Minute(DAY_START)).0, 0)?;
        same("after the clock", book[RULE], rule)?;
        let sold = message(SELLER, 1, 96, &[series("S", BUYER, SELLER, 1, 96, 0)]);
        same("the seller files", answer(submit(&mut book, &sold)), ACCEPTED)?;
        same("after an acceptance", book[RULE], rule)?;
        let mut old = with_byte_104(&book, 2, 1);
        same("the conversion", (convert(&mut old), old == book), (0, true))?;
    }
    Ok(())
}

/// A book of this rule in which the sides filed these quantities, with position 5 closed.
fn closed_book(rule: u8, sold: Option<u32>, bought: Option<u32>) -> Result<Vec<u8>, String> {
    let mut book = opened_by(rule);
    for (sender, id, value) in [(SELLER, "S", sold), (BUYER, "B", bought)] {
        if let Some(value) = value {
            let filed = message(sender, 1, 96, &[series(id, BUYER, SELLER, 1, 96, value)]);
            same("filing", answer(submit(&mut book, &filed)), ACCEPTED)?;
        }
    }
    same("clock", move_clock(&mut book, Minute(DAY_START + 16)).0, 0)?;
    Ok(book)
}

fn finals_by_both_rules() -> Outcome {
    for (sold, bought, by_seller, lesser) in [
        (Some(45_000), Some(44_000), (0, 45_000), (0, 44_000)),
        (Some(44_000), Some(45_000), (0, 44_000), (0, 44_000)),
        (Some(45_000), Some(45_000), (0, 45_000), (0, 45_000)),
        (Some(45_000), Some(0), (0, 45_000), (0, 0)),
        (Some(45_000), None, (0, 45_000), (0, 0)),
        (None, Some(45_000), (0, 0), (0, 0)),
        (None, None, (26, 0), (26, 0)),
    ] {
        for (rule, expected) in [(SELLERS_RULE, by_seller), (LESSER_RULE, lesser)] {
            let book = closed_book(rule, sold, bought)?;
            let what = format!("rule {rule}, {sold:?} sold and {bought:?} bought");
            same(&what, final_value(&book, SELLER, BUYER, Position(5)), expected)?;
            same("not closed", final_value(&book, SELLER, BUYER, Position(6)), (25, 0))?;
            same("no position", final_value(&book, SELLER, BUYER, Position(97)), (24, 0))?;
            same("the other direction", final_value(&book, BUYER, SELLER, Position(5)), (26, 0))?;
        }
    }
    Ok(())
}

/// A late counterpart files 0 at closed positions, so a final given before stays.
fn late_counterparts() -> Outcome {
    for rule in [SELLERS_RULE, LESSER_RULE] {
        for (sender, sold, bought) in [(BUYER, Some(45_000), None), (SELLER, None, Some(45_000))] {
            let mut book = closed_book(rule, sold, bought)?;
            let given = final_value(&book, SELLER, BUYER, Position(5));
            let mut late = series("L", BUYER, SELLER, 1, 96, 45_000);
            same("late", answer(submit(&mut book, &message(sender, 1, 96, &[late]))), (14, 57, 1, 1))?;
            (1..=5).for_each(|position| put_quantity(&mut late, Position(position), 0));
            same("0 where closed", answer(submit(&mut book, &message(sender, 1, 96, &[late]))), ACCEPTED)?;
            same("the final", final_value(&book, SELLER, BUYER, Position(5)), given)?;
        }
    }
    Ok(())
}

/// Number and looks of a submission.
fn looked(book: &mut [u8], message: &[u8]) -> (u8, usize) {
    let (verdict, looked) = submission::submit(book, message);
    (verdict.number(), looked)
}

/// The slot that a series' mark names.
fn partner(book: &[u8], sender: &Field, id: &str) -> (u8, u16) {
    let (number, mark) = mark_of(book, sender, &name(id));
    (number, mark.partner.0)
}

/// What the looks find in a book for this message, and how many there are.
fn found(book: &[u8], message: &[u8], sender: u16) -> (Vec<u16>, usize) {
    let search = search(book, message, Slot(sender));
    (search.partners.iter().map(|partner| partner.map_or(0, |slot| slot.0)).collect(), search.looked)
}

/// Document 02, C-23: the seller's message, of three series, in slots 1 to 4.
fn sold_to_two() -> Vec<u8> {
    let list = [
        series("A", BUYER, SELLER, 1, 96, 1),
        series("B", SELLER, BUYER, 1, 96, 2),
        series("C", OTHER, SELLER, 1, 96, 3),
    ];
    message(SELLER, 1, 96, &list)
}

fn looks_of_senders() -> Outcome {
    let mut book = opened(12, 96, 45);
    same("the first sender, its block and 3 series", looked(&mut book, &sold_to_two()), (0, 4))?;
    same("nothing but its own", found(&book, &sold_to_two(), 1), (vec![0, 0, 0], 4))?;
    // The second sender takes slots 5 and 6.
    let bought = message(BUYER, 1, 96, &[series("A", BUYER, SELLER, 1, 96, 1)]);
    same("the second sender", looked(&mut book, &bought), (0, 6))?;
    same("its partner", partner(&book, BUYER, "A"), (0, 2))?;
    same("its partner's partner", partner(&book, SELLER, "A"), (0, 6))?;
    same("the pair turned round", partner(&book, SELLER, "B"), (0, 0))?;
    // The third takes 7 to 9, and answers one trade of the first.
    let list = [series("X", OTHER, BUYER, 1, 96, 1), series("Y", OTHER, SELLER, 1, 96, 3)];
    let third = message(OTHER, 1, 96, &list);
    same("the third sender", looked(&mut book, &third), (0, 9))?;
    same("its partners", found(&book, &third, 7), (vec![0, 4], 9))?;
    same("partners of two senders", found(&book, &sold_to_two(), 1), (vec![6, 0, 9], 9))?;
    same("the plain run", plain_run(&book), (0, true))
}

fn looks_of_renewals() -> Outcome {
    let mut book = book_of_two(96, &[(2, 44_000)])?;
    let kept = series("FPL01", BUYER, SELLER, 1, 96, 45_000);
    let agreeing = series("FPL01", BUYER, SELLER, 2, 96, 45_000);
    same("a changed series", looked(&mut book, &message(BUYER, 2, 96, &[agreeing])), (0, 4))?;
    same("nothing changed", looked(&mut book, &message(BUYER, 3, 96, &[agreeing])), (0, 4))?;
    same("its partner", partner(&book, BUYER, "FPL01"), (0, 2))?;
    let new = series("FPL02", SELLER, BUYER, 4, 96, 1);
    same("a series more", looked(&mut book, &message(BUYER, 4, 96, &[agreeing, new])), (0, 5))?;
    same("the version was 2", looked(&mut book, &message(BUYER, 5, 96, &[kept, new])), (15, 0))?;
    let answer = [series("TS0002", SELLER, BUYER, 2, 96, 1), series("TS0001", BUYER, SELLER, 1, 96, 45_000)];
    same("the seller answers", looked(&mut book, &message(SELLER, 2, 96, &answer)), (0, 6))?;
    same("in the message's order", found(&book, &message(SELLER, 2, 96, &answer), 1), (vec![5, 4], 6))
}

fn looks_of_refusals() -> Outcome {
    let book = book_of_two(96, &[])?;
    let good = message(BUYER, 2, 96, &[series("FPL01", BUYER, SELLER, 1, 96, 45_000)]);
    same("accepted", looked(&mut book.clone(), &good), (0, 4))?;
    let mut damaged = book.clone();
    damaged[9] ^= 1;
    same("not sound", looked(&mut damaged, &good), (1, 0))?;
    same("no message", looked(&mut book.clone(), &[]), (2, 0))?;
    let stale = message(BUYER, 1, 96, &[series("FPL01", BUYER, SELLER, 1, 96, 45_000)]);
    same("stale", looked(&mut book.clone(), &stale), (6, 0))?;
    let absent = message(BUYER, 2, 96, &[series("FPL02", SELLER, BUYER, 2, 96, 1)]);
    same("a series absent", looked(&mut book.clone(), &absent), (16, 0))?;
    let four = ["A", "B", "C", "D"].map(|id| series(id, &code_of(id), OTHER, 1, 96, 1));
    same("no room", looked(&mut book.clone(), &message(OTHER, 1, 96, &four)), (17, 0))?;
    same("just room enough", looked(&mut book.clone(), &message(OTHER, 1, 96, &four[..2])), (0, 7))
}

/// Some EIC for a party, another one for another name.
fn code_of(name: &str) -> Field {
    valid_eic(&mut Random::new(check_after(0, name.as_bytes()).into()))
}

/// A submission tells its looks, a judging has none.
fn looks_in_lines() -> Outcome {
    let mut desk = Desk::new();
    let set = [Record::Length(10 * 512), Record::Bytes { offset: 0, bytes: opened(10, 96, 45) }];
    let calls = [
        (Record::Judge(sold_to_two()), "judge 0 1 0 0 0\n"),
        (Record::Submit(sold_to_two()), "submit 0 1 0 0 0 4\n"),
        (Record::Judge(sold_to_two()), "judge 6 51 0 0 0\n"),
        (Record::Submit(sold_to_two()), "submit 6 51 0 0 0 0\n"),
    ];
    let mut line = |record: &Record| {
        let mut text = Vec::new();
        let reply = desk.answer(record).map_err(|_| "outside the buffer")?;
        desk.write_line(&reply, &mut text).map_err(|error| error.to_string())?;
        Ok::<String, String>(String::from_utf8_lossy(&text).into_owned())
    };
    set.iter().try_for_each(|record| line(record).map(|_| ()))?;
    calls.iter().try_for_each(|(record, expected)| same("the line", line(record)?.as_str(), *expected))
}

/// A series may stand before its sender, even in slot 1.
fn partners_at_both_ends() -> Outcome {
    let book = book_of_two(96, &[])?;
    let mut other = reordered(&book, &[Slot(2), Slot(1), Slot(3), Slot(4)]);
    same("soundness", is_sound(&other), true)?;
    let bought = message(BUYER, 2, 96, &[series("FPL01", BUYER, SELLER, 2, 96, 1)]);
    same("the buyer", looked(&mut other, &bought), (0, 4))?;
    same("its partner in the first slot", partner(&other, BUYER, "FPL01"), (0, 1))?;
    let sold = message(SELLER, 2, 96, &[series("TS0001", BUYER, SELLER, 2, 96, 1)]);
    same("the seller", looked(&mut other, &sold), (0, 4))?;
    same("its partner in the last slot", partner(&other, SELLER, "TS0001"), (0, 4))?;
    same("the plain run", plain_run(&other), (0, true))
}

/// The seller's series stands in slot 2; other senders fill the slots up to 995; the other's stands in slot 997.
fn partners_in_full_book() -> Outcome {
    let mut book = opened(MOST_BLOCKS, 96, 45);
    let sold = |version| message(SELLER, version, 96, &[series("S", BUYER, SELLER, version, 96, version.into())]);
    same("the seller", looked(&mut book, &sold(1)), (0, 2))?;
    let mut used = 2;
    for (number, count) in [200, 200, 200, 200, 188].into_iter().enumerate() {
        let sender = code_of(&format!("FILLER{number}"));
        let filed = |place: usize| series(&format!("F{place}"), &code_of(&format!("P{place}")), &sender, 1, 96, 1);
        let list: Vec<Block> = (0..count).map(filed).collect();
        used += 1 + count;
        same("a sender between", looked(&mut book, &message(&sender, 1, 96, &list)), (0, used))?;
    }
    let high = |version| message(OTHER, version, 96, &[series("H", OTHER, BUYER, version, 96, version.into())]);
    same("the other", looked(&mut book, &high(1)), (0, 997))?;
    let answers = [series("L", BUYER, SELLER, 1, 96, 1), series("H", OTHER, BUYER, 1, 96, 1)];
    same("the buyer", looked(&mut book, &message(BUYER, 1, 96, &answers)), (0, 1_000))?;
    same("its partner in a low slot", partner(&book, BUYER, "L"), (0, 2))?;
    same("its partner in a high slot", partner(&book, BUYER, "H"), (0, 997))?;
    same("the seller's mark", partner(&book, SELLER, "S"), (0, 999))?;
    same("the other's mark", partner(&book, OTHER, "H"), (0, 1_000))?;
    same("the seller again", looked(&mut book, &sold(2)), (0, 1_000))?;
    same("the other again", looked(&mut book, &high(2)), (0, 1_000))?;
    let late = code_of("LATE");
    let no_room = message(&late, 1, 96, &[series("A", BUYER, &late, 1, 96, 1)]);
    same("no room for one more", looked(&mut book, &no_room), (17, 0))?;
    same("the plain run", plain_run(&book), (0, true))
}

/// Areas of neighbours.
const NEIGHBOUR: &[u8; 16] = b"10YCZ-CEPS-----N";
const OTHER_NEIGHBOUR: &[u8; 16] = b"10YHU-MAVIR----U";

/// Document 02, C-14: a right to bring in from the neighbour, the same limit throughout.
fn right(holder: &Field, limit: u32) -> Block {
    let mut block = series("", holder, holder, 0, 96, limit);
    block[KIND] = KIND_RIGHT;
    block[BUSINESS_TYPE] = WITH_CAPACITY;
    block[CONTRACT_TYPE] = 1;
    put_field(&mut block, OUT_AREA, NEIGHBOUR);
    put_field(&mut block, AGREEMENT, b"CEPS-APG-D-14356");
    seal(&mut block);
    block
}

/// A block with other bytes from a place on, its check put right.
fn with(block: &Block, at: usize, bytes: &[u8]) -> Block {
    let mut other = *block;
    other[at..at + bytes.len()].copy_from_slice(bytes);
    seal(&mut other);
    other
}

/// An external schedule on the seller's right, the seller being both parties.
fn on_right(id: &str, version: u16, value: u32) -> Block {
    let mut block = series(id, SELLER, SELLER, version, 96, value);
    block[BUSINESS_TYPE] = WITH_CAPACITY;
    block[CONTRACT_TYPE] = 1;
    put_field(&mut block, OUT_AREA, NEIGHBOUR);
    put_field(&mut block, AGREEMENT, b"CEPS-APG-D-14356");
    block
}

/// The same without capacity.
fn without_capacity(id: &str, version: u16, value: u32) -> Block {
    let mut block = series(id, SELLER, SELLER, version, 96, value);
    block[BUSINESS_TYPE] = WITHOUT_CAPACITY;
    put_field(&mut block, OUT_AREA, NEIGHBOUR);
    block
}

/// A book of ten blocks with these rights.
fn book_with(rights: &[Block]) -> Result<Vec<u8>, String> {
    let mut book = opened(10, 96, 45);
    for block in rights {
        same("entering", enter(&mut book, block), 0)?;
    }
    Ok(book)
}

/// What the seller's first message with these series is answered.
fn filed(book: &[u8], list: &[Block]) -> (u8, u8, u16, u16) {
    answer(judge(book, &message(SELLER, 1, 96, list)))
}

fn entered_rights() -> Outcome {
    let held = right(SELLER, 5_000);
    let mut book = opened(10, 96, 45);
    let empty = book.clone();
    same("a right", enter(&mut book, &held), 0)?;
    same("its slot", block_at(&book, 1) == &held, true)?;
    same("all else", book[..512] == empty[..512] && book[1_024..] == empty[1_024..], true)?;
    let before = book.clone();
    same("the same again", enter(&mut book, &held), 40)?;
    same("with another limit", enter(&mut book, &right(SELLER, 6_000)), 40)?;
    same("the book", book == before, true)?;
    let turned = with(&with(&held, IN_AREA, NEIGHBOUR), OUT_AREA, AREA_CODE);
    for (what, other) in [
        ("another holder", right(BUYER, 5_000)),
        ("the other direction", turned),
        ("another area", with(&held, OUT_AREA, OTHER_NEIGHBOUR)),
        ("another contract type", with(&held, CONTRACT_TYPE, &[99])),
        ("another agreement", with(&held, AGREEMENT, &name("A"))),
    ] {
        same(what, enter(&mut book, &other), 0)?;
        same(what, enter(&mut book, &other), 40)?;
    }
    same("soundness", is_sound(&book), true)?;
    same("clock", move_clock(&mut book, Minute(DAY_START + 1_500)).0, 0)?;
    same("when all is closed", enter(&mut book, &with(&held, CONTRACT_TYPE, &[2])), 0)?;
    book[9] ^= 1;
    same("not sound", enter(&mut book, &held), 1)
}

fn malformed_rights() -> Outcome {
    let held = right(SELLER, 5_000);
    let book = opened(10, 96, 45);
    let limit = |value: u32| value.to_le_bytes();
    for (at, bytes, expected) in [
        (KIND, &[2][..], 40),
        (KIND, &[3], 40),
        (N, &[92], 40),
        (VERSION, &[1], 40),
        (BUSINESS_TYPE, &[2], 40),
        (BUSINESS_TYPE, &[6], 40),
        (CONTRACT_TYPE, &[0], 40),
        (CONTRACT_TYPE, &[100], 40),
        (CONTRACT_TYPE, &[99], 0),
        (SENDER_SLOT, &[1], 40),
        (ID, &name("A"), 40),
        (OUT_AREA, AREA_CODE, 40),
        (IN_AREA, OTHER_NEIGHBOUR, 40),
        (OUT_AREA, b"10YCZ-CEPS-----M", 40),
        (HOLDER, BUYER, 40),
        (OUT_PARTY, BUYER, 40),
        (AGREEMENT, &[0; 16], 40),
        (AGREEMENT, b"CEPS_APG-D-14356", 40),
        (AGREEMENT, SELLER, 0),
        (MARK, &[1], 40),
        (VALUES, &limit(9_999_999), 0),
        (VALUES, &limit(10_000_000), 40),
        (VALUES + 4 * 95, &limit(1 << 31), 40),
        (VALUES + 4 * 96, &limit(1), 40),
    ] {
        same(&format!("byte {at}"), enter(&mut book.clone(), &with(&held, at, bytes)), expected)?;
    }
    let nobody = with(&with(&held, HOLDER, b"14XBILANZGR-1--G"), OUT_PARTY, b"14XBILANZGR-1--G");
    same("no holder", enter(&mut book.clone(), &nobody), 40)?;
    let mut wrong = held;
    wrong[511] ^= 1;
    same("a wrong check", enter(&mut book.clone(), &wrong), 40)?;
    for length in [0, 511, 513, 1_024] {
        same(&format!("{length} bytes"), enter(&mut book.clone(), &[held, held].concat()[..length]), 40)?;
    }
    same("512 bytes", enter(&mut book.clone(), &[held, held].concat()[..512]), 0)
}

/// A right takes the lowest free slot, and a message those behind it.
fn slots_of_rights() -> Outcome {
    let mut book = opened(5, 96, 45);
    let sold = message(SELLER, 1, 96, &[series("S", BUYER, SELLER, 1, 96, 1)]);
    same("a right", enter(&mut book, &right(OTHER, 1)), 0)?;
    same("a message", looked(&mut book, &sold), (0, 3))?;
    same("a right behind it", enter(&mut book, &right(SELLER, 1)), 0)?;
    let kinds: Vec<u8> = blocks(&book).map(|block| block[KIND]).collect();
    same("the blocks", kinds, vec![3, 4, 1, 2, 4])?;
    let before = book.clone();
    same("no slot is free", enter(&mut book, &right(BUYER, 1)), 17)?;
    same("it stands there", enter(&mut book, &right(SELLER, 2)), 40)?;
    same("no right at all", enter(&mut book, &[]), 40)?;
    same("the book", book == before, true)?;
    let more = [series("S", BUYER, SELLER, 1, 96, 1), on_right("T", 2, 1)];
    same("no room", answer(submit(&mut book, &message(SELLER, 2, 96, &more))), (17, 0, 0, 0))
}

fn series_on_rights() -> Outcome {
    let book = book_with(&[right(SELLER, 5_000)])?;
    let empty = opened(10, 96, 45);
    same("no right", filed(&empty, &[on_right("A", 1, 1)]), (18, 59, 1, 0))?;
    same("no right, and nothing on it", filed(&empty, &[on_right("A", 1, 0)]), (18, 59, 1, 0))?;
    same("without capacity", filed(&empty, &[without_capacity("A", 1, 9_999_999)]), ACCEPTED)?;
    same("up to the limit", filed(&book, &[on_right("A", 1, 5_000)]), ACCEPTED)?;
    same("above it", filed(&book, &[on_right("A", 1, 5_001)]), (19, 59, 1, 1))?;
    let mut once = on_right("A", 1, 5_000);
    put_quantity(&mut once, Position(96), 5_001);
    same("above it at the end", filed(&book, &[series("S", BUYER, SELLER, 1, 96, 1), once]), (19, 59, 2, 96))?;
    for (what, at, bytes) in [
        ("another contract type", CONTRACT_TYPE, &[2][..]),
        ("another area", OUT_AREA, OTHER_NEIGHBOUR),
        ("another agreement", AGREEMENT, b"CEPS-APG-D-14357"),
    ] {
        same(what, filed(&book, &[with(&on_right("A", 1, 0), at, bytes)]), (18, 59, 1, 0))?;
    }
    let turned = with(&with(&on_right("A", 1, 0), IN_AREA, NEIGHBOUR), OUT_AREA, AREA_CODE);
    same("the other direction", filed(&book, &[turned]), (18, 59, 1, 0))?;
    same("other parties", filed(&book, &[with(&on_right("A", 1, 5_000), OUT_PARTY, BUYER)]), ACCEPTED)
}

fn sums_on_rights() -> Outcome {
    let mut book = book_with(&[right(SELLER, 5_000), with(&right(SELLER, 5_000), CONTRACT_TYPE, &[2])])?;
    let second = |version, value| with(&on_right("B", version, value), OUT_PARTY, BUYER);
    let third = |value| with(&on_right("C", 1, value), IN_PARTY, OTHER);
    let elsewhere = with(&on_right("D", 1, 5_000), CONTRACT_TYPE, &[2]);
    same("two", filed(&book, &[on_right("A", 1, 2_000), second(1, 3_000)]), ACCEPTED)?;
    same("two above", filed(&book, &[on_right("A", 1, 2_000), second(1, 3_001)]), (19, 59, 2, 1))?;
    let three = |value| [on_right("A", 1, 2_000), elsewhere, second(1, 2_000), third(value)];
    same("three, and one elsewhere", filed(&book, &three(1_000)), ACCEPTED)?;
    same("the third above", filed(&book, &three(1_001)), (19, 59, 4, 1))?;
    // What is kept counts as it stands in the message.
    let list = [on_right("A", 1, 2_000), second(1, 3_000)];
    same("filed", answer(submit(&mut book, &message(SELLER, 1, 96, &list))), ACCEPTED)?;
    let list = [on_right("A", 2, 1_000), second(2, 4_000)];
    same("moved", answer(submit(&mut book, &message(SELLER, 2, 96, &list))), ACCEPTED)?;
    let list = [on_right("A", 2, 1_000), second(3, 4_001)];
    same("one more", answer(submit(&mut book, &message(SELLER, 3, 96, &list))), (19, 59, 2, 1))
}

fn whose_right() -> Outcome {
    let book = book_with(&[right(BUYER, 9_000), right(SELLER, 5_000), right(OTHER, 1_000)])?;
    same("within one's own", filed(&book, &[on_right("A", 1, 5_000)]), ACCEPTED)?;
    same("above one's own", filed(&book, &[on_right("A", 1, 5_001)]), (19, 59, 1, 1))?;
    let book = book_with(&[right(BUYER, 9_000)])?;
    let with_holder = with(&on_right("A", 1, 1), OUT_PARTY, BUYER);
    same("another's", filed(&book, &[with_holder]), (18, 59, 1, 0))
}

fn known_keys() -> Outcome {
    let mut book = book_with(&[right(SELLER, 5_000)])?;
    let list = [series("S", BUYER, SELLER, 1, 96, 1), on_right("A", 1, 1), without_capacity("B", 1, 1)];
    same("filed", answer(submit(&mut book, &message(SELLER, 1, 96, &list))), ACCEPTED)?;
    let parts: [(usize, &[u8]); 7] = [
        (BUSINESS_TYPE, &[4]),
        (CONTRACT_TYPE, &[5]),
        (IN_AREA, OTHER_NEIGHBOUR),
        (OUT_AREA, OTHER_NEIGHBOUR),
        (IN_PARTY, OTHER),
        (OUT_PARTY, OTHER),
        (AGREEMENT, &name("X")),
    ];
    for (at, bytes) in parts {
        for number in 0..3 {
            let mut other = list;
            other[number] = with(&other[number], at, bytes);
            let verdict = judge(&book, &message(SELLER, 2, 96, &other));
            same(&format!("byte {at}"), answer(verdict), (7, 55, number as u16 + 1, 0))?;
        }
    }
    let renamed = with(&on_right("C", 2, 1), OUT_PARTY, SELLER);
    let verdict = judge(&book, &message(SELLER, 2, 96, &[list[0], renamed, list[2]]));
    same("kept under another id", answer(verdict), (7, 55, 2, 0))?;
    let twice = [on_right("A", 1, 1), on_right("B", 1, 1)];
    same("twice in a message", filed(&book_with(&[right(SELLER, 5_000)])?, &twice), (7, 55, 2, 0))?;
    // One pair, told apart by what else belongs to the key.
    let trade = series("S", BUYER, SELLER, 1, 96, 1);
    let foreign = with(&series("T", BUYER, SELLER, 1, 96, 1), OUT_AREA, NEIGHBOUR);
    same("another area", filed(&opened(10, 96, 45), &[trade, foreign]), (9, 23, 2, 0))?;
    let external = with(&with(&without_capacity("T", 1, 1), IN_PARTY, BUYER), OUT_PARTY, SELLER);
    same("an external schedule", filed(&opened(10, 96, 45), &[trade, external]), ACCEPTED)
}

fn areas_and_capacity() -> Outcome {
    let book = book_with(&[right(SELLER, 5_000)])?;
    let (trade, with_right, without) =
        (series("S", BUYER, SELLER, 1, 96, 1), on_right("S", 1, 1), without_capacity("S", 1, 1));
    for (what, block, at, bytes, expected) in [
        ("A02 with a foreign area", &trade, IN_AREA, &NEIGHBOUR[..], 9),
        ("A06 with both areas ours", &without, OUT_AREA, AREA_CODE, 9),
        ("A03 with both areas ours", &with_right, OUT_AREA, AREA_CODE, 9),
        ("A06 with no area ours", &without, IN_AREA, OTHER_NEIGHBOUR, 9),
        ("A06 with no EIC", &without, OUT_AREA, b"10YCZ-CEPS-----M", 9),
        ("an A02 turned A06", &trade, BUSINESS_TYPE, &[6], 9),
        ("an A06 turned A02", &with(&without, OUT_PARTY, BUYER), BUSINESS_TYPE, &[2], 9),
        ("another type", &trade, BUSINESS_TYPE, &[4], 10),
        ("A02 with a contract type", &trade, CONTRACT_TYPE, &[1], 10),
        ("A06 with a contract type", &without, CONTRACT_TYPE, &[1], 10),
        ("A06 with an agreement", &without, AGREEMENT, b"CEPS-APG-D-14356", 10),
        ("A03 without a contract type", &with_right, CONTRACT_TYPE, &[0], 10),
        ("A03 with contract type 100", &with_right, CONTRACT_TYPE, &[100], 10),
        ("A03 without an agreement", &with_right, AGREEMENT, &[0; 16], 10),
        ("A03 with a malformed agreement", &with_right, AGREEMENT, b"CEPS_APG-D-14356", 10),
    ] {
        let code = if expected == 9 { 23 } else { 62 };
        same(what, filed(&book, &[with(block, at, bytes)]), (expected, code, 1, 0))?;
    }
    Ok(())
}

fn external_parties() -> Outcome {
    let book = book_with(&[right(SELLER, 5_000)])?;
    let good: &Field = BUYER;
    for block in [on_right("A", 1, 1), without_capacity("A", 1, 1)] {
        let parties = |in_party: &Field, out_party: &Field| {
            let verdict =
                judge(&book, &message(SELLER, 1, 96, &[with(&with(&block, IN_PARTY, in_party), OUT_PARTY, out_party)]));
            (verdict.number(), verdict.character)
        };
        same("the sender twice", parties(SELLER, SELLER), (0, 0))?;
        same("the sender in", parties(SELLER, good), (0, 0))?;
        same("the sender out", parties(good, SELLER), (0, 0))?;
        same("two others", parties(good, OTHER), (8, 0))?;
        same("another twice", parties(good, good), (8, 0))?;
        same("no EIC", parties(SELLER, b"14XBG_EMPFANG--0"), (8, 6))?;
    }
    Ok(())
}

fn external_nets() -> Outcome {
    let turned = |block: &Block| with(&with(block, IN_AREA, NEIGHBOUR), OUT_AREA, AREA_CODE);
    for parties in [(SELLER, SELLER), (SELLER, BUYER), (BUYER, SELLER)] {
        let put = |block: &Block| with(&with(block, IN_PARTY, parties.0), OUT_PARTY, parties.1);
        let mut book = book_with(&[right(SELLER, 5_000)])?;
        let list = [
            put(&on_right("A", 1, 1_000)),
            put(&without_capacity("B", 1, 200)),
            put(&turned(&without_capacity("C", 1, 30))),
            series("S", BUYER, SELLER, 1, 96, 4),
        ];
        let sent = message(SELLER, 1, 96, &list);
        same("filed", answer(submit(&mut book, &sent)), ACCEPTED)?;
        same("the net", nets(block_at(&book, 2)).take(97).collect::<Vec<_>>(), [vec![1_166; 96], vec![0]].concat())?;
        same("the plain run", plain_run(&book), (0, true))?;
        same("the plain rule", plain_rule::matching(&[sent], AREA_CODE).nets[SELLER][95], 1_166)?;
    }
    Ok(())
}

/// Both sides file one pair: as an internal trade, as an external schedule.
fn external_marks() -> Outcome {
    let outward = |id: &str| with(&with(&without_capacity(id, 1, 5), IN_PARTY, BUYER), OUT_PARTY, SELLER);
    let trade = |id: &str| series(id, BUYER, SELLER, 1, 96, 5);
    for (sold, bought, partner_of_sold) in [
        (vec![trade("S")], vec![outward("B")], 0),
        (vec![outward("S")], vec![trade("B")], 0),
        (vec![outward("S")], vec![outward("B")], 0),
        (vec![trade("S"), outward("T")], vec![outward("A"), trade("B")], 6),
    ] {
        let mut book = opened(10, 96, 45);
        same("the seller", answer(submit(&mut book, &message(SELLER, 1, 96, &sold))), ACCEPTED)?;
        same("the buyer", answer(submit(&mut book, &message(BUYER, 1, 96, &bought))), ACCEPTED)?;
        same("the seller's partner", partner(&book, SELLER, "S"), (0, partner_of_sold))?;
        same("the buyer's", partner(&book, BUYER, "B"), (0, if partner_of_sold == 0 { 0 } else { 2 }))?;
        for (slot, block) in blocks(&book).enumerate().filter(|(_, block)| block[KIND] == KIND_SERIES) {
            let alone = block[MARK..VALUES] == [0; 4];
            same(&format!("the mark in slot {slot}"), alone || block[BUSINESS_TYPE] == INTERNAL_TRADE, true)?;
        }
        same("the plain run", plain_run(&book), (0, true))?;
    }
    Ok(())
}

fn external_finals() -> Outcome {
    let outward = with(&with(&without_capacity("X", 1, 7), IN_PARTY, BUYER), OUT_PARTY, SELLER);
    let own = without_capacity("Y", 1, 9);
    for (list, expected) in
        [(vec![outward, own], (26, 0)), (vec![outward, own, series("S", BUYER, SELLER, 1, 96, 5)], (0, 5))]
    {
        let mut book = opened_by(SELLERS_RULE);
        same("filed", answer(submit(&mut book, &message(SELLER, 1, 96, &list))), ACCEPTED)?;
        same("clock", move_clock(&mut book, Minute(DAY_START + 16)).0, 0)?;
        same("the final", final_value(&book, SELLER, BUYER, Position(5)), expected)?;
        same("equal parties", final_value(&book, SELLER, SELLER, Position(5)), (26, 0))?;
    }
    Ok(())
}

/// After 13, before 14.
fn order_of_rights() -> Outcome {
    let mut book = book_with(&[right(SELLER, 5_000)])?;
    let lost = |value| with(&on_right("A", 1, value), CONTRACT_TYPE, &[2]);
    let put = |block: &Block, position: u16, value: u32| {
        let mut other = *block;
        put_quantity(&mut other, Position(position), value);
        other
    };
    same("10 before 18", filed(&book, &[with(&lost(0), AGREEMENT, &[0; 16])]), (10, 62, 1, 0))?;
    same("11 before 18", filed(&book, &[put(&lost(0), 96, 1 << 31)]), (11, 46, 1, 96))?;
    same("12 before 18", filed(&book, &[put(&lost(0), 96, 10_000_000)]), (12, 42, 1, 96))?;
    same("13 before 18", filed(&book, &[put(&lost(0), 97, 1)]), (13, 49, 1, 97))?;
    same("13 before 19", filed(&book, &[put(&on_right("A", 1, 5_001), 97, 1)]), (13, 49, 1, 97))?;
    same("18 before 15", filed(&book, &[with(&lost(0), VERSION, &[2])]), (18, 59, 1, 0))?;
    same("19 before 15", filed(&book, &[with(&on_right("A", 1, 5_001), VERSION, &[2])]), (19, 59, 1, 1))?;
    same("clock", move_clock(&mut book, Minute(DAY_START + 16)).0, 0)?;
    same("18 before 14", filed(&book, &[lost(1)]), (18, 59, 1, 0))?;
    let late = put(&on_right("A", 1, 0), 1, 1);
    same("14", filed(&book, &[late]), (14, 57, 1, 1))?;
    same("19 before 14", filed(&book, &[put(&late, 96, 5_001)]), (19, 59, 1, 96))?;
    // A series passes all of its rules before the next begins.
    let malformed = with(&on_right("B", 1, 0), ID, &[0; 16]);
    same("19 before the next series", filed(&book, &[put(&on_right("A", 1, 0), 96, 5_001), malformed]), (19, 59, 1, 96))
}

/// An id is tied to its type: else a final that was given could be taken away.
fn turned_trades() -> Outcome {
    let mut book = closed_book(SELLERS_RULE, Some(45_000), None)?;
    let given = final_value(&book, SELLER, BUYER, Position(5));
    same("given", given, (0, 45_000))?;
    let outward = with(&with(&without_capacity("S", 1, 45_000), IN_PARTY, BUYER), OUT_PARTY, SELLER);
    same("turned", answer(submit(&mut book, &message(SELLER, 2, 96, &[outward]))), (7, 55, 1, 0))?;
    same("the final", final_value(&book, SELLER, BUYER, Position(5)), given)
}

fn rights_in_sound_books() -> Outcome {
    let mut book = book_with(&[right(SELLER, 5_000), right(BUYER, 5_000)])?;
    let filed = message(SELLER, 1, 96, &[on_right("A", 1, 5_000), without_capacity("B", 1, 1)]);
    same("filed", answer(submit(&mut book, &filed)), ACCEPTED)?;
    let put = |slot: usize, at: usize, bytes: &[u8]| {
        let mut other = book.clone();
        *block_at_mut(&mut other, slot) = with(block_at(&book, slot), at, bytes);
        is_sound(&other)
    };
    same("soundness", is_sound(&book), true)?;
    same("a lower limit than is claimed", put(1, VALUES, &[0; 4]), true)?;
    same("no such right", put(1, CONTRACT_TYPE, &[7]), true)?;
    same("a right with a version", put(1, VERSION, &[1]), false)?;
    same(
        "two alike but for their limits",
        {
            let mut other = book.clone();
            *block_at_mut(&mut other, 2) = right(SELLER, 4_000);
            is_sound(&other)
        },
        false,
    )?;
    same("any mark of an external schedule", put(4, MARK, &[96, 96, 5, 0]), true)?;
    same("a right's slot as partner", put(4, PARTNER, &[1, 0]), false)?;
    same("a right's slot as sender's", put(4, SENDER_SLOT, &[1, 0]), false)?;
    same("A03 without an agreement", put(4, AGREEMENT, &[0; 16]), false)?;
    same("A06 with both areas ours", put(5, OUT_AREA, AREA_CODE), false)?;
    same(
        "one key twice",
        {
            let mut other = book.clone();
            *block_at_mut(&mut other, 5) = with(block_at(&book, 4), ID, &name("B"));
            is_sound(&other)
        },
        false,
    )?;
    let lines = listing(&book).iter().filter(|&&byte| byte == b'\n').count();
    same("lines of the listing", lines, 3)
}

fn converted_externals() -> Outcome {
    let mut book = book_with(&[right(SELLER, 5_000)])?;
    let filed = message(SELLER, 1, 96, &[on_right("A", 1, 5_000), series("S", BUYER, SELLER, 1, 96, 1)]);
    same("filed", answer(submit(&mut book, &filed)), ACCEPTED)?;
    let old = with_byte_104(&with_byte_104(&book, 3, 1), 4, 1);
    let mut converted = old.clone();
    same("the old book", (convert(&mut converted), converted == book), (0, true))?;
    let mut wrong = with_byte_104(&old, 3, 3);
    *block_at_mut(&mut wrong, 3) = with(block_at(&wrong, 3), FIRST, &[9, 4, 0]);
    put_nets(block_at_mut(&mut wrong, 2), &[0; POSITIONS]);
    seal(block_at_mut(&mut wrong, 2));
    same("a false old book", (convert(&mut wrong), wrong == book), (0, true))?;
    let mut count = with_byte_104(&old, 3, 0);
    same("no state", convert(&mut count), 1)
}

fn rights_in_lines() -> Outcome {
    let mut desk = Desk::new();
    let held = right(SELLER, 5_000).to_vec();
    let records = [
        (Record::Right(held.clone()), "right 1\n"),
        (Record::Length(2 * 512), "length 1024\n"),
        (Record::Bytes { offset: 0, bytes: opened(2, 96, 45) }, "bytes 0 1024\n"),
        (Record::Right(held.clone()), "right 0\n"),
        (Record::Right(held), "right 40\n"),
        (Record::Right(right(BUYER, 5_000).to_vec()), "right 17\n"),
        (Record::Judge(message(SELLER, 1, 96, &[on_right("A", 1, 5_001)])), "judge 19 59 1 1 0\n"),
        (
            Record::Submit(message(BUYER, 1, 96, &[with(&on_right("A", 1, 0), OUT_PARTY, BUYER)])),
            "submit 18 59 1 0 0 0\n",
        ),
        (Record::Code(18), "code 59\n"),
        (Record::Code(19), "code 59\n"),
        (Record::Code(40), "code 0\n"),
        (
            Record::Listing,
            "listing 736c6f742073656e6465722073657269657320696e206f75742064696666657220666972737420706172746e65720a\n",
        ),
    ];
    for (record, expected) in records {
        let mut text = Vec::new();
        let reply = desk.answer(&record).map_err(|_| "outside the buffer")?;
        desk.write_line(&reply, &mut text).map_err(|error| error.to_string())?;
        same("the line", String::from_utf8_lossy(&text).as_ref(), expected)?;
    }
    Ok(())
}

/// Number, bought and sold of a party at position 5.
fn at_5(book: &[u8], party: &[u8]) -> (u8, u64, u64) {
    let (number, sums) = settled(book, party, Position(5));
    (number, sums.bought, sums.sold)
}

/// Document 02, C-20: a trade counts once, by the book's rule, for its buyer and for its seller.
fn settled_of_two() -> Outcome {
    for (sold, bought, by_seller, lesser) in [
        (Some(45_000), Some(44_000), 45_000, 44_000),
        (Some(44_000), Some(45_000), 44_000, 44_000),
        (Some(45_000), Some(45_000), 45_000, 45_000),
        (Some(45_000), None, 45_000, 0),
        (None, Some(45_000), 0, 0),
        (None, None, 0, 0),
    ] {
        for (rule, expected) in [(SELLERS_RULE, by_seller), (LESSER_RULE, lesser)] {
            let book = closed_book(rule, sold, bought)?;
            let what = format!("rule {rule}, {sold:?} sold and {bought:?} bought");
            same(&what, at_5(&book, BUYER), (0, expected, 0))?;
            same(&what, at_5(&book, SELLER), (0, 0, expected))?;
            same(&what, at_5(&book, OTHER), (0, 0, 0))?;
        }
    }
    Ok(())
}

/// A book of this rule, closed up to position 5. The seller sells 45,000 to the buyer, who has 44,000, and buys 10,000
/// from it, who has 12,000. It also sells 7,000 to another, and the buyer buys 3,000 from that one, who files nothing.
fn book_of_three(rule: u8) -> Result<Vec<u8>, String> {
    let mut book = opened_by(rule);
    let of_seller = [
        series("S1", BUYER, SELLER, 1, 96, 45_000),
        series("S2", SELLER, BUYER, 1, 96, 10_000),
        series("S3", OTHER, SELLER, 1, 96, 7_000),
    ];
    let of_buyer = [
        series("B1", BUYER, SELLER, 1, 96, 44_000),
        series("B2", SELLER, BUYER, 1, 96, 12_000),
        series("B3", BUYER, OTHER, 1, 96, 3_000),
    ];
    same("the seller files", answer(submit(&mut book, &message(SELLER, 1, 96, &of_seller))), ACCEPTED)?;
    same("the buyer files", answer(submit(&mut book, &message(BUYER, 1, 96, &of_buyer))), ACCEPTED)?;
    same("clock", move_clock(&mut book, Minute(DAY_START + 16)).0, 0)?;
    Ok(book)
}

fn pairs_counted_once() -> Outcome {
    let by_seller = [(SELLER, 12_000, 52_000), (BUYER, 45_000, 12_000), (OTHER, 7_000, 0)];
    let lesser = [(SELLER, 10_000, 44_000), (BUYER, 44_000, 10_000), (OTHER, 0, 0)];
    for (rule, expected, total) in [(SELLERS_RULE, by_seller, 64_000), (LESSER_RULE, lesser, 54_000)] {
        let book = book_of_three(rule)?;
        let sound = SoundBook::of(&book).ok_or("the book is not sound")?;
        same(
            "pairs",
            pairs(&sound),
            [(*SELLER, *BUYER), (*BUYER, *SELLER), (*SELLER, *OTHER), (*OTHER, *BUYER)].into(),
        )?;
        same("parties", parties(&sound), [*SELLER, *BUYER, *OTHER].into())?;
        for (party, bought, sold) in expected {
            same(&format!("rule {rule}"), at_5(&book, party), (0, bought, sold))?;
        }
        let sums: Vec<(u8, u64, u64)> = parties(&sound).iter().map(|party| at_5(&book, party)).collect();
        same("bought by all", sums.iter().map(|sum| sum.1).sum(), total)?;
        same("sold by all", sums.iter().map(|sum| sum.2).sum(), total)?;
    }
    Ok(())
}

fn settled_refused() -> Outcome {
    let mut book = book_of_three(SELLERS_RULE)?;
    let numbers = |book: &[u8], position: u16| {
        [&SELLER[..], OTHER, AREA_CODE, b"", &[0; 16]].map(|party| settled(book, party, Position(position)))
    };
    let of = |number: u8| [(number, Default::default()); 5];
    for (position, number) in [(0, 24), (6, 25), (96, 25), (97, 24), (100, 24), (255, 24), (261, 24), (65_535, 24)] {
        same(&format!("position {position}"), numbers(&book, position), of(number))?;
    }
    book[9] ^= 1;
    for position in [0, 5, 6, 97] {
        same("not sound", numbers(&book, position), of(1))?;
    }
    same("no book", numbers(&[], 5), of(1))
}

/// A name that no party has gives zeros, also one of another length.
fn settled_of_strangers() -> Outcome {
    let book = book_of_three(SELLERS_RULE)?;
    let longer = [&SELLER[..], b"\0"].concat();
    let names: [&[u8]; 8] =
        [AREA_CODE, RECEIVER_CODE, b"14XBILANZGR-1--G", &[0; 16], &SELLER[..15], &longer, &[b'A'; 64], b""];
    names.iter().try_for_each(|name| same(&format!("{name:?}"), at_5(&book, name), (0, 0, 0)))?;
    let empty = &mut opened(4, 96, 45);
    same("clock", move_clock(empty, Minute(DAY_START + 16)).0, 0)?;
    same("a book without series", at_5(empty, SELLER), (0, 0, 0))?;
    same("its parties", parties(&SoundBook::of(empty).ok_or("the book is not sound")?).len(), 0)
}

/// The holder of a right and the parties of external schedules are no parties for that.
fn settled_without_externals() -> Outcome {
    let outward = with(&with(&without_capacity("X", 1, 7), IN_PARTY, BUYER), OUT_PARTY, SELLER);
    let on_right = with(&on_right("Y", 1, 9), OUT_PARTY, OTHER);
    let trade = series("S", BUYER, SELLER, 1, 96, 5);
    for (list, value, number) in [(vec![outward, on_right], 0, 0), (vec![outward, on_right, trade], 5, 2)] {
        let mut book = opened_by(SELLERS_RULE);
        same("a right", enter(&mut book, &right(SELLER, 5_000)), 0)?;
        same("filed", answer(submit(&mut book, &message(SELLER, 1, 96, &list))), ACCEPTED)?;
        same("clock", move_clock(&mut book, Minute(DAY_START + 16)).0, 0)?;
        same("the seller", at_5(&book, SELLER), (0, 0, value))?;
        same("the buyer", at_5(&book, BUYER), (0, value, 0))?;
        same("the other", at_5(&book, OTHER), (0, 0, 0))?;
        same("parties", parties(&SoundBook::of(&book).ok_or("the book is not sound")?).len(), number)?;
    }
    Ok(())
}

/// No mark or net is read.
fn settled_beside_marks() -> Outcome {
    let book = book_of_three(LESSER_RULE)?;
    let mut other = book.clone();
    for slot in 1..9 {
        let block = block_at_mut(&mut other, slot);
        match block[KIND] {
            KIND_SERIES => put_mark(block, Mark { differ: 96, first: Position(7), partner: Slot(slot as u16) }),
            _ => put_nets(block, &[0; POSITIONS]),
        }
        seal(block);
    }
    same("the plain run", plain_run(&other), (0, false))?;
    for party in [SELLER, BUYER, OTHER] {
        same("the sums", at_5(&other, party), at_5(&book, party))?;
    }
    Ok(())
}

/// 500 sellers of the highest quantity to one buyer, who files nothing: 4,999,999,500 by the seller's rule.
fn settled_above_32_bits() -> Outcome {
    let mut book = vec![0; MOST_BLOCKS * BLOCK_BYTES];
    same("opening", open_by(&mut book, 96, 45, SELLERS_RULE, DAY_TEXT, AREA_CODE, RECEIVER_CODE), (0, 0))?;
    for (number, expected) in [(429, 4_289_999_571), (430, 4_299_999_570), (500, 4_999_999_500)] {
        let filed = blocks(&book).filter(|block| block[KIND] == KIND_SENDER).count();
        for seller in (filed..number).map(|place| code_of(&format!("SELLER{place}"))) {
            let sold = message(&seller, 1, 96, &[series("S", BUYER, &seller, 1, 96, HIGHEST_QUANTITY)]);
            same("a seller files", answer(submit(&mut book, &sold)), ACCEPTED)?;
        }
        let mut closed = book.clone();
        same("clock", move_clock(&mut closed, Minute(DAY_START + 16)).0, 0)?;
        same("the buyer", at_5(&closed, BUYER), (0, expected, 0))?;
        same("a seller", at_5(&closed, &code_of("SELLER428")), (0, 0, 9_999_999))?;
        closed[RULE] = LESSER_RULE;
        seal(block_at_mut(&mut closed, 0));
        same("by the lesser value", at_5(&closed, BUYER), (0, 0, 0))?;
    }
    Ok(())
}

fn settled_in_lines() -> Outcome {
    let mut desk = Desk::new();
    let ask = |party: &[u8], position: u16| Record::Settled { party: party.to_vec(), position };
    let records = [
        (ask(SELLER, 5), "settled 1 0 0\n"),
        (Record::Length(10 * 512), "length 5120\n"),
        (Record::Bytes { offset: 0, bytes: book_of_three(SELLERS_RULE)? }, "bytes 0 5120\n"),
        (ask(SELLER, 5), "settled 0 12000 52000\n"),
        (ask(BUYER, 1), "settled 0 45000 12000\n"),
        (ask(OTHER, 5), "settled 0 7000 0\n"),
        (ask(AREA_CODE, 5), "settled 0 0 0\n"),
        (ask(b"", 5), "settled 0 0 0\n"),
        (ask(SELLER, 6), "settled 25 0 0\n"),
        (ask(SELLER, 97), "settled 24 0 0\n"),
    ];
    for (record, expected) in records {
        let mut text = Vec::new();
        let reply = desk.answer(&record).map_err(|_| "outside the buffer")?;
        desk.write_line(&reply, &mut text).map_err(|error| error.to_string())?;
        same("the line", String::from_utf8_lossy(&text).as_ref(), expected)?;
    }
    Ok(())
}

#[cfg(test)]
mod tests {
    use super::EXAMPLES;

    #[test]
    fn every_worked_example_holds() {
        for (name, example) in EXAMPLES {
            if let Err(failure) = example() {
                panic!("{name}: {failure}");
            }
        }
    }
}
