//! What can be read from a sound book: marks, accepted blocks, finals and the plain run.

use std::collections::HashMap;

use crate::block::*;
use crate::book::SoundBook;
use crate::counts::{Position, Slot};

pub const NOT_SOUND: u8 = 1;
pub const UNKNOWN_SERIES: u8 = 23;
pub const NO_POSITION: u8 = 24;
pub const NOT_CLOSED: u8 = 25;
pub const UNKNOWN_PAIR: u8 = 26;

/// The mark kept for a sender's series; number and zeros if refused. A sender or id that is
/// unknown, malformed or of another length is simply not found.
pub fn mark_of(book: &[u8], sender: &[u8], id: &[u8]) -> (u8, Mark) {
    let zeros = Mark { differ: 0, first: Position(0), partner: Slot(0) };
    match SoundBook::of(book).map(|sound| sound.find_series(sender, id)) {
        None => (NOT_SOUND, zeros),
        Some(None) => (UNKNOWN_SERIES, zeros),
        Some(Some((_, block))) => (0, mark(block)),
    }
}

/// The block of a sender's series as a part of the book; empty if refused.
pub fn accepted_block<'book>(book: &'book [u8], sender: &[u8], id: &[u8]) -> (u8, &'book [u8]) {
    match SoundBook::of(book).map(|sound| sound.find_series(sender, id)) {
        None => (NOT_SOUND, &[]),
        Some(None) => (UNKNOWN_SERIES, &[]),
        Some(Some((_, block))) => (0, block),
    }
}

/// The final value of what the out party sells to the in party at a closed position.
pub fn final_value(book: &[u8], out_party: &[u8], in_party: &[u8], position: Position) -> (u8, u32) {
    match SoundBook::of(book) {
        None => (NOT_SOUND, 0),
        Some(sound) => final_in(&sound, out_party, in_party, position),
    }
}

/// The same in a book already found sound.
pub fn final_in(book: &SoundBook, out_party: &[u8], in_party: &[u8], position: Position) -> (u8, u32) {
    if let Some(number) = nothing_final_at(book, position) {
        return (number, 0);
    }
    // At most two internal trades carry the pair, the seller's and the buyer's. One that is missing counts 0.
    let (mut sold, mut bought) = (None, None);
    for (_, block) in book.series().filter(|(_, block)| is_internal(block)) {
        let (bought_by, sold_by) = pair(block);
        if bought_by == *in_party && sold_by == *out_party {
            let side = if book.owner(block) == sold_by { &mut sold } else { &mut bought };
            *side = Some(quantity(block, position));
        }
    }
    match (sold, bought) {
        (None, None) => (UNKNOWN_PAIR, 0),
        _ => (0, by_rule(book.rule(), sold.unwrap_or(0), bought.unwrap_or(0))),
    }
}

/// Why nothing is final at a position, if so: there is no such position, or it is not closed.
pub fn nothing_final_at(book: &SoundBook, position: Position) -> Option<u8> {
    if position.0 == 0 || position.0 > u16::from(book.n()) {
        Some(NO_POSITION)
    } else if position.is_open(book.clock(), book.lead()) {
        Some(NOT_CLOSED)
    } else {
        None
    }
}

/// The final of a trade by the rule of its book.
fn by_rule(rule: u8, sold: u32, bought: u32) -> u32 {
    if rule == LESSER_RULE {
        sold.min(bought)
    } else {
        sold
    }
}

/// Computes every mark and net anew from the series and tells whether the book keeps just these.
pub fn plain_run(book: &[u8]) -> (u8, bool) {
    match SoundBook::of(book) {
        None => (NOT_SOUND, false),
        Some(sound) => (0, marks_are_true(&sound) && nets_are_true(&sound)),
    }
}

fn marks_are_true(book: &SoundBook) -> bool {
    plain_marks(book).into_iter().all(|(slot, truth)| mark(book.block(slot)) == truth)
}

fn nets_are_true(book: &SoundBook) -> bool {
    plain_nets(book).into_iter().all(|(slot, truth)| nets(book.block(slot)).eq(truth))
}

/// The mark of every series by the plain rule, whatever the book keeps. External schedules are alone.
pub fn plain_marks(book: &SoundBook) -> Vec<(Slot, Mark)> {
    let mut slots: HashMap<(Field, (Field, Field)), Slot> = HashMap::new();
    for (slot, block) in book.series().filter(|(_, block)| is_internal(block)) {
        slots.insert((book.owner(block), pair(block)), slot);
    }
    let of_series = |block: &Block| {
        let (in_party, out_party) = pair(block);
        let other = if book.owner(block) == in_party { out_party } else { in_party };
        match slots.get(&(other, (in_party, out_party))).filter(|_| is_internal(block)) {
            None => Mark::ALONE,
            Some(&partner) => Mark::between(block, book.block(partner), book.n(), partner),
        }
    };
    book.series().map(|(slot, block)| (slot, of_series(block))).collect()
}

/// The nets of every sender by the plain rule. A sound sender has at most 200 series, so 32 bits hold them.
pub fn plain_nets(book: &SoundBook) -> Vec<(Slot, [i32; POSITIONS])> {
    let mut sums: HashMap<Slot, [i32; POSITIONS]> = HashMap::new();
    for (_, block) in book.series() {
        let owner = Slot(u16_at(block, SENDER_SLOT));
        let up = counts_up(block, &book.owner(block), &book.area());
        let sum = sums.entry(owner).or_insert([0; POSITIONS]);
        for (sum, value) in sum.iter_mut().zip(quantities(block)) {
            *sum += if up { value as i32 } else { -(value as i32) };
        }
    }
    book.senders().map(|(slot, _)| (slot, sums.get(&slot).copied().unwrap_or([0; POSITIONS]))).collect()
}
