//! Opening a book and moving its clock.

use crate::block::*;
use crate::book::SoundBook;
use crate::counts::{Minute, LATEST_MINUTE, LONGEST_LEAD};
use crate::identifier::wrong_character;
use crate::sound::{is_day, is_rule, length_is_right, NS};

pub const NOT_SOUND: u8 = 1;
pub const WRONG_LENGTH: u8 = 20;
pub const WRONG_PARAMETER: u8 = 21;
pub const WRONG_MINUTE: u8 = 22;

/// What the clock call hands back beside its number; all zero when the book is not sound.
#[derive(Clone, Copy, Debug, PartialEq, Eq)]
pub struct DayState {
    pub n: u8,
    pub lead: u16,
    pub clock: Minute,
}

/// Opens a book whose finals are given by the lesser value: an opening that names no rule.
pub fn open(book: &mut [u8], n: u8, lead: u16, day: &[u8], area: &[u8], receiver: &[u8]) -> (u8, u8) {
    open_by(book, n, lead, LESSER_RULE, day, area, receiver)
}

/// Opens a book: a fresh day block at the earliest minute, with the rule that is named, and nothing in any
/// slot. What the buffer held before is not looked at. A refused opening writes nothing. Beside its number
/// the call tells a wrong character: on 21 the area's and, where the area is good, the receiver's, whatever
/// else is wrong.
pub fn open_by(book: &mut [u8], n: u8, lead: u16, rule: u8, day: &[u8], area: &[u8], receiver: &[u8]) -> (u8, u8) {
    if !length_is_right(book.len()) {
        return (WRONG_LENGTH, 0);
    }
    let character = match wrong_character(area) {
        0 => wrong_character(receiver),
        of_area => of_area,
    };
    let lawful = NS.contains(&n) && lead <= LONGEST_LEAD && is_rule(rule) && is_day(day) && character == 0;
    if !lawful {
        return (WRONG_PARAMETER, character);
    }
    book.fill(0);
    let block = block_at_mut(book, 0);
    block[KIND] = KIND_DAY;
    block[N] = n;
    put_u16(block, LEAD, lead);
    block[RULE] = rule;
    // The clock stays 0, which is 10,080 minutes before the day's start.
    block[DAY_IN_DAY_BLOCK..DAY_IN_DAY_BLOCK + DAY_DIGITS].copy_from_slice(day);
    block[AREA..AREA + 16].copy_from_slice(area);
    block[RECEIVER..RECEIVER + 16].copy_from_slice(receiver);
    seal(block);
    (0, 0)
}

/// Moves the clock forward, or leaves it where it is. The state handed back is the one kept when
/// the call ends, so after a refusal by 22 it tells the old clock.
pub fn move_clock(book: &mut [u8], to: Minute) -> (u8, DayState) {
    let sound = match SoundBook::of(book) {
        None => return (NOT_SOUND, DayState { n: 0, lead: 0, clock: Minute(0) }),
        Some(sound) => sound,
    };
    let kept = DayState { n: sound.n(), lead: sound.lead(), clock: sound.clock() };
    if to < kept.clock || to.0 > LATEST_MINUTE {
        return (WRONG_MINUTE, kept);
    }
    let block = block_at_mut(book, 0);
    put_u16(block, CLOCK, to.0);
    seal(block);
    (0, DayState { clock: to, ..kept })
}
