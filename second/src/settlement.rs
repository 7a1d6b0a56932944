//! Settled positions: what a party has bought and sold at a closed position, each trade counted once.

use std::collections::BTreeSet;

use crate::block::*;
use crate::book::SoundBook;
use crate::counts::Position;
use crate::readings::{final_in, nothing_final_at, NOT_SOUND};

/// The two sums, in kW. A book has room for more than 429 sellers of one buyer, whose finals 32 bits don't hold.
#[derive(Clone, Copy, Debug, Default, PartialEq, Eq)]
pub struct Settled {
    pub bought: u64,
    pub sold: u64,
}

/// What a party has bought and sold at a closed position; number and zeros if refused, as a final. A party that is in
/// no internal trade, or whose name no party can have, has zeros.
pub fn settled(book: &[u8], party: &[u8], position: Position) -> (u8, Settled) {
    match SoundBook::of(book) {
        None => (NOT_SOUND, Settled::default()),
        Some(sound) => settled_in(&sound, party, position),
    }
}

/// The same in a book already found sound.
pub fn settled_in(book: &SoundBook, party: &[u8], position: Position) -> (u8, Settled) {
    let mut sums = Settled::default();
    if let Some(number) = nothing_final_at(book, position) {
        return (number, sums);
    }
    for (out_party, in_party) in pairs(book).into_iter().filter(|pair| pair.0 == *party || pair.1 == *party) {
        let (_, value) = final_in(book, &out_party, &in_party, position);
        // The parties of a pair are two, so it counts on one side alone.
        let side = if in_party == *party { &mut sums.bought } else { &mut sums.sold };
        *side += u64::from(value);
    }
    (0, sums)
}

/// Out party and in party of the internal trades, each pair once though both sides may have filed it. Turned round it
/// is another pair.
pub fn pairs(book: &SoundBook) -> BTreeSet<(Field, Field)> {
    let trades = book.series().map(|(_, series)| series).filter(|series| is_internal(series));
    trades.map(|series| (field(series, OUT_PARTY), field(series, IN_PARTY))).collect()
}

/// The parties of a book: every in or out party of an internal trade, sender or not, each once.
pub fn parties(book: &SoundBook) -> BTreeSet<Field> {
    pairs(book).into_iter().flat_map(|(out_party, in_party)| [out_party, in_party]).collect()
}
