//! The form of a message (rule 2) and the reader that walks over its series.

use crate::block::*;
use crate::clause::clauses;

clauses! {
    /// The single conditions of rule 2, in the order of the table's row.
    MessageClause {
        WholeBlocks "not whole blocks",
        FewerThanTwo "fewer than 2 blocks",
        MoreThan201 "more than 201 blocks",
        Check "a check wrong",
        FirstKind "first block's kind not 1",
        LaterKind "a later block's kind not 2",
        Count "count is not that of the series",
        SenderBytes6To7 "sender block: bytes 6-7 not 0",
        SenderBytes64To107 "sender block: bytes 64-107 not 0",
        SenderNets "sender block: a net not 0",
        SeriesSenderSlot "series block: sender's slot not 0",
        SeriesMark "series block: mark not 0",
        SeriesN "a series' n is not the first block's",
    }
}

/// The first broken clause of rule 2, if any.
pub fn first_broken(message: &[u8]) -> Option<MessageClause> {
    MessageClause::first(broken_clauses(message))
}

macro_rules! demand {
    ($broken:ident, $clause:ident, $holds:expr) => {
        if !$holds {
            $broken |= MessageClause::$clause.bit();
        }
    };
}

/// All broken clauses of rule 2; after a wrong length or check nothing further is judged.
///
/// What rule 2 leaves alone is left to later rules: the value of n, the day, versions, ids,
/// parties, areas, capacity fields and quantities.
pub fn broken_clauses(message: &[u8]) -> u128 {
    if message.len() % BLOCK_BYTES != 0 {
        return MessageClause::WholeBlocks.bit();
    }
    let count = message.len() / BLOCK_BYTES;
    if count < 2 {
        return MessageClause::FewerThanTwo.bit();
    }
    if count > usize::from(MOST_SERIES) + 1 {
        return MessageClause::MoreThan201.bit();
    }
    if !blocks(message).all(check_is_right) {
        return MessageClause::Check.bit();
    }
    let zero = |part: &[u8]| part.iter().all(|&byte| byte == 0);
    let sender = block_at(message, 0);
    let mut broken = 0;
    demand!(broken, FirstKind, sender[KIND] == KIND_SENDER);
    demand!(broken, Count, usize::from(u16_at(sender, COUNT)) == count - 1);
    demand!(broken, SenderBytes6To7, zero(&sender[6..8]));
    demand!(broken, SenderBytes64To107, zero(&sender[64..VALUES]));
    demand!(broken, SenderNets, zero(&sender[VALUES..CHECK]));
    for series in blocks(message).skip(1) {
        demand!(broken, LaterKind, series[KIND] == KIND_SERIES);
        demand!(broken, SeriesSenderSlot, zero(&series[SENDER_SLOT..SENDER_SLOT + 2]));
        demand!(broken, SeriesMark, zero(&series[MARK..VALUES]));
        demand!(broken, SeriesN, series[N] == sender[N]);
    }
    broken
}

/// Series number `number` of a message, the first one being 1: a part of the message itself.
/// Empty when there is no such series or the message breaks rule 2.
pub fn series_of_message(message: &[u8], number: usize) -> &[u8] {
    if number == 0 || broken_clauses(message) != 0 {
        return &[];
    }
    part(message, number)
}

fn part(message: &[u8], number: usize) -> &[u8] {
    let start = number.saturating_mul(BLOCK_BYTES);
    match start.checked_add(BLOCK_BYTES) {
        Some(end) => message.get(start..end).unwrap_or(&[]),
        None => &[],
    }
}

/// A reader laid over a message buffer. It judges rule 2 once, when it is laid.
pub struct SeriesReader<'message> {
    message: &'message [u8],
    next: usize,
}

impl<'message> SeriesReader<'message> {
    pub fn over(message: &'message [u8]) -> Self {
        // A message that breaks rule 2 has no series to walk over.
        let message = if broken_clauses(message) == 0 { message } else { &[] };
        SeriesReader { message, next: 1 }
    }

    /// The next series, or an empty part from the end on.
    pub fn next_series(&mut self) -> &'message [u8] {
        let series = part(self.message, self.next);
        if !series.is_empty() {
            self.next += 1;
        }
        series
    }
}
