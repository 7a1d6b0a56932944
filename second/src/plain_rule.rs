//! The plain matching rule over the list of accepted messages. It never sees a book, so what the
//! book keeps can be held against it.

use std::collections::HashMap;

use crate::block::*;
use crate::counts::Position;

/// A series named by its sender and its id.
pub type SeriesName = (Field, Field);

/// A mark whose partner is named as a series, not by a slot: slots are the book's affair.
#[derive(Clone, Copy, Debug, PartialEq, Eq)]
pub struct PlainMark {
    pub differ: u8,
    pub first: Position,
    pub partner: Option<SeriesName>,
}

/// What the rule finds: a mark for every series, a row of nets for every sender.
#[derive(Debug, Default, PartialEq, Eq)]
pub struct Matching {
    pub marks: HashMap<SeriesName, PlainMark>,
    pub nets: HashMap<Field, [i32; POSITIONS]>,
}

/// The final quantity of a trade from the messages and the book's rule alone. The seller's rule gives what the
/// seller filed, or 0 if only the buyer filed it; the other gives what both sides grant, so 0 where one did
/// not file. Nothing if neither did. Whether the position is closed is not asked here.
pub fn final_quantity(
    accepted: &[impl AsRef<[u8]>],
    rule: u8,
    out_party: &[u8],
    in_party: &[u8],
    position: Position,
) -> Option<u32> {
    let filed_by = |sender: &[u8]| {
        let last =
            accepted.iter().rev().map(AsRef::as_ref).find(|message| field(block_at(message, 0), SENDER) == *sender);
        let trades = blocks(last?).skip(1).filter(|series| series[BUSINESS_TYPE] == INTERNAL_TRADE);
        let of_pair = |series: &Block| field(series, OUT_PARTY) == *out_party && field(series, IN_PARTY) == *in_party;
        trades.into_iter().find(|series| of_pair(series))
    };
    let of = |series: &Block| quantity(series, position);
    match (filed_by(out_party), filed_by(in_party)) {
        (None, None) => None,
        (Some(sold), _) if rule == SELLERS_RULE => Some(of(sold)),
        (Some(sold), Some(bought)) if of(bought) > of(sold) => Some(of(sold)),
        (Some(_), Some(bought)) if rule != SELLERS_RULE => Some(of(bought)),
        _ => Some(0),
    }
}

/// Applies the rule to messages in the order of their acceptance. Since no accepted message may
/// leave a stored series out, a sender's last message holds all that is in force for it. The area is the book's: an
/// external schedule counts by its direction, and is matched with nothing.
pub fn matching(accepted: &[impl AsRef<[u8]>], area: &Field) -> Matching {
    let mut last: HashMap<Field, &[u8]> = HashMap::new();
    for message in accepted {
        let message = message.as_ref();
        last.insert(field(block_at(message, 0), SENDER), message);
    }

    let mut filed: HashMap<(Field, Field, Field), &Block> = HashMap::new();
    for (&sender, message) in &last {
        for series in blocks(message).skip(1).filter(|series| series[BUSINESS_TYPE] == INTERNAL_TRADE) {
            let (in_party, out_party) = pair(series);
            filed.insert((sender, in_party, out_party), series);
        }
    }

    let mut found = Matching::default();
    for (&sender, message) in &last {
        let n = block_at(message, 0)[N];
        let mut sums = [0i32; POSITIONS];
        for series in blocks(message).skip(1) {
            let (in_party, out_party) = pair(series);
            let buys = in_party == sender;
            let trade = series[BUSINESS_TYPE] == INTERNAL_TRADE;
            let comes_in = if trade { buys } else { field(series, IN_AREA) == *area };
            for (sum, value) in sums.iter_mut().zip(quantities(series)) {
                *sum += if comes_in { value as i32 } else { -(value as i32) };
            }
            let other = if buys { out_party } else { in_party };
            let mark = match filed.get(&(other, in_party, out_party)).filter(|_| trade) {
                None => PlainMark { differ: 0, first: Position(0), partner: None },
                Some(theirs) => {
                    let differs = |p: &Position| quantity(series, *p) != quantity(theirs, *p);
                    let positions: Vec<Position> = (1..=u16::from(n)).map(Position).filter(differs).collect();
                    PlainMark {
                        differ: positions.len() as u8,
                        first: positions.first().copied().unwrap_or(Position(0)),
                        partner: Some((other, field(theirs, ID))),
                    }
                }
            };
            found.marks.insert((sender, field(series, ID)), mark);
        }
        found.nets.insert(sender, sums);
    }
    found
}
