//! What shows by which rule a book gives its finals.

use super::{held, Sight};
use crate::block::*;
use crate::counts::Position;
use crate::desk::Reply;
use crate::final_case::{sides, FinalCase, Sides};
use crate::stream::Record;

/// A call that changed the book, and the rule that it must have kept. The book is sound.
pub fn rule_kept(reply: &Reply, book: &[u8]) -> Option<Sight> {
    let (by_sellers, by_lesser) = match reply {
        Reply::Clock { number: 0, .. } => (Sight::ClockSellers, Sight::ClockLesser),
        Reply::Submit { verdict, .. } if verdict.broken.is_none() => (Sight::AcceptedSellers, Sight::AcceptedLesser),
        Reply::Convert(0) => (Sight::ConvertedSellers, Sight::ConvertedLesser),
        _ => return None,
    };
    Some(if book[RULE] == SELLERS_RULE { by_sellers } else { by_lesser })
}

/// A final that was asked for at a closed position, and given or not for want of the trade.
pub struct Asked {
    out_party: Vec<u8>,
    in_party: Vec<u8>,
    position: u16,
    rule: u8,
    /// What the sides had filed there.
    pub filed: Sides,
    /// Whether the book had not been converted.
    unconverted: bool,
}

impl Asked {
    /// The final that a record asks for, if it is such.
    pub fn of(record: &Record, reply: &Reply, book: &[u8], unconverted: bool) -> Option<Self> {
        match (record, reply) {
            (Record::Final { out_party, in_party, position }, Reply::Final { number: 0 | 26, .. }) => Some(Asked {
                out_party: out_party.clone(),
                in_party: in_party.clone(),
                position: *position,
                rule: book[RULE],
                filed: sides(book, out_party, in_party, Position(*position)),
                unconverted,
            }),
            _ => None,
        }
    }

    /// What it shows that the same final, if it is the same, was asked for before in this book.
    pub fn again(&self, before: &Asked) -> Vec<Sight> {
        let name = |asked: &Asked| (asked.out_party.clone(), asked.in_party.clone(), asked.position);
        if name(self) != name(before) {
            return Vec::new();
        }
        let converted = before.unconverted && !self.unconverted && FinalCase::of(self.filed).is_some();
        let sellers = self.rule == SELLERS_RULE;
        let (late_buyer, late_seller) = match (FinalCase::of(before.filed), self.filed) {
            (Some(FinalCase::SellerAlone), (Some(_), Some(0))) => (true, false),
            (Some(FinalCase::BuyerAlone), (Some(0), Some(_))) => (false, true),
            _ => (false, false),
        };
        held(&[
            (late_buyer && sellers, Sight::LateBuyerSellers),
            (late_buyer && !sellers, Sight::LateBuyerLesser),
            (late_seller && sellers, Sight::LateSellerSellers),
            (late_seller && !sellers, Sight::LateSellerLesser),
            (converted && sellers, Sight::AgainSellers),
            (converted && !sellers, Sight::AgainLesser),
        ])
    }
}
