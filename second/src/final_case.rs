//! Who filed the trade that a final is asked for, and what.

use crate::block::*;
use crate::clause::cases;
use crate::counts::{Minute, Position};
use crate::random::Random;

cases! {
    /// The cases in which the two rules give what they give. Where neither side grants anything every rule gives
    /// 0, so that is none of them.
    FinalCase {
        SellerLess "both filed, the seller less",
        BuyerLess "both filed, the buyer less",
        Equal "both filed the same",
        SellerAlone "the seller alone filed",
        BuyerAlone "the buyer alone filed",
        Neither "neither filed",
    }
}

/// What the seller and the buyer of a trade filed at a position, if they did.
pub type Sides = (Option<u32>, Option<u32>);

/// Of a sound book.
pub fn sides(book: &[u8], out_party: &[u8], in_party: &[u8], position: Position) -> Sides {
    let (mut sold, mut bought) = (None, None);
    for series in blocks(book).skip(1).filter(|block| block[KIND] == KIND_SERIES && is_internal(block)) {
        if field(series, OUT_PARTY) == *out_party && field(series, IN_PARTY) == *in_party {
            let owner = block_at(book, usize::from(u16_at(series, SENDER_SLOT)));
            let side = if field(owner, SENDER) == *out_party { &mut sold } else { &mut bought };
            *side = Some(quantity(series, position));
        }
    }
    (sold, bought)
}

impl FinalCase {
    /// Which of them it is when the sides filed this.
    pub fn of(sides: Sides) -> Option<Self> {
        use FinalCase::*;
        match sides {
            (None, None) => Some(Neither),
            (Some(sold), Some(bought)) if sold < bought => Some(SellerLess),
            (Some(sold), Some(bought)) if sold > bought => Some(BuyerLess),
            (Some(sold), Some(_)) if sold > 0 => Some(Equal),
            (Some(sold), None) if sold > 0 => Some(SellerAlone),
            (None, Some(bought)) if bought > 0 => Some(BuyerAlone),
            _ => None,
        }
    }

    /// A trade and a closed position of a sound book that are this: seller, buyer and position. Nothing if none
    /// was found.
    pub fn found(self, random: &mut Random, book: &[u8], partners: &[Field]) -> Option<(Field, Field, u16)> {
        let series: Vec<&Block> = blocks(book).skip(1).filter(|block| block[KIND] == KIND_SERIES).collect();
        let last = last_closed(block_at(book, 0));
        if series.is_empty() || last == 0 {
            return None;
        }
        let external: Vec<&Block> = series.iter().copied().filter(|series| is_external(series)).collect();
        (0..40).find_map(|_| {
            let (in_party, out_party) = pair(random.pick(&series));
            let (out_party, in_party) = match self {
                // The other direction of a trade, one that two others might have made, or a pair that only external
                // schedules have.
                FinalCase::Neither => match random.below(6) {
                    0 => (in_party, out_party),
                    1 => (random.pick(partners), random.pick(partners)),
                    _ if external.is_empty() => return None,
                    _ => {
                        let (in_party, out_party) = pair(random.pick(&external));
                        (out_party, in_party)
                    }
                },
                _ => (out_party, in_party),
            };
            let position = random.between(1, usize::from(last)) as u16;
            let case = FinalCase::of(sides(book, &out_party, &in_party, Position(position)));
            (case == Some(self)).then_some((out_party, in_party, position))
        })
    }
}

/// The highest closed position up to n, 0 if there is none.
pub fn last_closed(day: &Block) -> u16 {
    let (clock, lead) = (Minute(u16_at(day, CLOCK)), u16_at(day, LEAD));
    (1..=u16::from(day[N])).take_while(|&position| Position(position).is_closed(clock, lead)).count() as u16
}
