//! The search for counterparts at an acceptance, look by look.
//!
//! The slots visited are a list, a look is one step over one of them, and the partners are what these steps,
//! in the list's order, have found. The number of looks is had by counting them as they are made.

use crate::block::*;
use crate::counts::Slot;

/// What the looks so far have found: for each series of the message, in its order, the slot of its partner.
pub type Found = Vec<Option<Slot>>;

/// What a search has found when it ends, and at how many slots it looked.
#[derive(Clone, Debug, PartialEq, Eq)]
pub struct Search {
    pub partners: Found,
    pub looked: usize,
}

/// Searches a book that holds the blocks of an accepted message for the partners of its series. The sender's
/// slot is told, so that its own series are known.
pub fn search(book: &[u8], message: &[u8], sender: Slot) -> Search {
    let nothing = Search { partners: nothing_found(message), looked: 0 };
    visited_slots(book).into_iter().fold(nothing, |so_far, slot| Search {
        partners: look(slot, block_at(book, usize::from(slot.0)), message, sender, so_far.partners),
        looked: so_far.looked + 1,
    })
}

/// The list of visited slots: each used slot once, ascending. In a sound book the used ones come first, and
/// none but a free one has kind 0.
pub fn visited_slots(book: &[u8]) -> Vec<Slot> {
    let used = blocks(book).skip(1).take_while(|block| block[KIND] != 0);
    used.zip((1..).map(Slot)).map(|(_, slot)| slot).collect()
}

/// What is found before the first look.
pub fn nothing_found(message: &[u8]) -> Found {
    blocks(message).skip(1).map(|_| None).collect()
}

/// One look: what is found once this slot has been seen too. No other block of the book is needed. One party of
/// each internal trade of the message is its sender, and a block's sender is one of its parties: so another
/// sender's internal trade with the pair of such a series is the other party's. External schedules have no partner.
pub fn look(slot: Slot, block: &Block, message: &[u8], sender: Slot, mut found: Found) -> Found {
    if is_anothers_trade(block, sender) {
        let parties = pair(block);
        for (series, partner) in blocks(message).skip(1).zip(found.iter_mut()) {
            if is_internal(series) && pair(series) == parties {
                partner.get_or_insert(slot);
            }
        }
    }
    found
}

fn is_anothers_trade(block: &Block, sender: Slot) -> bool {
    block[KIND] == KIND_SERIES && is_internal(block) && Slot(u16_at(block, SENDER_SLOT)) != sender
}

#[cfg(test)]
mod tests {
    use super::*;

    fn block_of(kind: u8, sender: u16, parties: (u8, u8)) -> Block {
        let mut block = [0; BLOCK_BYTES];
        block[KIND] = kind;
        block[BUSINESS_TYPE] = INTERNAL_TRADE;
        put_u16(&mut block, SENDER_SLOT, sender);
        put_field(&mut block, IN_PARTY, &[parties.0; 16]);
        put_field(&mut block, OUT_PARTY, &[parties.1; 16]);
        block
    }

    #[test]
    fn a_look_finds_anothers_series_with_the_pair_and_nothing_else() {
        let own = [block_of(KIND_SERIES, 0, (1, 2)), block_of(KIND_SERIES, 0, (2, 1))];
        let message = [&[block_of(KIND_SENDER, 0, (0, 0))], &own[..]].concat().concat();
        let seen = |block: Block, found: &[Option<Slot>]| look(Slot(7), &block, &message, Slot(3), found.to_vec());
        let none = nothing_found(&message);
        assert_eq!(none, [None, None]);
        assert_eq!(seen(block_of(KIND_SERIES, 5, (1, 2)), &none), [Some(Slot(7)), None]);
        assert_eq!(seen(block_of(KIND_SERIES, 5, (2, 1)), &none), [None, Some(Slot(7))]);
        // The sender's own series, other trades and blocks that are no series.
        assert_eq!(seen(own_in_slot_3(), &none), none);
        assert_eq!(seen(block_of(KIND_SERIES, 5, (1, 3)), &none), none);
        assert_eq!(seen(block_of(KIND_SERIES, 5, (3, 2)), &none), none);
        assert_eq!(seen(block_of(KIND_SENDER, 5, (1, 2)), &none), none);
        assert_eq!(seen([0; BLOCK_BYTES], &none), none);
        assert_eq!(seen(block_of(KIND_RIGHT, 5, (1, 2)), &none), none);
        // External schedules, of another or in the message.
        for business_type in [WITH_CAPACITY, WITHOUT_CAPACITY] {
            let mut external = block_of(KIND_SERIES, 5, (1, 2));
            external[BUSINESS_TYPE] = business_type;
            assert_eq!(seen(external, &none), none);
            let filed = [block_of(KIND_SENDER, 0, (0, 0)), external, own[0]].concat();
            let theirs = block_of(KIND_SERIES, 5, (1, 2));
            assert_eq!(look(Slot(7), &theirs, &filed, Slot(3), none.clone()), [None, Some(Slot(7))]);
        }
        // What is found stays.
        let found = [Some(Slot(4)), None];
        assert_eq!(seen(block_of(KIND_SERIES, 5, (2, 1)), &found), [Some(Slot(4)), Some(Slot(7))]);
        assert_eq!(seen(own_in_slot_3(), &found), found);
    }

    fn own_in_slot_3() -> Block {
        block_of(KIND_SERIES, 3, (1, 2))
    }

    #[test]
    fn each_used_slot_is_visited_once() {
        let (used, free) = (block_of(KIND_SERIES, 1, (1, 2)), [0; BLOCK_BYTES]);
        for number in [0, 1, 2, 255, 256, 1_000] {
            let book = [vec![used], vec![used; number], vec![free; 2]].concat().concat();
            let expected: Vec<Slot> = (1..=number as u16).map(Slot).collect();
            assert_eq!(visited_slots(&book), expected);
        }
    }
}
