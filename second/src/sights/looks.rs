//! What the search for counterparts shows at an acceptance.

use super::{held, Sight};
use crate::block::*;
use crate::book::SoundBook;
use crate::counts::Slot;

/// The highest number that one byte holds.
const ONE_BYTE: usize = 255;

/// What one series of the message has in the book.
struct Row<'book> {
    slot: Slot,
    /// The slot of its partner and whose series that is.
    partner: Option<(Slot, Slot)>,
    block: &'book Block,
}

/// What an acceptance shows of the looks it took, with the book before it and after it.
pub fn looks(message: &[u8], looked: usize, before: &[u8], book: &[u8]) -> Vec<Sight> {
    let (old, new) = match (SoundBook::of(before), SoundBook::of(book)) {
        (Some(old), Some(new)) => (old, new),
        _ => return Vec::new(),
    };
    let sender = field(block_at(message, 0), SENDER);
    let own = new.sender_slot(&sender).expect("an accepted sender has a slot");
    let rows: Vec<Row> = new.series_of(own).map(|(slot, block)| row(&new, slot, block)).collect();
    let partners: Vec<(Slot, Slot)> = rows.iter().filter_map(|row| row.partner).collect();
    let (known, same_length) = (old.sender_slot(&sender).is_some(), old.used_slots() == new.used_slots());
    let in_slot = |slot: usize| partners.iter().any(|(partner, _)| usize::from(partner.0) == slot);
    let any = |such: &dyn Fn(&Row) -> bool| rows.iter().any(such);
    let others = new.series().any(|(_, block)| u16_at(block, SENDER_SLOT) != own.0);
    held(&[
        (old.used_slots() == 0, Sight::LooksFirstSender),
        (!known && !partners.is_empty(), Sight::LooksSecondSender),
        (known && same_length && !partners.is_empty(), Sight::LooksRenewed),
        (known && !same_length && !partners.is_empty(), Sight::LooksGrown),
        (others && partners.is_empty(), Sight::LooksInVain),
        (partners.len() == 1, Sight::LooksOnePartner),
        (of_several(&partners), Sight::LooksSeveralSenders),
        (partners.iter().any(|one| twice(&partners, one.1)), Sight::LooksSeveralOfOne),
        (!partners.is_empty() && partners.len() < rows.len(), Sight::LooksSomeAlone),
        (partners.len() > 1 && partners.len() == rows.len(), Sight::LooksNoneAlone),
        (in_slot(1), Sight::LooksSlot1),
        (in_slot(2), Sight::LooksSlot2),
        (in_slot(new.used_slots()), Sight::LooksLastSlot),
        ((in_slot(1) || in_slot(2)) && in_slot(new.used_slots()), Sight::LooksBothEnds),
        (any(&|row| matches!(row.partner, Some((partner, _)) if partner < row.slot)), Sight::LooksBelow),
        (any(&|row| matches!(row.partner, Some((partner, _)) if partner > row.slot)), Sight::LooksAbove),
        (any(&|row| row.partner.is_none() && turned_round(&new, own, row.block)), Sight::LooksTurned),
        (any(&|row| was_false(&old, row)), Sight::LooksKeptFalse),
        (partners.iter().any(|(partner, _)| usize::from(partner.0) > ONE_BYTE), Sight::LooksHighSlot),
        (partners.iter().any(|(_, sender)| sender.0 & 255 == own.0 & 255), Sight::LooksLowByte),
        ((ONE_BYTE + 1..1_000).contains(&looked), Sight::Looks256To999),
    ])
}

/// By plain search: a pair belongs to two senders at most.
fn row<'book>(book: &SoundBook<'book>, slot: Slot, block: &'book Block) -> Row<'book> {
    let of_other = |other: &Block| u16_at(other, SENDER_SLOT) != u16_at(block, SENDER_SLOT);
    let of_trade = |other: &Block| is_internal(block) && is_internal(other) && pair(other) == pair(block);
    let found = book.series().find(|(_, other)| of_other(other) && of_trade(other));
    Row { slot, block, partner: found.map(|(partner, other)| (partner, Slot(u16_at(other, SENDER_SLOT)))) }
}

/// Whether partners belong to more senders than one.
fn of_several(partners: &[(Slot, Slot)]) -> bool {
    partners.iter().any(|(_, sender)| *sender != partners[0].1)
}

/// Whether a sender has two of the partners.
fn twice(partners: &[(Slot, Slot)], sender: Slot) -> bool {
    partners.iter().filter(|(_, other)| *other == sender).count() > 1
}

/// Whether another sender has a series with the same parties, in and out exchanged.
fn turned_round(book: &SoundBook, own: Slot, series: &Block) -> bool {
    let (in_party, out_party) = pair(series);
    book.series().any(|(_, other)| u16_at(other, SENDER_SLOT) != own.0 && pair(other) == (out_party, in_party))
}

/// Whether the mark kept before named a series, but not the partner.
fn was_false(old: &SoundBook, row: &Row) -> bool {
    if usize::from(row.slot.0) > old.used_slots() {
        return false;
    }
    let kept = mark(old.block(row.slot)).partner;
    matches!(row.partner, Some((partner, _)) if kept.0 != 0 && kept != partner)
}
