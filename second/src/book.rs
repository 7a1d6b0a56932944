//! A sound book, read slot by slot.

use crate::block::*;
use crate::counts::{Minute, Slot};
use crate::sound::is_sound;

/// A lent book that has been found sound. Everything that reads a book goes through this, so the
/// refusal 1 is decided in one place.
#[derive(Clone, Copy)]
pub struct SoundBook<'book> {
    bytes: &'book [u8],
    used: usize,
}

impl<'book> SoundBook<'book> {
    /// The book if it is sound, nothing otherwise.
    pub fn of(bytes: &'book [u8]) -> Option<Self> {
        if !is_sound(bytes) {
            return None;
        }
        // In a sound book only a free slot has kind 0, and the used slots come first.
        let used = blocks(bytes).skip(1).take_while(|block| block[KIND] != 0).count();
        Some(SoundBook { bytes, used })
    }

    pub fn bytes(&self) -> &'book [u8] {
        self.bytes
    }

    pub fn day(&self) -> &'book Block {
        block_at(self.bytes, 0)
    }

    pub fn n(&self) -> u8 {
        self.day()[N]
    }

    pub fn lead(&self) -> u16 {
        u16_at(self.day(), LEAD)
    }

    pub fn clock(&self) -> Minute {
        Minute(u16_at(self.day(), CLOCK))
    }

    /// By which rule the book's finals are given.
    pub fn rule(&self) -> u8 {
        self.day()[RULE]
    }

    pub fn block(&self, slot: Slot) -> &'book Block {
        block_at(self.bytes, usize::from(slot.0))
    }

    /// How many slots are used; the lowest free one follows them.
    pub fn used_slots(&self) -> usize {
        self.used
    }

    pub fn free_slots(&self) -> usize {
        self.bytes.len() / BLOCK_BYTES - 1 - self.used
    }

    fn of_kind(&self, kind: u8) -> impl Iterator<Item = (Slot, &'book Block)> {
        blocks(self.bytes)
            .enumerate()
            .take(self.used + 1)
            .skip(1)
            .filter(move |(_, block)| block[KIND] == kind)
            .map(|(place, block)| (Slot(place as u16), block))
    }

    pub fn senders(&self) -> impl Iterator<Item = (Slot, &'book Block)> {
        self.of_kind(KIND_SENDER)
    }

    pub fn series(&self) -> impl Iterator<Item = (Slot, &'book Block)> {
        self.of_kind(KIND_SERIES)
    }

    pub fn rights(&self) -> impl Iterator<Item = (Slot, &'book Block)> {
        self.of_kind(KIND_RIGHT)
    }

    /// The rights that somebody holds, by ascending slot.
    pub fn rights_of(&self, holder: &Field) -> Vec<(Slot, &'book Block)> {
        self.rights().filter(|(_, right)| field(right, HOLDER) == *holder).collect()
    }

    /// The book's area.
    pub fn area(&self) -> Field {
        field(self.day(), AREA)
    }

    /// The slot of the sender with this EIC.
    pub fn sender_slot(&self, eic: &[u8]) -> Option<Slot> {
        self.senders().find(|(_, block)| field(block, SENDER) == *eic).map(|(slot, _)| slot)
    }

    /// The series a sender's slot holds, by ascending slot.
    pub fn series_of(&self, sender: Slot) -> impl Iterator<Item = (Slot, &'book Block)> {
        self.series().filter(move |(_, block)| u16_at(block, SENDER_SLOT) == sender.0)
    }

    /// The EIC of the sender a series belongs to.
    pub fn owner(&self, series: &Block) -> Field {
        field(self.block(Slot(u16_at(series, SENDER_SLOT))), SENDER)
    }

    /// The series with this id among those of the sender with this EIC.
    pub fn find_series(&self, sender: &[u8], id: &[u8]) -> Option<(Slot, &'book Block)> {
        let sender = self.sender_slot(sender)?;
        self.series_of(sender).find(|(_, block)| field(block, ID) == *id)
    }
}
