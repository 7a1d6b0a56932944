//! Books whose partners stand at their ends, for the search that an acceptance makes.

use super::Generator;
use crate::block::*;
use crate::book::SoundBook;
use crate::clause::cases;
use crate::counts::Slot;
use crate::crafted;
use crate::draft::{Draft, Growth, New, Version};
use crate::listing;
use crate::random::Random;
use crate::readings::plain_marks;
use crate::sound::is_sound;
use crate::stream::Record;
use crate::submission::submit;

cases! {
    /// Where partners of the sender's series are to stand; or the sender of one, in a slot with the low byte of the
    /// sender's own.
    PartnersAt {
        FirstSlot,
        BothEnds,
        SameLowByte,
    }
}

impl PartnersAt {
    fn fewest(self) -> usize {
        match self {
            PartnersAt::FirstSlot | PartnersAt::SameLowByte => 1,
            PartnersAt::BothEnds => 2,
        }
    }

    /// A sender that may still file, and the book with its blocks in such an order. Nothing if nobody has the
    /// partners.
    fn made(self, random: &mut Random, book: &[u8]) -> Option<(Field, Vec<u8>)> {
        let sound = SoundBook::of(book)?;
        let mut served: Vec<(Slot, Vec<Slot>)> = sound
            .senders()
            .filter(|(_, head)| u16_at(head, VERSION) < HIGHEST_VERSION)
            .map(|(slot, _)| (slot, partners_of(&sound, slot)))
            .filter(|(_, partners)| partners.len() >= self.fewest())
            .collect();
        if served.is_empty() {
            return None;
        }
        let (sender, mut partners) = served.swap_remove(random.below(served.len()));
        random.shuffle(&mut partners);
        let mut order: Vec<Slot> = (1..=sound.used_slots() as u16).map(Slot).collect();
        if book.len() <= listing::MOST_BYTES && random.percent(50) {
            random.shuffle(&mut order);
        }
        let last = order.len() - 1;
        match self {
            PartnersAt::FirstSlot => bring(&mut order, partners[0], 0),
            PartnersAt::BothEnds => {
                bring(&mut order, partners[0], 0);
                bring(&mut order, partners[1], last);
            }
            PartnersAt::SameLowByte => {
                let own = order.iter().position(|&slot| slot == sender).expect("a sender's slot is used");
                let alike: Vec<usize> = (own % 256..=last).step_by(256).filter(|&place| place != own).collect();
                if alike.is_empty() {
                    return None;
                }
                let of_partner = Slot(u16_at(sound.block(partners[0]), SENDER_SLOT));
                bring(&mut order, of_partner, random.pick(&alike));
            }
        }
        Some((field(sound.block(sender), SENDER), crafted::reordered(book, &order)))
    }
}

/// The slots of the partners that a sender's series have, whatever their marks say.
fn partners_of(book: &SoundBook, sender: Slot) -> Vec<Slot> {
    let own = |slot: Slot| u16_at(book.block(slot), SENDER_SLOT) == sender.0;
    let partners = plain_marks(book).into_iter().filter(|(slot, _)| own(*slot)).map(|(_, mark)| mark.partner);
    partners.filter(|partner| partner.0 != 0).collect()
}

fn bring(order: &mut [Slot], slot: Slot, to: usize) {
    let at = order.iter().position(|&other| other == slot).expect("every used slot is in the order");
    order.swap(at, to);
}

impl Generator {
    /// A message that takes no slot, on a book whose blocks are in an order that is next in turn. Half of these
    /// books keep false partners. The book is then put back.
    pub(super) fn looks(&mut self, book: &[u8]) {
        if !is_sound(book) {
            return;
        }
        let dealt = self.partners_at.deal_serving(&mut self.random, |random, turn| turn.made(random, book));
        let (sender, mut ordered) = match dealt {
            None => return,
            Some((_, made)) => made,
        };
        if self.random.percent(50) {
            ordered = crafted::with_false_partners(&mut self.random, &ordered, &sender);
        }
        let growth = Growth { new: New::UpTo(0), changed: 35, side: None, external: 0, version: Version::Lawful };
        let draft = Draft::lawful(&mut self.random, &ordered, sender, &self.partners, &growth);
        let message = draft.finished(&mut self.random, &[]);
        self.set_book(book, &ordered);
        self.queue.push_back(Record::Submit(message.clone()));
        self.show_after(ordered.len() <= listing::MOST_BYTES);
        submit(&mut ordered, &message);
        self.set_book(&ordered, book);
    }
}
