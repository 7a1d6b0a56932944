//! Messages, lawful and spoilt, submitted and judged.

use super::{reseal, senders_of, Episode, Generator};
use crate::block::*;
use crate::draft::{Draft, Fault, FormFault, Growth, New, Side, Version, WrongCode};
use crate::names;
use crate::stream::Record;
use crate::submission::judge;
use crate::versions::{kept_version, VersionTurn};

impl Generator {
    pub(super) fn growth(&mut self, book: &[u8]) -> Growth {
        let random = &mut self.random;
        let free = blocks(book).filter(|block| block[KIND] == 0).count();
        let most_new = match self.episode {
            Episode::Middling => random.below(16),
            Episode::Long => random.between(0, 120),
            Episode::Full | Episode::Limit(_) => random.pick(&[200, 200, 120, 20, 0]),
            _ => random.below(4),
        };
        // Mostly what is asked for has room; sometimes it fills the book to the last slot, and
        // sometimes it is one block too many.
        let large = matches!(self.episode, Episode::Full | Episode::Long);
        let filling = if large { 5 } else { 1 };
        let new = if free > 0 && free < 200 && random.below(40) < 2 * filling {
            New::Filling(random.below(2))
        } else if random.percent(4) {
            New::UpTo(most_new)
        } else {
            New::UpTo(most_new.min(free.saturating_sub(1)))
        };
        let changed = match random.below(4) {
            0 => 0,
            1 => 100,
            _ => 35,
        };
        let side = random.pick(&[Side::Buys, Side::Sells]);
        let side = Some(side).filter(|_| large && random.percent(40));
        Growth { new, changed, side, external: self.external_share(), version: Version::Lawful }
    }

    /// How many new series in a hundred are to be external schedules.
    fn external_share(&mut self) -> usize {
        self.random.pick(&[0, 25, 25, 60])
    }

    /// Seldom one at version 999, which files in vain.
    pub(super) fn sender(&mut self, book: &[u8]) -> Field {
        let sender = self.any_sender(book);
        if kept_version(book, &sender) == Some(HIGHEST_VERSION) && self.random.percent(80) {
            self.any_sender(book)
        } else {
            sender
        }
    }

    fn any_sender(&mut self, book: &[u8]) -> Field {
        let random = &mut self.random;
        let known = senders_of(book);
        let full = blocks(book).filter(|block| block[KIND] == 0).count() < 2;
        if !known.is_empty() && full && random.percent(85) {
            // A full book has no room for a sender that is new to it.
            return random.pick(&known);
        }
        let series: Vec<&Block> = blocks(book).skip(1).filter(|block| block[KIND] == KIND_SERIES).collect();
        if !series.is_empty() && self.episode != Episode::Full && random.percent(45) {
            // One of the parties of a filed trade, so that trades find their other side.
            let (in_party, out_party) = pair(random.pick(&series));
            return random.pick(&[in_party, out_party]);
        }
        if !known.is_empty() && random.percent(50) {
            random.pick(&known)
        } else {
            random.pick(&self.partners)
        }
    }

    /// A message, lawful or spoilt.
    pub(super) fn message(&mut self, book: &[u8]) -> Vec<u8> {
        let mut sender = self.sender(book);
        let mut growth = self.growth(book);
        let random = &mut self.random;
        let kind = random.weighted(&[15, 6, 48, 14, 8, 5, 18, 2, 1]);
        match kind {
            // A message that changes nothing.
            1 => growth = Growth { new: New::UpTo(0), changed: 0, side: None, external: 0, version: Version::Lawful },
            // A lawful message of a sender whose code ends in a hyphen.
            8 => sender = names::hyphen_eic(random),
            _ => {}
        }
        let mut draft = Draft::lawful(random, book, sender, &self.partners, &growth);
        let place = draft.any_place(random);
        match kind {
            2 => self.spoil(&mut draft),
            3 => self.break_neighbours(&mut draft, place),
            4 => draft.mix_quantities(random, place),
            5 => draft.break_out_of_order(random, &self.partners),
            6 => return self.spoil_form(draft),
            7 => return self.garble(draft),
            _ => {}
        }
        draft.finished(&mut self.random, &[])
    }

    /// The fault that is next in turn, or several wherever they fall.
    pub(super) fn spoil(&mut self, draft: &mut Draft) {
        let random = &mut self.random;
        for _ in 0..random.pick(&[1, 1, 1, 2, 3]) {
            let fault = self.faults.deal(random);
            let place = draft.any_place(random);
            draft.spoil(random, fault, place, &self.partners);
        }
    }

    /// Two rules that follow each other, mostly at one series: the lower one must decide.
    pub(super) fn break_neighbours(&mut self, draft: &mut Draft, place: usize) {
        let (lower, higher) = self.neighbours.deal(&mut self.random);
        draft.break_two(&mut self.random, lower, higher, place, &self.partners);
    }

    /// A fault of form that is next in turn, and sometimes others beside it, or a sender's code that no
    /// rule comes to judge.
    pub(super) fn spoil_form(&mut self, mut draft: Draft) -> Vec<u8> {
        let random = &mut self.random;
        if random.percent(15) {
            let character = names::character_number(random);
            draft.spoil_code(random, WrongCode::Sender, character, &self.partners);
        }
        let mut faults = vec![self.forms.deal(random)];
        if faults[0] == FormFault::TooLong && random.percent(25) {
            // The long one is large; a little less often is often enough.
            faults[0] = self.forms.deal(random);
        }
        for _ in 0..random.pick(&[0, 0, 0, 0, 1, 2]) {
            faults.push(random.pick(FormFault::ALL));
        }
        draft.finished(random, &faults)
    }

    /// A few bytes changed anywhere.
    pub(super) fn garble(&mut self, draft: Draft) -> Vec<u8> {
        let random = &mut self.random;
        let mut message = draft.finished(random, &[]);
        for _ in 0..random.between(1, 4) {
            let at = random.below(message.len());
            message[at] = random.byte();
        }
        if random.percent(70) {
            reseal(&mut message);
        }
        message
    }

    /// A lawful message with nearly as many series as a message may have, or as there is room for.
    pub(super) fn large_message(&mut self, book: &[u8]) {
        let message = match self.episode {
            Episode::Limit(side) => self.message_at_limit(book, side),
            _ => {
                if blocks(book).filter(|block| block[KIND] != 0).count() > 256 {
                    // Few acceptances are in a book whose slots need two bytes.
                    self.looks(book);
                }
                let random = &mut self.random;
                let sender = random.pick(&self.partners);
                let free = blocks(book).filter(|block| block[KIND] == 0).count();
                let new = if free <= 200 { New::Filling(0) } else { New::Exactly(random.between(190, 200)) };
                let side = random.pick(&[Some(Side::Buys), Some(Side::Sells), None, None, None]);
                let growth = Growth { new, changed: 0, side, external: 15, version: Version::Lawful };
                Draft::lawful(random, book, sender, &self.partners, &growth).finished(random, &[])
            }
        };
        self.submit_and_show(book, message);
    }

    /// A message of 200 series, all on one side, its nets at their limit or just below it.
    pub(super) fn message_at_limit(&mut self, book: &[u8], side: Side) -> Vec<u8> {
        let random = &mut self.random;
        let sender = self.partners[0];
        let filed = senders_of(book).contains(&sender);
        let new = New::Exactly(if filed { 0 } else { usize::from(MOST_SERIES) });
        let growth = Growth { new, changed: 0, side: Some(side), external: 25, version: Version::Lawful };
        let mut draft = Draft::lawful(random, book, sender, &self.partners, &growth);
        if filed {
            draft.move_about_limit(random);
        }
        draft.finished(random, &[])
    }

    pub(super) fn submit_and_show(&mut self, book: &[u8], message: Vec<u8>) {
        let accepted = is_accepted(book, &message);
        self.queue.push_back(Record::Submit(message));
        self.show_after(accepted);
    }

    /// The sum after a submission, and every byte of the book after one that is accepted.
    pub(super) fn show_after(&mut self, accepted: bool) {
        self.queue.push_back(Record::Sum);
        if accepted {
            self.queue.push_back(Record::Book);
        }
    }

    /// A message judged, and the sum that tells that the book is as it was.
    pub(super) fn judge_and_show(&mut self, message: Vec<u8>) {
        self.queue.push_back(Record::Judge(message));
        self.queue.push_back(Record::Sum);
    }

    /// A message submitted or judged, or both.
    pub(super) fn submission(&mut self, book: &[u8]) {
        let message = self.message(book);
        match self.random.below(40) {
            0 => self.queue.push_back(Record::Walk(message.clone())),
            1 => {
                // The same message twice: the second time its version is stale.
                self.queue.push_back(Record::Submit(message.clone()));
            }
            _ => {}
        }
        // A book grows by what is submitted, so few messages that it takes are judged alone. Judged once
        // they are in, they are stale.
        let weights = if is_accepted(book, &message) { [8, 8, 79, 5] } else { [24, 28, 48, 0] };
        match self.random.weighted(&weights) {
            0 => self.judge_and_show(message),
            1 => {
                self.judge_and_show(message.clone());
                self.submit_and_show(book, message);
            }
            2 => self.submit_and_show(book, message),
            _ => {
                self.submit_and_show(book, message.clone());
                self.judge_and_show(message);
            }
        }
    }

    /// A message in which nothing is wrong but the code that is next in turn, at the character that is,
    /// judged and submitted.
    pub(super) fn wrong_code(&mut self, book: &[u8]) {
        let (sender, growth) = (self.sender(book), self.growth(book));
        let random = &mut self.random;
        let mut draft = Draft::lawful(random, book, sender, &self.partners, &growth);
        let (whose, character) = self.wrong_codes.deal(random);
        draft.spoil_code(random, whose, character, &self.partners);
        let message = draft.finished(random, &[]);
        self.judge_and_show(message.clone());
        self.submit_and_show(book, message);
    }

    /// A message with the version that is next in turn, judged and submitted; or one that comes with a
    /// higher version once it was refused.
    pub(super) fn version(&mut self, book: &[u8]) {
        if self.random.percent(15) {
            self.raise_after_refusal(book);
            return;
        }
        let growth = self.growth(book);
        let mut senders = [senders_of(book), self.partners.clone()].concat();
        self.random.shuffle(&mut senders);
        let room = blocks(book).filter(|block| block[KIND] == 0).count() >= 2;
        let dealt = self.versions.deal_serving(&mut self.random, |random, turn| {
            let mut made = |sender: &Field| Some((*sender, turn.made(random, kept_version(book, sender))?));
            senders.iter().find_map(|sender| made(sender).filter(|_| room || !turn.needs_room()))
        });
        let (turn, (sender, version)) = match dealt {
            None => return,
            Some(dealt) => dealt,
        };
        let (changed, fault) = match turn {
            VersionTurn::OtherId => (growth.changed, Some(Fault::OtherMessageId)),
            VersionTurn::SeriesCountsOn | VersionTurn::NewSeriesCountsOn => (100, Some(Fault::SeriesVersionNext)),
            _ => (growth.changed, None),
        };
        let growth = Growth { changed, version: Version::Exactly(version), ..growth };
        let random = &mut self.random;
        let mut draft = Draft::lawful(random, book, sender, &self.partners, &growth);
        if let Some(fault) = fault {
            let place = draft.any_place(random);
            draft.spoil(random, fault, place, &self.partners);
        }
        let message = draft.finished(random, &[]);
        self.judge_and_show(message.clone());
        self.submit_and_show(book, message);
    }

    /// A spoilt message, and the same put right, its version raised all the same.
    fn raise_after_refusal(&mut self, book: &[u8]) {
        let (sender, growth) = (self.sender(book), self.growth(book));
        let mut draft = Draft::lawful(&mut self.random, book, sender, &self.partners, &growth);
        let mut spoilt = draft.clone();
        self.spoil(&mut spoilt);
        let spoilt = spoilt.finished(&mut self.random, &[]);
        if !is_accepted(book, &spoilt) {
            self.submit_and_show(book, spoilt);
            draft.raise_version(self.random.pick(&[1, 1, 2, 5]));
        }
        let message = draft.finished(&mut self.random, &[]);
        self.submit_and_show(book, message);
    }
}

/// Whether the book as it stands takes the message.
fn is_accepted(book: &[u8], message: &[u8]) -> bool {
    judge(book, message).number() == 0
}
