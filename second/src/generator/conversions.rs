//! Counts of differing positions, false marks and nets, old books and their conversion.

use super::{Generator, Standing};
use crate::block::*;
use crate::clause::cases;
use crate::conversion::convert;
use crate::counts::LATEST_MINUTE;
use crate::crafted;
use crate::draft::{Draft, Growth, New, Version};
use crate::external;
use crate::final_case::last_closed;
use crate::listing;
use crate::old_book::{old_book, with_bad_state, BadState, Falsehood};
use crate::random::Random;
use crate::sound::{is_sound, NS};
use crate::stream::Record;
use crate::submission::submit;
use crate::versions::kept_version;

/// What is to be shown of conversions.
#[derive(Clone, Copy, Debug, PartialEq, Eq)]
pub(super) enum ConversionTurn {
    /// An old book in which this is false; it is used before and after.
    Old(Falsehood),
    /// An old book that takes a message first.
    TooLate,
    /// An old book converted a second time, mostly in vain.
    Twice,
    /// The book as it stands, in the new layout.
    AsItStands,
    /// The same, where counts of 0 and counts above 3 both forbid it.
    Mixed,
    /// An old book in which nothing is wrong but a state.
    Bad(BadState),
}

impl ConversionTurn {
    /// One round of them.
    pub(super) fn all() -> Vec<ConversionTurn> {
        use ConversionTurn::*;
        let old = Falsehood::ALL.iter().map(|&falsehood| Old(falsehood));
        old.chain([TooLate, Twice, AsItStands, Mixed]).chain(BadState::ALL.iter().map(|&bad| Bad(bad))).collect()
    }

    /// The book to be converted. Nothing if this one lacks what is needed.
    fn made(self, random: &mut Random, book: &[u8]) -> Option<Vec<u8>> {
        if !blocks(book).any(|block| block[KIND] == KIND_SERIES) {
            return (self == ConversionTurn::AsItStands).then(|| book.to_vec());
        }
        match self {
            ConversionTurn::Old(falsehood) => old_book(random, book, falsehood),
            ConversionTurn::TooLate | ConversionTurn::Twice => old_book(random, book, Falsehood::Nothing),
            ConversionTurn::AsItStands => Some(book.to_vec()),
            ConversionTurn::Mixed => {
                (keeps_count(book, |count| count == 0) && keeps_count(book, |count| count > 3)).then(|| book.to_vec())
            }
            ConversionTurn::Bad(bad) => with_bad_state(random, book, bad),
        }
    }
}

cases! {
    /// What is done with a book before its conversion or after it.
    Use {
        Mark,
        Block,
        Final,
        Plain,
        Listing,
        Judge,
        Clock,
        Right,
        Submission,
    }
}

impl Generator {
    /// A conversion in the way that is next in turn.
    pub(super) fn conversion(&mut self, book: &[u8]) {
        if self.repair.is_some() || !is_sound(book) {
            self.convert_and_show(book);
            return;
        }
        let dealt = self.conversions.deal_serving(&mut self.random, |random, turn| turn.made(random, book));
        let (turn, old) = match dealt {
            None => return,
            Some(dealt) => dealt,
        };
        self.set_book(book, &old);
        match turn {
            ConversionTurn::AsItStands | ConversionTurn::Mixed => self.convert_and_show(&old),
            ConversionTurn::Bad(_) => {
                self.convert_and_show(&old);
                self.set_book(&old, book);
            }
            ConversionTurn::Twice => self.convert_twice(&old),
            ConversionTurn::TooLate => self.convert_too_late(book, old),
            ConversionTurn::Old(_) => {
                self.queue.standing = Standing::Old;
                for _ in 0..self.random.between(2, 3) {
                    let dealt = self.old_uses.deal_serving(&mut self.random, |_, use_of| use_of.serves(book));
                    dealt.into_iter().for_each(|(use_of, ())| self.make_use(book, use_of));
                }
                // A final that was given must be given again.
                let given = self.queue.last_final();
                self.convert_and_show(&old);
                given.into_iter().for_each(|record| self.queue.push_back(record));
                for _ in 0..self.random.between(1, 2) {
                    let dealt = self.new_uses.deal_serving(&mut self.random, |_, use_of| use_of.serves(book));
                    dealt.into_iter().for_each(|(use_of, ())| self.make_use(book, use_of));
                }
            }
        }
    }

    fn convert_twice(&mut self, old: &[u8]) {
        self.queue.standing = Standing::Old;
        self.convert_and_show(old);
        self.convert_and_show(old);
    }

    /// An old book whose marks are put right in part, by a message that it takes before its conversion. The
    /// book is then put back.
    fn convert_too_late(&mut self, book: &[u8], mut old: Vec<u8>) {
        self.queue.standing = Standing::Old;
        let message = self.lawful_message(book);
        self.submit_and_show(&old, message.clone());
        submit(&mut old, &message);
        self.convert_and_show(&old);
        convert(&mut old);
        self.set_book(&old, book);
    }

    /// A conversion, and the book after it: every byte of a small one. It is an old book no longer.
    pub(super) fn convert_and_show(&mut self, book: &[u8]) {
        self.queue.push_back(Record::Convert);
        self.queue.standing = Standing::Usual;
        self.queue.push_back(Record::Sum);
        if book.len() <= listing::MOST_BYTES && self.random.percent(50) {
            self.queue.push_back(Record::Book);
        }
    }

    fn make_use(&mut self, book: &[u8], use_of: Use) {
        match use_of {
            Use::Mark => self.mark_or_block(book, true),
            Use::Block => self.mark_or_block(book, false),
            Use::Final => self.given_final(book),
            Use::Plain => self.queue.push_back(Record::Plain),
            Use::Listing => self.queue.push_back(Record::Listing),
            Use::Clock => {
                let kept = usize::from(u16_at(block_at(book, 0), CLOCK));
                let minute = (kept + self.random.between(1, 40)).min(usize::from(LATEST_MINUTE));
                self.queue.push_back(Record::Clock(minute as u16));
            }
            Use::Right => {
                let holder = self.random.pick(&self.partners);
                let mut right = external::right(&mut self.random, block_at(book, 0), &holder, &self.partners);
                seal(&mut right);
                self.queue.push_back(Record::Right(right.to_vec()));
            }
            Use::Judge => {
                let message = self.lawful_message(book);
                self.judge_and_show(message);
            }
            Use::Submission => {
                let message = self.lawful_message(book);
                self.submit_and_show(book, message);
            }
        }
    }

    /// A message that changes about half of what its sender filed.
    fn lawful_message(&mut self, book: &[u8]) -> Vec<u8> {
        let (sender, growth) = (self.sender(book), self.growth(book));
        let growth = Growth { changed: 50, ..growth };
        Draft::lawful(&mut self.random, book, sender, &self.partners, &growth).finished(&mut self.random, &[])
    }

    /// A message whose series differ from their counterparts in the ways that are next in turn, and some of the
    /// marks that it makes, on both sides.
    pub(super) fn differences(&mut self, book: &[u8]) {
        let answering = self.answering(book);
        if answering.is_empty() || !is_sound(book) {
            self.submission(book);
            return;
        }
        let random = &mut self.random;
        let sender = random.pick(&answering);
        let free = blocks(book).filter(|block| block[KIND] == 0).count();
        let new = New::UpTo(6.min(free.saturating_sub(1)));
        let growth = Growth { new, changed: 0, side: None, external: 0, version: Version::Lawful };
        let mut draft = Draft::lawful(random, book, sender, &self.partners, &growth);
        let place = place_of_n(book);
        draft.differ(random, book, &mut self.ways_to_differ[place]);
        let message = draft.finished(random, &[]);
        self.submit_and_show(book, message.clone());
        if self.random.percent(35) {
            self.marks_of_two(book, &message);
        }
    }

    /// The parties that others filed trades with, and that are not shut out by version 999.
    fn answering(&self, book: &[u8]) -> Vec<Field> {
        let list: Vec<&Block> = blocks(book).collect();
        let shut_out = |party: &Field| kept_version(book, party) == Some(HIGHEST_VERSION);
        let owner = |series: &Block| list.get(usize::from(u16_at(series, SENDER_SLOT))).map(|head| field(head, SENDER));
        let mut parties: Vec<Field> = Vec::new();
        for series in list.iter().skip(1).filter(|block| block[KIND] == KIND_SERIES && is_internal(block)) {
            let (in_party, out_party) = pair(series);
            let other = if owner(series) == Some(in_party) { out_party } else { in_party };
            if !parties.contains(&other) && !shut_out(&other) {
                parties.push(other);
            }
        }
        parties
    }

    /// The mark of a series of the message, and that of its counterpart.
    fn marks_of_two(&mut self, book: &[u8], message: &[u8]) {
        let sender = field(block_at(message, 0), SENDER);
        let list: Vec<&Block> = blocks(book).collect();
        let theirs = |series: &Block| {
            list.iter().skip(1).copied().find(|block| {
                block[KIND] == KIND_SERIES
                    && is_internal(block)
                    && pair(block) == pair(series)
                    && field(list[usize::from(u16_at(block, SENDER_SLOT))], SENDER) != sender
            })
        };
        let sides: Vec<(&Block, &Block)> = blocks(message)
            .skip(1)
            .filter(|series| is_internal(series))
            .filter_map(|series| Some((series, theirs(series)?)))
            .collect();
        if !sides.is_empty() {
            let (own, other) = self.random.pick(&sides);
            let owner = list[usize::from(u16_at(other, SENDER_SLOT))];
            for (sender, series) in [(sender, own), (field(owner, SENDER), other)] {
                self.queue.push_back(Record::Mark { sender: sender.to_vec(), id: field(series, ID).to_vec() });
            }
        }
    }

    /// A book that keeps one thing other than the plain rule has it; the plain run tells. It is then put back.
    pub(super) fn false_book(&mut self, book: &[u8]) {
        if !is_sound(book) {
            return;
        }
        let dealt = self.kept.deal_serving(&mut self.random, |random, what| crafted::falsify(random, book, what));
        if let Some((_, other)) = dealt {
            self.set_book(book, &other);
            self.queue.push_back(Record::Plain);
            match self.random.below(6) {
                0 => self.queue.push_back(Record::Listing),
                1 => self.queue.push_back(Record::Sound),
                2 => self.mark_or_block(&other, true),
                _ => {}
            }
            self.set_book(&other, book);
        }
    }

    /// Two senders that file the same trades, so that no series is alone; after each answer a conversion. It
    /// passes where every count is 1 to 3. Often the book is then made an old one and converted twice.
    pub(super) fn step_of_two(&mut self, book: &[u8]) {
        let filed = blocks(book).any(|block| block[KIND] == KIND_SERIES);
        let all_answered = blocks(book).filter(|block| block[KIND] == KIND_SENDER).count() > 1;
        let (sender, new) = match (filed, all_answered) {
            (false, _) => (self.partners[0], New::Exactly(self.random.between(1, 2))),
            (true, false) => (self.partners[1], New::Answering),
            (true, true) => (self.random.pick(&self.partners[..2]), New::Answering),
        };
        let growth = Growth { new, changed: 0, side: None, external: 0, version: Version::Next };
        let mut draft = Draft::lawful(&mut self.random, book, sender, &self.partners[..2], &growth);
        let small = self.random.percent(50);
        let ways = if small { &mut self.small_ways_to_differ } else { &mut self.ways_to_differ[place_of_n(book)] };
        draft.differ(&mut self.random, book, ways);
        let message = draft.finished(&mut self.random, &[]);
        self.submit_and_show(book, message.clone());
        if filed {
            let mut after = book.to_vec();
            submit(&mut after, &message);
            self.convert_and_show(&after);
            if self.random.percent(50) {
                let old = old_book(&mut self.random, &after, Falsehood::Everything).expect("there are series");
                self.set_book(&after, &old);
                self.convert_twice(&old);
            }
            if self.random.percent(35) {
                self.marks_of_two(book, &message);
            }
        }
    }
}

/// Which of the three n the book has.
fn place_of_n(book: &[u8]) -> usize {
    NS.iter().position(|&n| n == book[N]).expect("a sound book has one of them")
}

/// Whether some series keeps such a count.
fn keeps_count(book: &[u8], such: impl Fn(u8) -> bool) -> bool {
    blocks(book).skip(1).any(|block| block[KIND] == KIND_SERIES && such(block[DIFFER]))
}

impl Use {
    /// Whether the book has what it needs: a final a position that is closed, a listing 64 blocks at most.
    fn serves(self, book: &[u8]) -> Option<()> {
        let can = match self {
            Use::Final => last_closed(block_at(book, 0)) > 0,
            Use::Listing => book.len() <= listing::MOST_BYTES,
            _ => true,
        };
        can.then_some(())
    }
}
