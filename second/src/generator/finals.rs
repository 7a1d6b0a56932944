//! Finals by both rules, and counterparts that file too late.

use super::Generator;
use crate::block::*;
use crate::counts::{Minute, Position, DAY_START, LATEST_MINUTE};
use crate::day::move_clock;
use crate::draft::{Draft, Growth, New, Side, Version};
use crate::final_case::{last_closed, sides, FinalCase};
use crate::random::Random;
use crate::sound::is_sound;
use crate::stream::Record;
use crate::submission::judge;

impl Generator {
    /// Finals in the cases that are next in turn for the book's rule.
    pub(super) fn finals(&mut self, book: &[u8]) {
        if !is_sound(book) || !blocks(book).any(|block| block[KIND] == KIND_SERIES) {
            self.final_reading(book);
            return;
        }
        let book = self.with_some_closed(book);
        for _ in 0..self.random.between(1, 3) {
            self.next_final(&book);
        }
        if self.random.percent(35) {
            self.final_of_external(&book);
        }
    }

    /// A final at a closed position for the two parties of an external schedule, if there is one.
    fn final_of_external(&mut self, book: &[u8]) {
        let external: Vec<(Field, Field)> =
            blocks(book).skip(1).filter(|block| block[KIND] == KIND_SERIES && is_external(block)).map(pair).collect();
        let last = last_closed(block_at(book, 0));
        if last > 0 && !external.is_empty() {
            let (in_party, out_party) = self.random.pick(&external);
            let position = self.random.between(1, usize::from(last)) as u16;
            self.ask_for_final(&out_party, &in_party, position);
        }
    }

    /// A final at a closed position, in the case that is next in turn for the book's rule. The book is sound.
    fn next_final(&mut self, book: &[u8]) {
        self.final_in(book, |_| true);
    }

    /// The same, of a trade that somebody filed.
    pub(super) fn given_final(&mut self, book: &[u8]) {
        self.final_in(book, |case| case != FinalCase::Neither);
    }

    fn final_in(&mut self, book: &[u8], such: impl Fn(FinalCase) -> bool) {
        let (cases, partners) = (&mut self.final_cases[usize::from(book[RULE])], &self.partners);
        let dealt =
            cases.deal_serving(
                &mut self.random,
                |random, case| {
                    if such(case) {
                        case.found(random, book, partners)
                    } else {
                        None
                    }
                },
            );
        if let Some((_, (out_party, in_party, position))) = dealt {
            self.ask_for_final(&out_party, &in_party, position);
        }
    }

    fn ask_for_final(&mut self, out_party: &Field, in_party: &Field, position: u16) {
        self.queue.push_back(Record::Final { out_party: out_party.to_vec(), in_party: in_party.to_vec(), position });
    }

    /// The book after the clock has closed a few positions, if none is closed yet.
    fn with_some_closed(&mut self, book: &[u8]) -> Vec<u8> {
        let mut later = book.to_vec();
        let day = block_at(book, 0);
        if last_closed(day) == 0 {
            let position = self.random.between(1, 12) as u16;
            let minute = (DAY_START + 15 * (position - 1) + 1).saturating_sub(u16_at(day, LEAD)).min(LATEST_MINUTE);
            self.queue.push_back(Record::Clock(minute));
            move_clock(&mut later, Minute(minute));
        }
        later
    }

    /// A trade that one side filed in time: its final, the other side's late filing, and the final again. The
    /// late side is the one that is next in turn for the book's rule.
    pub(super) fn late_counterpart(&mut self, book: &[u8]) {
        if !is_sound(book) || !blocks(book).any(|block| block[KIND] == KIND_SERIES) {
            self.submission(book);
            return;
        }
        let book = self.with_some_closed(book);
        let partners = &self.partners;
        let late_sides = &mut self.late_sides[usize::from(book[RULE])];
        let dealt =
            late_sides.deal_serving(&mut self.random, |random, late| answer_too_late(random, &book, late, partners));
        if let Some((_, (out_party, in_party, position, message))) = dealt {
            self.ask_for_final(&out_party, &in_party, position);
            self.submit_and_show(&book, message);
            self.ask_for_final(&out_party, &in_party, position);
        }
    }
}

/// A trade that only the other side filed, with a value at a closed position, and a message in which this side
/// answers it: seller, buyer, position and message. Nothing if none was found that the book takes.
fn answer_too_late(
    random: &mut Random,
    book: &[u8],
    late: Side,
    partners: &[Field],
) -> Option<(Field, Field, u16, Vec<u8>)> {
    let series: Vec<&Block> = blocks(book).skip(1).filter(|block| block[KIND] == KIND_SERIES).collect();
    let last = last_closed(block_at(book, 0));
    if last == 0 {
        return None;
    }
    (0..20).find_map(|_| {
        let (in_party, out_party) = pair(random.pick(&series));
        let position = random.between(1, usize::from(last)) as u16;
        let sender = match (late, sides(book, &out_party, &in_party, Position(position))) {
            (Side::Buys, (Some(1..), None)) => in_party,
            (Side::Sells, (None, Some(1..))) => out_party,
            _ => return None,
        };
        let growth = Growth { new: New::Answering, changed: 0, side: None, external: 0, version: Version::Lawful };
        let message = Draft::lawful(random, book, sender, partners, &growth).finished(random, &[]);
        (judge(book, &message).number() == 0).then_some((out_party, in_party, position, message))
    })
}
