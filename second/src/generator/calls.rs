//! Every call but submitting and judging, and calls on damaged and broken books.

use super::{flip_and_reseal, Generator, Repair, Standing};
use crate::block::*;
use crate::breach::break_book;
use crate::counts::{Minute, Position, DAY_START, LATEST_MINUTE};
use crate::crafted::{self, Kept};
use crate::listing;
use crate::names;
use crate::old_book::{old_book, Falsehood};
use crate::sound::is_sound;
use crate::stream::Record;
use crate::texts;

impl Generator {
    pub(super) fn reader(&mut self, book: &[u8]) {
        let message = self.message(book);
        let random = &mut self.random;
        let last = message.len() / BLOCK_BYTES;
        let number = match random.below(8) {
            0 => 0,
            1 => last as u16,
            2 => random.pick(&[65_535, 201, 202, 128]),
            _ => random.between(1, last.max(1)) as u16,
        };
        self.queue.push_back(Record::Reader { number, message: message.clone() });
        if random.percent(45) {
            self.queue.push_back(Record::Walk(message));
        }
    }

    pub(super) fn clock(&mut self, book: &[u8]) {
        let random = &mut self.random;
        if book.len() < BLOCK_BYTES {
            self.queue.push_back(Record::Clock(random.between(0, 20_000) as u16));
            return;
        }
        let day = block_at(book, 0);
        let (kept, lead) = (u16_at(day, CLOCK), u16_at(day, LEAD));
        // The minute at which clock plus lead just reaches the beginning of a position.
        let edge = |position: usize| (usize::from(DAY_START) + 15 * (position - 1)) as i32 - i32::from(lead);
        let first_open = first_open(day).min(100);
        let minute = match random.weighted(&[4, 3, 14, 30, 5, 5, 2, 1]) {
            0 => i32::from(kept),
            1 => i32::from(kept) + 1,
            2 => edge(usize::from(first_open)) + random.below(3) as i32 - 1,
            3 => {
                let ahead = (usize::from(first_open) + random.below(8)).min(100);
                edge(ahead) + random.below(2) as i32
            }
            4 => i32::from(kept) - random.between(1, 20) as i32,
            5 if random.percent(15) => random.pick(&[65_535, 32_768, 20_000]),
            5 => i32::from(LATEST_MINUTE) + 1,
            6 => random.between(0, usize::from(LATEST_MINUTE)) as i32,
            _ => i32::from(LATEST_MINUTE),
        };
        self.queue.push_back(Record::Clock(minute.clamp(0, 65_535) as u16));
        if random.percent(30) {
            self.queue.push_back(Record::Sum);
        }
    }

    /// A sender and a series id, mostly such as the book holds.
    pub(super) fn series_name(&mut self, book: &[u8]) -> (Vec<u8>, Vec<u8>) {
        let random = &mut self.random;
        let list: Vec<&Block> = blocks(book).collect();
        let series: Vec<&Block> = list.iter().copied().skip(1).filter(|block| block[KIND] == KIND_SERIES).collect();
        let (mut sender, mut id) = (random.pick(&self.partners).to_vec(), names::id(random).to_vec());
        if !series.is_empty() {
            let one = random.pick(&series);
            id = field(one, ID).to_vec();
            if let Some(owner) = list.get(usize::from(u16_at(one, SENDER_SLOT))) {
                sender = field(owner, SENDER).to_vec();
            }
        }
        match random.below(24) {
            0 => sender = random.pick(&self.partners).to_vec(),
            1 => sender = names::invalid_eic(random).to_vec(),
            2 => id = names::id(random).to_vec(),
            3 => id = names::malformed_id(random).to_vec(),
            4 => {
                sender.pop();
            }
            5 => id.push(0),
            6 => id.clear(),
            _ => {}
        }
        (sender, id)
    }

    pub(super) fn mark_or_block(&mut self, book: &[u8], mark: bool) {
        let (sender, id) = self.series_name(book);
        self.queue.push_back(if mark { Record::Mark { sender, id } } else { Record::Block { sender, id } });
    }

    pub(super) fn final_reading(&mut self, book: &[u8]) {
        let random = &mut self.random;
        let series: Vec<&Block> = blocks(book).skip(1).filter(|block| block[KIND] == KIND_SERIES).collect();
        let (mut in_party, mut out_party) =
            (random.pick(&self.partners).to_vec(), random.pick(&self.partners).to_vec());
        if !series.is_empty() && random.percent(90) {
            let one = random.pick(&series);
            in_party = field(one, IN_PARTY).to_vec();
            out_party = field(one, OUT_PARTY).to_vec();
        }
        match random.below(30) {
            0 => in_party = out_party.clone(),
            1 => in_party = names::invalid_eic(random).to_vec(),
            2 => out_party.truncate(15),
            3 | 4 => std::mem::swap(&mut in_party, &mut out_party),
            _ => {}
        }
        let (n, first_open) = match blocks(book).next() {
            None => (96, 1),
            Some(day) => (usize::from(day[N]).clamp(1, 100), first_open(day)),
        };
        let position = match random.below(16) {
            0 => 0,
            1 => n as u16 + 1,
            2 => random.pick(&[101, 255, 256, 257, 65_535]),
            3 => n as u16,
            4 | 5 => first_open,
            6 | 7 => first_open - 1,
            8 => random.between(1, n) as u16,
            _ => random.between(1, usize::from(first_open)) as u16,
        };
        self.queue.push_back(Record::Final { out_party, in_party, position });
    }

    /// Damages the book, makes some calls on it and then puts it back as it was.
    pub(super) fn damage(&mut self, book: &[u8]) {
        if self.repair.is_some() || !is_sound(book) {
            return;
        }
        let random = &mut self.random;
        let damaged = match random.weighted(&[4, 8, 12, 2]) {
            0 => {
                let mut bytes = book.to_vec();
                for _ in 0..random.between(1, 3) {
                    bytes[random.below(book.len())] ^= 1 << random.below(8);
                }
                Some(bytes)
            }
            1 => {
                let mut bytes = book.to_vec();
                flip_and_reseal(random, &mut bytes);
                Some(bytes)
            }
            2 => {
                let what = random.pick(Kept::ALL);
                crafted::falsify(random, book, what)
            }
            _ => {
                let keep = random.below(book.len());
                Some(book[..keep].to_vec())
            }
        };
        if let Some(damaged) = damaged.filter(|damaged| damaged != book) {
            self.set_book(book, &damaged);
            let calls = if is_sound(&damaged) { self.random.between(2, 10) } else { self.random.between(1, 4) };
            self.repair = Some(Repair { calls, original: book.to_vec() });
        }
    }

    /// A few calls on a book that breaks one clause of soundness, which is then put back. It is of the old layout
    /// but for that, so its conversion fails by the clause alone.
    pub(super) fn broken_book(&mut self, book: &[u8]) {
        if !is_sound(book) {
            return;
        }
        let old = old_book(&mut self.random, book, Falsehood::Nothing);
        let old = old.expect("a book in which nothing is to be false can always be made");
        let dealt = self.breaches.deal_serving(&mut self.random, |random, breach| break_book(random, &old, breach));
        if let Some((breach, broken)) = dealt {
            self.set_book(book, &broken);
            self.queue.standing = Standing::Broken(breach);
            self.queue.push_back(Record::Convert);
            self.book_call(book);
            self.queue.push_back(Record::Sum);
            self.set_book(&broken, book);
        }
    }

    /// The listing of the book, made just as long as a listing takes it or just longer, and put back.
    pub(super) fn listing_at_edge(&mut self, book: &[u8]) {
        let used = blocks(book).filter(|block| block[KIND] != 0).count();
        if is_sound(book) && used * BLOCK_BYTES < listing::MOST_BYTES {
            let longest = listing::MOST_BYTES;
            let length = self.random.pick(&[longest - 1, longest, longest + 1, longest + BLOCK_BYTES]);
            let mut other = book.to_vec();
            other.resize(length, 0);
            self.set_book(book, &other);
            self.queue.push_back(Record::Listing);
            self.set_book(&other, book);
        }
    }

    /// A call that begins by asking whether the book is sound. It is made for the book given.
    pub(super) fn book_call(&mut self, book: &[u8]) {
        match self.random.below(10) {
            0 => self.queue.push_back(Record::Sound),
            1 => {
                let message = self.message(book);
                self.queue.push_back(Record::Submit(message));
                self.queue.push_back(Record::Sum);
            }
            2 => {
                let message = self.message(book);
                self.judge_and_show(message);
            }
            3 => self.mark_or_block(book, true),
            4 => self.mark_or_block(book, false),
            5 => self.final_reading(book),
            6 => self.queue.push_back(Record::Plain),
            7 if book.len() <= listing::MOST_BYTES => self.queue.push_back(Record::Listing),
            7 | 8 => self.any_right(book),
            _ => self.clock(book),
        }
    }

    /// Calls that need no book.
    pub(super) fn leaf(&mut self) {
        let random = &mut self.random;
        let record = match random.weighted(&[17, 3, 6, 4, 2, 2, 2]) {
            0 if random.percent(65) => {
                let character = self.wrong_texts.deal(random);
                Record::Eic(names::wrong_text_at(random, character))
            }
            0 => {
                let valid = random.pick(&self.pool);
                Record::Eic(texts::eic(random, &valid))
            }
            1 => Record::Id(texts::id(random)),
            2 => Record::Read(texts::quantity(random)),
            3 => {
                let quantity = texts::quantity_to_print(random);
                let buffer = (0..random.below(12)).map(|_| random.byte()).collect();
                Record::Print { quantity, buffer }
            }
            4 => Record::Check(texts::block(random)),
            5 => Record::Seal(texts::block(random)),
            _ if random.percent(10) => Record::Code(random.byte()),
            _ => Record::Code(self.numbers.deal(random)),
        };
        self.queue.push_back(record);
    }
}

/// The lowest open position of a hundred; 101 when all are closed.
fn first_open(day: &Block) -> u16 {
    let (clock, lead) = (Minute(u16_at(day, CLOCK)), u16_at(day, LEAD));
    (1..=100).find(|&position| Position(position).is_open(clock, lead)).unwrap_or(101)
}
