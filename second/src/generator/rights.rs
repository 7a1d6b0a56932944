//! Rights that are entered: lawful ones, blocks that are none, and rights that stand there already.

use super::{senders_of, Generator};
use crate::block::*;
use crate::external::{self, put_holder, put_limits, rights_in, RightFault, RightPart};
use crate::listing;
use crate::random::Random;
use crate::right::enter;
use crate::sound::{is_sound, MOST_BLOCKS};
use crate::stream::{Record, MOST_RIGHT_BYTES};

/// What is to be shown of entering.
#[derive(Clone, Copy, Debug, PartialEq, Eq)]
pub(super) enum RightTurn {
    New,
    /// One that differs in this alone from a right in the book.
    Near(RightPart),
    Malformed(RightFault),
    /// A right of so many bytes.
    Length(usize),
    /// One that stands there already.
    Equal {
        other_limits: bool,
    },
    LastSlot,
    /// No slot is free.
    Full,
    FullMalformed,
    FullEqual,
}

impl RightTurn {
    /// One round of them.
    pub(super) fn all() -> Vec<RightTurn> {
        use RightTurn::*;
        let near = RightPart::ALL.iter().map(|&part| Near(part));
        let malformed = RightFault::ALL.iter().map(|&fault| Malformed(fault));
        let lengths = [0, BLOCK_BYTES - 1, BLOCK_BYTES + 1, MOST_RIGHT_BYTES].map(Length);
        let equal = [Equal { other_limits: false }, Equal { other_limits: true }];
        let others = [New, New, LastSlot, Full, Full, FullMalformed, FullEqual, FullEqual];
        near.chain(malformed).chain(lengths).chain(equal).chain(others).collect()
    }

    /// The book in which to enter, and what. Nothing if this book lacks what is needed.
    fn made(self, random: &mut Random, book: &[u8], holders: &[Field]) -> Option<(Vec<u8>, Vec<u8>)> {
        let day = block_at(book, 0);
        let holder = random.pick(holders);
        let new = sealed(external::right(random, day, &holder, holders));
        let stored = rights_in(book);
        let some_stored = |random: &mut Random| (!stored.is_empty()).then(|| random.pick(&stored));
        let used = blocks(book).filter(|block| block[KIND] != 0).count();
        let body = match self {
            RightTurn::New | RightTurn::LastSlot | RightTurn::Full => new.to_vec(),
            RightTurn::Near(part) => {
                let stored = some_stored(random)?;
                let mut near = part.altered(random, &stored, &field(day, AREA));
                if part == RightPart::Holder && holder != field(&stored, HOLDER) {
                    put_holder(&mut near, &holder);
                }
                sealed(near).to_vec()
            }
            RightTurn::Malformed(fault) => fault.made(random, &new, day)?.to_vec(),
            RightTurn::FullMalformed => random.pick(RightFault::ALL).made(random, &new, day)?.to_vec(),
            RightTurn::Length(length) => {
                let behind = if random.percent(50) { new } else { [0; BLOCK_BYTES] };
                [new, behind].concat()[..length].to_vec()
            }
            RightTurn::Equal { other_limits: false } => some_stored(random)?.to_vec(),
            RightTurn::Equal { other_limits: true } | RightTurn::FullEqual => {
                let mut equal = some_stored(random)?;
                put_limits(random, &mut equal);
                sealed(equal).to_vec()
            }
        };
        let blocks = match self {
            RightTurn::LastSlot if used < MOST_BLOCKS => used + 1,
            RightTurn::Full | RightTurn::FullMalformed | RightTurn::FullEqual if used > 1 => used,
            RightTurn::LastSlot | RightTurn::Full | RightTurn::FullMalformed | RightTurn::FullEqual => return None,
            _ => book.len() / BLOCK_BYTES,
        };
        let mut staged = book.to_vec();
        staged.resize(blocks * BLOCK_BYTES, 0);
        Some((staged, body))
    }
}

fn sealed(mut right: Block) -> Block {
    seal(&mut right);
    right
}

impl Generator {
    /// A right in the way that is next in turn. A book that was made longer or shorter for it is put back.
    pub(super) fn enter_right(&mut self, book: &[u8]) {
        if !is_sound(book) {
            self.any_right(book);
            return;
        }
        let holders = self.holders(book);
        let dealt = self.rights.deal_serving(&mut self.random, |random, turn| turn.made(random, book, &holders));
        if let Some((_, (mut staged, body))) = dealt {
            self.set_book(book, &staged);
            self.queue.push_back(Record::Right(body.clone()));
            let shown = enter(&mut staged, &body) == 0 && staged.len() <= listing::MOST_BYTES;
            let shown = shown && self.random.percent(50);
            self.show_after(shown);
            if staged.len() != book.len() {
                self.set_book(&staged, book);
            }
        }
    }

    /// Those who hold rights: mostly senders, and some that are none.
    fn holders(&self, book: &[u8]) -> Vec<Field> {
        let known = senders_of(book);
        [&known[..], &known, &self.partners].concat()
    }

    /// Some right for the book, which need not be sound; sometimes malformed.
    pub(super) fn any_right(&mut self, book: &[u8]) {
        let nothing = [0; BLOCK_BYTES];
        let mut day = blocks(book).next().copied().unwrap_or(nothing);
        day[N] = day[N].clamp(2, POSITIONS as u8);
        let random = &mut self.random;
        let holder = random.pick(&self.partners);
        let right = external::right(random, &day, &holder, &self.partners);
        let fault = random.pick(RightFault::ALL);
        let malformed = fault.made(random, &right, &day).filter(|_| random.percent(40));
        self.queue.push_back(Record::Right(malformed.unwrap_or_else(|| sealed(right)).to_vec()));
        self.queue.push_back(Record::Sum);
    }

    /// Rights at the beginning of an episode, for the book that was opened with this area and n.
    pub(super) fn first_rights(&mut self, day: &Block, number: usize) {
        let mut entered: Vec<Block> = Vec::new();
        for _ in 0..number {
            let random = &mut self.random;
            let holder = random.pick(&self.partners);
            let right = match entered.last() {
                Some(last) if random.percent(40) => {
                    let part = random.pick(RightPart::ALL);
                    let mut near = part.altered(random, last, &field(day, AREA));
                    if part == RightPart::Holder {
                        put_holder(&mut near, &holder);
                    }
                    near
                }
                _ => external::right(random, day, &holder, &self.partners),
            };
            entered.push(right);
            self.queue.push_back(Record::Right(sealed(right).to_vec()));
        }
    }
}
