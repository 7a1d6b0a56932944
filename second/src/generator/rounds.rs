//! Rounds of settled positions: every party of a book, each once, at one position, and some that are no party of it. So
//! over each round as much is bought as is sold.
//!
//! They come beside the other calls and are drawn from a source of their own, so the rest of a stream is the same with
//! them and without.

use super::{Generator, Standing};
use crate::block::*;
use crate::book::SoundBook;
use crate::breach::{break_book, Breach};
use crate::clause::cases;
use crate::crafted::{self, Shape};
use crate::deck::Deck;
use crate::final_case::{last_closed, FinalCase};
use crate::market::{close_up_to, crowd, market, some_last, without_trades, FEWEST_SELLERS, FILED, MOST_SELLERS};
use crate::names;
use crate::random::Random;
use crate::settlement::parties;
use crate::sound::is_sound;
use crate::stream::{Record, MOST_TEXT_BYTES};

/// There is one call of a round for so many others at most: a stream of 5,000 calls has 4,000 others at least.
const OTHERS_FOR_ONE: usize = 4;

/// Books with more parties have rounds only where they are made for it.
const MOST_AT_HAND: usize = 24;

/// How often in a hundred a round comes between two actions of an episode.
const IN_PASSING: usize = 3;

/// On which book a round is made when an episode ends.
#[derive(Clone, Copy, Debug, PartialEq, Eq)]
enum Stage {
    AtHand,
    /// The book at hand with its clock and rule set, so that positions are closed.
    Closed,
    Market,
    /// One without internal trades, which has no parties.
    NoTrades,
    /// One that is not sound.
    Broken,
    /// One of more parties than any at hand.
    Large,
    /// One whose sums 32 bits don't hold. Its round is a tenth of a stream, so not every stream can have it.
    Crowd,
}

/// One round of them.
const STAGES: [(Stage, usize); 7] = [
    (Stage::AtHand, 50),
    (Stage::Closed, 60),
    (Stage::Market, 60),
    (Stage::NoTrades, 16),
    (Stage::Broken, 40),
    (Stage::Large, 2),
    (Stage::Crowd, 1),
];

cases! {
    /// At which position a round is made. The last of them is above 255 and has the low byte of a closed one.
    Where {
        First,
        LastClosed,
        Closed,
        FirstOpen,
        LastOpen,
        Zero,
        NextToN,
        Above,
        LowByte,
    }
}

/// Closed ones come more often.
const MORE_CLOSED: [Where; 6] =
    [Where::LastClosed, Where::Closed, Where::Closed, Where::Closed, Where::Closed, Where::Closed];

impl Where {
    /// The position on a day that is closed up to this one. Nothing if there is none.
    fn made(self, random: &mut Random, n: u8, last: u16) -> Option<u16> {
        let n = u16::from(n);
        let closed = |random: &mut Random| (last > 0).then(|| random.between(1, usize::from(last)) as u16);
        match self {
            Where::First => (last > 0).then_some(1),
            Where::LastClosed => (last > 0).then_some(last),
            Where::Closed => closed(random),
            Where::FirstOpen => (last < n).then_some(last + 1),
            Where::LastOpen => (last < n).then_some(n),
            Where::Zero => Some(0),
            Where::NextToN => Some(n + 1),
            Where::Above => Some(random.pick(&[n + 2, 127, 128, 255, 256, 32_768, 65_535])),
            Where::LowByte => closed(random).map(|position| position + 256 * random.pick(&[1, 1, 2, 128, 255])),
        }
    }
}

cases! {
    /// Who is asked for though no party of the book.
    Stranger {
        Code,
        Near,
        Zeros,
        InExternals,
        Holder,
        Short,
        Long,
        Longest,
        Empty,
    }
}

impl Stranger {
    /// The name of one. Nothing if the book lacks what is needed.
    fn made(self, random: &mut Random, book: &[u8], pool: &[Field], known: &[Field]) -> Option<Vec<u8>> {
        let some_known = |random: &mut Random| (!known.is_empty()).then(|| random.pick(known).to_vec());
        let name = match self {
            Stranger::Code => random.pick(pool).to_vec(),
            Stranger::Near => {
                let mut name = some_known(random)?;
                name[random.below(16)] = names::character(random);
                name
            }
            Stranger::Zeros => vec![0; 16],
            Stranger::InExternals => some_outsider(random, book, KIND_SERIES, known)?.to_vec(),
            Stranger::Holder => some_outsider(random, book, KIND_RIGHT, known)?.to_vec(),
            Stranger::Short => some_known(random)?[..15].to_vec(),
            Stranger::Long => [some_known(random)?, vec![random.pick(b"\0\0A-")]].concat(),
            Stranger::Longest => some_known(random)?.into_iter().cycle().take(MOST_TEXT_BYTES).collect(),
            Stranger::Empty => Vec::new(),
        };
        known.iter().all(|party| name != *party).then_some(name)
    }
}

/// Somebody whom blocks of this kind name as a party, series or rights, but no internal trade.
fn some_outsider(random: &mut Random, book: &[u8], kind: u8, known: &[Field]) -> Option<Field> {
    let named = blocks(book).skip(1).filter(|block| block[KIND] == kind);
    let named = named.flat_map(|block| [field(block, IN_PARTY), field(block, OUT_PARTY)]);
    let outsiders: Vec<Field> = named.filter(|name| !known.contains(name)).collect();
    (!outsiders.is_empty()).then(|| random.pick(&outsiders))
}

/// A book, what is known of it, and the calls that are made on it.
struct Round {
    book: Vec<u8>,
    standing: Standing,
    calls: Vec<Record>,
}

pub(super) struct Rounds {
    random: Random,
    stages: Deck<Stage>,
    wheres: Deck<Where>,
    strangers: Deck<Stranger>,
    /// The rule of a market, and the case of a final that it shows.
    markets: Deck<(u8, FinalCase)>,
    breaches: Deck<Breach>,
    /// The rules of books that are set.
    rules: Deck<u8>,
    /// The stage that comes next, once there is room for it.
    waiting: Option<Stage>,
    /// How many other calls there were for which rounds have had none yet.
    others: usize,
    /// Whether rounds had their turn since something else was planned.
    had_turn: bool,
}

impl Rounds {
    pub(super) fn new(seed: u64) -> Self {
        let stages: Vec<Stage> = STAGES.iter().flat_map(|&(stage, times)| vec![stage; times]).collect();
        let markets: Vec<(u8, FinalCase)> =
            FILED.iter().flat_map(|&case| [(SELLERS_RULE, case), (LESSER_RULE, case)]).collect();
        Rounds {
            random: Random::new(!seed),
            stages: Deck::in_one_order(&stages, seed),
            wheres: Deck::in_one_order(&[Where::ALL, &MORE_CLOSED].concat(), seed),
            strangers: Deck::in_one_order(Stranger::ALL, seed),
            markets: Deck::in_one_order(&markets, seed),
            breaches: Deck::in_one_order(Breach::ALL, seed),
            rules: Deck::of(&[SELLERS_RULE, LESSER_RULE]),
            waiting: None,
            others: 0,
            had_turn: false,
        }
    }

    /// Counts a record of the stream.
    pub(super) fn count(&mut self, record: &Record) {
        self.others += usize::from(record.is_call() && !matches!(record, Record::Settled { .. }));
    }

    /// Whether it is their turn, which they have between any two other things that are planned.
    pub(super) fn have_turn(&mut self) -> bool {
        self.had_turn = !self.had_turn;
        self.had_turn
    }

    fn has_room(&self, calls: usize) -> bool {
        calls * OTHERS_FOR_ONE <= self.others
    }

    /// A round on the book as it stands, if it has few parties and no other round waits. A book that is not sound is
    /// asked for one or two.
    fn in_passing(&mut self, book: &[u8], pool: &[Field]) -> Option<Round> {
        if self.waiting.is_some() || !self.has_room(MOST_AT_HAND + 2) {
            None
        } else if is_sound(book) {
            self.at_hand(book, pool)
        } else {
            Some(Round { book: book.to_vec(), standing: Standing::Usual, calls: self.in_vain(book, pool) })
        }
    }

    fn at_hand(&mut self, book: &[u8], pool: &[Field]) -> Option<Round> {
        let sound = SoundBook::of(book)?;
        let few = (1..=MOST_AT_HAND).contains(&parties(&sound).len());
        few.then(|| self.on(book.to_vec(), pool))
    }

    /// A round on a sound book, at the position that is next in turn.
    fn on(&mut self, book: Vec<u8>, pool: &[Field]) -> Round {
        let (n, last) = (book[N], last_closed(block_at(&book, 0)));
        let dealt = self.wheres.deal_serving(&mut self.random, |random, place| place.made(random, n, last));
        let (_, position) = dealt.expect("every day has a position 0");
        let calls = self.whole(&book, pool, position);
        Round { book, standing: Standing::Usual, calls }
    }

    /// Every party of a sound book, each once, and strangers between them.
    fn whole(&mut self, book: &[u8], pool: &[Field], position: u16) -> Vec<Record> {
        let sound = SoundBook::of(book).expect("a whole round is made on a sound book");
        let known: Vec<Field> = parties(&sound).into_iter().collect();
        let mut names: Vec<Vec<u8>> = known.iter().map(|party| party.to_vec()).collect();
        let strangers = if known.is_empty() { 2 } else { self.random.pick(&[0, 1, 1, 2]) };
        for _ in 0..strangers {
            let made = |random: &mut Random, stranger: Stranger| stranger.made(random, book, pool, &known);
            names.extend(self.strangers.deal_serving(&mut self.random, made).map(|(_, name)| name));
        }
        self.random.shuffle(&mut names);
        names.into_iter().map(|party| Record::Settled { party, position }).collect()
    }

    /// One or two calls on a book that is not sound, at any position, mostly for those that it names as parties.
    fn in_vain(&mut self, book: &[u8], pool: &[Field]) -> Vec<Record> {
        let random = &mut self.random;
        let series = blocks(book).skip(1).filter(|block| block[KIND] == KIND_SERIES);
        let named: Vec<Field> = series.flat_map(|series| [field(series, IN_PARTY), field(series, OUT_PARTY)]).collect();
        let names = if named.is_empty() { pool } else { &named };
        let calls = random.between(1, 2);
        let mut call = || Record::Settled {
            party: random.pick(names).to_vec(),
            position: random.pick(&[0, 1, 1, 2, 92, 101, 255, 65_535]),
        };
        (0..calls).map(|_| call()).collect()
    }

    /// The round that is next in turn when an episode ends. Nothing if there is no room for it yet.
    fn next(&mut self, book: &[u8], pool: &[Field]) -> Option<Round> {
        let stage = self.waiting.take().unwrap_or_else(|| self.stages.deal(&mut self.random));
        let room = match stage {
            Stage::Crowd => MOST_SELLERS + 3,
            Stage::Large => 120,
            _ => MOST_AT_HAND + 2,
        };
        if self.has_room(room) {
            return Some(self.staged(stage, book, pool));
        }
        self.waiting = Some(stage);
        None
    }

    fn staged(&mut self, stage: Stage, book: &[u8], pool: &[Field]) -> Round {
        let at_hand = match stage {
            Stage::AtHand => self.at_hand(book, pool),
            Stage::Closed => self.closed(book, pool),
            Stage::Broken => self.broken(book, pool),
            Stage::Large => Some(self.large(pool)),
            Stage::Crowd => Some(self.crowd(pool)),
            Stage::Market => None,
            Stage::NoTrades => {
                let book = without_trades(&mut self.random, pool);
                Some(self.on(book, pool))
            }
        };
        at_hand.unwrap_or_else(|| {
            let market = self.market(pool);
            self.on(market, pool)
        })
    }

    fn market(&mut self, pool: &[Field]) -> Vec<u8> {
        let (rule, case) = self.markets.deal(&mut self.random);
        market(&mut self.random, pool, rule, case)
    }

    /// The book at hand closed up to some position, by the rule that is next in turn.
    fn closed(&mut self, book: &[u8], pool: &[Field]) -> Option<Round> {
        let mut set = SoundBook::of(book)?.bytes().to_vec();
        set[RULE] = self.rules.deal(&mut self.random);
        self.close(&mut set);
        self.at_hand(&set, pool)
    }

    /// Sets the clock of a book so that positions are closed up to one, which is told.
    fn close(&mut self, book: &mut [u8]) -> u16 {
        let day = block_at_mut(book, 0);
        let last = some_last(&mut self.random, day[N]);
        close_up_to(&mut self.random, day, last);
        seal(day);
        last
    }

    /// A book that breaks the clause of soundness that is next in turn.
    fn broken(&mut self, book: &[u8], pool: &[Field]) -> Option<Round> {
        let few = is_sound(book) && blocks(book).filter(|block| block[KIND] == KIND_SERIES).count() <= MOST_AT_HAND;
        let whole = if few { book.to_vec() } else { self.market(pool) };
        let made = |random: &mut Random, breach: Breach| break_book(random, &whole, breach);
        let (breach, broken) = self.breaches.deal_serving(&mut self.random, made)?;
        let calls = self.in_vain(&whole, pool);
        Some(Round { book: broken, standing: Standing::Broken(breach), calls })
    }

    fn large(&mut self, pool: &[Field]) -> Round {
        let senders = self.random.between(2, 3);
        let shape = Shape { senders, fewest_series: 60, most_series: 100, free_slots: 2, rights: 3, external: 10 };
        let mut book = crafted::sound_book(&mut self.random, pool, &shape);
        let last = self.close(&mut book);
        let calls = self.whole(&book, pool, last);
        Round { book, standing: Standing::Usual, calls }
    }

    fn crowd(&mut self, pool: &[Field]) -> Round {
        let sellers = self.random.pick(&[FEWEST_SELLERS, FEWEST_SELLERS, MOST_SELLERS]);
        let book = crowd(&mut self.random, pool, sellers);
        let last = last_closed(block_at(&book, 0));
        let position = self.random.between(1, usize::from(last)) as u16;
        let calls = self.whole(&book, pool, position);
        Round { book, standing: Standing::Usual, calls }
    }
}

impl Generator {
    /// Now and then a round on the book as it stands; when an episode ends some that are next in turn. Of a stream that
    /// has no more than so many calls left, a round that is longer is left out, and nothing else is another for it.
    pub(super) fn settled_rounds(&mut self, book: &[u8], mut left: u64) {
        let ends = self.left == 0 && self.repair.is_none();
        let random = &mut self.rounds.random;
        let number = if ends { random.between(1, 4) } else { usize::from(random.percent(IN_PASSING)) };
        for _ in 0..number {
            let round =
                if ends { self.rounds.next(book, &self.pool) } else { self.rounds.in_passing(book, &self.pool) };
            if let Some(round) = round {
                self.rounds.others -= OTHERS_FOR_ONE * round.calls.len();
                left = self.put_round(book, round, left);
            }
        }
    }

    /// Puts in a round, with its book set before and put back after it. Gives how many calls are left then.
    fn put_round(&mut self, book: &[u8], round: Round, left: u64) -> u64 {
        let calls = round.calls.len() as u64;
        self.set_book(book, &round.book);
        if calls <= left {
            self.queue.standing = round.standing;
            round.calls.into_iter().for_each(|call| self.queue.push_back(call));
            self.queue.standing = Standing::Usual;
        }
        if self.rounds.random.percent(50) {
            self.queue.push_back(Record::Sum);
        }
        self.set_book(&round.book, book);
        left.saturating_sub(calls)
    }
}

#[cfg(test)]
mod tests {
    use super::*;
    use crate::desk::Desk;
    use std::collections::HashMap;

    /// Two rounds may follow each other on one book, so a party may come more than once in a run of calls.
    fn asks_for_each_alike(run: &HashMap<(u16, Vec<u8>), usize>, book: &[u8]) -> bool {
        let known = match SoundBook::of(book) {
            None => return run.values().sum::<usize>() <= 4,
            Some(sound) => parties(&sound),
        };
        let times = |position: u16, party: &Field| run.get(&(position, party.to_vec())).copied().unwrap_or(0);
        run.keys().all(|&(position, _)| {
            let mut of_each = known.iter().map(|party| times(position, party));
            let first = of_each.next().unwrap_or(1);
            first > 0 && of_each.all(|times| times == first)
        })
    }

    #[test]
    fn a_round_asks_for_every_party_of_its_book() {
        for seed in [1, 2, 6] {
            let (mut generator, mut desk) = (Generator::new(seed), Desk::new());
            let mut run: HashMap<(u16, Vec<u8>), usize> = HashMap::new();
            let (mut calls, mut rounds) = (0, 0);
            while calls < 5_000 {
                let record = generator.next(desk.book(), 5_000 - calls);
                if let Record::Settled { party, position } = &record {
                    *run.entry((*position, party.clone())).or_default() += 1;
                } else if !run.is_empty() {
                    assert!(asks_for_each_alike(&run, desk.book()));
                    run.clear();
                    rounds += 1;
                }
                calls += u64::from(record.is_call());
                desk.answer(&record).unwrap();
            }
            assert!(rounds > 80);
        }
    }
}
