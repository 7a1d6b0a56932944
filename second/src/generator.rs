//! Random sequences of calls on one book buffer, from a 64-bit seed.
//!
//! The calls come in episodes. An episode opens a book (or sets a crafted one), lets several
//! senders trade with each other, moves the clock, reads, damages the book and repairs it again.
//! The generator looks at the desk's book to know what would be lawful next, so the same seed
//! always gives the same stream.

use std::collections::VecDeque;
use std::io::{self, Write};

use crate::block::*;
use crate::breach::Breach;
use crate::crafted::Kept;
use crate::deck::Deck;
use crate::desk::Desk;
use crate::difference::Difference;
use crate::draft::{Fault, FormFault, Side, WrongCode, ORDER};
use crate::final_case::FinalCase;
use crate::identifier::LAST_CHARACTER;
use crate::names;
use crate::random::Random;
use crate::sound::NS;
use crate::stream::{records_between, Record};
use crate::versions::VersionTurn;

mod calls;
mod conversions;
mod episodes;
mod externals;
mod finals;
mod looks;
mod messages;
mod rights;
mod rounds;

use conversions::{ConversionTurn, Use};
use episodes::{OpeningInVain, WrongRule};
use externals::ExternalTurn;
use looks::PartnersAt;
use rights::RightTurn;
use rounds::Rounds;

/// What is known of the book on which a call is made.
#[derive(Clone, Copy, Debug, PartialEq, Eq)]
pub enum Standing {
    /// It is as the calls before left it, or damaged in some way.
    Usual,
    /// It is of the old layout, up to its conversion.
    Old,
    /// It breaks just one clause of soundness, in this way.
    Broken(Breach),
}

/// The records to come.
struct Queue {
    records: VecDeque<(Record, Standing)>,
    /// What is known of the book on which the next records that are put in will be made.
    standing: Standing,
}

impl Queue {
    fn push_back(&mut self, record: Record) {
        self.records.push_back((record, self.standing));
    }

    fn pop_front(&mut self) -> Option<(Record, Standing)> {
        self.records.pop_front()
    }

    /// The last of the records to come that asks for a final.
    fn last_final(&self) -> Option<Record> {
        let mut latest_first = self.records.iter().rev().map(|(record, _)| record);
        latest_first.find(|record| matches!(record, Record::Final { .. })).cloned()
    }
}

/// What an episode is about, and how large its books are.
#[derive(Clone, Copy, PartialEq, Eq)]
enum Episode {
    Small,
    Middling,
    /// Messages of more than 20 and fewer than 200 series.
    Long,
    /// Up to all 1,001 blocks.
    Full,
    /// One sender whose nets reach their limit on this side.
    Limit(Side),
    /// One sender whose filings reach version 999, the last ones one by one, and what it files then.
    Climb,
    /// Two senders that answer each other's trades, with conversions between.
    Two,
}

/// The episodes of one round. A stream of the comparison holds about one.
const EPISODES: [(Episode, usize); 8] = [
    (Episode::Small, 34),
    (Episode::Middling, 9),
    (Episode::Long, 2),
    (Episode::Full, 2),
    (Episode::Limit(Side::Buys), 1),
    (Episode::Limit(Side::Sells), 1),
    (Episode::Climb, 2),
    (Episode::Two, 4),
];

/// A stream with a seed that this number divides begins with the filings of one sender from version 1 to
/// 999. They are many, so not every stream can have them.
const WHOLE_CLIMB: u64 = 5;

/// How often a climber files after version 999, in vain.
const BEYOND_CLIMB: usize = 4;

/// Some faults find what they need only now and then, or are often hidden by others, so they come more often.
const RARE_FAULTS: [Fault; 48] = [
    Fault::Receiver,
    Fault::Receiver,
    Fault::EveryN,
    Fault::MessageId,
    Fault::OtherMessageId,
    Fault::SeriesId,
    Fault::IdTwice,
    Fault::IdTwice,
    Fault::IdOtherPair,
    Fault::IdOtherPair,
    Fault::PairTwice,
    Fault::PairTwice,
    Fault::PairRenamed,
    Fault::PairRenamed,
    Fault::InParty,
    Fault::OutParty,
    Fault::OutParty,
    Fault::EqualParties,
    Fault::Strangers,
    Fault::ExternalStrangers,
    Fault::ExternalStrangers,
    Fault::NoneOurs,
    Fault::NoneOurs,
    Fault::OtherArea,
    Fault::OtherArea,
    Fault::BusinessType,
    Fault::BusinessType,
    Fault::CapacityContract,
    Fault::CapacityContract,
    Fault::CapacityAgreement,
    Fault::CapacityAgreement,
    Fault::AboveN,
    Fault::AboveN,
    Fault::AboveN,
    Fault::AboveN,
    Fault::ClosedChanged,
    Fault::ClosedNew,
    Fault::SeriesVersionKept,
    Fault::Absent,
    Fault::Absent,
    Fault::Absent,
    Fault::Absent,
    Fault::Absent,
    Fault::Absent,
    Fault::Absent,
    Fault::Absent,
    Fault::Absent,
    Fault::Absent,
];

/// Faults of form that others often hide, and one that is made less often than it is dealt.
const HIDDEN_FORMS: [FormFault; 8] = [
    FormFault::TooLong,
    FormFault::LaterKind,
    FormFault::Count,
    FormFault::SenderBytes6To7,
    FormFault::SenderBytes64To107,
    FormFault::SeriesSenderSlot,
    FormFault::SeriesMark,
    FormFault::SeriesN,
];

/// Whose code is to be wrong, and how often in one round: rule 4 is broken by one code and rule 8 by
/// either of two, or by both, so the sender's comes three times.
const WRONG_CODES: [WrongCode; 6] = [
    WrongCode::Sender,
    WrongCode::Sender,
    WrongCode::Sender,
    WrongCode::InParty,
    WrongCode::OutParty,
    WrongCode::BothParties,
];

/// What is done with an old book before its conversion. A message that it takes is a turn of its own.
const OLD_USES: [Use; 15] = [
    Use::Mark,
    Use::Mark,
    Use::Block,
    Use::Block,
    Use::Final,
    Use::Final,
    Use::Final,
    Use::Final,
    Use::Final,
    Use::Final,
    Use::Plain,
    Use::Listing,
    Use::Judge,
    Use::Clock,
    Use::Right,
];

/// The ways to differ that no message comes to by chance.
const RARE_WAYS_TO_DIFFER: [Difference; 7] = [
    Difference::First,
    Difference::Last,
    Difference::Two,
    Difference::Three,
    Difference::Four,
    Difference::AllButOne,
    Difference::All,
];

/// In which ways two senders differ that answer each other, so that a conversion often passes and often does not.
const SMALL_WAYS_TO_DIFFER: [Difference; 9] = [
    Difference::Nowhere,
    Difference::First,
    Difference::First,
    Difference::Last,
    Difference::Last,
    Difference::Between,
    Difference::Two,
    Difference::Three,
    Difference::Four,
];

/// How often each kind of action comes, in the order of `action`.
const ACTIONS: [usize; 24] = [72, 10, 3, 4, 4, 3, 4, 3, 2, 27, 6, 12, 56, 4, 20, 13, 15, 12, 4, 7, 9, 4, 21, 29];

/// As many books go by the seller's rule as by the other, which an opening names or leaves unnamed.
const RULES: [Option<u8>; 4] = [Some(SELLERS_RULE), Some(SELLERS_RULE), Some(LESSER_RULE), None];

/// A book to be put back after some calls on a damaged one.
struct Repair {
    calls: usize,
    original: Vec<u8>,
}

/// A sender that files again and again.
struct Climber {
    sender: Field,
    /// How often it still files after version 999.
    beyond: usize,
}

pub struct Generator {
    random: Random,
    pool: Vec<Field>,
    queue: Queue,
    episodes: Deck<Episode>,
    breaches: Deck<Breach>,
    /// Two rules, next to each other in their order or nearly so, that one message is to break.
    neighbours: Deck<(u8, u8)>,
    forms: Deck<FormFault>,
    faults: Deck<Fault>,
    /// Whose code is to be wrong, and at which character.
    wrong_codes: Deck<(WrongCode, u8)>,
    /// Whether an opening names a rule, and at which character a code of it is to be wrong.
    wrong_openings: Deck<(bool, u8)>,
    wrong_rules: Deck<WrongRule>,
    openings_in_vain: Deck<OpeningInVain>,
    /// The rules of the books that are opened; an opening may name none.
    rules: Deck<Option<u8>>,
    /// Who filed what of a trade whose final is asked for, and which side files too late: for each rule.
    final_cases: [Deck<FinalCase>; 2],
    late_sides: [Deck<Side>; 2],
    /// Where partners are to stand in a book.
    partners_at: Deck<PartnersAt>,
    rights: Deck<RightTurn>,
    externals: Deck<ExternalTurn>,
    wrong_texts: Deck<u8>,
    versions: Deck<VersionTurn>,
    conversions: Deck<ConversionTurn>,
    /// What is done with an old book before its conversion, and with the new one after it.
    old_uses: Deck<Use>,
    new_uses: Deck<Use>,
    /// In which ways a series is to differ from its counterpart, for each n.
    ways_to_differ: [Deck<Difference>; 3],
    small_ways_to_differ: Deck<Difference>,
    /// The n of the books that are opened.
    ns: Deck<u8>,
    /// What is to be false alone.
    kept: Deck<Kept>,
    /// Numbers whose code is asked for.
    numbers: Deck<u8>,
    episode: Episode,
    whole_climb: bool,
    partners: Vec<Field>,
    /// Actions left in this episode.
    left: usize,
    /// Large lawful messages still to come at the beginning of an episode.
    large_messages: usize,
    /// Messages still to come of two senders that answer each other.
    steps_of_two: usize,
    climber: Option<Climber>,
    repair: Option<Repair>,
    rounds: Rounds,
    /// Of the last record.
    standing: Standing,
}

/// The EICs the paper prints.
const PRINTED: [&[u8; 16]; 6] = [
    b"10XAT-APG------Z",
    b"10YAT-APG------L",
    b"14XAT-APCS-----Q",
    b"14XBG-EMPFANG--0",
    b"14XBILANZGR-1--F",
    b"13XBILANZGR-2--Q",
];

impl Generator {
    pub fn new(seed: u64) -> Self {
        let mut random = Random::new(seed);
        let mut pool: Vec<Field> = PRINTED.iter().map(|&&code| code).collect();
        // A sender may have 200 series on one side only, so 201 partners are needed.
        while pool.len() < 260 {
            let code = names::valid_eic(&mut random);
            if !pool.contains(&code) {
                pool.push(code);
            }
        }
        let round: Vec<Episode> = EPISODES.iter().flat_map(|&(episode, times)| vec![episode; times]).collect();
        Generator {
            random,
            pool,
            queue: Queue { records: VecDeque::new(), standing: Standing::Usual },
            episodes: Deck::of(&round),
            breaches: Deck::in_one_order(Breach::ALL, seed),
            neighbours: Deck::in_one_order(&neighbours(), seed),
            forms: Deck::in_one_order(&[FormFault::ALL, &HIDDEN_FORMS].concat(), seed),
            faults: Deck::in_one_order(&[Fault::ALL, &RARE_FAULTS].concat(), seed),
            wrong_codes: Deck::in_one_order(&at_each_character(&WRONG_CODES), seed),
            wrong_openings: Deck::in_one_order(&at_each_character(&[false, true]), seed),
            wrong_rules: Deck::in_one_order(WrongRule::ALL, seed),
            openings_in_vain: Deck::in_one_order(OpeningInVain::ALL, seed),
            rules: Deck::of(&RULES),
            final_cases: [SELLERS_RULE, LESSER_RULE].map(|_| Deck::in_one_order(FinalCase::ALL, seed)),
            late_sides: [SELLERS_RULE, LESSER_RULE].map(|_| Deck::of(&[Side::Buys, Side::Sells])),
            partners_at: Deck::of(PartnersAt::ALL),
            rights: Deck::in_one_order(&RightTurn::all(), seed),
            externals: Deck::in_one_order(&ExternalTurn::all(), seed),
            wrong_texts: Deck::in_one_order(&(1..=LAST_CHARACTER).collect::<Vec<u8>>(), seed),
            versions: Deck::in_one_order(&VersionTurn::all(), seed),
            conversions: Deck::in_one_order(&ConversionTurn::all(), seed),
            old_uses: Deck::in_one_order(&OLD_USES, seed),
            new_uses: Deck::in_one_order(Use::ALL, seed),
            ways_to_differ: NS.map(|_| Deck::of(&[Difference::ALL, &RARE_WAYS_TO_DIFFER].concat())),
            small_ways_to_differ: Deck::in_one_order(&SMALL_WAYS_TO_DIFFER, seed),
            ns: Deck::of(&NS),
            kept: Deck::in_one_order(Kept::ALL, seed),
            numbers: Deck::of(&(0..=42).collect::<Vec<u8>>()),
            episode: Episode::Small,
            whole_climb: seed % WHOLE_CLIMB == 0,
            partners: Vec::new(),
            left: 0,
            large_messages: 0,
            steps_of_two: 0,
            climber: None,
            repair: None,
            rounds: Rounds::new(seed),
            standing: Standing::Usual,
        }
    }

    /// The next record, given the book as all records before left it. The stream is to have so many more calls, this
    /// one included if it is one, so that it does not end in the midst of a round.
    pub fn next(&mut self, book: &[u8], left: u64) -> Record {
        loop {
            if let Some((record, standing)) = self.queue.pop_front() {
                self.standing = standing;
                self.rounds.count(&record);
                return record;
            }
            self.queue.standing = Standing::Usual;
            if self.rounds.have_turn() {
                self.settled_rounds(book, left);
            } else {
                self.plan(book);
            }
        }
    }

    /// What is known of the book on which the last record was made.
    pub fn standing(&self) -> Standing {
        self.standing
    }

    fn plan(&mut self, book: &[u8]) {
        if let Some(repair) = self.repair.as_mut() {
            if repair.calls == 0 {
                let original = self.repair.take().expect("just seen").original;
                self.set_book(book, &original);
                return;
            }
            repair.calls -= 1;
        } else if self.left == 0 {
            self.start_episode(book);
            return;
        }
        self.left = self.left.saturating_sub(1);
        if self.large_messages > 0 {
            self.large_messages -= 1;
            self.large_message(book);
        } else if self.steps_of_two > 0 {
            self.steps_of_two -= 1;
            self.step_of_two(book);
        } else if self.climber.is_none() {
            self.action(book);
        } else if self.random.percent(97) {
            self.climb(book);
        } else {
            self.book_call(book);
        }
    }

    fn action(&mut self, book: &[u8]) {
        match self.random.weighted(&ACTIONS) {
            0 => self.submission(book),
            1 => self.clock(book),
            2 => self.mark_or_block(book, true),
            3 => self.mark_or_block(book, false),
            4 => self.final_reading(book),
            5 => self.queue.push_back(Record::Plain),
            6 => self.reader(book),
            7 => self.queue.push_back(Record::Listing),
            8 => self.queue.push_back(Record::Sound),
            9 => self.leaf(),
            10 => self.damage(book),
            11 => self.reopen(),
            12 => self.broken_book(book),
            13 => self.listing_at_edge(book),
            14 => self.wrong_code(book),
            15 => self.version(book),
            16 => self.conversion(book),
            17 => self.differences(book),
            18 => self.false_book(book),
            19 => self.finals(book),
            20 => self.late_counterpart(book),
            21 => self.looks(book),
            22 => self.enter_right(book),
            _ => self.external(book),
        }
    }

    fn set_book(&mut self, from: &[u8], to: &[u8]) {
        records_between(from, to).into_iter().for_each(|record| self.queue.push_back(record));
    }
}

/// The pairs of rules that follow each other, and some between which others stand that cannot be broken with them: a
/// series without a right has no limit.
fn neighbours() -> Vec<(u8, u8)> {
    let next = ORDER.windows(2).map(|two| (two[0], two[1])).filter(|two| *two != (18, 19));
    next.chain([(12, 19), (18, 14), (10, 18), (19, 15)]).collect()
}

/// Each of these with each character that a code can be wrong at; twice with the last, which is wrong in
/// the most ways.
fn at_each_character<T: Copy>(list: &[T]) -> Vec<(T, u8)> {
    let characters = (1..=LAST_CHARACTER).chain([LAST_CHARACTER]);
    characters.flat_map(|character| list.iter().map(move |&one| (one, character))).collect()
}

/// Writes a stream with this many calls. The calls left out are made here all the same: what they
/// change in the book is written in their place, so that every other call finds the book it needs.
pub fn write_stream(seed: u64, calls: u64, left_out: &[&str], out: &mut impl Write) -> io::Result<()> {
    let mut generator = Generator::new(seed);
    let mut desk = Desk::new();
    let mut made = 0;
    while made < calls {
        let record = generator.next(desk.book(), calls - made);
        let written = record.call_word().map_or(true, |word| !left_out.contains(&word));
        if written {
            record.write_to(out)?;
            made += u64::from(record.is_call());
        }
        if record.may_change() {
            let before = if written { Vec::new() } else { desk.book().to_vec() };
            desk.answer(&record).expect("the generator keeps within the buffer");
            if !written {
                records_between(&before, desk.book()).iter().try_for_each(|change| change.write_to(out))?;
            }
        }
    }
    // The book the stream ends with is always told.
    Record::Sum.write_to(out)
}

/// Flips one or two bits in used blocks or just behind them, then puts the checks right.
fn flip_and_reseal(random: &mut Random, bytes: &mut [u8]) {
    let whole = bytes.len() / BLOCK_BYTES;
    if whole == 0 {
        return;
    }
    let used = blocks(bytes).filter(|block| block[KIND] != 0).count();
    for _ in 0..random.between(1, 2) {
        let place = random.below((used + 1).min(whole));
        let at = if random.percent(60) { random.below(VALUES) } else { random.below(BLOCK_BYTES) };
        bytes[place * BLOCK_BYTES + at] ^= 1 << random.below(8);
    }
    reseal(bytes);
}

/// The senders a book holds.
fn senders_of(book: &[u8]) -> Vec<Field> {
    blocks(book).skip(1).filter(|block| block[KIND] == KIND_SENDER).map(|block| field(block, SENDER)).collect()
}

/// Puts the check of every whole block right.
fn reseal(bytes: &mut [u8]) {
    for place in 0..bytes.len() / BLOCK_BYTES {
        seal(block_at_mut(bytes, place));
    }
}

#[cfg(test)]
mod tests {
    use super::*;
    use crate::desk::Reply;

    #[test]
    fn a_stream_is_read_as_it_was_written_and_is_the_same_each_time() {
        let streams: Vec<Vec<u8>> = (0..2)
            .map(|_| {
                let mut generator = Generator::new(9);
                let mut desk = Desk::new();
                let mut stream = Vec::new();
                for _ in 0..4_000 {
                    let record = generator.next(desk.book(), u64::MAX);
                    let start = stream.len();
                    record.write_to(&mut stream).unwrap();
                    assert_eq!(Record::read_from(&mut &stream[start..]).unwrap(), Some(record.clone()));
                    desk.answer(&record).unwrap();
                }
                stream
            })
            .collect();
        assert!(streams[0] == streams[1]);
    }

    /// The words of the calls in a stream, and the answers to its `sum` records.
    fn words_and_sums(stream: &[u8]) -> (Vec<&'static str>, Vec<Reply>) {
        let (mut words, mut sums) = (Vec::new(), Vec::new());
        let mut desk = Desk::new();
        let mut input = stream;
        while let Some(record) = Record::read_from(&mut input).unwrap() {
            words.extend(record.call_word());
            let reply = desk.answer(&record).unwrap();
            if record == Record::Sum {
                sums.push(reply);
            }
        }
        (words, sums)
    }

    /// Of each unbroken run of calls for settled positions how much is bought and how much is sold.
    fn runs(stream: &[u8]) -> Vec<(u64, u64)> {
        let mut desk = Desk::new();
        let mut input = stream;
        let (mut runs, mut within) = (Vec::new(), false);
        while let Some(record) = Record::read_from(&mut input).unwrap() {
            let reply = desk.answer(&record).unwrap();
            let (bought, sold) = match reply {
                Reply::Settled { settled, .. } => (settled.bought, settled.sold),
                _ => {
                    within = false;
                    continue;
                }
            };
            match runs.last_mut() {
                Some((all_bought, all_sold)) if within => {
                    *all_bought += bought;
                    *all_sold += sold;
                }
                _ => runs.push((bought, sold)),
            }
            within = true;
        }
        runs
    }

    #[test]
    fn as_much_is_bought_as_is_sold_wherever_a_stream_ends() {
        for calls in 780..820 {
            let mut stream = Vec::new();
            write_stream(7, calls, &[], &mut stream).unwrap();
            assert_eq!(words_and_sums(&stream).0.len() as u64, calls);
            let runs = runs(&stream);
            assert!(runs.iter().all(|(bought, sold)| bought == sold));
            assert!(runs.iter().filter(|(bought, _)| *bought > 0).count() > 3);
        }
    }

    #[test]
    fn rounds_leave_the_rest_of_a_stream_as_it_is() {
        let words = |calls: u64, left_out: &[&str]| {
            let mut stream = Vec::new();
            write_stream(8, calls, left_out, &mut stream).unwrap();
            words_and_sums(&stream).0
        };
        let whole = words(2_000, &[]);
        let others: Vec<&str> = whole.iter().copied().filter(|word| *word != "settled").collect();
        assert!(others.len() >= 1_600 && others.len() < 1_990);
        assert_eq!(words(others.len() as u64, &["settled"]), others);
    }

    #[test]
    fn calls_left_out_leave_their_changes_behind() {
        let left_out = ["open", "open_by", "submit", "sound", "convert", "right"];
        let (mut whole, mut less) = (Vec::new(), Vec::new());
        write_stream(9, 4_000, &[], &mut whole).unwrap();
        write_stream(9, 1_000, &left_out, &mut less).unwrap();
        let (_, sums_of_whole) = words_and_sums(&whole);
        let (words, sums) = words_and_sums(&less);
        assert!(words.len() == 1_000 && !words.iter().any(|word| left_out.contains(word)));
        assert!(sums.len() > 500 && sums_of_whole.starts_with(&sums[..sums.len() - 1]));
    }
}
