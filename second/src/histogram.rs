//! How often each answer was given and each single clause decided.

use std::fmt;

use crate::block::*;
use crate::breach::Breach;
use crate::counts::Position;
use crate::desk::Reply;
use crate::difference::Difference;
use crate::external::RightFault;
use crate::final_case::FinalCase;
use crate::generator::Standing;
use crate::market::FILED;
use crate::message::{self, MessageClause};
use crate::old_book::BadState;
use crate::sights::rules::{rule_kept, Asked};
use crate::sights::{externals, marks, settlements, sights, Sight};
use crate::sound::{self, Layout, SoundClause, NS};
use crate::stream::Record;
use crate::submission::{Broken, Verdict};
use crate::versions::{kept_version, VersionCase};

/// Every answer a call can give; none of them may be missing from a long run.
const ANSWERS: &[(&str, &[u8])] = &[
    ("open", &[0, 20, 21]),
    ("open_by", &[0, 20, 21]),
    ("clock", &[0, 1, 22]),
    ("submit", &[0, 1, 2, 3, 4, 5, 6, 7, 8, 9, 10, 11, 12, 13, 14, 15, 16, 17, 18, 19]),
    ("mark", &[0, 1, 23]),
    ("block", &[0, 1, 23]),
    ("final", &[0, 1, 24, 25, 26]),
    ("plain", &[0, 1]),
    ("read", &[0, 30, 31]),
    ("print", &[0, 30, 32]),
    ("judge", &[0, 1, 2, 3, 4, 5, 6, 7, 8, 9, 10, 11, 12, 13, 14, 15, 16, 17, 18, 19]),
    ("convert", &[0, 1]),
    ("right", &[0, 1, 17, 40]),
    ("settled", &[0, 1, 24, 25]),
];

/// Where a wrong character is told, and which ones can be.
const CHARACTERS: &[(&str, &[u8])] = &[
    ("eic", &[0, 1, 2, 3, 4, 5, 6, 7, 8, 9, 10, 11, 12, 13, 14, 15, 16]),
    ("open 21, character", &[0, 1, 2, 3, 4, 5, 6, 7, 8, 9, 10, 11, 12, 13, 14, 15, 16]),
    ("open_by 21, character", &[0, 1, 2, 3, 4, 5, 6, 7, 8, 9, 10, 11, 12, 13, 14, 15, 16]),
    ("submit 4, character", &[1, 2, 3, 4, 5, 6, 7, 8, 9, 10, 11, 12, 13, 14, 15, 16]),
    ("submit 8, character", &[0, 1, 2, 3, 4, 5, 6, 7, 8, 9, 10, 11, 12, 13, 14, 15, 16]),
    ("judge 4, character", &[1, 2, 3, 4, 5, 6, 7, 8, 9, 10, 11, 12, 13, 14, 15, 16]),
    ("judge 8, character", &[0, 1, 2, 3, 4, 5, 6, 7, 8, 9, 10, 11, 12, 13, 14, 15, 16]),
];

/// The calls that judge a version.
const JUDGING: [&str; 2] = ["submit", "judge"];

/// The rules of finals, by their number.
const RULE_NAMES: [&str; 2] = ["the seller's rule", "the lesser value"];

/// What a party does in a trade.
const SIDES: [&str; 2] = ["sold", "bought"];

/// Whether the book was converted, and used since.
#[derive(Clone, Copy, PartialEq, Eq)]
enum Past {
    NotConverted,
    /// It is an old book that took a message before its conversion.
    UsedBefore,
    /// Nothing was accepted since, and this was the last call that may change it.
    JustConverted,
    /// Nothing was accepted since.
    Converted,
}

/// A count for each number of each row.
fn zeros(rows: &[(&str, &[u8])]) -> Vec<Vec<u64>> {
    rows.iter().map(|(_, numbers)| vec![0; numbers.len()]).collect()
}

/// Counts one number of one row.
fn tally(rows: &[(&str, &[u8])], counts: &mut [Vec<u64>], name: &str, number: u8) {
    let row = rows.iter().position(|&(known, _)| known == name).expect("a row of the list");
    let column = rows[row].1.iter().position(|&known| known == number).expect("a number the row may have");
    counts[row][column] += 1;
}

pub struct Histogram {
    answers: Vec<Vec<u64>>,
    characters: Vec<Vec<u64>>,
    sound: Vec<u64>,
    message: Vec<u64>,
    broken: Vec<u64>,
    breaches: Vec<u64>,
    /// The same, of conversions that fail by the breach alone.
    old_breaches: Vec<u64>,
    bad_states: Vec<u64>,
    /// The ways in which blocks that were to be entered are no rights.
    right_faults: Vec<u64>,
    /// For each n the ways in which a series of an accepted message differs from its counterpart.
    differences: [Vec<u64>; 3],
    /// For each rule who filed what of a trade whose final was asked for.
    finals: [Vec<u64>; 2],
    /// For each rule who filed what of a trade that a settled position counts, as sold and as bought.
    settled: [[Vec<u64>; 2]; 2],
    sights: Vec<u64>,
    /// For each of the calls that judge a version.
    versions: [Vec<u64>; 2],
    /// Sender and version of the message that was refused last.
    refused: Option<(Field, u16)>,
    past: Past,
    /// The final that was asked for last in this book.
    asked: Option<Asked>,
}

impl Default for Histogram {
    fn default() -> Self {
        Histogram {
            answers: zeros(ANSWERS),
            characters: zeros(CHARACTERS),
            sound: vec![0; SoundClause::ALL.len()],
            message: vec![0; MessageClause::ALL.len()],
            broken: vec![0; Broken::ALL.len()],
            breaches: vec![0; Breach::ALL.len()],
            old_breaches: vec![0; Breach::ALL.len()],
            bad_states: vec![0; BadState::ALL.len()],
            right_faults: vec![0; RightFault::ALL.len()],
            differences: NS.map(|_| vec![0; Difference::ALL.len()]),
            finals: RULE_NAMES.map(|_| vec![0; FinalCase::ALL.len()]),
            settled: RULE_NAMES.map(|_| SIDES.map(|_| vec![0; FILED.len()])),
            sights: vec![0; Sight::ALL.len()],
            versions: [vec![0; VersionCase::ALL.len()], vec![0; VersionCase::ALL.len()]],
            refused: None,
            past: Past::NotConverted,
            asked: None,
        }
    }
}

impl Histogram {
    pub fn new() -> Self {
        Histogram::default()
    }

    /// Counts one record, with the book before it and after it, which a refusal has left alone, and what is
    /// known of the book.
    pub fn count(&mut self, record: &Record, reply: &Reply, before: &[u8], book: &[u8], standing: Standing) {
        sights(record, reply, before, book).into_iter().for_each(|sight| self.saw(sight));
        if let (true, Standing::Broken(breach)) = (record.asks_for_soundness(), standing) {
            self.breaches[breach as usize] += 1;
        }
        if record.asks_for_soundness() && marks::keeps_count_of_n(before) && sound::is_sound(before) {
            self.saw(Sight::CountOfN);
        }
        self.conversion(record, reply, before, book, standing);
        self.finals(record, reply, book);
        rule_kept(reply, book).filter(|_| before != book).into_iter().for_each(|sight| self.saw(sight));
        match reply {
            Reply::Open { number, character } => self.opening("open", *number, *character, book),
            Reply::OpenBy { number, character } => self.opening("open_by", *number, *character, book),
            Reply::Clock { number, .. } => self.answer("clock", *number, book),
            Reply::Submit { verdict, .. } => {
                self.verdict("submit", verdict, book);
                if let Record::Submit(submitted) = record {
                    self.version(0, verdict, submitted, before);
                    self.raised_after_refusal(verdict, submitted, before);
                    match verdict.broken {
                        Some(broken) => self.refusal(broken, submitted),
                        None => self.differences(submitted, book),
                    }
                }
            }
            Reply::Mark { number, .. } => self.answer("mark", *number, book),
            Reply::Block { number, .. } => self.answer("block", *number, book),
            Reply::Final { number, .. } => self.answer("final", *number, book),
            Reply::Plain { number, .. } => self.answer("plain", *number, book),
            Reply::Read { number, .. } => self.answer("read", *number, book),
            Reply::Print { number, .. } => self.answer("print", *number, book),
            Reply::Judge(verdict) => {
                self.verdict("judge", verdict, book);
                if let Record::Judge(judged) = record {
                    self.version(1, verdict, judged, book);
                }
            }
            Reply::Convert(number) => tally(ANSWERS, &mut self.answers, "convert", *number),
            Reply::Right(number) => {
                self.answer("right", *number, book);
                if let Record::Right(body) = record {
                    let fault = externals::right_fault(body, *number, before);
                    fault.into_iter().for_each(|fault| self.right_faults[fault as usize] += 1);
                }
            }
            Reply::Settled { number, .. } => {
                self.answer("settled", *number, book);
                if let (0, Record::Settled { party, position }) = (*number, record) {
                    self.settled(party, Position(*position), book);
                }
            }
            Reply::Eic(character) => self.character("eic", *character),
            Reply::Sound(false) => self.unsound(book),
            Reply::Listing(text) if text == b"not sound\n" => self.unsound(book),
            _ => {}
        }
    }

    fn saw(&mut self, sight: Sight) {
        self.sights[sight as usize] += 1;
    }

    /// Counts what a conversion rests on, and what is done with the book before it and after it.
    fn conversion(&mut self, record: &Record, reply: &Reply, before: &[u8], book: &[u8], standing: Standing) {
        if let Reply::Convert(number) = reply {
            self.converted(*number, before, book, standing);
            return;
        }
        let (on_old, on_new) = use_of(reply, before != book, book);
        let old = standing == Standing::Old;
        let new = matches!(self.past, Past::JustConverted | Past::Converted);
        on_old.filter(|_| old).into_iter().for_each(|sight| self.saw(sight));
        on_new.filter(|_| new).into_iter().for_each(|sight| self.saw(sight));
        self.past = match (reply, self.past) {
            (_, _) if sets_book(reply) => Past::NotConverted,
            (Reply::Submit { verdict, .. }, _) if verdict.broken.is_none() && old => Past::UsedBefore,
            (Reply::Submit { verdict, .. }, _) if verdict.broken.is_none() => Past::NotConverted,
            (_, Past::JustConverted) if record.is_call() => Past::Converted,
            (_, past) => past,
        };
    }

    fn converted(&mut self, number: u8, before: &[u8], book: &[u8], standing: Standing) {
        if number == 1 {
            marks::bad_states(before).into_iter().for_each(|bad| self.bad_states[bad as usize] += 1);
        }
        match (number, standing, self.past) {
            (1, Standing::Broken(breach), _) => {
                let set = sound::broken_clauses(before, Layout::Old);
                if set & !breach.companions() == breach.clause().bit() {
                    self.old_breaches[breach as usize] += 1;
                }
            }
            (1, Standing::Old, Past::UsedBefore) => self.saw(Sight::ConvertTooLate),
            (1, _, Past::JustConverted) => self.saw(Sight::ConvertAgainRefused),
            (0, _, Past::JustConverted) => self.saw(Sight::ConvertedAgain),
            (1, Standing::Usual, _) => marks::new_layout_refused(before).into_iter().for_each(|sight| self.saw(sight)),
            _ => {}
        }
        if number == 0 && before != book {
            self.past = Past::JustConverted;
        }
    }

    fn differences(&mut self, message: &[u8], book: &[u8]) {
        let place = NS.iter().position(|&n| n == book[N]).expect("a sound book has one of them");
        for way in marks::differences(message, book) {
            self.differences[place][way as usize] += 1;
        }
    }

    fn opening(&mut self, call: &str, number: u8, character: u8, book: &[u8]) {
        self.answer(call, number, book);
        if number == 21 {
            self.character(&format!("{call} 21, character"), character);
        }
    }

    /// Counts who filed what of a trade whose final is asked for, and whether one side was late.
    fn finals(&mut self, record: &Record, reply: &Reply, book: &[u8]) {
        if sets_book(reply) {
            self.asked = None;
        }
        if let Some(asked) = Asked::of(record, reply, book, self.past == Past::NotConverted) {
            if let Some(case) = FinalCase::of(asked.filed) {
                self.finals[usize::from(book[RULE])][case as usize] += 1;
            }
            let before = self.asked.take();
            before.map_or_else(Vec::new, |before| asked.again(&before)).into_iter().for_each(|sight| self.saw(sight));
            self.asked = Some(asked);
        }
    }

    /// Counts who filed what of the trades that a settled position counts, each case once on each side.
    fn settled(&mut self, party: &[u8], position: Position, book: &[u8]) {
        let shares = settlements::shares(book, party, position);
        for (place, side) in self.settled[usize::from(book[RULE])].iter_mut().enumerate() {
            for (case, count) in FILED.iter().zip(side) {
                let shown = shares.iter().any(|share| usize::from(share.buys) == place && share.case == Some(*case));
                *count += u64::from(shown);
            }
        }
    }

    fn refusal(&mut self, broken: Broken, submitted: &[u8]) {
        self.broken[broken as usize] += 1;
        if broken == Broken::MessageForm {
            let clause = message::first_broken(submitted).expect("rule 2 was broken");
            self.message[clause as usize] += 1;
        }
    }

    fn answer(&mut self, call: &str, number: u8, book: &[u8]) {
        tally(ANSWERS, &mut self.answers, call, number);
        if number == 1 {
            self.unsound(book);
        }
    }

    fn verdict(&mut self, call: &str, verdict: &Verdict, book: &[u8]) {
        self.answer(call, verdict.number(), book);
        if let number @ (4 | 8) = verdict.number() {
            self.character(&format!("{call} {number}, character"), verdict.character);
        }
    }

    fn character(&mut self, place: &str, character: u8) {
        tally(CHARACTERS, &mut self.characters, place, character);
    }

    /// Counts what the version of a message is, where nothing else can have decided.
    fn version(&mut self, call: usize, verdict: &Verdict, message: &[u8], before: &[u8]) {
        use Broken::{NewSenderVersion0, NewSenderVersionAbove999, VersionAbove999, VersionNotAbove};
        if let None | Some(NewSenderVersion0 | NewSenderVersionAbove999 | VersionNotAbove | VersionAbove999) =
            verdict.broken
        {
            let (sender, version) = sender_and_version(message);
            let case = VersionCase::of(kept_version(before, &sender), version);
            self.versions[call][case as usize] += 1;
        }
    }

    /// Whether a message is in whose version was raised after a refusal.
    fn raised_after_refusal(&mut self, verdict: &Verdict, message: &[u8], before: &[u8]) {
        if verdict.number() >= 3 {
            self.refused = Some(sender_and_version(message));
        } else if verdict.broken.is_none() {
            let (sender, version) = sender_and_version(message);
            let between = kept_version(before, &sender).unwrap_or(0) + 1..version;
            if self.refused.take().map_or(false, |(other, refused)| other == sender && between.contains(&refused)) {
                self.saw(Sight::RaisedAfterRefusal);
            }
        }
    }

    fn unsound(&mut self, book: &[u8]) {
        let clause = sound::first_broken(book, Layout::New).expect("the book was found not sound");
        self.sound[clause as usize] += 1;
    }

    /// The rows that came less often than this, but for sights that came often enough all the same.
    pub fn rarer_than(&self, fewest: u64) -> Vec<String> {
        let sights = Sight::ALL.iter().zip(&self.sights);
        let enough: Vec<String> =
            sights.filter(|(sight, &count)| count >= sight.enough()).map(|(sight, _)| label(*sight)).collect();
        let rare = self.rows().into_iter().filter(|(_, count)| *count < fewest).map(|(label, _)| label);
        rare.filter(|label| !enough.contains(label)).collect()
    }

    fn rows(&self) -> Vec<(String, u64)> {
        let mut rows = Vec::new();
        let answers = ANSWERS.iter().zip(&self.answers);
        for ((name, numbers), counts) in answers.chain(CHARACTERS.iter().zip(&self.characters)) {
            for (number, &count) in numbers.iter().zip(counts) {
                rows.push((format!("{name} {number}"), count));
            }
        }
        for (clause, &count) in SoundClause::ALL.iter().zip(&self.sound) {
            rows.push((format!("sound book: {}", clause.text()), count));
        }
        for (clause, &count) in MessageClause::ALL.iter().zip(&self.message) {
            rows.push((format!("rule 2: {}", clause.text()), count));
        }
        for (broken, &count) in Broken::ALL.iter().zip(&self.broken) {
            rows.push((format!("rule {}: {}", broken.number(), broken.text()), count));
        }
        for (breach, &count) in Breach::ALL.iter().zip(&self.breaches) {
            rows.push((format!("broken alone: {}", breach.text()), count));
        }
        for (breach, &count) in Breach::ALL.iter().zip(&self.old_breaches) {
            rows.push((format!("conversion, broken alone: {}", breach.text()), count));
        }
        for (bad, &count) in BadState::ALL.iter().zip(&self.bad_states) {
            rows.push((format!("conversion, nothing wrong but states: {}", bad.text()), count));
        }
        for (fault, &count) in RightFault::ALL.iter().zip(&self.right_faults) {
            rows.push((format!("right 40 alone for: {}", fault.text()), count));
        }
        for (n, counts) in NS.iter().zip(&self.differences) {
            for (way, &count) in Difference::ALL.iter().zip(counts) {
                rows.push((format!("accepted, n {n}, a series differs {}", way.text()), count));
            }
        }
        for (rule, counts) in RULE_NAMES.iter().zip(&self.finals) {
            for (case, &count) in FinalCase::ALL.iter().zip(counts) {
                rows.push((format!("final by {rule}, {}", case.text()), count));
            }
        }
        for (rule, sides) in RULE_NAMES.iter().zip(&self.settled) {
            for (side, counts) in SIDES.iter().zip(sides) {
                for (case, &count) in FILED.iter().zip(counts) {
                    rows.push((format!("settled by {rule}, {side}: {}", case.text()), count));
                }
            }
        }
        for (call, counts) in JUDGING.iter().zip(&self.versions) {
            for (case, &count) in VersionCase::ALL.iter().zip(counts) {
                rows.push((format!("{call}, version: {}", case.text()), count));
            }
        }
        for (sight, &count) in Sight::ALL.iter().zip(&self.sights) {
            rows.push((label(*sight), count));
        }
        rows
    }
}

/// The label of a sight's row.
fn label(sight: Sight) -> String {
    format!("seen: {}", sight.text())
}

/// What a reply shows that is not refused: on an old book before its conversion, and after a conversion.
fn use_of(reply: &Reply, changed: bool, book: &[u8]) -> (Option<Sight>, Option<Sight>) {
    use Sight::*;
    let both = |on_old, on_new| (Some(on_old), Some(on_new));
    match reply {
        Reply::Submit { verdict, .. } if verdict.broken.is_none() => both(OldAccepted, NewAccepted),
        Reply::Judge(verdict) if verdict.broken.is_none() => both(OldJudged, NewJudged),
        Reply::Mark { number: 0, .. } => both(OldMark, NewMark),
        Reply::Block { number: 0, .. } => both(OldBlock, NewBlock),
        Reply::Final { number: 0, .. } if book[RULE] == SELLERS_RULE => both(OldFinalSellers, NewFinalSellers),
        Reply::Final { number: 0, .. } => both(OldFinalLesser, NewFinalLesser),
        Reply::Listing(text) if text.starts_with(b"slot") => both(OldListing, NewListing),
        Reply::Clock { number: 0, .. } if changed => both(OldClock, NewClock),
        Reply::Right(0) => both(OldRight, NewRight),
        Reply::Plain { number: 0, yes: false } => (Some(OldPlainNo), None),
        Reply::Plain { number: 0, yes: true } => (None, Some(NewPlainYes)),
        _ => (None, None),
    }
}

/// Whether the book is another one now.
fn sets_book(reply: &Reply) -> bool {
    matches!(
        reply,
        Reply::Length(_) | Reply::Bytes { .. } | Reply::Open { number: 0, .. } | Reply::OpenBy { number: 0, .. }
    )
}

/// Of a message whose form is right.
fn sender_and_version(message: &[u8]) -> (Field, u16) {
    let head = block_at(message, 0);
    (field(head, SENDER), u16_at(head, VERSION))
}

impl fmt::Display for Histogram {
    fn fmt(&self, out: &mut fmt::Formatter) -> fmt::Result {
        for (label, count) in self.rows() {
            writeln!(out, "{count:>9}  {label}")?;
        }
        Ok(())
    }
}
