//! The self-check: the worked examples, then random calls with demand 3 and the looks held against the plain
//! rule after every acceptance, and each wrong character, rule 6, all that rests on rights and settled positions against
//! a reckoning of their own.

use std::collections::HashMap;

use crate::block::*;
use crate::book::SoundBook;
use crate::counts::{Position, Slot};
use crate::desk::{Desk, Reply};
use crate::examples::EXAMPLES;
use crate::external;
use crate::final_case::last_closed;
use crate::generator::Generator;
use crate::histogram::Histogram;
use crate::identifier::is_well_formed_id;
use crate::listing;
use crate::looks::search;
use crate::names;
use crate::plain_rule::{self, Matching, PlainMark};
use crate::random::Random;
use crate::readings::{final_in, plain_marks, plain_run};
use crate::settlement::{pairs, parties, settled_in, Settled};
use crate::sound::is_sound;
use crate::stream::Record;
use crate::submission::{judge, submit, Verdict};
use crate::versions::kept_sender;

/// How many finals are remembered for one opening, so that reading them again stays quick.
const MOST_FINALS: usize = 200;

/// Of so many large books that are met, one is looked at for its settled positions, so that this stays quick too.
const LARGE_BOOKS: u64 = 20;

/// What has legally happened to a book since it was opened or converted.
#[derive(Default)]
struct History {
    book: Vec<u8>,
    /// By which rule its finals are given.
    rule: u8,
    accepted: Vec<Vec<u8>>,
    finals: HashMap<(Vec<u8>, Vec<u8>, u16), u32>,
}

/// Damaged and crafted books have no legal past. Whether the buffer still is the legal book is seen by
/// comparing bytes, so a book that was damaged and put back counts as legal again. So does one that was put
/// back after another one had been converted: its past is set aside.
#[derive(Default)]
struct Ledger {
    legal: History,
    aside: Option<History>,
    verified: u64,
    finals_read_again: u64,
    settlement: Settlement,
}

impl Ledger {
    /// Looks at one call: the buffer before it and after it.
    fn observe(&mut self, record: &Record, reply: &Reply, before: &[u8], after: &[u8]) -> Result<(), String> {
        if self.legal.book != before && self.aside.as_ref().map_or(false, |aside| aside.book == before) {
            self.aside.as_mut().into_iter().for_each(|aside| std::mem::swap(aside, &mut self.legal));
        }
        self.settlement.observe(record, reply, after)?;
        if character_told(reply) != character_due(record, reply) {
            return Err("another character is told than the wrong one".into());
        }
        if let (Record::Submit(message), Reply::Submit { verdict, .. })
        | (Record::Judge(message), Reply::Judge(verdict)) = (record, reply)
        {
            // What comes before rule 6 says nothing about it.
            let passed = verdict.number() == 0 || verdict.number() > 6;
            if (passed || verdict.number() == 6) && passed != passes_rule_6(message, before) {
                return Err("rule 6 is answered otherwise than id and version ask".into());
            }
            claims_are_judged(message, verdict, before)?;
            others_rights_do_not_matter(message, verdict, before)?;
        }
        if let Reply::Convert(number) = reply {
            if (*number == 0) != (is_sound(before) && states_are_right(before)) {
                return Err("a conversion is answered otherwise than the old layout asks".into());
            }
        }
        if let (Record::Right(body), Reply::Right(number)) = (record, reply) {
            if *number != right_due(body, before) {
                return Err("a right is answered otherwise than its block and the book ask".into());
            }
        }
        let refused = match reply {
            Reply::Open { number, .. } | Reply::OpenBy { number, .. } => *number != 0,
            Reply::Clock { number, .. } | Reply::Convert(number) | Reply::Right(number) => *number != 0,
            Reply::Submit { verdict, .. } => verdict.broken.is_some(),
            _ => false,
        };
        if refused {
            if let Reply::Submit { looked: 1.., .. } = reply {
                return Err("a refusal reports looks".into());
            }
            return if before == after { Ok(()) } else { Err("a refused call changed the book".into()) };
        }
        match (record, reply) {
            (Record::Open(_), _) => self.opened(after, LESSER_RULE)?,
            (Record::OpenBy { rule, .. }, _) => self.opened(after, *rule)?,
            (Record::Clock(_), _) => {
                moved_only_the_clock(before, after)?;
                if before == self.legal.book {
                    self.legal.book = after.to_vec();
                    self.verify(after)?;
                }
            }
            (Record::Submit(message), Reply::Submit { looked, .. }) => {
                written_only_where_allowed(message, before, after)?;
                looked_where_due(message, *looked, after)?;
                series_versions_follow(message, before)?;
                if before == self.legal.book {
                    self.legal.book = after.to_vec();
                    self.legal.accepted.push(message.clone());
                    self.verify(after)?;
                    if plain_run(after) != (0, true) {
                        return Err("the plain run denies a legal book".into());
                    }
                }
            }
            (Record::Right(body), _) => {
                entered_in_lowest_slot(body, before, after)?;
                if before == self.legal.book {
                    self.legal.book = after.to_vec();
                    self.verify(after)?;
                }
            }
            (Record::Convert, _) => {
                converted_only_marks_and_nets(before, after)?;
                if after != self.legal.book {
                    // From here on the series kept stand as their senders' latest messages.
                    let (book, rule, accepted) = (after.to_vec(), before[RULE], messages_of(after)?);
                    let converted = History { book, rule, accepted, ..History::default() };
                    self.aside = Some(std::mem::replace(&mut self.legal, converted));
                }
                self.verify(after)?;
                if plain_run(after) != (0, true) {
                    return Err("the plain run denies a converted book".into());
                }
            }
            (Record::Judge(message), Reply::Judge(verdict)) if submit(&mut after.to_vec(), message).0 != *verdict => {
                return Err("a message is not judged as it would be answered".into());
            }
            (Record::Final { out_party, in_party, position }, Reply::Final { number: number @ (0 | 26), value })
                if after == self.legal.book =>
            {
                let (accepted, rule) = (&self.legal.accepted, self.legal.rule);
                let plain = plain_rule::final_quantity(accepted, rule, out_party, in_party, Position(*position));
                if plain != (*number == 0).then_some(*value) {
                    return Err("a final differs from the accepted messages".into());
                }
                let name = (out_party.clone(), in_party.clone(), *position);
                if *number == 0 && *self.legal.finals.entry(name).or_insert(*value) != *value {
                    return Err("a final value changed".into());
                }
            }
            _ => {}
        }
        Ok(())
    }

    /// A book begins, by a rule that there is and that its day block names.
    fn opened(&mut self, book: &[u8], rule: u8) -> Result<(), String> {
        if rule > 1 || book[6] != rule {
            return Err("a book is opened by another rule than is named".into());
        }
        self.legal = History { book: book.to_vec(), rule, ..History::default() };
        self.aside = None;
        Ok(())
    }

    /// Demand 3 on a legal book: kept marks and nets are those of the plain rule over the accepted
    /// messages, and no final given so far has changed.
    fn verify(&mut self, book: &[u8]) -> Result<(), String> {
        let sound = SoundBook::of(book).ok_or("an acceptance left the book unsound")?;
        let kept = kept_matching(&sound);
        let plain = plain_rule::matching(&self.legal.accepted, &field(block_at(book, 0), AREA));
        if kept.marks != plain.marks {
            return Err("kept marks differ from the plain rule".into());
        }
        if kept.nets != plain.nets {
            return Err("kept nets differ from the plain rule".into());
        }
        for ((out_party, in_party, position), &value) in &self.legal.finals {
            if final_in(&sound, out_party, in_party, Position(*position)) != (0, value) {
                return Err("a final value given before is not given again".into());
            }
            self.finals_read_again += 1;
        }
        self.verified += 1;
        self.ask_for_finals(&sound);
        Ok(())
    }

    /// Reads some finals of its own accord, beside those the calls ask for: other trades each time,
    /// at the position that closed last and at one before it.
    fn ask_for_finals(&mut self, book: &SoundBook) {
        let closed =
            (1..=u16::from(book.n())).take_while(|&p| Position(p).is_closed(book.clock(), book.lead())).count() as u16;
        let trades: Vec<(Field, Field)> = book.series().map(|(_, block)| pair(block)).collect();
        if closed == 0 || trades.is_empty() {
            return;
        }
        for turn in 0..4 {
            let (in_party, out_party) = trades[(4 * self.verified as usize + turn) % trades.len()];
            let position = if turn % 2 == 0 { closed } else { 1 + (7 * self.verified % u64::from(closed)) as u16 };
            let (number, value) = final_in(book, &out_party, &in_party, Position(position));
            if number == 0 && self.legal.finals.len() < MOST_FINALS {
                self.legal.finals.entry((out_party.to_vec(), in_party.to_vec(), position)).or_insert(value);
            }
        }
    }
}

/// What settled positions come to: over each unbroken run of calls, and over all parties of each book that is met.
#[derive(Default)]
struct Settlement {
    /// Over the calls since the last other record.
    run: Settled,
    rounds: u64,
    /// The book that was looked at last.
    book: Vec<u8>,
    large_books: u64,
    /// On how many books settled positions that are not all 0 were found to cancel.
    books: u64,
}

impl Settlement {
    /// Looks at one record and the buffer after it.
    fn observe(&mut self, record: &Record, reply: &Reply, book: &[u8]) -> Result<(), String> {
        match (record, reply) {
            (Record::Settled { party, position }, Reply::Settled { number, settled }) => {
                if (*number, *settled) != settled_due(book, party, *position) {
                    return Err("a settled position is another than counting at the series gives".into());
                }
                self.run.bought += settled.bought;
                self.run.sold += settled.sold;
            }
            _ => self.end_run()?,
        }
        if record.is_call() && self.book != book {
            self.book = book.to_vec();
            let large = book.len() > listing::MOST_BYTES;
            self.large_books += u64::from(large);
            if let Some(sound) = SoundBook::of(book).filter(|_| !large || self.large_books % LARGE_BOOKS == 1) {
                self.books += u64::from(settled_positions_cancel(&sound)?);
            }
        }
        Ok(())
    }

    /// When a run of calls has ended, as much was bought as was sold.
    fn end_run(&mut self) -> Result<(), String> {
        let run = std::mem::take(&mut self.run);
        self.rounds += u64::from(run.bought > 0);
        if run.bought == run.sold {
            Ok(())
        } else {
            Err("over a round more or less is bought than is sold".into())
        }
    }
}

/// What a settled position is to be answered, by counting at the series.
fn settled_due(book: &[u8], party: &[u8], position: u16) -> (u8, Settled) {
    if !is_sound(book) {
        return (1, Settled::default());
    }
    let day = block_at(book, 0);
    if position == 0 || position > u16::from(day[1]) {
        return (24, Settled::default());
    }
    if position > last_closed(day) {
        return (25, Settled::default());
    }
    let counted = counted_at_series(book, Position(position));
    (0, counted.into_iter().find(|(other, _)| party == *other).map_or(Settled::default(), |(_, sums)| sums))
}

/// What every party of a sound book has bought and sold at a position, without a list of pairs: a trade is counted at
/// its seller's series, and at its buyer's where the seller has none. It is then 0 by either rule.
fn counted_at_series(book: &[u8], position: Position) -> HashMap<Field, Settled> {
    let trades: Vec<&Block> = blocks(book).skip(1).filter(|block| block[0] == 2 && block[4] == 2).collect();
    let owner = |series: &Block| field(block_at(book, usize::from(u16_at(series, 6))), SENDER);
    let filed: HashMap<(Field, Field, Field), u32> = trades
        .iter()
        .map(|series| ((owner(series), pair(series).0, pair(series).1), quantity(series, position)))
        .collect();
    let mut counted: HashMap<Field, Settled> = HashMap::new();
    for series in trades {
        let (in_party, out_party) = pair(series);
        let of = |sender: Field| filed.get(&(sender, in_party, out_party)).copied();
        let value = match (of(out_party), of(in_party)) {
            (Some(_), Some(_)) if owner(series) == in_party => continue,
            (Some(sold), _) if book[6] == 0 => sold,
            (sold, bought) => sold.unwrap_or(0).min(bought.unwrap_or(0)),
        };
        counted.entry(in_party).or_default().bought += u64::from(value);
        counted.entry(out_party).or_default().sold += u64::from(value);
    }
    counted
}

/// Document 02, C-20, on any sound book: at the first closed position, the last and one between, each pair's final is
/// given, counting at the series gives each party the same sums, and over all parties they cancel. Tells whether not all
/// of them are 0.
fn settled_positions_cancel(book: &SoundBook) -> Result<bool, String> {
    let last = last_closed(book.day());
    let mut something = false;
    for position in [1, last / 2 + 1, last].into_iter().filter(|_| last > 0).map(Position) {
        if pairs(book).iter().any(|(out_party, in_party)| final_in(book, out_party, in_party, position).0 != 0) {
            return Err("the final of a pair is not given at a closed position".into());
        }
        let counted = counted_at_series(book.bytes(), position);
        let parties = parties(book);
        if parties.len() != counted.len() {
            return Err("there are other parties than those of the internal trades".into());
        }
        let mut total = 0;
        for party in parties {
            let (number, sums) = settled_in(book, &party, position);
            if number != 0 || counted.get(&party) != Some(&sums) {
                return Err("a settled position is another than counting at the series gives".into());
            }
            total += sums.bought as i64 - sums.sold as i64;
            something |= sums != Settled::default();
        }
        if total != 0 {
            return Err("settled positions do not cancel".into());
        }
    }
    Ok(something)
}

/// The character that a reply tells.
fn character_told(reply: &Reply) -> u8 {
    match reply {
        Reply::Open { character, .. } | Reply::OpenBy { character, .. } | Reply::Eic(character) => *character,
        Reply::Submit { verdict, .. } | Reply::Judge(verdict) => verdict.character,
        _ => 0,
    }
}

/// The character that a record's codes ask for under its reply's number: of the first code that is
/// no EIC, among those that the number speaks of.
fn character_due(record: &Record, reply: &Reply) -> u8 {
    let codes: Vec<&[u8]> = match (record, reply) {
        (Record::Eic(text), _) => vec![text],
        (Record::Open(opening), Reply::Open { number: 21, .. })
        | (Record::OpenBy { opening, .. }, Reply::OpenBy { number: 21, .. }) => vec![&opening.area, &opening.receiver],
        (Record::Submit(message), Reply::Submit { verdict, .. }) | (Record::Judge(message), Reply::Judge(verdict)) => {
            let series = usize::from(verdict.series) * BLOCK_BYTES;
            match verdict.number() {
                4 => vec![&message[SENDER..SENDER + 16]],
                8 => [IN_PARTY, OUT_PARTY].iter().map(|at| &message[series + at..series + at + 16]).collect(),
                _ => vec![],
            }
        }
        _ => vec![],
    };
    codes.into_iter().map(plain_character).find(|&character| character != 0).unwrap_or(0)
}

/// Which character of a code is wrong, by another reckoning: the sixteenth has the weight 1, and all
/// sixteen together give a multiple of 37.
fn plain_character(code: &[u8]) -> u8 {
    let alphabet = b"0123456789ABCDEFGHIJKLMNOPQRSTUVWXYZ-";
    let values: Vec<usize> =
        code.iter().map_while(|byte| alphabet.iter().position(|character| character == byte)).collect();
    if values.len() < 15 {
        return values.len() as u8 + 1;
    }
    let sum: usize = values.iter().zip((1..=16).rev()).map(|(value, weight)| value * weight).sum();
    match values[15..] {
        [last] if code.len() == 16 && last != 36 && sum > last && sum % 37 == 0 => 0,
        _ => 16,
    }
}

/// Rule 6, by listing the versions that may come.
fn passes_rule_6(message: &[u8], before: &[u8]) -> bool {
    let head = block_at(message, 0);
    let kept = kept_sender(before, &field(head, SENDER));
    let may_come: Vec<u16> =
        (1..=999).filter(|&version| kept.map_or(true, |kept| u16_at(kept, VERSION) < version)).collect();
    let same_id = kept.map_or(true, |kept| field(kept, ID) == field(head, ID));
    same_id && is_well_formed_id(&field(head, ID)) && may_come.contains(&u16_at(head, VERSION))
}

/// What entering is to be answered, by making anew the right that the block's own parts give.
fn right_due(body: &[u8], before: &[u8]) -> u8 {
    if !is_sound(before) {
        return 1;
    }
    let block: Block = match body.try_into() {
        Err(_) => return 40,
        Ok(block) => block,
    };
    let (day, n) = (block_at(before, 0), usize::from(before[1]));
    let mut plain = [0; BLOCK_BYTES];
    (plain[0], plain[1], plain[4], plain[5]) = (4, day[1], 3, block[5]);
    plain[24..72].copy_from_slice(&block[24..72]);
    plain[72..88].copy_from_slice(&block[56..72]);
    plain[88..104].copy_from_slice(&block[88..104]);
    plain[108..108 + 4 * n].copy_from_slice(&block[108..108 + 4 * n]);
    seal(&mut plain);
    let ours = &day[24..40];
    let others: Vec<&[u8]> = [&block[24..40], &block[40..56]].into_iter().filter(|area| *area != ours).collect();
    let lawful = plain == block
        && (1..100).contains(&block[5])
        && matches!(others[..], [other] if plain_character(other) == 0)
        && plain_character(&block[56..72]) == 0
        && is_well_formed_id(&block[88..104])
        && quantities(&block).all(|limit| limit < 10_000_000);
    let stored = blocks(before).skip(1).any(|kept| kept[0] == 4 && kept[..108] == block[..108]);
    match (lawful && !stored, blocks(before).any(is_free)) {
        (false, _) => 40,
        (true, false) => 17,
        (true, true) => 0,
    }
}

/// After a right is entered, nothing but the lowest free slot is another, and that is the right as it was given.
fn entered_in_lowest_slot(body: &[u8], before: &[u8], after: &[u8]) -> Result<(), String> {
    let slot = blocks(before).position(is_free).ok_or("a right is entered though no slot is free")? * BLOCK_BYTES;
    let behind = slot + BLOCK_BYTES;
    if after[slot..behind] == *body && after[..slot] == before[..slot] && after[behind..] == before[behind..] {
        Ok(())
    } else {
        Err("entering a right changed what it must not".into())
    }
}

/// The first series of a message that names no right of its sender or passes the limit of one: rule, series and
/// position. Series from this number on are not looked at.
fn first_claim_in_vain(message: &[u8], before: &[u8], end: usize) -> Option<(u8, usize, u16)> {
    let sender = field(block_at(message, 0), SENDER);
    let mut left: HashMap<Vec<u8>, Vec<i64>> = HashMap::new();
    let name = |block: &Block| [&block[5..6], &block[24..56], &block[88..104]].concat();
    for right in blocks(before).skip(1).filter(|block| block[0] == 4 && field(block, HOLDER) == sender) {
        left.insert(name(right), quantities(right).take(usize::from(before[1])).map(i64::from).collect());
    }
    for (series, number) in blocks(message).zip(0..end).skip(1).filter(|(series, _)| series[4] == 3) {
        let left = match left.get_mut(&name(series)) {
            None => return Some((18, number, 0)),
            Some(left) => left,
        };
        left.iter_mut().zip(quantities(series)).for_each(|(left, value)| *left -= i64::from(value));
        if let Some(place) = left.iter().position(|left| *left < 0) {
            return Some((19, number, place as u16 + 1));
        }
    }
    None
}

/// Rules 18 and 19, as far as the answer tells of them.
fn claims_are_judged(message: &[u8], verdict: &Verdict, before: &[u8]) -> Result<(), String> {
    let (number, series) = (verdict.number(), usize::from(verdict.series));
    let due = match number {
        1..=6 => return Ok(()),
        // Nothing behind the series that decided was looked at, and not all of its own rules.
        7..=13 => first_claim_in_vain(message, before, series),
        14 | 15 | 18 | 19 => first_claim_in_vain(message, before, series + 1),
        _ => first_claim_in_vain(message, before, usize::MAX),
    };
    if due == matches!(number, 18 | 19).then_some((number, series, verdict.position.0)) {
        Ok(())
    } else {
        Err("rule 18 or 19 is answered otherwise than the sender's own rights ask".into())
    }
}

/// Past rule 1 an answer does not depend on the rights of others: they may have other holders and limits.
fn others_rights_do_not_matter(message: &[u8], verdict: &Verdict, before: &[u8]) -> Result<(), String> {
    if verdict.number() <= 2 {
        return Ok(());
    }
    let sender = field(block_at(message, 0), SENDER);
    let mut other = before.to_vec();
    for slot in 1..other.len() / BLOCK_BYTES {
        let right = block_at_mut(&mut other, slot);
        if right[KIND] == KIND_RIGHT && field(right, HOLDER) != sender {
            let mut random = Random::new(slot as u64);
            external::put_holder(right, &names::valid_eic(&mut random));
            external::put_limits(&mut random, right);
            seal(right);
        }
    }
    if other == before || !is_sound(&other) || judge(&other, message) == *verdict {
        Ok(())
    } else {
        Err("an answer depends on the rights of others".into())
    }
}

/// After an acceptance: a series that is kept with these quantities has its version still, any other the
/// message's, however far that is from the one before.
fn series_versions_follow(message: &[u8], before: &[u8]) -> Result<(), String> {
    let book = SoundBook::of(before).ok_or("an acceptance on a book that is not sound")?;
    let head = block_at(message, 0);
    for series in blocks(message).skip(1) {
        let due = match book.find_series(&field(head, SENDER), &field(series, ID)) {
            Some((_, kept)) if kept[VALUES..CHECK] == series[VALUES..CHECK] => u16_at(kept, VERSION),
            _ => u16_at(head, VERSION),
        };
        if u16_at(series, VERSION) != due {
            return Err("a series has neither the kept version nor the message's, as its quantities ask".into());
        }
    }
    Ok(())
}

/// After a clock move nothing but bytes 4 and 5 of the day block and its check may be another.
fn moved_only_the_clock(before: &[u8], after: &[u8]) -> Result<(), String> {
    if before[..4] == after[..4] && before[6..CHECK] == after[6..CHECK] && before[BLOCK_BYTES..] == after[BLOCK_BYTES..]
    {
        Ok(())
    } else {
        Err("the clock changed what it must not".into())
    }
}

/// Whether byte 104 of every series is a state of document 01.
fn states_are_right(book: &[u8]) -> bool {
    blocks(book).skip(1).filter(|block| block[KIND] == KIND_SERIES).all(|block| matches!(block[104], 1 | 2 | 3))
}

/// After a conversion: every series is as it was but for bytes 104 to 107 and its check, every sender but for
/// its nets and its check, and any other block in every byte.
fn converted_only_marks_and_nets(before: &[u8], after: &[u8]) -> Result<(), String> {
    for (place, (old, new)) in blocks(before).zip(blocks(after)).enumerate() {
        let same = match old[KIND] {
            KIND_SERIES => old[..104] == new[..104] && old[108..508] == new[108..508],
            KIND_SENDER => old[..108] == new[..108],
            _ => old == new,
        };
        if !same {
            return Err(format!("the conversion changed block {place} where it must not"));
        }
    }
    Ok(())
}

/// For each sender of a book the message that its kept blocks stand for.
fn messages_of(book: &[u8]) -> Result<Vec<Vec<u8>>, String> {
    let sound = SoundBook::of(book).ok_or("a conversion left the book unsound")?;
    Ok(sound
        .senders()
        .map(|(slot, head)| [head].into_iter().chain(sound.series_of(slot).map(|(_, series)| series)).copied())
        .map(|list| list.collect::<Vec<Block>>().concat())
        .collect())
}

/// Marks and nets as a book keeps them; the partner is told as the series in its slot.
fn kept_matching(book: &SoundBook) -> Matching {
    let mut kept = Matching::default();
    for (_, block) in book.series() {
        let mark = mark(block);
        let partner = (mark.partner.0 != 0).then(|| {
            let other = book.block(mark.partner);
            (book.owner(other), field(other, ID))
        });
        kept.marks.insert(
            (book.owner(block), field(block, ID)),
            PlainMark { differ: mark.differ, first: mark.first, partner },
        );
    }
    for (_, block) in book.senders() {
        let mut row = [0; POSITIONS];
        row.iter_mut().zip(nets(block)).for_each(|(place, net)| *place = net);
        kept.nets.insert(field(block, SENDER), row);
    }
    kept
}

/// After an acceptance, on any book: the day block and free slots stay, other senders' blocks
/// change in nothing but their series' marks, and the sender's blocks say what the message said.
fn written_only_where_allowed(message: &[u8], before: &[u8], after: &[u8]) -> Result<(), String> {
    let sound = SoundBook::of(after).ok_or("an acceptance left the book unsound")?;
    let head = block_at(message, 0);
    let sender = field(head, SENDER);
    let slot = sound.sender_slot(&sender).ok_or("the sender has no slot")?;
    let kept = sound.block(slot);
    if kept[..VALUES] != head[..VALUES] {
        return Err("the sender block is not the message's".into());
    }
    for series in blocks(message).skip(1) {
        let (_, block) = sound.find_series(&sender, &field(series, ID)).ok_or("a series was not entered")?;
        if block[..6] != series[..6]
            || block[8..MARK] != series[8..MARK]
            || block[VALUES..CHECK] != series[VALUES..CHECK]
        {
            return Err("a series is not the message's".into());
        }
    }
    sender_side_is_true(&sound, slot)?;
    for (place, (old, new)) in blocks(before).zip(blocks(after)).enumerate() {
        let own = place == usize::from(slot.0) || new[KIND] == KIND_SERIES && u16_at(new, SENDER_SLOT) == slot.0;
        let same = if own {
            true
        } else if new[KIND] == KIND_SERIES {
            old[..MARK] == new[..MARK] && old[VALUES..CHECK] == new[VALUES..CHECK]
        } else {
            old == new
        };
        if !same {
            return Err(format!("block {place} changed and belongs to somebody else"));
        }
    }
    Ok(())
}

/// After an acceptance, on any book and whatever it kept before: the marks of the sender's series
/// and of their counterparts are true, and so are the sender's nets. Found by plain search.
fn sender_side_is_true(book: &SoundBook, slot: Slot) -> Result<(), String> {
    let sender = field(book.block(slot), SENDER);
    let mut sums = [0i64; POSITIONS];
    for (own_slot, own) in book.series_of(slot) {
        let (in_party, out_party) = pair(own);
        let trade = own[BUSINESS_TYPE] == INTERNAL_TRADE;
        let up = if trade { in_party == sender } else { own[IN_AREA..OUT_AREA] == book.day()[AREA..RECEIVER] };
        let sign = if up { 1 } else { -1 };
        sums.iter_mut().zip(quantities(own)).for_each(|(sum, value)| *sum += sign * i64::from(value));
        let is_counterpart = |block: &Block| {
            let another = u16_at(block, SENDER_SLOT) != slot.0 && block[BUSINESS_TYPE] == INTERNAL_TRADE;
            trade && another && pair(block) == (in_party, out_party)
        };
        let counterpart = book.series().find(|(_, block)| is_counterpart(block));
        let (other_slot, other) = match counterpart {
            None if own[MARK..VALUES] == [0, 0, 0, 0] => continue,
            None => return Err("a series without counterpart has a wrong mark".into()),
            Some(other) => other,
        };
        let differs = |p: &u16| quantity(own, Position(*p)) != quantity(other, Position(*p));
        let first = (1..=u16::from(book.n())).find(differs).unwrap_or(0);
        let differ = (1..=u16::from(book.n())).filter(differs).count() as u8;
        let expected = |partner| Mark { differ, first: Position(first), partner };
        if mark(own) != expected(other_slot) || mark(other) != expected(own_slot) {
            return Err("the marks of a trade's two sides are wrong".into());
        }
    }
    if !nets(book.block(slot)).map(i64::from).eq(sums) {
        return Err("the sender's nets are wrong".into());
    }
    Ok(())
}

/// After an acceptance, on any book: the looks stay below their ceiling and there is one for each used slot, and
/// what they find are the partners that the plain rule has and the marks name.
fn looked_where_due(message: &[u8], looked: usize, after: &[u8]) -> Result<(), String> {
    let book = SoundBook::of(after).ok_or("an acceptance left the book unsound")?;
    let used = blocks(after).skip(1).filter(|block| !is_free(block)).count();
    let series = blocks(message).len() - 1;
    if looked > used + series {
        return Err("more looks than used slots and series".into());
    }
    let sender = field(block_at(message, 0), SENDER);
    let slot = book.sender_slot(&sender).ok_or("the sender has no slot")?;
    let found = search(after, message, slot);
    if looked != used || looked != found.looked {
        return Err("the looks are not one for each used slot".into());
    }
    let plain: HashMap<Slot, Mark> = plain_marks(&book).into_iter().collect();
    for (series, partner) in blocks(message).skip(1).zip(found.partners) {
        let (slot, kept) = book.find_series(&sender, &field(series, ID)).ok_or("a series was not entered")?;
        let partner = partner.unwrap_or(Slot(0));
        if plain[&slot].partner != partner || mark(kept).partner != partner {
            return Err("the looks find another partner than the plain rule and the mark have".into());
        }
    }
    Ok(())
}

/// Makes random calls and looks at each of them.
fn checked_calls(seed: u64, calls: u64, histogram: &mut Histogram) -> Result<Ledger, String> {
    let mut generator = Generator::new(seed);
    let mut desk = Desk::new();
    let mut ledger = Ledger::default();
    let mut before = Vec::new();
    let mut made = 0;
    while made < calls {
        let record = generator.next(desk.book(), calls - made);
        before.clear();
        before.extend_from_slice(desk.book());
        let reply = desk.answer(&record).expect("the generator keeps within the buffer");
        made += u64::from(record.is_call());
        histogram.count(&record, &reply, &before, desk.book(), generator.standing());
        ledger
            .observe(&record, &reply, &before, desk.book())
            .map_err(|failure| format!("failed at call {made} of seed {seed}: {failure}"))?;
    }
    ledger.settlement.end_run().map_err(|failure| format!("failed at the end of seed {seed}: {failure}"))?;
    Ok(ledger)
}

/// Runs everything and prints what was seen; tells whether all was well.
pub fn run(seed: u64, calls: u64) -> bool {
    let mut well = true;
    for (name, example) in EXAMPLES {
        if let Err(failure) = example() {
            println!("example failed: {name}: {failure}");
            well = false;
        }
    }
    println!("{} worked examples run", EXAMPLES.len());

    let mut histogram = Histogram::new();
    match checked_calls(seed, calls, &mut histogram) {
        Err(failure) => {
            println!("{failure}");
            return false;
        }
        Ok(ledger) => println!(
            "{calls} calls with seed {seed}; demand 3 held {} times, finals read again {} times, settled positions \
             cancelled over {} rounds and in {} books",
            ledger.verified, ledger.finals_read_again, ledger.settlement.rounds, ledger.settlement.books
        ),
    }
    print!("{histogram}");
    for label in histogram.rarer_than(1) {
        println!("never seen: {label}");
        well = false;
    }
    println!("{}", if well { "all well" } else { "not well" });
    well
}

#[cfg(test)]
mod tests {
    use super::*;

    #[test]
    fn random_calls_keep_demand_3() {
        for seed in [2, 3] {
            let ledger = checked_calls(seed, 20_000, &mut Histogram::new()).expect("all calls are well");
            assert!(ledger.verified > 1_000);
            assert!(ledger.finals_read_again > 100);
            assert!(ledger.settlement.rounds > 100);
            assert!(ledger.settlement.books > 500);
        }
    }
}
