//! Submitting a message: the order of checks and, when none is broken, the writing of the book.
//!
//! Judging and writing are two steps. The first only reads and ends in a plan; the second cannot
//! fail. So no refusal, however late in the order, can leave half a message behind.

use std::collections::{HashMap, HashSet};

use crate::block::*;
use crate::book::SoundBook;
use crate::clause::clauses;
use crate::codes::reason_code;
use crate::counts::{Position, Slot};
use crate::identifier::{is_valid_eic, is_well_formed_id, wrong_character};
use crate::looks::search;
use crate::message;
use crate::right::{direction, is_contract_type, named_among, Direction};

clauses! {
    /// What a refusal rests on. Several of these share one number of the table.
    Broken {
        BookNotSound "book not sound",
        MessageForm "form of the message",
        Receiver "receiver not the book's",
        SenderEic "sender not an EIC",
        Day "day not the book's",
        DayN "n not the book's",
        MessageIdMalformed "message id malformed",
        NewSenderVersion0 "new sender: version 0",
        NewSenderVersionAbove999 "new sender: version above 999",
        OtherMessageId "known sender: other message id",
        VersionNotAbove "known sender: version not above the kept one",
        VersionAbove999 "known sender: version above 999",
        SeriesIdMalformed "series id malformed",
        SeriesIdEarlier "series id twice in the message",
        SeriesIdStored "series id kept with a different key",
        KeyEarlier "key twice in the message",
        KeyStored "key kept under a different id",
        InParty "in party not an EIC",
        OutParty "out party not an EIC",
        PartiesEqual "both parties of an internal series equal",
        NeitherSender "sender is no party",
        InArea "internal series: in area not the book's",
        OutArea "internal series: out area not the book's",
        BothOurs "external series: both areas the book's",
        NoneOurs "external series: no area the book's",
        OtherArea "external series: the other area not an EIC",
        BusinessType "business type not 2, 3 or 6",
        ContractType "without capacity: contract type not 0",
        Agreement "without capacity: capacity agreement not 0",
        CapacityContract "with capacity: contract type not 1 to 99",
        CapacityAgreement "with capacity: capacity agreement malformed",
        QuantityTopBit "quantity with its top bit set",
        QuantityTooHigh "quantity above 9,999,999",
        QuantityAboveN "quantity not 0 above n",
        NoRight "no such right of the sender",
        AboveLimit "above the right's limit",
        ClosedChanged "closed position of a kept series changed",
        ClosedNew "closed position of a new series not 0",
        VersionNotMessages "series new or changed: version not the message's",
        VersionNotStored "series unchanged: version not the stored one",
        SeriesAbsent "a kept series is missing",
        NoRoom "more new blocks than free slots",
    }
}

impl Broken {
    /// The number of the rule in the table.
    pub fn number(self) -> u8 {
        use Broken::*;
        match self {
            BookNotSound => 1,
            MessageForm => 2,
            Receiver => 3,
            SenderEic => 4,
            Day | DayN => 5,
            MessageIdMalformed | OtherMessageId => 6,
            NewSenderVersion0 | NewSenderVersionAbove999 | VersionNotAbove | VersionAbove999 => 6,
            SeriesIdMalformed | SeriesIdEarlier | SeriesIdStored | KeyEarlier | KeyStored => 7,
            InParty | OutParty | PartiesEqual | NeitherSender => 8,
            InArea | OutArea | BothOurs | NoneOurs | OtherArea => 9,
            BusinessType | ContractType | Agreement | CapacityContract | CapacityAgreement => 10,
            QuantityTopBit => 11,
            QuantityTooHigh => 12,
            QuantityAboveN => 13,
            ClosedChanged | ClosedNew => 14,
            VersionNotMessages | VersionNotStored => 15,
            SeriesAbsent => 16,
            NoRoom => 17,
            NoRight => 18,
            AboveLimit => 19,
        }
    }
}

/// The answer to a submission, but for its looks: past rule 1 they alone tell of other senders' blocks. Series
/// number, position and wrong character are 0 where the rule gives none.
#[derive(Clone, Copy, Debug, PartialEq, Eq)]
pub struct Verdict {
    pub broken: Option<Broken>,
    pub series: u16,
    pub position: Position,
    /// The wrong character of the sender's code on 4, of a party's on 8.
    pub character: u8,
}

impl Verdict {
    pub fn number(&self) -> u8 {
        self.broken.map_or(0, Broken::number)
    }

    pub fn code(&self) -> u8 {
        reason_code(self.number())
    }

    const ACCEPTED: Verdict = Verdict { broken: None, series: 0, position: Position(0), character: 0 };

    fn refused(broken: Broken) -> Self {
        Verdict { broken: Some(broken), ..Verdict::ACCEPTED }
    }
}

/// Judges a message against a book and, if no rule is broken, enters it. Tells also at how many slots the search
/// for counterparts looked; after a refusal there is none.
pub fn submit(book: &mut [u8], message: &[u8]) -> (Verdict, usize) {
    match plan_for(book, message) {
        Err(refusal) => (refusal, 0),
        Ok(plan) => (Verdict::ACCEPTED, enter(book, message, &plan)),
    }
}

/// What a submission would answer, the book left as it is. Nothing is searched for.
pub fn judge(book: &[u8], message: &[u8]) -> Verdict {
    plan_for(book, message).err().unwrap_or(Verdict::ACCEPTED)
}

/// Where the blocks of an acceptable message go.
struct Plan {
    n: u8,
    sender: Slot,
    series: Vec<Place>,
}

struct Place {
    slot: Slot,
    /// False for a stored series whose quantities stay: then only its mark may change.
    written: bool,
}

/// What the book holds of the sender.
#[derive(Default)]
struct Stored<'book> {
    slot: Option<Slot>,
    by_id: HashMap<Field, (Slot, &'book Block)>,
    id_by_key: HashMap<Key, Field>,
    /// Rights that it holds, whether it has filed or not.
    rights: Vec<(Slot, &'book Block)>,
}

/// All rules, in their order.
fn plan_for(book: &[u8], message: &[u8]) -> Result<Plan, Verdict> {
    let book = &SoundBook::of(book).ok_or(Verdict::refused(Broken::BookNotSound))?;
    if message::broken_clauses(message) != 0 {
        return Err(Verdict::refused(Broken::MessageForm));
    }
    let head = block_at(message, 0);
    let sender = field(head, SENDER);
    let stored = stored_of(book, &sender);
    judge_head(book, head, &stored)?;

    let mut places: Vec<Option<(Slot, bool)>> = Vec::new();
    let mut ids: HashSet<Field> = HashSet::new();
    let mut keys: HashSet<Key> = HashSet::new();
    let mut claims = Claims::new();
    for (series, number) in blocks(message).skip(1).zip(1u16..) {
        let before = stored.by_id.get(&field(series, ID)).copied();
        let refuse = |broken| Verdict { series: number, ..Verdict::refused(broken) };
        let at_position = |(broken, position)| Verdict { position, ..refuse(broken) };
        let at_character = |(broken, character)| Verdict { character, ..refuse(broken) };
        judge_id_and_key(series, before, &stored, &mut ids, &mut keys).map_err(refuse)?;
        judge_parties(series, &sender).map_err(at_character)?;
        judge_areas(series, &book.area()).map_err(refuse)?;
        judge_capacity(series).map_err(refuse)?;
        judge_quantities(series, book.n()).map_err(at_position)?;
        judge_claim(series, book.n(), &stored, &mut claims).map_err(at_position)?;
        let changed = judge_changes(series, before.map(|(_, block)| block), book).map_err(at_position)?;
        judge_series_version(series, before.map(|(_, block)| block), changed, u16_at(head, VERSION)).map_err(refuse)?;
        places.push(before.map(|(slot, _)| (slot, changed)));
    }

    // Rule 7 let each stored series in at most once, so counting them shows whether one is missing.
    let known = places.iter().flatten().count();
    if known < stored.by_id.len() {
        return Err(Verdict::refused(Broken::SeriesAbsent));
    }
    let new = places.len() - known + usize::from(stored.slot.is_none());
    if new > book.free_slots() {
        return Err(Verdict::refused(Broken::NoRoom));
    }
    Ok(plan(book, &stored, &places))
}

fn stored_of<'book>(book: &SoundBook<'book>, sender: &Field) -> Stored<'book> {
    let (slot, rights) = (book.sender_slot(sender), book.rights_of(sender));
    let mut stored = Stored { slot, rights, ..Stored::default() };
    if let Some(owner) = stored.slot {
        for (slot, block) in book.series_of(owner) {
            stored.by_id.insert(field(block, ID), (slot, block));
            stored.id_by_key.insert(key(block), field(block, ID));
        }
    }
    stored
}

/// Rules 3 to 6. Rule 4 tells which character of the sender's code is wrong.
fn judge_head(book: &SoundBook, head: &Block, stored: &Stored) -> Result<(), Verdict> {
    if field(head, RECEIVER) != field(book.day(), RECEIVER) {
        return Err(Verdict::refused(Broken::Receiver));
    }
    match wrong_character(&field(head, SENDER)) {
        0 => judge_day_and_version(book, head, stored).map_err(Verdict::refused),
        character => Err(Verdict { character, ..Verdict::refused(Broken::SenderEic) }),
    }
}

/// Rules 5 and 6. A known sender may leave out versions, and a new one need not begin with 1.
fn judge_day_and_version(book: &SoundBook, head: &Block, stored: &Stored) -> Result<(), Broken> {
    let day = book.day();
    if head[DAY_IN_SENDER..DAY_IN_SENDER + DAY_DIGITS] != day[DAY_IN_DAY_BLOCK..DAY_IN_DAY_BLOCK + DAY_DIGITS] {
        return Err(Broken::Day);
    }
    if head[N] != day[N] {
        return Err(Broken::DayN);
    }
    if !is_well_formed_id(&field(head, ID)) {
        return Err(Broken::MessageIdMalformed);
    }
    let version = u16_at(head, VERSION);
    match stored.slot {
        None if version == 0 => Err(Broken::NewSenderVersion0),
        None if version > HIGHEST_VERSION => Err(Broken::NewSenderVersionAbove999),
        None => Ok(()),
        Some(slot) => {
            let kept = book.block(slot);
            if field(head, ID) != field(kept, ID) {
                Err(Broken::OtherMessageId)
            } else if version <= u16_at(kept, VERSION) {
                Err(Broken::VersionNotAbove)
            } else if version > HIGHEST_VERSION {
                Err(Broken::VersionAbove999)
            } else {
                Ok(())
            }
        }
    }
}

/// Rule 7. Keys are compared as they stand: rules 8 to 10 judge their parts only later.
fn judge_id_and_key(
    series: &Block,
    before: Option<(Slot, &Block)>,
    stored: &Stored,
    ids: &mut HashSet<Field>,
    keys: &mut HashSet<Key>,
) -> Result<(), Broken> {
    let (id, own) = (field(series, ID), key(series));
    if !is_well_formed_id(&id) {
        return Err(Broken::SeriesIdMalformed);
    }
    if !ids.insert(id) {
        return Err(Broken::SeriesIdEarlier);
    }
    if before.map_or(false, |(_, block)| key(block) != own) {
        return Err(Broken::SeriesIdStored);
    }
    if !keys.insert(own) {
        return Err(Broken::KeyEarlier);
    }
    if stored.id_by_key.get(&own).map_or(false, |other| *other != id) {
        return Err(Broken::KeyStored);
    }
    Ok(())
}

/// Rule 8, with the wrong character of the party that broke it: the in party is judged first, and
/// there is none where both codes are good. Of an external schedule the sender may be both parties.
fn judge_parties(series: &Block, sender: &Field) -> Result<(), (Broken, u8)> {
    let (in_party, out_party) = pair(series);
    match (wrong_character(&in_party), wrong_character(&out_party)) {
        (0, 0) if in_party == out_party && !is_external(series) => Err((Broken::PartiesEqual, 0)),
        (0, 0) if in_party != *sender && out_party != *sender => Err((Broken::NeitherSender, 0)),
        (0, 0) => Ok(()),
        (0, of_out_party) => Err((Broken::OutParty, of_out_party)),
        (of_in_party, _) => Err((Broken::InParty, of_in_party)),
    }
}

/// Rule 9. A type that is none of the three is judged like that of an internal trade.
fn judge_areas(series: &Block, area: &Field) -> Result<(), Broken> {
    match (is_external(series), direction(series, area)) {
        (true, Direction::Within) => Err(Broken::BothOurs),
        (true, Direction::Elsewhere) => Err(Broken::NoneOurs),
        (true, Direction::In(other) | Direction::Out(other)) if !is_valid_eic(&other) => Err(Broken::OtherArea),
        (true, _) | (false, Direction::Within) => Ok(()),
        (false, Direction::In(_)) => Err(Broken::OutArea),
        (false, Direction::Out(_) | Direction::Elsewhere) => Err(Broken::InArea),
    }
}

/// Rule 10: a series on a right has both capacity fields, any other neither.
fn judge_capacity(series: &Block) -> Result<(), Broken> {
    let (contract_type, agreement) = (series[CONTRACT_TYPE], field(series, AGREEMENT));
    match series[BUSINESS_TYPE] {
        INTERNAL_TRADE | WITHOUT_CAPACITY if contract_type != 0 => Err(Broken::ContractType),
        INTERNAL_TRADE | WITHOUT_CAPACITY if agreement != [0; 16] => Err(Broken::Agreement),
        WITH_CAPACITY if !is_contract_type(contract_type) => Err(Broken::CapacityContract),
        WITH_CAPACITY if !is_well_formed_id(&agreement) => Err(Broken::CapacityAgreement),
        INTERNAL_TRADE | WITHOUT_CAPACITY | WITH_CAPACITY => Ok(()),
        _ => Err(Broken::BusinessType),
    }
}

/// Rules 11 to 13 in one pass over all hundred positions.
fn judge_quantities(series: &Block, n: u8) -> Result<(), (Broken, Position)> {
    let n = u16::from(n);
    for (value, position) in quantities(series).zip((1..).map(Position)) {
        let broken = if position.0 > n {
            (value != 0).then_some(Broken::QuantityAboveN)
        } else if value >> 31 != 0 {
            Some(Broken::QuantityTopBit)
        } else {
            (value > HIGHEST_QUANTITY).then_some(Broken::QuantityTooHigh)
        };
        if let Some(broken) = broken {
            return Err((broken, position));
        }
    }
    Ok(())
}

/// What the series of a message so far claim of each right, by the right's slot.
type Claims = HashMap<Slot, [u32; POSITIONS]>;

/// Rules 18 and 19: the right that a series with capacity names, and what it claims of it together with the earlier
/// series of the message. Claims that passed are within the limit, so that one more fits in 32 bits.
fn judge_claim(series: &Block, n: u8, stored: &Stored, claims: &mut Claims) -> Result<(), (Broken, Position)> {
    if series[BUSINESS_TYPE] != WITH_CAPACITY {
        return Ok(());
    }
    let (slot, right) = named_among(series, &stored.rights).ok_or((Broken::NoRight, Position(0)))?;
    let sums = claims.entry(slot).or_insert([0; POSITIONS]);
    sums.iter_mut().zip(quantities(series)).for_each(|(sum, value)| *sum += value);
    let above = sums.iter().zip(quantities(right)).take(usize::from(n)).position(|(sum, limit)| *sum > limit);
    above.map_or(Ok(()), |place| Err((Broken::AboveLimit, Position(place as u16 + 1))))
}

/// Rule 14, in a pass of its own. Tells whether a quantity differs from the stored series; a new series counts as
/// changed.
fn judge_changes(series: &Block, before: Option<&Block>, book: &SoundBook) -> Result<bool, (Broken, Position)> {
    // A new series is held against zeros, so that a late one cannot slip a value into a
    // quarter-hour that is closed.
    let nothing = [0; BLOCK_BYTES];
    let kept = before.unwrap_or(&nothing);
    let mut differs = false;
    for ((value, old), position) in quantities(series).zip(quantities(kept)).zip((1..).map(Position)) {
        if value != old {
            differs = true;
            if position.is_closed(book.clock(), book.lead()) {
                let broken = if before.is_some() { Broken::ClosedChanged } else { Broken::ClosedNew };
                return Err((broken, position));
            }
        }
    }
    Ok(differs || before.is_none())
}

/// Rule 15: a new or changed series carries the message's version, any other keeps its own.
fn judge_series_version(
    series: &Block,
    before: Option<&Block>,
    changed: bool,
    message_version: u16,
) -> Result<(), Broken> {
    let version = u16_at(series, VERSION);
    match before {
        Some(kept) if !changed => {
            if version == u16_at(kept, VERSION) {
                Ok(())
            } else {
                Err(Broken::VersionNotStored)
            }
        }
        _ if version == message_version => Ok(()),
        _ => Err(Broken::VersionNotMessages),
    }
}

/// Gives every block its slot. Stored series keep theirs; new blocks take the lowest free ones, the sender's
/// block before the series.
fn plan(book: &SoundBook, stored: &Stored, places: &[Option<(Slot, bool)>]) -> Plan {
    let mut next_free = book.used_slots() as u16 + 1;
    let mut take_slot = || {
        next_free += 1;
        Slot(next_free - 1)
    };
    let sender = stored.slot.unwrap_or_else(&mut take_slot);
    let series = places
        .iter()
        .map(|place| {
            let (slot, written) = place.unwrap_or_else(|| (take_slot(), true));
            Place { slot, written }
        })
        .collect();
    Plan { n: book.n(), sender, series }
}

/// Writes an accepted message into the book, then puts the marks right. Gives the number of looks that finding
/// the counterparts took.
fn enter(book: &mut [u8], message: &[u8], plan: &Plan) -> usize {
    put_head(book, message, plan.sender);
    for (series, place) in blocks(message).skip(1).zip(&plan.series).filter(|(_, place)| place.written) {
        let kept = block_at_mut(book, usize::from(place.slot.0));
        *kept = *series;
        put_u16(kept, SENDER_SLOT, plan.sender.0);
    }
    let found = search(book, message, plan.sender);
    for (place, &partner) in plan.series.iter().zip(&found.partners) {
        mark_both_sides(book, plan.n, place.slot, partner);
    }
    found.looked
}

/// Writes the sender block with its nets.
fn put_head(book: &mut [u8], message: &[u8], slot: Slot) {
    let (sender, area) = (field(block_at(message, 0), SENDER), field(block_at(book, 0), AREA));
    let mut sums = [0i32; POSITIONS];
    for series in blocks(message).skip(1) {
        // Bought adds, sold takes away; of external schedules, what comes in adds and what goes out takes away.
        let up = counts_up(series, &sender, &area);
        for (sum, value) in sums.iter_mut().zip(quantities(series)) {
            if up {
                *sum += value as i32;
            } else {
                *sum -= value as i32;
            }
        }
    }
    let head = block_at_mut(book, usize::from(slot.0));
    *head = *block_at(message, 0);
    put_nets(head, &sums);
    seal(head);
}

/// Puts right the mark of a placed series and, if it has a partner, the partner's. For that one nothing is searched:
/// its partner is the placed series.
fn mark_both_sides(book: &mut [u8], n: u8, slot: Slot, partner: Option<Slot>) {
    let own = match partner {
        None => Mark::ALONE,
        Some(partner) => {
            let series = *block_at(book, usize::from(slot.0));
            let other = block_at_mut(book, usize::from(partner.0));
            let own = Mark::between(&series, other, n, partner);
            put_mark(other, Mark { partner: slot, ..own });
            seal(other);
            own
        }
    };
    let kept = block_at_mut(book, usize::from(slot.0));
    put_mark(kept, own);
    seal(kept);
}
