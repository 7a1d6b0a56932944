//! Messages for the generator: lawful ones built from what a book holds of a sender, and ways to
//! spoil them.

use std::collections::HashMap;

use crate::block::*;
use crate::clause::cases;
use crate::counts::{Minute, Position};
use crate::crafted::put_right;
use crate::deck::Deck;
use crate::difference::{other_quantity, Difference};
use crate::external::{foreign_area, put_areas, rights_in, turn_round, KeyPart};
use crate::names;
use crate::random::Random;
use crate::right::names as names_right;
use crate::stream::MOST_MESSAGE_BYTES;
use crate::versions::lawful_version;

/// A message in the making: the sender block, then its series, not yet sealed.
#[derive(Clone)]
pub struct Draft {
    pub blocks: Vec<Block>,
    sender: Field,
    /// The version the book keeps of this sender, 0 for a new one.
    kept_version: u16,
    area: Field,
    n: u16,
    /// The lowest open position; above n when the whole day is closed.
    first_open: u16,
    /// The ids the book holds of this sender.
    stored: Vec<Field>,
    /// The rights that the sender holds in the book.
    rights: Vec<Block>,
    free_slots: usize,
}

/// How many new series a draft gets.
#[derive(Clone, Copy, Debug, PartialEq, Eq)]
pub enum New {
    UpTo(usize),
    Exactly(usize),
    /// One for each trade that others filed and this sender has not answered.
    Answering,
    /// Just so many that the book's free slots are all taken, plus this many too many.
    Filling(usize),
}

/// How a lawful draft is to grow and change.
pub struct Growth {
    pub new: New,
    /// How many stored series in a hundred are changed.
    pub changed: usize,
    /// All new series stand on this side, at the highest quantity: this drives the net to its limit.
    pub side: Option<Side>,
    /// How many new series in a hundred are external schedules.
    pub external: usize,
    pub version: Version,
}

/// The version that a draft gets.
#[derive(Clone, Copy, Debug, PartialEq, Eq)]
pub enum Version {
    /// One more than the kept one; 1 from a new sender.
    Next,
    /// One that rule 6 takes, if there is one left.
    Lawful,
    Exactly(u16),
}

/// The side of a trade that the sender takes.
#[derive(Clone, Copy, Debug, PartialEq, Eq)]
pub enum Side {
    Buys,
    Sells,
}

/// Internal trades that others filed, by in and out party.
type Filed<'book> = HashMap<(Field, Field), &'book Block>;

/// The sender block of a message that comes after the kept one, or is the sender's first.
fn head(random: &mut Random, day: &Block, sender: &Field, kept: Option<&Block>, version: Version) -> Block {
    let mut head = [0; BLOCK_BYTES];
    head[KIND] = KIND_SENDER;
    head[N] = day[N];
    let kept_version = kept.map(|kept| u16_at(kept, VERSION));
    let version = match version {
        Version::Next => kept_version.unwrap_or(0).wrapping_add(1),
        Version::Lawful => lawful_version(random, kept_version),
        Version::Exactly(version) => version,
    };
    put_u16(&mut head, VERSION, version);
    let id = kept.map_or_else(|| names::id(random), |kept| field(kept, ID));
    put_field(&mut head, ID, &id);
    put_field(&mut head, SENDER, sender);
    put_field(&mut head, RECEIVER, &field(day, RECEIVER));
    head[DAY_IN_SENDER..DAY_IN_SENDER + DAY_DIGITS]
        .copy_from_slice(&day[DAY_IN_DAY_BLOCK..DAY_IN_DAY_BLOCK + DAY_DIGITS]);
    head
}

impl Draft {
    /// A message the book should accept, free slots permitting. The book need not be sound: what
    /// cannot be read from it is made up.
    pub fn lawful(random: &mut Random, book: &[u8], sender: Field, partners: &[Field], growth: &Growth) -> Self {
        let list: Vec<&Block> = blocks(book).collect();
        let nothing = [0; BLOCK_BYTES];
        let day = list.first().copied().unwrap_or(&nothing);
        let n = u16::from(day[N]).clamp(2, POSITIONS as u16);
        let (clock, lead) = (Minute(u16_at(day, CLOCK)), u16_at(day, LEAD));
        let slot = slot_of(&list, &sender);
        let mut draft = Draft {
            blocks: vec![head(random, day, &sender, slot.map(|slot| list[slot]), growth.version)],
            sender,
            kept_version: slot.map_or(0, |slot| u16_at(list[slot], VERSION)),
            area: field(day, AREA),
            n,
            first_open: (1..=n).find(|&p| Position(p).is_open(clock, lead)).unwrap_or(n + 1),
            stored: Vec::new(),
            rights: rights_in(book).into_iter().filter(|right| field(right, HOLDER) == sender).collect(),
            free_slots: list.iter().filter(|block| block[KIND] == 0).count(),
        };
        draft.take_stored(&list, slot);
        let theirs = filed_by_others(&list, slot, &sender);
        draft.change_stored(random, growth.changed, &theirs);
        let fewest = usize::from(draft.blocks.len() == 1);
        let new = match growth.new {
            New::UpTo(most) => random.between(fewest, most.max(fewest)),
            New::Exactly(number) => number,
            New::Answering => theirs.keys().filter(|parties| !draft.has_pair(parties)).count(),
            New::Filling(more) => (draft.free_slots + more).saturating_sub(usize::from(slot.is_none())).max(fewest),
        };
        let answering = if growth.new == New::Answering { 100 } else { 80 };
        draft.add_new(random, new, growth, partners, &theirs, answering);
        if random.percent(20) {
            random.shuffle(&mut draft.blocks[1..]);
        }
        draft
    }

    /// Takes over the sender's stored series.
    fn take_stored(&mut self, list: &[&Block], slot: Option<usize>) {
        for &block in list.iter().skip(1).filter(|block| block[KIND] == KIND_SERIES) {
            if slot == Some(usize::from(u16_at(block, SENDER_SLOT))) {
                self.stored.push(field(block, ID));
                // A book that is not sound may hold more of a sender than a record can carry.
                if self.blocks.len() < MOST_MESSAGE_BYTES / BLOCK_BYTES {
                    self.blocks.push(*block);
                }
            }
        }
    }

    /// Makes stored series fit for a message, and changes so many of a hundred.
    fn change_stored(&mut self, random: &mut Random, changed: usize, theirs: &Filed) {
        let (version, first_open, n) = (self.version(), self.first_open, self.n);
        for place in 1..self.blocks.len() {
            let series = &mut self.blocks[place];
            let before = *series;
            put_u16(series, SENDER_SLOT, 0);
            series[MARK..VALUES].fill(0);
            if random.percent(changed) {
                let other = theirs.get(&pair(series)).copied().filter(|_| is_internal(series));
                change(random, series, other, first_open, n);
                self.keep_within_right(random, place);
                let series = &mut self.blocks[place];
                if series[VALUES..CHECK] != before[VALUES..CHECK] {
                    put_u16(series, VERSION, version);
                }
            }
        }
    }

    /// The right that the series names, if the sender has it.
    pub fn right_of(&self, place: usize) -> Option<Block> {
        let series = &self.blocks[place];
        let named = |right: &&Block| series[BUSINESS_TYPE] == WITH_CAPACITY && names_right(series, right);
        self.rights.iter().find(named).copied()
    }

    /// What the other series of the draft leave of a right at a position.
    fn left_of(&self, right: &Block, place: usize, position: Position) -> u32 {
        let others = (1..self.blocks.len()).filter(|&other| other != place);
        let claims = others
            .map(|other| &self.blocks[other])
            .filter(|series| series[BUSINESS_TYPE] == WITH_CAPACITY && names_right(series, right));
        claims.fold(quantity(right, position), |left, series| left.saturating_sub(quantity(series, position)))
    }

    /// Takes open quantities of a series on a right down to what is left of it; sometimes up to that.
    fn keep_within_right(&mut self, random: &mut Random, place: usize) {
        if let Some(right) = self.right_of(place) {
            let all = random.percent(35);
            for position in (self.first_open..=self.n).map(Position) {
                let left = self.left_of(&right, place, position);
                let value = quantity(&self.blocks[place], position);
                put_quantity(&mut self.blocks[place], position, if all { left } else { value.min(left) });
            }
        }
    }

    /// Adds so many new series. So many of a hundred answer trades that others filed and this sender has not
    /// answered, as long as there are any.
    fn add_new(
        &mut self,
        random: &mut Random,
        new: usize,
        growth: &Growth,
        partners: &[Field],
        theirs: &Filed,
        answering: usize,
    ) {
        let mut unanswered: Vec<(Field, Field)> =
            theirs.keys().copied().filter(|parties| !self.has_pair(parties)).collect();
        unanswered.sort_unstable();
        for _ in 0..new {
            if let Some(side) = growth.side {
                self.add_at_limit(random, side, partners, growth.external);
                continue;
            }
            if random.percent(growth.external) {
                self.add_external(random, partners);
                continue;
            }
            let wanted = if !unanswered.is_empty() && random.percent(answering) {
                Some(unanswered.swap_remove(random.below(unanswered.len())))
            } else {
                None
            };
            self.add_series(random, wanted, partners, theirs);
        }
    }

    fn has_pair(&self, parties: &(Field, Field)) -> bool {
        self.blocks[1..].iter().any(|block| is_internal(block) && pair(block) == *parties)
    }

    fn has_key(&self, series: &Block) -> bool {
        self.blocks[1..].iter().any(|block| key(block) == key(series))
    }

    fn is_stored(&self, series: &Block) -> bool {
        self.stored.contains(&field(series, ID))
    }

    fn version(&self) -> u16 {
        u16_at(&self.blocks[0], VERSION)
    }

    /// Makes the version so much higher, and that of each series that carries it.
    pub fn raise_version(&mut self, by: u16) {
        let version = self.version();
        for block in self.blocks.iter_mut().filter(|block| u16_at(block, VERSION) == version) {
            put_u16(block, VERSION, version.saturating_add(by));
        }
    }

    fn unused_id(&self, random: &mut Random) -> Field {
        loop {
            let id = if random.percent(50) { numbered_id(random) } else { names::id(random) };
            if self.stored.contains(&id) || self.blocks[1..].iter().any(|block| field(block, ID) == id) {
                continue;
            }
            return id;
        }
    }

    /// Adds a new series, if there is room in the message.
    fn add_series(&mut self, random: &mut Random, wanted: Option<(Field, Field)>, partners: &[Field], theirs: &Filed) {
        if self.blocks.len() > usize::from(MOST_SERIES) {
            return;
        }
        let sender = self.sender;
        let mut parties = wanted.unwrap_or((sender, sender));
        let mut tries = 0;
        while parties.0 == parties.1 || self.has_pair(&parties) {
            // When the known partners seem used up, a new one is invented.
            tries += 1;
            let other = if tries > 20 { names::valid_eic(random) } else { random.pick(partners) };
            parties = if random.percent(50) { (sender, other) } else { (other, sender) };
        }
        let mut series = self.series(random, parties);
        if let Some(other) = theirs.get(&parties).copied().filter(|_| random.percent(70)) {
            agree(&mut series, other, self.first_open, self.n);
            if random.percent(25) {
                change(random, &mut series, None, self.first_open, self.n);
            }
        }
        self.blocks.push(series);
    }

    /// A new internal trade with some quantities.
    fn series(&self, random: &mut Random, parties: (Field, Field)) -> Block {
        let mut series = [0; BLOCK_BYTES];
        series[KIND] = KIND_SERIES;
        series[N] = self.blocks[0][N];
        put_u16(&mut series, VERSION, self.version());
        series[BUSINESS_TYPE] = INTERNAL_TRADE;
        put_field(&mut series, ID, &self.unused_id(random));
        put_field(&mut series, IN_AREA, &self.area);
        put_field(&mut series, OUT_AREA, &self.area);
        put_field(&mut series, IN_PARTY, &parties.0);
        put_field(&mut series, OUT_PARTY, &parties.1);
        // Closed positions of a new series stay 0.
        let values = names::profile(random, usize::from(self.n));
        for position in self.first_open..=self.n {
            put_quantity(&mut series, Position(position), values[usize::from(position) - 1]);
        }
        series
    }

    /// The parties of an external schedule: the sender once or twice; sometimes those of a trade in the message.
    fn external_parties(&self, random: &mut Random, partners: &[Field]) -> (Field, Field) {
        let sender = self.sender;
        let other = if random.percent(20) { names::valid_eic(random) } else { random.pick(partners) };
        match random.below(10) {
            0..=2 => (sender, sender),
            3 | 4 if self.blocks.len() > 1 => pair(&self.blocks[self.any_place(random)]),
            3..=6 => (sender, other),
            _ => (other, sender),
        }
    }

    /// Adds a new external schedule, if there is room in the message: on a right, where the sender has any, or without
    /// capacity.
    pub fn add_external(&mut self, random: &mut Random, partners: &[Field]) {
        let right = if self.rights.is_empty() || random.percent(40) { None } else { Some(random.pick(&self.rights)) };
        match right {
            Some(right) => self.add_claim(random, &right, partners),
            None => self.add_without_capacity(random, partners),
        }
    }

    fn add_without_capacity(&mut self, random: &mut Random, partners: &[Field]) {
        let area = self.area;
        self.add_with_new_key(random, partners, |random, series| {
            series[BUSINESS_TYPE] = WITHOUT_CAPACITY;
            let other = foreign_area(random, &area, partners);
            put_areas(random, series, &area, &other);
        });
    }

    /// Adds a new series on this right, within what is left of it if the sender holds it.
    pub fn add_claim(&mut self, random: &mut Random, right: &Block, partners: &[Field]) {
        let before = self.blocks.len();
        self.add_with_new_key(random, partners, |_, series| put_right(series, right));
        if self.blocks.len() > before {
            self.keep_within_right(random, before);
        }
    }

    /// Adds a new series on this right with these quantities wherever it is still open. Its place; nothing if there is
    /// no room in the message.
    pub fn claim(
        &mut self,
        random: &mut Random,
        right: &Block,
        partners: &[Field],
        value: impl Fn(Position) -> u32,
    ) -> Option<usize> {
        let place = self.blocks.len();
        self.add_with_new_key(random, partners, |_, series| put_right(series, right));
        let series = self.blocks.get_mut(place)?;
        (self.first_open..=self.n).map(Position).for_each(|open| put_quantity(series, open, value(open)));
        Some(place)
    }

    /// A second series whose key differs from this one's in one part alone; what it becomes there is given. Its place;
    /// nothing if there is no room in the message or such a series stands there.
    pub fn twin(&mut self, random: &mut Random, place: usize, part: KeyPart, to: &[u8]) -> Option<usize> {
        let mut twin = self.series(random, pair(&self.blocks[place]));
        put_key(&mut twin, &self.blocks[place]);
        twin[part.bytes()].copy_from_slice(to);
        if self.blocks.len() > usize::from(MOST_SERIES) || self.has_key(&twin) {
            return None;
        }
        self.blocks.push(twin);
        self.keep_within_right(random, self.blocks.len() - 1);
        Some(self.blocks.len() - 1)
    }

    /// The open positions.
    pub fn open_positions(&self) -> std::ops::RangeInclusive<u16> {
        self.first_open..=self.n
    }

    /// The places of series that the book holds.
    pub fn stored_places(&self) -> Vec<usize> {
        (1..self.blocks.len()).filter(|&place| self.is_stored(&self.blocks[place])).collect()
    }

    /// Adds a series that is made of an internal trade and whose key is not in the message yet.
    fn add_with_new_key(&mut self, random: &mut Random, partners: &[Field], make: impl Fn(&mut Random, &mut Block)) {
        if self.blocks.len() > usize::from(MOST_SERIES) {
            return;
        }
        let parties = self.external_parties(random, partners);
        let mut series = self.series(random, parties);
        make(random, &mut series);
        while self.has_key(&series) {
            let (in_party, out_party) = (self.sender, names::valid_eic(random));
            put_field(&mut series, IN_PARTY, &in_party);
            put_field(&mut series, OUT_PARTY, &out_party);
        }
        self.blocks.push(series);
    }

    /// Adds a new series with the highest quantity wherever that is still open. So many of a hundred are external
    /// schedules, whose direction alone counts.
    fn add_at_limit(&mut self, random: &mut Random, side: Side, partners: &[Field], external: usize) {
        let before = self.blocks.len();
        if random.percent(external) {
            self.add_without_capacity(random, partners);
            let area = self.area;
            if let Some(series) = self.blocks.get_mut(before) {
                if (field(series, IN_AREA) == area) != (side == Side::Buys) {
                    turn_round(series);
                }
            }
        } else {
            self.add_trade_at(random, side, partners);
        }
        if let Some(series) = self.blocks.get_mut(before) {
            for position in self.first_open..=self.n {
                put_quantity(series, Position(position), HIGHEST_QUANTITY);
            }
        }
    }

    fn add_trade_at(&mut self, random: &mut Random, side: Side, partners: &[Field]) {
        let parties = |other: Field| match side {
            Side::Buys => (self.sender, other),
            Side::Sells => (other, self.sender),
        };
        let free = |other: &&Field| **other != self.sender && !self.has_pair(&parties(**other));
        let other = partners.iter().find(free).copied().unwrap_or_else(|| names::valid_eic(random));
        let wanted = parties(other);
        self.add_series(random, Some(wanted), partners, &Filed::new());
    }

    /// Takes a few open quantities down from the highest by one, or up to it again. A net that was at
    /// its limit so comes next to it, or back.
    pub fn move_about_limit(&mut self, random: &mut Random) {
        if self.first_open > self.n {
            return;
        }
        let version = self.version();
        for _ in 0..random.between(1, 3) {
            let position = Position(random.between(usize::from(self.first_open), usize::from(self.n)) as u16);
            let place = self.any_place(random);
            let series = &mut self.blocks[place];
            let lower = quantity(series, position) == HIGHEST_QUANTITY;
            put_quantity(series, position, HIGHEST_QUANTITY - u32::from(lower));
            put_u16(series, VERSION, version);
        }
    }

    /// Makes each series that has a counterpart in the book differ from it in a way that is next in turn, as far
    /// as its closed quantities allow one. Of a draft none of whose stored series was changed before.
    pub fn differ(&mut self, random: &mut Random, book: &[u8], ways: &mut Deck<Difference>) {
        let list: Vec<&Block> = blocks(book).collect();
        let theirs = filed_by_others(&list, slot_of(&list, &self.sender), &self.sender);
        let (version, first_open, n) = (self.version(), self.first_open, self.n);
        for series in self.blocks.iter_mut().skip(1).filter(|series| is_internal(series)) {
            let (before, other) = match theirs.get(&pair(series)) {
                None => continue,
                Some(&other) => (*series, other),
            };
            let closed: Vec<u16> =
                differing(series, other, n as u8).map(|position| position.0).filter(|&p| p < first_open).collect();
            let dealt = ways.deal_serving(random, |random, way| way.made(random, n, first_open, &closed));
            let positions = dealt.map_or(closed, |(_, positions)| positions);
            agree(series, other, first_open, n);
            for position in positions.into_iter().filter(|&p| p >= first_open).map(Position) {
                put_quantity(series, position, other_quantity(random, quantity(other, position)));
            }
            if series[VALUES..CHECK] != before[VALUES..CHECK] {
                put_u16(series, VERSION, version);
            }
        }
    }

    /// The place of some series.
    pub fn any_place(&self, random: &mut Random) -> usize {
        random.between(1, self.blocks.len() - 1)
    }

    /// The place of a series that the book does not hold; one is added if need be.
    fn new_series(&mut self, random: &mut Random, partners: &[Field]) -> usize {
        let added = (1..self.blocks.len()).find(|&place| !self.is_stored(&self.blocks[place]));
        added.unwrap_or_else(|| {
            self.add_series(random, None, partners, &Filed::new());
            self.blocks.len() - 1
        })
    }

    /// The same, of an internal trade.
    pub fn new_trade(&mut self, random: &mut Random, partners: &[Field]) -> usize {
        self.new_of(|series| is_internal(series)).unwrap_or_else(|| {
            self.add_series(random, None, partners, &Filed::new());
            self.blocks.len() - 1
        })
    }

    /// The same, of an external schedule.
    pub fn new_external(&mut self, random: &mut Random, partners: &[Field]) -> usize {
        self.new_of(is_external).unwrap_or_else(|| {
            self.add_external(random, partners);
            self.blocks.len() - 1
        })
    }

    /// The same, of a series on a right, which is one of the sender's if it has any.
    pub fn new_claim(&mut self, random: &mut Random, partners: &[Field]) -> usize {
        self.new_of(|series| series[BUSINESS_TYPE] == WITH_CAPACITY).unwrap_or_else(|| {
            let right = match self.rights.as_slice() {
                [] => self.made_up_right(random, partners),
                own => random.pick(own),
            };
            self.add_claim(random, &right, partners);
            self.blocks.len() - 1
        })
    }

    fn new_of(&self, such: impl Fn(&Block) -> bool) -> Option<usize> {
        (1..self.blocks.len()).find(|&place| !self.is_stored(&self.blocks[place]) && such(&self.blocks[place]))
    }

    /// A right that no book need hold.
    fn made_up_right(&self, random: &mut Random, partners: &[Field]) -> Block {
        let mut day = [0; BLOCK_BYTES];
        day[N] = self.blocks[0][N];
        put_field(&mut day, AREA, &self.area);
        crate::external::right(random, &day, &self.sender, partners)
    }

    /// The place of a series that the book holds.
    fn stored_series(&self, random: &mut Random) -> Option<usize> {
        let places = self.stored_places();
        (!places.is_empty()).then(|| random.pick(&places))
    }

    /// Sets the count and gives the message its checks.
    pub fn finished(mut self, random: &mut Random, forms: &[FormFault]) -> Vec<u8> {
        let count = self.blocks.len() as u16 - 1;
        put_u16(&mut self.blocks[0], COUNT, count);
        for &fault in forms {
            self.spoil_form(random, fault);
        }
        for block in self.blocks.iter_mut() {
            seal(block);
        }
        let mut message = self.blocks.concat();
        for &fault in forms {
            spoil_bytes(random, &mut message, fault);
        }
        message
    }
}

/// Gives a series the key of another.
pub fn put_key(series: &mut Block, other: &Block) {
    series[BUSINESS_TYPE..SENDER_SLOT].copy_from_slice(&other[BUSINESS_TYPE..SENDER_SLOT]);
    series[IN_AREA..MARK].copy_from_slice(&other[IN_AREA..MARK]);
}

/// The slot of a sender in a book that need not be sound.
fn slot_of(list: &[&Block], sender: &Field) -> Option<usize> {
    (1..list.len()).find(|&slot| list[slot][KIND] == KIND_SENDER && field(list[slot], SENDER) == *sender)
}

/// The internal trades that others filed with a sender.
fn filed_by_others<'book>(list: &[&'book Block], slot: Option<usize>, sender: &Field) -> Filed<'book> {
    let mut theirs = Filed::new();
    for &block in list.iter().skip(1).filter(|block| block[KIND] == KIND_SERIES && is_internal(block)) {
        let parties = pair(block);
        let own = slot == Some(usize::from(u16_at(block, SENDER_SLOT)));
        if !own && (parties.0 == *sender || parties.1 == *sender) {
            theirs.insert(parties, block);
        }
    }
    theirs
}

fn numbered_id(random: &mut Random) -> Field {
    let mut id = [0; 16];
    let text = format!("TS{:04}", random.below(3_000));
    id[..text.len()].copy_from_slice(text.as_bytes());
    id
}

/// Takes over the other side's open quantities.
fn agree(series: &mut Block, other: &Block, first_open: u16, n: u16) {
    for position in (first_open..=n).map(Position) {
        put_quantity(series, position, quantity(other, position));
    }
}

/// Changes open quantities in one of several ways.
fn change(random: &mut Random, series: &mut Block, other: Option<&Block>, first_open: u16, n: u16) {
    if first_open > n {
        return;
    }
    let any = |random: &mut Random| random.between(usize::from(first_open), usize::from(n)) as u16;
    match (random.below(5), other) {
        (0 | 1, Some(other)) => agree(series, other, first_open, n),
        (2, _) => {
            let (from, to) = (any(random), any(random));
            let value = names::quantity(random);
            for position in from.min(to)..=from.max(to) {
                put_quantity(series, Position(position), value);
            }
        }
        (3, _) => put_quantity(series, Position(first_open), names::quantity(random)),
        _ => put_quantity(series, Position(any(random)), names::quantity(random)),
    }
}

cases! {
    /// Ways to spoil what a message says, in the order of the rules.
    Fault {
        Receiver,
        SenderEic,
        Day,
        DayText,
        EveryN,
        MessageId,
        OtherMessageId,
        VersionSame,
        VersionLower,
        VersionBeyond,
        SeriesId,
        IdTwice,
        IdSwapped,
        IdOtherPair,
        PairTwice,
        PairRenamed,
        InParty,
        OutParty,
        EqualParties,
        Strangers,
        ExternalStrangers,
        InArea,
        OutArea,
        BothOurs,
        NoneOurs,
        OtherArea,
        BusinessType,
        ContractType,
        Agreement,
        CapacityContract,
        CapacityAgreement,
        TopBit,
        TooHigh,
        AboveN,
        NoRight,
        AboveLimit,
        ClosedChanged,
        ClosedNew,
        SeriesVersionRaised,
        SeriesVersionKept,
        SeriesVersionNext,
        SeriesVersionOdd,
        Absent,
        NoRoom,
    }
}

impl Fault {
    /// The rule that the fault breaks, unless an earlier one is broken too.
    pub fn rule(self) -> u8 {
        use Fault::*;
        match self {
            Receiver => 3,
            SenderEic => 4,
            Day | DayText | EveryN => 5,
            MessageId | OtherMessageId | VersionSame | VersionLower | VersionBeyond => 6,
            SeriesId | IdTwice | IdSwapped | IdOtherPair | PairTwice | PairRenamed => 7,
            InParty | OutParty | EqualParties | Strangers | ExternalStrangers => 8,
            InArea | OutArea | BothOurs | NoneOurs | OtherArea => 9,
            BusinessType | ContractType | Agreement | CapacityContract | CapacityAgreement => 10,
            TopBit => 11,
            TooHigh => 12,
            AboveN => 13,
            NoRight => 18,
            AboveLimit => 19,
            ClosedChanged | ClosedNew => 14,
            SeriesVersionRaised | SeriesVersionKept | SeriesVersionNext | SeriesVersionOdd => 15,
            Absent => 16,
            NoRoom => 17,
        }
    }

    /// Some fault that breaks this rule.
    pub fn of_rule(random: &mut Random, rule: u8) -> Fault {
        let list: Vec<Fault> = Fault::ALL.iter().copied().filter(|fault| fault.rule() == rule).collect();
        random.pick(&list)
    }

    /// Whether the fault can be made in a series of this business type.
    fn fits(self, series: &Block) -> bool {
        use Fault::*;
        match self {
            EqualParties | InArea | OutArea => !is_external(series),
            ExternalStrangers | BothOurs | NoneOurs | OtherArea => is_external(series),
            ContractType | Agreement => series[BUSINESS_TYPE] != WITH_CAPACITY,
            CapacityContract | CapacityAgreement | NoRight | AboveLimit => series[BUSINESS_TYPE] == WITH_CAPACITY,
            _ => true,
        }
    }

    /// Some fault that breaks this rule in this series.
    fn of_rule_in(random: &mut Random, rule: u8, series: &Block) -> Fault {
        let fits = |fault: &Fault| fault.rule() == rule && fault.fits(series);
        let list: Vec<Fault> = Fault::ALL.iter().copied().filter(fits).collect();
        random.pick(&list)
    }
}

/// The rules of a message in the order in which they are judged; those from the fifth to the fifteenth at each series.
pub const ORDER: [u8; 17] = [3, 4, 5, 6, 7, 8, 9, 10, 11, 12, 13, 18, 19, 14, 15, 16, 17];

/// Where a rule stands in the order.
pub fn place_in_order(rule: u8) -> usize {
    ORDER.iter().position(|&other| other == rule).expect("a rule of a message")
}

/// Whether a rule is judged at each series.
fn is_of_series(rule: u8) -> bool {
    (place_in_order(7)..=place_in_order(15)).contains(&place_in_order(rule))
}

impl Draft {
    /// Spoils the draft in one way, at this series where the way leaves the choice. Where the draft
    /// lacks what the way needs, it stays lawful.
    pub fn spoil(&mut self, random: &mut Random, fault: Fault, any: usize, partners: &[Field]) {
        match fault.rule() {
            3..=6 => self.spoil_head(random, fault),
            7 => self.spoil_names(random, fault, any, partners),
            8 if fault == Fault::EqualParties => {
                let place = self.new_trade(random, partners);
                self.spoil_parties(random, fault, place);
            }
            8 if fault == Fault::ExternalStrangers => {
                let place = self.new_external(random, partners);
                self.spoil_parties(random, fault, place);
            }
            8 => {
                let place = self.new_series(random, partners);
                self.spoil_parties(random, fault, place);
            }
            9 | 10 => {
                let place = self.place_for(random, fault, any, partners);
                self.spoil_trade(random, fault, place);
            }
            11..=13 => self.spoil_quantity(random, fault, any),
            18 => {
                let place = self.new_claim(random, partners);
                self.lose_right(random, place);
            }
            19 => self.pass_limit(random, partners),
            14 if fault == Fault::ClosedNew => {
                let place = self.new_series(random, partners);
                self.change_closed(random, place);
            }
            14 => {
                if let Some(place) = self.stored_series(random) {
                    self.change_closed(random, place);
                }
            }
            15 => self.spoil_series_version(random, fault, any),
            _ => self.spoil_whole(random, fault, partners),
        }
    }

    /// The place of a series in which a fault of rule 9 or 10 can be made. In one that the book holds it is rule 7.
    fn place_for(&mut self, random: &mut Random, fault: Fault, any: usize, partners: &[Field]) -> usize {
        if matches!(fault, Fault::ContractType | Fault::Agreement) && random.percent(50) {
            self.add_without_capacity(random, partners);
            return self.blocks.len() - 1;
        }
        let fits = |place: usize| fault.fits(&self.blocks[place]);
        if fits(any) && (!self.is_stored(&self.blocks[any]) || random.percent(20)) {
            return any;
        }
        match fault {
            Fault::CapacityContract | Fault::CapacityAgreement => self.new_claim(random, partners),
            Fault::BothOurs | Fault::NoneOurs | Fault::OtherArea => self.new_external(random, partners),
            _ => self.new_trade(random, partners),
        }
    }

    /// Rule 18: the series names what is no right of the sender, nearly one perhaps.
    fn lose_right(&mut self, random: &mut Random, place: usize) {
        let series = &mut self.blocks[place];
        match random.below(4) {
            0 => turn_round(series),
            1 => series[CONTRACT_TYPE] = 1 + series[CONTRACT_TYPE] % HIGHEST_CONTRACT_TYPE,
            2 => {
                let at = if field(series, IN_AREA) == self.area { OUT_AREA } else { IN_AREA };
                put_field(series, at, &names::valid_eic(random));
            }
            _ => put_field(series, AGREEMENT, &names::id(random)),
        }
    }

    /// Rule 19, at a series on one of the sender's rights; one is added if need be. Nothing happens without a right.
    fn pass_limit(&mut self, random: &mut Random, partners: &[Field]) {
        let mut places: Vec<usize> = (1..self.blocks.len()).filter(|&place| self.right_of(place).is_some()).collect();
        if places.is_empty() && !self.rights.is_empty() {
            let right = random.pick(&self.rights);
            self.add_claim(random, &right, partners);
            places.extend(Some(self.blocks.len() - 1).filter(|&place| self.right_of(place).is_some()));
        }
        if !places.is_empty() {
            let place = random.pick(&places);
            self.pass_limit_at(random, place);
        }
    }

    /// Claims one more than is left at some position, an open one if there is any.
    fn pass_limit_at(&mut self, random: &mut Random, place: usize) {
        let right = match self.right_of(place) {
            None => return,
            Some(right) => right,
        };
        let (low, n) = (if random.percent(80) { self.first_open.min(self.n) } else { 1 }, self.n);
        let (version, any) = (self.version(), random.between(usize::from(low), usize::from(n)) as u16);
        let position = Position(random.pick(&[low, n, any, any]));
        let more = if random.percent(70) { 1 } else { names::quantity(random) + 1 };
        let value = (self.left_of(&right, place, position) + more).min(HIGHEST_QUANTITY);
        let series = &mut self.blocks[place];
        put_quantity(series, position, value);
        put_u16(series, VERSION, version);
    }

    /// Breaks two rules that follow each other: at one series, where both are judged at a series.
    pub fn break_two(&mut self, random: &mut Random, lower: u8, higher: u8, any: usize, partners: &[Field]) {
        if is_of_series(lower) && is_of_series(higher) {
            let one_is = |such: fn(u8) -> bool| such(lower) || such(higher);
            let place = if one_is(|rule| rule >= 18) {
                self.new_claim(random, partners)
            } else if one_is(|rule| (8..=10).contains(&rule)) {
                self.new_series(random, partners)
            } else {
                any
            };
            self.break_rule(random, higher, place);
            self.break_rule(random, lower, place);
        } else {
            for rule in [higher, lower] {
                let fault = Fault::of_rule(random, rule);
                let place = any.min(self.blocks.len() - 1);
                self.spoil(random, fault, place, partners);
            }
        }
    }

    /// Rules 3 to 6.
    fn spoil_head(&mut self, random: &mut Random, fault: Fault) {
        let kept = self.kept_version;
        let head = &mut self.blocks[0];
        match fault {
            Fault::Receiver => put_field(head, RECEIVER, &names::valid_eic(random)),
            Fault::SenderEic if random.percent(50) => {
                let character = names::character_number(random);
                put_field(head, SENDER, &names::wrong_at(random, character));
            }
            Fault::SenderEic => put_field(head, SENDER, &names::invalid_eic(random)),
            Fault::Day => {
                let at = DAY_IN_SENDER + random.below(DAY_DIGITS);
                head[at] = b'0' + (head[at].wrapping_sub(b'0').wrapping_add(1)) % 10;
            }
            Fault::DayText => head[DAY_IN_SENDER + random.below(DAY_DIGITS)] = random.pick(b"A-\0 \xff"),
            Fault::EveryN => {
                let other = random.pick(&[92, 96, 100, 0, 255]);
                self.blocks.iter_mut().for_each(|block| block[N] = other);
            }
            Fault::MessageId => put_field(head, ID, &names::malformed_id(random)),
            Fault::OtherMessageId => put_field(head, ID, &names::id(random)),
            Fault::VersionSame => put_u16(head, VERSION, kept),
            Fault::VersionLower => {
                let lower = random.pick(&[0, 1.min(kept), kept.saturating_sub(1), kept.saturating_sub(256)]);
                put_u16(head, VERSION, lower);
            }
            _ => {
                let beyond = random.pick(&[HIGHEST_VERSION + 1, 1_024, 32_768 + 5, 65_535]);
                put_u16(head, VERSION, beyond);
            }
        }
    }

    /// Rule 7.
    fn spoil_names(&mut self, random: &mut Random, fault: Fault, any: usize, partners: &[Field]) {
        match (fault, self.stored_series(random)) {
            (Fault::SeriesId, _) => put_field(&mut self.blocks[any], ID, &names::malformed_id(random)),
            (Fault::IdTwice, _) => self.repeat_id(random, partners),
            (Fault::PairTwice, _) => self.repeat_pair(random, partners),
            (Fault::IdSwapped, Some(place)) => {
                let (in_party, out_party) = pair(&self.blocks[place]);
                put_field(&mut self.blocks[place], IN_PARTY, &out_party);
                put_field(&mut self.blocks[place], OUT_PARTY, &in_party);
            }
            (Fault::IdOtherPair, Some(place)) => {
                let at = random.pick(&[IN_PARTY, OUT_PARTY]);
                let party = if random.percent(30) { names::valid_eic(random) } else { names::invalid_eic(random) };
                put_field(&mut self.blocks[place], at, &party);
            }
            (_, Some(place)) => {
                let id = self.unused_id(random);
                put_field(&mut self.blocks[place], ID, &id);
            }
            (_, None) => {}
        }
    }

    fn repeat_id(&mut self, random: &mut Random, partners: &[Field]) {
        if self.blocks.len() == 2 {
            self.add_series(random, None, partners, &Filed::new());
        }
        let later = random.between(2.min(self.blocks.len() - 1), self.blocks.len() - 1);
        let earlier = random.between(1, (later - 1).max(1));
        let id = field(&self.blocks[earlier], ID);
        put_field(&mut self.blocks[later], ID, &id);
    }

    fn repeat_pair(&mut self, random: &mut Random, partners: &[Field]) {
        self.add_series(random, None, partners, &Filed::new());
        let last = self.blocks.len() - 1;
        if last > 1 && !self.is_stored(&self.blocks[last]) {
            let earlier = self.blocks[random.between(1, last - 1)];
            put_key(&mut self.blocks[last], &earlier);
        }
    }

    /// Rule 8, at a series that the book does not hold: at any other it would be rule 7.
    fn spoil_parties(&mut self, random: &mut Random, fault: Fault, place: usize) {
        let own = self.sender;
        let invalid = if random.percent(60) { names::hyphen_eic(random) } else { names::invalid_eic(random) };
        let series = &mut self.blocks[place];
        match fault {
            Fault::InParty => put_field(series, IN_PARTY, &invalid),
            Fault::OutParty => put_field(series, OUT_PARTY, &invalid),
            Fault::EqualParties => {
                let party = if random.percent(70) { own } else { names::valid_eic(random) };
                put_field(series, IN_PARTY, &party);
                put_field(series, OUT_PARTY, &party);
            }
            _ => {
                let (party, other) = (names::valid_eic(random), names::valid_eic(random));
                let equal = fault == Fault::ExternalStrangers && random.percent(70);
                put_field(series, IN_PARTY, &party);
                put_field(series, OUT_PARTY, if equal { &party } else { &other });
            }
        }
    }

    /// Rules 9 and 10.
    fn spoil_trade(&mut self, random: &mut Random, fault: Fault, place: usize) {
        let area = self.area;
        let series = &mut self.blocks[place];
        match fault {
            Fault::InArea if random.percent(50) => put_field(series, IN_AREA, &names::invalid_eic(random)),
            Fault::InArea => put_field(series, IN_AREA, &names::valid_eic(random)),
            Fault::OutArea if random.percent(50) => put_field(series, OUT_AREA, &names::invalid_eic(random)),
            Fault::OutArea => put_field(series, OUT_AREA, &names::valid_eic(random)),
            Fault::BothOurs => {
                put_field(series, IN_AREA, &area);
                put_field(series, OUT_AREA, &area);
            }
            Fault::NoneOurs => {
                let at = if field(series, IN_AREA) == area { IN_AREA } else { OUT_AREA };
                put_field(series, at, &names::valid_eic(random));
            }
            Fault::OtherArea => {
                let at = if field(series, IN_AREA) == area { OUT_AREA } else { IN_AREA };
                put_field(series, at, &names::invalid_eic(random));
            }
            Fault::BusinessType => {
                // Any other type is judged like an internal trade's, so it needs areas and parties of one.
                series[BUSINESS_TYPE] = random.pick(&[0, 1, 4, 5, 7, 255]);
                if random.percent(80) {
                    put_field(series, IN_AREA, &area);
                    put_field(series, OUT_AREA, &area);
                }
            }
            Fault::ContractType => series[CONTRACT_TYPE] = random.pick(&[1, 99, 100, 255]),
            Fault::CapacityContract => series[CONTRACT_TYPE] = random.pick(&[0, 100, 128, 255]),
            Fault::CapacityAgreement if random.percent(30) => put_field(series, AGREEMENT, &[0; 16]),
            Fault::CapacityAgreement => put_field(series, AGREEMENT, &names::malformed_id(random)),
            _ if random.percent(50) => put_field(series, AGREEMENT, &names::id(random)),
            _ => series[AGREEMENT + random.below(16)] = random.between(1, 255) as u8,
        }
    }

    /// Rules 11 to 13, at a position of its own choice.
    fn spoil_quantity(&mut self, random: &mut Random, fault: Fault, place: usize) {
        let n = usize::from(self.n);
        let position = match fault {
            Fault::AboveN if n == POSITIONS => return,
            Fault::AboveN => random.between(n + 1, POSITIONS),
            _ => random.between(1, n),
        };
        self.spoil_quantity_at(random, fault, place, position);
    }

    fn spoil_quantity_at(&mut self, random: &mut Random, fault: Fault, place: usize, position: usize) {
        let value = match fault {
            Fault::TopBit => random.pick(&[1 << 31, u32::MAX, (1 << 31) + 5]),
            Fault::TooHigh => random.pick(&[HIGHEST_QUANTITY + 1, i32::MAX as u32, 1 << 24]),
            _ => random.pick(&[1, 1 << 31, HIGHEST_QUANTITY + 1]),
        };
        put_quantity(&mut self.blocks[place], Position(position as u16), value);
    }

    /// Rule 14: a closed position gets another value. Nothing happens while all positions are open.
    fn change_closed(&mut self, random: &mut Random, place: usize) {
        let last_closed = usize::from(self.first_open) - 1;
        if last_closed > 0 {
            let position = if random.percent(50) { last_closed } else { random.between(1, last_closed) };
            self.change_at(place, position);
        }
    }

    fn change_at(&mut self, place: usize, position: usize) {
        let version = self.version();
        let series = &mut self.blocks[place];
        let position = Position(position as u16);
        let value = quantity(series, position);
        put_quantity(series, position, if value < HIGHEST_QUANTITY { value + 1 } else { 5 });
        put_u16(series, VERSION, version);
    }

    /// Rule 15.
    fn spoil_series_version(&mut self, random: &mut Random, fault: Fault, place: usize) {
        let version = self.version();
        match fault {
            Fault::SeriesVersionRaised => {
                self.blocks[1..].iter_mut().for_each(|series| put_u16(series, VERSION, version));
            }
            Fault::SeriesVersionKept => {
                let kept = u16_at(&self.blocks[place], VERSION);
                put_u16(&mut self.blocks[place], VERSION, kept.wrapping_sub(1));
            }
            Fault::SeriesVersionNext => {
                // New and changed series count on from what is kept, where the message leaves versions out.
                let next = self.kept_version.wrapping_add(1);
                let carries = |series: &&mut Block| u16_at(*series, VERSION) == version;
                self.blocks[1..].iter_mut().filter(carries).for_each(|series| put_u16(series, VERSION, next));
            }
            _ => {
                let odd = random.pick(&[0, 1_000, version.wrapping_add(1), 65_535]);
                put_u16(&mut self.blocks[place], VERSION, odd);
            }
        }
    }

    /// Rules 16 and 17.
    fn spoil_whole(&mut self, random: &mut Random, fault: Fault, partners: &[Field]) {
        if fault == Fault::NoRoom {
            let more = if self.free_slots < 60 { self.free_slots + 2 } else { 0 };
            for _ in 0..more {
                self.add_series(random, None, partners, &Filed::new());
            }
        } else if let Some(place) = self.stored_series(random) {
            self.blocks.remove(place);
            if self.blocks.len() == 1 || random.percent(30) {
                self.add_series(random, None, partners, &Filed::new());
            }
        }
    }

    /// Several of the rules 11 to 14 broken in one series, so that it matters how its positions are
    /// gone through: 11 to 13 by ascending position, and 14 only after all of them.
    pub fn mix_quantities(&mut self, random: &mut Random, place: usize) {
        let n = usize::from(self.n);
        let low = random.between(1, n - 1);
        let high = random.between(low + 1, n);
        let bad = random.pick(&[Fault::TopBit, Fault::TooHigh]);
        let last_closed = usize::from(self.first_open) - 1;
        match random.below(5) {
            0 if n < POSITIONS => {
                self.spoil_quantity_at(random, bad, place, low);
                self.spoil_quantity(random, Fault::AboveN, place);
            }
            1 | 4 if last_closed > 0 => {
                let closed = random.between(1, last_closed.min(n - 1));
                let above = random.between(closed + 1, n);
                self.change_at(place, closed);
                match random.below(3) {
                    0 => self.spoil_quantity(random, Fault::AboveN, place),
                    _ => self.spoil_quantity_at(random, bad, place, above),
                }
            }
            2 => {
                self.spoil_quantity_at(random, Fault::TopBit, place, low);
                self.spoil_quantity_at(random, Fault::TooHigh, place, high);
            }
            _ => {
                self.spoil_quantity_at(random, Fault::TooHigh, place, low);
                self.spoil_quantity_at(random, Fault::TopBit, place, high);
            }
        }
    }

    /// A series breaks a rule, and a later series an earlier one. The first series decides: it passes
    /// all rules of a series before the next begins.
    pub fn break_out_of_order(&mut self, random: &mut Random, partners: &[Field]) {
        while self.blocks.len() < 3 {
            self.add_series(random, None, partners, &Filed::new());
        }
        let first = random.between(1, self.blocks.len() - 2);
        let second = random.between(first + 1, self.blocks.len() - 1);
        let (earlier, later) = (self.rules_at(second), self.rules_at(first));
        let rule = random.pick(&later[1..]);
        let is_before = |other: &u8| place_in_order(*other) < place_in_order(rule);
        let before: Vec<u8> = earlier.into_iter().filter(is_before).collect();
        self.break_rule(random, rule, first);
        let lower = random.pick(&before);
        self.break_rule(random, lower, second);
    }

    /// The rules of a series that can be broken at this one, in their order.
    fn rules_at(&self, place: usize) -> Vec<u8> {
        let series = &self.blocks[place];
        let can = |rule: u8| match rule {
            8 | 9 | 10 => !self.is_stored(series),
            13 => usize::from(self.n) < POSITIONS,
            18 => !self.is_stored(series) && series[BUSINESS_TYPE] == WITH_CAPACITY,
            19 => self.right_of(place).is_some(),
            14 => self.first_open > 1,
            _ => is_of_series(rule),
        };
        ORDER.into_iter().filter(|&rule| is_of_series(rule) && can(rule)).collect()
    }

    /// Breaks one of the rules of a series at this one.
    pub fn break_rule(&mut self, random: &mut Random, rule: u8, place: usize) {
        match rule {
            7 => put_field(&mut self.blocks[place], ID, &names::malformed_id(random)),
            14 => self.change_closed(random, place),
            15 => self.spoil_series_version(random, Fault::SeriesVersionOdd, place),
            18 => self.lose_right(random, place),
            19 => self.pass_limit_at(random, place),
            _ => {
                let fault = Fault::of_rule_in(random, rule, &self.blocks[place]);
                match rule {
                    8 => self.spoil_parties(random, fault, place),
                    9 | 10 => self.spoil_trade(random, fault, place),
                    _ => self.spoil_quantity(random, fault, place),
                }
            }
        }
    }
}

cases! {
    /// Whose code is no EIC.
    WrongCode {
        Sender,
        InParty,
        OutParty,
        BothParties,
    }
}

impl Draft {
    /// A code that tells this character. Of two wrong parties the in party's is told.
    pub fn spoil_code(&mut self, random: &mut Random, whose: WrongCode, character: u8, partners: &[Field]) {
        let wrong = names::wrong_at(random, character);
        if whose == WrongCode::Sender {
            put_field(&mut self.blocks[0], SENDER, &wrong);
            return;
        }
        let place = self.new_series(random, partners);
        let series = &mut self.blocks[place];
        if whose != WrongCode::OutParty {
            put_field(series, IN_PARTY, &wrong);
        }
        if whose == WrongCode::BothParties && random.percent(75) {
            let other = names::character_number(random);
            put_field(series, OUT_PARTY, &names::wrong_at(random, other));
        } else if whose != WrongCode::InParty {
            put_field(series, OUT_PARTY, &wrong);
        }
    }
}

cases! {
    /// Ways to spoil the form of a message, one for each clause of rule 2.
    FormFault {
        PartOfBlock,
        TooShort,
        TooLong,
        Check,
        FirstKind,
        LaterKind,
        Count,
        SenderBytes6To7,
        SenderBytes64To107,
        SenderNets,
        SeriesSenderSlot,
        SeriesMark,
        SeriesN,
    }
}

impl Draft {
    /// The faults that can be made before sealing, so that all checks are right.
    fn spoil_form(&mut self, random: &mut Random, fault: FormFault) {
        let some = random.between(1, 255) as u8;
        let any = random.between(1, self.blocks.len() - 1);
        match fault {
            FormFault::TooLong => {
                let last = self.blocks[self.blocks.len() - 1];
                let blocks = 202 + random.below(2);
                self.blocks.resize(blocks, last);
                put_u16(&mut self.blocks[0], COUNT, blocks as u16 - 1);
            }
            FormFault::FirstKind => self.blocks[0][KIND] = random.pick(&[0, 2, 3, 255]),
            FormFault::LaterKind if random.percent(80) => self.blocks[any][KIND] = KIND_RIGHT,
            FormFault::LaterKind => self.blocks[any][KIND] = random.pick(&[0, 1, 3, 255]),
            FormFault::Count => {
                let count = u16_at(&self.blocks[0], COUNT);
                let wrong = random.pick(&[count.wrapping_add(1), count.wrapping_sub(1), 0, 201, count | 256]);
                put_u16(&mut self.blocks[0], COUNT, if wrong == count { count + 1 } else { wrong });
            }
            FormFault::SenderBytes6To7 => self.blocks[0][random.between(6, 7)] = some,
            FormFault::SenderBytes64To107 => {
                let at = if random.percent(40) { random.pick(&[64, 71, 72, 107]) } else { random.between(64, 107) };
                self.blocks[0][at] = some;
            }
            FormFault::SenderNets => {
                let at = if random.percent(40) { random.pick(&[108, 507]) } else { random.between(108, 507) };
                self.blocks[0][at] = some;
            }
            FormFault::SeriesSenderSlot => self.blocks[any][SENDER_SLOT + random.below(2)] = some,
            FormFault::SeriesMark => self.blocks[any][MARK + random.below(4)] = some,
            FormFault::SeriesN => {
                let n = self.blocks[any][N];
                let other = random.pick(&[92, 96, 100, 0]);
                self.blocks[any][N] = if other == n { n.wrapping_add(1) } else { other };
            }
            FormFault::PartOfBlock | FormFault::TooShort | FormFault::Check => {}
        }
    }
}

/// The faults that are made on the sealed bytes.
fn spoil_bytes(random: &mut Random, message: &mut Vec<u8>, fault: FormFault) {
    match fault {
        FormFault::PartOfBlock => {
            let cut = random.between(1, BLOCK_BYTES - 1).min(message.len());
            message.truncate(message.len() - cut);
        }
        FormFault::TooShort => message.truncate(BLOCK_BYTES * random.below(2)),
        FormFault::Check if !message.is_empty() => {
            let at = random.below(message.len());
            message[at] = message[at].wrapping_add(random.between(1, 255) as u8);
        }
        _ => {}
    }
}

#[cfg(test)]
mod tests {
    use super::*;
    use crate::message::{broken_clauses, MessageClause};

    #[test]
    fn a_form_fault_breaks_its_own_clause_alone() {
        let mut random = Random::new(11);
        let partners: Vec<Field> = (0..6).map(|_| names::valid_eic(&mut random)).collect();
        let mut book = vec![0; 20 * BLOCK_BYTES];
        let (area, receiver) = (names::valid_eic(&mut random), names::valid_eic(&mut random));
        assert_eq!(crate::day::open(&mut book, 96, 45, b"20190131", &area, &receiver), (0, 0));
        for _ in 0..300 {
            for (&fault, &clause) in FormFault::ALL.iter().zip(MessageClause::ALL) {
                let growth =
                    Growth { new: New::UpTo(4), changed: 50, side: None, external: 30, version: Version::Lawful };
                let draft = Draft::lawful(&mut random, &book, partners[0], &partners, &growth);
                let message = draft.finished(&mut random, &[fault]);
                assert_eq!(broken_clauses(&message), clause.bit(), "{fault:?}");
            }
        }
    }
}
