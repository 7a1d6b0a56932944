//! Books that break one clause of soundness and no other, in one of several ways.
//!
//! A clause with two sides (a version may be 0 or above 999) is broken on each side by a way of its
//! own. All checks are right unless the clause is the check, so nothing but the clause itself can
//! tell that the book is not sound.

use crate::block::*;
use crate::clause::cases;
use crate::counts::{LATEST_MINUTE, LONGEST_LEAD};
use crate::crafted::{filing, lawful_mark, put_right, sealed, slots_of};
use crate::external::{self, foreign_area, put_areas, put_limits, turn_round, RightFault};
use crate::names;
use crate::random::Random;
use crate::sound::{SoundClause, MOST_BLOCKS};

cases! {
    /// Ways to break a sound book, in the order of the clauses. More than 1,001 blocks are not among
    /// them: the buffer of a stream holds no more.
    Breach {
        PartOfBlock "length: part of a block",
        NoBlock "length: no block at all",
        OneBlock "length: the day block alone",
        CheckOfDay "check of the day block",
        CheckOfSender "check of a sender block",
        CheckOfSeries "check of a series block",
        CheckOfRight "check of a right",
        CheckOfFree "check bytes in a free slot",
        DayKind "day block: kind",
        NBelow "day block: n below 92",
        NBetween "day block: n between 92 and 100",
        NAbove "day block: n above 100",
        Lead "day block: lead above 1,440",
        Clock "day block: clock above 1,500",
        RuleNext "day block: byte 6 is 2",
        RuleBeyond "day block: byte 6 above 2",
        DayByte7 "day block: byte 7",
        DayBytes16To23 "day block: bytes 16-23",
        DayBytes56To507 "day block: bytes 56-507",
        DayDigits "day block: day not eight digits",
        Area "day block: area not an EIC",
        AreaHyphen "day block: area ends in a hyphen",
        Receiver "day block: receiver not an EIC",
        ReceiverHyphen "day block: receiver ends in a hyphen",
        FreeBeforeUsed "a free slot before a used one",
        KindZero "a used slot of kind 0",
        KindDay "a second day block",
        KindUnknown "a used slot of no kind",
        SenderVersionZero "sender: version 0",
        SenderVersionAbove "sender: version above 999",
        CountZero "sender: no series, count 0",
        CountAbove "sender: more than 200 series, count right",
        NetAbove "sender: net above 1,999,999,800",
        NetBelow "sender: net below -1,999,999,800",
        NetAboveN "sender: net at a position above n",
        SeriesVersionZero "series: version 0",
        SeriesVersionAbove "series: version above 999",
        QuantityTooHigh "series: quantity above 9,999,999",
        QuantityTopBit "series: quantity with its top bit set",
        QuantityAboveN "series: quantity at a position above n",
        MessageId "sender: message id malformed",
        SeriesId "series: id malformed",
        SenderBytes6To7 "sender: bytes 6-7",
        SenderBytes64To107 "sender: bytes 64-107",
        SenderN "sender: n",
        SeriesN "series: n",
        SenderDay "sender: day",
        InArea "internal series: in area",
        OutArea "internal series: out area",
        BothOurs "external series: both areas ours",
        NoneOurs "external series: no area ours",
        ExternalInArea "external series: in area not an EIC",
        ExternalOutArea "external series: out area not an EIC",
        SenderReceiver "sender: receiver",
        ContractType "internal series: contract type",
        Agreement "internal series: capacity agreement",
        NoCapacityContract "A06: contract type",
        NoCapacityAgreement "A06: capacity agreement",
        CapacityContractZero "A03: contract type 0",
        CapacityContractAbove "A03: contract type above 99",
        CapacityAgreement "A03: capacity agreement malformed",
        BusinessType "series: business type",
        SenderEic "sender: not an EIC, in its series neither",
        SenderHyphen "sender: ends in a hyphen, in its series too",
        SenderTwice "two senders with one EIC",
        SenderSlotZero "series: sender's slot 0",
        SenderSlotOfSeries "series: sender's slot is a series'",
        SenderSlotOfRight "series: sender's slot is a right's",
        SenderSlotFree "series: sender's slot is free",
        SenderSlotBeyond "series: sender's slot beyond the book",
        PartiesEqual "internal series: both parties equal",
        InParty "series: in party not an EIC",
        InPartyHyphen "series: in party ends in a hyphen",
        OutParty "series: out party not an EIC",
        OutPartyHyphen "series: out party ends in a hyphen",
        ExternalInParty "external series: in party not an EIC",
        ExternalOutParty "external series: out party not an EIC",
        NeitherSender "internal series: neither party is its sender",
        ExternalNeither "external series: neither party is its sender",
        SeriesIdTwice "a sender's series id twice",
        KeyTwice "a sender's key twice, internal",
        ExternalKeyTwice "a sender's key twice, external",
        CountTooHigh "sender: count higher than that of its series",
        CountTooLow "sender: count lower than that of its series",
        DifferNextToN "series: byte 104 is n + 1",
        DifferBeyond "series: byte 104 above n + 1",
        First "series: first above n",
        PartnerSender "series: partner is a sender's slot",
        PartnerRight "series: partner is a right's slot",
        PartnerFree "series: partner is a free slot",
        PartnerBeyond "series: partner beyond the book",
        RightN "right: n",
        RightVersion "right: version",
        RightType "right: business type",
        RightContractZero "right: contract type 0",
        RightContractAbove "right: contract type above 99",
        RightSlot "right: bytes 6-7",
        RightId "right: id",
        RightBothOurs "right: both areas ours",
        RightNoneOurs "right: no area ours",
        RightInArea "right: in area not an EIC",
        RightOutArea "right: out area not an EIC",
        RightParties "right: two parties",
        RightHolder "right: holder not an EIC",
        RightAgreement "right: capacity agreement malformed",
        RightMark "right: mark",
        LimitTooHigh "right: limit above 9,999,999",
        LimitTopBit "right: limit with its top bit set",
        LimitAboveN "right: limit at a position above n",
        RightTwice "two rights alike but for their limits",
    }
}

impl Breach {
    /// The clause that the way breaks.
    pub fn clause(self) -> SoundClause {
        use SoundClause as Clause;
        match self {
            Breach::PartOfBlock => Clause::WholeBlocks,
            Breach::NoBlock | Breach::OneBlock => Clause::BlockCount,
            Breach::CheckOfDay | Breach::CheckOfSender | Breach::CheckOfSeries => Clause::Check,
            Breach::CheckOfRight | Breach::CheckOfFree => Clause::Check,
            Breach::DayKind => Clause::DayKind,
            Breach::NBelow | Breach::NBetween | Breach::NAbove => Clause::DayN,
            Breach::Lead => Clause::DayLead,
            Breach::Clock => Clause::DayClock,
            Breach::RuleNext | Breach::RuleBeyond => Clause::DayRule,
            Breach::DayByte7 | Breach::DayBytes16To23 | Breach::DayBytes56To507 => Clause::DayZeroBytes,
            Breach::DayDigits => Clause::DayDigits,
            Breach::Area | Breach::AreaHyphen => Clause::DayArea,
            Breach::Receiver | Breach::ReceiverHyphen => Clause::DayReceiver,
            Breach::FreeBeforeUsed => Clause::FreeBeforeUsed,
            Breach::KindZero | Breach::KindDay | Breach::KindUnknown => Clause::Kind,
            Breach::SenderVersionZero | Breach::SenderVersionAbove => Clause::SenderVersion,
            Breach::CountZero | Breach::CountAbove => Clause::SenderCount,
            Breach::NetAbove | Breach::NetBelow => Clause::NetRange,
            Breach::NetAboveN => Clause::NetAboveN,
            Breach::SeriesVersionZero | Breach::SeriesVersionAbove => Clause::SeriesVersion,
            Breach::QuantityTooHigh | Breach::QuantityTopBit => Clause::QuantityRange,
            Breach::QuantityAboveN => Clause::QuantityAboveN,
            Breach::MessageId => Clause::MessageId,
            Breach::SeriesId => Clause::SeriesId,
            Breach::SenderBytes6To7 | Breach::SenderBytes64To107 => Clause::SenderZeroBytes,
            Breach::SenderN => Clause::SenderN,
            Breach::SeriesN => Clause::SeriesN,
            Breach::SenderDay => Clause::SenderDay,
            Breach::InArea => Clause::InArea,
            Breach::OutArea => Clause::OutArea,
            Breach::BothOurs => Clause::BothOurs,
            Breach::NoneOurs => Clause::NoneOurs,
            Breach::ExternalInArea | Breach::ExternalOutArea => Clause::OtherArea,
            Breach::SenderReceiver => Clause::SenderReceiver,
            Breach::ContractType | Breach::NoCapacityContract => Clause::ContractType,
            Breach::Agreement | Breach::NoCapacityAgreement => Clause::Agreement,
            Breach::CapacityContractZero | Breach::CapacityContractAbove => Clause::CapacityContract,
            Breach::CapacityAgreement => Clause::CapacityAgreement,
            Breach::BusinessType => Clause::BusinessType,
            Breach::SenderEic | Breach::SenderHyphen => Clause::SenderEic,
            Breach::SenderTwice => Clause::SenderTwice,
            Breach::SenderSlotZero | Breach::SenderSlotOfSeries | Breach::SenderSlotOfRight => Clause::SenderSlot,
            Breach::SenderSlotFree | Breach::SenderSlotBeyond => Clause::SenderSlot,
            Breach::PartiesEqual => Clause::PartiesEqual,
            Breach::InParty | Breach::InPartyHyphen | Breach::ExternalInParty => Clause::InParty,
            Breach::OutParty | Breach::OutPartyHyphen | Breach::ExternalOutParty => Clause::OutParty,
            Breach::NeitherSender | Breach::ExternalNeither => Clause::NeitherSender,
            Breach::SeriesIdTwice => Clause::SeriesIdTwice,
            Breach::KeyTwice | Breach::ExternalKeyTwice => Clause::KeyTwice,
            Breach::CountTooHigh | Breach::CountTooLow => Clause::CountWrong,
            Breach::DifferNextToN | Breach::DifferBeyond => Clause::Byte104,
            Breach::First => Clause::First,
            Breach::PartnerSender | Breach::PartnerRight => Clause::Partner,
            Breach::PartnerFree | Breach::PartnerBeyond => Clause::Partner,
            Breach::RightN => Clause::RightN,
            Breach::RightVersion => Clause::RightVersion,
            Breach::RightType => Clause::RightType,
            Breach::RightContractZero | Breach::RightContractAbove => Clause::RightContract,
            Breach::RightSlot => Clause::RightSlot,
            Breach::RightId => Clause::RightId,
            Breach::RightBothOurs => Clause::RightBothOurs,
            Breach::RightNoneOurs => Clause::RightNoneOurs,
            Breach::RightInArea | Breach::RightOutArea => Clause::RightOtherArea,
            Breach::RightParties => Clause::RightParties,
            Breach::RightHolder => Clause::RightHolder,
            Breach::RightAgreement => Clause::RightAgreement,
            Breach::RightMark => Clause::RightMark,
            Breach::LimitTooHigh | Breach::LimitTopBit => Clause::LimitRange,
            Breach::LimitAboveN => Clause::LimitAboveN,
            Breach::RightTwice => Clause::RightTwice,
        }
    }

    /// The fault of a right that makes the breach, if one does.
    fn right_fault(self) -> Option<RightFault> {
        Some(match self {
            Breach::RightN => RightFault::N,
            Breach::RightVersion => RightFault::Version,
            Breach::RightType => RightFault::BusinessType,
            Breach::RightContractZero => RightFault::ContractZero,
            Breach::RightContractAbove => RightFault::ContractAbove,
            Breach::RightSlot => RightFault::SenderSlot,
            Breach::RightId => RightFault::Id,
            Breach::RightBothOurs => RightFault::BothOurs,
            Breach::RightNoneOurs => RightFault::NoneOurs,
            Breach::RightInArea => RightFault::InArea,
            Breach::RightOutArea => RightFault::OutArea,
            Breach::RightParties => RightFault::Parties,
            Breach::RightHolder => RightFault::Holder,
            Breach::RightAgreement => RightFault::Agreement,
            Breach::RightMark => RightFault::Mark,
            Breach::LimitTooHigh => RightFault::LimitTooHigh,
            Breach::LimitTopBit => RightFault::LimitTopBit,
            Breach::LimitAboveN => RightFault::LimitAboveN,
            _ => return None,
        })
    }

    /// The clauses that must be broken along with it. A sender's EIC is always a party of its series,
    /// so it cannot be spoilt without them; every other way breaks its own clause alone.
    pub fn companions(self) -> u128 {
        match self {
            Breach::SenderEic | Breach::SenderHyphen => SoundClause::InParty.bit() | SoundClause::OutParty.bit(),
            _ => 0,
        }
    }
}

/// From a sound book one that is broken in this way. Where the book has too little for it, senders
/// and series are added first. Nothing if there is no room for them, or no position above n. What is added
/// has states that the old layout takes, so an old book stays one but for the breach.
pub fn break_book(random: &mut Random, book: &[u8], breach: Breach) -> Option<Vec<u8>> {
    let mut pieces = Pieces::of(random, book)?;
    match breach {
        Breach::PartOfBlock => {
            let keep = book.len() - random.between(1, BLOCK_BYTES - 1);
            Some(book[..keep].to_vec())
        }
        Breach::NoBlock => Some(Vec::new()),
        Breach::OneBlock => Some(book[..BLOCK_BYTES].to_vec()),
        Breach::CheckOfDay => Some(pieces.wrong_check(random, 0)),
        Breach::CheckOfSender => Some(pieces.wrong_check(random, pieces.owner)),
        Breach::CheckOfSeries => Some(pieces.wrong_check(random, pieces.one)),
        Breach::CheckOfRight => {
            let right = pieces.right(random)?;
            Some(pieces.wrong_check(random, right))
        }
        Breach::CheckOfFree => Some(pieces.wrong_check(random, pieces.free)),
        _ => {
            pieces.break_day(random, breach)?;
            Some(sealed(pieces.list))
        }
    }
}

/// A sound book in pieces, with the slots that a breach may need: a sender that has two internal trades at
/// least, two of these, another sender, and the lowest free slot.
struct Pieces {
    list: Vec<Block>,
    n: usize,
    owner: usize,
    one: usize,
    twin: usize,
    other: usize,
    free: usize,
}

impl Pieces {
    fn of(random: &mut Random, book: &[u8]) -> Option<Self> {
        let list: Vec<Block> = blocks(book).copied().collect();
        let (n, free) = (usize::from(list[0][N]), list.iter().filter(|block| block[KIND] != 0).count());
        let mut pieces = Pieces { list, n, owner: 0, one: 0, twin: 0, other: 0, free };
        for _ in 0..2 {
            if pieces.choose(random) {
                return pieces.ensure_free(1).then_some(pieces);
            }
            let eic = names::valid_eic(random);
            pieces.add_sender(random, &eic, 2)?;
        }
        pieces.choose(random).then_some(pieces).filter(|pieces| pieces.free < pieces.list.len())
    }

    /// Chooses the slots; tells whether the book has them.
    fn choose(&mut self, random: &mut Random) -> bool {
        let mut senders = slots_of(&self.list, KIND_SENDER);
        random.shuffle(&mut senders);
        let owner = senders.iter().copied().find(|&slot| self.trades_of(slot).len() > 1);
        let other = senders.iter().copied().find(|&slot| Some(slot) != owner);
        match (owner, other) {
            (Some(owner), Some(other)) => {
                let mut series = self.trades_of(owner);
                random.shuffle(&mut series);
                (self.owner, self.other, self.one, self.twin) = (owner, other, series[0], series[1]);
                true
            }
            _ => false,
        }
    }

    fn series_of(&self, sender: usize) -> Vec<usize> {
        let mut slots = slots_of(&self.list, KIND_SERIES);
        slots.retain(|&slot| usize::from(u16_at(&self.list[slot], SENDER_SLOT)) == sender);
        slots
    }

    fn trades_of(&self, sender: usize) -> Vec<usize> {
        let mut slots = self.series_of(sender);
        slots.retain(|&slot| is_internal(&self.list[slot]));
        slots
    }

    /// The slot of a right; one is added if need be.
    fn right(&mut self, random: &mut Random) -> Option<usize> {
        let slots = slots_of(&self.list, KIND_RIGHT);
        if !slots.is_empty() {
            return Some(random.pick(&slots));
        }
        let holder = if random.percent(50) { field(&self.list[self.owner], SENDER) } else { names::valid_eic(random) };
        let right = external::right(random, &self.list[0], &holder, &[]);
        self.add(right)
    }

    /// The slot of an external schedule of this type; one is added if need be.
    fn external(&mut self, random: &mut Random, business_type: u8) -> Option<usize> {
        let mut slots = slots_of(&self.list, KIND_SERIES);
        slots.retain(|&slot| self.list[slot][BUSINESS_TYPE] == business_type);
        if !slots.is_empty() {
            return Some(random.pick(&slots));
        }
        let area = field(&self.list[0], AREA);
        let mut series = self.list[self.one];
        if business_type == WITH_CAPACITY {
            let right = external::right(random, &self.list[0], &area, &[]);
            put_right(&mut series, &right);
        } else {
            series[BUSINESS_TYPE] = business_type;
            let other = foreign_area(random, &area, &[]);
            put_areas(random, &mut series, &area, &other);
        }
        self.add_to_owner(random, series)
    }

    /// A series more of the sender that owns this one, under another id. Nothing if it has 200.
    fn add_to_owner(&mut self, random: &mut Random, mut series: Block) -> Option<usize> {
        let owner = usize::from(u16_at(&series, SENDER_SLOT));
        let count = u16_at(&self.list[owner], COUNT);
        let taken: Vec<Field> = self.series_of(owner).iter().map(|&slot| field(&self.list[slot], ID)).collect();
        let id = (0..50).map(|_| names::id(random)).find(|id| !taken.contains(id))?;
        put_field(&mut series, ID, &id);
        if count == MOST_SERIES {
            return None;
        }
        put_u16(&mut self.list[owner], COUNT, count + 1);
        self.add(series)
    }

    /// A block more, in the lowest free slot; a free slot follows it.
    fn add(&mut self, block: Block) -> Option<usize> {
        if !self.ensure_free(2) {
            return None;
        }
        self.list[self.free] = block;
        self.free += 1;
        Some(self.free - 1)
    }

    /// Some external schedule.
    fn any_external(&mut self, random: &mut Random) -> Option<usize> {
        let business_type = random.pick(&[WITH_CAPACITY, WITHOUT_CAPACITY]);
        self.external(random, business_type)
    }

    /// Lengthens the book, if need be, so that it has so many free slots; tells whether it may.
    fn ensure_free(&mut self, number: usize) -> bool {
        let wanted = self.list.len().max(self.free + number);
        if wanted <= MOST_BLOCKS {
            self.list.resize(wanted, [0; BLOCK_BYTES]);
        }
        wanted <= MOST_BLOCKS
    }

    /// A sender with so many series, behind all used slots, and a free slot behind it. Its slot.
    fn add_sender(&mut self, random: &mut Random, eic: &Field, count: usize) -> Option<usize> {
        let partners: Vec<Field> = (0..count / 2 + 1).map(|_| names::valid_eic(random)).collect();
        let filed = filing(random, &self.list[0], eic, &partners, count);
        if !self.ensure_free(filed.len() + 1) {
            return None;
        }
        let slot = self.free;
        let series_slots: Vec<u16> = (1..=count).map(|number| (slot + number) as u16).collect();
        for mut block in filed {
            if block[KIND] == KIND_SERIES {
                put_u16(&mut block, SENDER_SLOT, slot as u16);
                let mark = lawful_mark(random, self.n, &series_slots);
                put_mark(&mut block, Mark { differ: random.between(1, 3) as u8, ..mark });
            }
            self.list[self.free] = block;
            self.free += 1;
        }
        Some(slot)
    }

    /// The book with one of the four check bytes of a block changed.
    fn wrong_check(&self, random: &mut Random, place: usize) -> Vec<u8> {
        let mut bytes = sealed(self.list.clone());
        let at = place * BLOCK_BYTES + random.between(CHECK, BLOCK_BYTES - 1);
        bytes[at] = other_byte(random, bytes[at]);
        bytes
    }

    fn break_day(&mut self, random: &mut Random, breach: Breach) -> Option<()> {
        let day = &mut self.list[0];
        match breach {
            Breach::DayKind => day[KIND] = random.pick(&[0, KIND_SENDER, KIND_SERIES, 4, 255]),
            Breach::NBelow => self.set_n(mostly(random, 91, &[0, 1, 24])),
            Breach::NBetween => self.set_n(random.pick(&[93, 94, 95, 97, 98, 99])),
            Breach::NAbove => self.set_n(mostly(random, 101, &[104, 128, 255])),
            Breach::Lead => put_u16(day, LEAD, mostly(random, LONGEST_LEAD + 1, &[4_096, 65_535])),
            Breach::Clock => put_u16(day, CLOCK, mostly(random, LATEST_MINUTE + 1, &[32_768, 65_535])),
            Breach::RuleNext => day[RULE] = LESSER_RULE + 1,
            Breach::RuleBeyond => day[RULE] = mostly(random, 255, &[3, 128, 254]),
            Breach::DayByte7 => day[7] = mostly(random, 1, &[2, 255]),
            Breach::DayBytes16To23 => day[random.between(16, 23)] = other_byte(random, 0),
            Breach::DayBytes56To507 => {
                let at = if random.percent(50) { random.pick(&[56, 107, 108, 507]) } else { random.between(56, 507) };
                day[at] = other_byte(random, 0);
            }
            Breach::DayDigits => self.set_digit(random.below(DAY_DIGITS), random.pick(b"/:A \0\xff")),
            Breach::Area => self.set_area(&names::invalid_eic(random)),
            Breach::AreaHyphen => self.set_area(&names::hyphen_eic(random)),
            Breach::Receiver => self.set_receiver(&names::invalid_eic(random)),
            Breach::ReceiverHyphen => self.set_receiver(&names::hyphen_eic(random)),
            _ => return self.break_slots(random, breach),
        }
        Some(())
    }

    /// Breaches in which slots come to be used, or stand elsewhere.
    fn break_slots(&mut self, random: &mut Random, breach: Breach) -> Option<()> {
        let eic = names::valid_eic(random);
        match breach {
            Breach::FreeBeforeUsed => self.insert_free(random.between(1, self.free - 1)),
            Breach::KindZero => self.list[self.free][random.between(1, CHECK - 1)] = other_byte(random, 0),
            Breach::KindDay => self.list[self.free] = self.list[0],
            Breach::KindUnknown => {
                self.list[self.free] = self.list[random.pick(&[self.one, self.other])];
                self.list[self.free][KIND] = random.pick(&[5, 5, 6, 128, 255]);
            }
            Breach::CountZero => {
                self.add_sender(random, &eic, 0)?;
            }
            Breach::CountAbove => {
                let count = mostly(random, usize::from(MOST_SERIES) + 1, &[202, 257]);
                self.add_sender(random, &eic, count)?;
            }
            Breach::SenderTwice => {
                let taken = field(&self.list[random.pick(&[self.owner, self.other])], SENDER);
                let count = random.between(1, 3);
                self.add_sender(random, &taken, count)?;
            }
            _ => return self.break_sender(random, breach),
        }
        Some(())
    }

    fn break_sender(&mut self, random: &mut Random, breach: Breach) -> Option<()> {
        let any_value = VALUES + 4 * random.below(self.n);
        let above_n = self.value_above_n(random);
        let n = self.n;
        let sender = &mut self.list[self.owner];
        let count = u16_at(sender, COUNT);
        match breach {
            Breach::SenderVersionZero => put_u16(sender, VERSION, 0),
            Breach::SenderVersionAbove => put_u16(sender, VERSION, unlawful_version(random)),
            Breach::NetAbove => put_u32(sender, any_value, mostly(random, HIGHEST_NET + 1, &[i32::MAX]) as u32),
            Breach::NetBelow => put_u32(sender, any_value, mostly(random, -HIGHEST_NET - 1, &[i32::MIN]) as u32),
            Breach::NetAboveN => put_u32(sender, above_n?, some_value(random)),
            Breach::MessageId => put_field(sender, ID, &names::malformed_id(random)),
            Breach::SenderBytes6To7 => sender[random.between(6, 7)] = other_byte(random, 0),
            Breach::SenderBytes64To107 => {
                let at = if random.percent(40) { random.pick(&[64, 71, 72, 107]) } else { random.between(64, 107) };
                sender[at] = other_byte(random, 0);
            }
            Breach::SenderN => sender[N] = other_n(random, n),
            Breach::SenderDay => {
                let at = DAY_IN_SENDER + random.below(DAY_DIGITS);
                sender[at] = b'0' + (sender[at] - b'0' + random.between(1, 9) as u8) % 10;
            }
            Breach::SenderReceiver => put_field(sender, RECEIVER, &names::valid_eic(random)),
            // A count beyond 200 would break its range as well.
            Breach::CountTooHigh if count == MOST_SERIES => return None,
            Breach::CountTooHigh => put_u16(sender, COUNT, count + 1),
            Breach::CountTooLow => put_u16(sender, COUNT, count - 1),
            Breach::SenderEic => self.set_sender(&names::invalid_eic(random)),
            Breach::SenderHyphen => self.set_sender(&names::hyphen_eic(random)),
            _ => return self.break_series(random, breach),
        }
        Some(())
    }

    fn break_series(&mut self, random: &mut Random, breach: Breach) -> Option<()> {
        let any_value = VALUES + 4 * random.below(self.n);
        let above_n = self.value_above_n(random);
        let n = self.n;
        let series = &mut self.list[self.one];
        match breach {
            Breach::SeriesVersionZero => put_u16(series, VERSION, 0),
            Breach::SeriesVersionAbove => put_u16(series, VERSION, unlawful_version(random)),
            Breach::QuantityTooHigh => {
                let value = mostly(random, HIGHEST_QUANTITY + 1, &[i32::MAX as u32, 1 << 24]);
                put_u32(series, any_value, value);
            }
            Breach::QuantityTopBit => put_u32(series, any_value, random.pick(&[1 << 31, u32::MAX, (1 << 31) + 5])),
            Breach::QuantityAboveN => put_u32(series, above_n?, some_value(random)),
            Breach::SeriesId => put_field(series, ID, &names::malformed_id(random)),
            Breach::SeriesN => series[N] = other_n(random, n),
            Breach::InArea => put_field(series, IN_AREA, &names::valid_eic(random)),
            Breach::OutArea => put_field(series, OUT_AREA, &names::valid_eic(random)),
            Breach::ContractType => series[CONTRACT_TYPE] = other_byte(random, 0),
            Breach::Agreement => series[AGREEMENT + random.below(16)] = other_byte(random, 0),
            Breach::BusinessType => series[BUSINESS_TYPE] = random.pick(&[0, 1, 4, 5, 7, 128, 255]),
            Breach::DifferNextToN => series[DIFFER] = n as u8 + 1,
            // Where n is lower, 100 is above it too.
            Breach::DifferBeyond => series[DIFFER] = random.pick(&[255, 255, 128, 100.max(n as u8 + 2)]),
            Breach::First => series[FIRST] = mostly(random, n as u8 + 1, &[128, 255]),
            _ => return self.break_between(random, breach),
        }
        Some(())
    }

    /// Breaches that set several blocks beside each other.
    fn break_between(&mut self, random: &mut Random, breach: Breach) -> Option<()> {
        match breach {
            Breach::SenderSlotZero => self.orphan(0),
            Breach::SenderSlotOfSeries => self.orphan(random.pick(&[self.one, self.twin])),
            Breach::SenderSlotOfRight => {
                let right = self.right(random)?;
                self.orphan(right);
            }
            Breach::SenderSlotFree => self.orphan(self.free),
            Breach::SenderSlotBeyond => self.orphan(self.beyond(random, self.owner)),
            Breach::PartnerSender => self.set_partner(random.pick(&[self.owner, self.other])),
            Breach::PartnerRight => {
                let right = self.right(random)?;
                self.set_partner(right);
            }
            Breach::PartnerFree => self.set_partner(self.free),
            Breach::PartnerBeyond => self.set_partner(self.beyond(random, self.twin)),
            Breach::PartiesEqual => {
                let eic = field(&self.list[self.owner], SENDER);
                put_field(&mut self.list[self.one], IN_PARTY, &eic);
                put_field(&mut self.list[self.one], OUT_PARTY, &eic);
            }
            Breach::InParty => self.set_other_party(IN_PARTY, &names::invalid_eic(random))?,
            Breach::InPartyHyphen => self.set_other_party(IN_PARTY, &names::hyphen_eic(random))?,
            Breach::OutParty => self.set_other_party(OUT_PARTY, &names::invalid_eic(random))?,
            Breach::OutPartyHyphen => self.set_other_party(OUT_PARTY, &names::hyphen_eic(random))?,
            Breach::NeitherSender => {
                let at = self.party_that_is_sender(self.one);
                put_field(&mut self.list[self.one], at, &names::valid_eic(random));
            }
            Breach::SeriesIdTwice => self.copy_from_twin(ID..ID + 16),
            Breach::KeyTwice => self.copy_from_twin(IN_PARTY..OUT_PARTY + 16),
            _ => return self.break_external(random, breach),
        }
        Some(())
    }

    /// Breaches of external schedules.
    fn break_external(&mut self, random: &mut Random, breach: Breach) -> Option<()> {
        let area = field(&self.list[0], AREA);
        let slot = match breach {
            Breach::NoCapacityContract | Breach::NoCapacityAgreement => self.external(random, WITHOUT_CAPACITY)?,
            Breach::CapacityContractZero | Breach::CapacityContractAbove | Breach::CapacityAgreement => {
                self.external(random, WITH_CAPACITY)?
            }
            Breach::ExternalKeyTwice | Breach::BothOurs | Breach::NoneOurs => self.any_external(random)?,
            Breach::ExternalInArea | Breach::ExternalOutArea => self.any_external(random)?,
            Breach::ExternalInParty | Breach::ExternalOutParty => self.any_external(random)?,
            Breach::ExternalNeither => self.any_external(random)?,
            _ => return self.break_right(random, breach),
        };
        let sender = field(&self.list[usize::from(u16_at(&self.list[slot], SENDER_SLOT))], SENDER);
        let copy = self.list[slot];
        let series = &mut self.list[slot];
        match breach {
            Breach::NoCapacityContract => series[CONTRACT_TYPE] = mostly(random, 1, &[99, 100, 255]),
            Breach::NoCapacityAgreement if random.percent(50) => put_field(series, AGREEMENT, &names::id(random)),
            Breach::NoCapacityAgreement => series[AGREEMENT + random.below(16)] = other_byte(random, 0),
            Breach::CapacityContractZero => series[CONTRACT_TYPE] = 0,
            Breach::CapacityContractAbove => series[CONTRACT_TYPE] = mostly(random, 100, &[128, 255]),
            Breach::CapacityAgreement => put_field(series, AGREEMENT, &names::malformed_id(random)),
            Breach::BothOurs => {
                put_field(series, IN_AREA, &area);
                put_field(series, OUT_AREA, &area);
            }
            Breach::NoneOurs => {
                let at = if field(series, IN_AREA) == area { IN_AREA } else { OUT_AREA };
                put_field(series, at, &names::valid_eic(random));
            }
            Breach::ExternalInArea | Breach::ExternalOutArea => {
                if (field(series, OUT_AREA) == area) != (breach == Breach::ExternalInArea) {
                    turn_round(series);
                }
                let at = if breach == Breach::ExternalInArea { IN_AREA } else { OUT_AREA };
                put_field(series, at, &names::invalid_eic(random));
            }
            Breach::ExternalInParty => {
                put_field(series, IN_PARTY, &names::invalid_eic(random));
                put_field(series, OUT_PARTY, &sender);
            }
            Breach::ExternalOutParty => {
                put_field(series, IN_PARTY, &sender);
                put_field(series, OUT_PARTY, &names::invalid_eic(random));
            }
            Breach::ExternalNeither => {
                let party = names::valid_eic(random);
                let other = if random.percent(50) { names::valid_eic(random) } else { party };
                put_field(series, IN_PARTY, &party);
                put_field(series, OUT_PARTY, &other);
            }
            _ => {
                self.add_to_owner(random, copy)?;
            }
        }
        Some(())
    }

    /// Breaches of rights.
    fn break_right(&mut self, random: &mut Random, breach: Breach) -> Option<()> {
        let (slot, day) = (self.right(random)?, self.list[0]);
        if let Some(fault) = breach.right_fault() {
            let fault =
                if fault == RightFault::Agreement && random.percent(30) { RightFault::NoAgreement } else { fault };
            return fault.spoil(random, &mut self.list[slot], &day);
        }
        let mut twin = self.list[slot];
        if random.percent(75) {
            put_limits(random, &mut twin);
        }
        self.add(twin).map(|_| ())
    }

    /// An unlawful n in every block; nothing stands above it.
    fn set_n(&mut self, n: u8) {
        for block in self.list.iter_mut().take(self.free) {
            block[N] = n;
            if block[KIND] != KIND_DAY {
                let end = (VALUES + 4 * usize::from(n)).min(CHECK);
                block[end..CHECK].fill(0);
            }
            if block[KIND] == KIND_SERIES {
                block[DIFFER] = block[DIFFER].min(n);
                block[FIRST] = block[FIRST].min(n);
            }
        }
    }

    fn set_digit(&mut self, digit: usize, byte: u8) {
        self.list[0][DAY_IN_DAY_BLOCK + digit] = byte;
        for slot in slots_of(&self.list, KIND_SENDER) {
            self.list[slot][DAY_IN_SENDER + digit] = byte;
        }
    }

    fn set_area(&mut self, area: &Field) {
        let old = field(&self.list[0], AREA);
        put_field(&mut self.list[0], AREA, area);
        for slot in [slots_of(&self.list, KIND_SERIES), slots_of(&self.list, KIND_RIGHT)].concat() {
            self.replace(slot, &[IN_AREA, OUT_AREA], &old, area);
        }
    }

    /// Puts another code in a block, in each of these places where the old one stands.
    fn replace(&mut self, slot: usize, places: &[usize], old: &Field, new: &Field) {
        for &at in places.iter().filter(|&&at| field(&self.list[slot], at) == *old).collect::<Vec<_>>() {
            put_field(&mut self.list[slot], at, new);
        }
    }

    fn set_receiver(&mut self, receiver: &Field) {
        put_field(&mut self.list[0], RECEIVER, receiver);
        for slot in slots_of(&self.list, KIND_SENDER) {
            put_field(&mut self.list[slot], RECEIVER, receiver);
        }
    }

    /// Another code for the sender, in its block and wherever it is a party of its own series.
    fn set_sender(&mut self, eic: &Field) {
        let old = field(&self.list[self.owner], SENDER);
        for slot in self.series_of(self.owner) {
            self.replace(slot, &[IN_PARTY, OUT_PARTY], &old, eic);
        }
        put_field(&mut self.list[self.owner], SENDER, eic);
    }

    /// Which of a series' parties its sender is.
    fn party_that_is_sender(&self, slot: usize) -> usize {
        let owner = usize::from(u16_at(&self.list[slot], SENDER_SLOT));
        if field(&self.list[slot], IN_PARTY) == field(&self.list[owner], SENDER) {
            IN_PARTY
        } else {
            OUT_PARTY
        }
    }

    /// Another code for the in or out party of a series whose sender is the other party.
    fn set_other_party(&mut self, at: usize, eic: &Field) -> Option<()> {
        let mut slots = slots_of(&self.list, KIND_SERIES);
        slots.retain(|&slot| is_internal(&self.list[slot]));
        let slot = slots.into_iter().find(|&slot| self.party_that_is_sender(slot) != at)?;
        put_field(&mut self.list[slot], at, eic);
        Some(())
    }

    /// A free slot at this place; all blocks from there on move up, with all that names their slots.
    fn insert_free(&mut self, place: usize) {
        self.list.remove(self.free);
        self.list.insert(place, [0; BLOCK_BYTES]);
        for block in self.list.iter_mut().filter(|block| block[KIND] == KIND_SERIES) {
            for at in [SENDER_SLOT, PARTNER] {
                let slot = u16_at(block, at);
                put_u16(block, at, if usize::from(slot) >= place { slot + 1 } else { slot });
            }
        }
    }

    /// A series names this as its sender's slot. The sender that loses it counts one less.
    fn orphan(&mut self, slot: usize) {
        let count = u16_at(&self.list[self.owner], COUNT);
        put_u16(&mut self.list[self.owner], COUNT, count - 1);
        put_u16(&mut self.list[self.one], SENDER_SLOT, slot as u16);
    }

    fn set_partner(&mut self, slot: usize) {
        put_u16(&mut self.list[self.one], PARTNER, slot as u16);
    }

    /// A slot that the book has not: the first, the last, or one that shares its lower bits with this.
    fn beyond(&self, random: &mut Random, slot: usize) -> usize {
        let blocks = self.list.len();
        let alike = (1..).map(|times| slot + 256 * times).find(|&alike| alike >= blocks).unwrap_or(blocks);
        random.pick(&[blocks, 65_535, alike])
    }

    fn copy_from_twin(&mut self, bytes: std::ops::Range<usize>) {
        let copied = self.list[self.twin][bytes.clone()].to_vec();
        self.list[self.one][bytes].copy_from_slice(&copied);
    }

    /// Where a value at some position above n stands, if there is one.
    fn value_above_n(&self, random: &mut Random) -> Option<usize> {
        (self.n < POSITIONS).then(|| VALUES + 4 * random.between(self.n, POSITIONS - 1))
    }
}

/// The value just beyond a limit, mostly; sometimes one that is farther off.
fn mostly<T: Copy>(random: &mut Random, nearest: T, farther: &[T]) -> T {
    if random.percent(75) {
        nearest
    } else {
        random.pick(farther)
    }
}

/// A byte other than the one given.
fn other_byte(random: &mut Random, byte: u8) -> u8 {
    byte.wrapping_add(random.between(1, 255) as u8)
}

/// A version above 999.
fn unlawful_version(random: &mut Random) -> u16 {
    mostly(random, HIGHEST_VERSION + 1, &[1_024, 65_535])
}

/// A value other than 0.
fn some_value(random: &mut Random) -> u32 {
    random.pick(&[1, 1 << 31, 45_000, u32::MAX])
}

fn other_n(random: &mut Random, n: usize) -> u8 {
    let other = random.pick(&[92u8, 96, 100, 0, 255, 91]);
    if usize::from(other) == n {
        93
    } else {
        other
    }
}

#[cfg(test)]
mod tests {
    use super::*;
    use crate::crafted::{sound_book, Shape};
    use crate::old_book::{old_book, Falsehood};
    use crate::sound::{broken_clauses, is_sound, Layout};

    #[test]
    fn each_breach_breaks_its_clause_alone() {
        let mut random = Random::new(7);
        let pool: Vec<Field> = (0..260).map(|_| names::valid_eic(&mut random)).collect();
        let mut made = vec![0; Breach::ALL.len()];
        for round in 0..200 {
            let shape = if round % 50 == 0 {
                Shape {
                    senders: 3,
                    fewest_series: 150,
                    most_series: 200,
                    free_slots: round % 7,
                    rights: 4,
                    external: 20,
                }
            } else {
                Shape {
                    senders: round % 4,
                    fewest_series: 1,
                    most_series: 5,
                    free_slots: round % 3,
                    rights: round % 3,
                    external: 30,
                }
            };
            let book = sound_book(&mut random, &pool, &shape);
            assert!(is_sound(&book));
            let old = old_book(&mut random, &book, Falsehood::Nothing).unwrap_or_else(|| book.clone());
            for &breach in Breach::ALL {
                for (from, layouts) in [(&book, &[Layout::New][..]), (&old, &[Layout::New, Layout::Old])] {
                    if let Some(broken) = break_book(&mut random, from, breach) {
                        for &layout in layouts {
                            let set = broken_clauses(&broken, layout);
                            assert_eq!(SoundClause::first(set), Some(breach.clause()), "{}", breach.text());
                            assert_eq!(set & !breach.companions(), breach.clause().bit(), "{}", breach.text());
                        }
                        made[breach as usize] += 1;
                    }
                }
            }
        }
        for (breach, count) in Breach::ALL.iter().zip(made) {
            assert!(count > 200, "{}: {count}", breach.text());
        }
    }

    #[test]
    fn a_wrong_check_is_all_that_is_wrong() {
        let mut random = Random::new(8);
        let pool: Vec<Field> = (0..20).map(|_| names::valid_eic(&mut random)).collect();
        let shape = Shape { senders: 2, fewest_series: 1, most_series: 3, free_slots: 1, rights: 1, external: 30 };
        let book = sound_book(&mut random, &pool, &shape);
        for breach in Breach::ALL.iter().copied().filter(|breach| breach.clause() == SoundClause::Check) {
            let broken = break_book(&mut random, &book, breach).expect("the book is rich enough");
            assert!(!is_sound(&broken));
            assert!(is_sound(&sealed(blocks(&broken).copied().collect())), "{}", breach.text());
        }
    }
}
