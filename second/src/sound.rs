//! Whether a book is sound, and if not, by which clauses.

use crate::block::*;
use crate::clause::clauses;
use crate::counts::{Slot, LATEST_MINUTE, LONGEST_LEAD};
use crate::identifier::{is_valid_eic, is_well_formed_id};
use crate::right::{self, direction, is_contract_type, Direction, RightClause};

pub const FEWEST_BLOCKS: usize = 2;
pub const MOST_BLOCKS: usize = 1_001;
/// How many positions a day may have.
pub const NS: [u8; 3] = [92, 96, 100];

/// What byte 104 of a series holds.
#[derive(Clone, Copy, Debug, PartialEq, Eq)]
pub enum Layout {
    /// The state of document 01, 1 to 3. Only the conversion asks for it.
    Old,
    /// At how many positions the counterpart differs, 0 to n.
    New,
}

clauses! {
    /// The single conditions of a sound book, in the order of the paper's paragraph.
    SoundClause {
        WholeBlocks "length: not whole blocks",
        BlockCount "length: fewer than 2 or more than 1,001 blocks",
        Check "a check wrong",
        DayKind "day block: kind",
        DayN "day block: n",
        DayLead "day block: lead",
        DayClock "day block: clock",
        DayRule "day block: byte 6 names no rule",
        DayZeroBytes "day block: a byte that must be 0",
        DayDigits "day block: day not eight digits",
        DayArea "day block: area not an EIC",
        DayReceiver "day block: receiver not an EIC",
        FreeBeforeUsed "a free slot before a used one",
        Kind "used slot neither sender, series nor right",
        SenderVersion "sender: version out of range",
        SenderCount "sender: count out of range",
        NetRange "sender: net out of range",
        NetAboveN "sender: net above n",
        SeriesVersion "series: version out of range",
        QuantityRange "series: quantity out of range",
        QuantityAboveN "series: quantity above n",
        MessageId "sender: message id malformed",
        SeriesId "series: id malformed",
        SenderZeroBytes "sender: a byte that must be 0",
        SenderN "sender: n not the day block's",
        SeriesN "series: n not the day block's",
        SenderDay "sender: day not the day block's",
        InArea "internal series: in area not the day block's",
        OutArea "internal series: out area not the day block's",
        BothOurs "external series: both areas the day block's",
        NoneOurs "external series: no area the day block's",
        OtherArea "external series: the other area not an EIC",
        SenderReceiver "sender: receiver not the day block's",
        ContractType "series without capacity: contract type not 0",
        Agreement "series without capacity: capacity agreement not 0",
        CapacityContract "series with capacity: contract type not 1 to 99",
        CapacityAgreement "series with capacity: capacity agreement malformed",
        BusinessType "series: business type not 2, 3 or 6",
        SenderEic "sender: not an EIC",
        SenderTwice "two senders with one EIC",
        SenderSlot "series: names no sender's slot",
        PartiesEqual "internal series: both parties equal",
        InParty "series: in party not an EIC",
        OutParty "series: out party not an EIC",
        NeitherSender "series: neither party is its sender",
        SeriesIdTwice "a sender's series id twice",
        KeyTwice "a sender's key twice",
        CountWrong "sender: count is not that of its series",
        Byte104 "series: byte 104 out of range",
        First "series: first above n",
        Partner "series: partner neither 0 nor a series slot",
        RightN "right: n not the day block's",
        RightVersion "right: bytes 2-3 not 0",
        RightType "right: business type not 3",
        RightContract "right: contract type not 1 to 99",
        RightSlot "right: bytes 6-7 not 0",
        RightId "right: bytes 8-23 not 0",
        RightBothOurs "right: both areas the day block's",
        RightNoneOurs "right: no area the day block's",
        RightOtherArea "right: the other area not an EIC",
        RightParties "right: two parties",
        RightHolder "right: holder not an EIC",
        RightAgreement "right: capacity agreement malformed",
        RightMark "right: bytes 104-107 not 0",
        LimitRange "right: limit out of range",
        LimitAboveN "right: limit above n",
        RightTwice "two rights alike but for their limits",
    }
}

/// The first broken clause, if any.
pub fn first_broken(book: &[u8], layout: Layout) -> Option<SoundClause> {
    SoundClause::first(broken_clauses(book, layout))
}

pub fn is_sound(book: &[u8]) -> bool {
    broken_clauses(book, Layout::New) == 0
}

/// Whether the book was sound when byte 104 was a state. Since n is above 3, it is sound now too.
pub fn is_sound_in_old_layout(book: &[u8]) -> bool {
    broken_clauses(book, Layout::Old) == 0
}

/// Whether a book may have this many bytes.
pub fn length_is_right(bytes: usize) -> bool {
    bytes % BLOCK_BYTES == 0 && (FEWEST_BLOCKS..=MOST_BLOCKS).contains(&(bytes / BLOCK_BYTES))
}

/// Adds a clause to the set when its condition does not hold.
macro_rules! demand {
    ($broken:ident, $clause:ident, $holds:expr) => {
        if !$holds {
            $broken |= SoundClause::$clause.bit();
        }
    };
}

/// All broken clauses, as far as the book can be read at all: with a wrong length, a wrong check
/// or a day block without a lawful n nothing further is judged.
pub fn broken_clauses(book: &[u8], layout: Layout) -> u128 {
    if book.len() % BLOCK_BYTES != 0 {
        return SoundClause::WholeBlocks.bit();
    }
    if !length_is_right(book.len()) {
        return SoundClause::BlockCount.bit();
    }
    let count = book.len() / BLOCK_BYTES;
    let mut used: Vec<(Slot, &Block)> = Vec::with_capacity(count);
    let mut gap = false;
    let mut gap_before_used = false;
    for (place, block) in blocks(book).enumerate() {
        // An all-zero block has the right check, which is 0.
        if place > 0 && is_free(block) {
            gap = true;
            continue;
        }
        if !check_is_right(block) {
            return SoundClause::Check.bit();
        }
        gap_before_used |= gap;
        if place > 0 {
            used.push((Slot(place as u16), block));
        }
    }

    let day = block_at(book, 0);
    let mut broken = broken_in_day(day);
    if broken & SoundClause::DayN.bit() != 0 {
        return broken;
    }
    demand!(broken, FreeBeforeUsed, !gap_before_used);
    for &(_, block) in &used {
        broken |= match block[KIND] {
            KIND_SENDER => broken_in_sender(block, day),
            KIND_SERIES => broken_in_series(block, day, layout),
            KIND_RIGHT => broken_in_right(block, day),
            _ => SoundClause::Kind.bit(),
        };
    }
    broken | broken_between(&used, count)
}

fn broken_in_day(day: &Block) -> u128 {
    let mut broken = 0;
    demand!(broken, DayKind, day[KIND] == KIND_DAY);
    demand!(broken, DayN, NS.contains(&day[N]));
    demand!(broken, DayLead, u16_at(day, LEAD) <= LONGEST_LEAD);
    demand!(broken, DayClock, u16_at(day, CLOCK) <= LATEST_MINUTE);
    demand!(broken, DayRule, is_rule(day[RULE]));
    demand!(broken, DayZeroBytes, day[7] == 0 && all_zero(&day[16..24]) && all_zero(&day[56..CHECK]));
    demand!(broken, DayDigits, is_day(&day[DAY_IN_DAY_BLOCK..DAY_IN_DAY_BLOCK + DAY_DIGITS]));
    demand!(broken, DayArea, is_valid_eic(&field(day, AREA)));
    demand!(broken, DayReceiver, is_valid_eic(&field(day, RECEIVER)));
    broken
}

fn broken_in_sender(sender: &Block, day: &Block) -> u128 {
    let n = usize::from(day[N]);
    let mut broken = 0;
    demand!(broken, SenderVersion, (1..=HIGHEST_VERSION).contains(&u16_at(sender, VERSION)));
    demand!(broken, SenderCount, (1..=MOST_SERIES).contains(&u16_at(sender, COUNT)));
    let highest = nets(sender).take(n).fold(0, |highest, net| highest.max(net.unsigned_abs()));
    demand!(broken, NetRange, highest <= HIGHEST_NET as u32);
    demand!(broken, NetAboveN, all_zero(&sender[VALUES + 4 * n..CHECK]));
    demand!(broken, MessageId, is_well_formed_id(&field(sender, ID)));
    demand!(broken, SenderZeroBytes, all_zero(&sender[6..8]) && all_zero(&sender[64..VALUES]));
    demand!(broken, SenderN, sender[N] == day[N]);
    demand!(
        broken,
        SenderDay,
        sender[DAY_IN_SENDER..DAY_IN_SENDER + DAY_DIGITS] == day[DAY_IN_DAY_BLOCK..DAY_IN_DAY_BLOCK + DAY_DIGITS]
    );
    demand!(broken, SenderReceiver, field(sender, RECEIVER) == field(day, RECEIVER));
    demand!(broken, SenderEic, is_valid_eic(&field(sender, SENDER)));
    broken
}

fn broken_in_series(series: &Block, day: &Block, layout: Layout) -> u128 {
    let n = usize::from(day[N]);
    let (in_party, out_party) = pair(series);
    let mut broken = 0;
    demand!(broken, SeriesVersion, (1..=HIGHEST_VERSION).contains(&u16_at(series, VERSION)));
    let highest = quantities(series).take(n).fold(0, u32::max);
    demand!(broken, QuantityRange, highest <= HIGHEST_QUANTITY);
    demand!(broken, QuantityAboveN, all_zero(&series[VALUES + 4 * n..CHECK]));
    demand!(broken, SeriesId, is_well_formed_id(&field(series, ID)));
    demand!(broken, SeriesN, series[N] == day[N]);
    broken |= broken_in_areas(series, &field(day, AREA)) | broken_in_capacity(series);
    demand!(broken, BusinessType, is_internal(series) || is_external(series));
    demand!(broken, PartiesEqual, in_party != out_party || is_external(series));
    demand!(broken, InParty, is_valid_eic(&in_party));
    demand!(broken, OutParty, is_valid_eic(&out_party));
    let lawful = match layout {
        Layout::Old => 1..=3,
        Layout::New => 0..=day[N],
    };
    demand!(broken, Byte104, lawful.contains(&series[DIFFER]));
    demand!(broken, First, usize::from(series[FIRST]) <= n);
    broken
}

/// An external schedule has one area in common with the book, any other series both.
fn broken_in_areas(series: &Block, area: &Field) -> u128 {
    let mut broken = 0;
    if is_external(series) {
        match direction(series, area) {
            Direction::Within => demand!(broken, BothOurs, false),
            Direction::Elsewhere => demand!(broken, NoneOurs, false),
            Direction::In(other) | Direction::Out(other) => demand!(broken, OtherArea, is_valid_eic(&other)),
        }
    } else {
        demand!(broken, InArea, field(series, IN_AREA) == *area);
        demand!(broken, OutArea, field(series, OUT_AREA) == *area);
    }
    broken
}

/// The capacity fields: those of a right where the series is on one, else 0.
fn broken_in_capacity(series: &Block) -> u128 {
    let agreement = field(series, AGREEMENT);
    let mut broken = 0;
    if series[BUSINESS_TYPE] == WITH_CAPACITY {
        demand!(broken, CapacityContract, is_contract_type(series[CONTRACT_TYPE]));
        demand!(broken, CapacityAgreement, is_well_formed_id(&agreement));
    } else {
        demand!(broken, ContractType, series[CONTRACT_TYPE] == 0);
        demand!(broken, Agreement, all_zero(&agreement));
    }
    broken
}

fn broken_in_right(block: &Block, day: &Block) -> u128 {
    let of_right = right::broken_clauses(block, day);
    let held = RightClause::ALL.iter().filter(|clause| of_right & clause.bit() != 0);
    held.fold(0, |broken, &clause| broken | SoundClause::of_right(clause).bit())
}

impl SoundClause {
    /// The clause of a sound book that a block breaks which is no right.
    pub fn of_right(clause: RightClause) -> SoundClause {
        match clause {
            RightClause::Kind => SoundClause::Kind,
            RightClause::N => SoundClause::RightN,
            RightClause::Version => SoundClause::RightVersion,
            RightClause::BusinessType => SoundClause::RightType,
            RightClause::ContractType => SoundClause::RightContract,
            RightClause::SenderSlot => SoundClause::RightSlot,
            RightClause::Id => SoundClause::RightId,
            RightClause::BothOurs => SoundClause::RightBothOurs,
            RightClause::NoneOurs => SoundClause::RightNoneOurs,
            RightClause::OtherArea => SoundClause::RightOtherArea,
            RightClause::PartiesDiffer => SoundClause::RightParties,
            RightClause::Holder => SoundClause::RightHolder,
            RightClause::Agreement => SoundClause::RightAgreement,
            RightClause::Mark => SoundClause::RightMark,
            RightClause::LimitRange => SoundClause::LimitRange,
            RightClause::LimitAboveN => SoundClause::LimitAboveN,
        }
    }
}

/// The clauses that set several blocks beside each other.
fn broken_between(used: &[(Slot, &Block)], count: usize) -> u128 {
    let mut broken = 0;
    // By slot: the kind of block there and, for senders, its EIC.
    let mut kinds = vec![0u8; count];
    let mut eics = vec![[0u8; 16]; count];
    let mut senders: Vec<u128> = Vec::new();
    for &(slot, block) in used {
        kinds[usize::from(slot.0)] = block[KIND];
        if block[KIND] == KIND_SENDER {
            let eic = field(block, SENDER);
            eics[usize::from(slot.0)] = eic;
            senders.push(number(eic));
        }
    }
    demand!(broken, SenderTwice, all_distinct(&mut senders));

    let kind_of = |slot: u16| kinds.get(usize::from(slot)).copied().unwrap_or(0);
    let mut held = vec![0u16; count];
    // A series belongs to the sender whose slot it names; ids and keys are compared within it.
    let mut ids: Vec<(u16, u128)> = Vec::with_capacity(used.len());
    let mut keys: Vec<(u16, Key)> = Vec::with_capacity(used.len());
    for &(_, block) in used.iter().filter(|(_, block)| block[KIND] == KIND_SERIES) {
        let owner = u16_at(block, SENDER_SLOT);
        if kind_of(owner) == KIND_SENDER {
            let (in_party, out_party) = pair(block);
            let eic = eics[usize::from(owner)];
            demand!(broken, NeitherSender, in_party == eic || out_party == eic);
            held[usize::from(owner)] += 1;
            ids.push((owner, number(field(block, ID))));
            keys.push((owner, key(block)));
        } else {
            broken |= SoundClause::SenderSlot.bit();
        }
        let partner = u16_at(block, PARTNER);
        demand!(broken, Partner, partner == 0 || kind_of(partner) == KIND_SERIES);
    }
    demand!(broken, SeriesIdTwice, all_distinct(&mut ids));
    demand!(broken, KeyTwice, all_distinct(&mut keys));
    let rights = used.iter().filter(|(_, block)| block[KIND] == KIND_RIGHT);
    let mut rights: Vec<&[u8]> = rights.map(|&(_, block)| right::but_for_limits(block)).collect();
    demand!(broken, RightTwice, all_distinct(&mut rights));
    for &(slot, block) in used.iter().filter(|(_, block)| block[KIND] == KIND_SENDER) {
        demand!(broken, CountWrong, u16_at(block, COUNT) == held[usize::from(slot.0)]);
    }
    broken
}

fn all_zero(bytes: &[u8]) -> bool {
    bytes.iter().fold(0, |seen, &byte| seen | byte) == 0
}

/// Whether a book's finals can be given by this rule.
pub fn is_rule(rule: u8) -> bool {
    matches!(rule, SELLERS_RULE | LESSER_RULE)
}

/// Eight digits; no calendar is asked.
pub fn is_day(bytes: &[u8]) -> bool {
    bytes.len() == DAY_DIGITS && bytes.iter().all(u8::is_ascii_digit)
}

/// A field as one number, so that sorting compares it in one step.
fn number(field: Field) -> u128 {
    u128::from_be_bytes(field)
}

fn all_distinct<T: Ord>(keys: &mut [T]) -> bool {
    keys.sort_unstable();
    keys.windows(2).all(|two| two[0] != two[1])
}
