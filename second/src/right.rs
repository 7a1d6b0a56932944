//! Rights to capacity: their form, clause by clause, entering them, and which right a series names.

use crate::block::*;
use crate::book::SoundBook;
use crate::clause::clauses;
use crate::counts::Slot;
use crate::identifier::{is_valid_eic, is_well_formed_id};

pub const NOT_SOUND: u8 = 1;
pub const NO_ROOM: u8 = 17;
pub const NO_RIGHT: u8 = 40;

clauses! {
    /// The single conditions of a rights block, in the order of its bytes.
    RightClause {
        Kind "kind not 4",
        N "n not the book's",
        Version "bytes 2-3 not 0",
        BusinessType "business type not 3",
        ContractType "contract type not 1 to 99",
        SenderSlot "bytes 6-7 not 0",
        Id "bytes 8-23 not 0",
        BothOurs "both areas the book's",
        NoneOurs "no area the book's",
        OtherArea "the other area not an EIC",
        PartiesDiffer "two parties",
        Holder "holder not an EIC",
        Agreement "capacity agreement malformed",
        Mark "bytes 104-107 not 0",
        LimitRange "limit above 9,999,999",
        LimitAboveN "limit above n",
    }
}

/// Adds a clause to the set when its condition does not hold.
macro_rules! demand {
    ($broken:ident, $clause:ident, $holds:expr) => {
        if !$holds {
            $broken |= RightClause::$clause.bit();
        }
    };
}

/// All broken clauses of a block that is to be a right of a book with this day block. Its check is not looked at.
pub fn broken_clauses(right: &Block, day: &Block) -> u128 {
    let n = usize::from(day[N]);
    let zero = |from: usize, to: usize| right[from..to].iter().all(|&byte| byte == 0);
    let holder = field(right, HOLDER);
    let mut broken = 0;
    demand!(broken, Kind, right[KIND] == KIND_RIGHT);
    demand!(broken, N, right[N] == day[N]);
    demand!(broken, Version, zero(VERSION, BUSINESS_TYPE));
    demand!(broken, BusinessType, right[BUSINESS_TYPE] == WITH_CAPACITY);
    demand!(broken, ContractType, is_contract_type(right[CONTRACT_TYPE]));
    demand!(broken, SenderSlot, zero(SENDER_SLOT, ID));
    demand!(broken, Id, zero(ID, IN_AREA));
    match direction(right, &field(day, AREA)) {
        Direction::Within => demand!(broken, BothOurs, false),
        Direction::Elsewhere => demand!(broken, NoneOurs, false),
        Direction::In(other) | Direction::Out(other) => demand!(broken, OtherArea, is_valid_eic(&other)),
    }
    demand!(broken, PartiesDiffer, field(right, OUT_PARTY) == holder);
    demand!(broken, Holder, is_valid_eic(&holder));
    demand!(broken, Agreement, is_well_formed_id(&field(right, AGREEMENT)));
    demand!(broken, Mark, zero(MARK, VALUES));
    demand!(broken, LimitRange, quantities(right).take(n).all(|limit| limit <= HIGHEST_QUANTITY));
    demand!(broken, LimitAboveN, zero(VALUES + 4 * n, CHECK));
    broken
}

/// The contract types that rights have, and series on them.
pub fn is_contract_type(byte: u8) -> bool {
    (1..=HIGHEST_CONTRACT_TYPE).contains(&byte)
}

/// Where the two areas of a series or right lie, the other one told.
#[derive(Clone, Copy, Debug, PartialEq, Eq)]
pub enum Direction {
    /// Both are the book's.
    Within,
    /// The in area alone is the book's.
    In(Field),
    /// The out area alone is the book's.
    Out(Field),
    /// Neither is.
    Elsewhere,
}

pub fn direction(series: &Block, area: &Field) -> Direction {
    let (in_area, out_area) = (field(series, IN_AREA), field(series, OUT_AREA));
    match (in_area == *area, out_area == *area) {
        (true, true) => Direction::Within,
        (true, false) => Direction::In(out_area),
        (false, true) => Direction::Out(in_area),
        (false, false) => Direction::Elsewhere,
    }
}

/// Two rights are one but for their limits when all before these is the same.
pub fn but_for_limits(right: &Block) -> &[u8] {
    &right[..VALUES]
}

/// Whether a series names this right, if its sender holds it: areas, contract type and agreement are the same. The
/// parties of the series do not matter.
pub fn names(series: &Block, right: &Block) -> bool {
    series[CONTRACT_TYPE] == right[CONTRACT_TYPE]
        && series[IN_AREA..IN_PARTY] == right[IN_AREA..IN_PARTY]
        && field(series, AGREEMENT) == field(right, AGREEMENT)
}

/// The right that a series names among those of its sender. In a sound book there is one at most.
pub fn named_among<'book>(series: &Block, own: &[(Slot, &'book Block)]) -> Option<(Slot, &'book Block)> {
    own.iter().copied().find(|(_, right)| names(series, right))
}

/// Enters a right in the lowest free slot, as it is given, and changes nothing else. Refused are an unsound book, a
/// block that is no right of it or that stands there already, whatever its limits, and a book without a free slot.
pub fn enter(book: &mut [u8], block: &[u8]) -> u8 {
    let sound = match SoundBook::of(book) {
        None => return NOT_SOUND,
        Some(sound) => sound,
    };
    let right: Block = match block.try_into() {
        Err(_) => return NO_RIGHT,
        Ok(right) => right,
    };
    if !check_is_right(&right) || broken_clauses(&right, sound.day()) != 0 {
        return NO_RIGHT;
    }
    if sound.rights().any(|(_, stored)| but_for_limits(stored) == but_for_limits(&right)) {
        return NO_RIGHT;
    }
    if sound.free_slots() == 0 {
        return NO_ROOM;
    }
    let slot = sound.used_slots() + 1;
    *block_at_mut(book, slot) = right;
    0
}
