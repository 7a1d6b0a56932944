//! Rights and external schedules for the generator: lawful ones, some that are nearly alike, and rights that break one
//! clause alone.

use crate::block::*;
use crate::clause::cases;
use crate::counts::Position;
use crate::names;
use crate::random::Random;
use crate::right::{broken_clauses, direction, Direction, RightClause};

cases! {
    /// The parts of a key.
    KeyPart {
        BusinessType "business type",
        ContractType "contract type",
        InArea "in area",
        OutArea "out area",
        InParty "in party",
        OutParty "out party",
        Agreement "capacity agreement",
    }
}

impl KeyPart {
    /// Where the part stands in a block.
    pub fn bytes(self) -> std::ops::Range<usize> {
        match self {
            KeyPart::BusinessType => BUSINESS_TYPE..CONTRACT_TYPE,
            KeyPart::ContractType => CONTRACT_TYPE..SENDER_SLOT,
            KeyPart::InArea => IN_AREA..OUT_AREA,
            KeyPart::OutArea => OUT_AREA..IN_PARTY,
            KeyPart::InParty => IN_PARTY..OUT_PARTY,
            KeyPart::OutParty => OUT_PARTY..AGREEMENT,
            KeyPart::Agreement => AGREEMENT..MARK,
        }
    }

    /// The part in which two keys differ, if it is one alone.
    pub fn alone(one: &Block, other: &Block) -> Option<KeyPart> {
        let mut parts = KeyPart::ALL.iter().copied().filter(|part| one[part.bytes()] != other[part.bytes()]);
        parts.next().filter(|_| parts.next().is_none())
    }
}

cases! {
    /// In what alone a right differs from another one.
    RightPart {
        Holder "holder",
        ContractType "contract type",
        Agreement "capacity agreement",
        OtherArea "other area",
        Direction "direction",
    }
}

impl RightPart {
    /// The part in which two rights differ, if it is one alone. The area is their book's.
    pub fn alone(one: &Block, other: &Block, area: &Field) -> Option<RightPart> {
        let parts: Vec<KeyPart> =
            KeyPart::ALL.iter().copied().filter(|part| one[part.bytes()] != other[part.bytes()]).collect();
        match (parts.as_slice(), direction(one, area), direction(other, area)) {
            ([KeyPart::InParty, KeyPart::OutParty], _, _) => Some(RightPart::Holder),
            ([KeyPart::ContractType], _, _) => Some(RightPart::ContractType),
            ([KeyPart::Agreement], _, _) => Some(RightPart::Agreement),
            ([KeyPart::InArea] | [KeyPart::OutArea], _, _) => Some(RightPart::OtherArea),
            ([_, _], Direction::In(one), Direction::Out(other)) if one == other => Some(RightPart::Direction),
            ([_, _], Direction::Out(one), Direction::In(other)) if one == other => Some(RightPart::Direction),
            _ => None,
        }
    }

    /// The same right but for this part. Its limits are others.
    pub fn altered(self, random: &mut Random, right: &Block, area: &Field) -> Block {
        let mut other = *right;
        match self {
            RightPart::Holder => put_holder(&mut other, &names::valid_eic(random)),
            RightPart::ContractType => other[CONTRACT_TYPE] = other_contract_type(random, right[CONTRACT_TYPE]),
            RightPart::Agreement => put_field(&mut other, AGREEMENT, &other_agreement(random, right)),
            RightPart::OtherArea => {
                let at = if field(right, IN_AREA) == *area { OUT_AREA } else { IN_AREA };
                put_field(&mut other, at, &names::valid_eic(random));
            }
            RightPart::Direction => turn_round(&mut other),
        }
        put_limits(random, &mut other);
        other
    }
}

/// In and out area exchanged.
pub fn turn_round(series: &mut Block) {
    let (in_area, out_area) = (field(series, IN_AREA), field(series, OUT_AREA));
    put_field(series, IN_AREA, &out_area);
    put_field(series, OUT_AREA, &in_area);
}

pub fn put_holder(right: &mut Block, holder: &Field) {
    put_field(right, HOLDER, holder);
    put_field(right, OUT_PARTY, holder);
}

/// A contract type of rights, often at an edge.
pub fn contract_type(random: &mut Random) -> u8 {
    let any = random.between(1, usize::from(HIGHEST_CONTRACT_TYPE)) as u8;
    random.pick(&[1, 2, HIGHEST_CONTRACT_TYPE, any])
}

fn other_contract_type(random: &mut Random, contract_type: u8) -> u8 {
    1 + (contract_type - 1 + random.between(1, 98) as u8) % HIGHEST_CONTRACT_TYPE
}

/// Another agreement, often one that differs by a character at its end.
pub fn other_agreement(random: &mut Random, right: &Block) -> Field {
    loop {
        let mut agreement = field(right, AGREEMENT);
        match random.below(3) {
            0 => agreement[15] = names::character(random),
            1 => agreement[0] = names::character(random),
            _ => agreement = names::id(random),
        }
        if agreement != field(right, AGREEMENT) && crate::identifier::is_well_formed_id(&agreement) {
            return agreement;
        }
    }
}

/// An area that is not the book's.
pub fn foreign_area(random: &mut Random, area: &Field, areas: &[Field]) -> Field {
    for _ in 0..20 {
        let other = if areas.is_empty() || random.percent(20) { names::valid_eic(random) } else { random.pick(areas) };
        if other != *area {
            return other;
        }
    }
    names::valid_eic(random)
}

/// Puts the two areas of an external schedule or right, one of them the book's.
pub fn put_areas(random: &mut Random, series: &mut Block, area: &Field, other: &Field) {
    put_field(series, IN_AREA, area);
    put_field(series, OUT_AREA, other);
    if random.percent(50) {
        turn_round(series);
    }
}

/// A lawful right of a book with this day block, not yet sealed.
pub fn right(random: &mut Random, day: &Block, holder: &Field, areas: &[Field]) -> Block {
    let mut right = [0; BLOCK_BYTES];
    right[KIND] = KIND_RIGHT;
    right[N] = day[N];
    right[BUSINESS_TYPE] = WITH_CAPACITY;
    right[CONTRACT_TYPE] = contract_type(random);
    let area = field(day, AREA);
    let other = foreign_area(random, &area, areas);
    put_areas(random, &mut right, &area, &other);
    put_holder(&mut right, holder);
    // An agreement may be the code of its holder.
    let agreement = if random.percent(20) { *holder } else { names::id(random) };
    put_field(&mut right, AGREEMENT, &agreement);
    put_limits(random, &mut right);
    right
}

/// Limits at each position up to n.
pub fn put_limits(random: &mut Random, right: &mut Block) {
    let n = usize::from(right[N]).min(POSITIONS);
    for (limit, position) in names::profile(random, n).into_iter().zip((1..).map(Position)) {
        put_quantity(right, position, limit);
    }
}

/// The rights of a book that need not be sound.
pub fn rights_in(book: &[u8]) -> Vec<Block> {
    blocks(book).skip(1).filter(|block| block[KIND] == KIND_RIGHT).copied().collect()
}

cases! {
    /// Ways in which a block of 512 bytes is no right, each of which breaks one clause alone.
    RightFault {
        Check "check",
        Kind "kind",
        N "n",
        Version "version",
        BusinessType "business type",
        ContractZero "contract type 0",
        ContractAbove "contract type above 99",
        SenderSlot "bytes 6-7",
        Id "id",
        BothOurs "both areas the book's",
        NoneOurs "no area the book's",
        InArea "in area not an EIC",
        OutArea "out area not an EIC",
        Parties "two parties",
        Holder "holder not an EIC",
        NoAgreement "no capacity agreement",
        Agreement "capacity agreement malformed",
        Mark "mark",
        LimitTooHigh "limit above 9,999,999",
        LimitTopBit "limit with its top bit set",
        LimitAboveN "limit at a position above n",
    }
}

impl RightFault {
    /// Spoils a lawful right in this way, but for the check, which is sealed later. Nothing if it cannot be.
    pub fn spoil(self, random: &mut Random, right: &mut Block, day: &Block) -> Option<()> {
        let (n, area) = (usize::from(day[N]), field(day, AREA));
        let some = random.between(1, 255) as u8;
        let any_limit = VALUES + 4 * random.below(n);
        match self {
            RightFault::Check => {}
            RightFault::Kind => right[KIND] = random.pick(&[KIND_SERIES, KIND_SERIES, KIND_SENDER, KIND_DAY, 5, 0]),
            RightFault::N => {
                right[N] = random.pick(&[91, 92, 95, 96, 100, 0].map(|n| if n == day[N] { 97 } else { n }))
            }
            RightFault::Version => put_u16(right, VERSION, random.pick(&[1, 1, 999, 256])),
            RightFault::BusinessType => right[BUSINESS_TYPE] = random.pick(&[INTERNAL_TRADE, WITHOUT_CAPACITY, 0, 4]),
            RightFault::ContractZero => right[CONTRACT_TYPE] = 0,
            RightFault::ContractAbove => right[CONTRACT_TYPE] = random.pick(&[100, 100, 128, 255]),
            RightFault::SenderSlot => right[random.between(SENDER_SLOT, ID - 1)] = some,
            RightFault::Id if random.percent(50) => put_field(right, ID, &names::id(random)),
            RightFault::Id => right[random.between(ID, IN_AREA - 1)] = some,
            RightFault::BothOurs => {
                put_field(right, IN_AREA, &area);
                put_field(right, OUT_AREA, &area);
            }
            RightFault::NoneOurs => {
                let at = if field(right, IN_AREA) == area { IN_AREA } else { OUT_AREA };
                put_field(right, at, &names::valid_eic(random));
            }
            RightFault::InArea => {
                put_field(right, OUT_AREA, &area);
                put_field(right, IN_AREA, &names::invalid_eic(random));
            }
            RightFault::OutArea => {
                put_field(right, IN_AREA, &area);
                put_field(right, OUT_AREA, &names::invalid_eic(random));
            }
            RightFault::Parties => put_field(right, random.pick(&[HOLDER, OUT_PARTY]), &names::valid_eic(random)),
            RightFault::Holder => put_holder(right, &names::invalid_eic(random)),
            RightFault::NoAgreement => put_field(right, AGREEMENT, &[0; 16]),
            RightFault::Agreement => loop {
                let agreement = names::malformed_id(random);
                if agreement != [0; 16] {
                    break put_field(right, AGREEMENT, &agreement);
                }
            },
            RightFault::Mark => right[random.between(MARK, VALUES - 1)] = some,
            RightFault::LimitTooHigh => {
                put_u32(right, any_limit, random.pick(&[HIGHEST_QUANTITY + 1, HIGHEST_QUANTITY + 1, i32::MAX as u32]));
            }
            RightFault::LimitTopBit => put_u32(right, any_limit, random.pick(&[1 << 31, u32::MAX, (1 << 31) + 5])),
            RightFault::LimitAboveN if n == POSITIONS => return None,
            RightFault::LimitAboveN => {
                let at = VALUES + 4 * random.between(n, POSITIONS - 1);
                put_u32(right, at, random.pick(&[1, 45_000, 1 << 31]));
            }
        }
        Some(())
    }

    /// The way in which a block is no right of a book with this day block, if it is one of these.
    pub fn of(block: &Block, day: &Block) -> Option<RightFault> {
        let set = broken_clauses(block, day);
        if !check_is_right(block) {
            return (set == 0).then_some(RightFault::Check);
        }
        let clause = RightClause::first(set).filter(|clause| clause.bit() == set)?;
        Some(match clause {
            RightClause::Kind => RightFault::Kind,
            RightClause::N => RightFault::N,
            RightClause::Version => RightFault::Version,
            RightClause::BusinessType => RightFault::BusinessType,
            RightClause::ContractType if block[CONTRACT_TYPE] == 0 => RightFault::ContractZero,
            RightClause::ContractType => RightFault::ContractAbove,
            RightClause::SenderSlot => RightFault::SenderSlot,
            RightClause::Id => RightFault::Id,
            RightClause::BothOurs => RightFault::BothOurs,
            RightClause::NoneOurs => RightFault::NoneOurs,
            RightClause::OtherArea if field(block, OUT_AREA) == field(day, AREA) => RightFault::InArea,
            RightClause::OtherArea => RightFault::OutArea,
            RightClause::PartiesDiffer => RightFault::Parties,
            RightClause::Holder => RightFault::Holder,
            RightClause::Agreement if field(block, AGREEMENT) == [0; 16] => RightFault::NoAgreement,
            RightClause::Agreement => RightFault::Agreement,
            RightClause::Mark => RightFault::Mark,
            RightClause::LimitRange if quantities(block).any(|limit| limit >> 31 != 0) => RightFault::LimitTopBit,
            RightClause::LimitRange => RightFault::LimitTooHigh,
            RightClause::LimitAboveN => RightFault::LimitAboveN,
        })
    }

    /// A block that is no right for this reason alone, as it would be entered.
    pub fn made(self, random: &mut Random, right: &Block, day: &Block) -> Option<Block> {
        let mut block = *right;
        self.spoil(random, &mut block, day)?;
        seal(&mut block);
        if self == RightFault::Check {
            let at = random.between(CHECK, BLOCK_BYTES - 1);
            block[at] = block[at].wrapping_add(random.between(1, 255) as u8);
        }
        Some(block)
    }
}

#[cfg(test)]
mod tests {
    use super::*;
    use crate::sound::NS;

    fn day(n: u8, random: &mut Random) -> Block {
        let mut day = [0; BLOCK_BYTES];
        day[N] = n;
        put_field(&mut day, AREA, &names::valid_eic(random));
        day
    }

    #[test]
    fn rights_are_lawful_and_each_fault_is_told_alone() {
        let mut random = Random::new(5);
        for round in 0..150 {
            let day = day(NS[round % 3], &mut random);
            let holder = names::valid_eic(&mut random);
            let right = right(&mut random, &day, &holder, &[]);
            assert_eq!(broken_clauses(&right, &day), 0);
            for &fault in RightFault::ALL {
                match fault.made(&mut random, &right, &day) {
                    None => assert!(fault == RightFault::LimitAboveN && day[N] == 100),
                    Some(block) => assert_eq!(RightFault::of(&block, &day), Some(fault), "{}", fault.text()),
                }
            }
            for &part in RightPart::ALL {
                let other = part.altered(&mut random, &right, &field(&day, AREA));
                assert_eq!(broken_clauses(&other, &day), 0);
                assert_eq!(RightPart::alone(&right, &other, &field(&day, AREA)), Some(part));
            }
        }
    }
}
