//! The 512-byte block: where its fields stand, its check and its seal.

use crate::counts::{Position, Slot};

pub const BLOCK_BYTES: usize = 512;
/// Every block has room for this many positions, whatever the day's n is.
pub const POSITIONS: usize = 100;

pub type Block = [u8; BLOCK_BYTES];
/// Ids, EICs and the capacity agreement are all sixteen bytes.
pub type Field = [u8; 16];

pub const KIND_SENDER: u8 = 1;
pub const KIND_SERIES: u8 = 2;
pub const KIND_DAY: u8 = 3;
/// A right to capacity; it has the layout of a series, its holder standing as both parties.
pub const KIND_RIGHT: u8 = 4;

// Where the fields stand. Some offsets serve two kinds of block under different names.
pub const KIND: usize = 0;
pub const N: usize = 1;
pub const LEAD: usize = 2;
pub const VERSION: usize = 2;
pub const CLOCK: usize = 4;
pub const RULE: usize = 6;
pub const COUNT: usize = 4;
pub const BUSINESS_TYPE: usize = 4;
pub const CONTRACT_TYPE: usize = 5;
pub const SENDER_SLOT: usize = 6;
pub const DAY_IN_DAY_BLOCK: usize = 8;
pub const ID: usize = 8;
pub const AREA: usize = 24;
pub const SENDER: usize = 24;
pub const IN_AREA: usize = 24;
pub const RECEIVER: usize = 40;
pub const OUT_AREA: usize = 40;
pub const DAY_IN_SENDER: usize = 56;
pub const IN_PARTY: usize = 56;
/// Of a right, whose holder is its out party too.
pub const HOLDER: usize = 56;
pub const OUT_PARTY: usize = 72;
pub const AGREEMENT: usize = 88;
pub const MARK: usize = 104;
pub const DIFFER: usize = 104;
pub const FIRST: usize = 105;
pub const PARTNER: usize = 106;
pub const VALUES: usize = 108;
pub const CHECK: usize = 508;

/// The rules of finals that byte 6 of a day block names: the seller's quantity, or the lesser of the two.
pub const SELLERS_RULE: u8 = 0;
pub const LESSER_RULE: u8 = 1;

/// The length of a day in text, eight digits.
pub const DAY_DIGITS: usize = 8;

pub const HIGHEST_VERSION: u16 = 999;
pub const HIGHEST_QUANTITY: u32 = 9_999_999;
pub const MOST_SERIES: u16 = 200;
/// 200 series of the highest quantity, all on one side.
pub const HIGHEST_NET: i32 = 1_999_999_800;
/// A02, the business type of an internal trade.
pub const INTERNAL_TRADE: u8 = 2;
/// A03, an external schedule on capacity, which names a right; rights have this type too.
pub const WITH_CAPACITY: u8 = 3;
/// A06, an external schedule without capacity.
pub const WITHOUT_CAPACITY: u8 = 6;
/// A contract type of rights and of series on them is 1 to this.
pub const HIGHEST_CONTRACT_TYPE: u8 = 99;

/// What a sender's series is known by beside its id: business type, contract type, areas, parties and capacity
/// agreement, as they stand.
pub type Key = [u8; 82];

/// A mark as a series block keeps it. A series that agrees with its counterpart and one that has none both
/// have the count 0; the partner tells them apart.
#[derive(Clone, Copy, Debug, PartialEq, Eq)]
pub struct Mark {
    /// At how many positions the counterpart differs.
    pub differ: u8,
    /// The lowest of them.
    pub first: Position,
    pub partner: Slot,
}

impl Mark {
    /// Of a series without counterpart.
    pub const ALONE: Mark = Mark { differ: 0, first: Position(0), partner: Slot(0) };

    /// Of a series whose counterpart stands in the partner's slot.
    pub fn between(series: &Block, counterpart: &Block, n: u8, partner: Slot) -> Mark {
        let mut mark = Mark { partner, ..Mark::ALONE };
        for position in differing(series, counterpart, n) {
            if mark.differ == 0 {
                mark.first = position;
            }
            mark.differ += 1;
        }
        mark
    }
}

/// The check over bytes 0 to 507.
pub fn check_of(block: &Block) -> u32 {
    check_after(0, &block[..CHECK])
}

/// The check after more bytes: for each, the check so far times 31, plus the byte, in 32 bits.
///
/// Taking a group of four in one step (31 to the fourth is 923,521) shortens the chain of dependent
/// multiplications to a quarter.
#[inline]
pub fn check_after(check: u32, bytes: &[u8]) -> u32 {
    let groups = bytes.chunks_exact(4);
    let rest = groups.remainder();
    let check = groups.fold(check, |check, four| {
        let group =
            u32::from(four[0]) * 29_791 + u32::from(four[1]) * 961 + u32::from(four[2]) * 31 + u32::from(four[3]);
        check.wrapping_mul(923_521).wrapping_add(group)
    });
    rest.iter().fold(check, |check, &byte| check.wrapping_mul(31).wrapping_add(u32::from(byte)))
}

/// Whether the last four bytes hold the check of the others.
pub fn check_is_right(block: &Block) -> bool {
    u32_at(block, CHECK) == check_of(block)
}

/// Puts the check right and leaves every other byte alone.
pub fn seal(block: &mut Block) {
    let check = check_of(block);
    block[CHECK..].copy_from_slice(&check.to_le_bytes());
}

/// A free slot has no byte set, not even in its check.
pub fn is_free(block: &Block) -> bool {
    *block == [0; BLOCK_BYTES]
}

/// The whole blocks of a byte string; a rest shorter than a block is passed over.
pub fn blocks(bytes: &[u8]) -> impl DoubleEndedIterator<Item = &Block> + ExactSizeIterator {
    bytes.chunks_exact(BLOCK_BYTES).map(|part| part.try_into().expect("a chunk is a whole block"))
}

/// The block at a given place, counted from 0.
pub fn block_at(bytes: &[u8], place: usize) -> &Block {
    let start = place * BLOCK_BYTES;
    bytes[start..start + BLOCK_BYTES].try_into().expect("a block has 512 bytes")
}

/// The same, lent for change.
pub fn block_at_mut(bytes: &mut [u8], place: usize) -> &mut Block {
    let start = place * BLOCK_BYTES;
    (&mut bytes[start..start + BLOCK_BYTES]).try_into().expect("a block has 512 bytes")
}

pub fn u16_at(block: &Block, at: usize) -> u16 {
    u16::from_le_bytes([block[at], block[at + 1]])
}

pub fn put_u16(block: &mut Block, at: usize, value: u16) {
    block[at..at + 2].copy_from_slice(&value.to_le_bytes());
}

pub fn u32_at(block: &Block, at: usize) -> u32 {
    u32::from_le_bytes([block[at], block[at + 1], block[at + 2], block[at + 3]])
}

pub fn put_u32(block: &mut Block, at: usize, value: u32) {
    block[at..at + 4].copy_from_slice(&value.to_le_bytes());
}

pub fn field(block: &Block, at: usize) -> Field {
    block[at..at + 16].try_into().expect("a field has 16 bytes")
}

pub fn put_field(block: &mut Block, at: usize, value: &Field) {
    block[at..at + 16].copy_from_slice(value);
}

/// In party and out party, in this order.
pub fn pair(series: &Block) -> (Field, Field) {
    (field(series, IN_PARTY), field(series, OUT_PARTY))
}

pub fn key(series: &Block) -> Key {
    let mut key = [0; 82];
    key[..2].copy_from_slice(&series[BUSINESS_TYPE..SENDER_SLOT]);
    key[2..].copy_from_slice(&series[IN_AREA..MARK]);
    key
}

/// Whether this is a series of an internal trade; marks and finals pair no other.
pub fn is_internal(series: &Block) -> bool {
    series[BUSINESS_TYPE] == INTERNAL_TRADE
}

/// Whether the series is an external schedule, one area of which is another's.
pub fn is_external(series: &Block) -> bool {
    matches!(series[BUSINESS_TYPE], WITH_CAPACITY | WITHOUT_CAPACITY)
}

/// Whether a series counts up in its sender's net: what the sender buys, or what comes into the book's area.
pub fn counts_up(series: &Block, sender: &Field, area: &Field) -> bool {
    if is_external(series) {
        field(series, IN_AREA) == *area
    } else {
        field(series, IN_PARTY) == *sender
    }
}

/// The hundred quantities, as numbers without a sign.
pub fn quantities(series: &Block) -> impl Iterator<Item = u32> + '_ {
    series[VALUES..CHECK].chunks_exact(4).map(|four| u32::from_le_bytes(four.try_into().expect("four bytes")))
}

/// The hundred nets, as numbers with a sign.
pub fn nets(sender: &Block) -> impl Iterator<Item = i32> + '_ {
    sender[VALUES..CHECK].chunks_exact(4).map(|four| i32::from_le_bytes(four.try_into().expect("four bytes")))
}

/// The quantity at one position from 1 to 100.
pub fn quantity(series: &Block, position: Position) -> u32 {
    u32_at(series, VALUES + 4 * (usize::from(position.0) - 1))
}

pub fn put_quantity(series: &mut Block, position: Position, value: u32) {
    put_u32(series, VALUES + 4 * (usize::from(position.0) - 1), value);
}

pub fn mark(series: &Block) -> Mark {
    Mark { differ: series[DIFFER], first: Position(u16::from(series[FIRST])), partner: Slot(u16_at(series, PARTNER)) }
}

/// Writes a mark; the caller seals the block afterwards.
pub fn put_mark(series: &mut Block, mark: Mark) {
    series[DIFFER] = mark.differ;
    series[FIRST] = mark.first.0 as u8;
    put_u16(series, PARTNER, mark.partner.0);
}

/// The positions up to n at which two series differ, ascending.
pub fn differing<'two>(one: &'two Block, other: &'two Block, n: u8) -> impl Iterator<Item = Position> + 'two {
    let both = quantities(one).zip(quantities(other)).take(usize::from(n));
    both.zip((1..).map(Position)).filter(|((own, theirs), _)| own != theirs).map(|(_, position)| position)
}

/// Writes a sender's nets; the caller seals the block afterwards.
pub fn put_nets(sender: &mut Block, nets: &[i32; POSITIONS]) {
    for (four, net) in sender[VALUES..CHECK].chunks_exact_mut(4).zip(nets) {
        four.copy_from_slice(&net.to_le_bytes());
    }
}

#[cfg(test)]
mod tests {
    use super::*;

    /// The check exactly as the paper words it, one byte at a time.
    fn check_by_words(block: &Block) -> u32 {
        let mut check: u32 = 0;
        for &byte in &block[..CHECK] {
            let mut doubled = check;
            for _ in 0..5 {
                doubled = doubled.wrapping_add(doubled);
            }
            check = doubled.wrapping_sub(check).wrapping_add(u32::from(byte));
        }
        check
    }

    #[test]
    fn groups_of_four_give_the_check_of_the_words() {
        let mut block = [0u8; BLOCK_BYTES];
        let mut noise = 1u32;
        for _ in 0..50 {
            for byte in block.iter_mut() {
                noise = noise.wrapping_mul(1_664_525).wrapping_add(1_013_904_223);
                *byte = (noise >> 24) as u8;
            }
            assert_eq!(check_of(&block), check_by_words(&block));
        }
        assert_eq!(check_of(&[255; BLOCK_BYTES]), check_by_words(&[255; BLOCK_BYTES]));
    }
}
