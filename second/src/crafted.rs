//! Crafted books: sound ones that no legal sequence of calls need have made.

use crate::block::*;
use crate::clause::cases;
use crate::counts::{Position, Slot, LATEST_MINUTE, LONGEST_LEAD};
use crate::external::{self, foreign_area, put_areas, RightPart};
use crate::names;
use crate::random::Random;
use crate::right::{but_for_limits, names as names_right};
use crate::sound::{FEWEST_BLOCKS, MOST_BLOCKS, NS};

/// How large a crafted book becomes.
pub struct Shape {
    pub senders: usize,
    pub fewest_series: usize,
    pub most_series: usize,
    pub free_slots: usize,
    pub rights: usize,
    /// How many series in a hundred are external schedules.
    pub external: usize,
}

/// The number of a right's sender: it has none.
pub const NO_SENDER: usize = usize::MAX;

/// The bytes of a block list, each block sealed. A free block stays zero, since its check is 0.
pub fn sealed(mut list: Vec<Block>) -> Vec<u8> {
    for block in list.iter_mut() {
        seal(block);
    }
    list.concat()
}

pub fn lead(random: &mut Random) -> u16 {
    match random.below(7) {
        0 => 0,
        1 => LONGEST_LEAD,
        2 => LONGEST_LEAD - 1,
        3 => 15,
        4 => 1,
        5 => 45,
        _ => random.between(0, usize::from(LONGEST_LEAD)) as u16,
    }
}

/// A sound book with random layout, versions, marks and nets. Marks and nets are mostly false:
/// soundness only bounds them. Senders may stand behind their series, and rights anywhere.
pub fn sound_book(random: &mut Random, pool: &[Field], shape: &Shape) -> Vec<u8> {
    let day = day_block(random, pool);
    let mut eics: Vec<Field> = pool.to_vec();
    random.shuffle(&mut eics);
    // Blocks come with the number of their sender; slots are given out afterwards.
    let mut list: Vec<(usize, Block)> = Vec::new();
    let mut rights = rights(random, &day, &eics, shape);
    for sender in 0..shape.senders {
        let count = random.between(shape.fewest_series, shape.most_series);
        let partners = (count + 1).max(shape.senders);
        let partners = &eics[..eics.len().min(partners + 1)];
        let mut filed = filing(random, &day, &eics[sender], partners, count);
        turn_external(random, &mut filed, &field(&day, AREA), partners, &rights, shape.external);
        list.extend(filed.into_iter().map(|block| (sender, block)));
    }
    if random.percent(85) {
        rights.iter_mut().for_each(|right| widen(random, right, &eics, &list));
    }
    let first = list.len().min(random.below(3));
    list.splice(first..first, rights.into_iter().map(|right| (NO_SENDER, right)));
    book_of(random, day, list, shape.senders, shape.free_slots)
}

/// The book of blocks that come with the number of their sender, often in another order.
pub fn book_of(
    random: &mut Random,
    day: Block,
    mut list: Vec<(usize, Block)>,
    senders: usize,
    free_slots: usize,
) -> Vec<u8> {
    if random.percent(60) {
        random.shuffle(&mut list);
    }
    let mut whole = vec![day];
    whole.extend(placed(random, list, senders));
    assert!(whole.len() <= MOST_BLOCKS, "too many blocks for a book");
    let blocks = (whole.len() + free_slots).clamp(FEWEST_BLOCKS, MOST_BLOCKS);
    whole.resize(blocks, [0; BLOCK_BYTES]);
    sealed(whole)
}

/// The rights of a crafted book, some of which differ from another one in one part alone.
fn rights(random: &mut Random, day: &Block, eics: &[Field], shape: &Shape) -> Vec<Block> {
    let mut rights: Vec<Block> = Vec::new();
    while rights.len() < shape.rights {
        let holder = if shape.senders > 0 && random.percent(80) { eics[random.below(shape.senders)] } else { eics[0] };
        let new = match rights.last() {
            Some(last) if random.percent(40) => {
                let part = random.pick(RightPart::ALL);
                let mut right = part.altered(random, last, &field(day, AREA));
                if part == RightPart::Holder {
                    external::put_holder(&mut right, &holder);
                }
                right
            }
            _ => external::right(random, day, &holder, &eics[..eics.len().min(6)]),
        };
        if rights.iter().all(|right| but_for_limits(right) != but_for_limits(&new)) {
            rights.push(new);
        }
    }
    rights
}

/// Turns so many in a hundred of a sender's series into external schedules, on its rights where it has any.
fn turn_external(
    random: &mut Random,
    filed: &mut [Block],
    area: &Field,
    partners: &[Field],
    rights: &[Block],
    often: usize,
) {
    let sender = field(&filed[0], SENDER);
    let own: Vec<Block> = rights.iter().copied().filter(|right| field(right, HOLDER) == sender).collect();
    for place in 1..filed.len() {
        if !random.percent(often) {
            continue;
        }
        let mut series = filed[place];
        if own.is_empty() && random.percent(95) || random.percent(45) {
            series[BUSINESS_TYPE] = WITHOUT_CAPACITY;
            let other = foreign_area(random, area, partners);
            put_areas(random, &mut series, area, &other);
        } else {
            let right = if own.is_empty() { rights.first() } else { own.get(random.below(own.len())) };
            right.into_iter().for_each(|right| put_right(&mut series, right));
        }
        if random.percent(40) {
            put_field(&mut series, IN_PARTY, &sender);
            put_field(&mut series, OUT_PARTY, &sender);
        }
        if is_external(&series) && filed[1..].iter().all(|other| key(other) != key(&series)) {
            filed[place] = series;
        }
    }
}

/// Makes a series one on this right.
pub fn put_right(series: &mut Block, right: &Block) {
    series[BUSINESS_TYPE] = WITH_CAPACITY;
    series[CONTRACT_TYPE] = right[CONTRACT_TYPE];
    series[IN_AREA..IN_PARTY].copy_from_slice(&right[IN_AREA..IN_PARTY]);
    put_field(series, AGREEMENT, &field(right, AGREEMENT));
}

/// Makes the limits of a right such that its holder's series stay within them, if they can.
fn widen(random: &mut Random, right: &mut Block, eics: &[Field], list: &[(usize, Block)]) {
    let holder = field(right, HOLDER);
    let on_it = |sender: usize, block: &Block| {
        let with_capacity = block[KIND] == KIND_SERIES && block[BUSINESS_TYPE] == WITH_CAPACITY;
        with_capacity && eics[sender] == holder && names_right(block, right)
    };
    let claims: Vec<&Block> =
        list.iter().filter(|(sender, block)| on_it(*sender, block)).map(|(_, block)| block).collect();
    if claims.is_empty() {
        return;
    }
    let more = random.pick(&[0, 0, 1, 5_000]);
    for position in (1..=u16::from(right[N])).map(Position) {
        let sum: u32 = claims.iter().map(|series| quantity(series, position)).sum();
        put_quantity(right, position, (sum + more).min(HIGHEST_QUANTITY));
    }
}

pub fn day_block(random: &mut Random, pool: &[Field]) -> Block {
    let mut day = [0; BLOCK_BYTES];
    day[KIND] = KIND_DAY;
    day[N] = random.pick(&NS);
    put_u16(&mut day, LEAD, lead(random));
    let clock = match random.below(5) {
        0 => 0,
        1 => LATEST_MINUTE,
        _ => random.between(8_600, usize::from(LATEST_MINUTE)) as u16,
    };
    put_u16(&mut day, CLOCK, clock);
    day[RULE] = random.pick(&[SELLERS_RULE, LESSER_RULE]);
    day[DAY_IN_DAY_BLOCK..DAY_IN_DAY_BLOCK + DAY_DIGITS].copy_from_slice(&names::day(random));
    put_field(&mut day, AREA, &random.pick(pool));
    put_field(&mut day, RECEIVER, &random.pick(pool));
    day
}

/// A sender block and so many series of it, with these and no other partners. No series names its
/// sender's slot yet or has a mark.
pub fn filing(random: &mut Random, day: &Block, sender: &Field, partners: &[Field], count: usize) -> Vec<Block> {
    let others = partners.iter().filter(|&other| other != sender);
    let mut pairs: Vec<(Field, Field)> = others.flat_map(|&other| [(*sender, other), (other, *sender)]).collect();
    random.shuffle(&mut pairs);
    assert!(pairs.len() >= count, "too few partners");
    filing_of(random, day, sender, &pairs[..count])
}

/// The same with a series for each of these pairs, in party and out party, in their order.
pub fn filing_of(random: &mut Random, day: &Block, sender: &Field, pairs: &[(Field, Field)]) -> Vec<Block> {
    let mut ids: Vec<Field> = Vec::new();
    while ids.len() < pairs.len() {
        let id = names::id(random);
        if !ids.contains(&id) {
            ids.push(id);
        }
    }
    let mut list = vec![sender_block(random, day, sender, pairs.len())];
    for (id, parties) in ids.iter().zip(pairs) {
        list.push(series_block(random, day, id, parties));
    }
    list
}

fn sender_block(random: &mut Random, day: &Block, sender: &Field, count: usize) -> Block {
    let mut block = [0; BLOCK_BYTES];
    block[KIND] = KIND_SENDER;
    block[N] = day[N];
    put_u16(&mut block, VERSION, version(random));
    put_u16(&mut block, COUNT, count as u16);
    put_field(&mut block, ID, &names::id(random));
    put_field(&mut block, SENDER, sender);
    put_field(&mut block, RECEIVER, &field(day, RECEIVER));
    block[DAY_IN_SENDER..DAY_IN_SENDER + DAY_DIGITS]
        .copy_from_slice(&day[DAY_IN_DAY_BLOCK..DAY_IN_DAY_BLOCK + DAY_DIGITS]);
    let nets = random.below(3);
    for position in 0..usize::from(day[N]) {
        let net = match nets {
            0 => 0,
            1 => random.pick(&[HIGHEST_NET, -HIGHEST_NET]),
            _ => random.between(0, 2 * HIGHEST_NET as usize) as i64 as i32 - HIGHEST_NET,
        };
        put_u32(&mut block, VALUES + 4 * position, net as u32);
    }
    block
}

fn series_block(random: &mut Random, day: &Block, id: &Field, parties: &(Field, Field)) -> Block {
    let mut block = [0; BLOCK_BYTES];
    block[KIND] = KIND_SERIES;
    block[N] = day[N];
    put_u16(&mut block, VERSION, version(random));
    block[BUSINESS_TYPE] = INTERNAL_TRADE;
    put_field(&mut block, ID, id);
    put_field(&mut block, IN_AREA, &field(day, AREA));
    put_field(&mut block, OUT_AREA, &field(day, AREA));
    put_field(&mut block, IN_PARTY, &parties.0);
    put_field(&mut block, OUT_PARTY, &parties.1);
    for (value, position) in names::profile(random, usize::from(day[N])).into_iter().zip((1..).map(Position)) {
        put_quantity(&mut block, position, value);
    }
    block
}

/// Blocks in the order of their slots: each series gets its sender's slot and some lawful mark.
fn placed(random: &mut Random, list: Vec<(usize, Block)>, senders: usize) -> Vec<Block> {
    let mut series_slots: Vec<u16> = Vec::new();
    let mut sender_slots = vec![0u16; senders];
    for ((sender, block), slot) in list.iter().zip(1..) {
        match block[KIND] {
            KIND_SENDER => sender_slots[*sender] = slot,
            KIND_SERIES => series_slots.push(slot),
            _ => {}
        }
    }
    let mut placed = Vec::new();
    for (sender, mut block) in list {
        if block[KIND] == KIND_SERIES {
            put_u16(&mut block, SENDER_SLOT, sender_slots[sender]);
            let mark = lawful_mark(random, usize::from(block[N]), &series_slots);
            put_mark(&mut block, mark);
        }
        placed.push(block);
    }
    placed
}

/// Any mark within its ranges. Byte 104 is often such as the old layout takes too.
pub fn lawful_mark(random: &mut Random, n: usize, series_slots: &[u16]) -> Mark {
    let partner = if random.percent(30) { 0 } else { random.pick(series_slots) };
    let first = random.between(0, n) as u16;
    let differ = if random.percent(50) { random.between(1, 3) } else { some_count(random, n) };
    Mark { differ: differ as u8, first: Position(first), partner: Slot(partner) }
}

/// A count of differing positions, often at an edge.
fn some_count(random: &mut Random, n: usize) -> usize {
    match random.below(3) {
        0 => random.pick(&[0, 1, 4, n - 1]),
        1 => n,
        _ => random.between(0, n),
    }
}

/// The same book with its used blocks in this order of their slots. Each series goes on naming its sender and its
/// partner.
pub fn reordered(book: &[u8], order: &[Slot]) -> Vec<u8> {
    let mut new_slots = vec![0u16; order.len() + 1];
    order.iter().zip(1..).for_each(|(old, new)| new_slots[usize::from(old.0)] = new);
    let mut list: Vec<Block> = blocks(book).copied().collect();
    for (old, place) in order.iter().zip(1..) {
        let mut block = *block_at(book, usize::from(old.0));
        if block[KIND] == KIND_SERIES {
            for at in [SENDER_SLOT, PARTNER] {
                let named = usize::from(u16_at(&block, at));
                put_u16(&mut block, at, new_slots[named]);
            }
        }
        list[place] = block;
    }
    sealed(list)
}

/// The same book, the marks of a sender's series naming any series as partners.
pub fn with_false_partners(random: &mut Random, book: &[u8], sender: &Field) -> Vec<u8> {
    let mut list: Vec<Block> = blocks(book).copied().collect();
    let series = slots_of(&list, KIND_SERIES);
    let heads = slots_of(&list, KIND_SENDER);
    let owner = heads.into_iter().find(|&slot| field(&list[slot], SENDER) == *sender);
    for &slot in &series {
        if owner == Some(usize::from(u16_at(&list[slot], SENDER_SLOT))) {
            put_u16(&mut list[slot], PARTNER, random.pick(&series) as u16);
        }
    }
    sealed(list)
}

/// The same book with a sender's kept version set: its next filings reach the highest version soon.
/// Nothing if the book has no sender.
pub fn with_version(book: &[u8], version: u16) -> Option<(Field, Vec<u8>)> {
    let mut list: Vec<Block> = blocks(book).copied().collect();
    let slot = slots_of(&list, KIND_SENDER).first().copied()?;
    put_u16(&mut list[slot], VERSION, version);
    Some((field(&list[slot], SENDER), sealed(list)))
}

fn version(random: &mut Random) -> u16 {
    match random.below(5) {
        0 => HIGHEST_VERSION,
        1 => HIGHEST_VERSION - 1,
        2 => 1,
        _ => random.between(1, usize::from(HIGHEST_VERSION)) as u16,
    }
}

cases! {
    /// What a mark says, and a net.
    Kept {
        Count,
        First,
        Partner,
        Net,
    }
}

/// A sound book with one mark or net made false in one thing (or false in another way), its check put right.
/// Nothing if the book has no series.
pub fn falsify(random: &mut Random, book: &[u8], what: Kept) -> Option<Vec<u8>> {
    let mut list: Vec<Block> = blocks(book).copied().collect();
    let n = usize::from(list[0][N]);
    let series = slots_of(&list, KIND_SERIES);
    let senders = slots_of(&list, KIND_SENDER);
    if series.is_empty() || senders.is_empty() {
        return None;
    }
    let slot = random.pick(&series);
    match what {
        Kept::Count => {
            let kept = usize::from(list[slot][DIFFER]);
            let next = random.pick(&[kept.saturating_sub(1), (kept + 1).min(n)]);
            let count = if random.percent(65) { next } else { some_count(random, n) };
            list[slot][DIFFER] = count as u8;
        }
        Kept::First => list[slot][FIRST] = random.between(0, n) as u8,
        Kept::Partner => {
            let partner = if random.percent(20) { 0 } else { random.pick(&series) };
            put_u16(&mut list[slot], PARTNER, partner as u16);
        }
        Kept::Net => {
            let net = random.pick(&[0, 1, -1, HIGHEST_NET, -HIGHEST_NET]);
            let at = VALUES + 4 * random.below(n);
            put_u32(&mut list[random.pick(&senders)], at, net as u32);
        }
    }
    Some(sealed(list)).filter(|other| other != book)
}

pub fn slots_of(list: &[Block], kind: u8) -> Vec<usize> {
    (1..list.len()).filter(|&slot| list[slot][KIND] == kind).collect()
}

#[cfg(test)]
mod tests {
    use super::*;
    use crate::sound::is_sound;

    #[test]
    fn crafted_books_are_sound() {
        let mut random = Random::new(7);
        let pool: Vec<Field> = (0..260).map(|_| names::valid_eic(&mut random)).collect();
        for round in 0..400 {
            let shape = if round % 50 == 0 {
                Shape {
                    senders: 3,
                    fewest_series: 150,
                    most_series: 200,
                    free_slots: round % 7,
                    rights: 5,
                    external: 20,
                }
            } else {
                Shape {
                    senders: 1 + round % 4,
                    fewest_series: 1,
                    most_series: 5,
                    free_slots: round % 3,
                    rights: round % 5,
                    external: 40,
                }
            };
            let book = sound_book(&mut random, &pool, &shape);
            assert!(is_sound(&book));
            for &what in Kept::ALL {
                if let Some(false_book) = falsify(&mut random, &book, what) {
                    assert!(is_sound(&false_book));
                }
            }
            let (sender, late) = with_version(&book, HIGHEST_VERSION).expect("there is a sender");
            assert!(is_sound(&late));
            assert!(is_sound(&with_false_partners(&mut random, &book, &sender)));
        }
    }

    #[test]
    fn a_reordered_book_is_the_same_but_for_its_slots() {
        let mut random = Random::new(8);
        let pool: Vec<Field> = (0..20).map(|_| names::valid_eic(&mut random)).collect();
        for free_slots in [0, 3] {
            let shape = Shape { senders: 3, fewest_series: 1, most_series: 5, free_slots, rights: 3, external: 40 };
            let book = sound_book(&mut random, &pool, &shape);
            let used = blocks(&book).skip(1).filter(|block| block[KIND] != 0).count() as u16;
            let mut order: Vec<Slot> = (1..=used).map(Slot).collect();
            assert!(reordered(&book, &order) == book);
            random.shuffle(&mut order);
            let other = reordered(&book, &order);
            assert!(is_sound(&other));
            let back: Vec<Slot> = (1..=used)
                .map(|slot| order.iter().position(|old| old.0 == slot).expect("each once") as u16 + 1)
                .map(Slot)
                .collect();
            assert!(reordered(&other, &back) == book);
        }
    }
}
