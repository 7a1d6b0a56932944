//! Crafted books for settled positions: a few parties whose trades show each case of a final, both ways, with external
//! schedules beside them; no trades at all; and many sellers of one buyer.

use crate::block::*;
use crate::counts::{Position, DAY_START};
use crate::crafted::{book_of, day_block, filing_of, NO_SENDER};
use crate::external::{self, foreign_area, put_areas};
use crate::final_case::FinalCase;
use crate::names;
use crate::random::Random;

/// So many sellers of the highest quantity sell more to one buyer than 32 bits hold.
pub const FEWEST_SELLERS: usize = 430;
/// A book of 1,001 blocks has room for so many that each file one trade.
pub const MOST_SELLERS: usize = 500;

/// The cases in which somebody filed.
pub const FILED: [FinalCase; 5] =
    [FinalCase::SellerLess, FinalCase::BuyerLess, FinalCase::Equal, FinalCase::SellerAlone, FinalCase::BuyerAlone];

/// What one side files of a trade.
type Profile = [u32; POSITIONS];

/// A series that a sender files; an external schedule has the pair of an internal trade.
#[derive(Clone, Copy)]
struct Filed {
    sender: usize,
    in_party: Field,
    out_party: Field,
    profile: Profile,
    external: bool,
}

/// Moves the clock of a day block so that just the positions up to this one are closed, often to the first or to the
/// last minute at which they are. The caller seals the block afterwards.
pub fn close_up_to(random: &mut Random, day: &mut Block, last: u16) {
    let latest = DAY_START + 15 * last - u16_at(day, LEAD);
    let earliest = if last == 0 { 0 } else { latest - 14 };
    let any = random.between(usize::from(earliest), usize::from(latest)) as u16;
    put_u16(day, CLOCK, random.pick(&[earliest, latest, any]));
}

/// Up to which position a day is to be closed, often the first or the last.
pub fn some_last(random: &mut Random, n: u8) -> u16 {
    let any = random.between(1, usize::from(n)) as u16;
    random.pick(&[1, u16::from(n), any, any, any])
}

/// A day block of this rule on which at least one position is closed.
fn closed_day(random: &mut Random, pool: &[Field], rule: u8) -> Block {
    let mut day = day_block(random, pool);
    day[RULE] = rule;
    let last = some_last(random, day[N]);
    close_up_to(random, &mut day, last);
    day
}

/// A sound book of this rule with a trade in this case. Others stand beside it, many with the same two parties turned
/// round. Some of its parties are no senders, and a sender may have external schedules alone.
pub fn market(random: &mut Random, pool: &[Field], rule: u8, case: FinalCase) -> Vec<u8> {
    let day = closed_day(random, pool, rule);
    let mut codes = pool.to_vec();
    random.shuffle(&mut codes);
    let parties = &codes[..random.between(2, 6)];
    // The first two file; so do most others.
    let senders = random.between(2, parties.len());
    let mut filed = trades(random, parties, senders, case, usize::from(day[N]));
    let twins: Vec<Filed> = filed.iter().filter(|_| random.percent(20)).copied().collect();
    for twin in twins {
        let profile = names::profile(random, usize::from(day[N]));
        filed.push(Filed { profile, external: true, ..twin });
    }
    let alone = parties.len();
    if random.percent(30) {
        filed.push(external_alone(random, alone, codes[alone], usize::from(day[N])));
    }
    let mut list = Vec::new();
    for sender in (0..=alone).filter(|&sender| filed.iter().any(|one| one.sender == sender)) {
        let own: Vec<Filed> = filed.iter().filter(|one| one.sender == sender).copied().collect();
        list.extend(blocks_of(random, &day, &codes[sender], &own).into_iter().map(|block| (sender, block)));
    }
    if random.percent(40) {
        let holder = random.pick(&codes[..alone + 3]);
        list.push((NO_SENDER, external::right(random, &day, &holder, pool)));
    }
    let free_slots = random.below(4);
    book_of(random, day, list, alone + 1, free_slots)
}

/// An external schedule whose sender is both parties.
fn external_alone(random: &mut Random, sender: usize, code: Field, n: usize) -> Filed {
    Filed { sender, in_party: code, out_party: code, profile: names::profile(random, n), external: true }
}

/// A sound book without an internal trade, often with an external schedule or a right.
pub fn without_trades(random: &mut Random, pool: &[Field]) -> Vec<u8> {
    let rule = random.pick(&[SELLERS_RULE, LESSER_RULE]);
    let day = closed_day(random, pool, rule);
    let (sender, holder) = (random.pick(pool), random.pick(pool));
    let mut list = Vec::new();
    if random.percent(50) {
        let filed = external_alone(random, 0, sender, usize::from(day[N]));
        list.extend(blocks_of(random, &day, &sender, &[filed]).into_iter().map(|block| (0, block)));
    }
    if random.percent(50) {
        list.push((NO_SENDER, external::right(random, &day, &holder, pool)));
    }
    book_of(random, day, list, 1, 2)
}

/// What the parties file, the first so many of which are senders: the first sells to the second in this case, any
/// others trade in any case that their being senders allows.
fn trades(random: &mut Random, parties: &[Field], senders: usize, case: FinalCase, n: usize) -> Vec<Filed> {
    let mut filed = Vec::new();
    for out_place in 0..parties.len() {
        for in_place in (0..parties.len()).filter(|&in_place| in_place != out_place) {
            let case = match (out_place < senders, in_place < senders) {
                _ if (out_place, in_place) == (0, 1) => case,
                _ if random.percent(50) => continue,
                (true, true) => random.pick(&FILED),
                (true, false) => FinalCase::SellerAlone,
                (false, true) => FinalCase::BuyerAlone,
                (false, false) => continue,
            };
            let (sold, bought) = profiles(random, case, n);
            for (sender, profile) in [(out_place, sold), (in_place, bought)] {
                filed.extend(profile.map(|profile| Filed {
                    sender,
                    in_party: parties[in_place],
                    out_party: parties[out_place],
                    profile,
                    external: false,
                }));
            }
        }
    }
    filed
}

/// What seller and buyer file in this case. It holds at every position.
fn profiles(random: &mut Random, case: FinalCase, n: usize) -> (Option<Profile>, Option<Profile>) {
    let mut less = names::profile(random, n);
    let mut more = [0; POSITIONS];
    let next = random.percent(50);
    for (less, more) in less.iter_mut().zip(&mut more).take(n) {
        *less = (*less).clamp(1, HIGHEST_QUANTITY - 1);
        let room = (HIGHEST_QUANTITY - *less) as usize;
        *more = *less + if next { 1 } else { random.between(1, room) as u32 };
    }
    match case {
        FinalCase::SellerLess => (Some(less), Some(more)),
        FinalCase::BuyerLess => (Some(more), Some(less)),
        FinalCase::Equal => (Some(more), Some(more)),
        FinalCase::SellerAlone => (Some(more), None),
        FinalCase::BuyerAlone => (None, Some(more)),
        FinalCase::Neither => (None, None),
    }
}

/// A sender's block and the series that it files.
fn blocks_of(random: &mut Random, day: &Block, sender: &Field, filed: &[Filed]) -> Vec<Block> {
    let pairs: Vec<(Field, Field)> = filed.iter().map(|one| (one.in_party, one.out_party)).collect();
    let mut list = filing_of(random, day, sender, &pairs);
    for (series, one) in list.iter_mut().skip(1).zip(filed) {
        (1..).map(Position).zip(one.profile).for_each(|(position, value)| put_quantity(series, position, value));
        if one.external {
            turn_external(random, series, &field(day, AREA));
        }
    }
    list
}

/// Makes a series an external schedule, with capacity or without. It need not be on a right to be sound.
fn turn_external(random: &mut Random, series: &mut Block, area: &Field) {
    let other = foreign_area(random, area, &[]);
    put_areas(random, series, area, &other);
    if random.percent(50) {
        series[BUSINESS_TYPE] = WITHOUT_CAPACITY;
    } else {
        series[BUSINESS_TYPE] = WITH_CAPACITY;
        series[CONTRACT_TYPE] = external::contract_type(random);
        put_field(series, AGREEMENT, &names::id(random));
    }
}

/// A sound book in which so many sellers sell the highest quantity to one buyer throughout, each by a trade of its own.
/// Only the seller's rule gives the buyer all of it: a sender files 200 trades at most, so the buyer can't answer them.
pub fn crowd(random: &mut Random, pool: &[Field], sellers: usize) -> Vec<u8> {
    let day = closed_day(random, pool, SELLERS_RULE);
    let mut codes: Vec<Field> = Vec::new();
    while codes.len() <= sellers {
        let code = names::valid_eic(random);
        if !codes.contains(&code) {
            codes.push(code);
        }
    }
    let mut profile = [0; POSITIONS];
    profile[..usize::from(day[N])].fill(HIGHEST_QUANTITY);
    let mut list = Vec::new();
    for sender in 0..sellers {
        let filed = Filed { sender, in_party: codes[sellers], out_party: codes[sender], profile, external: false };
        list.extend(blocks_of(random, &day, &codes[sender], &[filed]).into_iter().map(|block| (sender, block)));
    }
    book_of(random, day, list, sellers, 0)
}

#[cfg(test)]
mod tests {
    use super::*;
    use crate::book::SoundBook;
    use crate::final_case::{last_closed, sides};
    use crate::settlement::{pairs, parties, settled_in};
    use crate::sound::{is_sound, MOST_BLOCKS};

    fn pool() -> Vec<Field> {
        let mut random = Random::new(7);
        (0..20).map(|_| names::valid_eic(&mut random)).collect()
    }

    #[test]
    fn markets_are_sound_and_show_their_case() {
        let mut random = Random::new(8);
        for round in 0..500 {
            let (rule, case) = ([SELLERS_RULE, LESSER_RULE][round % 2], FILED[round % FILED.len()]);
            let book = market(&mut random, &pool(), rule, case);
            let sound = SoundBook::of(&book).expect("a market is sound");
            let last = Position(last_closed(sound.day()));
            assert!(last.0 > 0 && sound.rule() == rule);
            let cases = pairs(&sound).into_iter().map(|(out, bought_by)| sides(&book, &out, &bought_by, last));
            assert!(cases.into_iter().any(|sides| FinalCase::of(sides) == Some(case)));
            let other = without_trades(&mut random, &pool());
            assert!(parties(&SoundBook::of(&other).expect("a book without trades is sound")).is_empty());
        }
    }

    #[test]
    fn a_day_is_closed_up_to_the_position_asked_for() {
        let mut random = Random::new(9);
        for _ in 0..200 {
            let mut day = day_block(&mut random, &pool());
            for last in 0..=u16::from(day[N]) {
                close_up_to(&mut random, &mut day, last);
                assert_eq!(last_closed(&day), last);
            }
        }
    }

    #[test]
    fn the_fewest_sellers_of_a_crowd_sell_more_than_32_bits_hold() {
        let mut random = Random::new(10);
        let book = crowd(&mut random, &pool(), FEWEST_SELLERS);
        let sound = SoundBook::of(&book).expect("a crowd is sound");
        let highest = parties(&sound).iter().map(|party| settled_in(&sound, party, Position(1)).1.bought).max();
        assert_eq!(highest, Some(4_299_999_570));
        assert_eq!(highest.map(|sum| sum > u64::from(u32::MAX)), Some(true));
        assert_eq!(parties(&sound).len(), FEWEST_SELLERS + 1);
        let largest = crowd(&mut random, &pool(), MOST_SELLERS);
        assert!(is_sound(&largest) && largest.len() == MOST_BLOCKS * BLOCK_BYTES);
    }
}
