//! Books of the old layout, made of books in the new one: byte 104 of a series is a state.

use crate::block::*;
use crate::clause::cases;
use crate::counts::Slot;
use crate::crafted::{sealed, slots_of};
use crate::random::Random;

/// The states of document 01.
const NO_COUNTERPART: u8 = 1;
const AGREES: u8 = 2;
const DIFFERS: u8 = 3;

cases! {
    /// What an old book says that is not so, beside what the book it is made of says.
    Falsehood {
        Nothing,
        States,
        Firsts,
        Partners,
        Nets,
        Everything,
    }
}

cases! {
    /// States that no old book has.
    BadState {
        Zero "0",
        Four "4",
        Between "5 to n - 1",
        AtN "n",
        NextToN "n + 1",
        Beyond "above n + 1",
    }
}

impl BadState {
    /// What byte 104 is, if it is no state.
    pub fn of(state: u8, n: u8) -> Option<Self> {
        use BadState::*;
        match state {
            0 => Some(Zero),
            1..=3 => None,
            4 => Some(Four),
            _ if state < n => Some(Between),
            _ if state == n => Some(AtN),
            _ if state == n + 1 => Some(NextToN),
            _ => Some(Beyond),
        }
    }

    fn made(self, random: &mut Random, n: u8) -> u8 {
        match self {
            BadState::Zero => 0,
            BadState::Four => 4,
            BadState::Between => random.between(5, usize::from(n) - 1) as u8,
            BadState::AtN => n,
            BadState::NextToN => n + 1,
            BadState::Beyond => random.pick(&[n + 2, 127, 128, 254, 255]),
        }
    }
}

/// The state that a mark had in the old layout.
pub fn state_of(mark: Mark) -> u8 {
    match (mark.partner, mark.differ) {
        (Slot(0), _) => NO_COUNTERPART,
        (_, 0) => AGREES,
        _ => DIFFERS,
    }
}

/// A sound book in the old layout. Where the book's marks and nets are true, nothing is false in it but what
/// is asked for. Nothing if the book has no series, so that nothing could be.
pub fn old_book(random: &mut Random, book: &[u8], falsehood: Falsehood) -> Option<Vec<u8>> {
    use Falsehood::*;
    let mut list: Vec<Block> = blocks(book).copied().collect();
    let (series, senders) = (slots_of(&list, KIND_SERIES), slots_of(&list, KIND_SENDER));
    if series.is_empty() {
        return (falsehood == Nothing).then(|| book.to_vec());
    }
    for &slot in &series {
        list[slot][DIFFER] = state_of(mark(&list[slot]));
    }
    let all = falsehood == Everything;
    if all || falsehood == States {
        chosen(random, &series).into_iter().for_each(|slot| falsify_state(random, &mut list[slot]));
    }
    if all || falsehood == Firsts {
        chosen(random, &series).into_iter().for_each(|slot| falsify_first(random, &mut list[slot]));
    }
    if all || falsehood == Partners {
        chosen(random, &series).into_iter().for_each(|slot| falsify_partner(random, &mut list[slot], slot, &series));
    }
    if all || falsehood == Nets {
        chosen(random, &senders).into_iter().for_each(|slot| falsify_nets(random, &mut list[slot]));
    }
    Some(sealed(list))
}

/// An old book in which a state, or each of several, is one that no old book has, and nothing else is wrong.
/// Nothing if the book has no series.
pub fn with_bad_state(random: &mut Random, book: &[u8], bad: BadState) -> Option<Vec<u8>> {
    let old = old_book(random, book, Falsehood::Nothing)?;
    let mut list: Vec<Block> = blocks(&old).copied().collect();
    let series = slots_of(&list, KIND_SERIES);
    if series.is_empty() {
        return None;
    }
    for slot in chosen(random, &series) {
        list[slot][DIFFER] = bad.made(random, list[slot][N]);
    }
    Some(sealed(list))
}

/// One of the slots, about half of them, or all.
fn chosen(random: &mut Random, slots: &[usize]) -> Vec<usize> {
    let one = random.pick(slots);
    let often = random.pick(&[0, 0, 50, 100]);
    slots.iter().copied().filter(|&slot| slot == one || random.percent(often)).collect()
}

fn falsify_state(random: &mut Random, series: &mut Block) {
    series[DIFFER] = 1 + (series[DIFFER] + random.below(2) as u8) % 3;
}

fn falsify_first(random: &mut Random, series: &mut Block) {
    let (n, kept) = (usize::from(series[N]), series[FIRST]);
    let candidates = [0, 1, series[N], random.between(0, n) as u8, kept.wrapping_add(1), kept.wrapping_sub(1)];
    let others: Vec<u8> = candidates.into_iter().filter(|&first| first != kept && usize::from(first) <= n).collect();
    series[FIRST] = random.pick(&others);
}

/// No partner, the series itself or any other series.
fn falsify_partner(random: &mut Random, series: &mut Block, own: usize, slots: &[usize]) {
    let kept = usize::from(u16_at(series, PARTNER));
    let candidates = [0, own, random.pick(slots), random.pick(slots)];
    let others: Vec<usize> = candidates.into_iter().filter(|&slot| slot != kept).collect();
    put_u16(series, PARTNER, random.pick(&others) as u16);
}

/// One net off by one, or all of them at one value.
fn falsify_nets(random: &mut Random, sender: &mut Block) {
    let n = usize::from(sender[N]);
    let mut sums = [0; POSITIONS];
    sums.iter_mut().zip(nets(sender)).for_each(|(sum, net)| *sum = net);
    if random.percent(60) {
        let any = random.below(n);
        let at = random.pick(&[0, n - 1, any]);
        sums[at] += if sums[at] > 0 { -1 } else { 1 };
    } else {
        let other = random.pick(&[0, 1, -1, HIGHEST_NET, -HIGHEST_NET]);
        let value = if sums[0] == other { 5 } else { other };
        sums[..n].fill(value);
    }
    put_nets(sender, &sums);
}

#[cfg(test)]
mod tests {
    use super::*;
    use crate::conversion::convert;
    use crate::crafted::{sound_book, Shape};
    use crate::names;
    use crate::readings::plain_run;
    use crate::sound::{broken_clauses, is_sound, is_sound_in_old_layout, Layout, SoundClause};

    fn crafted(random: &mut Random, round: usize) -> Vec<u8> {
        let pool: Vec<Field> = (0..20).map(|_| names::valid_eic(random)).collect();
        let (senders, free_slots, rights) = (1 + round % 4, round % 3, round % 5);
        let shape = Shape { senders, fewest_series: 1, most_series: 5, free_slots, rights, external: 30 };
        sound_book(random, &pool, &shape)
    }

    #[test]
    fn old_books_are_sound_and_convert_to_the_true_book() {
        let mut random = Random::new(7);
        for round in 0..200 {
            let mut true_book =
                old_book(&mut random, &crafted(&mut Random::new(round), round as usize), Falsehood::Nothing)
                    .expect("there are series");
            assert_eq!(convert(&mut true_book), 0);
            assert_eq!(plain_run(&true_book), (0, true));
            for &falsehood in Falsehood::ALL {
                let mut old = old_book(&mut random, &true_book, falsehood).expect("there are series");
                assert!(is_sound_in_old_layout(&old) && is_sound(&old));
                assert_eq!(convert(&mut old), 0);
                assert!(old == true_book, "{falsehood:?}");
            }
        }
    }

    #[test]
    fn a_bad_state_is_all_that_is_wrong() {
        let mut random = Random::new(8);
        for round in 0..100 {
            let book = crafted(&mut random, round);
            for &bad in BadState::ALL {
                let spoilt = with_bad_state(&mut random, &book, bad).expect("there are series");
                assert_eq!(broken_clauses(&spoilt, Layout::Old), SoundClause::Byte104.bit());
                assert_eq!(is_sound(&spoilt), !matches!(bad, BadState::NextToN | BadState::Beyond));
                let mut copy = spoilt.clone();
                assert_eq!(convert(&mut copy), 1);
                assert!(copy == spoilt);
            }
        }
    }
}
