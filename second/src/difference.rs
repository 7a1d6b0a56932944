//! At how many positions, and at which, a series differs from its counterpart.

use crate::block::*;
use crate::clause::cases;
use crate::random::Random;

cases! {
    /// On both sides of each edge of the count, and of the lowest position that differs.
    Difference {
        Nowhere "at no position",
        First "at position 1 alone",
        Last "at position n alone",
        Between "at one position between",
        Two "at 2 positions",
        Three "at 3 positions",
        Four "at 4 positions",
        Several "at 5 to n - 2 positions",
        AllButOne "at n - 1 positions",
        All "at all n positions",
    }
}

impl Difference {
    /// What it is to differ at these positions, ascending.
    pub fn of(n: u16, positions: &[u16]) -> Self {
        use Difference::*;
        match positions {
            [] => Nowhere,
            [1] => First,
            [only] if *only == n => Last,
            [_] => Between,
            [_, _] => Two,
            [_, _, _] => Three,
            [_, _, _, _] => Four,
            many if many.len() == usize::from(n) => All,
            many if many.len() + 1 == usize::from(n) => AllButOne,
            _ => Several,
        }
    }

    /// How one series stands to another.
    pub fn between(one: &Block, other: &Block, n: u8) -> Self {
        let positions: Vec<u16> = differing(one, other, n).map(|position| position.0).collect();
        Difference::of(u16::from(n), &positions)
    }

    /// Positions at which a series may differ to be this. It differs at these closed ones already, and
    /// nothing can be done about them. Nothing if it cannot be.
    pub fn made(self, random: &mut Random, n: u16, first_open: u16, closed: &[u16]) -> Option<Vec<u16>> {
        use Difference::*;
        let n_positions = usize::from(n);
        let wanted = match self {
            Nowhere => 0,
            First | Last | Between => 1,
            Two => 2,
            Three => 3,
            Four => 4,
            Several => random.between(5, n_positions - 2),
            AllButOne => n_positions - 1,
            All => n_positions,
        };
        let more = wanted.checked_sub(closed.len())?;
        let mut open: Vec<u16> = (first_open..=n).collect();
        random.shuffle(&mut open);
        // Where there are several, the first or the last is often among them.
        let edge = match self {
            First => Some(1),
            Last => Some(n),
            Between => None,
            _ => random.pick(&[None, None, Some(1), Some(n)]),
        };
        open.sort_by_key(|&position| Some(position) != edge);
        let mut positions = closed.to_vec();
        positions.extend(open.get(..more)?);
        positions.sort_unstable();
        (Difference::of(n, &positions) == self).then_some(positions)
    }
}

/// A quantity other than the one given, often such as differs from it by one bit.
pub fn other_quantity(random: &mut Random, quantity: u32) -> u32 {
    loop {
        let other = match random.below(4) {
            0 => quantity ^ 1,
            1 => quantity ^ (1 << random.below(24)),
            _ => crate::names::quantity(random),
        };
        if other != quantity && other <= HIGHEST_QUANTITY {
            return other;
        }
    }
}

#[cfg(test)]
mod tests {
    use super::*;

    #[test]
    fn each_difference_is_made_as_it_is_told() {
        let mut random = Random::new(5);
        for n in [92u16, 96, 100] {
            let mut made = vec![0; Difference::ALL.len()];
            for first_open in [1, 2, 5, n, n + 1] {
                for &way in Difference::ALL {
                    for closed in [&[][..], &[1], &[1, 2]] {
                        let closed: Vec<u16> = closed.iter().copied().filter(|&p| p < first_open).collect();
                        if let Some(positions) = way.made(&mut random, n, first_open, &closed) {
                            assert_eq!(Difference::of(n, &positions), way);
                            assert!(closed.iter().all(|position| positions.contains(position)));
                            assert!(positions.iter().all(|p| *p >= first_open || closed.contains(p)));
                            made[way as usize] += 1;
                        }
                    }
                }
            }
            assert!(made.iter().all(|&count| count > 0), "{made:?}");
        }
    }

    #[test]
    fn another_quantity_is_another() {
        let mut random = Random::new(6);
        for quantity in [0, 1, 255, 256, 65_536, HIGHEST_QUANTITY - 1, HIGHEST_QUANTITY] {
            for _ in 0..200 {
                let other = other_quantity(&mut random, quantity);
                assert!(other != quantity && other <= HIGHEST_QUANTITY);
            }
        }
    }
}
