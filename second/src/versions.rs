//! How the version of a message stands to the one that the book keeps of its sender.

use crate::block::*;
use crate::clause::cases;
use crate::random::Random;

cases! {
    /// On both sides of each edge of rule 6.
    VersionCase {
        NewZero "new sender, 0",
        NewOne "new sender, 1",
        NewHigher "new sender, 2 to 998",
        NewHighest "new sender, 999",
        NewThousand "new sender, 1,000",
        NewBeyond "new sender, above 1,000",
        Zero "0 after 1 to 998",
        Lower "lower than the kept one, above 0",
        Equal "equal to the kept one, below 999",
        Next "one more, up to 998",
        NextHighest "999 after 998",
        Jump "two more or above, up to 998",
        JumpHighest "999 after less than 998",
        Thousand "1,000 after 1 to 998",
        Beyond "above 1,000 after 1 to 998",
        HighestLower "998 or lower after 999",
        HighestEqual "999 after 999",
        HighestBeyond "1,000 or above after 999",
    }
}

impl VersionCase {
    /// What a version is after the kept one; a new sender has none.
    pub fn of(kept: Option<u16>, version: u16) -> Self {
        use VersionCase::*;
        match (kept, version) {
            (None, 0) => NewZero,
            (None, 1) => NewOne,
            (None, 2..=998) => NewHigher,
            (None, 999) => NewHighest,
            (None, 1_000) => NewThousand,
            (None, _) => NewBeyond,
            (Some(999), 0..=998) => HighestLower,
            (Some(999), 999) => HighestEqual,
            (Some(999), _) => HighestBeyond,
            (Some(_), 0) => Zero,
            (Some(_), 1_000) => Thousand,
            (Some(_), 1_001..) => Beyond,
            (Some(998), 999) => NextHighest,
            (Some(_), 999) => JumpHighest,
            (Some(kept), _) if version < kept => Lower,
            (Some(kept), _) if version == kept => Equal,
            (Some(kept), _) if version == kept + 1 => Next,
            (Some(_), _) => Jump,
        }
    }

    /// A version that is this after the kept one, if there can be one.
    pub fn made(self, random: &mut Random, kept: Option<u16>) -> Option<u16> {
        use VersionCase::*;
        let stored = kept.unwrap_or(0);
        let mut between = |low: u16, high: u16| match high.checked_sub(low)? {
            0 => Some(low),
            // Often near the ends.
            wide => Some(match random.below(6) {
                0 => low,
                1 => high,
                2 => low + wide.min(random.below(4) as u16),
                _ => random.between(usize::from(low), usize::from(high)) as u16,
            }),
        };
        let version = match self {
            NewZero | Zero => Some(0),
            NewOne => Some(1),
            NewHigher => between(2, 998),
            NewHighest | NextHighest | JumpHighest | HighestEqual => Some(999),
            NewThousand | Thousand => Some(1_000),
            NewBeyond | Beyond => between(1_001, 65_535),
            Lower => between(1, stored.checked_sub(1)?),
            Equal => Some(stored),
            Next => stored.checked_add(1),
            Jump => between(stored.checked_add(2)?, 998),
            HighestLower => between(0, 998),
            HighestBeyond => between(1_000, 65_535),
        }?;
        (VersionCase::of(kept, version) == self).then_some(version)
    }

    /// Whether it is of a sender that the book does not hold, and rule 6 takes it.
    fn enters(self) -> bool {
        matches!(self, VersionCase::NewOne | VersionCase::NewHigher | VersionCase::NewHighest)
    }
}

/// What is to be shown of versions by one message.
#[derive(Clone, Copy, Debug, PartialEq, Eq)]
pub enum VersionTurn {
    /// Nothing else is wrong.
    Case(VersionCase),
    /// A higher version whose low byte is lower.
    LowByteFalls,
    /// A lower version whose low byte is higher.
    LowByteRises,
    /// Versions are left out, and the id is another.
    OtherId,
    /// Versions are left out, and new and changed series count on from the kept one.
    SeriesCountsOn,
    /// The same from a new sender.
    NewSeriesCountsOn,
}

impl VersionTurn {
    /// All of them, each once.
    pub fn all() -> Vec<VersionTurn> {
        use VersionTurn::*;
        let others = [LowByteFalls, LowByteRises, OtherId, SeriesCountsOn, NewSeriesCountsOn];
        VersionCase::ALL.iter().map(|&case| Case(case)).chain(others).collect()
    }

    /// A version that shows it after the kept one, if there can be one.
    pub fn made(self, random: &mut Random, kept: Option<u16>) -> Option<u16> {
        let (stored, low) = (kept.unwrap_or(0), kept.unwrap_or(0) & 255);
        match self {
            VersionTurn::Case(case) => case.made(random, kept),
            VersionTurn::LowByteFalls if low > 0 => {
                let version = stored - low + 256 + random.below(usize::from(low)) as u16;
                (version <= HIGHEST_VERSION).then_some(version)
            }
            VersionTurn::LowByteRises if stored > 255 && low < 255 => {
                Some(stored - low - 256 + random.between(usize::from(low) + 1, 255) as u16)
            }
            VersionTurn::LowByteFalls | VersionTurn::LowByteRises => None,
            VersionTurn::OtherId | VersionTurn::SeriesCountsOn => VersionCase::Jump.made(random, kept),
            VersionTurn::NewSeriesCountsOn => VersionCase::NewHigher.made(random, kept),
        }
    }

    /// Whether it asks for room for a new sender.
    pub fn needs_room(self) -> bool {
        matches!(self, VersionTurn::Case(case) if case.enters())
    }
}

/// What a book keeps of a sender, sound or not.
pub fn kept_sender<'book>(book: &'book [u8], sender: &Field) -> Option<&'book Block> {
    blocks(book).skip(1).find(|block| block[KIND] == KIND_SENDER && field(block, SENDER) == *sender)
}

/// The version that a book keeps of a sender.
pub fn kept_version(book: &[u8], sender: &Field) -> Option<u16> {
    kept_sender(book, sender).map(|block| u16_at(block, VERSION))
}

/// A lawful version, if there is one left: mostly the next, else not so far that the sender soon comes to
/// the last.
pub fn lawful_version(random: &mut Random, kept: Option<u16>) -> u16 {
    let next = kept.unwrap_or(0).wrapping_add(1);
    let room = usize::from(HIGHEST_VERSION.saturating_sub(next));
    let step = match random.below(10) {
        0 => random.between(0, room / 3),
        1 | 2 => random.between(1, 4).min(room),
        _ => 0,
    };
    next + step as u16
}

#[cfg(test)]
mod tests {
    use super::*;

    #[test]
    fn each_case_is_made_as_it_is_told() {
        let mut random = Random::new(5);
        let mut made = vec![0; VersionCase::ALL.len()];
        for kept in std::iter::once(None).chain((1..=HIGHEST_VERSION).map(Some)) {
            for &case in VersionCase::ALL {
                for _ in 0..20 {
                    if let Some(version) = case.made(&mut random, kept) {
                        assert_eq!(VersionCase::of(kept, version), case);
                        made[case as usize] += 1;
                    }
                }
            }
            let lawful = lawful_version(&mut random, kept);
            assert!(lawful > kept.unwrap_or(0) && (lawful <= HIGHEST_VERSION || kept == Some(HIGHEST_VERSION)));
        }
        assert!(made.iter().all(|&count| count >= 20), "{made:?}");
    }
}
