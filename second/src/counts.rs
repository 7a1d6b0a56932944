//! Position, slot and minute.
//!
//! The paper counts the three apart and forbids taking one for another, so each is a type of its
//! own.

/// A quarter-hour of the day; the first one is 1.
#[derive(Clone, Copy, Debug, PartialEq, Eq, PartialOrd, Ord, Hash)]
pub struct Position(pub u16);

/// A block's place in the book; the day block stands at 0 and the first slot is 1.
#[derive(Clone, Copy, Debug, PartialEq, Eq, PartialOrd, Ord, Hash)]
pub struct Slot(pub u16);

/// A minute as the day block keeps it: counted from 10,080 minutes before the day's start.
#[derive(Clone, Copy, Debug, PartialEq, Eq, PartialOrd, Ord, Hash)]
pub struct Minute(pub u16);

/// The day's start as a kept minute.
pub const DAY_START: u16 = 10_080;

/// The latest minute a day block may keep, 1,500 minutes after the day's start.
pub const LATEST_MINUTE: u16 = DAY_START + 1_500;

/// The longest lead, in minutes.
pub const LONGEST_LEAD: u16 = 1_440;

impl Position {
    /// Whether the quarter-hour may still be changed: clock plus lead must not have passed the
    /// minute at which it begins. Both sides are shifted by the same 10,080 minutes.
    pub fn is_open(self, clock: Minute, lead: u16) -> bool {
        let begins = u32::from(DAY_START) + 15 * (u32::from(self.0) - 1);
        u32::from(clock.0) + u32::from(lead) <= begins
    }

    /// The opposite of open.
    pub fn is_closed(self, clock: Minute, lead: u16) -> bool {
        !self.is_open(clock, lead)
    }
}
