//! The day tally: one log entry at a time, counted in exactly one day.

use crate::plant::Plant;
use crate::refusal::{DAY, UNFIT};
use crate::rules::Group;

/// The last day of a season.
pub const LAST_DAY: u16 = 682;
/// Quarter hours in a day.
pub const QUARTERS: u16 = 96;

/// What one day holds so far.
#[derive(Clone, Copy, PartialEq, Eq, Debug, Default)]
pub struct Tally {
    /// How many readings.
    pub count: u16,
    /// Their sum.
    pub sum: u32,
}

impl Tally {
    /// The tally with one more reading, if that reading is of the day.
    fn add(self, of_the_day: bool, value: u16) -> Tally {
        if !of_the_day {
            return self;
        }
        Tally {
            count: self.count + 1,
            sum: self.sum + u32::from(value),
        }
    }
}

impl Group {
    /// The tally of a controller's log for a day: tests 3, 14, then 1 for an entry that is no message.
    pub fn tally(&self, who: u16, day: u16) -> Result<Tally, u16> {
        let log = self.log(who)?;
        if day > LAST_DAY {
            return Err(DAY);
        }
        if log.iter().any(|&entry| !self.given(entry)) {
            return Err(UNFIT);
        }
        Ok(log.iter().fold(Tally::default(), |tally, &entry| {
            let message = &self.messages[usize::from(entry)];
            tally.add(self.day_of(message.stamp) == day, message.value)
        }))
    }

    /// The day that owns a stamp.
    fn day_of(&self, stamp: u16) -> u16 {
        if self.planted(Plant::Midnight) {
            return stamp.saturating_add(1) / QUARTERS;
        }
        stamp / QUARTERS
    }
}
