//! What the calls answer, in numbers, laid out as the archives hand it over.

/// The settler's answer.
#[repr(C)]
#[derive(Clone, Copy, PartialEq, Eq, Debug, Default)]
pub struct Settled {
    /// 0 or 1.
    pub refusal: u16,
    /// The steps taken.
    pub steps: u16,
    /// 1 when no step is left, else 0.
    pub quiet: u16,
}

/// The tally's answer.
#[repr(C)]
#[derive(Clone, Copy, PartialEq, Eq, Debug, Default)]
pub struct Day {
    /// 0 or the refusal.
    pub refusal: u16,
    /// How many entries of the log fall on that day.
    pub count: u16,
    /// The sum of their values.
    pub sum: u32,
}

/// A list's answer.
#[repr(C)]
#[derive(Clone, Copy, PartialEq, Eq, Debug, Default)]
pub struct Ran {
    /// The steps accepted.
    pub accepted: usize,
    /// 0, or the refusal that ended the list.
    pub refusal: u16,
}

/// The answer to the question how long a log is.
#[repr(C)]
#[derive(Clone, Copy, PartialEq, Eq, Debug, Default)]
pub struct LogLength {
    /// 0 or the refusal.
    pub refusal: u16,
    /// The length of the used part.
    pub length: u16,
}

impl Settled {
    /// The answer that goes with a refusal.
    pub fn refused(refusal: u16) -> Settled {
        Settled {
            refusal,
            ..Settled::default()
        }
    }
}

impl Day {
    /// The answer that goes with a refusal.
    pub fn refused(refusal: u16) -> Day {
        Day {
            refusal,
            ..Day::default()
        }
    }
}
