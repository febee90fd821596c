//! The numbers given back, by name.

/// Done.
pub const DONE: u16 = 0;
/// The bank is unfit, or a log that is full, or a log entry that is no message.
pub const UNFIT: u16 = 1;
/// Kind not 1 to 7, or an unused number not 0.
pub const KIND: u16 = 2;
/// A controller number of N or more.
pub const CONTROLLER: u16 = 3;
/// A message number not yet given.
pub const MESSAGE: u16 = 4;
/// Detect in majority mode.
pub const MODE: u16 = 5;
/// The acting controller is down.
pub const DOWN: u16 = 6;
/// Broadcast with 32 messages already.
pub const FULL: u16 = 7;
/// Send: not unsent; receive or lose: not in flight; deliver: not held.
pub const ABSENT: u16 = 8;
/// Deliver: the test fails; detect: the other is up; lose: both ends are up.
pub const NOT_YET: u16 = 9;
/// Deliver: already delivered; detect: already known.
pub const ALREADY: u16 = 10;
/// Opening: N not 1 to 16.
pub const OPEN_N: u16 = 11;
/// Opening: mode not 1 or 2.
pub const OPEN_MODE: u16 = 12;
/// A step list not a multiple of four words; a bad record in a file.
pub const RAGGED: u16 = 13;
/// A day above 682.
pub const DAY: u16 = 14;
