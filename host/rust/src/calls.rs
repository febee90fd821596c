//! The calls under test: four on a bank's bytes, which are the C face, and five on its words.

use crate::answer::{Day, LogLength, Ran, Settled};

/// A step record: its kind and three numbers.
pub type Record = [u16; 4];

/// The calls.
pub trait Calls {
    /// Opens a group.
    fn open(&self, bank: &mut [u8], n: u16, mode: u16) -> u16;
    /// Takes one step.
    fn step(&self, bank: &mut [u8], step: Record) -> u16;
    /// Settles within a budget.
    fn settle(&self, bank: &mut [u8], budget: u16) -> Settled;
    /// The tally of a controller for a day.
    fn tally(&self, bank: &[u8], who: u16, day: u16) -> Day;

    /// Applies a list of steps, four words each, up to the first refusal.
    fn run(&self, bank: &mut [u16], steps: &[u16]) -> Ran;
    /// The same of step records.
    fn run_steps(&self, bank: &mut [u16], steps: &[Record]) -> Ran;
    /// What refuses a step, or 0.
    fn refusal(&self, bank: &[u16], step: Record) -> u16;
    /// How long a log is.
    fn log_length(&self, bank: &[u16], who: u16) -> LogLength;
    /// Copies the used part of a log into a buffer, as far as it reaches; that part's length.
    fn log(&self, bank: &[u16], who: u16, out: &mut [u16]) -> usize;
}
