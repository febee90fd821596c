//! The archives, linked: the C face, the walk over step records and the calls on words, each wrapped so that it is
//! called on slices.
#![allow(unsafe_code)]

use crate::answer::{Day, LogLength, Ran, Settled};
use crate::calls::{Calls, Record};

const _: () = assert!(size_of::<Settled>() == 6);
const _: () = assert!(size_of::<Day>() == 8);
const _: () = assert!(size_of::<Ran>() == 16);
const _: () = assert!(size_of::<LogLength>() == 4);

extern "C" {
    fn loargwen_open(bank: *mut u8, len: usize, n: u16, mode: u16) -> u16;
    fn loargwen_step(bank: *mut u8, len: usize, kind: u16, a: u16, b: u16, c: u16) -> u16;
    fn loargwen_settle(bank: *mut u8, len: usize, budget: u16) -> Settled;
    fn loargwen_tally(bank: *const u8, len: usize, who: u16, day: u16) -> Day;

    fn run_steps(bank: *mut u16, len: usize, steps: *const Record, count: usize) -> Ran;

    fn words_run(bank: *mut u16, len: usize, steps: *const u16, count: usize) -> Ran;
    fn words_refusal(bank: *const u16, len: usize, kind: u16, a: u16, b: u16, c: u16) -> u16;
    fn words_log_length(bank: *const u16, len: usize, who: u16) -> LogLength;
    fn words_log(bank: *const u16, len: usize, who: u16, out: *mut u16, room: usize) -> usize;
}

/// The archives.
pub struct Archive;

// SAFETY, in each call: every pointer and the length beside it are those of one lent slice, which is written only
// where it is lent so.
impl Calls for Archive {
    fn open(&self, bank: &mut [u8], n: u16, mode: u16) -> u16 {
        unsafe { loargwen_open(bank.as_mut_ptr(), bank.len(), n, mode) }
    }

    fn step(&self, bank: &mut [u8], [kind, a, b, c]: Record) -> u16 {
        unsafe { loargwen_step(bank.as_mut_ptr(), bank.len(), kind, a, b, c) }
    }

    fn settle(&self, bank: &mut [u8], budget: u16) -> Settled {
        unsafe { loargwen_settle(bank.as_mut_ptr(), bank.len(), budget) }
    }

    fn tally(&self, bank: &[u8], who: u16, day: u16) -> Day {
        unsafe { loargwen_tally(bank.as_ptr(), bank.len(), who, day) }
    }

    fn run(&self, bank: &mut [u16], steps: &[u16]) -> Ran {
        unsafe { words_run(bank.as_mut_ptr(), bank.len(), steps.as_ptr(), steps.len()) }
    }

    fn run_steps(&self, bank: &mut [u16], steps: &[Record]) -> Ran {
        unsafe { run_steps(bank.as_mut_ptr(), bank.len(), steps.as_ptr(), steps.len()) }
    }

    fn refusal(&self, bank: &[u16], [kind, a, b, c]: Record) -> u16 {
        unsafe { words_refusal(bank.as_ptr(), bank.len(), kind, a, b, c) }
    }

    fn log_length(&self, bank: &[u16], who: u16) -> LogLength {
        unsafe { words_log_length(bank.as_ptr(), bank.len(), who) }
    }

    fn log(&self, bank: &[u16], who: u16, out: &mut [u16]) -> usize {
        unsafe { words_log(bank.as_ptr(), bank.len(), who, out.as_mut_ptr(), out.len()) }
    }
}
