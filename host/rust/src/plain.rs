//! The plain version, as calls: on words as they stand, on bytes through words.

use crate::answer::{Day, LogLength, Ran, Settled};
use crate::calls::{Calls, Record};
use crate::layout::WORDS;
use crate::refusal::{DONE, UNFIT};
use crate::words;

/// The plain version.
pub struct Plain;

/// Makes a call, which gives its refusal first, on the words of a bank and writes them back if it was not refused;
/// `None` when the length is wrong.
fn through<T>(bank: &mut [u8], call: impl FnOnce(&mut [u16]) -> (u16, T)) -> Option<T> {
    let mut words = [0; WORDS];
    if !words::load(&mut words, bank) {
        return None;
    }
    let (refusal, answer) = call(&mut words);
    if refusal == DONE {
        words::to_bytes(&words, bank);
    }
    Some(answer)
}

/// The pair that `through` wants of a call that answers its refusal alone.
fn twice(refusal: u16) -> (u16, u16) {
    (refusal, refusal)
}

impl Calls for Plain {
    fn open(&self, bank: &mut [u8], n: u16, mode: u16) -> u16 {
        through(bank, |words| twice(words::open(words, n, mode))).unwrap_or(UNFIT)
    }

    fn step(&self, bank: &mut [u8], step: Record) -> u16 {
        through(bank, |words| twice(words::step(words, step))).unwrap_or(UNFIT)
    }

    fn settle(&self, bank: &mut [u8], budget: u16) -> Settled {
        let settled = through(bank, |words| {
            let settled = words::settle(words, budget);
            (settled.refusal, settled)
        });
        settled.unwrap_or(Settled::refused(UNFIT))
    }

    fn tally(&self, bank: &[u8], who: u16, day: u16) -> Day {
        let mut words = [0; WORDS];
        if !words::load(&mut words, bank) {
            return Day::refused(UNFIT);
        }
        words::tally(&words, who, day)
    }

    fn run(&self, bank: &mut [u16], steps: &[u16]) -> Ran {
        words::run_flat(bank, steps)
    }

    fn run_steps(&self, bank: &mut [u16], steps: &[Record]) -> Ran {
        words::run(bank, steps)
    }

    fn refusal(&self, bank: &[u16], step: Record) -> u16 {
        words::step(&mut bank.to_vec(), step)
    }

    fn log_length(&self, bank: &[u16], who: u16) -> LogLength {
        match words::log_of(bank, who) {
            Ok(log) => LogLength {
                refusal: DONE,
                length: log.len() as u16,
            },
            Err(refusal) => LogLength { refusal, length: 0 },
        }
    }

    fn log(&self, bank: &[u16], who: u16, out: &mut [u16]) -> usize {
        let log = words::log_of(bank, who).unwrap_or(&[]);
        let copied = log.len().min(out.len());
        out[..copied].copy_from_slice(&log[..copied]);
        log.len()
    }
}
