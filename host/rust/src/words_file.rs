//! The bench on the plain version: a file of records in, the printed text out, for ratios.

use std::fmt::Write;

use crate::layout::{
    length, log, record, COUNT, DELIVERED, HELD, MODE, N, SENDER, STAMP, UP, VALUE, WORDS,
};
use crate::refusal;
use crate::words;

const LONGEST: usize = 65_536;
const SETTLE: u16 = 17;

/// Runs a file and hands back what is printed.
pub fn run(input: &[u8]) -> Vec<u8> {
    let mut out = String::new();
    let mut bank = [0; WORDS];
    let opened = open(&mut bank, input);
    if opened != refusal::DONE {
        let _ = writeln!(out, "end 0 {opened}");
        return out.into_bytes();
    }
    let mut rest = &input[8..];
    let mut steps = 0;
    let mut refused = refusal::DONE;
    while !rest.is_empty() && refused == refusal::DONE {
        match record_at(rest) {
            Ok((body, after)) => {
                rest = after;
                refused = apply(&mut bank, body, &mut steps);
            }
            Err(refusal) => refused = refusal,
        }
    }
    report(&mut out, &bank);
    let _ = writeln!(out, "end {steps} {refused}");
    out.into_bytes()
}

fn number(bytes: &[u8], place: usize) -> u16 {
    u16::from_le_bytes([bytes[2 * place], bytes[2 * place + 1]])
}

fn open(bank: &mut [u16], input: &[u8]) -> u16 {
    if input.len() > LONGEST || input.len() < 8 || !input.starts_with(&[6, 0, 16, 0]) {
        return refusal::RAGGED;
    }
    words::open(bank, number(input, 2), number(input, 3))
}

/// The record at the front, without its length, and what follows it.
fn record_at(rest: &[u8]) -> Result<(&[u8], &[u8]), u16> {
    let (head, rest) = rest.split_at_checked(2).ok_or(refusal::RAGGED)?;
    let size = usize::from(number(head, 0));
    let (body, rest) = rest.split_at_checked(size).ok_or(refusal::RAGGED)?;
    if size < 4 || size % 2 == 1 {
        return Err(refusal::RAGGED);
    }
    let right = match number(body, 0) {
        1..=3 | 7 => 8,
        4 | 6 => 6,
        5 | SETTLE => 4,
        _ => return Err(refusal::KIND),
    };
    if size == right {
        Ok((body, rest))
    } else {
        Err(refusal::RAGGED)
    }
}

fn apply(bank: &mut [u16], body: &[u8], steps: &mut u32) -> u16 {
    if number(body, 0) == SETTLE {
        *steps += u32::from(words::settle(bank, number(body, 1)).steps);
        return refusal::DONE;
    }
    let mut numbers = [0; 4];
    for (place, slot) in numbers.iter_mut().take(body.len() / 2).enumerate() {
        *slot = number(body, place);
    }
    let refused = words::step(bank, numbers);
    *steps += u32::from(refused == refusal::DONE);
    refused
}

fn report(out: &mut String, bank: &[u16]) {
    let _ = writeln!(out, "group {} {}", bank[N], bank[MODE]);
    for message in 0..usize::from(bank[COUNT]) {
        let words = &bank[record(message)..];
        let _ = writeln!(
            out,
            "msg {message} from {} at {} value {} held {:04X} delivered {:04X}",
            words[SENDER], words[STAMP], words[VALUE], words[HELD], words[DELIVERED]
        );
    }
    for who in 0..usize::from(bank[N]) {
        let state = if bank[UP] >> who & 1 == 1 {
            "up"
        } else {
            "down"
        };
        let _ = write!(out, "ctl {who} {state} log");
        for message in &bank[log(who)..log(who) + usize::from(bank[length(who)])] {
            let _ = write!(out, " {message}");
        }
        out.push('\n');
    }
}
