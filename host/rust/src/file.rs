//! The bench's file and its printed text, on the rules of plain sets: bytes in, bytes out.

use crate::plant::Plant;
use crate::refusal::{DONE, KIND, RAGGED};
use crate::rules::{Group, Message};
use crate::set::Set;

/// A file may be so long.
pub const LONGEST: usize = 65_536;
/// The kind of an opening.
pub const OPEN: u16 = 16;
/// The kind of a settling.
pub const SETTLE: u16 = 17;

/// How many numbers a record of a known kind carries after its kind.
pub fn numbers_of(kind: u16) -> Option<usize> {
    match kind {
        1 | 2 | 3 | 7 => Some(3),
        4 | 6 | OPEN => Some(2),
        5 | SETTLE => Some(1),
        _ => None,
    }
}

/// Runs a file and hands back what the bench prints.
pub fn run(input: &[u8]) -> Vec<u8> {
    run_planted(input, None)
}

/// The same, with a fault in the rules.
pub fn run_planted(input: &[u8], plant: Option<Plant>) -> Vec<u8> {
    let mut group = match begin(input) {
        Ok(group) => group,
        Err(refusal) => return last_line(0, refusal).into_bytes(),
    };
    group.plant = plant;
    let mut steps = 0;
    let mut refusal = DONE;
    let mut rest = &input[8..];
    while refusal == DONE && !rest.is_empty() {
        match record(rest) {
            Err(bad) => refusal = bad,
            Ok((numbers, after)) => {
                refusal = apply(&mut group, &numbers, &mut steps);
                rest = after;
            }
        }
    }
    let mut text = text_of(&group);
    text.push_str(&last_line(steps, refusal));
    text.into_bytes()
}

/// The u16 numbers of some bytes, low byte first.
fn numbers(bytes: &[u8]) -> Vec<u16> {
    let pairs = bytes.chunks_exact(2);
    pairs
        .map(|pair| u16::from(pair[0]) + 256 * u16::from(pair[1]))
        .collect()
}

/// The group that the file opens.
fn begin(input: &[u8]) -> Result<Group, u16> {
    if input.len() > LONGEST || input.len() < 8 {
        return Err(RAGGED);
    }
    let first = numbers(&input[..8]);
    if first[0] != 6 || first[1] != OPEN {
        return Err(RAGGED);
    }
    Group::open(first[2], first[3])
}

/// The next record's kind and numbers, and what follows the record.
fn record(rest: &[u8]) -> Result<(Vec<u16>, &[u8]), u16> {
    if rest.len() < 2 {
        return Err(RAGGED);
    }
    let length = usize::from(numbers(&rest[..2])[0]);
    let cut = rest.len() - 2 < length;
    if cut || length % 2 != 0 || length < 4 {
        return Err(RAGGED);
    }
    let body = numbers(&rest[2..2 + length]);
    if body[0] == OPEN {
        return Err(KIND);
    }
    let carried = numbers_of(body[0]).ok_or(KIND)?;
    if body.len() != 1 + carried {
        return Err(RAGGED);
    }
    Ok((body, &rest[2 + length..]))
}

/// Carries out a record; the steps applied are added up.
fn apply(group: &mut Group, record: &[u16], steps: &mut usize) -> u16 {
    if record[0] == SETTLE {
        let (taken, _) = group.settle(record[1]);
        *steps += taken.len();
        return DONE;
    }
    let mut four = [0; 4];
    four[..record.len()].copy_from_slice(record);
    match group.step(four) {
        Ok(_) => {
            *steps += 1;
            DONE
        }
        Err(refusal) => refusal,
    }
}

fn last_line(steps: usize, refusal: u16) -> String {
    format!("end {steps} {refusal}\n")
}

/// All lines but the last.
fn text_of(group: &Group) -> String {
    let mut text = format!("group {} {}\n", group.n, group.mode.number());
    for (number, message) in group.messages.iter().enumerate() {
        text.push_str(&message_line(number, message));
    }
    for who in 0..group.n {
        let state = if group.up.has(who) { "up" } else { "down" };
        text.push_str(&format!("ctl {who} {state} log"));
        for entry in &group.logs[usize::from(who)] {
            text.push_str(&format!(" {entry}"));
        }
        text.push('\n');
    }
    text
}

fn message_line(number: usize, message: &Message) -> String {
    format!(
        "msg {number} from {} at {} value {} held {} delivered {}\n",
        message.sender,
        message.stamp,
        message.value,
        hex(&message.held),
        hex(&message.delivered)
    )
}

/// A set in four capital hex digits, controllers 12 to 15 first.
fn hex(set: &Set) -> String {
    let digit = |four: u16| {
        let value = (0..4).map(|bit| u32::from(set.has(4 * four + bit)) << bit);
        char::from_digit(value.sum(), 16).map_or('?', |digit| digit.to_ascii_uppercase())
    };
    (0..4).rev().map(digit).collect()
}
