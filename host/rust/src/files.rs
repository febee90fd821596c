//! Random files for the bench: whole ones, full ones, and damaged ones of every kind.

use crate::file::{numbers_of, LONGEST, OPEN, SETTLE};
use crate::random::Random;
use crate::refusal::DONE;
use crate::rules::Group;
use crate::step::Step;

/// A file as its records, so that one can be damaged.
type Records = Vec<Vec<u8>>;

/// A record of a kind and numbers.
pub fn record(numbers: &[u16]) -> Vec<u8> {
    let length = 2 * numbers.len() as u16;
    let words = std::iter::once(length).chain(numbers.iter().copied());
    words.flat_map(u16::to_le_bytes).collect()
}

/// The record of a step, with only the numbers it uses.
pub fn step_record(step: Step) -> Vec<u8> {
    let numbers = step.numbers();
    let used = 1 + numbers_of(numbers[0]).unwrap_or(3);
    record(&numbers[..used])
}

/// What a file is, by name.
pub const KINDS: [&str; 22] = [
    "whole",
    "whole",
    "refused step",
    "refused step",
    "any step",
    "refused open",
    "empty",
    "not begun by open",
    "open cut short",
    "open of another length",
    "later open",
    "odd length",
    "length below 4",
    "unknown kind",
    "wrong length",
    "cut short",
    "one byte over",
    "bytes changed",
    "noise",
    "whole",
    "length alone",
    "two damages",
];

/// A random file and what it is; the first two are always one of the longest length and one over it.
pub fn file(random: &mut Random, number: u64) -> (&'static str, Vec<u8>) {
    match (number, random.below(1000)) {
        (0, _) | (_, 0 | 1) => return ("full", full(random)),
        (1, _) | (_, 2 | 3) => return ("too long", too_long(random)),
        _ => {}
    }
    let name = random.pick(&KINDS);
    let (mut records, group) = whole(random);
    if name == "refused step" {
        records.push(refused_step(random, &group));
    }
    (name, damaged(random, name, records))
}

/// More bytes than a file may have.
fn too_long(random: &mut Random) -> Vec<u8> {
    let mut bytes = full(random);
    let over = random.pick(&[1, 2, 6, 100, 4_464, 70_000]);
    bytes.resize(LONGEST + over, 0);
    bytes
}

/// Exactly 65,536 bytes: an opening, two broadcasts, then settlings of a step or none.
fn full(random: &mut Random) -> Vec<u8> {
    let n = 1 + random.under(3);
    let mut bytes = record(&[OPEN, n, 1 + random.under(2)]);
    for who in [0, n - 1] {
        bytes.extend(record(&[1, who, random.stamp(), random.value()]));
    }
    while bytes.len() < LONGEST {
        bytes.extend(record(&[SETTLE, u16::from(random.chance(1))]));
    }
    bytes
}

/// An opened group of any size.
fn any_group(random: &mut Random) -> Group {
    loop {
        if let Ok(group) = Group::open(random.controllers(), 1 + random.under(2)) {
            return group;
        }
    }
}

/// Records that are all accepted, and the group after them.
fn whole(random: &mut Random) -> (Records, Group) {
    let mut group = any_group(random);
    let n = usize::from(group.n);
    let mut records = vec![record(&[OPEN, group.n, group.mode.number()])];
    if random.chance(2) {
        (0..32).for_each(|stamp| {
            records.push(record(&[1, 0, stamp, 7]));
            let _ = group.step([1, 0, stamp, 7]);
        });
    }
    let length = random.pick(&[3, 10, 30, 30, 100]);
    for _ in 0..random.below(length) {
        if random.chance(4) {
            let budget = random.pick(&[0, 1, 3, 10, 40]);
            group.settle(budget);
            records.push(record(&[SETTLE, budget]));
        } else if let Ok(step) = group.step(random.likely_step(&group)) {
            records.push(step_record(step));
        }
    }
    if random.chance(40) && n * n * group.messages.len() < 500 {
        let budget = random.pick(&[1_000, u16::MAX]);
        group.settle(budget);
        records.push(record(&[SETTLE, budget]));
    }
    (records, group)
}

/// Puts a record somewhere after the opening.
fn insert(random: &mut Random, records: &mut Records, new: Vec<u8>) {
    let place = 1 + random.below(records.len());
    records.insert(place, new);
}

/// A record of a length that its kind does not have.
fn wrong_length(random: &mut Random) -> Vec<u8> {
    let kind = random.pick(&[1, 2, 3, 4, 5, 6, 7, SETTLE]);
    let right = numbers_of(kind).unwrap_or(0);
    let carried = random.pick(&[1, 2, 3, 4, 5, 100]);
    let carried = if carried == right { right + 1 } else { carried };
    let mut numbers = vec![kind];
    numbers.resize(1 + carried, 0);
    record(&numbers)
}

/// A record of a kind that no record has.
fn unknown_kind(random: &mut Random) -> Vec<u8> {
    let mut kind = random.pick(&[0, 8, 9, 15, 18, 256, 257, 272, 65_535]);
    if random.chance(30) {
        kind = 18 + random.under(65_000);
    }
    let mut numbers = vec![kind];
    numbers.resize(2 + random.below(4), 0);
    record(&numbers)
}

/// A record with an odd length, of any kind, whole.
fn odd_length(random: &mut Random) -> Vec<u8> {
    let mut bytes = record(&[random.under(20), 0, 0, 0]);
    let length = random.pick(&[1, 3, 5, 7]);
    bytes[0] = length;
    bytes.truncate(2 + usize::from(length));
    bytes
}

/// A step that this group refuses for a reason drawn first, if one is soon found.
fn refused_step(random: &mut Random, group: &Group) -> Vec<u8> {
    let wanted = random.pick(&[3, 4, 5, 6, 7, 8, 9, 9, 10, 10]);
    let mut last = record(&[5, group.n]);
    for _ in 0..300 {
        let kind = 1 + random.under(7);
        let who = random.under(group.n + 1);
        let other = random.under(group.n + 1);
        let message = random.below(group.messages.len() + 1) as u16;
        let four = match kind {
            4 => [4, who, message, 0],
            5 => [5, who, 0, 0],
            6 => [6, who, other, 0],
            _ => [kind, who, other, message],
        };
        let Some(step) = Step::read(four) else {
            continue;
        };
        let refusal = group.refusal(step);
        if refusal != DONE {
            last = step_record(step);
        }
        if refusal == wanted {
            break;
        }
    }
    last
}

/// A step without regard to the group.
fn any_step(random: &mut Random) -> Vec<u8> {
    loop {
        let four = random.garbage_step(None);
        if let Some(step) = Step::read(four) {
            return step_record(step);
        }
    }
}

fn refused_open(random: &mut Random) -> Vec<u8> {
    let n = random.pick(&[0, 17, 18, 256, 272, 65_535]);
    let mode = random.pick(&[0, 3, 256, 257, 65_535]);
    match random.below(3) {
        0 => record(&[OPEN, n, 1 + random.under(2)]),
        1 => record(&[OPEN, 1 + random.under(16), mode]),
        _ => record(&[OPEN, n, mode]),
    }
}

/// An opening whose length is not 6.
fn other_open(random: &mut Random) -> Vec<u8> {
    let mut bytes = record(&[OPEN, 3, 1]);
    bytes[0] = random.pick(&[0, 1, 2, 3, 4, 5, 7, 8, 255]);
    bytes[1] = random.pick(&[0, 0, 0, 1]);
    bytes
}

/// The file with one damage.
fn damaged(random: &mut Random, name: &str, mut records: Records) -> Vec<u8> {
    let new = match name {
        "any step" => Some(any_step(random)),
        "later open" => {
            let numbers = random.below(5);
            Some(record(&[&[OPEN, 3][..], &vec![1; numbers]].concat()))
        }
        "odd length" => Some(odd_length(random)),
        "length below 4" => {
            let length = random.under(4);
            let mut bytes = length.to_le_bytes().to_vec();
            bytes.resize(2 + usize::from(length), random.pick(&[0, 5, 17]));
            Some(bytes)
        }
        "unknown kind" => Some(unknown_kind(random)),
        "wrong length" => Some(wrong_length(random)),
        _ => None,
    };
    if let Some(new) = new {
        insert(random, &mut records, new);
        return records.concat();
    }
    match name {
        "refused open" => records[0] = refused_open(random),
        "open of another length" => records[0] = other_open(random),
        "not begun by open" => not_begun(random, &mut records),
        _ => return damaged_bytes(random, name, records.concat()),
    }
    records.concat()
}

/// The opening is missing, or something stands before it.
fn not_begun(random: &mut Random, records: &mut Records) {
    match random.below(4) {
        0 => drop(records.remove(0)),
        1 => records[0] = record(&[random.pick(&[0, 1, 15, 17, 272]), 3, 1]),
        2 => records.insert(0, record(&[SETTLE, 0])),
        _ => records.insert(0, vec![0]),
    }
}

/// Damage that does not look at records.
fn damaged_bytes(random: &mut Random, name: &str, mut bytes: Vec<u8>) -> Vec<u8> {
    let length = bytes.len();
    match name {
        "empty" => bytes.clear(),
        "open cut short" => bytes.truncate(random.below(8)),
        "cut short" => bytes.truncate(length - 1 - random.below(length.min(9))),
        "one byte over" => bytes.push(random.pick(&[0, 4, 255])),
        "length alone" => bytes.extend([random.pick(&[0, 2, 4, 8, 255]), 0]),
        "bytes changed" => change(random, &mut bytes, 0),
        "noise" => {
            let noise = random.below(60);
            let keep = random.pick(&[0, 4, 8]);
            bytes.truncate(keep);
            bytes.extend(random.bytes(noise));
        }
        "two damages" => {
            change(random, &mut bytes, 8);
            let keep = length - random.below(length.min(20));
            bytes.truncate(keep);
        }
        _ => {}
    }
    bytes
}

/// Changes one to four bytes from a place on.
fn change(random: &mut Random, bytes: &mut [u8], first: usize) {
    if bytes.len() <= first {
        return;
    }
    for _ in 0..1 + random.below(4) {
        let place = first + random.below(bytes.len() - first);
        bytes[place] = match random.below(3) {
            0 => bytes[place] ^ (1 << random.below(8)),
            1 => random.pick(&[0, 1, 4, 6, 8, 16, 17, 255]),
            _ => random.word() as u8,
        };
    }
}

/// A file of exactly 65,536 bytes in which every record is accepted and most are steps.
pub fn full_of_steps() -> Vec<u8> {
    let (n, mode) = (16, 1);
    let mut bytes = record(&[OPEN, n, mode]);
    let Ok(mut group) = Group::open(n, mode) else {
        return bytes;
    };
    for message in 0..32 {
        let four = [1, message % n, 96 * message + 7, 1_000 + message];
        if group.step(four).is_ok() {
            bytes.extend(record(&four));
        }
    }
    let (steps, _) = group.settle(6_700);
    let settle = record(&[SETTLE, 0]);
    for step in steps {
        let left = LONGEST - bytes.len();
        if left < 100 && left.is_multiple_of(settle.len()) {
            break;
        }
        bytes.extend(step_record(step));
    }
    while bytes.len() + settle.len() <= LONGEST {
        bytes.extend(&settle);
    }
    bytes
}
