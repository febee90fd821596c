//! The plain version on words: the same calls written straightforwardly, for ratios.

use crate::answer::{Day, Ran, Settled};
use crate::layout::{
    length, log, record, trust, ACKED, BYTES, COUNT, DELIVERED, FLIGHT, HELD, MESSAGES, MODE, N,
    RECORD, SENDER, STAMP, UNSENT, UP, VALUE, WORDS,
};
use crate::refusal;

/// A bank of the right length.
pub type Words = [u16; WORDS];

const ALL_ACK: u16 = 1;

/// Whether bit `i` of a word is set.
fn has(word: u16, i: u16) -> bool {
    word >> i & 1 == 1
}

/// The word with the `n` lowest bits set.
fn ones(n: u16) -> u16 {
    u16::MAX >> (16 - n)
}

/// The place of a word of a message's record.
fn at(message: u16, word: usize) -> usize {
    record(usize::from(message)) + word
}

/// The place of a controller's word of a message's record.
fn of(message: u16, words: usize, who: u16) -> usize {
    record(usize::from(message)) + words + usize::from(who)
}

fn fit(bank: &Words) -> bool {
    (1..=16).contains(&bank[N])
        && (1..=2).contains(&bank[MODE])
        && usize::from(bank[COUNT]) <= MESSAGES
        && (0..usize::from(bank[N])).all(|who| bank[length(who)] <= bank[COUNT])
}

/// The words as a bank, if they are one and it is fit.
fn fit_mut(bank: &mut [u16]) -> Option<&mut Words> {
    let bank = <&mut Words>::try_from(bank).ok()?;
    fit(bank).then_some(bank)
}

/// The same, to be read.
fn fit_ref(bank: &[u16]) -> Option<&Words> {
    <&Words>::try_from(bank).ok().filter(|bank| fit(bank))
}

/// Opens a group.
pub fn open(bank: &mut [u16], n: u16, mode: u16) -> u16 {
    if bank.len() != WORDS {
        return refusal::UNFIT;
    }
    if !(1..=16).contains(&n) {
        return refusal::OPEN_N;
    }
    if !(1..=2).contains(&mode) {
        return refusal::OPEN_MODE;
    }
    bank.fill(0);
    bank[N] = n;
    bank[MODE] = mode;
    bank[UP] = ones(n);
    bank[trust(0)..trust(usize::from(n))].fill(ones(n));
    refusal::DONE
}

/// Takes one step.
pub fn step(bank: &mut [u16], [kind, a, b, c]: [u16; 4]) -> u16 {
    match fit_mut(bank) {
        Some(bank) => act(bank, kind, a, b, c),
        None => refusal::UNFIT,
    }
}

/// Takes steps in order up to the first refusal.
pub fn run(bank: &mut [u16], steps: &[[u16; 4]]) -> Ran {
    let ran = |accepted, refusal| Ran { accepted, refusal };
    if fit_ref(bank).is_none() {
        return ran(0, refusal::UNFIT);
    }
    for (accepted, &four) in steps.iter().enumerate() {
        let refusal = step(bank, four);
        if refusal != refusal::DONE {
            return ran(accepted, refusal);
        }
    }
    ran(steps.len(), refusal::DONE)
}

/// The same of four words a step.
pub fn run_flat(bank: &mut [u16], steps: &[u16]) -> Ran {
    match steps.as_chunks() {
        (steps, []) => run(bank, steps),
        _ if fit_ref(bank).is_none() => run(bank, &[]),
        _ => Ran {
            accepted: 0,
            refusal: refusal::RAGGED,
        },
    }
}

fn act(bank: &mut Words, kind: u16, a: u16, b: u16, c: u16) -> u16 {
    match kind {
        1 => broadcast(bank, a, b, c),
        2 => send(bank, a, b, c),
        3 => receive(bank, a, b, c),
        4 if c == 0 => deliver(bank, a, b),
        5 if b == 0 && c == 0 => crash(bank, a),
        6 if c == 0 => detect(bank, a, b),
        7 => lose(bank, a, b, c),
        _ => refusal::KIND,
    }
}

fn broadcast(bank: &mut Words, who: u16, stamp: u16, value: u16) -> u16 {
    if who >= bank[N] {
        return refusal::CONTROLLER;
    }
    if !has(bank[UP], who) {
        return refusal::DOWN;
    }
    let message = bank[COUNT];
    if usize::from(message) == MESSAGES {
        return refusal::FULL;
    }
    bank[at(message, 0)..at(message, RECORD)].fill(0);
    bank[at(message, SENDER)] = who;
    bank[at(message, STAMP)] = stamp;
    bank[at(message, VALUE)] = value;
    bank[at(message, HELD)] = 1 << who;
    bank[of(message, UNSENT, who)] = ones(bank[N]);
    bank[COUNT] += 1;
    refusal::DONE
}

/// Refusals 3, 4 and, where there is an actor, 6 of a step with a message.
fn common(bank: &Words, one: u16, other: u16, message: u16, actor: Option<u16>) -> u16 {
    if one >= bank[N] || other >= bank[N] {
        refusal::CONTROLLER
    } else if message >= bank[COUNT] {
        refusal::MESSAGE
    } else if actor.is_some_and(|who| !has(bank[UP], who)) {
        refusal::DOWN
    } else {
        refusal::DONE
    }
}

fn send(bank: &mut Words, from: u16, to: u16, message: u16) -> u16 {
    let early = common(bank, from, to, message, Some(from));
    if early != refusal::DONE {
        return early;
    }
    let unsent = of(message, UNSENT, from);
    if !has(bank[unsent], to) {
        return refusal::ABSENT;
    }
    bank[unsent] &= !(1 << to);
    bank[of(message, FLIGHT, to)] |= 1 << from;
    refusal::DONE
}

fn receive(bank: &mut Words, who: u16, from: u16, message: u16) -> u16 {
    let early = common(bank, who, from, message, Some(who));
    if early != refusal::DONE {
        return early;
    }
    let flight = of(message, FLIGHT, who);
    if !has(bank[flight], from) {
        return refusal::ABSENT;
    }
    bank[flight] &= !(1 << from);
    bank[of(message, ACKED, who)] |= 1 << from;
    if !has(bank[at(message, HELD)], who) {
        bank[at(message, HELD)] |= 1 << who;
        bank[of(message, UNSENT, who)] |= ones(bank[N]);
    }
    refusal::DONE
}

/// Whether the acknowledgements at this controller are enough.
fn ripe(bank: &Words, who: u16, message: u16) -> bool {
    let low = ones(bank[N]);
    let acked = bank[of(message, ACKED, who)] & low;
    if bank[MODE] == ALL_ACK {
        bank[trust(usize::from(who))] & low & !acked == 0
    } else {
        2 * acked.count_ones() > u32::from(bank[N])
    }
}

fn deliver(bank: &mut Words, who: u16, message: u16) -> u16 {
    let early = common(bank, who, who, message, Some(who));
    if early != refusal::DONE {
        return early;
    }
    if !has(bank[at(message, HELD)], who) {
        return refusal::ABSENT;
    }
    if !ripe(bank, who, message) {
        return refusal::NOT_YET;
    }
    if has(bank[at(message, DELIVERED)], who) {
        return refusal::ALREADY;
    }
    let place = length(usize::from(who));
    let used = bank[place];
    if used == bank[COUNT] {
        return refusal::UNFIT;
    }
    bank[at(message, DELIVERED)] |= 1 << who;
    bank[log(usize::from(who)) + usize::from(used)] = message;
    bank[place] += 1;
    refusal::DONE
}

fn crash(bank: &mut Words, who: u16) -> u16 {
    if who >= bank[N] {
        return refusal::CONTROLLER;
    }
    if !has(bank[UP], who) {
        return refusal::DOWN;
    }
    bank[UP] &= !(1 << who);
    refusal::DONE
}

fn detect(bank: &mut Words, who: u16, other: u16) -> u16 {
    if who >= bank[N] || other >= bank[N] {
        return refusal::CONTROLLER;
    }
    if bank[MODE] != ALL_ACK {
        return refusal::MODE;
    }
    if !has(bank[UP], who) {
        return refusal::DOWN;
    }
    if has(bank[UP], other) {
        return refusal::NOT_YET;
    }
    let trusted = &mut bank[trust(usize::from(who))];
    if !has(*trusted, other) {
        return refusal::ALREADY;
    }
    *trusted &= !(1 << other);
    refusal::DONE
}

fn lose(bank: &mut Words, from: u16, to: u16, message: u16) -> u16 {
    let early = common(bank, from, to, message, None);
    if early != refusal::DONE {
        return early;
    }
    let flight = of(message, FLIGHT, to);
    if !has(bank[flight], from) {
        return refusal::ABSENT;
    }
    if has(bank[UP], from) && has(bank[UP], to) {
        return refusal::NOT_YET;
    }
    bank[flight] &= !(1 << from);
    refusal::DONE
}

/// Settles within a budget, searching from the start for each step, candidate by candidate.
pub fn settle(bank: &mut [u16], budget: u16) -> Settled {
    let Some(bank) = fit_mut(bank) else {
        return Settled::refused(refusal::UNFIT);
    };
    let mut settled = Settled::default();
    loop {
        let Some([kind, a, b, c]) = first(bank) else {
            settled.quiet = 1;
            return settled;
        };
        if settled.steps == budget {
            return settled;
        }
        act(bank, kind, a, b, c);
        settled.steps += 1;
    }
}

/// The first step the settler may take.
fn first(bank: &Words) -> Option<[u16; 4]> {
    first_detect(bank).or_else(|| {
        (0..bank[COUNT]).find_map(|message| {
            first_send(bank, message)
                .or_else(|| first_receipt(bank, message))
                .or_else(|| first_delivery(bank, message))
        })
    })
}

fn first_detect(bank: &Words) -> Option<[u16; 4]> {
    if bank[MODE] != ALL_ACK {
        return None;
    }
    for who in 0..bank[N] {
        let trusted = bank[trust(usize::from(who))];
        for other in 0..bank[N] {
            if has(bank[UP], who) && !has(bank[UP], other) && has(trusted, other) {
                return Some([6, who, other, 0]);
            }
        }
    }
    None
}

fn first_send(bank: &Words, message: u16) -> Option<[u16; 4]> {
    for from in 0..bank[N] {
        let unsent = bank[of(message, UNSENT, from)];
        for to in 0..bank[N] {
            if has(bank[UP], from) && has(unsent, to) {
                return Some([2, from, to, message]);
            }
        }
    }
    None
}

fn first_receipt(bank: &Words, message: u16) -> Option<[u16; 4]> {
    for who in 0..bank[N] {
        let flight = bank[of(message, FLIGHT, who)];
        for from in 0..bank[N] {
            if has(bank[UP], who) && has(flight, from) {
                return Some([3, who, from, message]);
            }
        }
    }
    None
}

fn first_delivery(bank: &Words, message: u16) -> Option<[u16; 4]> {
    let held = bank[at(message, HELD)];
    let delivered = bank[at(message, DELIVERED)];
    for who in 0..bank[N] {
        if has(bank[UP], who)
            && has(held, who)
            && !has(delivered, who)
            && ripe(bank, who, message)
            && bank[length(usize::from(who))] < bank[COUNT]
        {
            return Some([4, who, message, 0]);
        }
    }
    None
}

/// The used part of a log, or what refuses the question.
pub fn log_of(bank: &[u16], who: u16) -> Result<&[u16], u16> {
    let bank = fit_ref(bank).ok_or(refusal::UNFIT)?;
    if who >= bank[N] {
        return Err(refusal::CONTROLLER);
    }
    let start = log(usize::from(who));
    let used = usize::from(bank[length(usize::from(who))]);
    Ok(&bank[start..start + used])
}

/// The tally of a controller for a day.
pub fn tally(bank: &[u16], who: u16, day: u16) -> Day {
    let entries = match log_of(bank, who) {
        Ok(entries) => entries,
        Err(refusal) => return Day::refused(refusal),
    };
    if day > 682 {
        return Day::refused(refusal::DAY);
    }
    let mut answer = Day::default();
    for &message in entries {
        if message >= bank[COUNT] {
            return Day::refused(refusal::UNFIT);
        }
        if bank[at(message, STAMP)] / 96 == day {
            answer.count += 1;
            answer.sum += u32::from(bank[at(message, VALUE)]);
        }
    }
    answer
}

/// Fills a bank from 4,488 bytes, low byte first; whether there are so many.
pub fn load(bank: &mut Words, bytes: &[u8]) -> bool {
    if bytes.len() != BYTES {
        return false;
    }
    for (word, pair) in bank.iter_mut().zip(bytes.chunks_exact(2)) {
        *word = u16::from_le_bytes([pair[0], pair[1]]);
    }
    true
}

/// Writes a bank as bytes, low byte first.
pub fn to_bytes(bank: &Words, bytes: &mut [u8]) {
    for (word, pair) in bank.iter().zip(bytes.chunks_exact_mut(2)) {
        pair.copy_from_slice(&word.to_le_bytes());
    }
}
