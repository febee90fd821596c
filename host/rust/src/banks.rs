//! Random banks: spoilt ones that are fit, and unfit ones of each cause.

use crate::bank::Unfit;
use crate::layout;
use crate::random::Random;

/// How the set words of a bank are filled.
#[derive(Clone, Copy)]
enum Fill {
    Zeros,
    Ones,
    Sparse,
    Dense,
    Any,
    Mixed,
}

const FILLS: [Fill; 5] = [
    Fill::Zeros,
    Fill::Ones,
    Fill::Sparse,
    Fill::Dense,
    Fill::Any,
];

fn fill(random: &mut Random, style: Fill) -> u16 {
    match style {
        Fill::Zeros => 0,
        Fill::Ones => u16::MAX,
        Fill::Sparse => random.word() & random.word() & random.word(),
        Fill::Dense => random.word() | random.word() | random.word(),
        Fill::Any => random.word(),
        Fill::Mixed => {
            let style = random.pick(&FILLS);
            fill(random, style)
        }
    }
}

/// A fit bank whose other words may be anything.
pub fn spoilt(random: &mut Random) -> Vec<u8> {
    let n = random.controllers();
    let count = match random.below(4) {
        0 => random.pick(&[0, 1, 31, 32]),
        1 => random.under(33),
        _ => 1 + random.under(4),
    };
    let mode = 1 + random.under(2);
    spoilt_of(random, n, mode, count)
}

/// The same with these three numbers at its head.
pub fn spoilt_of(random: &mut Random, n: u16, mode: u16, count: u16) -> Vec<u8> {
    let style = random.pick(&[Fill::Any, Fill::Mixed, Fill::Mixed, Fill::Dense]);
    let mut words: Vec<u16> = (0..layout::WORDS).map(|_| fill(random, style)).collect();
    words[layout::N] = n;
    words[layout::MODE] = mode;
    words[layout::COUNT] = count;
    if random.chance(50) {
        words[layout::UP] |= random.word() | random.word();
    }
    (0..usize::from(n)).for_each(|who| spoil_log(random, &mut words, who, count));
    (0..layout::MESSAGES).for_each(|message| spoil_record(random, &mut words, message));
    words.into_iter().flat_map(u16::to_le_bytes).collect()
}

/// A log that is no longer than there are messages, mostly of messages that are there.
fn spoil_log(random: &mut Random, words: &mut [u16], who: usize, count: u16) {
    let length = match random.below(4) {
        0 => count,
        1 => 0,
        _ => random.under(count + 1),
    };
    words[layout::length(who)] = length;
    let stray = random.chance(25);
    for place in 0..usize::from(length) {
        words[layout::log(who) + place] = match stray && random.chance(10) {
            true => random.pick(&[count, count + 1, 32, 255, 65_535]),
            false => random.under(count),
        };
    }
}

/// A record whose stamp and acknowledgements lie where the rules decide.
fn spoil_record(random: &mut Random, words: &mut [u16], message: usize) {
    let record = layout::record(message);
    words[record + layout::SENDER] = random.word();
    words[record + layout::STAMP] = random.stamp();
    words[record + layout::VALUE] = random.value();
    if random.chance(30) {
        words[record + layout::HELD] |= random.word();
        words[record + layout::DELIVERED] &= random.word();
        (0..layout::CONTROLLERS).for_each(|who| {
            words[record + layout::ACKED + who] |= random.word() | random.word();
        });
    }
}

/// A full bank on which the settler has most to do: all unsent, all in flight, nothing held.
pub fn heavy(random: &mut Random) -> Vec<u8> {
    let mut words: Vec<u16> = (0..layout::WORDS).map(|_| random.word()).collect();
    words[layout::N] = 16;
    words[layout::MODE] = 1 + random.under(2);
    words[layout::COUNT] = 32;
    words[layout::UP] = u16::MAX;
    (0..layout::CONTROLLERS).for_each(|who| words[layout::length(who)] = 0);
    for message in 0..layout::MESSAGES {
        let record = layout::record(message);
        words[record + layout::HELD] = 0;
        words[record + layout::DELIVERED] = 0;
        words[record + layout::UNSENT..record + layout::RECORD].fill(u16::MAX);
    }
    words.into_iter().flat_map(u16::to_le_bytes).collect()
}

fn put(bytes: &mut [u8], place: usize, word: u16) {
    bytes[2 * place..2 * place + 2].copy_from_slice(&word.to_le_bytes());
}

/// A bank that is unfit for this cause and would be fit without it.
pub fn unfit(random: &mut Random, cause: Unfit) -> Vec<u8> {
    let n = random.controllers();
    let count = random.under(33);
    let mode = 1 + random.under(2);
    let mut bytes = spoilt_of(random, n, mode, count);
    match cause {
        Unfit::Length => bytes.resize(wrong_length(random), 0),
        Unfit::Controllers => {
            let wrong = random.pick(&[0, 0, 17, 17, 17, 18, 32, 256, 272, 65_535]);
            put(&mut bytes, layout::N, wrong);
            (layout::length(0)..layout::log(2)).for_each(|place| put(&mut bytes, place, 0));
        }
        Unfit::Mode => {
            let wrong = random.pick(&[0, 0, 3, 3, 4, 257, 258, 65_535]);
            put(&mut bytes, layout::MODE, wrong);
        }
        Unfit::Messages => {
            let wrong = random.pick(&[33, 33, 33, 34, 64, 256, 288, 65_535]);
            put(&mut bytes, layout::COUNT, wrong);
        }
        Unfit::Log => {
            let who = random.below(usize::from(n));
            let long = random.pick(&[count + 1, count + 1, count + 2, 33, 256, 65_535]);
            put(&mut bytes, layout::length(who), long);
        }
    }
    bytes
}

/// Any byte length but that of a bank.
fn wrong_length(random: &mut Random) -> usize {
    match random.below(3) {
        0 => random.below(layout::BYTES),
        1 => layout::BYTES + 1 + random.below(layout::BYTES),
        _ => random.pick(&[0, 1, 2, 6, 2_244, 4_486, 4_487, 4_489, 4_490, 8_976]),
    }
}
