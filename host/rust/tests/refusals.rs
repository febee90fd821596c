//! Every number given back, and which one goes first where several apply.

use loargwen_host::answer::{LogLength, Ran};
use loargwen_host::bank::Bank;
use loargwen_host::layout::{self, BYTES};
use loargwen_host::rules::Group;

fn opened(n: u16, mode: u16, steps: &[[u16; 4]]) -> Bank {
    let mut bank = Bank::new(&[0; BYTES]);
    assert_eq!(bank.open(n, mode), 0);
    for &step in steps {
        assert_eq!(bank.step(step), 0, "{step:?}");
    }
    bank
}

/// The number a step gives; a refusal must leave every byte.
fn number(bank: &Bank, step: [u16; 4]) -> u16 {
    let mut after = bank.clone();
    let number = after.step(step);
    if number != 0 {
        assert_eq!(after.bytes(), bank.bytes(), "{step:?} changed a byte");
    }
    number
}

fn word(bank: &Bank, place: usize) -> u16 {
    u16::from_le_bytes([bank.bytes()[2 * place], bank.bytes()[2 * place + 1]])
}

/// The bank with one word replaced.
fn with(bank: &Bank, place: usize, word: u16) -> Bank {
    let mut bytes = bank.bytes().to_vec();
    bytes[2 * place..2 * place + 2].copy_from_slice(&word.to_le_bytes());
    Bank::new(&bytes)
}

#[test]
fn kinds_and_unused_numbers() {
    let bank = opened(3, 1, &[[1, 0, 0, 0]]);
    for kind in [0, 8, 16, 17, 257, 65_535] {
        assert_eq!(number(&bank, [kind, 0, 0, 0]), 2);
    }
    assert_eq!(number(&bank, [4, 9, 9, 1]), 2);
    assert_eq!(number(&bank, [5, 9, 1, 0]), 2);
    assert_eq!(number(&bank, [5, 9, 0, 1]), 2);
    assert_eq!(number(&bank, [6, 9, 9, 1]), 2);
}

#[test]
fn controllers_come_before_messages() {
    let bank = opened(3, 1, &[[1, 0, 0, 0]]);
    let wrong = [
        [1, 3, 0, 0],
        [2, 3, 0, 9],
        [2, 0, 3, 9],
        [3, 3, 0, 9],
        [3, 0, 3, 9],
        [4, 3, 9, 0],
        [5, 3, 0, 0],
        [6, 3, 0, 0],
        [6, 0, 3, 0],
        [7, 3, 0, 9],
        [7, 0, 3, 9],
    ];
    for step in wrong {
        assert_eq!(number(&bank, step), 3, "{step:?}");
    }
    for step in [[2, 0, 0, 1], [3, 0, 0, 1], [4, 0, 1, 0], [7, 0, 0, 1]] {
        assert_eq!(number(&bank, step), 4, "{step:?}");
    }
}

#[test]
fn majority_detects_nothing() {
    let bank = opened(3, 2, &[[5, 0, 0, 0]]);
    assert_eq!(number(&bank, [6, 1, 0, 0]), 5);
    assert_eq!(number(&bank, [6, 0, 1, 0]), 5);
    assert_eq!(number(&bank, [6, 3, 1, 0]), 3);
}

#[test]
fn one_that_is_down_does_not_act() {
    let bank = opened(2, 1, &[[1, 0, 0, 0], [5, 0, 0, 0]]);
    let acts = [
        [1, 0, 0, 0],
        [2, 0, 1, 0],
        [3, 0, 1, 0],
        [4, 0, 0, 0],
        [5, 0, 0, 0],
        [6, 0, 0, 0],
    ];
    for step in acts {
        assert_eq!(number(&bank, step), 6, "{step:?}");
    }
    assert_eq!(number(&bank, [7, 0, 1, 0]), 8);
}

#[test]
fn the_33rd_broadcast_by_one_that_is_down() {
    let mut bank = opened(2, 1, &[[1, 0, 0, 0]; 32]);
    assert_eq!(number(&bank, [1, 1, 0, 0]), 7);
    bank.step([5, 1, 0, 0]);
    assert_eq!(number(&bank, [1, 1, 0, 0]), 6);
}

#[test]
fn copies_that_are_not_there() {
    let bank = opened(2, 1, &[[1, 0, 0, 0], [2, 0, 1, 0]]);
    assert_eq!(number(&bank, [2, 0, 1, 0]), 8);
    assert_eq!(number(&bank, [2, 1, 0, 0]), 8);
    assert_eq!(number(&bank, [3, 0, 0, 0]), 8);
    assert_eq!(number(&bank, [7, 0, 0, 0]), 8);
    assert_eq!(number(&bank, [4, 1, 0, 0]), 8);
    assert_eq!(number(&bank, [7, 0, 1, 0]), 9);
}

#[test]
fn detect_of_one_that_is_up_and_already_known() {
    let bank = opened(3, 1, &[[5, 2, 0, 0], [6, 0, 2, 0]]);
    assert_eq!(number(&bank, [6, 0, 1, 0]), 9);
    assert_eq!(number(&bank, [6, 0, 0, 0]), 9);
    assert_eq!(number(&bank, [6, 0, 2, 0]), 10);
    assert_eq!(number(&bank, [6, 1, 2, 0]), 0);
    let spoilt = with(&bank, layout::trust(0), 0);
    assert_eq!(number(&spoilt, [6, 0, 1, 0]), 9);
}

#[test]
fn deliver_is_refused_8_then_9_then_10_then_1() {
    let steps = [[1, 0, 0, 0], [2, 0, 0, 0], [3, 0, 0, 0]];
    let ripe = opened(1, 1, &steps);
    let record = layout::record(0);
    assert_eq!(number(&ripe, [4, 0, 0, 0]), 0);
    let full = with(&ripe, layout::length(0), 1);
    assert_eq!(number(&full, [4, 0, 0, 0]), 1);
    let delivered = with(&full, record + layout::DELIVERED, 1);
    assert_eq!(number(&delivered, [4, 0, 0, 0]), 10);
    let unripe = with(&delivered, record + layout::ACKED, 0);
    assert_eq!(number(&unripe, [4, 0, 0, 0]), 9);
    let unheld = with(&unripe, record + layout::HELD, 0);
    assert_eq!(number(&unheld, [4, 0, 0, 0]), 8);
}

#[test]
fn opening_tests_length_then_n_then_mode() {
    let mut short = Bank::new(&[7; BYTES - 1]);
    assert_eq!(short.open(0, 0), 1);
    assert_eq!(short.bytes(), [7; BYTES - 1]);
    let mut bank = Bank::new(&[7; BYTES]);
    assert_eq!(bank.open(0, 0), 11);
    assert_eq!(bank.open(16, 0), 12);
    assert_eq!(bank.bytes(), [7; BYTES]);
    assert_eq!(bank.open(16, 2), 0);
    assert_eq!(word(&bank, layout::UP), 0xFFFF);
}

#[test]
fn opening_writes_every_word() {
    let mut bank = Bank::new(&[0xEE; BYTES]);
    bank.open(3, 2);
    for place in 0..layout::WORDS {
        let want = match place {
            0 => 3,
            1 => 2,
            3..=6 => 7,
            _ => 0,
        };
        assert_eq!(word(&bank, place), want, "word {place}");
    }
}

fn ran(accepted: usize, refusal: u16) -> Ran {
    Ran { accepted, refusal }
}

#[test]
fn a_list_is_tested_1_then_13_then_stops_at_a_refusal() {
    let mut unfit = Bank::new(&[0; BYTES]);
    assert_eq!(unfit.list(&[1, 0, 0]), ran(0, 1));
    assert_eq!(unfit.records(&[[1, 0, 0, 0]]), ran(0, 1));
    let mut bank = opened(2, 1, &[]);
    let before = bank.bytes().to_vec();
    assert_eq!(bank.list(&[1, 0, 0, 0, 5]), ran(0, 13));
    assert_eq!(bank.bytes(), before);
    assert_eq!(bank.list(&[]), ran(0, 0));
    let list = [[1, 0, 0, 9], [1, 1, 0, 8], [4, 0, 0, 0], [5, 0, 0, 0]];
    let mut by_record = bank.clone();
    assert_eq!(bank.list(&list.concat()), ran(2, 9));
    assert_eq!(by_record.records(&list), ran(2, 9));
    let same = opened(2, 1, &list[..2]);
    assert_eq!(bank.bytes(), same.bytes());
    assert_eq!(by_record.bytes(), same.bytes());
}

#[test]
fn what_refuses_a_step_is_what_the_step_gives() {
    let bank = opened(2, 1, &[[1, 0, 0, 9], [2, 0, 1, 0]]);
    for step in [[0, 0, 0, 0], [2, 0, 1, 0], [2, 0, 0, 0], [4, 0, 0, 0]] {
        assert_eq!(bank.refusal(step), number(&bank, step), "{step:?}");
    }
    assert_eq!(Bank::new(&[0; BYTES]).refusal([0; 4]), 1);
}

#[test]
fn log_questions() {
    let mut bank = opened(2, 1, &[[1, 0, 0, 0], [1, 1, 0, 0]]);
    bank.settle(u16::MAX);
    let length = |refusal, length| LogLength { refusal, length };
    assert_eq!(bank.log_length(1), length(0, 2));
    assert_eq!(bank.log(1), (&[0, 1][..], 0));
    assert_eq!(bank.log_length(2), length(3, 0));
    assert_eq!(bank.log(2), (&[][..], 3));
    let unfit = with(&bank, layout::length(0), 3);
    assert_eq!(unfit.log_length(1), length(1, 0));
    assert_eq!(unfit.log(1), (&[][..], 1));
}

#[test]
fn a_log_is_copied_as_far_as_the_buffer_reaches() {
    let mut bank = opened(2, 1, &[[1, 0, 0, 0], [1, 1, 0, 0], [1, 0, 0, 0]]);
    bank.settle(u16::MAX);
    let copied = |who, room| {
        let mut out = vec![77; room];
        (bank.copy_log(who, &mut out), out)
    };
    assert_eq!(copied(1, 5), (3, vec![0, 1, 2, 77, 77]));
    assert_eq!(copied(1, 2), (3, vec![0, 1]));
    assert_eq!(copied(2, 2), (0, vec![77, 77]));
}

#[test]
fn the_tally_is_tested_unfit_3_14_then_stray_entries() {
    let mut bank = opened(2, 1, &[[1, 0, 0, 4], [1, 0, 9_600, 5]]);
    bank.settle(u16::MAX);
    let stray = with(&bank, layout::log(0) + 1, 2);
    let number = |bank: &Bank, who, day| bank.tally(who, day).refusal;
    assert_eq!(number(&with(&bank, 1, 3), 2, 683), 1);
    assert_eq!(number(&stray, 2, 683), 3);
    assert_eq!(number(&stray, 0, 683), 14);
    assert_eq!(number(&stray, 0, 0), 1);
    assert_eq!(number(&stray, 0, 500), 1);
    assert_eq!(stray.tally(0, 0).count, 0);
    assert_eq!((bank.tally(0, 0).count, bank.tally(0, 0).sum), (1, 4));
    assert_eq!((bank.tally(1, 100).count, bank.tally(1, 100).sum), (1, 5));
}

#[test]
fn a_refused_opening_of_the_rules_alone() {
    assert_eq!(Group::open(65_535, 65_535), Err(11));
    assert_eq!(Group::open(1, 65_535), Err(12));
}
