//! Banks of any bytes: unfit causes, spoilt words that are kept, and what is written back.

use loargwen_host::bank::{unfit, Bank, Unfit};
use loargwen_host::banks;
use loargwen_host::layout::{self, BYTES, RECORD};
use loargwen_host::random::Random;

fn words(bank: &Bank) -> Vec<u16> {
    let pairs = bank.bytes().chunks_exact(2);
    pairs
        .map(|pair| u16::from_le_bytes([pair[0], pair[1]]))
        .collect()
}

#[test]
fn each_cause_makes_a_bank_unfit() {
    for case in 0..500 {
        let mut random = Random::new(11, case);
        for cause in Unfit::ALL {
            let bytes = banks::unfit(&mut random, cause);
            assert_eq!(unfit(&bytes), Some(cause), "case {case}");
            let mut bank = Bank::new(&bytes);
            assert_eq!(bank.step([1, 0, 0, 0]), 1);
            assert_eq!(bank.settle(9).refusal, 1);
            assert_eq!((bank.settle(9).steps, bank.settle(9).quiet), (0, 0));
            assert_eq!(bank.tally(0, 0).refusal, 1);
            assert_eq!(bank.bytes(), bytes);
        }
    }
}

#[test]
fn a_long_log_of_an_absent_controller_is_no_matter() {
    let mut bank = Bank::new(&[0; BYTES]);
    bank.open(3, 1);
    let mut bytes = bank.bytes().to_vec();
    let place = 2 * layout::length(3);
    bytes[place..place + 2].copy_from_slice(&[0xFF, 0xFF]);
    assert_eq!(unfit(&bytes), None);
    bytes[place - 2] = 1;
    assert_eq!(unfit(&bytes), Some(Unfit::Log));
}

#[test]
fn spoilt_banks_are_fit_and_what_is_written_is_what_the_group_holds() {
    for case in 0..400 {
        let mut random = Random::new(12, case);
        let mut bank = Bank::new(&banks::spoilt(&mut random));
        for _ in 0..60 {
            let step = random.likely_step(bank.group().expect("a fit bank"));
            bank.step(step);
        }
        bank.settle(30);
        let again = Bank::new(bank.bytes());
        assert_eq!(again.group(), bank.group(), "case {case}");
    }
}

/// The mask of bits that a step other than a broadcast may change in a word.
fn changeable(bank: &Bank, place: usize) -> u16 {
    let group = bank.group().expect("a fit bank");
    let (n, count) = (usize::from(group.n), group.messages.len());
    let low = u16::MAX >> (16 - n);
    let below = |there: bool, mask: u16| if there { mask } else { 0 };
    match place {
        0..=2 => 0,
        3 => low,
        4..=19 => below(place - 4 < n, low),
        20..=35 => below(place - 20 < n, u16::MAX),
        36..=547 => below((place - 36) / 32 < n, u16::MAX),
        _ => {
            let (message, word) = ((place - 548) / RECORD, (place - 548) % RECORD);
            let row = match word {
                0..=2 => false,
                3 | 4 => true,
                _ => (word - 5) % 16 < n,
            };
            below(message < count && row, low)
        }
    }
}

#[test]
fn bits_of_n_and_above_and_absent_words_stay() {
    for case in 0..300 {
        let mut random = Random::new(13, case);
        let mut bank = Bank::new(&banks::spoilt(&mut random));
        let before = words(&bank);
        for _ in 0..60 {
            let mut step = random.likely_step(bank.group().expect("a fit bank"));
            step[0] = if step[0] == 1 { 3 } else { step[0] };
            bank.step(step);
        }
        bank.settle(30);
        for (place, (was, is)) in before.iter().zip(words(&bank)).enumerate() {
            let changed = (was ^ is) & !changeable(&bank, place);
            assert_eq!(changed, 0, "case {case}, word {place}");
        }
    }
}

#[test]
fn a_receipt_keeps_the_high_bits_of_unsent_and_a_broadcast_does_not() {
    let mut bank = Bank::new(&[0xFF; BYTES]);
    bank.open(3, 1);
    bank.step([1, 0, 1, 2]);
    bank.step([2, 0, 1, 0]);
    let mut bytes = bank.bytes().to_vec();
    let row = layout::record(0) + layout::UNSENT + 1;
    bytes[2 * row + 1] = 0xAB;
    let next = 2 * layout::record(1);
    bytes[next..next + 2 * RECORD].fill(0xCD);
    let mut bank = Bank::new(&bytes);
    assert_eq!(bank.step([3, 1, 0, 0]), 0);
    assert_eq!(words(&bank)[row], 0xAB07);
    assert_eq!(bank.step([1, 2, 96, 5]), 0);
    let record = &words(&bank)[layout::record(1)..layout::record(2)];
    for (place, &word) in record.iter().enumerate() {
        let want = match place {
            0 => 2,
            1 => 96,
            2 => 5,
            3 => 4,
            23 => 7,
            _ => 0,
        };
        assert_eq!(word, want, "word {place} of the record");
    }
}

#[test]
fn high_acknowledgements_do_not_count() {
    let mut bank = Bank::new(&[0; BYTES]);
    bank.open(3, 2);
    bank.step([1, 0, 0, 0]);
    bank.step([2, 0, 0, 0]);
    bank.step([3, 0, 0, 0]);
    let mut bytes = bank.bytes().to_vec();
    bytes[2 * (layout::record(0) + layout::ACKED) + 1] = 0xFF;
    let mut spoilt = Bank::new(&bytes);
    assert_eq!(spoilt.step([4, 0, 0, 0]), 9);
}

#[test]
fn any_fit_bank_settles_within_the_wide_bound() {
    for case in 0..60 {
        let mut random = Random::new(14, case);
        let (n, count) = (1 + random.under(6), random.under(9));
        let mode = 1 + random.under(2);
        let mut bank = Bank::new(&banks::spoilt_of(&mut random, n, mode, count));
        let settled = bank.settle(u16::MAX);
        assert_eq!((settled.refusal, settled.quiet), (0, 1));
        assert!(settled.steps <= 5 * n * n * count + n * count + n * (n - 1));
    }
}
