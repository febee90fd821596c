//! What the programs share: the generator, command lines, figures, and the table of ratios.

use std::time::Duration;

use loargwen_host::args::Args;
use loargwen_host::crossing::{bytes_of, words_of};
use loargwen_host::field::Field;
use loargwen_host::figures::Figures;
use loargwen_host::measure::{time, Row, Times};
use loargwen_host::plant::Plant;
use loargwen_host::random::Random;

#[test]
fn the_same_seed_gives_the_same_numbers() {
    let draw = |seed, case| Random::new(seed, case).bytes(8);
    assert_eq!(draw(1, 2), draw(1, 2));
    assert_ne!(draw(1, 2), draw(1, 3));
    assert_ne!(draw(1, 2), draw(2, 2));
    let mut random = Random::new(0, 0);
    assert!((0..1_000).all(|_| random.below(7) < 7));
    assert!((0..1_000).all(|_| (1..=16).contains(&random.controllers())));
}

fn read(line: &str) -> Result<Args, String> {
    Args::read(line.split(' ').map(str::to_string), &["case", "plant"])
}

#[test]
fn command_lines() {
    let args = read("7 bench --case 12 9").expect("a line");
    assert_eq!(args.number(0, "SEED"), Ok(7));
    assert_eq!(args.word(1, "BENCH"), Ok("bench"));
    assert_eq!(args.number(2, "COUNT"), Ok(9));
    assert_eq!(args.flag_number::<u64>("case"), Ok(Some(12)));
    assert_eq!(args.flag("plant"), None);
    assert!(args.number(1, "BENCH").is_err());
    assert!(args.word(3, "MORE").is_err());
    assert!(read("7 --case").is_err());
    assert!(read("7 --other 3").is_err());
}

#[test]
fn faults_have_names() {
    assert_eq!(Plant::named("half"), Ok(Plant::Half));
    assert!(Plant::named("quarter").is_err());
}

#[test]
fn a_guard_that_is_changed_is_told() {
    let mut field = Field::new(&[7_u16, 8], 3, 2);
    field.lent_mut().copy_from_slice(&[9, 10]);
    assert_eq!((field.lent(), field.changed()), (&[9, 10][..], vec![]));
    for place in [2, 5] {
        field.whole[place] ^= 1;
    }
    assert_eq!(field.changed(), [-1, 2]);
    let bare = Field::new(&[1_u8, 2, 3], 0, 0);
    assert_eq!((&bare.whole[..], bare.changed()), (bare.lent(), vec![]));
}

#[test]
fn words_cross_low_byte_first() {
    assert_eq!(bytes_of(&[0x0102, 0xFF00]), [2, 1, 0, 0xFF]);
    assert_eq!(words_of(&[2, 1, 0, 0xFF, 7]), [0x0102, 0xFF00]);
}

#[test]
fn figures_count() {
    let mut figures = Figures::default();
    figures.case("days");
    figures.answer("tally", 14);
    figures.answer("tally", 0);
    figures.answer("tally", 14);
    assert_eq!(figures.times("tally", 14), 2);
    assert_eq!(figures.calls("tally"), 3);
    assert_eq!(figures.calls("open"), 0);
    assert!(figures
        .to_string()
        .contains("tally 3, by number given back (0: 1, 14: 2)"));
}

#[test]
fn rows_show_medians_and_ratios() {
    let mut rounds = 0;
    let ours = || {
        rounds += 1;
        Duration::from_micros(20 * rounds)
    };
    let times = Times {
        rounds: 5,
        pieces: 10,
    };
    let row = Row::measure("a row", times, ours, || Duration::from_micros(40));
    let (ours, plain) = row.medians();
    assert!((ours - 8e-6).abs() < 1e-9 && (plain - 4e-6).abs() < 1e-9);
    let text = row.to_string();
    assert!(text.contains("8.00 us") && text.contains("4.00 us") && text.contains("2.00"));
    assert!(!text.ends_with("1.5") && row.at_most(1.5).to_string().ends_with("1.5"));
    assert_eq!(time(1.5e-8), "15.0 ns");
    assert_eq!(time(2.5e-2), "25.00 ms");
}
