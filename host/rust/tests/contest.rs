//! The model against the plain version on random cases; every number reached; planted faults found.

use loargwen_host::cases;
use loargwen_host::contest::Setting;
use loargwen_host::figures::Figures;
use loargwen_host::plain::Plain;
use loargwen_host::plant::Plant;

const CASES: u64 = 1_200;

fn setting(plant: Option<Plant>) -> Setting<'static> {
    Setting {
        calls: &Plain,
        plant,
        seed: 5,
        guard: 64,
    }
}

#[test]
fn the_plain_version_agrees_and_every_number_is_reached() {
    let mut figures = Figures::default();
    for number in 0..CASES {
        if let Err(text) = cases::run(&setting(None), number, &mut figures) {
            panic!("{text}");
        }
    }
    let reached = |call: &str, numbers: &[u16]| {
        for &number in numbers {
            assert!(
                figures.times(call, number) > 0,
                "{call} never gave {number}"
            );
        }
    };
    reached("step", &[0, 1, 2, 3, 4, 5, 6, 7, 8, 9, 10]);
    reached("open", &[0, 1, 11, 12]);
    reached("settle", &[0, 1]);
    reached("tally", &[0, 1, 3, 14]);
    reached("list", &[0, 1, 2, 3, 4, 5, 6, 8, 9, 10, 13]);
    reached("records", &[0, 1, 2, 3, 4, 5, 6, 8, 9, 10]);
    reached("refusal", &[0, 1, 2, 3, 4, 5, 6, 7, 8, 9, 10]);
    reached("log length", &[0, 1, 3]);
    reached("log", &[0, 1, 2, 3, 20]);
    assert!(figures.listed > 1_000);
    assert_eq!(figures.kinds.len(), 7);
    for name in cases::NAMES {
        assert!(figures.cases.contains_key(name), "no case '{name}'");
    }
    assert_eq!(figures.cases.len(), cases::NAMES.len());
}

#[test]
fn without_guards_the_cases_are_the_same() {
    let (mut with, mut without) = (Figures::default(), Figures::default());
    let bare = Setting {
        guard: 0,
        ..setting(None)
    };
    for number in 2..100 {
        assert!(cases::run(&setting(None), number, &mut with).is_ok());
        assert!(cases::run(&bare, number, &mut without).is_ok());
    }
    assert_eq!(with.to_string(), without.to_string());
}

#[test]
fn every_planted_fault_is_found() {
    for (name, plant) in Plant::ALL {
        let mut figures = Figures::default();
        let setting = setting(Some(plant));
        let found = (2..CASES).any(|case| cases::run(&setting, case, &mut figures).is_err());
        assert!(found, "{name} was not found");
    }
}
