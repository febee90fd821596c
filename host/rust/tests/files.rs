//! The bench's file: the worked example, each damage with its number, and both versions on random files.

use loargwen_host::file::{run, LONGEST};
use loargwen_host::files::{self, record};
use loargwen_host::random::Random;
use loargwen_host::{plant::Plant, words_file};

const EXAMPLE: &str = "0600100003000100 0800010000006000F401 08000200000000000000 \
                       08000200000001000000 040005000000 040011006400";
const PRINTED: &str = "group 3 1
msg 0 from 0 at 96 value 500 held 0007 delivered 0006
ctl 0 down log
ctl 1 up log 0
ctl 2 up log 0
end 19 0
";

fn bytes_of(hex: &str) -> Vec<u8> {
    let digits: Vec<u8> = hex.bytes().filter(u8::is_ascii_hexdigit).collect();
    let pairs = digits.chunks_exact(2);
    pairs
        .map(|pair| {
            let pair = std::str::from_utf8(pair).expect("hex is text");
            u8::from_str_radix(pair, 16).expect("hex")
        })
        .collect()
}

/// What is printed, the same by both versions.
fn printed(input: &[u8]) -> String {
    let text = run(input);
    assert_eq!(text, words_file::run(input));
    String::from_utf8(text).expect("text")
}

/// An opened group of three with one broadcast, then these bytes.
fn after_start(tail: &[u8]) -> String {
    let mut input = record(&[16, 3, 1]);
    input.extend(record(&[1, 1, 5, 6]));
    input.extend(tail);
    printed(&input)
}

/// The text when the group is opened, has one broadcast, and ends with this last line.
fn started(last: &str) -> String {
    let state = "msg 0 from 1 at 5 value 6 held 0002 delivered 0000\n";
    format!("group 3 1\n{state}ctl 0 up log\nctl 1 up log\nctl 2 up log\n{last}\n")
}

#[test]
fn the_worked_example_prints_its_six_lines() {
    let input = bytes_of(EXAMPLE);
    assert_eq!(input.len(), 50);
    assert_eq!(printed(&input), PRINTED);
}

#[test]
fn not_begun_by_a_whole_open_of_length_6() {
    for input in [
        "",
        "06",
        "06001000030001",
        "0400110000 00",
        "0600110003000100",
    ] {
        assert_eq!(printed(&bytes_of(input)), "end 0 13\n", "{input}");
    }
    for length in [0, 4, 5, 7, 8] {
        let mut input = bytes_of("0600100003000100040005000000");
        input[0] = length;
        assert_eq!(printed(&input), "end 0 13\n");
    }
    let mut late = record(&[17, 0]);
    late.extend(record(&[16, 3, 1]));
    assert_eq!(printed(&late), "end 0 13\n");
}

#[test]
fn a_refused_open_prints_the_last_line_only() {
    for (n, mode, last) in [
        (0, 1, "end 0 11\n"),
        (17, 3, "end 0 11\n"),
        (16, 3, "end 0 12\n"),
        (1, 0, "end 0 12\n"),
    ] {
        let mut input = record(&[16, n, mode]);
        assert_eq!(printed(&input), last);
        input.push(0);
        assert_eq!(printed(&input), last);
    }
}

#[test]
fn an_open_alone_is_a_whole_file() {
    assert_eq!(
        printed(&record(&[16, 2, 2])),
        "group 2 2\nctl 0 up log\nctl 1 up log\nend 0 0\n"
    );
}

#[test]
fn too_long_goes_before_all_else() {
    let full = files::full_of_steps();
    assert_eq!(full.len(), LONGEST);
    let text = printed(&full);
    let last = text.lines().last().expect("a last line");
    let numbers: Vec<&str> = last.split(' ').collect();
    assert!(numbers[1].parse::<u32>().expect("steps") > 6_000);
    assert_eq!(numbers[2], "0");
    for first in [16, 0] {
        let mut long = full.clone();
        long[4] = first;
        long.push(0);
        assert_eq!(printed(&long), "end 0 13\n");
    }
}

#[test]
fn records_cut_short() {
    let whole = record(&[5, 0]);
    for kept in 1..whole.len() {
        assert_eq!(after_start(&whole[..kept]), started("end 1 13"));
    }
    assert_eq!(after_start(&record(&[99, 0])[..4]), started("end 1 13"));
}

#[test]
fn lengths_odd_or_below_4() {
    for tail in [
        "0000",
        "0100 05",
        "0200 0500",
        "0300 0500 00",
        "0500 0500 0000 00",
    ] {
        assert_eq!(after_start(&bytes_of(tail)), started("end 1 13"), "{tail}");
    }
    assert_eq!(
        after_start(&bytes_of("0500 6300 0000 00")),
        started("end 1 13")
    );
    assert_eq!(after_start(&bytes_of("0200 6300")), started("end 1 13"));
}

#[test]
fn unknown_kinds_and_a_later_open() {
    for kind in [0, 8, 15, 18, 257, 272, 65_535] {
        for numbers in 1..5 {
            let mut words = vec![kind];
            words.resize(1 + numbers, 0);
            assert_eq!(after_start(&record(&words)), started("end 1 2"));
        }
    }
    for words in [&[16, 3, 1][..], &[16, 3], &[16, 0, 9], &[16, 3, 1, 0]] {
        assert_eq!(after_start(&record(words)), started("end 1 2"));
    }
}

#[test]
fn lengths_that_are_not_the_kinds() {
    for (kind, right) in [
        (1, 3),
        (2, 3),
        (3, 3),
        (4, 2),
        (5, 1),
        (6, 2),
        (7, 3),
        (17, 1),
    ] {
        for carried in (1..6).filter(|&carried| carried != right) {
            let mut words = vec![kind];
            words.resize(1 + carried, 0);
            assert_eq!(after_start(&record(&words)), started("end 1 13"));
        }
    }
}

#[test]
fn the_first_refusal_stops_the_bench() {
    let refused = [
        (&[1, 3, 0, 0][..], 3),
        (&[2, 1, 0, 1], 4),
        (&[2, 0, 0, 0], 8),
        (&[6, 0, 1], 9),
        (&[4, 0, 0], 8),
    ];
    for (words, number) in refused {
        let mut tail = record(words);
        tail.extend(record(&[5, 0]));
        tail.push(0);
        assert_eq!(after_start(&tail), started(&format!("end 1 {number}")));
    }
}

#[test]
fn sixteen_sets_print_as_four_capital_digits() {
    let mut input = record(&[16, 16, 2]);
    input.extend(record(&[1, 15, 65_535, 65_535]));
    input.extend(record(&[2, 15, 10, 0]));
    input.extend(record(&[3, 10, 15, 0]));
    let text = printed(&input);
    let line = "msg 0 from 15 at 65535 value 65535 held 8400 delivered 0000";
    assert_eq!(text.lines().nth(1), Some(line));
}

#[test]
fn both_versions_print_the_same_for_random_files() {
    let mut ends = [0; 16];
    for case in 0..6_000 {
        let (name, input) = files::file(&mut Random::new(21, case), case);
        let text = run(&input);
        assert_eq!(text, words_file::run(&input), "file {case} ({name})");
        let text = String::from_utf8(text).expect("text");
        let number = text.trim_end().rsplit(' ').next().expect("a number");
        ends[number.parse::<usize>().expect("a number")] += 1;
    }
    for number in (0..14).filter(|&number| number != 1) {
        assert!(ends[number] > 0, "no file ended with {number}");
    }
}

#[test]
fn a_planted_fault_shows_in_a_file() {
    let steps = [&[16, 4, 2][..], &[5, 2], &[5, 3], &[1, 0, 7, 8], &[17, 100]];
    let input: Vec<u8> = steps.iter().flat_map(|numbers| record(numbers)).collect();
    let text = printed(&input);
    assert!(text.contains("held 0003 delivered 0000") && text.ends_with("end 15 0\n"));
    let wrong = loargwen_host::file::run_planted(&input, Some(Plant::Half));
    assert!(wrong != text.into_bytes());
}
