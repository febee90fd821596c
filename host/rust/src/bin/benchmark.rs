//! Ratios of the archives to the plain version, on the same banks in one process, and of the bench to a plain one.

use std::fs::File;
use std::hint::black_box;
use std::io;
use std::path::{Path, PathBuf};
use std::process::{Command, ExitCode, Stdio};
use std::time::{Duration, Instant};

use loargwen_host::answer::{Day, Ran};
use loargwen_host::bank::Bank;
use loargwen_host::calls::Calls;
use loargwen_host::face::Archive;
use loargwen_host::layout::{BYTES, WORDS};
use loargwen_host::measure::{Row, Times};
use loargwen_host::plain::Plain;
use loargwen_host::random::Random;
use loargwen_host::refusal::DONE;
use loargwen_host::words::Words;
use loargwen_host::{banks, files, words};

const STEPS: usize = 4_000;
const PROCESSES: usize = 501;
const ROUNDS: usize = 101;
const NOTE: &str = "\
cleared first: nothing on the machine; both sides get a fresh copy of the same bank before each
timed piece, outside the timing, and one round that does not count. Rounds alternate which side
goes first. The plain settler searches from the start for each step, candidate by candidate.
'through words': both sides keep the bank as words, ours walks a list of step records, accepted
ones only. 'C face': ours gets bytes; 'plain on bytes' turns the same 4,488 bytes into words and
back for each call, as ours does, 'plain on words' has them as words already.";

fn timed<T>(work: impl FnOnce() -> T) -> Duration {
    let began = Instant::now();
    black_box(work());
    began.elapsed()
}

/// An opened group of sixteen with 32 messages, as bytes.
fn full_bank(mode: u16) -> Vec<u8> {
    let mut bank = Bank::new(&[0; BYTES]);
    bank.open(16, mode);
    for message in 0..32 {
        bank.step([1, message % 16, 96 * message + 5, 60_000 + message]);
    }
    bank.bytes().to_vec()
}

/// Four thousand steps of a run of sixteen, accepted and refused ones.
fn run_of_steps() -> Vec<[u16; 4]> {
    let mut bank = Bank::new(&[0; BYTES]);
    let mut random = Random::new(8, 8);
    bank.open(16, 1);
    (0..STEPS)
        .map(|_| {
            let step = match bank.group() {
                Some(group) => random.likely_step(group),
                None => [0; 4],
            };
            bank.step(step);
            step
        })
        .collect()
}

fn words_of(bytes: &[u8]) -> Words {
    let mut bank = [0; WORDS];
    assert!(words::load(&mut bank, bytes), "not a bank's bytes");
    bank
}

fn settle_row(name: &str, bytes: &[u8], rounds: usize) -> Row {
    let mut ours = bytes.to_vec();
    let mut plain = bytes.to_vec();
    let answer = Archive.settle(&mut ours, u16::MAX);
    assert_eq!(answer, Plain.settle(&mut plain, u16::MAX));
    assert!(ours == plain, "the two settlers leave different banks");
    let start = words_of(bytes);
    Row::measure(
        &format!("settling, {name}, {} steps", answer.steps),
        Times { rounds, pieces: 1 },
        || {
            ours.copy_from_slice(bytes);
            timed(|| Archive.settle(black_box(&mut ours), u16::MAX))
        },
        || {
            let mut bank = start;
            timed(|| words::settle(black_box(&mut bank), u16::MAX))
        },
    )
    .at_most(1.0)
}

/// The steps of a run that are accepted: a list stops at any other.
fn accepted(bytes: &[u8], steps: &[[u16; 4]]) -> Vec<[u16; 4]> {
    let mut bank = words_of(bytes);
    let taken = steps
        .iter()
        .filter(|&&step| words::step(&mut bank, step) == DONE);
    taken.copied().collect()
}

fn words_row(bytes: &[u8], steps: &[[u16; 4]]) -> Row {
    let steps = accepted(bytes, steps);
    let start = words_of(bytes);
    let (mut ours, mut plain) = (start, start);
    let whole = Ran {
        accepted: steps.len(),
        refusal: DONE,
    };
    assert_eq!(Archive.run_steps(&mut ours, &steps), whole);
    assert_eq!(words::run(&mut plain, &steps), whole);
    assert!(ours == plain, "the two lists leave different banks");
    Row::measure(
        &format!("one step through words, of {}", steps.len()),
        Times {
            rounds: ROUNDS,
            pieces: steps.len(),
        },
        || {
            let mut bank = start;
            timed(|| Archive.run_steps(black_box(&mut bank), black_box(&steps)))
        },
        || {
            let mut bank = start;
            timed(|| words::run(black_box(&mut bank), black_box(&steps)))
        },
    )
    .at_most(1.5)
}

/// Applies all steps to a fresh copy of the bank's bytes.
fn step_all(calls: &impl Calls, bytes: &[u8], steps: &[[u16; 4]]) -> Duration {
    let mut bank = bytes.to_vec();
    timed(|| {
        for &step in steps {
            black_box(calls.step(black_box(&mut bank), step));
        }
    })
}

fn step_rows() -> Vec<Row> {
    let steps = run_of_steps();
    let mut bytes = vec![0; BYTES];
    Archive.open(&mut bytes, 16, 1);
    let start = words_of(&bytes);
    let on_words = || {
        let mut bank = start;
        timed(|| {
            for &step in &steps {
                black_box(words::step(black_box(&mut bank), step));
            }
        })
    };
    let ours = || step_all(&Archive, &bytes, &steps);
    let on_bytes = || step_all(&Plain, &bytes, &steps);
    let times = Times {
        rounds: ROUNDS,
        pieces: STEPS,
    };
    vec![
        words_row(&bytes, &steps),
        Row::measure("one step, C face; plain on bytes", times, ours, on_bytes),
        Row::measure("one step, C face; plain on words", times, ours, on_words),
    ]
}

/// Every controller's tally for each of 40 days.
fn tally_all(tally: impl Fn(u16, u16) -> Day) -> Duration {
    timed(|| {
        for day in 0..40 {
            for who in 0..16 {
                black_box(tally(who, day));
            }
        }
    })
}

fn tally_rows() -> Vec<Row> {
    let mut bytes = full_bank(1);
    Plain.settle(&mut bytes, u16::MAX);
    let bank = words_of(&bytes);
    let ours = || tally_all(|who, day| Archive.tally(black_box(&bytes), who, day));
    let on_words = || tally_all(|who, day| words::tally(black_box(&bank), who, day));
    let on_bytes = || tally_all(|who, day| Plain.tally(black_box(&bytes), who, day));
    let times = Times {
        rounds: ROUNDS,
        pieces: 640,
    };
    vec![
        Row::measure("the tally, C face; plain on bytes", times, ours, on_bytes).at_most(1.5),
        Row::measure("the tally, C face; plain on words", times, ours, on_words),
    ]
}

/// What a program prints for a file.
fn process(program: &Path, input: &Input) -> Vec<u8> {
    let file = File::open(&input.0).expect("the file just written opens");
    let output = Command::new(program)
        .stdin(file)
        .stdout(Stdio::piped())
        .output()
        .expect("the program runs");
    output.stdout
}

/// A file of the system's temporary folder, removed at the end.
struct Input(PathBuf);

impl Input {
    fn new(name: &str, bytes: &[u8]) -> io::Result<Input> {
        let name = format!("loargwen-benchmark-{}-{name}", std::process::id());
        let path = std::env::temp_dir().join(name);
        std::fs::write(&path, bytes)?;
        Ok(Input(path))
    }
}

impl Drop for Input {
    fn drop(&mut self) {
        let _ = std::fs::remove_file(&self.0);
    }
}

/// The bench against the plain bench, each as a process: on a full file, on an empty group, and what the first takes
/// beyond the second, which is neither program's start.
fn file_rows(bench: &Path) -> io::Result<[Row; 3]> {
    let full = Input::new("full", &files::full_of_steps())?;
    let bare = Input::new("bare", &files::record(&[16, 3, 1]))?;
    let plain = std::env::current_exe()?.with_file_name("plain");
    for input in [&full, &bare] {
        assert_eq!(process(bench, input), process(&plain, input));
    }
    let times = Times {
        rounds: PROCESSES,
        pieces: 1,
    };
    let row = |name, input| {
        let time = |program: &Path| timed(|| process(program, input));
        Row::measure(name, times, || time(bench), || time(&plain))
    };
    let beyond = |program: &Path| {
        let start = timed(|| process(program, &bare));
        timed(|| process(program, &full)).saturating_sub(start)
    };
    let name = "the long file less the short one";
    Ok([
        row("a bench file of 65,536 bytes, process", &full).at_most(1.5),
        row("a bench file of 8 bytes, process", &bare),
        Row::measure(name, times, || beyond(bench), || beyond(&plain)).at_most(1.5),
    ])
}

fn show(rows: &[Row]) {
    rows.iter().for_each(|row| println!("{row}"));
}

fn main() -> ExitCode {
    println!("{NOTE}\n\n{}", Row::heading());
    show(&step_rows());
    let spoilt = banks::spoilt_of(&mut Random::new(8, 1), 16, 1, 32);
    for (name, bank) in [
        ("opened all-ack", full_bank(1)),
        ("opened majority", full_bank(2)),
        ("spoilt all-ack", spoilt),
    ] {
        show(&[settle_row(name, &bank, 9)]);
    }
    show(&tally_rows());
    let Some(bench) = std::env::args_os().nth(1) else {
        println!("no bench program named: the bench file is left out");
        return ExitCode::SUCCESS;
    };
    match file_rows(Path::new(&bench)) {
        Ok(rows) => {
            show(&rows);
            ExitCode::SUCCESS
        }
        Err(error) => {
            eprintln!("{error}");
            ExitCode::FAILURE
        }
    }
}
