//! Runs random and damaged files through a bench program and compares the text with the model's.

use std::io::{self, Write};
use std::process::{Command, ExitCode, Output, Stdio};
use std::time::Instant;

use loargwen_host::args::{self, Args};
use loargwen_host::figures::Figures;
use loargwen_host::plant::Plant;
use loargwen_host::random::Random;
use loargwen_host::{file, files};

const USAGE: &str = "usage: files BENCH SEED COUNT [--case K] [--plant NAME]
  runs COUNT random and damaged files through the program BENCH, one process a file;
  --case runs that file alone; --plant puts a fault into the model, which must be found
exit status: 0 no difference, 1 a difference, 2 the comparison could not be made";

/// What the command line asks for.
struct Request {
    bench: String,
    seed: u64,
    cases: std::ops::Range<u64>,
    plant: Option<Plant>,
    planted: String,
}

fn request() -> Result<Request, String> {
    let args = Args::read(std::env::args().skip(1), &["case", "plant"])?;
    let count = args.number(2, "COUNT")?;
    let cases = match args.flag_number("case")? {
        Some(number) => number..number + 1,
        None if count == 0 => return Err("COUNT is 0: no file to compare".to_string()),
        None => 0..count,
    };
    let planted = args.flag("plant").map(|name| format!(" --plant {name}"));
    Ok(Request {
        bench: args.word(0, "BENCH")?.to_string(),
        seed: args.number(1, "SEED")?,
        cases,
        plant: args.flag("plant").map(Plant::named).transpose()?,
        planted: planted.unwrap_or_default(),
    })
}

/// Why a comparison ends before its last file.
enum Stop {
    Differs(String),
    CannotRun(String),
}

/// Runs the bench on a file.
fn run(program: &str, input: &[u8]) -> io::Result<Output> {
    let mut child = Command::new(program)
        .stdin(Stdio::piped())
        .stdout(Stdio::piped())
        .spawn()?;
    if let Some(mut pipe) = child.stdin.take() {
        match pipe.write_all(input) {
            Err(error) if error.kind() != io::ErrorKind::BrokenPipe => return Err(error),
            _ => {}
        }
    }
    child.wait_with_output()
}

/// What the bench prints for a file, and how it ended if a signal ended it. A bench ends with 0 whatever the file:
/// another status is that of a read or a write that failed, or of a script that could not run it.
fn bench(program: &str, input: &[u8]) -> Result<Vec<u8>, Stop> {
    let cannot = |why: String| Stop::CannotRun(format!("'{program}' cannot be run: {why}"));
    let output = run(program, input).map_err(|error| cannot(error.to_string()))?;
    match output.status.code() {
        Some(0) => Ok(output.stdout),
        Some(_) => Err(cannot(output.status.to_string())),
        None => Ok([
            &output.stdout[..],
            format!("{}\n", output.status).as_bytes(),
        ]
        .concat()),
    }
}

/// The number at the end of the text.
fn refusal(text: &[u8]) -> u16 {
    let text = String::from_utf8_lossy(text);
    let last = text.trim_end().rsplit(' ').next();
    last.and_then(|word| word.parse().ok()).unwrap_or(u16::MAX)
}

fn described(input: &[u8], want: &[u8], got: &[u8]) -> String {
    let hex: String = input
        .iter()
        .take(400)
        .map(|byte| format!("{byte:02X}"))
        .collect();
    let more = if input.len() > 400 { " ..." } else { "" };
    format!(
        "{} bytes: {hex}{more}\nmodel:\n{}bench:\n{}",
        input.len(),
        String::from_utf8_lossy(want),
        String::from_utf8_lossy(got)
    )
}

/// Compares the bench on one file.
fn case(request: &Request, number: u64, figures: &mut Figures) -> Result<(), Stop> {
    let (name, input) = files::file(&mut Random::new(request.seed, number), number);
    let want = file::run_planted(&input, request.plant);
    let got = bench(&request.bench, &input)?;
    figures.case(name);
    figures.answer("files", refusal(&want));
    if got == want {
        return Ok(());
    }
    let (seed, planted) = (request.seed, &request.planted);
    let again = format!("again: files BENCH {seed} 0 --case {number}{planted}");
    let text = described(&input, &want, &got);
    Err(Stop::Differs(format!(
        "seed {seed}, file {number} ({name}), {text}{again}"
    )))
}

fn compare_asked(request: Request) -> ExitCode {
    let mut figures = Figures::default();
    let began = Instant::now();
    let mut cases = request.cases.clone();
    let done = cases.try_for_each(|number| case(&request, number, &mut figures));
    print!("seed {}\n{figures}", request.seed);
    match done {
        Ok(()) => {
            println!("no difference, {:.1} s", began.elapsed().as_secs_f64());
            ExitCode::SUCCESS
        }
        Err(Stop::Differs(text)) => {
            println!("difference: {text}");
            ExitCode::FAILURE
        }
        Err(Stop::CannotRun(text)) => {
            eprintln!("{text}");
            ExitCode::from(2)
        }
    }
}

fn main() -> ExitCode {
    args::answer(request(), USAGE, compare_asked)
}
