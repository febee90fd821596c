//! Compares the model on plain sets with the archives, through C, on random cases.

use std::process::ExitCode;
use std::time::{Duration, Instant};

use loargwen_host::args::{self, Args};
use loargwen_host::calls::Calls;
use loargwen_host::cases;
use loargwen_host::contest::Setting;
use loargwen_host::figures::Figures;
use loargwen_host::plant::Plant;
use loargwen_host::served::Served;

const USAGE: &str =
    "usage: compare SEED STEPS [--minutes M] [--case K] [--only NAME] [--guard BYTES]
                          [--plant NAME] [--served COMMAND]
  runs cases until STEPS single steps were compared and, with --minutes, until time is up;
  --case runs that case alone, --only those of one name (spoilt, 'unfit log', days, ...);
  --guard 0 makes each bank an allocation of its own, for valgrind (64 else);
  --plant puts a fault into the model, or into what is lent, which must be found;
  --served calls the archive in the process of COMMAND, one word split at blanks, not the linked one
exit status: 0 no difference, 1 a difference, 2 the comparison could not be made";
const FLAGS: [&str; 6] = ["minutes", "case", "only", "guard", "plant", "served"];

/// What the command line asks for.
struct Request {
    seed: u64,
    steps: u64,
    time: Duration,
    case: Option<u64>,
    only: Option<String>,
    guard: usize,
    plant: Option<Plant>,
    served: Option<String>,
    again: String,
}

/// The flags that a case needs when it is run again.
fn again(args: &Args) -> String {
    let kept = ["guard", "plant", "served"].map(|name| (name, args.flag(name)));
    let flags = kept
        .into_iter()
        .filter_map(|(name, value)| Some((name, value?)));
    flags
        .map(|(name, value)| match value.contains(' ') {
            true => format!(" --{name} '{value}'"),
            false => format!(" --{name} {value}"),
        })
        .collect()
}

/// The name after `--only`, which must be one that cases have.
fn only(args: &Args) -> Result<Option<String>, String> {
    match args.flag("only") {
        Some(name) if !cases::NAMES.contains(&name) => Err(format!(
            "no case '{name}'; there are {}",
            cases::NAMES.join(", ")
        )),
        name => Ok(name.map(str::to_string)),
    }
}

fn request() -> Result<Request, String> {
    let args = Args::read(std::env::args().skip(1), &FLAGS)?;
    let minutes: f64 = args.flag_number("minutes")?.unwrap_or(0.0);
    Ok(Request {
        seed: args.number(0, "SEED")?,
        steps: args.number(1, "STEPS")?,
        time: Duration::try_from_secs_f64(60.0 * minutes).map_err(|error| error.to_string())?,
        case: args.flag_number("case")?,
        only: only(&args)?,
        guard: args.flag_number("guard")?.unwrap_or(64),
        plant: args.flag("plant").map(Plant::named).transpose()?,
        served: args.flag("served").map(str::to_string),
        again: again(&args),
    })
}

/// Runs all cases asked for, up to the first difference; the case is told with it.
fn run(request: &Request, calls: &dyn Calls, figures: &mut Figures) -> Result<(), (u64, String)> {
    let setting = Setting {
        calls,
        plant: request.plant,
        seed: request.seed,
        guard: request.guard,
    };
    let began = Instant::now();
    let mut number = request.case.unwrap_or(0);
    loop {
        let only = request.only.as_deref();
        if only.is_none_or(|name| name == cases::name(request.seed, number)) {
            cases::run(&setting, number, figures).map_err(|text| (number, text))?;
        }
        let enough = figures.calls("step") >= request.steps && began.elapsed() >= request.time;
        if request.case.is_some() || enough && !figures.cases.is_empty() {
            return Ok(());
        }
        number += 1;
    }
}

/// Runs the comparison on these calls and prints what came of it; whether there was no difference.
fn compare(request: &Request, calls: &dyn Calls) -> bool {
    let mut figures = Figures::default();
    let began = Instant::now();
    let done = run(request, calls, &mut figures);
    let seed = request.seed;
    print!("seed {seed}\n{figures}");
    match &done {
        Ok(()) => println!("no difference, {:.1} s", began.elapsed().as_secs_f64()),
        Err((number, text)) => {
            let again = &request.again;
            println!("difference: {text}  again: compare {seed} 0 --case {number}{again}");
        }
    }
    done.is_ok()
}

/// Compares with the archive in a process, which must end well too.
fn compare_served(request: &Request, command: &str) -> Result<bool, String> {
    let served = Served::start(command)?;
    let same = compare(request, &served);
    let ended = served.finish();
    ended.map_err(|text| format!("the served process failed: {text}"))?;
    Ok(same)
}

#[cfg(feature = "archive")]
fn compare_linked(request: &Request) -> Result<bool, String> {
    Ok(compare(request, &loargwen_host::face::Archive))
}

#[cfg(not(feature = "archive"))]
fn compare_linked(_: &Request) -> Result<bool, String> {
    Err("no archive to compare with: give --served, or build with the feature archive".to_string())
}

fn compare_asked(request: Request) -> ExitCode {
    let compared = match &request.served {
        Some(command) => compare_served(&request, command),
        None => compare_linked(&request),
    };
    match compared {
        Ok(true) => ExitCode::SUCCESS,
        Ok(false) => ExitCode::FAILURE,
        Err(text) => {
            eprintln!("{text}");
            ExitCode::from(2)
        }
    }
}

fn main() -> ExitCode {
    args::answer(request(), USAGE, compare_asked)
}
