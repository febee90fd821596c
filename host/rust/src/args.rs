//! The words of a command line: numbers and names in order, then flags with a value.

use std::process::ExitCode;
use std::str::FromStr;

/// A command line, read.
#[derive(Clone, Debug, Default)]
pub struct Args {
    words: Vec<String>,
    flags: Vec<(String, String)>,
}

impl Args {
    /// Reads a command line on which only these flags may stand.
    pub fn read(line: impl IntoIterator<Item = String>, known: &[&str]) -> Result<Args, String> {
        let mut args = Args::default();
        let mut line = line.into_iter();
        while let Some(word) = line.next() {
            match word.strip_prefix("--") {
                None => args.words.push(word),
                Some(flag) if known.contains(&flag) => {
                    let value = line.next().ok_or(format!("--{flag} wants a value"))?;
                    args.flags.push((flag.to_string(), value));
                }
                Some(flag) => return Err(format!("no flag --{flag}")),
            }
        }
        Ok(args)
    }

    /// The word at a place.
    pub fn word(&self, place: usize, name: &str) -> Result<&str, String> {
        let word = self.words.get(place).ok_or(format!("{name} is missing"))?;
        Ok(word)
    }

    /// The number at a place.
    pub fn number(&self, place: usize, name: &str) -> Result<u64, String> {
        parse(self.word(place, name)?, name)
    }

    /// The value of a flag.
    pub fn flag(&self, name: &str) -> Option<&str> {
        let found = self.flags.iter().find(|(flag, _)| flag == name);
        found.map(|(_, value)| value.as_str())
    }

    /// The value of a flag, as a number.
    pub fn flag_number<T: FromStr>(&self, name: &str) -> Result<Option<T>, String> {
        self.flag(name).map(|value| parse(value, name)).transpose()
    }
}

/// Does what a command line asks for, or says what is wrong with the line.
pub fn answer<R>(
    request: Result<R, String>,
    usage: &str,
    work: impl FnOnce(R) -> ExitCode,
) -> ExitCode {
    match request {
        Ok(request) => work(request),
        Err(text) => {
            eprintln!("{text}\n{usage}");
            ExitCode::from(2)
        }
    }
}

fn parse<T: FromStr>(word: &str, name: &str) -> Result<T, String> {
    word.parse()
        .map_err(|_| format!("{name} is no number: {word}"))
}
