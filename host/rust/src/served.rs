//! The archives in a process of its own: requests on its standard input, answers on its output.
//!
//! tests/c/server.c says how both are written. A process that fails answers nothing more: each call then gives a
//! refusal that no rule gives, and `failure` tells what happened.

use std::cell::RefCell;
use std::io::{self, BufReader, BufWriter, Read, Write};
use std::process::{Child, ChildStdin, ChildStdout, Command, Stdio};

use crate::answer::{Day, LogLength, Ran, Settled};
use crate::calls::{Calls, Record};
use crate::crossing::{bytes_of, words_of};

const OPEN: u16 = 1;
const STEP: u16 = 2;
const SETTLE: u16 = 3;
const TALLY: u16 = 4;
const RUN: u16 = 5;
const RUN_STEPS: u16 = 6;
const REFUSAL: u16 = 7;
const LOG_LENGTH: u16 = 8;
const LOG: u16 = 9;

const ANSWER_BYTES: usize = 10;
const PIPE_BYTES: usize = 1 << 16;

/// The refusal given when the process has failed.
pub const FAILED: u16 = u16::MAX;

/// What is asked: the call's number and its arguments.
type Asked = (u16, [u16; 4]);

/// The numbers of an answer.
struct Answer {
    refusal: u16,
    first: u16,
    second: u16,
    third: u32,
}

impl Answer {
    fn failed() -> Answer {
        Answer {
            refusal: FAILED,
            first: 0,
            second: 0,
            third: u32::MAX,
        }
    }

    fn ran(&self) -> Ran {
        Ran {
            accepted: self.third as usize,
            refusal: self.refusal,
        }
    }

    fn from_bytes(bytes: [u8; ANSWER_BYTES]) -> Answer {
        let [a, b, c, d, e, f, third @ ..] = bytes;
        Answer {
            refusal: u16::from_le_bytes([a, b]),
            first: u16::from_le_bytes([c, d]),
            second: u16::from_le_bytes([e, f]),
            third: u32::from_le_bytes(third),
        }
    }
}

/// The process and both pipes.
struct Server {
    child: Child,
    requests: BufWriter<ChildStdin>,
    answers: BufReader<ChildStdout>,
}

impl Server {
    fn start(words: &[&str]) -> io::Result<Server> {
        let (program, args) = words
            .split_first()
            .ok_or(io::Error::other("the command is empty"))?;
        let mut child = Command::new(program)
            .args(args)
            .stdin(Stdio::piped())
            .stdout(Stdio::piped())
            .spawn()?;
        let pipes = child.stdin.take().zip(child.stdout.take());
        let (stdin, stdout) = pipes.ok_or(io::Error::other("no pipes"))?;
        Ok(Server {
            child,
            requests: BufWriter::with_capacity(PIPE_BYTES, stdin),
            answers: BufReader::with_capacity(PIPE_BYTES, stdout),
        })
    }

    fn ask(&mut self, (call, args): Asked, lent: &[&mut [u8]; 2]) -> io::Result<()> {
        self.requests.write_all(&call.to_le_bytes())?;
        self.requests.write_all(&bytes_of(&args))?;
        for run in lent {
            let len = u32::try_from(run.len()).map_err(io::Error::other)?;
            self.requests.write_all(&len.to_le_bytes())?;
        }
        for run in lent {
            self.requests.write_all(run)?;
        }
        self.requests.flush()
    }

    /// Makes a call on two runs of bytes, the bank's and another, which get the bytes afterwards.
    fn call(&mut self, asked: Asked, lent: [&mut [u8]; 2]) -> io::Result<Answer> {
        self.ask(asked, &lent)?;
        let mut bytes = [0; ANSWER_BYTES];
        self.answers.read_exact(&mut bytes)?;
        for run in lent {
            self.answers.read_exact(run)?;
        }
        Ok(Answer::from_bytes(bytes))
    }

    /// Ends the input and waits: anything more on the output, and any status but 0, is an error.
    fn finish(self) -> io::Result<()> {
        let Server {
            mut child,
            requests,
            mut answers,
        } = self;
        drop(requests);
        let more = answers.read_to_end(&mut Vec::new())?;
        let status = child.wait()?;
        match (status.success(), more) {
            (true, 0) => Ok(()),
            (true, _) => Err(io::Error::other("it wrote more than was asked for")),
            (false, _) => Err(io::Error::other(format!("it ended with {status}"))),
        }
    }
}

/// The process, or why there is none any more.
enum State {
    Serving(Box<Server>),
    Failed(String),
}

/// The calls, served by a process.
pub struct Served {
    state: RefCell<State>,
}

impl Served {
    /// Starts the process: a program and its arguments, split at blanks.
    pub fn start(command: &str) -> Result<Served, String> {
        let words: Vec<&str> = command.split_whitespace().collect();
        let server = Server::start(&words).map_err(|error| format!("'{command}': {error}"))?;
        Ok(Served {
            state: RefCell::new(State::Serving(Box::new(server))),
        })
    }

    /// What made the process fail, if it has.
    pub fn failure(&self) -> Option<String> {
        match &*self.state.borrow() {
            State::Serving(_) => None,
            State::Failed(text) => Some(text.clone()),
        }
    }

    /// Ends the process, which must end well.
    pub fn finish(self) -> Result<(), String> {
        match self.state.into_inner() {
            State::Serving(server) => server.finish().map_err(|error| error.to_string()),
            State::Failed(text) => Err(text),
        }
    }

    /// Notes a failure, with how the process ended.
    fn fail(&self, text: String) {
        let old = self.state.replace(State::Failed(text.clone()));
        if let State::Serving(server) = old {
            if let Err(ended) = server.finish() {
                self.state
                    .replace(State::Failed(format!("{text}; {ended}")));
            }
        }
    }

    fn call(&self, asked: Asked, lent: [&mut [u8]; 2]) -> Answer {
        let made = match &mut *self.state.borrow_mut() {
            State::Serving(server) => server.call(asked, lent),
            State::Failed(_) => return Answer::failed(),
        };
        made.unwrap_or_else(|error| {
            self.fail(error.to_string());
            Answer::failed()
        })
    }

    /// A call that only reads, of which nothing may come back changed.
    fn call_reading(&self, asked: Asked, bank: &[u8], beside: &mut [u8]) -> Answer {
        let mut after = bank.to_vec();
        let answer = self.call(asked, [&mut after, beside]);
        if after != bank && self.failure().is_none() {
            self.fail(format!("call {} changed what it only reads", asked.0));
            return Answer::failed();
        }
        answer
    }

    /// A list on the words of a bank.
    fn call_list(&self, call: u16, bank: &mut [u16], steps: &[u16]) -> Ran {
        let (mut after, mut list) = (bytes_of(bank), bytes_of(steps));
        let answer = self.call((call, [0; 4]), [&mut after, &mut list]);
        if words_of(&list) != steps && self.failure().is_none() {
            self.fail(format!("call {call} changed its list"));
            return Answer::failed().ran();
        }
        bank.copy_from_slice(&words_of(&after));
        answer.ran()
    }
}

impl Calls for Served {
    fn open(&self, bank: &mut [u8], n: u16, mode: u16) -> u16 {
        let asked = (OPEN, [n, mode, 0, 0]);
        self.call(asked, [bank, &mut []]).refusal
    }

    fn step(&self, bank: &mut [u8], step: Record) -> u16 {
        self.call((STEP, step), [bank, &mut []]).refusal
    }

    fn settle(&self, bank: &mut [u8], budget: u16) -> Settled {
        let answer = self.call((SETTLE, [budget, 0, 0, 0]), [bank, &mut []]);
        Settled {
            refusal: answer.refusal,
            steps: answer.first,
            quiet: answer.second,
        }
    }

    fn tally(&self, bank: &[u8], who: u16, day: u16) -> Day {
        let answer = self.call_reading((TALLY, [who, day, 0, 0]), bank, &mut []);
        Day {
            refusal: answer.refusal,
            count: answer.first,
            sum: answer.third,
        }
    }

    fn run(&self, bank: &mut [u16], steps: &[u16]) -> Ran {
        self.call_list(RUN, bank, steps)
    }

    fn run_steps(&self, bank: &mut [u16], steps: &[Record]) -> Ran {
        self.call_list(RUN_STEPS, bank, steps.as_flattened())
    }

    fn refusal(&self, bank: &[u16], step: Record) -> u16 {
        let asked = (REFUSAL, step);
        self.call_reading(asked, &bytes_of(bank), &mut []).refusal
    }

    fn log_length(&self, bank: &[u16], who: u16) -> LogLength {
        let asked = (LOG_LENGTH, [who, 0, 0, 0]);
        let answer = self.call_reading(asked, &bytes_of(bank), &mut []);
        LogLength {
            refusal: answer.refusal,
            length: answer.first,
        }
    }

    fn log(&self, bank: &[u16], who: u16, out: &mut [u16]) -> usize {
        let mut buffer = bytes_of(out);
        let answer = self.call_reading((LOG, [who, 0, 0, 0]), &bytes_of(bank), &mut buffer);
        out.copy_from_slice(&words_of(&buffer));
        answer.third as usize
    }
}
