//! One call made on both sides: the model on plain sets and tested calls on guarded bytes or words.

use std::fmt::Debug;

use crate::answer::{Day, LogLength, Ran, Settled};
use crate::bank::Bank;
use crate::calls::{Calls, Record};
use crate::crossing::{bytes_of, words_of};
use crate::field::Field;
use crate::figures::Figures;
use crate::layout;
use crate::plant::Plant;
use crate::random::Random;
use crate::refusal::{DONE, UNFIT};
use crate::rules::Group;

/// What a comparison runs on.
pub struct Setting<'a> {
    /// The calls under test.
    pub calls: &'a dyn Calls,
    /// The fault in the model, or in what is lent, if any.
    pub plant: Option<Plant>,
    /// The seed of the whole comparison.
    pub seed: u64,
    /// Guards before and after what is lent; with none, it is an allocation of its own.
    pub guard: usize,
}

/// Both sides of a comparison, on the same bytes.
pub struct Contest<'a> {
    calls: &'a dyn Calls,
    model: Bank,
    plant: Option<Plant>,
    bank: Field<u8>,
    guard: usize,
    /// Whether a group was opened on these bytes, which calls alone have changed since.
    opened: bool,
    /// What the last call did that no call may, whatever the model says, a line each.
    wrong: String,
    made: u64,
    figures: &'a mut Figures,
}

impl<'a> Contest<'a> {
    /// Lends these bytes to both sides, at any alignment when there are guards.
    pub fn new(
        setting: &Setting<'a>,
        bytes: &[u8],
        random: &mut Random,
        figures: &'a mut Figures,
    ) -> Contest<'a> {
        let guard = setting.guard;
        let shift = random.below(4);
        Contest {
            calls: setting.calls,
            model: Bank::planted(bytes, setting.plant),
            plant: setting.plant,
            bank: Field::new(bytes, guard + shift.min(guard), guard),
            guard,
            opened: false,
            wrong: String::new(),
            made: 0,
            figures,
        }
    }

    /// The group as the model sees it, when the bank is fit.
    pub fn group(&self) -> Option<&Group> {
        self.model.group()
    }

    /// Whether the bank is whole words, so that it can be lent as such.
    pub fn is_words(&self) -> bool {
        self.bank.lent().len().is_multiple_of(2)
    }

    /// Opens a group on both sides.
    pub fn open(&mut self, n: u16, mode: u16) -> Result<u16, String> {
        let want = self.model.open(n, mode);
        let got = self.calls.open(self.bank.lent_mut(), n, mode);
        self.answered("open", want);
        self.opened |= want == DONE;
        let checked = self.check(|| format!("open {n} {mode}"), want, got);
        if want == DONE && self.plant == Some(Plant::SpoilOpened) {
            self.spoil();
        }
        checked
    }

    /// Makes the bank unfit on both sides.
    fn spoil(&mut self) {
        self.bank.lent_mut()[0] = 17;
        self.model = Bank::planted(self.bank.lent(), self.plant);
    }

    /// Takes a step on both sides.
    pub fn step(&mut self, step: Record) -> Result<u16, String> {
        let want = self.model.step(step);
        let got = self.calls.step(self.bank.lent_mut(), step);
        self.answered("step", want);
        if want == DONE {
            *self.figures.kinds.entry(step[0]).or_default() += 1;
        }
        self.check(|| format!("step {step:?}"), want, got)
    }

    /// Settles on both sides.
    pub fn settle(&mut self, budget: u16) -> Result<Settled, String> {
        let want = self.model.settle(budget);
        let got = self.calls.settle(self.bank.lent_mut(), budget);
        self.answered("settle", want.refusal);
        self.figures.settled += u64::from(want.steps);
        self.figures.quiet += u64::from(want.quiet);
        self.figures.longest = self.figures.longest.max(want.steps);
        self.check(|| format!("settle {budget}"), want, got)
    }

    /// Tallies on both sides.
    pub fn tally(&mut self, who: u16, day: u16) -> Result<Day, String> {
        let want = self.model.tally(who, day);
        let got = self.calls.tally(self.bank.lent(), who, day);
        self.answered("tally", want.refusal);
        self.check(|| format!("tally {who} {day}"), want, got)
    }

    /// Applies a list of steps on both sides, four words each.
    pub fn list(&mut self, steps: &[u16]) -> Result<(), String> {
        let want = self.model.list(steps);
        let got = self.on_words(steps, |calls, bank, steps| calls.run(bank, steps));
        self.check_list("list", steps, want, got)
    }

    /// Applies a list of step records on both sides.
    pub fn records(&mut self, steps: &[Record]) -> Result<(), String> {
        let want = self.model.records(steps);
        let flat = steps.as_flattened();
        let got = self.on_words(flat, |calls, bank, steps| {
            calls.run_steps(bank, steps.as_chunks().0)
        });
        self.check_list("records", flat, want, got)
    }

    /// Asks both sides what refuses a step.
    pub fn refusal(&mut self, step: Record) -> Result<u16, String> {
        let want = self.model.refusal(step);
        let (got, _) = self.on_words(&[], |calls, bank, _| calls.refusal(bank, step));
        self.answered("refusal", want);
        self.check(|| format!("refusal {step:?}"), want, got)
    }

    /// Asks both sides how long a log is.
    pub fn log_length(&mut self, who: u16) -> Result<LogLength, String> {
        let want = self.model.log_length(who);
        let (got, _) = self.on_words(&[], |calls, bank, _| calls.log_length(bank, who));
        self.answered("log length", want.refusal);
        self.check(|| format!("log length {who}"), want, got)
    }

    /// Copies a log on both sides into a buffer of so many words.
    pub fn log(&mut self, who: u16, room: usize) -> Result<(), String> {
        let before: Vec<u16> = (0..room).map(|place| 60_000 + place as u16).collect();
        let mut buffer = before.clone();
        let length = self.model.copy_log(who, &mut buffer);
        let got = self.on_words(&before, |calls, bank, out| calls.log(bank, who, out));
        self.figures.answer("log", length as u16);
        let call = || format!("log {who} into {room} words");
        self.check(call, (length, buffer), got).map(drop)
    }

    /// Counts a call's refusal. No bank on which a group was opened is ever found unfit, and no log of it spoilt.
    fn answered(&mut self, call: &'static str, refusal: u16) {
        self.figures.answer(call, refusal);
        if self.opened && refusal == UNFIT {
            self.wrong += "  a group that was opened was found unfit\n";
        }
    }

    /// Makes a call on the bank's words and more words lent beside them, each between guards of their own; the bank's
    /// bytes become what its words then are. The other words come back with the answer.
    fn on_words<A>(
        &mut self,
        beside: &[u16],
        call: impl FnOnce(&dyn Calls, &mut [u16], &mut [u16]) -> A,
    ) -> (A, Vec<u16>) {
        let before = self.guard + (self.made as usize % 4).min(self.guard);
        let mut bank = Field::new(&words_of(self.bank.lent()), before, self.guard);
        let mut beside = Field::new(beside, before, self.guard);
        let answer = call(self.calls, bank.lent_mut(), beside.lent_mut());
        self.bank.lent_mut().copy_from_slice(&bytes_of(bank.lent()));
        match self.plant {
            Some(Plant::PastWords) => bank.stray(),
            Some(Plant::PastBeside) => beside.stray(),
            _ => {}
        }
        self.wrong += &strayed("word", "bank", &bank);
        self.wrong += &strayed("word", "list or buffer", &beside);
        (answer, beside.lent().to_vec())
    }

    /// Compares the answers to a list, which has to stay as it was.
    fn check_list(
        &mut self,
        call: &'static str,
        steps: &[u16],
        want: Ran,
        got: (Ran, Vec<u16>),
    ) -> Result<(), String> {
        self.answered(call, want.refusal);
        self.figures.listed += want.accepted as u64;
        let want = match self.plant {
            Some(Plant::ClearList) => (want, vec![0; steps.len()]),
            _ => (want, steps.to_vec()),
        };
        self.check(|| call.to_string(), want, got).map(drop)
    }

    /// Compares the answers, every byte of the bank, and the guards.
    fn check<T: PartialEq + Debug>(
        &mut self,
        call: impl Fn() -> String,
        want: T,
        got: T,
    ) -> Result<T, String> {
        self.made += 1;
        if self.plant == Some(Plant::PastBank) {
            self.bank.stray();
        }
        let wrong = std::mem::take(&mut self.wrong) + &strayed("byte", "bank", &self.bank);
        if want == got && self.bank.lent() == self.model.bytes() && wrong.is_empty() {
            return Ok(want);
        }
        let mut text = format!("call {}: {}\n", self.made, call());
        text += &format!("  answer: model {want:?}, tested {got:?}\n");
        text += &differing(self.model.bytes(), self.bank.lent());
        Err(text + &wrong)
    }
}

/// The guards around a field that were changed, a line each.
fn strayed<T: Copy + PartialEq + From<u8>>(unit: &str, lent: &str, field: &Field<T>) -> String {
    let line =
        |place| format!("  guard {unit} at {place} from the start of the {lent} was changed\n");
    field.changed().into_iter().map(line).collect()
}

/// The first bytes that differ, a line each.
fn differing(model: &[u8], tested: &[u8]) -> String {
    let pairs = model.iter().zip(tested).enumerate();
    let mut lines: Vec<String> = pairs
        .filter(|(_, (want, got))| want != got)
        .map(|(place, (want, got))| {
            let name = word_name(place / 2);
            format!("  byte {place} ({name}): model {want:02X}, tested {got:02X}\n")
        })
        .collect();
    let all = lines.len();
    lines.truncate(8);
    if all > 8 {
        lines.push(format!("  and {} bytes more\n", all - 8));
    }
    lines.concat()
}

/// What a word of the bank stands for.
fn word_name(place: usize) -> String {
    const PARTS: [(usize, &str); 3] = [
        (layout::FLIGHT, "in flight"),
        (layout::UNSENT, "unsent"),
        (layout::ACKED, "acked"),
    ];
    match place {
        0..=3 => ["N", "mode", "messages", "up"][place].to_string(),
        4..=19 => format!("taken up by {}", place - 4),
        20..=35 => format!("log length of {}", place - 20),
        36..=547 => format!("log of {} at {}", (place - 36) / 32, (place - 36) % 32),
        _ => {
            let (message, word) = ((place - 548) / 53, (place - 548) % 53);
            let part = PARTS.iter().find(|(first, _)| word >= *first);
            match part {
                Some((first, name)) => format!("message {message}, {name} of {}", word - first),
                None => {
                    let name = ["sender", "stamp", "value", "held", "delivered"][word];
                    format!("message {message}, {name}")
                }
            }
        }
    }
}
