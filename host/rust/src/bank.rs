//! The group over any lent bytes: the fit test, decoding, and writing back only what a step touches.

use crate::answer::{Day, LogLength, Ran, Settled};
use crate::layout;
use crate::plant::Plant;
use crate::refusal::{CONTROLLER, DONE, DOWN, KIND, OPEN_MODE, RAGGED, UNFIT};
use crate::rules::{Group, Message, Mode, CONTROLLERS, MESSAGES};
use crate::set::Set;
use crate::step::Step;

/// Why a bank is unfit.
#[derive(Clone, Copy, PartialEq, Eq, Debug)]
pub enum Unfit {
    /// Its length is not 4,488 bytes.
    Length,
    /// N is not 1 to 16.
    Controllers,
    /// The mode is not 1 or 2.
    Mode,
    /// There are more than 32 messages.
    Messages,
    /// The log of a controller below N is longer than there are messages.
    Log,
}

impl Unfit {
    /// Every cause.
    pub const ALL: [Unfit; 5] = [
        Unfit::Length,
        Unfit::Controllers,
        Unfit::Mode,
        Unfit::Messages,
        Unfit::Log,
    ];
}

/// The word at a place, low byte first.
fn word(bytes: &[u8], place: usize) -> u16 {
    u16::from(bytes[2 * place]) + 256 * u16::from(bytes[2 * place + 1])
}

/// The first cause why these bytes are no fit bank.
pub fn unfit(bytes: &[u8]) -> Option<Unfit> {
    if bytes.len() != layout::BYTES {
        return Some(Unfit::Length);
    }
    let n = word(bytes, layout::N);
    let count = word(bytes, layout::COUNT);
    if n == 0 || n > CONTROLLERS {
        return Some(Unfit::Controllers);
    }
    if Mode::read(word(bytes, layout::MODE)).is_none() {
        return Some(Unfit::Mode);
    }
    if usize::from(count) > MESSAGES {
        return Some(Unfit::Messages);
    }
    let long = |who| word(bytes, layout::length(who)) > count;
    (0..usize::from(n)).any(long).then_some(Unfit::Log)
}

/// The controllers below `n` whose bit is set in a word.
fn set_of(word: u16, n: u16) -> Set {
    let mut set = Set::default();
    for who in (0..n).filter(|&who| word & (1 << who) != 0) {
        set.add(who);
    }
    set
}

/// The word with its bits below `n` as in the set and the others as they were.
fn word_of(set: &Set, n: u16, before: u16) -> u16 {
    (0..n).fold(before, |word, who| {
        let bit = 1 << who;
        if set.has(who) {
            word | bit
        } else {
            word & !bit
        }
    })
}

fn decode_sets(bytes: &[u8], place: usize, n: u16) -> Vec<Set> {
    let places = place..place + usize::from(n);
    places.map(|place| set_of(word(bytes, place), n)).collect()
}

fn decode_message(bytes: &[u8], number: usize, n: u16) -> Message {
    let record = layout::record(number);
    Message {
        sender: word(bytes, record + layout::SENDER),
        stamp: word(bytes, record + layout::STAMP),
        value: word(bytes, record + layout::VALUE),
        held: set_of(word(bytes, record + layout::HELD), n),
        delivered: set_of(word(bytes, record + layout::DELIVERED), n),
        acked: decode_sets(bytes, record + layout::ACKED, n),
        unsent: decode_sets(bytes, record + layout::UNSENT, n),
        flight: decode_sets(bytes, record + layout::FLIGHT, n),
    }
}

fn decode_log(bytes: &[u8], who: usize) -> Vec<u16> {
    let length = usize::from(word(bytes, layout::length(who)));
    let places = layout::log(who)..layout::log(who) + length;
    places.map(|place| word(bytes, place)).collect()
}

/// The group that fit bytes hold.
fn decode(bytes: &[u8], plant: Option<Plant>) -> Option<Group> {
    if unfit(bytes).is_some() {
        return None;
    }
    let n = word(bytes, layout::N);
    let count = usize::from(word(bytes, layout::COUNT));
    Some(Group {
        n,
        mode: Mode::read(word(bytes, layout::MODE))?,
        up: set_of(word(bytes, layout::UP), n),
        trusts: decode_sets(bytes, layout::trust(0), n),
        logs: (0..usize::from(n)).map(|i| decode_log(bytes, i)).collect(),
        messages: (0..count).map(|m| decode_message(bytes, m, n)).collect(),
        plant,
    })
}

/// A lent run of bytes and, when it is a fit bank, the group it holds.
#[derive(Clone, Debug)]
pub struct Bank {
    bytes: Vec<u8>,
    group: Option<Group>,
    plant: Option<Plant>,
}

impl Bank {
    /// The bank of these bytes, whatever they are.
    pub fn new(bytes: &[u8]) -> Bank {
        Bank::planted(bytes, None)
    }

    /// The same, with a fault in its rules.
    pub fn planted(bytes: &[u8], plant: Option<Plant>) -> Bank {
        Bank {
            bytes: bytes.to_vec(),
            group: decode(bytes, plant),
            plant,
        }
    }

    /// Whether this fault is planted.
    fn has_fault(&self, plant: Plant) -> bool {
        self.plant == Some(plant)
    }

    /// The bytes as they stand.
    pub fn bytes(&self) -> &[u8] {
        &self.bytes
    }

    /// The group, when the bank is fit.
    pub fn group(&self) -> Option<&Group> {
        self.group.as_ref()
    }

    /// Opens a group: tests 1 (length only), 11, 12.
    pub fn open(&mut self, n: u16, mode: u16) -> u16 {
        if self.bytes.len() != layout::BYTES {
            return UNFIT;
        }
        let mut group = match Group::open(n, mode) {
            Ok(group) => group,
            Err(_) if self.has_fault(Plant::ModeFirst) && Mode::read(mode).is_none() => {
                return OPEN_MODE;
            }
            Err(refusal) => return refusal,
        };
        group.plant = self.plant;
        self.bytes.fill(0);
        self.put(layout::N, n);
        self.put(layout::MODE, mode);
        self.put_set(layout::UP, &group.up, n);
        for (who, set) in group.trusts.iter().enumerate() {
            self.put_set(layout::trust(who), set, n);
        }
        self.group = Some(group);
        DONE
    }

    /// Takes one step.
    pub fn step(&mut self, numbers: [u16; 4]) -> u16 {
        match self.group.as_mut().map(|group| group.step(numbers)) {
            None => UNFIT,
            Some(Err(KIND)) if self.has_fault(Plant::BadRecord) => RAGGED,
            Some(Err(refusal)) => refusal,
            Some(Ok(step)) => {
                self.write_back(&[step]);
                DONE
            }
        }
    }

    /// What refuses a step, or 0; nothing is changed.
    pub fn refusal(&self, numbers: [u16; 4]) -> u16 {
        let Some(group) = &self.group else {
            return UNFIT;
        };
        match group.allowed(numbers).err() {
            Some(DOWN) if self.has_fault(Plant::NextNumber) => {
                let mut revived = group.clone();
                revived.up.add(numbers[1]);
                revived.allowed(numbers).err().unwrap_or(DOWN)
            }
            refusal => refusal.unwrap_or(DONE),
        }
    }

    /// Applies a list of steps, four words each.
    pub fn list(&mut self, words: &[u16]) -> Ran {
        let ragged = !words.len().is_multiple_of(4) && self.has_fault(Plant::RaggedFirst);
        let Some(group) = self.group.as_mut() else {
            return Ran {
                accepted: 0,
                refusal: if ragged { RAGGED } else { UNFIT },
            };
        };
        let (taken, refusal) = group.list(words);
        self.write_back(&taken);
        Ran {
            accepted: taken.len(),
            refusal,
        }
    }

    /// Applies a list of step records, as if it were their words.
    pub fn records(&mut self, steps: &[[u16; 4]]) -> Ran {
        let mut ran = self.list(steps.as_flattened());
        if self.has_fault(Plant::GoOn) {
            steps.iter().skip(ran.accepted).for_each(|&step| {
                self.step(step);
            });
        }
        if self.has_fault(Plant::CountRefused) && ran.refusal != DONE {
            ran.accepted += 1;
        }
        ran
    }

    /// Settles within a budget.
    pub fn settle(&mut self, budget: u16) -> Settled {
        let Some(group) = self.group.as_mut() else {
            return Settled::refused(UNFIT);
        };
        let (taken, quiet) = group.settle(budget);
        self.write_back(&taken);
        Settled {
            refusal: DONE,
            steps: taken.len() as u16,
            quiet: u16::from(quiet),
        }
    }

    /// The used part of a log, empty when refused, and the refusal.
    pub fn log(&self, who: u16) -> (&[u16], u16) {
        match self.group.as_ref().map(|group| group.log(who)) {
            None => (&[], UNFIT),
            Some(Err(refusal)) => (&[], refusal),
            Some(Ok(log)) => (log, DONE),
        }
    }

    /// The length of a log, 0 when refused, and the refusal.
    pub fn log_length(&self, who: u16) -> LogLength {
        let (log, refusal) = self.log(who);
        LogLength {
            refusal: match refusal {
                CONTROLLER if self.has_fault(Plant::StrangerUnfit) => UNFIT,
                _ => refusal,
            },
            length: log.len() as u16,
        }
    }

    /// Copies the used part of a log into a buffer, as far as it reaches; that part's length.
    pub fn copy_log(&self, who: u16, out: &mut [u16]) -> usize {
        let (log, _) = self.log(who);
        let (copy, rest) = out.split_at_mut(log.len().min(out.len()));
        copy.copy_from_slice(&log[..copy.len()]);
        if self.has_fault(Plant::ClearRest) {
            rest.fill(0);
        }
        match self.has_fault(Plant::ShortLog) {
            true => copy.len(),
            false => log.len(),
        }
    }

    /// The tally of a controller for a day.
    pub fn tally(&self, who: u16, day: u16) -> Day {
        match self.group.as_ref().map(|group| group.tally(who, day)) {
            None => Day::refused(UNFIT),
            Some(Err(refusal)) => Day::refused(refusal),
            Some(Ok(tally)) => Day {
                refusal: DONE,
                count: tally.count,
                sum: tally.sum,
            },
        }
    }

    fn put(&mut self, place: usize, word: u16) {
        self.bytes[2 * place] = (word % 256) as u8;
        self.bytes[2 * place + 1] = (word / 256) as u8;
    }

    fn put_set(&mut self, place: usize, set: &Set, n: u16) {
        let before = match self.has_fault(Plant::HighBits) {
            true => 0,
            false => word(&self.bytes, place),
        };
        self.put(place, word_of(set, n, before));
    }

    /// Writes the words that these steps touched, as the group holds them now.
    fn write_back(&mut self, steps: &[Step]) {
        let Some(group) = self.group.take() else {
            return;
        };
        steps.iter().for_each(|&step| self.write_step(&group, step));
        self.group = Some(group);
    }

    fn write_step(&mut self, group: &Group, step: Step) {
        match step {
            Step::Broadcast { .. } => self.write_next(group),
            Step::Crash { .. } => self.put_set(layout::UP, &group.up, group.n),
            Step::Detect { at, .. } => {
                let at = usize::from(at);
                self.put_set(layout::trust(at), &group.trusts[at], group.n);
            }
            Step::Deliver { at, message } => {
                let place = layout::record(usize::from(message)) + layout::DELIVERED;
                let delivered = &group.messages[usize::from(message)].delivered;
                self.put_set(place, delivered, group.n);
                self.write_log(group, usize::from(at));
            }
            Step::Send { from, to, message } => {
                self.write_row(group, message, from);
                self.write_row(group, message, to);
            }
            Step::Receive {
                at: to, message, ..
            }
            | Step::Lose { to, message, .. } => {
                self.write_row(group, message, to);
            }
        }
    }

    /// Writes all that a message's record says of one controller.
    fn write_row(&mut self, group: &Group, message: u16, who: u16) {
        let record = layout::record(usize::from(message));
        let message = &group.messages[usize::from(message)];
        let who = usize::from(who);
        self.put_set(record + layout::HELD, &message.held, group.n);
        self.put_set(record + layout::ACKED + who, &message.acked[who], group.n);
        self.put_set(record + layout::UNSENT + who, &message.unsent[who], group.n);
        self.put_set(record + layout::FLIGHT + who, &message.flight[who], group.n);
    }

    fn write_log(&mut self, group: &Group, who: usize) {
        let log = &group.logs[who];
        self.put(layout::length(who), log.len() as u16);
        for (place, &entry) in log.iter().enumerate() {
            self.put(layout::log(who) + place, entry);
        }
    }

    /// Writes the whole record of the next message that the bytes do not have yet.
    fn write_next(&mut self, group: &Group) {
        let number = usize::from(word(&self.bytes, layout::COUNT));
        let record = layout::record(number);
        let message = &group.messages[number];
        self.put(layout::COUNT, number as u16 + 1);
        (record..record + layout::RECORD).for_each(|place| self.put(place, 0));
        self.put(record + layout::SENDER, message.sender);
        self.put(record + layout::STAMP, message.stamp);
        self.put(record + layout::VALUE, message.value);
        (0..group.n).for_each(|who| self.write_row(group, number as u16, who));
    }
}
