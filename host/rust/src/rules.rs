//! The group on plain sets: opening, the seven steps with their refusals, lists, log questions.

use crate::plant::Plant;
use crate::refusal::{
    ABSENT, ALREADY, CONTROLLER, DONE, DOWN, FULL, KIND, MESSAGE, MODE, NOT_YET, OPEN_MODE, OPEN_N,
    RAGGED, UNFIT,
};
use crate::set::Set;
use crate::step::Step;

/// At most so many controllers.
pub const CONTROLLERS: u16 = 16;
/// At most so many messages.
pub const MESSAGES: usize = 32;

/// When a message may be delivered.
#[derive(Clone, Copy, PartialEq, Eq, Debug)]
pub enum Mode {
    /// Every controller taken to be up has acknowledged.
    AllAck,
    /// More than half of all controllers have acknowledged.
    Majority,
}

impl Mode {
    /// The mode of this number.
    pub fn read(number: u16) -> Option<Mode> {
        match number {
            1 => Some(Mode::AllAck),
            2 => Some(Mode::Majority),
            _ => None,
        }
    }

    /// The number of the mode.
    pub fn number(self) -> u16 {
        match self {
            Mode::AllAck => 1,
            Mode::Majority => 2,
        }
    }
}

/// One message and how far each controller is with it.
#[derive(Clone, PartialEq, Eq, Debug)]
pub struct Message {
    /// Who broadcast it.
    pub sender: u16,
    /// Quarter hours since the season's first midnight.
    pub stamp: u16,
    /// The reading.
    pub value: u16,
    /// Who has it pending.
    pub held: Set,
    /// Who has delivered it.
    pub delivered: Set,
    /// For each controller, from whom it has received the message.
    pub acked: Vec<Set>,
    /// For each controller, to whom it must still send.
    pub unsent: Vec<Set>,
    /// For each controller, from whom a copy is on its way to it.
    pub flight: Vec<Set>,
}

/// A group of controllers.
#[derive(Clone, PartialEq, Eq, Debug)]
pub struct Group {
    /// How many controllers.
    pub n: u16,
    /// When a message may be delivered.
    pub mode: Mode,
    /// Who is up.
    pub up: Set,
    /// For each controller, whom it still takes to be up.
    pub trusts: Vec<Set>,
    /// For each controller, the messages it has delivered, in order.
    pub logs: Vec<Vec<u16>>,
    /// The messages so far.
    pub messages: Vec<Message>,
    /// The planted fault, if any.
    pub plant: Option<Plant>,
}

impl Group {
    /// Opens a group: tests 11, then 12.
    pub fn open(n: u16, mode: u16) -> Result<Group, u16> {
        if n == 0 || n > CONTROLLERS {
            return Err(OPEN_N);
        }
        let mode = Mode::read(mode).ok_or(OPEN_MODE)?;
        Ok(Group {
            n,
            mode,
            up: Set::all(n),
            trusts: vec![Set::all(n); usize::from(n)],
            logs: vec![Vec::new(); usize::from(n)],
            messages: Vec::new(),
            plant: None,
        })
    }

    /// Whether this fault is planted.
    pub fn planted(&self, plant: Plant) -> bool {
        self.plant == Some(plant)
    }

    /// Takes the step of these four numbers, or refuses it; the step is handed back if taken.
    pub fn step(&mut self, numbers: [u16; 4]) -> Result<Step, u16> {
        let step = self.allowed(numbers)?;
        self.apply(step);
        Ok(step)
    }

    /// The step of these four numbers if it is allowed, or what refuses it.
    pub fn allowed(&self, numbers: [u16; 4]) -> Result<Step, u16> {
        let step = Step::read(numbers).ok_or(KIND)?;
        match self.refusal(step) {
            DONE => Ok(step),
            refusal => Err(refusal),
        }
    }

    /// Applies a list, four words a step, up to the first refusal: the steps taken, the refusal.
    pub fn list(&mut self, words: &[u16]) -> (Vec<Step>, u16) {
        let mut taken = Vec::new();
        if !words.len().is_multiple_of(4) {
            return (taken, RAGGED);
        }
        for four in words.chunks_exact(4) {
            match self.step([four[0], four[1], four[2], four[3]]) {
                Ok(step) => taken.push(step),
                Err(refusal) => return (taken, refusal),
            }
        }
        (taken, DONE)
    }

    /// The log of a controller, or refusal 3.
    pub fn log(&self, who: u16) -> Result<&[u16], u16> {
        let log = self.logs.get(usize::from(who)).ok_or(CONTROLLER)?;
        Ok(log)
    }

    /// The number that this step would give, 0 when it is allowed.
    pub fn refusal(&self, step: Step) -> u16 {
        if step.controllers().iter().any(|&who| who >= self.n) {
            return CONTROLLER;
        }
        if step.message().is_some_and(|message| !self.given(message)) {
            return MESSAGE;
        }
        if matches!(step, Step::Detect { .. }) && self.mode == Mode::Majority {
            return MODE;
        }
        if step.actor().is_some_and(|who| !self.up.has(who)) {
            return DOWN;
        }
        match step {
            Step::Broadcast { .. } if self.messages.len() >= MESSAGES => FULL,
            Step::Broadcast { .. } | Step::Crash { .. } => DONE,
            Step::Detect { at, of } => self.detect_refusal(at, of),
            Step::Deliver { at, message } => self.deliver_refusal(at, message),
            Step::Send { .. } | Step::Receive { .. } | Step::Lose { .. } => self.copy_refusal(step),
        }
    }

    /// Whether a message of this number has been broadcast.
    pub fn given(&self, message: u16) -> bool {
        usize::from(message) < self.messages.len()
    }

    fn message(&self, message: u16) -> &Message {
        &self.messages[usize::from(message)]
    }

    fn copy_refusal(&self, step: Step) -> u16 {
        let flies = |from: u16, to: u16, m: u16| self.message(m).flight[usize::from(to)].has(from);
        match step {
            Step::Send { from, to, message } => {
                let unsent = self.message(message).unsent[usize::from(from)].has(to);
                if unsent {
                    DONE
                } else {
                    ABSENT
                }
            }
            Step::Receive { at, from, message } if !flies(from, at, message) => ABSENT,
            Step::Lose { from, to, message } if !flies(from, to, message) => ABSENT,
            Step::Lose { from, to, .. } if self.up.has(from) && self.up.has(to) => NOT_YET,
            _ => DONE,
        }
    }

    fn detect_refusal(&self, at: u16, of: u16) -> u16 {
        if self.up.has(of) {
            NOT_YET
        } else if !self.trusts[usize::from(at)].has(of) {
            ALREADY
        } else {
            DONE
        }
    }

    fn deliver_refusal(&self, at: u16, number: u16) -> u16 {
        let message = self.message(number);
        if !message.held.has(at) {
            ABSENT
        } else if !self.ripe(at, message) {
            NOT_YET
        } else if message.delivered.has(at) {
            ALREADY
        } else if self.logs[usize::from(at)].len() == self.messages.len() {
            UNFIT
        } else {
            DONE
        }
    }

    /// Whether the acknowledgements at this controller are enough.
    fn ripe(&self, at: u16, message: &Message) -> bool {
        let acked = &message.acked[usize::from(at)];
        let all = usize::from(self.n);
        match self.mode {
            Mode::AllAck if self.planted(Plant::UpSet) => acked.includes(&self.up),
            Mode::AllAck => acked.includes(&self.trusts[usize::from(at)]),
            Mode::Majority if self.planted(Plant::Half) => 2 * acked.count() >= all,
            Mode::Majority => 2 * acked.count() > all,
        }
    }

    /// Carries out a step that is allowed.
    fn apply(&mut self, step: Step) {
        match step {
            Step::Broadcast { who, stamp, value } => self.broadcast(who, stamp, value),
            Step::Send { from, to, message } => {
                let message = &mut self.messages[usize::from(message)];
                message.unsent[usize::from(from)].remove(to);
                message.flight[usize::from(to)].add(from);
            }
            Step::Receive { at, from, message } => self.receive(at, from, message),
            Step::Deliver { at, message } => {
                self.messages[usize::from(message)].delivered.add(at);
                self.logs[usize::from(at)].push(message);
            }
            Step::Crash { who } => self.crash(who),
            Step::Detect { at, of } => self.trusts[usize::from(at)].remove(of),
            Step::Lose { from, to, message } => {
                self.messages[usize::from(message)].flight[usize::from(to)].remove(from);
            }
        }
    }

    fn broadcast(&mut self, who: u16, stamp: u16, value: u16) {
        let none = vec![Set::default(); usize::from(self.n)];
        let mut message = Message {
            sender: who,
            stamp,
            value,
            held: Set::only(who),
            delivered: Set::default(),
            acked: none.clone(),
            unsent: none.clone(),
            flight: none,
        };
        message.unsent[usize::from(who)] = Set::all(self.n);
        if self.planted(Plant::OwnAck) {
            message.acked[usize::from(who)].add(who);
        }
        self.messages.push(message);
    }

    fn receive(&mut self, at: u16, from: u16, message: u16) {
        let late = self.message(message).delivered.has(at) && self.planted(Plant::DropLate);
        let message = &mut self.messages[usize::from(message)];
        let place = usize::from(at);
        message.flight[place].remove(from);
        if !late {
            message.acked[place].add(from);
        }
        if !message.held.has(at) {
            message.held.add(at);
            message.unsent[place] = Set::all(self.n);
        }
    }

    fn crash(&mut self, who: u16) {
        self.up.remove(who);
        if self.planted(Plant::ClearFlight) {
            for flight in self.messages.iter_mut().flat_map(|m| m.flight.iter_mut()) {
                flight.remove(who);
            }
        }
    }
}
