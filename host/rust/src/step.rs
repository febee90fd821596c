//! A step by name, read from its four numbers.

/// One of the seven steps.
#[derive(Clone, Copy, PartialEq, Eq, Debug)]
#[allow(missing_docs)]
pub enum Step {
    Broadcast { who: u16, stamp: u16, value: u16 },
    Send { from: u16, to: u16, message: u16 },
    Receive { at: u16, from: u16, message: u16 },
    Deliver { at: u16, message: u16 },
    Crash { who: u16 },
    Detect { at: u16, of: u16 },
    Lose { from: u16, to: u16, message: u16 },
}

use Step::{Broadcast, Crash, Deliver, Detect, Lose, Receive, Send};

impl Step {
    /// The step of these four numbers, if the kind is known and the unused numbers are 0.
    pub fn read([kind, a, b, c]: [u16; 4]) -> Option<Step> {
        let (from, to, message) = (a, b, c);
        match kind {
            1 => Some(Broadcast {
                who: a,
                stamp: b,
                value: c,
            }),
            2 => Some(Send { from, to, message }),
            3 => Some(Receive {
                at: a,
                from: b,
                message,
            }),
            4 if c == 0 => Some(Deliver { at: a, message: b }),
            5 if b == 0 && c == 0 => Some(Crash { who: a }),
            6 if c == 0 => Some(Detect { at: a, of: b }),
            7 => Some(Lose { from, to, message }),
            _ => None,
        }
    }

    /// The four numbers of the step.
    pub fn numbers(self) -> [u16; 4] {
        match self {
            Broadcast { who, stamp, value } => [1, who, stamp, value],
            Send { from, to, message } => [2, from, to, message],
            Receive { at, from, message } => [3, at, from, message],
            Deliver { at, message } => [4, at, message, 0],
            Crash { who } => [5, who, 0, 0],
            Detect { at, of } => [6, at, of, 0],
            Lose { from, to, message } => [7, from, to, message],
        }
    }

    /// The controllers the step names; one that stands alone is given twice.
    pub fn controllers(self) -> [u16; 2] {
        match self {
            Broadcast { who, .. } | Crash { who } => [who, who],
            Send { from, to, .. } | Lose { from, to, .. } => [from, to],
            Receive { at, from, .. } => [at, from],
            Deliver { at, .. } => [at, at],
            Detect { at, of } => [at, of],
        }
    }

    /// The message the step names, if it names one.
    pub fn message(self) -> Option<u16> {
        match self {
            Send { message, .. }
            | Receive { message, .. }
            | Deliver { message, .. }
            | Lose { message, .. } => Some(message),
            Broadcast { .. } | Crash { .. } | Detect { .. } => None,
        }
    }

    /// The controller that acts; a loss is nobody's act.
    pub fn actor(self) -> Option<u16> {
        match self {
            Broadcast { who, .. } | Crash { who } => Some(who),
            Send { from, .. } => Some(from),
            Receive { at, .. } | Deliver { at, .. } | Detect { at, .. } => Some(at),
            Lose { .. } => None,
        }
    }
}
