//! The settler: the first allowed step, searched from the start each time, again and again.

use crate::plant::Plant;
use crate::refusal::DONE;
use crate::rules::Group;
use crate::step::Step;

/// All pairs of controllers below `n`, the lowest first.
fn pairs(n: u16) -> impl Iterator<Item = (u16, u16)> {
    (0..n).flat_map(move |one| (0..n).map(move |other| (one, other)))
}

fn sends(n: u16, message: u16) -> impl Iterator<Item = Step> {
    pairs(n).map(move |(from, to)| Step::Send { from, to, message })
}

fn receipts(n: u16, message: u16) -> impl Iterator<Item = Step> {
    pairs(n).map(move |(at, from)| Step::Receive { at, from, message })
}

fn deliveries(n: u16, message: u16) -> impl Iterator<Item = Step> {
    (0..n).map(move |at| Step::Deliver { at, message })
}

impl Group {
    /// The first step that the settler may take now.
    pub fn first_step(&self) -> Option<Step> {
        let mut detects = pairs(self.n).map(|(at, of)| Step::Detect { at, of });
        let messages = 0..self.messages.len() as u16;
        detects
            .find(|&step| self.refusal(step) == DONE)
            .or_else(|| messages.into_iter().find_map(|m| self.first_step_of(m)))
    }

    /// The first send, receipt or delivery of one message.
    fn first_step_of(&self, message: u16) -> Option<Step> {
        let n = self.n;
        let allowed = |step: &Step| self.refusal(*step) == DONE;
        if self.planted(Plant::Order) {
            let early = receipts(n, message).find(allowed);
            return early.or_else(|| {
                sends(n, message)
                    .chain(deliveries(n, message))
                    .find(allowed)
            });
        }
        sends(n, message)
            .find(allowed)
            .or_else(|| receipts(n, message).find(allowed))
            .or_else(|| deliveries(n, message).find(allowed))
    }

    /// Takes first steps until none is left or the budget is spent: the steps, and whether none is left.
    pub fn settle(&mut self, budget: u16) -> (Vec<Step>, bool) {
        let mut taken = Vec::new();
        while taken.len() < usize::from(budget) {
            let Some(step) = self.first_step() else {
                return (taken, true);
            };
            let done = self.step(step.numbers());
            debug_assert_eq!(done, Ok(step));
            taken.push(step);
        }
        let quiet = self.first_step().is_none() && !self.planted(Plant::Budget);
        (taken, quiet)
    }
}
