//! What a comparison counts: cases by name, calls by the number they gave back, steps by kind.

use std::collections::BTreeMap;
use std::fmt;

/// The figures of a comparison.
#[derive(Clone, Debug, Default)]
pub struct Figures {
    /// Cases of each name.
    pub cases: BTreeMap<&'static str, u64>,
    /// For each call, how often each number came back.
    pub answers: BTreeMap<&'static str, BTreeMap<u16, u64>>,
    /// Accepted single steps of each kind.
    pub kinds: BTreeMap<u16, u64>,
    /// Accepted steps of lists.
    pub listed: u64,
    /// Steps taken inside the settler.
    pub settled: u64,
    /// The most steps that one settling took.
    pub longest: u16,
    /// Settlings that ended with no step left.
    pub quiet: u64,
}

impl Figures {
    /// Notes a case.
    pub fn case(&mut self, name: &'static str) {
        *self.cases.entry(name).or_default() += 1;
    }

    /// Notes the number that a call gave back.
    pub fn answer(&mut self, call: &'static str, number: u16) {
        let numbers = self.answers.entry(call).or_default();
        *numbers.entry(number).or_default() += 1;
    }

    /// How often a call gave this number back.
    pub fn times(&self, call: &str, number: u16) -> u64 {
        let numbers = self.answers.get(call);
        numbers.and_then(|n| n.get(&number)).copied().unwrap_or(0)
    }

    /// How often a call was made.
    pub fn calls(&self, call: &str) -> u64 {
        self.answers.get(call).map_or(0, |n| n.values().sum())
    }
}

/// "name count" for each, with commas between.
fn listed<K: fmt::Display>(counts: &BTreeMap<K, u64>) -> String {
    let each = counts.iter().map(|(key, count)| format!("{key}: {count}"));
    each.collect::<Vec<String>>().join(", ")
}

impl fmt::Display for Figures {
    fn fmt(&self, f: &mut fmt::Formatter) -> fmt::Result {
        let total: u64 = self.cases.values().sum();
        writeln!(f, "cases {total} ({})", listed(&self.cases))?;
        for (call, numbers) in &self.answers {
            let calls = self.calls(call);
            writeln!(
                f,
                "{call} {calls}, by number given back ({})",
                listed(numbers)
            )?;
        }
        if !self.kinds.is_empty() {
            writeln!(f, "accepted steps by kind ({})", listed(&self.kinds))?;
        }
        if self.listed > 0 {
            writeln!(f, "accepted steps of lists {}", self.listed)?;
        }
        if self.calls("settle") > 0 {
            let (settled, longest, quiet) = (self.settled, self.longest, self.quiet);
            writeln!(
                f,
                "steps inside the settler {settled}, most at once {longest}, ended quiet {quiet}"
            )?;
        }
        Ok(())
    }
}
