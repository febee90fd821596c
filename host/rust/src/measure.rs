//! Two things timed in turn, round by round: medians, their ratio and the spread of the rounds' ratios.

use std::fmt;
use std::time::Duration;

/// How often two things are timed, and how many calls each time covers.
#[derive(Clone, Copy, Debug)]
pub struct Times {
    /// Rounds that count.
    pub rounds: usize,
    /// Calls in a round.
    pub pieces: usize,
}

/// The times of two things, a pair a round.
#[derive(Clone, Debug)]
pub struct Row {
    name: String,
    ours: Vec<f64>,
    plain: Vec<f64>,
    target: Option<f64>,
}

impl Row {
    /// Times both in turn, the order changing each round, after one round that does not count.
    ///
    /// Each closure hands back the time it took.
    pub fn measure(
        name: &str,
        times: Times,
        mut ours: impl FnMut() -> Duration,
        mut plain: impl FnMut() -> Duration,
    ) -> Row {
        let each = |time: Duration| time.as_secs_f64() / times.pieces as f64;
        let mut row = Row {
            name: name.to_string(),
            ours: Vec::new(),
            plain: Vec::new(),
            target: None,
        };
        ours();
        plain();
        for round in 0..times.rounds {
            if round % 2 == 0 {
                row.ours.push(each(ours()));
                row.plain.push(each(plain()));
            } else {
                row.plain.push(each(plain()));
                row.ours.push(each(ours()));
            }
        }
        row
    }

    /// The row with the ratio that it should not exceed.
    pub fn at_most(self, target: f64) -> Row {
        Row {
            target: Some(target),
            ..self
        }
    }

    /// The ratio of ours to plain in each round, the smallest first.
    fn ratios(&self) -> Vec<f64> {
        let pairs = self.ours.iter().zip(&self.plain);
        sorted(pairs.map(|(ours, plain)| ours / plain).collect())
    }

    /// The median time of ours and of plain, in seconds.
    pub fn medians(&self) -> (f64, f64) {
        let middle = |values: &[f64]| quantile(&sorted(values.to_vec()), 0.5);
        (middle(&self.ours), middle(&self.plain))
    }

    /// The heading under which rows stand.
    pub fn heading() -> String {
        format!(
            "{:<44} {:>11} {:>11} {:>7}  {:<15} {:>6} {:>7}",
            "", "ours", "plain Rust", "ratio", "spread 10-90 %", "rounds", "target"
        )
    }
}

fn sorted(mut values: Vec<f64>) -> Vec<f64> {
    values.sort_by(f64::total_cmp);
    values
}

/// The value that a part, from 0 to 1, of sorted values lies below.
fn quantile(values: &[f64], part: f64) -> f64 {
    let last = values.len().saturating_sub(1);
    values
        .get((last as f64 * part).round() as usize)
        .copied()
        .unwrap_or(f64::NAN)
}

/// Seconds in a readable unit.
pub fn time(seconds: f64) -> String {
    match seconds {
        s if s < 1e-6 => format!("{:.1} ns", s * 1e9),
        s if s < 1e-3 => format!("{:.2} us", s * 1e6),
        s if s < 1.0 => format!("{:.2} ms", s * 1e3),
        s => format!("{s:.2} s"),
    }
}

impl fmt::Display for Row {
    fn fmt(&self, f: &mut fmt::Formatter) -> fmt::Result {
        let (ours, plain) = self.medians();
        let ratios = self.ratios();
        let spread = format!(
            "{:.2} - {:.2}",
            quantile(&ratios, 0.1),
            quantile(&ratios, 0.9)
        );
        let target = self
            .target
            .map_or(String::new(), |most| format!("{most:.1}"));
        write!(
            f,
            "{:<44} {:>11} {:>11} {:>7.2}  {:<15} {:>6} {:>7}",
            self.name,
            time(ours),
            time(plain),
            ours / plain,
            spread,
            ratios.len(),
            target
        )
    }
}
