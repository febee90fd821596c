//! A small generator that gives the same numbers for the same seed, and the steps and days drawn from it.

use crate::day::{LAST_DAY, QUARTERS};
use crate::rules::Group;

/// The generator: splitmix64.
#[derive(Clone, Debug)]
pub struct Random(u64);

impl Random {
    /// A generator for one case of one seed.
    pub fn new(seed: u64, case: u64) -> Random {
        let mut first = Random(seed);
        Random(first.bits() ^ case.wrapping_mul(0xD1B5_4A32_D192_ED03))
    }

    /// The next 64 bits.
    pub fn bits(&mut self) -> u64 {
        self.0 = self.0.wrapping_add(0x9E37_79B9_7F4A_7C15);
        let mut z = self.0;
        z = (z ^ (z >> 30)).wrapping_mul(0xBF58_476D_1CE4_E5B9);
        z = (z ^ (z >> 27)).wrapping_mul(0x94D0_49BB_1331_11EB);
        z ^ (z >> 31)
    }

    /// A number below `limit`, which is not 0.
    pub fn below(&mut self, limit: usize) -> usize {
        (((self.bits() >> 32) * limit as u64) >> 32) as usize
    }

    /// A u16 below `limit`, which is not 0.
    pub fn under(&mut self, limit: u16) -> u16 {
        self.below(usize::from(limit)) as u16
    }

    /// Any u16.
    pub fn word(&mut self) -> u16 {
        (self.bits() >> 48) as u16
    }

    /// True in so many of a hundred cases.
    pub fn chance(&mut self, percent: usize) -> bool {
        self.below(100) < percent
    }

    /// One of these.
    pub fn pick<T: Copy>(&mut self, these: &[T]) -> T {
        these[self.below(these.len())]
    }

    /// Any bytes.
    pub fn bytes(&mut self, length: usize) -> Vec<u8> {
        (0..length).map(|_| (self.bits() >> 56) as u8).collect()
    }

    /// A number of controllers, small ones more often.
    pub fn controllers(&mut self) -> u16 {
        if self.chance(60) {
            1 + self.under(5)
        } else {
            1 + self.under(16)
        }
    }

    /// A stamp, often at the edge of a day.
    pub fn stamp(&mut self) -> u16 {
        const EDGES: [u16; 11] = [
            0, 95, 96, 191, 192, 65_375, 65_376, 65_471, 65_472, 65_534, 65_535,
        ];
        match self.below(3) {
            0 => self.pick(&EDGES),
            1 => self.under(400),
            _ => self.word(),
        }
    }

    /// A reading, sometimes the largest.
    pub fn value(&mut self) -> u16 {
        match self.below(4) {
            0 => self.pick(&[0, 1, 32_767, 32_768, 65_534, 65_535]),
            _ => self.word(),
        }
    }

    /// A day, often near the edges or near a message's own.
    pub fn day(&mut self, group: Option<&Group>) -> u16 {
        let stamps = group.map_or(&[][..], |group| &group.messages);
        if !stamps.is_empty() && self.chance(50) {
            let own = stamps[self.below(stamps.len())].stamp / QUARTERS;
            return own.wrapping_add(self.pick(&[0, 0, 0, 1, u16::MAX]));
        }
        match self.below(4) {
            0 => self.under(LAST_DAY + 3),
            1 => self.word(),
            _ => self.pick(&DAYS),
        }
    }

    /// A list of steps, four words each: mostly allowed ones, some with a refused one among them, some ragged.
    pub fn list(&mut self, group: Option<&Group>) -> Vec<u16> {
        let mut words = self.steps(group).concat();
        if self.chance(12) {
            let length = words.len().saturating_sub(4) + 1 + self.below(3);
            words.resize(length, 0);
        }
        words
    }

    /// The same as step records, which are never ragged.
    pub fn steps(&mut self, group: Option<&Group>) -> Vec<[u16; 4]> {
        let mut group = group.cloned();
        let most = self.pick(&[0, 1, 4, 4, 12, 40]);
        let mut steps = Vec::new();
        for _ in 0..most {
            let step = match &group {
                Some(group) if !self.chance(3) => self.likely_step(group),
                group => self.garbage_step(group.as_ref()),
            };
            let refused = group
                .as_mut()
                .is_some_and(|group| group.step(step).is_err());
            if !refused || self.chance(10) {
                steps.push(step);
            }
        }
        steps
    }

    /// A controller, mostly one of the group's.
    pub fn asked_for(&mut self, group: Option<&Group>) -> u16 {
        let n = group.map_or(3, |group| group.n);
        match self.below(8) {
            0 => self.pick(&[n, n + 1, 16, 65_535]),
            _ => self.under(n),
        }
    }

    /// A controller, mostly one that is up.
    fn who(&mut self, group: &Group) -> u16 {
        let start = self.under(group.n);
        if self.chance(4) {
            return start;
        }
        (0..group.n)
            .map(|turn| (start + turn) % group.n)
            .find(|&who| group.up.has(who))
            .unwrap_or(start)
    }

    /// Four numbers of a step that is mostly allowed.
    pub fn likely_step(&mut self, group: &Group) -> [u16; 4] {
        const KINDS: [u16; 32] = [
            1, 2, 2, 2, 2, 2, 2, 2, 2, 2, 2, 2, 3, 3, 3, 3, 3, 3, 3, 3, 3, 3, 3, 4, 4, 4, 4, 5, 6,
            6, 7, 7,
        ];
        let kind = match group.messages.len() {
            0 => self.pick(&[1, 1, 1, 1, 5, 6]),
            _ => self.pick(&KINDS),
        };
        let few = 2 * group.up.count() <= usize::from(group.n) + 1;
        match kind {
            5 if few && self.chance(90) => self.tried(group, 3),
            1 => [1, self.who(group), self.stamp(), self.value()],
            5 => [5, self.who(group), 0, 0],
            _ => self.tried(group, kind),
        }
    }

    /// A step of this kind for a few controllers and messages in turn, until one is allowed.
    fn tried(&mut self, group: &Group, kind: u16) -> [u16; 4] {
        let mut step = [0; 4];
        for _ in 0..6 {
            let who = self.who(group);
            let message = self.below(group.messages.len().max(1)) as u16;
            step = match kind {
                4 => [4, who, message, 0],
                6 => self.with_other(group, |other| [6, who, other, 0]),
                7 => self.with_other(group, |other| [7, other, who, message]),
                _ => self.with_other(group, |other| [kind, who, other, message]),
            };
            if group.allowed(step).is_ok() {
                break;
            }
        }
        step
    }

    /// Tries the other controller from a random start on, until the step is allowed.
    fn with_other(&mut self, group: &Group, step: impl Fn(u16) -> [u16; 4]) -> [u16; 4] {
        let start = self.under(group.n);
        (0..group.n)
            .map(|turn| step((start + turn) % group.n))
            .find(|&four| group.allowed(four).is_ok())
            .unwrap_or_else(|| step(start))
    }

    /// A number at the edge of some limit, or any.
    fn edge(&mut self, group: Option<&Group>) -> u16 {
        const EDGES: [u16; 14] = [
            0, 1, 15, 16, 17, 31, 32, 33, 255, 256, 32_767, 32_768, 65_534, 65_535,
        ];
        let (n, count) = group.map_or((3, 2), |group| (group.n, group.messages.len() as u16));
        match self.below(5) {
            0 => self.pick(&EDGES),
            1 => self.pick(&[n - 1, n, n + 1, count.saturating_sub(1), count, count + 1]),
            2 => self.word(),
            _ => self.under(n),
        }
    }

    /// Four numbers without sense, or a likely step with one number spoilt.
    pub fn garbage_step(&mut self, group: Option<&Group>) -> [u16; 4] {
        if let Some(group) = group.filter(|_| self.chance(50)) {
            let mut four = self.likely_step(group);
            let place = self.below(4);
            four[place] = self.edge(Some(group));
            return four;
        }
        let kind = match self.below(8) {
            0 => self.word(),
            1 => self.pick(&[0, 8, 9, 16, 17, 257, 263, 65_535]),
            _ => 1 + self.under(7),
        };
        let [a, b, c] = [0; 3].map(|_: u16| self.edge(group));
        [kind, a, b, if self.chance(30) { 0 } else { c }]
    }
}

/// The days at the edges.
pub const DAYS: [u16; 8] = [0, 1, 2, 681, 682, 683, 684, 65_535];
