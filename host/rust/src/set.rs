//! A plain set of controllers: one truth value for each of the sixteen.

/// A set of controllers 0 to 15.
#[derive(Clone, Copy, PartialEq, Eq, Debug, Default)]
pub struct Set([bool; 16]);

impl Set {
    /// The set of all controllers below `n`.
    pub fn all(n: u16) -> Set {
        let mut set = Set::default();
        (0..n).for_each(|who| set.add(who));
        set
    }

    /// The set of one controller.
    pub fn only(who: u16) -> Set {
        let mut set = Set::default();
        set.add(who);
        set
    }

    /// Whether `who` is in the set.
    pub fn has(&self, who: u16) -> bool {
        self.0[usize::from(who)]
    }

    /// Puts `who` into the set.
    pub fn add(&mut self, who: u16) {
        self.0[usize::from(who)] = true;
    }

    /// Takes `who` out of the set.
    pub fn remove(&mut self, who: u16) {
        self.0[usize::from(who)] = false;
    }

    /// Whether every member of `other` is in the set.
    pub fn includes(&self, other: &Set) -> bool {
        (0..16).all(|who| self.has(who) || !other.has(who))
    }

    /// How many controllers are in the set.
    pub fn count(&self) -> usize {
        self.0.iter().filter(|&&there| there).count()
    }
}
