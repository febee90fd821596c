//! What is lent to the calls under test: a run of bytes or words between guards, which have to stay as they are.

/// A run that is lent, and the guards around it.
pub struct Field<T> {
    /// Guards, what is lent, guards.
    pub whole: Vec<T>,
    start: usize,
    end: usize,
}

impl<T: Copy + PartialEq + From<u8>> Field<T> {
    /// These between so many guards; with none, they are an allocation of their own.
    pub fn new(lent: &[T], before: usize, after: usize) -> Field<T> {
        let end = before + lent.len();
        let mut whole: Vec<T> = (0..end + after).map(guard).collect();
        whole[before..end].copy_from_slice(lent);
        Field {
            whole,
            start: before,
            end,
        }
    }

    /// What is lent.
    pub fn lent(&self) -> &[T] {
        &self.whole[self.start..self.end]
    }

    /// The same, to be written.
    pub fn lent_mut(&mut self) -> &mut [T] {
        &mut self.whole[self.start..self.end]
    }

    /// Changes the guard after what is lent, as a call would that writes past the end.
    pub fn stray(&mut self) {
        if let Some(after) = self.whole.get_mut(self.end) {
            *after = guard(self.end + 1);
        }
    }

    /// The guards that were changed, by their places from the start of what is lent.
    pub fn changed(&self) -> Vec<i64> {
        let around = (0..self.start).chain(self.end..self.whole.len());
        around
            .filter(|&place| self.whole[place] != guard(place))
            .map(|place| place as i64 - self.start as i64)
            .collect()
    }
}

/// The guard at a place of the field.
fn guard<T: From<u8>>(place: usize) -> T {
    T::from((place as u8).wrapping_mul(37) ^ 0xA5)
}
