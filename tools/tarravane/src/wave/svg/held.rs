//! A value over one tick, or over several that are folded.

#[derive(Clone, Copy, Debug, PartialEq, Eq)]
pub struct Held<T> {
    /// The value in the last of the ticks.
    last: T,
    /// Was it the same in all of them?
    steady: bool,
}

impl<T: Copy + PartialEq> Held<T> {
    pub fn new(value: T) -> Held<T> {
        Held {
            last: value,
            steady: true,
        }
    }

    /// The value, where it was the same in all ticks.
    pub fn value(self) -> Option<T> {
        self.steady.then_some(self.last)
    }

    pub fn joined(self, next: Held<T>) -> Held<T> {
        Held {
            last: next.last,
            steady: self.steady && next.steady && self.last == next.last,
        }
    }
}
