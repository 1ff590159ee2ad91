//! The lent list of a calm call, with guards around it.

use crate::rng::Rng;
use handler::Change;

/// Guard words before and after the list.
const GUARD: usize = 4;

/// A lent list between guards.
#[derive(Clone)]
pub struct List {
    words: Vec<Change>,
    length: usize,
}

impl List {
    /// So many random entries.
    pub fn of(length: usize, rng: &mut Rng) -> List {
        let all = length + 2 * GUARD;
        List {
            words: (0..all).map(|_| Change(rng.bits())).collect(),
            length,
        }
    }

    /// The entries without the guards.
    pub fn lent(&mut self) -> &mut [Change] {
        &mut self.words[GUARD..GUARD + self.length]
    }

    /// The first entries.
    pub fn first(&self, count: usize) -> &[Change] {
        &self.words[GUARD..][..count.min(self.length)]
    }

    /// The list with these changes at its start.
    pub fn with(mut self, changes: &[Change]) -> List {
        self.lent()[..changes.len()].copy_from_slice(changes);
        self
    }

    /// The first entry that differs, guards included: its place from the start
    /// of the list, and both entries.
    pub fn differs(&self, other: &List) -> Option<(i64, Change, Change)> {
        let pairs = self.words.iter().zip(&other.words);
        let (at, (a, b)) = pairs.enumerate().find(|(_, (a, b))| a != b)?;
        Some((at as i64 - GUARD as i64, *a, *b))
    }
}

#[cfg(test)]
mod tests {
    use super::*;

    #[test]
    fn guards_stand_around_a_list() {
        let mut rng = Rng::new(6);
        for length in 0..24 {
            let before = List::of(length, &mut rng);
            for at in 0..before.words.len() {
                let mut after = before.clone();
                after.words[at].0 ^= 1 << 40;
                let (place, a, b) = after.differs(&before).expect("seen");
                assert_eq!((place, a.0 ^ b.0), (at as i64 - GUARD as i64, 1 << 40));
            }
            let mut after = before.clone();
            after.lent().fill(Change(1));
            assert_eq!(after.words[..GUARD], before.words[..GUARD]);
            assert_eq!(
                after.words[GUARD + length..],
                before.words[GUARD + length..]
            );
            assert_eq!(after.first(99).len(), length);
        }
    }
}
