//! The records and the lent list of a batch, with guards around them.

use crate::calls::record;
use crate::rng::Rng;
use handler::{Edition, Word};

/// Guard words before and after the list; three times as many guard bytes
/// stand before and after the records.
pub const GUARD: usize = 8;

/// The records and the lent list of a small batch, each between guards.
#[derive(Clone)]
pub struct Lists {
    bytes: Vec<u8>,
    from: usize,
    length: usize,
    words: Vec<Word>,
    list: usize,
}

impl Lists {
    /// Up to five records; one in eight with a cut end, one in eight with a
    /// short list, most with a longer one.
    pub fn new(edition: Edition, rng: &mut Rng) -> Lists {
        let size = edition.bytes();
        let records = rng.below(6) as usize;
        // The records need not be aligned.
        let from = 3 * GUARD + rng.below(8) as usize;
        let mut bytes: Vec<u8> = (0..from).map(|_| rng.bits() as u8).collect();
        for _ in 0..records {
            bytes.extend(record(edition, rng));
        }
        let cut = if rng.once_in(8) {
            rng.below(size as u64)
        } else {
            0
        };
        let length = records * size + cut as usize;
        bytes.resize_with(from + length + 3 * GUARD, || rng.bits() as u8);
        let more = rng.below(4) as usize;
        let list = if rng.once_in(8) {
            records.saturating_sub(1 + more)
        } else {
            records + more
        };
        let words = (0..list + 2 * GUARD).map(|_| Word(rng.bits())).collect();
        Lists {
            bytes,
            from,
            length,
            words,
            list,
        }
    }

    /// The records and the list without the guards, as a batch borrows them.
    pub fn lent(&mut self) -> (&[u8], &mut [Word]) {
        (
            &self.bytes[self.from..self.from + self.length],
            &mut self.words[GUARD..GUARD + self.list],
        )
    }

    /// The list as the reference takes it.
    pub fn numbers(&self) -> Vec<u64> {
        let list = &self.words[GUARD..GUARD + self.list];
        list.iter().map(|word| word.0).collect()
    }

    /// What a call changed outside the list: a byte or a guard word.
    pub fn disturbed(&self, before: &Lists) -> Option<String> {
        let end = GUARD + self.list;
        if let Some(at) = (0..self.bytes.len()).find(|at| self.bytes[*at] != before.bytes[*at]) {
            return Some(format!(
                "byte {} of the records",
                at as i64 - self.from as i64
            ));
        }
        let guards = (0..GUARD).chain(end..self.words.len());
        let mut changed = guards.filter(|at| self.words[*at] != before.words[*at]);
        let at = changed.next()?;
        Some(format!("guard word {}", at as i64 - GUARD as i64))
    }
}

#[cfg(test)]
mod tests {
    use super::*;

    #[test]
    fn guards_stand_around_both_lists() {
        let mut rng = Rng::new(3);
        for _ in 0..1000 {
            let before = Lists::new(rng.pick(&Edition::ALL), &mut rng);
            let mut after = before.clone();
            after.lent().1.fill(Word(1));
            assert_eq!(after.disturbed(&before), None);
            let end = GUARD + before.list;
            for at in [0, GUARD - 1, end, end + GUARD - 1] {
                let mut after = before.clone();
                after.words[at].0 ^= 1 << 63;
                let name = format!("guard word {}", at as i64 - GUARD as i64);
                assert_eq!(after.disturbed(&before), Some(name));
            }
            for at in [0, before.from, before.bytes.len() - 1] {
                let mut after = before.clone();
                after.bytes[at] ^= 1;
                assert!(after.disturbed(&before).is_some());
            }
        }
    }
}
