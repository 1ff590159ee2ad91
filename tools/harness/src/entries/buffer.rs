//! The buffer that the writer borrows.

use crate::record::WRITTEN_BYTES;
use crate::rng::Rng;

/// Guard bytes before and after a buffer.
const GUARD: usize = 32;

/// A lent buffer between guards.
#[derive(Clone)]
pub struct Buffer {
    bytes: Vec<u8>,
    from: usize,
    length: usize,
}

impl Buffer {
    /// Random bytes, as many as `entries` records need, or a few less or more.
    pub fn around(entries: usize, rng: &mut Rng) -> Buffer {
        let need = entries * WRITTEN_BYTES;
        let lengths = [
            need,
            need,
            need + 1,
            need + WRITTEN_BYTES,
            need + rng.below(100) as usize,
            need.saturating_sub(1),
            need.saturating_sub(WRITTEN_BYTES),
            rng.below(need as u64 + 1) as usize,
        ];
        Buffer::of(rng.pick(&lengths), rng)
    }

    /// So many random bytes; they need not be aligned.
    pub fn of(length: usize, rng: &mut Rng) -> Buffer {
        let from = GUARD + rng.below(8) as usize;
        let all = from + length + GUARD;
        Buffer {
            bytes: (0..all).map(|_| rng.bits() as u8).collect(),
            from,
            length,
        }
    }

    /// The bytes without the guards.
    pub fn lent(&mut self) -> &mut [u8] {
        &mut self.bytes[self.from..self.from + self.length]
    }

    /// The same to look at.
    pub fn bytes(&self) -> &[u8] {
        &self.bytes[self.from..self.from + self.length]
    }

    /// The first byte that differs, guards included: its place from the start
    /// of the buffer, and both bytes.
    pub fn differs(&self, other: &Buffer) -> Option<(i64, u8, u8)> {
        let pairs = self.bytes.iter().zip(&other.bytes);
        let (at, (a, b)) = pairs.enumerate().find(|(_, (a, b))| a != b)?;
        Some((at as i64 - self.from as i64, *a, *b))
    }
}

#[cfg(test)]
mod tests {
    use super::*;

    #[test]
    fn guards_stand_around_a_buffer() {
        let mut rng = Rng::new(5);
        for length in 0..200 {
            let before = Buffer::of(length, &mut rng);
            assert_eq!(before.bytes().len(), length);
            for at in 0..before.bytes.len() {
                let mut after = before.clone();
                after.bytes[at] ^= 1;
                let (place, a, b) = after.differs(&before).expect("seen");
                assert_eq!((place, a ^ b), (at as i64 - before.from as i64, 1));
            }
            let mut after = before.clone();
            after.lent().fill(0);
            let outside = |buffer: &Buffer| {
                let (from, end) = (buffer.from, buffer.from + buffer.length);
                [buffer.bytes[..from].to_vec(), buffer.bytes[end..].to_vec()]
            };
            assert_eq!(outside(&after), outside(&before));
            assert!(before.from >= GUARD && before.bytes.len() >= before.from + length + GUARD);
        }
    }
}
