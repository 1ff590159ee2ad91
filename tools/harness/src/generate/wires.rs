//! The wires of a trace under construction.

use super::scene::Scene;
use crate::record::Side;

impl Scene {
    /// The wires of the next tick.
    pub(super) fn next_wires(&mut self) -> (Side, Side) {
        if !self.moving {
            return (self.pos, self.neg);
        }
        self.move_wires();
        let (mut pos, mut neg) = (self.pos, self.neg);
        // Samples at N and above count for nothing, so they may be wild.
        if self.rng.once_in(8) {
            for word in 0..self.words() {
                let used = self.n.saturating_sub(64 * word) as u32;
                let unused = u64::MAX.checked_shr(used).unwrap_or(0);
                pos[word] ^= self.rng.bits() & unused;
                neg[word] ^= self.rng.bits() & unused;
            }
        }
        // Also alerts that are not played with now and then.
        if self.rng.once_in(24) {
            for word in 0..self.words() {
                pos[word] ^= self.rng.bits() & self.rng.bits() & self.rng.bits();
                neg[word] ^= self.rng.bits() & self.rng.bits() & self.rng.bits();
            }
        }
        (pos, neg)
    }

    /// The words that hold the wires of a record.
    fn words(&self) -> usize {
        (self.edition.alerts() + 63) / 64
    }

    /// Gives some active alerts new wires.
    fn move_wires(&mut self) {
        // Several at once are one event, so this must come often enough.
        let all = match self.rng.below(20) {
            0 => Some((1, 0)),
            1 => Some((0, 1)),
            _ => None,
        };
        if let Some(pair) = all {
            return self.set_active(pair);
        }
        for at in 0..self.active.len() {
            let i = self.active[at];
            if self.rng.once_in(self.calm) {
                let weights = [10, 10, self.equal, self.equal];
                let pair = [(1, 0), (0, 1), (0, 0), (1, 1)][self.rng.weighted(&weights)];
                self.set(i, pair);
            }
        }
    }

    /// Puts a pair on the wires of all active alerts.
    pub fn set_active(&mut self, pair: (u64, u64)) {
        for at in 0..self.active.len() {
            self.set(self.active[at], pair);
        }
    }

    /// Puts a pair on alert i's wires.
    pub fn set(&mut self, i: usize, pair: (u64, u64)) {
        let (word, shift) = (i / 64, 63 - i % 64);
        for (side, wire) in [(&mut self.pos, pair.0), (&mut self.neg, pair.1)] {
            side[word] = (side[word] & !(1 << shift)) | (wire << shift);
        }
    }
}
