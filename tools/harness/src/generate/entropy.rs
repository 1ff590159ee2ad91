//! What a tick hands to the ping timer: an entropy word and answers.

use crate::record::Tail;
use crate::rng::Rng;

/// Its choices have a source of their own, so that traces of older editions
/// do not depend on it.
pub struct Entropy {
    rng: Rng,
    /// The alert that most words draw.
    pub target: usize,
    /// The waits that words set.
    pub waits: &'static [u32],
    /// Once in so many ticks there are answers, and another alert is drawn.
    pub stirs: u64,
}

impl Entropy {
    /// Short waits, answers in each third tick.
    pub fn new(seed: u64) -> Entropy {
        Entropy {
            rng: Rng::new(seed),
            target: 0,
            waits: &[0, 0, 0, 1, 1, 2, 3, 5],
            stirs: 3,
        }
    }

    /// What a record has behind its wires.
    pub fn tail(&mut self) -> Tail {
        let any = self.rng.bits() as u32;
        let wait = self.rng.pick(self.waits);
        let mut alert = self.target as u32;
        let mut answers = 0;
        if self.rng.once_in(self.stirs) {
            alert = self.rng.pick(&[alert, 0, 9, 64, 247, 248, 255, any & 255]);
            answers = self.rng.pick(&[1, 2, 4, 8, 15, any >> 8 & 15]);
        }
        Tail::new(any & 0xFF00_0000 | alert << 16 | wait, answers)
    }
}
