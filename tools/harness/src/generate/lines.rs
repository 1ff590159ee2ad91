//! What comes back on the lines: what sound receivers send, and faults.

use crate::rng::Rng;
use handler::{LinePairs, LINES};
use reference::{Edition, Handler};

/// Its choices have a source of their own, so that traces of older editions do
/// not depend on it. The reference runs beside and knows what is right.
pub struct Lines {
    rng: Rng,
    twin: Handler,
    /// What was right in the tick before.
    last: LinePairs,
    /// Once in so many ticks an answer of a line is wrong, missing, late or
    /// equal; never at 0.
    pub faults: u64,
    /// A line whose receive pair stands still, and its pair.
    pub stuck: Option<(usize, (bool, bool))>,
}

/// The pairs with another one for line e.
fn with(pairs: LinePairs, e: usize, (pos, neg): (bool, bool)) -> LinePairs {
    let put = |bits: u32, one| bits & !(1 << e) | u32::from(one) << e;
    LinePairs {
        pos: put(pairs.pos, pos),
        neg: put(pairs.neg, neg),
    }
}

impl Lines {
    /// New lines of a handler of n alerts; none where n is refused.
    pub fn new(seed: u64, n: u64) -> Option<Lines> {
        let mut rng = Rng::new(seed);
        let faults = rng.pick(&[0, 0, 12, 40]);
        let (twin, answer) = Handler::new(n);
        let lines = Lines {
            rng,
            twin,
            last: LinePairs::REST,
            faults,
            stuck: None,
        };
        (answer == 0).then_some(lines)
    }

    /// What comes back in the next tick.
    pub fn receive(&mut self) -> LinePairs {
        let on = |e: usize| u32::from(self.twin.senders[e].expected()) << e;
        let right = LinePairs::sound((0..LINES).map(on).sum());
        let late = std::mem::replace(&mut self.last, right);
        let mut pairs = right;
        if self.faults > 0 && self.rng.once_in(self.faults) {
            let e = self.rng.index(LINES);
            let (pos, neg) = right.pair(e);
            let ways = [
                (neg, pos),
                (false, true),
                late.pair(e),
                (false, false),
                (true, true),
            ];
            pairs = with(pairs, e, self.rng.pick(&ways));
        }
        if let Some((e, pair)) = self.stuck {
            pairs = with(pairs, e, pair);
        }
        pairs
    }

    /// The record that was written for that tick.
    pub fn tick(&mut self, record: &[u8]) {
        let answer = reference::batch(&mut self.twin, Edition::Fourth, record, &mut [0]);
        assert_eq!(answer, 0);
    }

    /// A line is cut, shorted or mended.
    pub fn break_one(&mut self) {
        let e = self.rng.index(LINES);
        let pair = self
            .rng
            .pick(&[(false, true), (false, true), (false, false), (true, true)]);
        self.stuck = match self.stuck {
            Some(_) => None,
            None => Some((e, pair)),
        };
    }
}
