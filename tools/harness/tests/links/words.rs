//! Bits of the alerts, and pairs by them.

use handler::{Receivers, Sample, Wires, WORDS};

/// A bit of each alert.
pub type Words = [u64; WORDS];

/// The bits of the alerts below n.
pub fn live(n: usize) -> Words {
    std::array::from_fn(|w| {
        let above = u64::MAX.checked_shr(n.saturating_sub(64 * w) as u32);
        !above.unwrap_or(0)
    })
}

/// Word by word.
pub fn each(a: Words, b: Words, of: fn(u64, u64) -> u64) -> Words {
    std::array::from_fn(|w| of(a[w], b[w]))
}

pub fn and(a: Words, b: Words) -> Words {
    each(a, b, |a, b| a & b)
}

pub fn but(a: Words, b: Words) -> Words {
    each(a, b, |a, b| a & !b)
}

/// (1,0) where a bit is 1, else (0,1).
pub fn pairs(pos: Words) -> Wires {
    let neg = pos.map(|word| !word);
    Wires { pos, neg }
}

/// The same of the alerts below n alone.
pub fn live_pairs(words: Words, n: usize) -> Wires {
    pairs(and(words, live(n)))
}

/// Those that acknowledge.
pub fn acknowledging(receivers: &Receivers) -> Words {
    but(receivers.busy, receivers.pausing)
}

/// Alerts with equal wires.
pub fn equal(sample: &Sample) -> Words {
    each(sample.alerts.pos, sample.alerts.neg, |p, n| !(p ^ n))
}
