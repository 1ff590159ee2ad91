//! The receivers of the alerts below N: where each stands in a tick, and the pairs that it sends. Read off the library's states.
use super::tick::Tick;
use crate::alert_bits::{self, AlertBits};
use handler::Place;
use std::array::from_fn;

/// The places in which no rise is taken.
pub const BUSY: [Place; 3] = [Place::Acknowledged, Place::FirstPause, Place::SecondPause];

fn below_n(t: &Tick, of: impl Fn(usize) -> u64) -> AlertBits {
    let below = alert_bits::below(t.after.n);
    from_fn(|word| of(word) & below[word])
}

/// The alerts whose receivers stand at a place as the tick begins, which is what its wires meet.
pub fn at(t: &Tick, place: Place) -> AlertBits {
    let receivers = &t.before.links.receivers;
    below_n(t, |word| {
        let (pausing, busy) = (receivers.pausing[word], receivers.busy[word]);
        match place {
            Place::Ready => !pausing & !busy,
            Place::Acknowledged => !pausing & busy,
            Place::FirstPause => pausing & busy,
            Place::SecondPause => pausing & !busy,
        }
    })
}

/// The alerts whose acknowledge pair is (1,0).
pub fn acknowledged(t: &Tick) -> AlertBits {
    at(t, Place::Acknowledged)
}

/// The alerts whose ping pair is (1,0): a ping that opens changes its level.
pub fn ping_levels(t: &Tick) -> AlertBits {
    below_n(t, |word| t.after.links.receivers.level[word])
}
