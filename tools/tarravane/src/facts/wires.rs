//! Which alerts are off rest, below N: wires at N and above count for nothing.
use super::tick::Tick;
use crate::alert_bits::{self, AlertBits};
use handler::{Handler, Wires};
use std::array::from_fn;

/// The wires with those of alerts that the handler has not at rest: they count for nothing.
pub fn of_alerts(handler: &Handler, mut wires: Wires) -> Wires {
    for (word, live) in alert_bits::below(handler.n).into_iter().enumerate() {
        wires.pos[word] &= live;
        wires.neg[word] |= !live;
    }
    wires
}

/// The alerts of these wires for which `of` has a 1, below N.
fn below_n(t: &Tick, wires: &Wires, of: impl Fn(&Wires, usize) -> u64) -> AlertBits {
    let all: AlertBits = from_fn(|word| of(wires, word));
    let below = alert_bits::below(t.after.n);
    from_fn(|word| all[word] & below[word])
}

/// Those at (1,0).
pub fn raised(t: &Tick) -> AlertBits {
    below_n(t, &t.input.sample.alerts, |wires, word| {
        wires.pos[word] & !wires.neg[word]
    })
}

fn equal(wires: &Wires, word: usize) -> u64 {
    !(wires.pos[word] ^ wires.neg[word])
}

/// Those with equal wires.
pub fn broken(t: &Tick) -> AlertBits {
    below_n(t, &t.input.sample.alerts, equal)
}

/// Those that had equal wires in the tick before.
pub fn broken_before(t: &Tick) -> AlertBits {
    below_n(t, &t.last_wires, equal)
}
