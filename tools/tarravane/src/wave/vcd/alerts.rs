//! The alerts of which something is another one than in the tick before: pair, event, cause, receiver.
use crate::alert_bits::{self, put, AlertBits};
use crate::facts::events;
use crate::facts::receivers::ping_levels;
use crate::facts::tick::Tick;
use handler::{Receivers, Wires, WORDS};
use std::array::from_fn;

/// All that is shown of alerts in a tick but the causes, a bit for each.
type Shown = [AlertBits; 7];

/// What it was in the last tick; before the first one all are at rest.
pub struct Last(Shown);

impl Default for Last {
    fn default() -> Last {
        let (Wires { pos, neg }, none) = (Wires::REST, [0; WORDS]);
        Last([pos, neg, none, none, none, none, none])
    }
}

fn shown(t: &Tick) -> Shown {
    let Wires { pos, neg } = t.input.sample.alerts;
    let Receivers { pausing, busy, .. } = t.before.links.receivers;
    let heard = [events::bits(t), events::answers(t)];
    [pos, neg, heard[0], heard[1], pausing, busy, ping_levels(t)]
}

/// The alerts whose cause the tick changes.
fn causes(t: &Tick) -> AlertBits {
    let (before, after) = (&t.before.alerts.cause, &t.after.alerts.cause);
    let mut all = [0; WORDS];
    if before != after {
        let changed = (0..t.after.n).filter(|&i| before[i] != after[i]);
        changed.for_each(|i| put(&mut all, i, true));
    }
    all
}

impl Last {
    /// Goes on by a tick, and gives the alerts that changed, below N.
    pub fn go_on(&mut self, t: &Tick) -> AlertBits {
        let (shown, causes) = (shown(t), causes(t));
        let below = alert_bits::below(t.after.n);
        let changed = from_fn(|w| {
            let both = shown.iter().zip(&self.0);
            let moved = both.fold(causes[w], |or, (now, last)| or | now[w] ^ last[w]);
            moved & below[w]
        });
        self.0 = shown;
        changed
    }
}
