//! The alerts that move: whose pair leaves (0,1), or whose event or cause is ever 1.
use super::alerts::Last;
use crate::alert_bits::{self, AlertBits};
use crate::facts::events;
use crate::facts::pairs::{is_wrong, sent};
use crate::facts::receivers::{acknowledged, ping_levels};
use crate::facts::tick::Tick;
use crate::facts::timer::pinged;
use handler::{Edition, LinePairs, LINES, LOCALS};

#[derive(Default)]
pub struct Moved {
    pub alerts: AlertBits,
    /// Of them those with a handshake, and those that are pinged.
    pub shaken: AlertBits,
    pub pinged: AlertBits,
    pub locals: [bool; LOCALS],
    /// Is the ping timer ever on?
    pub timer: bool,
    /// The lines one of whose pairs leaves rest, where the edition has both.
    pub lines: [bool; LINES],
    last: Last,
}

fn join(all: &mut AlertBits, more: AlertBits) {
    for (all, more) in all.iter_mut().zip(more) {
        *all |= more;
    }
}

impl Moved {
    /// All of a handler of n alerts, and what the trace's edition reaches besides.
    pub fn all(n: usize, edition: Edition) -> Moved {
        let below = alert_bits::below(n);
        Moved {
            alerts: below,
            shaken: below,
            pinged: below,
            locals: [true; LOCALS],
            timer: edition.has_timer(),
            lines: [edition.has_receive(); LINES],
            last: Last::default(),
        }
    }

    pub fn add(&mut self, t: &Tick) {
        join(&mut self.alerts, self.last.go_on(t));
        join(&mut self.shaken, acknowledged(t));
        join(&mut self.pinged, ping_levels(t));
        join(&mut self.pinged, pinged(t));
        self.timer |= t.after.timer.is_on();
        self.add_lines(t);
        // A local alert's cause is set where it occurs.
        events::locals(t).for_each(|j| self.locals[j] = true);
    }
    fn add_lines(&mut self, t: &Tick) {
        let pair = |e| t.input.sample.receive.pair(e) != LinePairs::REST.pair(e);
        for (e, moved) in self.lines.iter_mut().enumerate() {
            let moves = sent(t) >> e & 1 == 1 || pair(e) || is_wrong(t, e);
            *moved |= t.edition.has_receive() && moves;
        }
    }
}
