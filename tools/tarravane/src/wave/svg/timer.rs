//! What a picture shows of the ping timer in one tick, or in several that are folded.
use super::held::Held;
use crate::facts::tick::Tick;
use crate::facts::timer::{failed, ping};
use handler::Whose;

/// What the timer does.
#[derive(Clone, Copy, Debug, PartialEq, Eq)]
pub enum Does {
    /// It is off.
    Nothing,
    /// It waits until this ping is due.
    Waits(Whose),
    /// This ping is open, up to its answer or failure.
    Pings(Whose),
}

#[derive(Clone, Copy, Debug)]
pub struct Timer {
    pub does: Held<Does>,
    /// Is it on in some of the ticks?
    pub on: bool,
    /// Does a ping fail?
    pub failed: bool,
}

impl Timer {
    pub fn new(t: &Tick) -> Timer {
        let does = match ping(t) {
            None => Does::Nothing,
            Some(ping) if ping.open => Does::Pings(ping.of),
            Some(ping) => Does::Waits(ping.of),
        };
        Timer {
            does: Held::new(does),
            on: does != Does::Nothing,
            failed: failed(t).is_some(),
        }
    }

    pub fn joined(self, next: Timer) -> Timer {
        Timer {
            does: self.does.joined(next.does),
            on: self.on || next.on,
            failed: self.failed || next.failed,
        }
    }
}
