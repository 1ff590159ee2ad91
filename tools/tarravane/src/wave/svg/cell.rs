//! A place on the time axis: one tick, or several that are folded.
use super::access::Accesses;
use super::alerts::Alerts;
use super::held::Held;
use super::pairs::{pairs, Pairs};
use super::timer::Timer;
use super::weight::{weight, Weight};
use crate::facts::tick::Tick;
use handler::{CLASSES, LINES};
use std::array::from_fn;

#[derive(Clone, Debug)]
pub struct Cell {
    pub first: u64,
    pub last: u64,
    pub weight: Weight,
    pub states: [Held<u32>; CLASSES],
    pub interrupts: [Held<bool>; CLASSES],
    pub lines: [Held<bool>; LINES],
    pub pairs: [Pairs; LINES],
    pub alerts: Alerts,
    pub timer: Timer,
    pub accesses: Accesses,
}

impl Cell {
    /// The cell of a tick; `before`: the alerts in the tick before it.
    pub fn new(t: &Tick, before: &Alerts) -> Cell {
        let alerts = Alerts::new(t);
        Cell {
            first: t.number,
            last: t.number,
            weight: weight(t, !alerts.same_wires(before), alerts.go_on(before)),
            states: from_fn(|k| Held::new(t.after.classes[k].state)),
            interrupts: from_fn(|k| Held::new(t.word.interrupt(k))),
            lines: from_fn(|e| Held::new(t.word.line(e))),
            pairs: pairs(t),
            alerts,
            timer: Timer::new(t),
            accesses: Accesses::new(t),
        }
    }

    pub fn is_fold(&self) -> bool {
        self.first < self.last
    }

    pub fn ticks(&self) -> u64 {
        self.last - self.first + 1
    }

    /// Is a receiver other than ready?
    pub fn has_handshake(&self) -> bool {
        self.alerts.are_busy()
    }

    /// Is an answer of a line wrong?
    pub fn has_wrong_answer(&self) -> bool {
        self.pairs.iter().any(|pairs| pairs.wrong)
    }

    /// The units of width that it takes.
    pub fn units(&self) -> usize {
        if self.is_fold() {
            2
        } else {
            1
        }
    }

    /// One cell of two neighbours.
    pub fn joined(self, next: Cell) -> Cell {
        Cell {
            first: self.first,
            last: next.last,
            weight: self.weight.max(next.weight),
            states: from_fn(|k| self.states[k].joined(next.states[k])),
            interrupts: from_fn(|k| self.interrupts[k].joined(next.interrupts[k])),
            lines: from_fn(|e| self.lines[e].joined(next.lines[e])),
            pairs: from_fn(|e| self.pairs[e].joined(next.pairs[e])),
            alerts: self.alerts.joined(&next.alerts),
            timer: self.timer.joined(next.timer),
            accesses: self.accesses.joined(&next.accesses),
        }
    }
}
