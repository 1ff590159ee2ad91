//! The sender of one escalation line (document 004, "Escalation Signaling").
//! Request (xi) lengthens a lone tick only, where 004 adds one to every pulse.

use crate::answering::Answering;

/// The sender of one line: what it must know of the ticks before.
#[derive(Clone, Copy, Debug, PartialEq, Eq)]
pub struct Sender {
    /// Whether the line was on in the last tick.
    pub on: bool,
    /// Whether that was its first tick of being on: it was off in the tick
    /// before.
    pub first: bool,
    /// A sound receiver of all pairs sent so far. It goes by these alone,
    /// whatever came back.
    pub receiver: Answering,
}

impl Sender {
    /// A sender at reset.
    pub const fn new() -> Sender {
        Sender {
            on: false,
            first: false,
            receiver: Answering::new(),
        }
    }

    /// The pair sent in the last tick: true for (1,0), false for (0,1).
    pub fn sent(&self) -> bool {
        self.receiver.on()
    }

    /// The answer that a sound receiver sends in the coming tick: true for
    /// (1,0), false for (0,1).
    pub fn expected(&self) -> bool {
        self.receiver.level
    }

    /// Whether the pair that came back in a tick is the right answer. Equal
    /// wires never are.
    pub fn right(&self, pair: (bool, bool)) -> bool {
        pair == (self.expected(), !self.expected())
    }

    /// Sends the pair of a tick in which the line is on or not, with the pulse
    /// of a ping or without. A line on holds the pair, and one that was on for
    /// its first tick holds it for a second.
    pub fn send(&mut self, on: bool, pulse: bool) {
        let pair = on || self.first || pulse;
        self.first = on && !self.on;
        self.on = on;
        self.receiver.step(pair);
    }
}

impl Default for Sender {
    fn default() -> Self {
        Sender::new()
    }
}
