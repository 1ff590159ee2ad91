//! The escalation receiver of document 004 on any wires, without its watch for
//! missing pings (request (xi)). It is no part of the handler; it stands at the
//! other end of a line's wires.

use crate::answering::Answering;

/// Where the receiver stands after the wires of a tick.
#[derive(Clone, Copy, Debug, PartialEq, Eq)]
pub enum Wiring {
    /// The wires differed.
    Sound(Answering),
    /// The wires were equal. Both answer wires have this level in the coming
    /// tick.
    Equal(bool),
}

/// What a receiver shows in a tick.
#[derive(Clone, Copy, Debug, PartialEq, Eq)]
pub struct Shown {
    /// The answer pair that it sends in the tick, positive wire first. The
    /// wires of the same tick do not matter to it.
    pub answer: (bool, bool),
    /// Whether it sees an escalation in the tick.
    pub escalation: bool,
}

/// An escalation receiver.
#[derive(Clone, Copy, Debug, PartialEq, Eq)]
pub struct EscalationReceiver {
    /// Where it stands.
    pub wiring: Wiring,
}

impl EscalationReceiver {
    /// A receiver at reset.
    pub const fn new() -> EscalationReceiver {
        EscalationReceiver {
            wiring: Wiring::Sound(Answering::new()),
        }
    }

    /// The answer pair that it sends in the coming tick, positive wire first.
    pub fn answer(&self) -> (bool, bool) {
        match self.wiring {
            Wiring::Sound(answering) => (answering.level, !answering.level),
            Wiring::Equal(level) => (level, level),
        }
    }

    /// Reads the wires of a tick and shows what it does in that tick.
    pub fn step(&mut self, pos: bool, neg: bool) -> Shown {
        let answer = self.answer();
        let escalation = if pos == neg {
            self.equal();
            // It may be an attack, so it counts as an escalation at once.
            true
        } else {
            self.sound(pos)
        };
        Shown { answer, escalation }
    }

    /// Takes equal wires: the answer is (0,0) in the next tick and toggles for
    /// as long as they stay equal.
    fn equal(&mut self) {
        self.wiring = match self.wiring {
            Wiring::Sound(_) => Wiring::Equal(false),
            Wiring::Equal(level) => Wiring::Equal(!level),
        };
    }

    /// Takes sound wires and says whether there is an escalation. After equal
    /// wires the receiver starts anew with this tick's pair.
    fn sound(&mut self, on: bool) -> bool {
        let mut answering = match self.wiring {
            Wiring::Sound(answering) => answering,
            Wiring::Equal(_) => Answering::new(),
        };
        answering.step(on);
        self.wiring = Wiring::Sound(answering);
        answering.escalation()
    }
}

impl Default for EscalationReceiver {
    fn default() -> Self {
        EscalationReceiver::new()
    }
}
