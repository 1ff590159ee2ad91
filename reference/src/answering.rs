//! What a sound escalation receiver makes of sound pairs (document 004,
//! "Escalation Signaling" and "Ping Testing of the Escalation Signals").
//!
//! The handler runs one for each line on what it sends, to know the answer that
//! it must get; the receiver on any wires runs one while its wires are sound.

/// Where a receiver stands after the pair of a tick.
#[derive(Clone, Copy, Debug, PartialEq, Eq)]
pub enum Stand {
    /// The pair was off, and nothing is being answered.
    Rest,
    /// The pair was on, and off in the tick before. It may be a ping or the
    /// start of an escalation: both have the same first answer.
    First,
    /// The pair was on, and on in the tick before: an escalation.
    Escalation,
    /// The pair was on for a lone tick, a ping. The second of its four answers
    /// is sent in the coming tick.
    Second,
    /// The ping's third answer is sent in the coming tick.
    Third,
    /// The ping's fourth answer is sent in the coming tick.
    Fourth,
}

/// A sound receiver of one line.
#[derive(Clone, Copy, Debug, PartialEq, Eq)]
pub struct Answering {
    /// Where it stands.
    pub stand: Stand,
    /// The answer that it sends in the coming tick: true for (1,0), false for
    /// (0,1).
    pub level: bool,
}

impl Answering {
    /// A receiver at reset.
    pub const fn new() -> Answering {
        Answering {
            stand: Stand::Rest,
            level: false,
        }
    }

    /// Whether the pair was on in the last tick.
    pub fn on(&self) -> bool {
        matches!(self.stand, Stand::First | Stand::Escalation)
    }

    /// Whether an escalation was seen in the last tick: the pair was on in it
    /// and in the one before.
    pub fn escalation(&self) -> bool {
        self.stand == Stand::Escalation
    }

    /// Takes the pair of a tick, on or off. The answer starts with (1,0) in the
    /// next tick and toggles for as long as the pair is on, or for the 1010 of
    /// a ping. A pair that comes on while a ping is being answered does not
    /// start the toggling anew.
    pub fn step(&mut self, on: bool) {
        self.stand = match self.stand {
            Stand::First | Stand::Escalation if on => Stand::Escalation,
            _ if on => Stand::First,
            Stand::First => Stand::Second,
            Stand::Second => Stand::Third,
            Stand::Third => Stand::Fourth,
            Stand::Rest | Stand::Escalation | Stand::Fourth => Stand::Rest,
        };
        self.level = self.stand != Stand::Rest && !self.level;
    }
}

impl Default for Answering {
    fn default() -> Self {
        Answering::new()
    }
}
