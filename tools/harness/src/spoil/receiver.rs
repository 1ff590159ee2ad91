//! The words of bits that hold the alerts' receivers.

use handler::{Receivers, WORDS};

/// One of the four bits of a receiver.
#[derive(Clone, Copy, Debug, PartialEq, Eq)]
pub enum Bit {
    /// It pauses.
    Pausing,
    /// It has acknowledged, or is in the first tick of the pause.
    Busy,
    /// The level of its ping pair.
    Level,
    /// A ping is open.
    Pending,
}

impl Bit {
    /// All four.
    pub const ALL: [Bit; 4] = [Bit::Pausing, Bit::Busy, Bit::Level, Bit::Pending];

    /// The field's name.
    pub fn name(self) -> &'static str {
        match self {
            Bit::Pausing => "pausing",
            Bit::Busy => "busy",
            Bit::Level => "level",
            Bit::Pending => "pending",
        }
    }

    /// The words that hold it.
    pub fn words(self, receivers: &mut Receivers) -> &mut [u64; WORDS] {
        match self {
            Bit::Pausing => &mut receivers.pausing,
            Bit::Busy => &mut receivers.busy,
            Bit::Level => &mut receivers.level,
            Bit::Pending => &mut receivers.pending,
        }
    }
}
