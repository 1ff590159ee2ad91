//! The word of a tick, as a batch writes it: interrupts (4 bits, class 0 first), lines (4, line 0 first), refusal number (4),
//! 20 zeros, read value or 0.
use crate::answer::Refusal;

/// The 64 bits of a tick: interrupts, lines, refusal number, value read.
#[repr(transparent)]
#[derive(Clone, Copy, Debug, Default, PartialEq, Eq)]
pub struct Word(pub u64);

impl Word {
    /// The interrupt of class k, 0 to 3.
    pub fn interrupt(self, k: usize) -> bool {
        self.0 >> (63 - k) & 1 == 1
    }

    /// Line e, 0 to 3.
    pub fn line(self, e: usize) -> bool {
        self.0 >> (59 - e) & 1 == 1
    }

    /// The refusal, where the access got one.
    pub fn refusal(self) -> Option<Refusal> {
        match (self.0 >> 52 & 15) as u8 {
            0 => None,
            number => Some(Refusal(number)),
        }
    }

    /// The value that was read, or 0.
    pub fn value(self) -> u32 {
        self.0 as u32
    }
}
