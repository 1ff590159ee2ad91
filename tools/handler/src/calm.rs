//! Calm ticks in one go: what such a call gives, and the words of its list.
use crate::answer::Answer;
use crate::output::Output;
use crate::state::Handler;

/// The entries that the list of changes needs, five for each class.
pub const CHANGES: usize = 20;

/// A change of the lines: 4 bits lines, line 0 first, 28 zeros, 32 bits tick.
#[repr(transparent)]
#[derive(Clone, Copy, Debug, Default, PartialEq, Eq)]
pub struct Change(pub u64);

impl Change {
    /// These lines, line 0 at the lowest bit, from this tick on.
    pub const fn new(lines: u32, tick: u32) -> Change {
        Change(((lines & 15).reverse_bits() as u64) << 32 | tick as u64)
    }

    /// Is line e on from this tick on?
    pub const fn line(self, e: usize) -> bool {
        self.0 >> (63 - e) & 1 == 1
    }

    /// The lines that are on from this tick on, line 0 at the lowest bit.
    pub const fn lines(self) -> u32 {
        ((self.0 >> 32) as u32).reverse_bits() & 15
    }

    /// The tick; the first of the call is 1.
    pub const fn tick(self) -> u32 {
        self.0 as u32
    }
}

/// What a calm call gives.
#[derive(Clone, Copy, Debug, PartialEq, Eq)]
pub struct Calmed {
    /// The state after its ticks.
    pub handler: Handler,
    /// How many changes there were; or refusal 7, 15 or 18.
    pub answer: Answer,
    /// The outputs of the last tick; of 0 ticks interrupts and lines of the state, all pairs (0,1).
    pub output: Output,
}

#[test]
fn a_change_has_line_0_first() {
    assert_eq!(Change::new(0b0001, 7), Change(0x8000_0000_0000_0007));
    assert_eq!(Change::new(0b1000, 1), Change(0x1000_0000_0000_0001));
    assert_eq!(Change::new(0, u32::MAX), Change(0x0000_0000_FFFF_FFFF));
    for lines in 0..16 {
        let change = Change::new(lines, 0x89AB_CDEF);
        assert_eq!((change.lines(), change.tick()), (lines, 0x89AB_CDEF));
        for e in 0..4 {
            assert_eq!(change.line(e), lines >> e & 1 == 1);
        }
    }
}
