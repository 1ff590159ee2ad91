//! The four pairs of wires of the escalation lines, one way: those that the
//! senders send, or those that come back from the receivers.

/// The number of escalation lines.
pub const LINES: usize = 4;

/// One pair of wires for each line, line 0 lowest. Bits 4 to 7 are no wires;
/// whatever they hold is left out.
#[derive(Clone, Copy, Debug, PartialEq, Eq)]
pub struct LinePairs {
    /// The positive wires.
    pub pos: u8,
    /// The negative wires.
    pub neg: u8,
}

impl LinePairs {
    /// Every pair at (0,1).
    pub const fn at_rest() -> LinePairs {
        LinePairs { pos: 0, neg: 0xF }
    }

    /// The pair of line e, positive wire first.
    pub fn pair(self, e: usize) -> (bool, bool) {
        ((self.pos >> e) & 1 == 1, (self.neg >> e) & 1 == 1)
    }

    /// The same pairs but for line e's.
    pub fn with(self, e: usize, pair: (bool, bool)) -> LinePairs {
        let others = !(1 << e);
        LinePairs {
            pos: (self.pos & others) | (u8::from(pair.0) << e),
            neg: (self.neg & others) | (u8::from(pair.1) << e),
        }
    }

    /// The pairs in a record's byte: line 0 and the positive wire first, most
    /// significant bit first.
    pub fn from_byte(byte: u8) -> LinePairs {
        let mut pairs = LinePairs { pos: 0, neg: 0 };
        for e in 0..LINES {
            let bits = byte >> (6 - 2 * e);
            pairs = pairs.with(e, (bits & 2 != 0, bits & 1 != 0));
        }
        pairs
    }

    /// The record's byte for the pairs.
    pub fn to_byte(self) -> u8 {
        let mut byte = 0;
        for e in 0..LINES {
            let (pos, neg) = self.pair(e);
            byte = (byte << 2) | (u8::from(pos) << 1) | u8::from(neg);
        }
        byte
    }
}
