//! The lines' pairs, and the senders that make them.
use crate::state::LINES;

/// The pairs of the four lines, line 0 at the lowest bit. Bits from 4 up are no line's: they count for nothing, and are 0 in
/// what comes back.
#[repr(C)]
#[derive(Clone, Copy, Debug, PartialEq, Eq)]
pub struct LinePairs {
    /// The positive wires.
    pub pos: u32,
    /// The negative wires.
    pub neg: u32,
}

impl LinePairs {
    /// Every line at (0,1).
    pub const REST: LinePairs = LinePairs { pos: 0, neg: 15 };

    /// Sound pairs: (1,0) on these lines, (0,1) on the others.
    pub const fn sound(on: u32) -> LinePairs {
        LinePairs {
            pos: on & 15,
            neg: !on & 15,
        }
    }

    /// The two wires of line e.
    pub const fn pair(self, e: usize) -> (bool, bool) {
        (self.pos >> e & 1 == 1, self.neg >> e & 1 == 1)
    }

    /// As the last byte of a record has them: p0 n0 p1 n1 p2 n2 p3 n3, p0 in the highest bit.
    pub fn byte(self) -> u8 {
        let bits = |wires: u32, e: usize| (wires >> e & 1) as u8;
        let pair = |e| bits(self.pos, e) << (7 - 2 * e) | bits(self.neg, e) << (6 - 2 * e);
        (0..LINES).map(pair).sum()
    }

    /// Those of such a byte.
    pub fn of_byte(byte: u8) -> LinePairs {
        let wires = |first: usize| {
            let bit = |e: usize| u32::from(byte >> (first - 2 * e) & 1) << e;
            (0..LINES).map(bit).sum()
        };
        LinePairs {
            pos: wires(7),
            neg: wires(6),
        }
    }
}

/// The senders of the four lines, line 0 at the lowest bit. Any bits are senders; bits from 4 up are not looked at.
#[repr(C)]
#[derive(Clone, Copy, Debug, PartialEq, Eq)]
pub struct Senders {
    /// The line was on in the last tick.
    pub on: u32,
    /// That tick was the first of its being on.
    pub first: u32,
    /// The pair was on in the last tick.
    pub last: u32,
    /// With `last` where the right answer stands: 0 0 at rest, 1 0 after the first tick of a pair, 0 1 in the answer to a
    /// ping, 1 1 in an escalation.
    pub deep: u32,
    /// The right answer of the coming tick: 1 for (1,0), 0 for (0,1).
    pub answer: u32,
}

impl Senders {
    /// At rest.
    pub const NEW: Senders = Senders {
        on: 0,
        first: 0,
        last: 0,
        deep: 0,
        answer: 0,
    };

    /// The receive pairs that are right in the coming tick.
    pub const fn right(&self) -> LinePairs {
        LinePairs::sound(self.answer)
    }
}

#[test]
fn a_byte_has_line_0_and_the_positive_wire_first() {
    assert_eq!(LinePairs::REST.byte(), 0b0101_0101);
    assert_eq!(LinePairs { pos: 1, neg: 8 }.byte(), 0b1000_0001);
    assert_eq!(
        LinePairs {
            pos: 0xF4,
            neg: 0xF2
        }
        .byte(),
        0b0001_1000
    );
    for byte in 0..=255 {
        assert_eq!(LinePairs::of_byte(byte).byte(), byte);
    }
    assert_eq!(LinePairs::of_byte(0b1000_0001).pair(0), (true, false));
    assert_eq!(LinePairs::of_byte(0b1000_0001).pair(3), (false, true));
}

#[test]
fn senders_stand_where_the_header_has_them() {
    use crate::layout::offset_of;
    use std::mem::size_of;
    assert!(size_of::<LinePairs>() == 8);
    assert!(offset_of!(LinePairs, neg) == 4);
    assert!(size_of::<Senders>() == 20);
    assert!(offset_of!(Senders, first) == 4);
    assert!(offset_of!(Senders, last) == 8);
    assert!(offset_of!(Senders, deep) == 12);
    assert!(offset_of!(Senders, answer) == 16);
}
