//! The receivers at the ends of the lines, for tools that have no such receivers: the library's proved ones.
use crate::library;
use crate::senders::LinePairs;

/// The four receivers, line 0 at the lowest bit. Any bits are receivers; bits from 4 up count for nothing.
#[repr(C)]
#[derive(Clone, Copy, Debug, PartialEq, Eq)]
pub struct LineReceivers {
    /// Its pair was on in the last tick.
    pub last: u32,
    /// With `last` where it stands: 0 0 at rest, 1 0 after the first tick of a pair, 0 1 answering a ping, 1 1 escalating.
    pub deep: u32,
    /// The answer of the coming tick.
    pub answer: u32,
    /// Its wires were equal in the last tick.
    pub broken: u32,
}

/// What they do in a tick.
#[derive(Clone, Copy, Debug, PartialEq, Eq)]
pub struct Listened {
    /// The receivers after it.
    pub receivers: LineReceivers,
    /// The pairs that they send back in it.
    pub receive: LinePairs,
    /// The lines whose receiver sees an escalation in it.
    pub seen: u32,
}

impl LineReceivers {
    /// New ones.
    pub const NEW: LineReceivers = LineReceivers {
        last: 0,
        deep: 0,
        answer: 0,
        broken: 0,
    };

    /// A tick in which the lines' pairs are these.
    pub fn listen(self, pairs: LinePairs) -> Listened {
        let given = library::receive(self, pairs.pos, pairs.neg);
        Listened {
            receivers: given.receivers,
            receive: LinePairs {
                pos: given.positive,
                neg: given.negative,
            },
            seen: given.seen,
        }
    }

    /// The pairs that they send back in the coming tick: those of that tick count for nothing there.
    pub fn sends(self) -> LinePairs {
        self.listen(LinePairs::REST).receive
    }
}

#[test]
fn line_receivers_stand_where_the_header_has_them() {
    use crate::layout::offset_of;
    use std::mem::size_of;
    assert!(size_of::<LineReceivers>() == 16);
    assert!(offset_of!(LineReceivers, deep) == 4);
    assert!(offset_of!(LineReceivers, answer) == 8);
    assert!(offset_of!(LineReceivers, broken) == 12);
    assert!(size_of::<library::Listened>() == 28);
}
