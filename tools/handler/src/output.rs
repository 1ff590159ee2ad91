//! What a tick sends out.
use crate::input::Wires;
use crate::senders::LinePairs;

/// Interrupts and lines, class and line 0 at the lowest bits, and what goes to the alerts: a pair to each, in the wires' order of
/// bits. Every place at N and above is (0,1), 248 to 255 too. Then what goes out on the lines, a pair on each.
#[repr(C)]
#[derive(Clone, Copy, Debug, PartialEq, Eq)]
pub struct Output {
    /// The interrupts that are on.
    pub interrupts: u32,
    /// The escalation lines that are on.
    pub lines: u32,
    /// (1,0) from the tick after a rise is taken up to the one in which its drop is read.
    pub acknowledge: Wires,
    /// Each ping that opens changes its level.
    pub ping: Wires,
    /// (1,0) while the line is on, in the tick after a lone tick of it, and for one tick as a ping.
    pub escalation: LinePairs,
}

impl Output {
    /// Nothing is on, all pairs are (0,1): what comes with refusal 7.
    pub const AT_REST: Output = Output {
        interrupts: 0,
        lines: 0,
        acknowledge: Wires::REST,
        ping: Wires::REST,
        escalation: LinePairs::REST,
    };
}

#[test]
fn outputs_stand_where_the_header_has_them() {
    use crate::layout::offset_of;
    use std::mem::size_of;
    assert!(size_of::<Output>() == 144);
    assert!(offset_of!(Output, lines) == 4);
    assert!(offset_of!(Output, acknowledge) == 8);
    assert!(offset_of!(Output, ping) == 72);
    assert!(offset_of!(Output, escalation) == 136);
}
