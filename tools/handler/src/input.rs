//! What goes into a tick.
use crate::senders::LinePairs;
use crate::state::WORDS;

/// The access of a tick.
#[derive(Clone, Copy, Debug, PartialEq, Eq)]
pub enum Access {
    /// No access.
    Nothing,
    /// A read of the register of this number.
    Read(u16),
    /// A write to the register of this number, and the value.
    Write(u16, u32),
    /// What a malformed trace record holds: refusal 5.
    Malformed,
}

impl Access {
    /// Kind, register and value, as the library takes them.
    pub(crate) fn numbers(self) -> (u8, u16, u32) {
        match self {
            Access::Nothing => (0, 0, 0),
            Access::Read(register) => (1, register, 0),
            Access::Write(register, value) => (2, register, value),
            Access::Malformed => (3, 0, 0),
        }
    }
}

/// The alerts' wires in a tick: those of alert i stand at bit 63 - i % 64 of words i / 64. Places 248 to 255 are no wires.
#[repr(C)]
#[derive(Clone, Copy, Debug, PartialEq, Eq)]
pub struct Wires {
    /// The positive wires.
    pub pos: [u64; WORDS],
    /// The negative wires.
    pub neg: [u64; WORDS],
}

impl Wires {
    /// Every alert at (0,1).
    pub const REST: Wires = Wires {
        pos: [0; WORDS],
        neg: [u64::MAX; WORDS],
    };
}

/// The sample of a tick: all that comes in beside the access.
#[derive(Clone, Copy, Debug, PartialEq, Eq)]
pub struct Sample {
    /// The alerts' wires.
    pub alerts: Wires,
    /// The entropy word: by it the ping timer draws the next turn where one ends. It must be unpredictable.
    pub word: u32,
    /// What the lines' receivers send back.
    pub receive: LinePairs,
}

impl Sample {
    /// Every input at rest.
    pub const AT_REST: Sample = Sample {
        alerts: Wires::REST,
        word: 0,
        receive: LinePairs::REST,
    };

    /// These wires of the alerts, and every other input at rest.
    pub const fn of(alerts: Wires) -> Sample {
        Sample {
            alerts,
            ..Sample::AT_REST
        }
    }
}

/// The sample as the library takes it.
#[repr(C)]
#[derive(Clone, Copy)]
pub(crate) struct Wired {
    pub alerts: Wires,
    pub word: u32,
    pub receive_positive: u16,
    pub receive_negative: u16,
}

impl Wired {
    pub(crate) fn of(sample: Sample) -> Wired {
        Wired {
            alerts: sample.alerts,
            word: sample.word,
            receive_positive: sample.receive.pos as u16,
            receive_negative: sample.receive.neg as u16,
        }
    }
}

#[test]
fn wires_stand_where_the_header_has_them() {
    use crate::layout::offset_of;
    use std::mem::size_of;
    assert!(size_of::<Wired>() == 72);
    assert!(offset_of!(Wired, alerts) == 0);
    assert!(offset_of!(Wired, word) == 64);
    assert!(offset_of!(Wired, receive_positive) == 68);
    assert!(offset_of!(Wired, receive_negative) == 70);
    assert!(offset_of!(Wires, neg) == 32);
}

/// An access and a sample: what a trace record holds.
#[derive(Clone, Copy, Debug, PartialEq, Eq)]
pub struct Input {
    /// The access.
    pub access: Access,
    /// The sample. A record of an older edition has no receive pairs, and nobody checks them: they are at rest here.
    pub sample: Sample,
    /// The lines whose ping is answered, line 0 at the lowest bit: in records of the edition `Pings` alone, else 0.
    pub answers: u32,
}

impl Input {
    /// This access and sample.
    pub const fn new(access: Access, sample: Sample) -> Input {
        Input {
            access,
            sample,
            answers: 0,
        }
    }
}
