//! The state, in the library's layout (`include/tarravane.h`). Integers alone: any bytes are a value, refusal 7 judges them.
use crate::receivers::Receivers;
use crate::senders::Senders;
use crate::timer::{Timer, Turn};

/// The most alerts that a handler is made for.
pub const ALERTS: usize = 248;
/// The words of 64 that hold a bit of each alert.
pub const WORDS: usize = 4;
/// Local alerts.
pub const LOCALS: usize = 7;
/// Classes.
pub const CLASSES: usize = 4;
/// Escalation phases of a class.
pub const PHASES: usize = 4;
/// Escalation lines.
pub const LINES: usize = 4;

/// The registers of a class's block.
#[repr(C)]
#[derive(Clone, Copy, Debug, PartialEq, Eq)]
pub struct Class {
    /// PHASE0_CYC to PHASE3_CYC
    pub lengths: [u32; PHASES],
    /// TIMEOUT_CYC
    pub timeout: u32,
    /// ESC_CNT
    pub count: u32,
    /// CTRL
    pub ctrl: u16,
    /// ACCUM_CNT
    pub accum: u16,
    /// ACCUM_THRESH
    pub thresh: u16,
    /// class REGWEN
    pub regwen: u8,
    /// CLR_REGWEN
    pub clrwen: u8,
    /// STATE: Idle 0, Timeout 1, Terminal 3, phases 4 to 7
    pub state: u32,
}

/// What stands between the wires and the registers.
#[repr(C)]
#[derive(Clone, Copy, Debug, PartialEq, Eq)]
pub struct Links {
    /// The alerts' receivers.
    pub receivers: Receivers,
    /// The ping timer's turn.
    pub turn: Turn,
    /// The lines whose ping is open, line 0 at the lowest bit. Bits from 4 up are not looked at.
    pub lines: u32,
    /// The lines' senders.
    pub senders: Senders,
    /// All answers to the open ping of the turn's line were right so far: the lowest bit, no other is looked at.
    pub right: u32,
}

impl Links {
    /// Those of a new handler.
    pub const NEW: Links = Links {
        receivers: Receivers::NEW,
        turn: Turn::NEW,
        lines: 0,
        senders: Senders::NEW,
        right: 0,
    };
}

/// The registers of the alerts; entry i is alert i's. Entries at n and above are no registers, and no call changes them.
#[repr(C)]
#[derive(Clone, Copy, Debug, PartialEq, Eq)]
pub struct Alerts {
    /// REGWEN
    pub regwen: [u8; ALERTS],
    /// EN
    pub en: [u8; ALERTS],
    /// CLASS
    pub class: [u8; ALERTS],
    /// CAUSE
    pub cause: [u8; ALERTS],
}

/// The registers of the local alerts; entry j is local alert j's.
#[repr(C)]
#[derive(Clone, Copy, Debug, PartialEq, Eq)]
pub struct Locals {
    /// REGWEN
    pub regwen: [u8; LOCALS],
    /// EN
    pub en: [u8; LOCALS],
    /// CLASS
    pub class: [u8; LOCALS],
    /// CAUSE
    pub cause: [u8; LOCALS],
}

/// The interrupt registers: class 0 is the lowest bit.
#[repr(C)]
#[derive(Clone, Copy, Debug, PartialEq, Eq)]
pub struct Interrupts {
    /// INTR_STATE
    pub state: u16,
    /// INTR_ENABLE
    pub enable: u16,
}

/// The stages of a class's shadowed registers. A stage is what the first of two equal writes left: 0 for none, else the
/// staged value plus 1. It acts on nothing.
#[repr(C)]
#[derive(Clone, Copy, Debug, PartialEq, Eq)]
pub struct ClassStages {
    /// PHASE0_CYC to PHASE3_CYC
    pub lengths: [u64; PHASES],
    /// TIMEOUT_CYC
    pub timeout: u64,
    /// CTRL
    pub ctrl: u32,
    /// ACCUM_THRESH
    pub thresh: u32,
}

/// The stages of the alerts' shadowed registers. Entries at n and above are no registers, and no call changes them.
#[repr(C)]
#[derive(Clone, Copy, Debug, PartialEq, Eq)]
pub struct AlertStages {
    /// EN
    pub en: [u8; ALERTS],
    /// CLASS
    pub class: [u8; ALERTS],
}

/// The stages of the local alerts' shadowed registers.
#[repr(C)]
#[derive(Clone, Copy, Debug, PartialEq, Eq)]
pub struct LocalStages {
    /// EN
    pub en: [u32; LOCALS],
    /// CLASS
    pub class: [u32; LOCALS],
}

/// The stages of all shadowed registers, one for each.
#[repr(C)]
#[derive(Clone, Copy, Debug, PartialEq, Eq)]
pub struct Stages {
    /// The classes, A to D.
    pub classes: [ClassStages; CLASSES],
    /// The alerts'.
    pub alerts: AlertStages,
    /// The local alerts'.
    pub locals: LocalStages,
    /// PING_TIMEOUT_CYC
    pub timeout: u64,
}

impl Stages {
    /// No stage is open.
    pub const NONE: Stages = Stages {
        classes: [ClassStages {
            lengths: [0; PHASES],
            timeout: 0,
            ctrl: 0,
            thresh: 0,
        }; CLASSES],
        alerts: AlertStages {
            en: [0; ALERTS],
            class: [0; ALERTS],
        },
        locals: LocalStages {
            en: [0; LOCALS],
            class: [0; LOCALS],
        },
        timeout: 0,
    };
}

/// The state of a handler.
#[repr(C)]
#[derive(Clone, Copy, Debug, PartialEq, Eq)]
pub struct Handler {
    /// The alerts that it is made for.
    pub n: usize,
    /// What stands between the wires and the registers.
    pub links: Links,
    /// The classes, A to D.
    pub classes: [Class; CLASSES],
    /// The alerts' registers.
    pub alerts: Alerts,
    /// The local alerts' registers.
    pub locals: Locals,
    /// The interrupt registers.
    pub interrupts: Interrupts,
    /// The ping timer's registers.
    pub timer: Timer,
    /// What waits for a second write.
    pub stages: Stages,
}

#[test]
fn fields_stand_where_the_header_has_them() {
    use crate::layout::offset_of;
    use std::mem::size_of;
    assert!(size_of::<Class>() == 36);
    assert!(offset_of!(Class, ctrl) == 24);
    assert!(offset_of!(Class, state) == 32);
    assert!(size_of::<ClassStages>() == 48);
    assert!(offset_of!(ClassStages, ctrl) == 40);
    assert!(size_of::<Stages>() == 752);
    assert!(offset_of!(Stages, alerts) == 192);
    assert!(offset_of!(Stages, locals) == 688);
    assert!(offset_of!(Stages, timeout) == 744);
    assert!(size_of::<Links>() == 160);
    assert!(offset_of!(Links, turn) == 128);
    assert!(offset_of!(Links, lines) == 132);
    assert!(offset_of!(Links, senders) == 136);
    assert!(offset_of!(Links, right) == 156);
    assert!(size_of::<Handler>() == 2096);
    assert!(offset_of!(Handler, links) == 8);
    assert!(offset_of!(Handler, classes) == 168);
    assert!(offset_of!(Handler, alerts) == 312);
    assert!(offset_of!(Handler, locals) == 1304);
    assert!(offset_of!(Handler, interrupts) == 1332);
    assert!(offset_of!(Handler, timer) == 1336);
    assert!(offset_of!(Handler, stages) == 1344);
}
