//! The register map: what a register number names.

use crate::timer::TimerField;

/// A register of an alert or of a local alert.
#[derive(Clone, Copy, Debug, PartialEq, Eq)]
pub enum SourceField {
    /// A 0 locks EN and CLASS.
    Regwen,
    /// Whether the alert counts.
    En,
    /// The class the alert is assigned to.
    Class,
    /// Whether the alert has come; a written 1 clears.
    Cause,
}

/// A register of a class.
#[derive(Clone, Copy, Debug, PartialEq, Eq)]
pub enum ClassField {
    /// A 0 locks CTRL, ACCUM_THRESH, TIMEOUT_CYC and the phase lengths.
    Regwen,
    /// EN, LOCK, line enables and line maps.
    Ctrl,
    /// A 0 locks CLR.
    ClrRegwen,
    /// Write only; a 1 clears the escalation.
    Clr,
    /// Counted events, read only.
    AccumCnt,
    /// The count from which an event triggers.
    AccumThresh,
    /// Length of the interrupt timeout, 0 for none.
    TimeoutCyc,
    /// Length of one of the four phases.
    PhaseCyc(usize),
    /// Count within the timeout or phase, read only.
    EscCnt,
    /// State of the class, read only.
    State,
}

/// A register that exists.
#[derive(Clone, Copy, Debug, PartialEq, Eq)]
pub enum Register {
    /// Interrupts that are set; a written 1 clears.
    IntrState,
    /// Interrupts that go out.
    IntrEnable,
    /// Write only; a 1 sets INTR_STATE.
    IntrTest,
    /// A register of the ping timer.
    Timer(TimerField),
    /// A register of local alert j.
    Local(SourceField, usize),
    /// A register of alert i.
    Alert(SourceField, usize),
    /// A register of class k.
    Class(ClassField, usize),
}

impl Register {
    /// The register with this number in a handler of `n` alerts, if any.
    pub fn decode(number: u16, n: u64) -> Option<Register> {
        let at = usize::from(number);
        match at {
            0 => Some(Register::IntrState),
            1 => Some(Register::IntrEnable),
            2 => Some(Register::IntrTest),
            4 => Some(Register::Timer(TimerField::Regwen)),
            5 => Some(Register::Timer(TimerField::Timeout)),
            6 => Some(Register::Timer(TimerField::Enable)),
            16..=22 => Some(Register::Local(SourceField::Regwen, at - 16)),
            24..=30 => Some(Register::Local(SourceField::En, at - 24)),
            32..=38 => Some(Register::Local(SourceField::Class, at - 32)),
            40..=46 => Some(Register::Local(SourceField::Cause, at - 40)),
            256..=503 => alert(SourceField::Regwen, at - 256, n),
            512..=759 => alert(SourceField::En, at - 512, n),
            768..=1015 => alert(SourceField::Class, at - 768, n),
            1024..=1271 => alert(SourceField::Cause, at - 1024, n),
            1280..=1343 => class((at - 1280) % 16, (at - 1280) / 16),
            _ => None,
        }
    }

    /// Whether a read is allowed.
    pub fn readable(self) -> bool {
        !matches!(
            self,
            Register::IntrTest | Register::Class(ClassField::Clr, _)
        )
    }

    /// Whether a write is allowed.
    pub fn writable(self) -> bool {
        !matches!(
            self,
            Register::Class(
                ClassField::AccumCnt | ClassField::EscCnt | ClassField::State,
                _
            )
        )
    }

    /// Whether the register takes a value by two equal writes.
    pub fn shadowed(self) -> bool {
        match self {
            Register::IntrState | Register::IntrEnable | Register::IntrTest => false,
            Register::Timer(field) => field == TimerField::Timeout,
            Register::Local(field, _) | Register::Alert(field, _) => {
                matches!(field, SourceField::En | SourceField::Class)
            }
            Register::Class(field, _) => matches!(
                field,
                ClassField::Ctrl
                    | ClassField::AccumThresh
                    | ClassField::TimeoutCyc
                    | ClassField::PhaseCyc(_)
            ),
        }
    }

    /// The largest value that the register's bits can hold.
    pub fn mask(self) -> u32 {
        match self {
            Register::IntrState | Register::IntrEnable | Register::IntrTest => 0xF,
            Register::Timer(field) => match field {
                TimerField::Timeout => 0xFFFF,
                TimerField::Regwen | TimerField::Enable => 1,
            },
            Register::Local(field, _) | Register::Alert(field, _) => match field {
                SourceField::Class => 3,
                _ => 1,
            },
            Register::Class(field, _) => match field {
                ClassField::Regwen | ClassField::ClrRegwen | ClassField::Clr => 1,
                ClassField::Ctrl => 0x3FFF,
                ClassField::AccumCnt | ClassField::AccumThresh => 0xFFFF,
                ClassField::State => 7,
                ClassField::TimeoutCyc | ClassField::PhaseCyc(_) | ClassField::EscCnt => u32::MAX,
            },
        }
    }
}

/// An alert's register; alert i exists for i below N.
fn alert(field: SourceField, i: usize, n: u64) -> Option<Register> {
    if (i as u64) < n {
        Some(Register::Alert(field, i))
    } else {
        None
    }
}

/// The register at an offset in class k; offsets 13 to 15 are unassigned.
fn class(offset: usize, k: usize) -> Option<Register> {
    let field = match offset {
        0 => ClassField::Regwen,
        1 => ClassField::Ctrl,
        2 => ClassField::ClrRegwen,
        3 => ClassField::Clr,
        4 => ClassField::AccumCnt,
        5 => ClassField::AccumThresh,
        6 => ClassField::TimeoutCyc,
        7..=10 => ClassField::PhaseCyc(offset - 7),
        11 => ClassField::EscCnt,
        12 => ClassField::State,
        _ => return None,
    };
    Some(Register::Class(field, k))
}
