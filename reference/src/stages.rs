//! Shadow writes: the value of a first write waits here for an equal second.
//!
//! A stage is one number: 0 for none, else the staged value plus 1. It is
//! wider than its register, so that the largest value can be staged too.

use crate::handler::{CLASSES, LOCALS, MAX_ALERTS};
use crate::register::{ClassField, Register, SourceField};

/// The stages of one class.
#[derive(Clone, Copy, Debug, PartialEq, Eq)]
pub struct ClassStages {
    /// PHASE0_CYC to PHASE3_CYC, 32 bits each.
    pub lengths: [u64; 4],
    /// TIMEOUT_CYC, 32 bits.
    pub timeout: u64,
    /// CTRL, 14 bits.
    pub ctrl: u32,
    /// ACCUM_THRESH, 16 bits.
    pub thresh: u32,
}

impl ClassStages {
    /// No stage, as at reset.
    pub fn new() -> ClassStages {
        ClassStages {
            lengths: [0; 4],
            timeout: 0,
            ctrl: 0,
            thresh: 0,
        }
    }

    /// Whether no staged value has more than its register's bits.
    pub fn valid(&self) -> bool {
        let longest = 1 << 32;
        self.lengths.iter().all(|length| *length <= longest)
            && self.timeout <= longest
            && self.ctrl <= 0x4000
            && self.thresh <= 0x1_0000
    }

    /// The stage of a register; one that is not shadowed has none.
    fn get(&self, field: ClassField) -> u64 {
        match field {
            ClassField::PhaseCyc(p) => self.lengths[p],
            ClassField::TimeoutCyc => self.timeout,
            ClassField::Ctrl => u64::from(self.ctrl),
            ClassField::AccumThresh => u64::from(self.thresh),
            _ => 0,
        }
    }

    /// Takes in the stage of a shadowed register.
    fn set(&mut self, field: ClassField, stage: u64) {
        match field {
            ClassField::PhaseCyc(p) => self.lengths[p] = stage,
            ClassField::TimeoutCyc => self.timeout = stage,
            ClassField::Ctrl => self.ctrl = stage as u32,
            ClassField::AccumThresh => self.thresh = stage as u32,
            _ => {}
        }
    }
}

impl Default for ClassStages {
    fn default() -> Self {
        ClassStages::new()
    }
}

/// The stages of the alerts or of the local alerts.
#[derive(Clone, Copy, Debug, PartialEq, Eq)]
pub struct SourceStages<const COUNT: usize> {
    /// EN, 1 bit each.
    pub en: [u8; COUNT],
    /// CLASS, 2 bits each.
    pub class: [u8; COUNT],
}

impl<const COUNT: usize> SourceStages<COUNT> {
    /// No stage, as at reset.
    pub fn new() -> SourceStages<COUNT> {
        SourceStages {
            en: [0; COUNT],
            class: [0; COUNT],
        }
    }

    /// Whether none of the first `n` has a staged value over its bits.
    pub fn valid(&self, n: usize) -> bool {
        self.en[..n].iter().all(|stage| *stage <= 2)
            && self.class[..n].iter().all(|stage| *stage <= 4)
    }

    /// The stage of a register; one that is not shadowed has none.
    fn get(&self, field: SourceField, at: usize) -> u64 {
        match field {
            SourceField::En => u64::from(self.en[at]),
            SourceField::Class => u64::from(self.class[at]),
            SourceField::Regwen | SourceField::Cause => 0,
        }
    }

    /// Takes in the stage of a shadowed register.
    fn set(&mut self, field: SourceField, at: usize, stage: u64) {
        match field {
            SourceField::En => self.en[at] = stage as u8,
            SourceField::Class => self.class[at] = stage as u8,
            SourceField::Regwen | SourceField::Cause => {}
        }
    }
}

impl<const COUNT: usize> Default for SourceStages<COUNT> {
    fn default() -> Self {
        SourceStages::new()
    }
}

/// The stages of all shadowed registers, one for each, but for the ping
/// timer's: it holds its own.
#[derive(Clone, Copy, Debug, PartialEq, Eq)]
pub struct Stages {
    /// The four classes.
    pub classes: [ClassStages; CLASSES],
    /// The alerts; entries at N and above are no registers.
    pub alerts: SourceStages<MAX_ALERTS>,
    /// The local alerts.
    pub locals: SourceStages<LOCALS>,
}

impl Stages {
    /// No stage, as at reset.
    pub fn new() -> Stages {
        Stages {
            classes: [ClassStages::new(); CLASSES],
            alerts: SourceStages::new(),
            locals: SourceStages::new(),
        }
    }

    /// Whether the stages of a handler of `n` alerts keep the rule of refusal
    /// 7. Entries at N and above are not looked at.
    pub fn valid(&self, n: usize) -> bool {
        self.alerts.valid(n)
            && self.locals.valid(LOCALS)
            && self.classes.iter().all(ClassStages::valid)
    }

    /// The staged value of a register, if there is one here.
    pub fn staged(&self, register: Register) -> Option<u32> {
        let stage = match register {
            Register::IntrState | Register::IntrEnable | Register::IntrTest => 0,
            Register::Timer(_) => 0,
            Register::Local(field, j) => self.locals.get(field, j),
            Register::Alert(field, i) => self.alerts.get(field, i),
            Register::Class(field, k) => self.classes[k].get(field),
        };
        stage.checked_sub(1).map(|value| value as u32)
    }

    /// Stages a value that was checked to be in the register's bits.
    pub(crate) fn stage(&mut self, register: Register, value: u32) {
        self.set(register, u64::from(value) + 1);
    }

    /// Drops the stage of a register; without one nothing changes.
    pub(crate) fn drop_stage(&mut self, register: Register) {
        self.set(register, 0);
    }

    fn set(&mut self, register: Register, stage: u64) {
        match register {
            Register::IntrState | Register::IntrEnable | Register::IntrTest => {}
            Register::Timer(_) => {}
            Register::Local(field, j) => self.locals.set(field, j, stage),
            Register::Alert(field, i) => self.alerts.set(field, i, stage),
            Register::Class(field, k) => self.classes[k].set(field, stage),
        }
    }
}

impl Default for Stages {
    fn default() -> Self {
        Stages::new()
    }
}
