//! Step 1 of a tick: the register access.

use crate::answer::{answer, Refusal};
use crate::handler::{Access, Handler, Source};
use crate::register::{ClassField, Register, SourceField};

impl Handler {
    /// Does the access; gives the answer and the class whose clear was accepted.
    pub(crate) fn access(&mut self, access: Access) -> (i64, Option<usize>) {
        match access {
            Access::None => (0, None),
            Access::Read { register } => (answer(self.read(register)), None),
            Access::Write { register, value } => match self.write(register, value) {
                Ok(cleared) => (0, cleared),
                Err(refusal) => (refusal.answer(), None),
            },
            Access::Malformed => (Refusal::Malformed.answer(), None),
        }
    }

    /// Reads a register; refusals in the order 1, 2. A stage acts on nothing,
    /// so the value is the one held, and reading it drops the stage.
    fn read(&mut self, number: u16) -> Result<u32, Refusal> {
        let register = Register::decode(number, self.n).ok_or(Refusal::NoRegister)?;
        if !register.readable() {
            return Err(Refusal::Direction);
        }
        self.drop_stage(register);
        Ok(match register {
            Register::IntrState => u32::from(self.intr_state),
            Register::IntrEnable => u32::from(self.intr_enable),
            Register::IntrTest => 0,
            Register::Timer(field) => self.timer.read(field),
            Register::Local(field, j) => read_source(&self.locals[j], field),
            Register::Alert(field, i) => read_source(&self.alerts[i], field),
            Register::Class(field, k) => self.classes[k].read(field),
        })
    }

    /// Writes a register; refusals in the order 1, 2, 4, 14, 3, 12.
    fn write(&mut self, number: u16, value: u32) -> Result<Option<usize>, Refusal> {
        let register = Register::decode(number, self.n).ok_or(Refusal::NoRegister)?;
        if !register.writable() {
            return Err(Refusal::Direction);
        }
        if value > register.mask() {
            return Err(Refusal::OutsideField);
        }
        if self.locks_silly(register, value) {
            return Err(Refusal::SillyThreshold);
        }
        if self.locked(register, value) {
            // What was staged before the lock came can never be committed.
            self.drop_stage(register);
            return Err(Refusal::Locked);
        }
        if register.shadowed() && !self.second(register, value)? {
            return Ok(None);
        }
        self.store(register, value);
        match register {
            Register::Class(ClassField::Clr, k) if value == 1 => Ok(Some(k)),
            _ => Ok(None),
        }
    }

    /// Whether a write to a shadowed register is the second of two equal ones,
    /// which ends its stage; a first one is staged. A differing second one is
    /// refused: it drops the stage and is not staged itself.
    fn second(&mut self, register: Register, value: u32) -> Result<bool, Refusal> {
        match self.staged(register) {
            None => {
                self.stage(register, value);
                Ok(false)
            }
            Some(staged) => {
                self.drop_stage(register);
                if staged == value {
                    Ok(true)
                } else {
                    Err(Refusal::StageDiffers)
                }
            }
        }
    }

    /// The staged value of a register, if there is one.
    pub(crate) fn staged(&self, register: Register) -> Option<u32> {
        match register {
            Register::Timer(field) => self.timer.staged(field),
            _ => self.stages.staged(register),
        }
    }

    /// Stages a value that was checked to be in the register's bits.
    fn stage(&mut self, register: Register, value: u32) {
        match register {
            Register::Timer(field) => self.timer.set_stage(field, value + 1),
            _ => self.stages.stage(register, value),
        }
    }

    /// Drops the stage of a register; without one nothing changes.
    fn drop_stage(&mut self, register: Register) {
        match register {
            Register::Timer(field) => self.timer.set_stage(field, 0),
            _ => self.stages.drop_stage(register),
        }
    }

    /// Whether writing `value` to the register would lock a silly threshold.
    fn locks_silly(&self, register: Register, value: u32) -> bool {
        match register {
            Register::Class(ClassField::Regwen, k) => value == 0 && self.classes[k].silly(),
            _ => false,
        }
    }

    /// Whether writing `value` to the register meets a lock.
    fn locked(&self, register: Register, value: u32) -> bool {
        match register {
            Register::IntrState | Register::IntrEnable | Register::IntrTest => false,
            Register::Timer(field) => self.timer.locked(field, value),
            Register::Local(field, j) => source_locked(&self.locals[j], field, value),
            Register::Alert(field, i) => source_locked(&self.alerts[i], field, value),
            Register::Class(field, k) => self.classes[k].locked(field, value),
        }
    }

    /// Takes in a value that was checked to be accepted and, where shadowed,
    /// written twice.
    fn store(&mut self, register: Register, value: u32) {
        match register {
            Register::IntrState => self.intr_state &= !(value as u8),
            Register::IntrEnable => self.intr_enable = value as u8,
            Register::IntrTest => self.intr_state |= value as u8,
            Register::Timer(field) => self.timer.write(field, value),
            Register::Local(field, j) => write_source(&mut self.locals[j], field, value),
            Register::Alert(field, i) => write_source(&mut self.alerts[i], field, value),
            Register::Class(field, k) => self.classes[k].write(field, value),
        }
    }
}

/// The value of a register of an alert or local alert.
fn read_source(source: &Source, field: SourceField) -> u32 {
    u32::from(match field {
        SourceField::Regwen => source.regwen,
        SourceField::En => source.en,
        SourceField::Class => source.class,
        SourceField::Cause => source.cause,
    })
}

/// REGWEN guards EN and CLASS, and itself against a written 1. CAUSE is free.
fn source_locked(source: &Source, field: SourceField, value: u32) -> bool {
    match field {
        SourceField::Regwen => source.regwen == 0 && value != 0,
        SourceField::En | SourceField::Class => source.regwen == 0,
        SourceField::Cause => false,
    }
}

/// Takes in a value for a register of an alert or local alert.
fn write_source(source: &mut Source, field: SourceField, value: u32) {
    let value = value as u8;
    match field {
        SourceField::Regwen => source.regwen = value,
        SourceField::En => source.en = value,
        SourceField::Class => source.class = value,
        // A written 1 clears, a 0 keeps.
        SourceField::Cause => source.cause &= !value,
    }
}
