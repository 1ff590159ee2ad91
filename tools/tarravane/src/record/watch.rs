//! The lines that stage a value which is never committed: nobody meant that.
use super::warnings::Warnings;
use crate::facts::stages::staged;
use crate::trace::record;
use handler::registers::Register;
use handler::{Access, Edition, Handler, Word};
use std::collections::BTreeMap;

#[derive(Default)]
pub struct Watch {
    /// By the register's number: the register, and the line that staged.
    open: BTreeMap<u16, (Register, u64)>,
}

/// What a record did.
pub struct Ran<'a> {
    pub record: &'a [u8],
    /// The line that it is of.
    pub line: u64,
    pub before: &'a Handler,
    pub after: &'a Handler,
    pub word: Word,
}

fn warning(register: Register, line: u64) -> String {
    format!("line {line}: stages {register} and is never committed")
}

impl Watch {
    pub fn look(&mut self, edition: Edition, ran: &Ran, warnings: &mut Warnings) {
        let access = record::input(edition, ran.record).access;
        let (number, writes) = match access {
            Access::Read(number) => (number, false),
            Access::Write(number, _) => (number, ran.word.refusal().is_none()),
            _ => return,
        };
        let register = match edition.registers().register(number) {
            Some(register) if register.is_shadowed() => register,
            _ => return,
        };
        match [ran.before, ran.after].map(|h| staged(h, register).is_some()) {
            [false, true] => {
                self.open.insert(number, (register, ran.line));
            }
            [true, false] => {
                let dropped = self.open.remove(&number).filter(|_| !writes);
                if let Some((register, line)) = dropped {
                    let by = ran.line;
                    warnings.add_stage(format!("{}: line {by} drops it", warning(register, line)));
                }
            }
            _ => {}
        }
    }

    /// At the end no second write comes.
    pub fn end(&self, warnings: &mut Warnings) {
        let mut all: Vec<&(Register, u64)> = self.open.values().collect();
        all.sort_by_key(|(_, line)| *line);
        for (register, line) in all {
            warnings.add_stage(warning(*register, *line));
        }
    }
}
