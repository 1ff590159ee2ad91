//! What a set of traces did with the stages of shadowed registers.

use crate::record::{Head, WRITE};
use handler::Edition;
use reference::carried::without_timer;
use reference::handler::{ALERT_INTEGRITY, SHADOW_UPDATE};
use reference::register::{ClassField, Register, SourceField};
use reference::stages::ClassStages;
use reference::timer::TimerField;
use reference::{carried, Handler};
use std::fmt;

/// The refusals of a locked register, of a value too wide and of one that
/// differs.
const LOCKED: u64 = 3;
const TOO_WIDE: u64 = 4;
const DIFFERS: u64 = 12;

/// Counts over all ticks of a set.
#[derive(Default)]
pub struct Shadowed {
    /// First writes.
    pub staged: u64,
    /// Second writes that were equal.
    pub committed: u64,
    /// Of these, ones while another register had a stage too.
    pub beside: u64,
    /// Second writes that differed.
    pub differing: u64,
    /// Of these, ones with which local 5 occurred.
    pub occurred: u64,
    /// Of those, ones in a tick that set the cause of local 2.
    pub both: u64,
    /// Reads that dropped a stage.
    pub read: u64,
    /// Writes to a locked register that dropped its stage.
    pub locked: u64,
    /// Writes too wide, with the stage kept.
    pub too_wide: u64,
    /// Locks that fell while a stage that they guard was open.
    pub under_lock: u64,
    /// The stages that are open now.
    open: u64,
}

impl Shadowed {
    /// Begins a trace: no stage is open.
    pub fn begin(&mut self) {
        self.open = 0;
    }

    /// Takes in the tick of a record: the handler before and after it.
    pub fn tick(
        &mut self,
        edition: Edition,
        head: Head,
        word: u64,
        before: &Handler,
        after: &Handler,
    ) {
        let number = match edition {
            Edition::Alerts64 => carried(head.register),
            Edition::Alerts248 => without_timer(head.register),
            Edition::Pings | Edition::Wires => head.register,
        };
        let register = match Register::decode(number, before.n) {
            Some(register) => register,
            None => return,
        };
        let refusal = (word >> 52) & 15;
        let [was, is] = [before, after].map(|h| is_staged(h, register));
        self.open = self.open + u64::from(is) - u64::from(was);
        match (was, is) {
            (false, true) => self.staged += 1,
            (true, false) if head.kind != WRITE => self.read += 1,
            (true, false) if refusal == LOCKED => self.locked += 1,
            (true, false) if refusal == DIFFERS => self.differs(before, after),
            (true, false) => {
                self.committed += 1;
                self.beside += u64::from(self.open > 0);
            }
            (true, true) if refusal == TOO_WIDE => self.too_wide += 1,
            _ => {}
        }
        let fell = refusal == 0 && head.kind == WRITE && head.value == 0;
        self.under_lock += u64::from(fell && guards_a_stage(after, register));
    }

    fn differs(&mut self, before: &Handler, after: &Handler) {
        let occurs = after.locals[SHADOW_UPDATE].en == 1;
        let [was, is] = [before, after].map(|h| h.locals[ALERT_INTEGRITY].cause);
        self.differing += 1;
        self.occurred += u64::from(occurs);
        self.both += u64::from(occurs && was < is);
    }
}

/// Whether a register's stage is open.
fn is_staged(h: &Handler, register: Register) -> bool {
    match register {
        Register::Timer(field) => h.timer.staged(field).is_some(),
        _ => h.stages.staged(register).is_some(),
    }
}

/// Whether this register is a REGWEN and guards an open stage.
fn guards_a_stage(h: &Handler, register: Register) -> bool {
    let stages = &h.stages;
    match register {
        Register::Alert(SourceField::Regwen, i) => {
            stages.alerts.en[i] != 0 || stages.alerts.class[i] != 0
        }
        Register::Local(SourceField::Regwen, j) => {
            stages.locals.en[j] != 0 || stages.locals.class[j] != 0
        }
        Register::Class(ClassField::Regwen, k) => stages.classes[k] != ClassStages::new(),
        Register::Timer(TimerField::Regwen) => h.timer.stage != 0,
        _ => false,
    }
}

impl fmt::Display for Shadowed {
    fn fmt(&self, out: &mut fmt::Formatter) -> fmt::Result {
        writeln!(
            out,
            "writes staged {}, committed {} ({} beside another stage), differing {} (local 5 with {}, local 2 too with {})",
            self.staged, self.committed, self.beside, self.differing, self.occurred, self.both
        )?;
        writeln!(
            out,
            "stages dropped by reads {}, by locked writes {}; kept by writes too wide {}, over locks {}",
            self.read, self.locked, self.too_wide, self.under_lock
        )
    }
}
