//! What a set of traces did with the locks of classes that wait for 65,535 or
//! 65,536 events.

use crate::record::{Head, WRITE};
use handler::Edition;
use reference::carried::without_timer;
use reference::register::{ClassField, Register};
use reference::{carried, Class, Handler};
use std::fmt;

/// The refusal of such a lock.
const SILLY: u64 = 14;

/// Counts over all ticks of a set.
#[derive(Default)]
pub struct Locking {
    /// Class locks that were refused so.
    pub refused: u64,
    /// Of these, ones of a class without a line.
    pub no_line: u64,
    /// Of these, ones while a value that would mend it was staged.
    pub mended: u64,
    /// Locks with EN and 65534.
    pub below: u64,
    /// Locks with 65535 and EN off.
    pub en_off: u64,
    /// Of both, ones while the other half was staged.
    pub staged: u64,
    /// A 0 to a class lock that had fallen.
    pub again: u64,
    /// Other values to the lock of such a class.
    pub other_values: u64,
    /// Other locks written to 0 beside such a class.
    pub other_locks: u64,
}

impl Locking {
    /// Takes in the tick of a record, by the handler before it.
    pub fn tick(&mut self, edition: Edition, head: Head, word: u64, before: &Handler) {
        let number = match edition {
            Edition::Alerts64 => carried(head.register),
            Edition::Alerts248 => without_timer(head.register),
            Edition::Pings | Edition::Wires => head.register,
        };
        let register = Register::decode(number, before.n);
        let register = match register {
            Some(register) if head.kind == WRITE => register,
            _ => return,
        };
        let refusal = (word >> 52) & 15;
        match register {
            Register::Class(ClassField::Regwen, k) if head.value == 0 => {
                self.lock(&before.classes[k], refusal, staged(before, k));
            }
            Register::Class(ClassField::Regwen, k) => {
                self.other_values += u64::from(waits(&before.classes[k]));
            }
            _ if is_lock(register) && head.value == 0 => {
                self.other_locks += u64::from(before.classes.iter().any(waits));
            }
            _ => {}
        }
    }

    /// A 0 to a class lock; which halves are staged: EN's and the threshold's.
    fn lock(&mut self, class: &Class, refusal: u64, [ctrl, thresh]: [Option<u32>; 2]) {
        let most = class.accum_thresh == u16::MAX;
        if refusal == SILLY {
            self.refused += 1;
            self.no_line += u64::from(!class.enabled());
            let mends = ctrl.map_or(false, |ctrl| ctrl % 2 == 0) || thresh.map_or(false, below);
            self.mended += u64::from(mends);
        } else if class.regwen == 0 {
            self.again += 1;
        } else if class.en() && class.accum_thresh == u16::MAX - 1 {
            self.below += 1;
            self.staged += u64::from(thresh == Some(65535));
        } else if !class.en() && most {
            self.en_off += 1;
            self.staged += u64::from(ctrl.map_or(false, |ctrl| ctrl % 2 == 1));
        }
    }
}

/// Whether a threshold is one that EN can be locked with.
fn below(thresh: u32) -> bool {
    thresh < 65535
}

/// Whether the class has EN, 65535, and is not locked.
fn waits(class: &Class) -> bool {
    class.en() && class.accum_thresh == u16::MAX && class.regwen == 1
}

/// The staged CTRL and ACCUM_THRESH of a class.
fn staged(h: &Handler, k: usize) -> [Option<u32>; 2] {
    let of = |field| h.stages.staged(Register::Class(field, k));
    [ClassField::Ctrl, ClassField::AccumThresh].map(of)
}

/// Whether a register is a lock, the class locks apart.
fn is_lock(register: Register) -> bool {
    use reference::register::SourceField::Regwen;
    use reference::timer::TimerField;
    matches!(
        register,
        Register::Alert(Regwen, _)
            | Register::Local(Regwen, _)
            | Register::Class(ClassField::ClrRegwen, _)
            | Register::Timer(TimerField::Regwen)
    )
}

impl fmt::Display for Locking {
    fn fmt(&self, out: &mut fmt::Formatter) -> fmt::Result {
        writeln!(
            out,
            "class locks refused at 65535 {} ({} without a line, {} with a mending stage); at 65534 {}, with EN off {} (other half staged {})",
            self.refused, self.no_line, self.mended, self.below, self.en_off, self.staged
        )?;
        writeln!(
            out,
            "class locks again {}; at 65535 other values {}, other locks {}",
            self.again, self.other_values, self.other_locks
        )
    }
}
