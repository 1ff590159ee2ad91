//! Locks: REGWEN and CLR_REGWEN that fall from 1 to 0, by a write or by LOCK.
use super::tick::Tick;
use handler::registers::{Field, Register, Setting};

/// The places in a column at which it falls.
fn fallen<'a>(before: &'a [u8], after: &'a [u8]) -> impl Iterator<Item = usize> + 'a {
    (0..after.len()).filter(|&i| before[i] > after[i])
}

/// The registers that this tick locks.
pub fn locked(t: &Tick) -> Vec<Register> {
    let (before, after) = (&t.before, &t.after);
    let timer = before.timer.regwen > after.timer.regwen;
    let locals = fallen(&before.locals.regwen, &after.locals.regwen);
    let alerts = fallen(&before.alerts.regwen, &after.alerts.regwen);
    let mut all: Vec<Register> = Vec::new();
    all.extend(timer.then_some(Register::PingRegwen));
    all.extend(locals.map(|j| Register::Local(Field::Regwen, j)));
    all.extend(alerts.map(|i| Register::Alert(Field::Regwen, i)));
    for (k, (before, after)) in before.classes.iter().zip(&after.classes).enumerate() {
        let regwen = (Setting::Regwen, before.regwen, after.regwen);
        let clrwen = (Setting::ClrRegwen, before.clrwen, after.clrwen);
        let fallen = [regwen, clrwen].into_iter().filter(|(_, b, a)| b > a);
        all.extend(fallen.map(|(setting, _, _)| Register::Class(k, setting)));
    }
    all
}
