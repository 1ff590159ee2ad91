//! The locks of a handler of n alerts, and those of a dump.
use handler::registers::{Field, Register, Setting};
use handler::{Content, CLASSES, LOCALS};

/// Every REGWEN and CLR_REGWEN, the numbers rising.
fn all(n: usize) -> Vec<Register> {
    let mut all = vec![Register::PingRegwen];
    all.extend((0..LOCALS).map(|j| Register::Local(Field::Regwen, j)));
    all.extend((0..n).map(|i| Register::Alert(Field::Regwen, i)));
    let both = [Setting::Regwen, Setting::ClrRegwen];
    all.extend((0..CLASSES).flat_map(|k| both.map(|setting| Register::Class(k, setting))));
    all
}

/// Those that are locked, or those that are not.
pub fn of(content: &Content, locked: bool) -> Vec<Register> {
    let mut all = all(content.n);
    all.retain(|lock| content.is_locked(*lock) == locked);
    all
}
