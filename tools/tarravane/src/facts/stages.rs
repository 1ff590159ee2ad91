//! Stages: what the first of two equal writes left at a shadowed register, read off the library's states.
use super::tick::Tick;
use handler::registers::{Field, Register, Setting};
use handler::{Access, Handler, Stages, CLASSES, LOCALS};

/// What a tick does with the stage of the register that it names.
#[derive(Clone, Copy, Debug, PartialEq, Eq)]
pub enum Change {
    Staged,
    Committed,
    /// By a read, a differing write or one that meets a lock.
    Dropped,
}

/// 0 for none, the staged value plus 1; what is not shadowed has none.
fn code(stages: &Stages, register: Register) -> u64 {
    let Stages {
        classes,
        alerts,
        locals,
        timeout,
    } = stages;
    match register {
        Register::PingTimeout => *timeout,
        Register::Alert(Field::En, i) => alerts.en[i].into(),
        Register::Alert(Field::Class, i) => alerts.class[i].into(),
        Register::Local(Field::En, j) => locals.en[j].into(),
        Register::Local(Field::Class, j) => locals.class[j].into(),
        Register::Class(k, Setting::Ctrl) => classes[k].ctrl.into(),
        Register::Class(k, Setting::AccumThresh) => classes[k].thresh.into(),
        Register::Class(k, Setting::TimeoutCyc) => classes[k].timeout,
        Register::Class(k, setting) => {
            let phase = Setting::PHASES.iter().position(|phase| *phase == setting);
            phase.map_or(0, |p| classes[k].lengths[p])
        }
        _ => 0,
    }
}

/// The value that is staged in a register.
pub fn staged(h: &Handler, register: Register) -> Option<u32> {
    let code = code(&h.stages, register);
    code.checked_sub(1).map(|value| value as u32)
}

/// What this tick does with a stage, if it does anything. Only an access that names its register does.
pub fn change(t: &Tick) -> Option<Change> {
    let register = t.register()?;
    let writes = matches!(t.input.access, Access::Write(..)) && t.word.refusal().is_none();
    match [&t.before, &t.after].map(|h| staged(h, register).is_some()) {
        [false, true] => Some(Change::Staged),
        [true, false] if writes => Some(Change::Committed),
        [true, false] => Some(Change::Dropped),
        _ => None,
    }
}

/// Every shadowed register of n alerts, the numbers rising.
fn shadowed(n: usize) -> impl Iterator<Item = Register> {
    let both = [Field::En, Field::Class];
    let locals = both.map(|field| (0..LOCALS).map(move |j| Register::Local(field, j)));
    let alerts = both.map(|field| (0..n).map(move |i| Register::Alert(field, i)));
    let classes = (0..CLASSES).flat_map(|k| Setting::SHADOWED.map(|s| Register::Class(k, s)));
    let sources = locals.into_iter().flatten();
    let sources = sources.chain(alerts.into_iter().flatten());
    [Register::PingTimeout]
        .into_iter()
        .chain(sources)
        .chain(classes)
}

/// The stages that are open, each with its value.
pub fn open(h: &Handler) -> Vec<(Register, u32)> {
    // Most ticks have none.
    if h.stages == Stages::NONE {
        return Vec::new();
    }
    shadowed(h.n)
        .filter_map(|register| Some((register, staged(h, register)?)))
        .collect()
}
