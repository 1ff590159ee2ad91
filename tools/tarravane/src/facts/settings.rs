//! Settings: what a committed write gives another value, and what that switches on or off.
use super::tick::Tick;
use handler::registers::{Field, Register, Setting};
use handler::{Access, Class, Handler, CLASSES, LINES};

/// A register that configures, and its value before and after a tick.
#[derive(Clone, Copy, Debug, PartialEq, Eq)]
pub struct Changed {
    pub register: Register,
    pub was: u32,
    pub is: u32,
}

/// What is on or off.
#[derive(Clone, Copy, Debug, PartialEq, Eq)]
pub enum Switch {
    Alert(usize),
    Local(usize),
    /// EN of a class.
    Class(usize),
    /// LOCK of a class.
    Lock(usize),
    /// The enable of a line in a class.
    LineOf(usize, usize),
    /// A class's bit of INTR_ENABLE.
    Interrupt(usize),
    PingTimer,
}

/// CTRL's bits for EN, LOCK and the first line's enable.
const EN: u32 = 0;
const LOCK: u32 = 1;
const ENABLES: u32 = 2;

/// Is EN of the class 1?
pub fn is_enabled(class: &Class) -> bool {
    class.ctrl >> EN & 1 == 1
}

/// Does the class take events? EN is 1, and at least one line is enabled.
pub fn is_on(class: &Class) -> bool {
    is_enabled(class) && class.ctrl >> ENABLES & 15 != 0
}

/// Is LOCK of the class 1?
pub fn is_lock_set(class: &Class) -> bool {
    class.ctrl >> LOCK & 1 == 1
}

/// The value of a setting of class k.
fn of_class(h: &Handler, k: usize, setting: Setting) -> Option<u32> {
    let class = &h.classes[k];
    let phase = Setting::PHASES.iter().position(|phase| *phase == setting);
    match setting {
        Setting::Ctrl => Some(class.ctrl.into()),
        Setting::AccumThresh => Some(class.thresh.into()),
        Setting::TimeoutCyc => Some(class.timeout),
        _ => phase.map(|p| class.lengths[p]),
    }
}

/// The value of a register that configures: EN, CLASS, CTRL, ACCUM_THRESH, TIMEOUT_CYC, a phase's length, INTR_ENABLE,
/// PING_TIMEOUT_CYC or PING_TIMER_EN.
fn value(h: &Handler, register: Register) -> Option<u32> {
    match register {
        Register::IntrEnable => Some(h.interrupts.enable.into()),
        Register::PingTimeout => Some(h.timer.timeout),
        Register::PingEnable => Some(h.timer.enable.into()),
        Register::Local(Field::En, j) => Some(h.locals.en[j].into()),
        Register::Local(Field::Class, j) => Some(h.locals.class[j].into()),
        Register::Alert(Field::En, i) => Some(h.alerts.en[i].into()),
        Register::Alert(Field::Class, i) => Some(h.alerts.class[i].into()),
        Register::Class(k, setting) => of_class(h, k, setting),
        _ => None,
    }
}

/// The setting that the tick gives another value. Only a write that names it does; one that commits the value that stands
/// changes nothing.
pub fn changed(t: &Tick) -> Option<Changed> {
    if !matches!(t.input.access, Access::Write(..)) {
        return None;
    }
    let register = t.register()?;
    let (was, is) = (value(&t.before, register)?, value(&t.after, register)?);
    (was != is).then_some(Changed { register, was, is })
}

/// The switches of CTRL, with their bits.
fn of_ctrl(k: usize) -> Vec<(u32, Switch)> {
    let mut all = vec![(EN, Switch::Class(k)), (LOCK, Switch::Lock(k))];
    all.extend((0..LINES).map(|e| (ENABLES + e as u32, Switch::LineOf(k, e))));
    all
}

/// The switches of a register, with their bits.
fn switches(register: Register) -> Vec<(u32, Switch)> {
    match register {
        Register::Alert(Field::En, i) => vec![(0, Switch::Alert(i))],
        Register::Local(Field::En, j) => vec![(0, Switch::Local(j))],
        Register::Class(k, Setting::Ctrl) => of_ctrl(k),
        Register::PingEnable => vec![(0, Switch::PingTimer)],
        Register::IntrEnable => (0..CLASSES)
            .map(|k| (k as u32, Switch::Interrupt(k)))
            .collect(),
        _ => Vec::new(),
    }
}

/// What the tick switches, and whether it is then on.
pub fn switched(t: &Tick) -> Vec<(Switch, bool)> {
    let Changed { register, was, is } = match changed(t) {
        Some(changed) => changed,
        None => return Vec::new(),
    };
    let all = switches(register).into_iter();
    all.filter(|(bit, _)| (was ^ is) >> bit & 1 == 1)
        .map(|(bit, switch)| (switch, is >> bit & 1 == 1))
        .collect()
}

/// Is something switched off?
pub fn switches_off(t: &Tick) -> bool {
    switched(t).iter().any(|(_, on)| !on)
}
