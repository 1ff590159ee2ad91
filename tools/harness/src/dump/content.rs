//! Contents: the reference's in the library's form, and a state that holds one.

use crate::calls::Odd;
use handler::registers::{Field, Register, Setting, MAP};
use handler::{Content, Handler, Links, ShownClass, Stages, CLASSES, LOCALS, REGISTERS};

/// A register's place in the lists of a content.
fn at(register: Register) -> usize {
    MAP.number(register).map_or(0, usize::from)
}

/// What the reference shows, in the library's form.
pub fn content_of(shown: &reference::Content) -> Content {
    let mut content = Content {
        n: shown.n.into(),
        ..Content::NOTHING
    };
    content.locked[at(Register::PingRegwen)] = shown.timer_locked.into();
    for (k, class) in shown.classes.iter().enumerate() {
        content.classes[k] = ShownClass {
            state: class.state.into(),
            count: class.count,
            accum: class.accumulator.into(),
        };
        content.locked[at(Register::Class(k, Setting::Regwen))] = class.locked.into();
        content.locked[at(Register::Class(k, Setting::ClrRegwen))] = class.clr_locked.into();
    }
    for (j, local) in shown.locals.iter().enumerate() {
        content.causes[at(Register::Local(Field::Cause, j))] = local.cause.into();
        content.locked[at(Register::Local(Field::Regwen, j))] = local.locked.into();
    }
    for (i, alert) in shown.alerts.iter().enumerate() {
        content.causes[at(Register::Alert(Field::Cause, i))] = alert.cause.into();
        content.locked[at(Register::Alert(Field::Regwen, i))] = alert.locked.into();
    }
    for stage in &shown.stages {
        content.stages[usize::from(stage.register)] = u64::from(stage.value) + 1;
    }
    content
}

/// Puts a stage where the state keeps it.
fn stage(stages: &mut Stages, register: Register, code: u64) {
    let [byte, word] = [code as u8 as u32, code as u32];
    match register {
        Register::PingTimeout => stages.timeout = code,
        Register::Alert(Field::En, i) => stages.alerts.en[i] = byte as u8,
        Register::Alert(_, i) => stages.alerts.class[i] = byte as u8,
        Register::Local(Field::En, j) => stages.locals.en[j] = word,
        Register::Local(_, j) => stages.locals.class[j] = word,
        Register::Class(k, Setting::Ctrl) => stages.classes[k].ctrl = word,
        Register::Class(k, Setting::AccumThresh) => stages.classes[k].thresh = word,
        Register::Class(k, Setting::TimeoutCyc) => stages.classes[k].timeout = code,
        Register::Class(k, setting) => {
            let phase = Setting::PHASES.iter().position(|it| *it == setting);
            stages.classes[k].lengths[phase.unwrap_or(0)] = code;
        }
        _ => {}
    }
}

/// A state that holds what is shown, all else as in a new handler.
pub fn state_of(content: &Content) -> Handler {
    let mut state = Handler::new(1).0;
    (state.n, state.links) = (content.n, Links::NEW);
    let open = |register| u8::from(!content.is_locked(register));
    let cause = |register| u8::from(content.is_caused(register));
    state.timer.regwen = open(Register::PingRegwen).into();
    for k in 0..CLASSES {
        let (class, shown) = (&mut state.classes[k], &content.classes[k]);
        (class.state, class.count) = (shown.state, shown.count);
        class.accum = shown.accum as u16;
        class.regwen = open(Register::Class(k, Setting::Regwen));
        class.clrwen = open(Register::Class(k, Setting::ClrRegwen));
    }
    for j in 0..LOCALS {
        state.locals.regwen[j] = open(Register::Local(Field::Regwen, j));
        state.locals.cause[j] = cause(Register::Local(Field::Cause, j));
    }
    for i in 0..content.n.min(handler::ALERTS) {
        state.alerts.regwen[i] = open(Register::Alert(Field::Regwen, i));
        state.alerts.cause[i] = cause(Register::Alert(Field::Cause, i));
    }
    for (register, value) in content.staged() {
        stage(&mut state.stages, register, u64::from(value) + 1);
    }
    state
}

/// The first part of a content that differs.
pub fn content_odd(wanted: &Content, got: &Content) -> Option<Odd> {
    if wanted == got {
        return None;
    }
    let odd = |field: String, wanted: u64, got: u64| Some(Odd::new("read", field, wanted, got));
    if wanted.n != got.n {
        return odd("N".to_string(), wanted.n as u64, got.n as u64);
    }
    for k in 0..CLASSES {
        let (a, b) = (wanted.classes[k], got.classes[k]);
        if a != b {
            let field = format!("class {k}");
            return Some(Odd::new("read", field, format!("{a:?}"), format!("{b:?}")));
        }
    }
    let of = |content: &Content, number: usize| {
        let (cause, lock) = (content.causes[number], content.locked[number]);
        [content.stages[number], cause.into(), lock.into()]
    };
    for number in 0..REGISTERS {
        let names = ["stage", "cause", "lock"];
        for (name, (a, b)) in names
            .iter()
            .zip(of(wanted, number).iter().zip(of(got, number)))
        {
            if *a != b {
                return odd(format!("{name} {number}"), *a, b);
            }
        }
    }
    None
}
