//! The same state, access and sample on both sides. Each struct is written out
//! whole, so that no field can be forgotten.

use super::receivers::{handler_receivers, reference_receivers, with_spare_bits};
use super::senders::{handler_senders, reference_pairs, reference_senders};
use super::timer::{handler_right, handler_timer, handler_turn, reference_timer, with_spare_lines};
use handler::{
    Access, AlertStages, Alerts, Class, ClassStages, Edition, Handler, Interrupts, Links,
    LocalStages, Locals, Sample, Stages, Wires,
};
use reference::stages::SourceStages;
use reference::Source;
use std::array::from_fn;

/// What the library keeps in more bits than the reference: a number that has
/// no room there is over its register's bits on both sides.
fn narrow(kept: u32) -> u8 {
    u8::try_from(kept).unwrap_or(u8::MAX)
}

/// The reference's state with the same registers.
pub fn reference_of(state: &Handler) -> reference::Handler {
    let (locals, alerts) = (&state.locals, &state.alerts);
    reference::Handler {
        n: state.n as u64,
        intr_state: narrow(state.interrupts.state.into()),
        intr_enable: narrow(state.interrupts.enable.into()),
        locals: from_fn(|j| Source {
            regwen: locals.regwen[j],
            en: locals.en[j],
            class: locals.class[j],
            cause: locals.cause[j],
        }),
        alerts: from_fn(|i| Source {
            regwen: alerts.regwen[i],
            en: alerts.en[i],
            class: alerts.class[i],
            cause: alerts.cause[i],
        }),
        receivers: reference_receivers(&state.links.receivers),
        classes: from_fn(|k| reference_class(&state.classes[k])),
        stages: reference_stages(&state.stages),
        timer: reference_timer(&state.timer, &state.links, &state.stages),
        senders: reference_senders(&state.links.senders),
    }
}

fn reference_class(class: &Class) -> reference::Class {
    reference::Class {
        regwen: class.regwen,
        ctrl: class.ctrl,
        clr_regwen: class.clrwen,
        accum_cnt: class.accum,
        accum_thresh: class.thresh,
        timeout_cyc: class.timeout,
        phase_cyc: class.lengths,
        esc_cnt: class.count,
        state: narrow(class.state),
    }
}

fn reference_stages(stages: &Stages) -> reference::Stages {
    let Stages {
        classes,
        alerts,
        locals,
        // The reference's timer holds its own.
        timeout: _,
    } = stages;
    reference::Stages {
        classes: from_fn(|k| reference::stages::ClassStages {
            lengths: classes[k].lengths,
            timeout: classes[k].timeout,
            ctrl: classes[k].ctrl,
            thresh: classes[k].thresh,
        }),
        alerts: SourceStages {
            en: alerts.en,
            class: alerts.class,
        },
        locals: SourceStages {
            en: locals.en.map(narrow),
            class: locals.class.map(narrow),
        },
    }
}

/// The state with the bits of another one that are no alert's and no line's:
/// the reference has no such bits, and no call changes them.
pub fn with_spare(mut state: Handler, other: &Handler) -> Handler {
    let receivers = &mut state.links.receivers;
    *receivers = with_spare_bits(*receivers, &other.links.receivers);
    state.links.lines = with_spare_lines(state.links.lines, other.links.lines);
    state
}

/// The library's state with the same registers; bits that are no alert's are
/// as in a new one.
pub fn handler_of(state: &reference::Handler) -> Handler {
    let (locals, alerts) = (&state.locals, &state.alerts);
    Handler {
        n: state.n as usize,
        links: Links {
            receivers: handler_receivers(&state.receivers),
            turn: handler_turn(&state.timer),
            lines: state.timer.lines.into(),
            senders: handler_senders(&state.senders),
            right: handler_right(&state.timer),
        },
        classes: from_fn(|k| handler_class(&state.classes[k])),
        alerts: Alerts {
            regwen: from_fn(|i| alerts[i].regwen),
            en: from_fn(|i| alerts[i].en),
            class: from_fn(|i| alerts[i].class),
            cause: from_fn(|i| alerts[i].cause),
        },
        locals: Locals {
            regwen: from_fn(|j| locals[j].regwen),
            en: from_fn(|j| locals[j].en),
            class: from_fn(|j| locals[j].class),
            cause: from_fn(|j| locals[j].cause),
        },
        interrupts: Interrupts {
            state: state.intr_state.into(),
            enable: state.intr_enable.into(),
        },
        timer: handler_timer(&state.timer),
        stages: handler_stages(&state.stages, state.timer.stage),
    }
}

fn handler_stages(stages: &reference::Stages, timeout: u32) -> Stages {
    let reference::Stages {
        classes,
        alerts,
        locals,
    } = stages;
    Stages {
        classes: from_fn(|k| ClassStages {
            lengths: classes[k].lengths,
            timeout: classes[k].timeout,
            ctrl: classes[k].ctrl,
            thresh: classes[k].thresh,
        }),
        alerts: AlertStages {
            en: alerts.en,
            class: alerts.class,
        },
        locals: LocalStages {
            en: locals.en.map(u32::from),
            class: locals.class.map(u32::from),
        },
        timeout: timeout.into(),
    }
}

fn handler_class(class: &reference::Class) -> Class {
    Class {
        lengths: class.phase_cyc,
        timeout: class.timeout_cyc,
        count: class.esc_cnt,
        ctrl: class.ctrl,
        accum: class.accum_cnt,
        thresh: class.accum_thresh,
        regwen: class.regwen,
        clrwen: class.clr_regwen,
        state: class.state.into(),
    }
}

/// The reference's edition.
pub fn reference_edition(edition: Edition) -> reference::Edition {
    match edition {
        Edition::Alerts64 => reference::Edition::First,
        Edition::Alerts248 => reference::Edition::Second,
        Edition::Pings => reference::Edition::Third,
        Edition::Wires => reference::Edition::Fourth,
    }
}

/// The reference's sample: its receive pairs are checked.
pub fn reference_sample(sample: &Sample) -> reference::Sample {
    let Sample {
        alerts: Wires { pos, neg },
        word,
        receive,
    } = *sample;
    reference::Sample {
        pos,
        neg,
        word,
        receive: Some(reference_pairs(receive)),
        answers: 0,
    }
}

/// The reference's access.
pub fn reference_access(access: Access) -> reference::Access {
    match access {
        Access::Nothing => reference::Access::None,
        Access::Read(register) => reference::Access::Read { register },
        Access::Write(register, value) => reference::Access::Write { register, value },
        Access::Malformed => reference::Access::Malformed,
    }
}
