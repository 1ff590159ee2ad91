//! Events of alerts, answers to pings and local alerts that occur: the library's own account of what the tick heard.
use super::tick::Tick;
use crate::alert_bits::{self, AlertBits};
use handler::{Handler, LOCALS};

/// Where an event of a class comes from.
#[derive(Clone, Copy, Debug, PartialEq, Eq)]
pub enum Source {
    Alert(usize),
    Local(usize),
}

pub fn is_enabled(h: &Handler, alert: usize) -> bool {
    h.alerts.en[alert] == 1
}

/// The bits of the alerts that have an event, enabled or not.
pub fn bits(t: &Tick) -> AlertBits {
    t.heard.events
}

/// The alerts that have an event, enabled or not.
pub fn alerts(t: &Tick) -> impl Iterator<Item = usize> {
    alert_bits::alerts(bits(t))
}

/// The bits of the alerts whose open ping is answered, by a rise that is no event.
pub fn answers(t: &Tick) -> AlertBits {
    t.heard.answers
}

/// The local alerts that occur.
pub fn locals(t: &Tick) -> impl Iterator<Item = usize> {
    let occurs = t.heard.locals;
    (0..LOCALS).filter(move |j| occurs >> j & 1 == 1)
}

/// The events that are assigned to class k: of enabled alerts, then of local alerts. EN and CLASS are those after the access,
/// which the rest of the tick leaves.
pub fn of_class(t: &Tick, k: usize) -> Vec<Source> {
    let h = &t.after;
    let mut all: Vec<Source> = alerts(t)
        .filter(|&i| is_enabled(h, i) && usize::from(h.alerts.class[i]) == k)
        .map(Source::Alert)
        .collect();
    let locals = locals(t).filter(|&j| usize::from(h.locals.class[j]) == k);
    all.extend(locals.map(Source::Local));
    all
}
