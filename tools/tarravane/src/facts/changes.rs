//! What makes a tick worth a look.
use super::tick::Tick;
use super::{events, locks, pairs, settings, stages, timer, wires};
use handler::{Handler, Word};

/// Did an interrupt, a line or a class's state change?
pub fn turns(t: &Tick) -> bool {
    let outputs = |w: Word| w.0 >> 56;
    let states = |h: &Handler| h.classes.map(|c| c.state);
    outputs(t.word) != outputs(t.last) || states(&t.before) != states(&t.after)
}

/// Did a class's ACCUM_CNT or a cause change, was the access refused or a stage dropped, did the ping timer go on or a ping
/// fail, or was a line's answer wrong?
pub fn happens(t: &Tick) -> bool {
    let counts = |h: &Handler| h.classes.map(|c| c.accum);
    counts(&t.before) != counts(&t.after)
        || t.before.alerts.cause != t.after.alerts.cause
        || t.before.locals.cause != t.after.locals.cause
        || t.word.refusal().is_some()
        || stages::change(t) == Some(stages::Change::Dropped)
        || timer::begins(t)
        || timer::failed(t).is_some()
        || !pairs::faults(t).is_empty()
}

/// Did a setting get another value, or a lock fall? A write that is staged does neither.
pub fn configures(t: &Tick) -> bool {
    settings::changed(t).is_some() || !locks::locked(t).is_empty()
}

/// One of these, an event of an alert, enabled or not, or an alert's wires that become equal or are so no longer.
pub fn changes(t: &Tick) -> bool {
    turns(t)
        || happens(t)
        || configures(t)
        || events::alerts(t).next().is_some()
        || wires::broken(t) != wires::broken_before(t)
}
