//! Starts of escalations.
use super::clears::{self, Clear};
use super::events::{self, Source};
use super::settings::is_lock_set;
use super::tick::Tick;
use handler::Class;

/// STATE of Idle, Timeout and Phase 0.
pub const IDLE: u32 = 0;
pub const TIMEOUT: u32 = 1;
pub const PHASE_0: u32 = 4;

#[derive(Clone, Debug, PartialEq, Eq)]
pub struct Start {
    /// The events of the trigger; none where the timeout started it.
    pub by: Vec<Source>,
    /// Class REGWEN is 0.
    pub locked: bool,
    /// LOCK is set.
    pub lock: bool,
}

/// Is ACCUM_CNT at or above ACCUM_THRESH before counting?
fn is_full(before: &Class, after: &Class) -> bool {
    before.accum >= after.thresh
}

/// The events of class k's trigger, where there is one. An enabled class is presumed: no other starts.
fn trigger(t: &Tick, k: usize) -> Vec<Source> {
    let cleared = clears::clear(t, k) == Some(Clear::Accepted);
    match !cleared && is_full(&t.before.classes[k], &t.after.classes[k]) {
        true => events::of_class(t, k),
        false => Vec::new(),
    }
}

/// The start of class k's escalation in this tick: from Idle or Timeout to Phase 0.
pub fn start(t: &Tick, k: usize) -> Option<Start> {
    let (before, after) = (&t.before.classes[k], &t.after.classes[k]);
    if !matches!(before.state, IDLE | TIMEOUT) || after.state != PHASE_0 {
        return None;
    }
    Some(Start {
        by: trigger(t, k),
        locked: after.regwen == 0,
        lock: is_lock_set(after),
    })
}
