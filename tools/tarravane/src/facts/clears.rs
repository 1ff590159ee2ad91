//! Clears: writes of 1 to a class's CLR.
use super::tick::Tick;
use handler::registers::{Register, Setting};
use handler::{Access, Refusal};

#[derive(Clone, Copy, Debug, PartialEq, Eq)]
pub enum Clear {
    Accepted,
    /// CLR is locked.
    Refused,
}

/// The clear of class k that this tick asks for, if it asks for one. A malformed record asks for nothing.
pub fn clear(t: &Tick, k: usize) -> Option<Clear> {
    let is_clr = t.register() == Some(Register::Class(k, Setting::Clr));
    if !is_clr || !matches!(t.input.access, Access::Write(_, 1)) {
        return None;
    }
    match t.word.refusal() {
        None => Some(Clear::Accepted),
        Some(Refusal::LOCKED) => Some(Clear::Refused),
        _ => None,
    }
}
