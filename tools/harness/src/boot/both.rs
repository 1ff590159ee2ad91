//! One boot on both sides, and the first thing that differs.

use super::subject::{reference_install, Install};
use super::summary::Summary;
use crate::calls::Odd;
use handler::Handler;

const CALL: &str = "boot";

/// Boots the state on both sides.
pub fn boot(
    install: Install,
    state: &Handler,
    lifecycle: u8,
    summary: &mut Summary,
) -> Option<Odd> {
    let wanted = reference_install(*state, lifecycle);
    let got = install(*state, lifecycle);
    summary.boot(state, lifecycle, &wanted);
    let pairs = [
        ("answer", wanted.answer.0, got.answer.0),
        ("register", wanted.register.into(), got.register.into()),
    ];
    Odd::first(CALL, &pairs).or_else(|| Odd::state(CALL, &wanted.handler, &got.handler))
}
