//! The time of a boot: a new handler, and the policy of PROD installed.

use super::timed::Timed;
use super::ROUNDS;
use crate::calls::handler_of;
use handler::{Handler, Installed, Lifecycle};
use std::time::{Duration, Instant};

/// The boots that are timed in a round.
pub const BOOTS: usize = 100;

/// The line above the times.
pub const BOOT_TITLE: &str = "us a boot, best of 7      N   proved  reference  proved/reference";

/// Times so many boots of n alerts, both sides in turn.
pub fn time_boot(n: usize, boots: usize) -> Timed {
    // A thousand nanoseconds are shown as one.
    let mut timed = Timed::new("a boot for PROD", n, 1000 * boots);
    for _ in 0..ROUNDS {
        let (state, proved) = proved_round(n, boots);
        let (twin, reference) = reference_round(n, boots);
        let same = state.is_whole()
            && (state.answer.0, state.register) == (twin.answer, twin.register)
            && state.handler == handler_of(&twin.handler);
        timed.round(proved, reference, same);
    }
    timed
}

/// One of so many calls, and the time of all. Which one is known only after the last, so that the compiler leaves none out.
fn one_of<T>(boots: usize, mut call: impl FnMut() -> T) -> (T, Duration) {
    let mut given = Vec::with_capacity(boots);
    let begin = Instant::now();
    for _ in 0..boots {
        given.push(call());
    }
    let time = begin.elapsed();
    let at = time.subsec_nanos() as usize % boots;
    (given.swap_remove(at), time)
}

fn proved_round(n: usize, boots: usize) -> (Installed, Duration) {
    one_of(boots, || Handler::new(n).0.install(Lifecycle::Prod))
}

fn reference_round(n: usize, boots: usize) -> (reference::Installed, Duration) {
    let number = Lifecycle::Prod.number();
    one_of(boots, || {
        reference::install(reference::Handler::new(n as u64).0, number)
    })
}
