//! The time of a dump, written and read: a usual one, and the longest.

use super::timed::Timed;
use super::ROUNDS;
use crate::calls::reference_of;
use crate::dump::{content_of, shadowed};
use handler::{read_dump, Access, Handler, Lifecycle, Sample, ALERTS, DUMP_MOST};
use std::time::{Duration, Instant};

/// The dumps that are timed in a round.
pub const DUMPS: usize = 100;

/// The line above the times.
pub const DUMP_TITLE: &str = "us a dump, best of 7      N   proved  reference  proved/reference";

/// A booted handler of 58 alerts, and one of 248 in which every shadowed
/// register was written once.
pub fn dumped_states() -> [Handler; 2] {
    let (new, _) = Handler::new(handler::boot::BOOT_ALERTS);
    let write = |h: Handler, number| h.tick(Access::Write(number, 1), Sample::AT_REST).handler;
    let most = Handler::new(ALERTS).0;
    let all = shadowed(ALERTS).into_iter();
    [new.install(Lifecycle::Prod).handler, all.fold(most, write)]
}

/// The time of so many calls, and whether all gave this number: the compiler
/// leaves none out.
fn timed(times: usize, number: i64, mut call: impl FnMut() -> i64) -> (Duration, bool) {
    let (mut sum, begin) = (0, Instant::now());
    for _ in 0..times {
        sum += call();
    }
    (begin.elapsed(), sum == number * times as i64)
}

/// Times so many dumps of a state, written and read, both sides in turn.
pub fn time_dump(state: Handler, times: usize) -> [Timed; 2] {
    let (twin, mut out, mut other) = (reference_of(&state), [0; DUMP_MOST], [0; DUMP_MOST]);
    let length = state.dump(&mut out).0;
    let same = reference::dump(&twin, &mut other) == length && out == other;
    let dump = &out[..length.max(0) as usize];
    let shown = read_dump(dump).0 == content_of(&reference::read_dump(dump).0);
    // A thousand nanoseconds are shown as one.
    let new = |name| Timed::new(name, state.n, 1000 * times);
    let (mut written, mut read) = (new("a dump written"), new("a dump read"));
    let n = state.n as i64;
    for _ in 0..ROUNDS {
        let mut to = [0; DUMP_MOST];
        let proved = timed(times, length, || state.dump(&mut to).0);
        let reference = timed(times, length, || reference::dump(&twin, &mut to));
        written.round(proved.0, reference.0, same && proved.1 && reference.1);
        let proved = timed(times, n, || read_dump(dump).0.n as i64);
        let reference = timed(times, n, || i64::from(reference::read_dump(dump).0.n));
        read.round(proved.0, reference.0, shown && proved.1 && reference.1);
    }
    [written, read]
}
