//! Classes before a calm call: counts near every end, so that a run of a few
//! ticks meets it.

use crate::rng::Rng;
use handler::{Class, Handler, CLASSES};

/// The values that STATE takes.
const STATES: [u32; 7] = [0, 1, 3, 4, 5, 6, 7];
/// EN and all line enables; line p is on in phase p.
const EACH: u16 = 0x393D;
/// The same, but line p is on in phase 3 - p.
const TURNED: u16 = 0x06FD;

/// A number of ticks: none, few, the most, or any.
fn length(rng: &mut Rng) -> u32 {
    let (few, any) = (rng.below(40) as u32, rng.bits() as u32);
    rng.pick(&[
        0,
        0,
        1,
        1,
        2,
        3,
        few,
        few,
        few,
        u32::MAX,
        u32::MAX - few,
        any,
    ])
}

/// CTRL: mostly EN and each line in a phase of its own, at times any.
fn ctrl(rng: &mut Rng) -> u16 {
    let any = rng.bits() as u16 & 0x3FFF;
    rng.pick(&[EACH, EACH, EACH | 2, any | 1, any | 1, any, any & !0x3C])
}

/// An accumulator and a threshold: met at once, soon, at 65,535 or never.
fn events(rng: &mut Rng, class: &mut Class) {
    let (few, any) = (rng.below(50) as u16, rng.bits() as u16);
    class.accum = rng.pick(&[0, 1, few, any, 65535 - few, 65534, 65535]);
    let soon = class.accum.saturating_add(few);
    let next = class.accum.saturating_add(1);
    class.thresh = rng.pick(&[0, class.accum, next, soon, soon, soon, any, 65534, 65535]);
}

/// A count for the state that the class is in, near what ends it.
pub fn count(rng: &mut Rng, class: &mut Class) {
    let limit = match class.state {
        1 => class.timeout,
        4..=7 => class.lengths[class.state as usize - 4],
        _ => 0,
    };
    let (few, any) = (rng.below(50) as u32, rng.bits() as u32);
    let before = limit.saturating_sub(few);
    let over = limit.saturating_add(few);
    let near = [
        1,
        1,
        limit,
        limit.saturating_sub(1),
        before,
        before,
        over,
        u32::MAX - few,
        u32::MAX,
        any,
    ];
    class.count = match class.state {
        0 | 3 => 0,
        _ => rng.pick(&near).max(1),
    };
}

/// A class in any state.
fn class(rng: &mut Rng, class: &mut Class) {
    class.ctrl = ctrl(rng);
    class.lengths = class.lengths.map(|_| length(rng));
    class.timeout = length(rng);
    class.state = rng.pick(&STATES);
    count(rng, class);
    events(rng, class);
}

/// All classes, and interrupts by which some are due.
pub fn near(rng: &mut Rng, state: &mut Handler) {
    state.classes.iter_mut().for_each(|it| class(rng, it));
    let [bits, enable] = [rng.bits(), rng.bits()].map(|any| any as u16 & 15);
    state.interrupts.state = rng.pick(&[bits, bits, 15, 0]);
    state.interrupts.enable = rng.pick(&[enable, 15]);
}

/// The classes alike but for their lines, so that they move in one tick; some
/// in another state, with a count that is met in the same.
pub fn together(rng: &mut Rng, state: &mut Handler) {
    near(rng, state);
    let first = state.classes[0];
    for k in 1..CLASSES {
        let own = state.classes[k];
        if rng.once_in(8) {
            continue;
        }
        state.classes[k] = Class {
            ctrl: own.ctrl | first.ctrl & 1,
            regwen: own.regwen,
            clrwen: own.clrwen,
            ..first
        };
    }
    let bits = state.interrupts.state;
    state.interrupts.state = rng.pick(&[bits, 15, 15, 0]);
}

/// Classes in Timeout that start one after another, each when the one before is
/// in Terminal, with another line in each phase: five changes for each.
pub fn twenty(rng: &mut Rng, state: &mut Handler) {
    let mut ends = 0;
    for class in &mut state.classes {
        class.ctrl = rng.pick(&[EACH, EACH | 2, TURNED]);
        class.lengths = class.lengths.map(|_| rng.below(5) as u32);
        class.state = 1;
        class.count = 1 + rng.below(3) as u32;
        // It starts in the tick in which its count is at its timeout.
        let starts = ends + 1 + rng.below(4) as u32;
        class.timeout = class.count + starts - 1;
        let phases = class.lengths.map(|cyc| cyc.max(1));
        ends = starts + phases.iter().sum::<u32>();
        (class.accum, class.thresh) = (0, 65535);
    }
    state.classes.rotate_left(rng.index(CLASSES));
    state.interrupts.state = 15;
}

/// Accumulators that meet their thresholds, or 65,535, after tens of thousands
/// of ticks.
pub fn counting(rng: &mut Rng, state: &mut Handler) {
    near(rng, state);
    for class in &mut state.classes {
        class.state = rng.pick(&[0, 0, 1, 3, 7]);
        class.timeout = rng.pick(&[0, 60_000, 65_530, 65_540, u32::MAX]);
        class.lengths = class
            .lengths
            .map(|_| rng.pick(&[0, 1, 300, 40_000, u32::MAX]));
        (class.accum, class.ctrl) = (rng.below(300) as u16, EACH);
        class.thresh = rng.pick(&[40_000, 65_000, 65_534, 65_535]);
        class.count = match class.state {
            0 | 3 => 0,
            _ => 1,
        };
    }
}
