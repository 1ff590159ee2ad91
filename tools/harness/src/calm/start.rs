//! What a calm call begins with: a state and the alerts' wires.

use super::classes::{counting, near, together, twenty};
use super::senders;
use super::way::Way;
use crate::calls::{bit, settle, wires};
use crate::rng::Rng;
use crate::spoil::{self, fit, spoil, Place};
use handler::{Class, Handler, Wires, ALERTS, CLASSES};

/// The numbers of alerts; a tick of few is faster.
const ALERTS_TRIED: [usize; 10] = [1, 1, 2, 2, 3, 3, 5, 64, 65, 248];

/// What damages a state.
const DAMAGE: [spoil::Way; 8] = [
    spoil::Way::Random,
    spoil::Way::Flip,
    spoil::Way::Flips,
    spoil::Way::Over,
    spoil::Way::State,
    spoil::Way::Count,
    spoil::Way::Alerts,
    spoil::Way::Pings,
];

/// A state, and the wires of its calm ticks.
#[derive(Clone, Copy)]
pub struct Start {
    /// The state.
    pub state: Handler,
    /// The wires.
    pub wires: Wires,
}

/// A new handler with classes that have something before them, some alerts
/// enabled.
fn set_up(rng: &mut Rng, classes: fn(&mut Rng, &mut Handler)) -> Handler {
    let (mut state, _) = Handler::new(rng.pick(&ALERTS_TRIED));
    for i in 0..state.n {
        state.alerts.en[i] = rng.pick(&[0, 1, 1]);
        state.alerts.class[i] = rng.index(CLASSES) as u8;
    }
    for j in 0..state.locals.en.len() {
        state.locals.en[j] = rng.pick(&[0, 1]);
        state.locals.class[j] = rng.index(CLASSES) as u8;
    }
    classes(rng, &mut state);
    let receivers = &mut state.links.receivers;
    for word in receivers.level.iter_mut() {
        *word = rng.bits();
    }
    any_receivers(rng, &mut state);
    senders::sound(rng, &mut state);
    state
}

/// Receivers in any place.
fn any_receivers(rng: &mut Rng, state: &mut Handler) {
    let receivers = &mut state.links.receivers;
    for words in [&mut receivers.pausing, &mut receivers.busy] {
        for word in words.iter_mut() {
            *word = rng.bits() & rng.pick(&[0, u64::MAX]);
        }
    }
}

/// An enabled alert at equal wires, and local 2 enabled in an enabled class.
fn broken(rng: &mut Rng, start: &mut Start) {
    let Start { state, wires } = start;
    let i = rng.index(state.n.clamp(1, ALERTS));
    let place = 1 << (63 - i % 64);
    state.alerts.en[i] = 1;
    match bit(&wires.pos, i) {
        true => wires.neg[i / 64] |= place,
        false => wires.neg[i / 64] &= !place,
    }
    let k = rng.index(CLASSES);
    (state.locals.en[2], state.locals.class[2]) = (1, k as u8);
    state.classes[k].ctrl |= 1 | 4 << rng.below(4);
    if rng.once_in(2) {
        waiting(rng, &mut state.classes[k]);
    }
}

/// A class that waits for a few events more.
fn waiting(rng: &mut Rng, class: &mut Class) {
    (class.state, class.count) = rng.pick(&[(0, 0), (0, 0), (1, 1)]);
    class.timeout = rng.pick(&[0, 0, 30, u32::MAX]);
    class.thresh = class.accum.saturating_add(rng.below(40) as u16);
}

/// Random values that keep the rule, the ping timer off.
fn fitted(places: &[Place], rng: &mut Rng, state: &mut Handler) {
    fit(places, rng, state);
    (state.timer.enable, state.links.lines) = (0, state.links.lines & !15);
    state.links.receivers.pending = [0; 4];
    near(rng, state);
    settle(&mut state.links);
}

/// What is refused with 7 or 15.
fn refused(places: &[Place], rng: &mut Rng, state: &mut Handler) {
    match rng.below(3) {
        0 => state.timer.enable = 1,
        1 => spoil(spoil::Way::Turn, places, rng, state),
        _ => spoil(rng.pick(&DAMAGE), places, rng, state),
    }
}

/// A state that is made in this way, from one of a trace where it takes one.
pub fn start(way: Way, kept: &Handler, places: &[Place], rng: &mut Rng) -> Start {
    let classes = match way {
        Way::Together => together,
        Way::Counting => counting,
        Way::Twenty => twenty,
        _ => near,
    };
    let mut start = Start {
        state: match way {
            Way::Kept => *kept,
            _ => set_up(rng, classes),
        },
        wires: wires(rng),
    };
    let state = &mut start.state;
    match way {
        Way::Fitted => fitted(places, rng, state),
        Way::Senders => senders::any(rng, state),
        Way::Receivers => any_receivers(rng, state),
        Way::Above => {
            state.n = rng.pick(&[0, 0, 1, 2, 63, 64]);
            spoil(spoil::Way::Above, places, rng, state);
            state.timer.enable = 0;
            settle(&mut state.links);
        }
        Way::Refused => refused(places, rng, state),
        Way::Broken | Way::Counting => broken(rng, &mut start),
        Way::Twenty => start.wires = Wires::REST,
        Way::Kept | Way::Near | Way::Together => {}
    }
    start
}
