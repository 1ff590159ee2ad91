//! The state before a boot.

use super::obstacle::{clear, lock, stage};
use super::way::Way;
use crate::calls::settle;
use crate::rng::Rng;
use crate::spoil::{self, fit, fit_thresholds, fit_turn, spoil, Place};
use handler::boot::BOOT_ALERTS;
use handler::Handler;

/// Enough alerts for a boot.
const ENOUGH: [usize; 9] = [58, 58, 59, 64, 65, 128, 247, 248, 248];
/// What damages a state.
const DAMAGE: [spoil::Way; 8] = [
    spoil::Way::Random,
    spoil::Way::Flip,
    spoil::Way::Flips,
    spoil::Way::Over,
    spoil::Way::State,
    spoil::Way::Count,
    spoil::Way::Alerts,
    spoil::Way::Pings,
];

/// Random values that keep the rule, with nothing locked or staged.
fn open(places: &[Place], rng: &mut Rng) -> Handler {
    let mut state = fitted(places, rng);
    clear(&mut state);
    state
}

fn fitted(places: &[Place], rng: &mut Rng) -> Handler {
    let n = rng.pick(&ENOUGH);
    let (mut state, _) = Handler::new(n);
    fit(places, rng, &mut state);
    state.n = n;
    // What is open goes by N.
    fit_turn(rng, &mut state);
    state
}

/// The ping timer on, its turns short and its timeout too: pings open and fail
/// in the ticks of the boot, whose alerts lock what can be pinged.
fn pinged(rng: &mut Rng, state: &mut Handler) {
    fit_turn(rng, state);
    state.timer.enable = 1;
    state.timer.timeout = rng.pick(&[0, 1, 2, 5, 40]);
    for i in 0..4 {
        state.alerts.en[i] = 1;
        state.alerts.regwen[i] = 1;
    }
}

fn few(places: &[Place], rng: &mut Rng) -> Handler {
    let any = rng.index(BOOT_ALERTS);
    let n = rng.pick(&[0, 1, 57, 57, any]);
    Handler {
        n,
        ..open(places, rng)
    }
}

/// A state that is made in this way.
pub fn start(way: Way, places: &[Place], rng: &mut Rng) -> Handler {
    let mut state = match way {
        Way::New | Way::Again => Handler::new(rng.pick(&ENOUGH)).0,
        Way::Fitted => fitted(places, rng),
        Way::Few => few(places, rng),
        _ => open(places, rng),
    };
    match way {
        Way::Again => state = state.install_number(rng.below(8) as u8).handler,
        Way::Locked => (0..=rng.below(2)).for_each(|_| lock(rng, &mut state)),
        Way::Staged => (0..=rng.below(3)).for_each(|_| stage(rng, &mut state)),
        Way::Threshold => fit_thresholds(rng, &mut state),
        Way::Pinged => pinged(rng, &mut state),
        Way::Above => spoil(spoil::Way::Above, places, rng, &mut state),
        Way::Damaged => spoil(rng.pick(&DAMAGE), places, rng, &mut state),
        Way::New | Way::Open | Way::Fitted | Way::Few => {}
    }
    settle(&mut state.links);
    state
}
