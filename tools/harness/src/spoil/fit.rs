//! Random states that keep the rule of refusal 7.

use super::pings::fit_turn;
use super::place::Place;
use crate::rng::Rng;
use handler::registers::Setting;
use handler::{Handler, CLASSES};

/// The values that STATE takes.
const STATES: [u64; 7] = [0, 1, 3, 4, 5, 6, 7];

/// Random values within every field, with counts that fit the states.
pub fn fit(places: &[Place], rng: &mut Rng, state: &mut Handler) {
    for place in places {
        let bits = rng.bits();
        place.set(state, place.most().map_or(bits, |most| bits & most));
    }
    fit_stages(places, rng, state);
    state.n = rng.pick(&[0, 1, 63, 64, 65, 127, 128, 191, 192, 247, 248, 248]);
    for k in 0..CLASSES {
        let value = rng.pick(&STATES);
        Place::Class(k, Setting::State).set(state, value);
        short(rng, state, k);
        let class = &state.classes[k];
        let limit = match class.state {
            1 => class.timeout,
            4..=7 => class.lengths[class.state as usize - 4],
            _ => 0,
        };
        let any = rng.bits() as u32;
        let near = [1, limit, limit.wrapping_sub(1), u32::MAX, any];
        let count = rng.pick(&near).max(1);
        let rests = matches!(class.state, 0 | 3);
        Place::Class(k, Setting::EscCnt).set(state, if rests { 0 } else { u64::from(count) });
    }
    fit_turn(rng, state);
}

/// Half of the stages open, often with a value that a write has too.
pub fn fit_stages(places: &[Place], rng: &mut Rng, state: &mut Handler) {
    for place in places.iter().filter(|place| place.is_stage()) {
        let most = place.most().unwrap_or(0);
        let any = 1 + rng.below(most);
        let code = rng.pick(&[0, 0, 0, 0, 1, 2, most, any]);
        place.set(state, code);
    }
}

/// Classes that wait for 65,535 or 65,536 events, mostly with EN, locked or
/// not. No list of ticks locks one with EN and 65535.
pub fn fit_thresholds(rng: &mut Rng, state: &mut Handler) {
    for class in &mut state.classes {
        class.thresh = rng.pick(&[65534, 65535, 65535, 65535]);
        class.ctrl = class.ctrl & !1 | rng.pick(&[0, 1, 1, 1]);
        class.regwen = rng.pick(&[0, 1, 1, 1]);
    }
}

/// Lengths and thresholds at their ends and near each other, since else
/// nothing would ever be reached.
fn short(rng: &mut Rng, state: &mut Handler, k: usize) {
    for setting in [Setting::TimeoutCyc].into_iter().chain(Setting::PHASES) {
        let any = rng.bits() & 0xFFFF_FFFF;
        let value = rng.pick(&[0, 1, 2, 3, 0xFFFF_FFFF, any]);
        Place::Class(k, setting).set(state, value);
    }
    let any = rng.bits() & 0xFFFF;
    let accum = rng.pick(&[0, 1, 65534, 65535, any]);
    let thresh = rng.pick(&[0, accum, accum, accum + 1, 65535]);
    Place::Class(k, Setting::AccumCnt).set(state, accum);
    Place::Class(k, Setting::AccumThresh).set(state, thresh.min(65535));
}
