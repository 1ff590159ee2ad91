//! States that no call gives, and some that are only unlikely.

mod fit;
mod pings;
mod place;
mod receiver;
mod sender;
mod slot;
mod way;

pub use fit::{fit, fit_thresholds};
pub use pings::fit_turn;
pub use place::Place;
pub use receiver::Bit;
pub use sender::Sent;
pub use way::{Way, WAYS};

use crate::rng::Rng;
use fit::fit_stages;
use handler::{Handler, ALERTS, CLASSES};
use pings::open_pings;

/// Changes a state in this way.
pub fn spoil(way: Way, places: &[Place], rng: &mut Rng, state: &mut Handler) {
    // Half of the damage goes to states that no trace comes to.
    let kept = matches!(way, Way::Kept | Way::Staged | Way::Threshold | Way::Turn);
    if way == Way::Fitted || (!kept && rng.once_in(2)) {
        fit(places, rng, state);
    }
    let class = &mut state.classes[rng.index(CLASSES)];
    match way {
        Way::Kept | Way::Fitted => {}
        Way::Staged => fit_stages(places, rng, state),
        Way::Threshold => fit_thresholds(rng, state),
        Way::Turn => fit_turn(rng, state),
        Way::Pings => open_pings(rng, state),
        Way::Random => random(places, rng, state),
        Way::Flip => flip(places, rng, state),
        Way::Flips => (0..2 + rng.below(4)).for_each(|_| flip(places, rng, state)),
        Way::Over => over(places, rng, state),
        Way::State => {
            let any = rng.bits() as u32 & 255;
            class.state = rng.pick(&[2, 2, 8, 8, 9, 10, 12, 128, 255, any, any & 7]);
        }
        Way::Count if class.count == 0 => {
            let any = rng.bits() as u32 | 1;
            class.count = rng.pick(&[1, 1, 1 << 16, 1 << 31, u32::MAX, any]);
        }
        Way::Count => class.count = 0,
        Way::Alerts => state.n = alerts(rng),
        Way::Above => above(places, rng, state),
    }
}

/// Random bytes everywhere; else N alone would nearly always be too large.
fn random(places: &[Place], rng: &mut Rng, state: &mut Handler) {
    for place in places {
        place.set(state, rng.bits());
    }
    if rng.once_in(2) {
        state.n = rng.index(ALERTS + 1);
    }
}

/// Flips one bit of one field; all bits that are kept are as likely.
fn flip(places: &[Place], rng: &mut Rng, state: &mut Handler) {
    let kept = places.iter().map(|place| u64::from(place.kept()));
    let mut left = rng.below(kept.sum());
    for place in places {
        let bits = u64::from(place.kept());
        if left < bits {
            let value = place.get(state);
            return place.set(state, value ^ (1 << left));
        }
        left -= bits;
    }
}

/// Puts a register or a stage over its field, where its kept bits can hold that.
fn over(places: &[Place], rng: &mut Rng, state: &mut Handler) {
    let (place, first) = loop {
        let place = rng.pick(places);
        let whole = u64::MAX >> (64 - place.kept());
        if let Some(most) = place.most().filter(|most| *most < whole) {
            break (place, most + 1);
        }
    };
    let any = first | rng.bits();
    let top = 1 << (place.kept() - 1);
    let value = rng.pick(&[first, first, first, place.get(state) | first, top, any]);
    place.set(state, value);
}

/// Another number of alerts.
fn alerts(rng: &mut Rng) -> usize {
    let any = rng.bits() as usize;
    let small = any % (ALERTS + 1);
    let low = [0, 1, 64, 65, 247, 248, 249, 250, 255, 256, small, small];
    let high = [1 << 16, (1 << 32) | 1, 1 << 63, usize::MAX, any];
    if rng.once_in(3) {
        rng.pick(&high)
    } else {
        rng.pick(&low)
    }
}

/// Random bytes in the entries at N and above, with N below the most.
fn above(places: &[Place], rng: &mut Rng, state: &mut Handler) {
    state.n = state.n.min(rng.index(ALERTS));
    let n = state.n;
    for place in places {
        if place.is_above(n) {
            place.set(state, rng.bits());
        }
    }
    for bit in Bit::ALL {
        let words = bit.words(&mut state.links.receivers);
        for (w, word) in words.iter_mut().enumerate() {
            let used = n.saturating_sub(64 * w) as u32;
            *word ^= rng.bits() & u64::MAX.checked_shr(used).unwrap_or(0);
        }
    }
}
