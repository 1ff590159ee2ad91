//! What a boot may stop at: locks and open stages, few in a state, so that it
//! gets far before it meets one.

use crate::rng::Rng;
use crate::spoil::Place;
use handler::registers::{Field, Setting};
use handler::{Handler, CLASSES, LOCALS};

/// Nothing is locked, and no stage is open.
pub fn clear(state: &mut Handler) {
    for class in &mut state.classes {
        class.regwen = 1;
    }
    state.alerts.regwen.fill(1);
    state.locals.regwen.fill(1);
    state.timer.regwen = 1;
    state.stages = handler::Stages::NONE;
}

/// A lock: mostly of an alert, at times one that a boot does not look at.
pub fn lock(rng: &mut Rng, state: &mut Handler) {
    match rng.below(8) {
        0 => state.locals.regwen[rng.index(LOCALS)] = 0,
        1 => state.classes[rng.index(CLASSES)].regwen = 0,
        // A boot writes none of the ping timer's registers.
        2 => state.timer.regwen = 0,
        3 => state.classes[0].regwen = 0,
        _ => state.alerts.regwen[rng.index(state.n)] = 0,
    }
}

/// An open stage of any shadowed register, often of a value that a boot writes.
pub fn stage(rng: &mut Rng, state: &mut Handler) {
    let field = rng.pick(&[Field::En, Field::Class]);
    let setting = rng.pick(&Setting::SHADOWED);
    let place = match rng.below(8) {
        0 => Place::LocalStage(field, rng.index(LOCALS)),
        1 => Place::ClassStage(rng.index(CLASSES), setting),
        2 if rng.once_in(2) => Place::PingStage,
        2 => Place::ClassStage(rng.index(CLASSES), setting),
        _ => Place::AlertStage(field, rng.index(state.n)),
    };
    let most = place.most().unwrap_or(0);
    let value = rng.pick(&[0, 0, 1, 2, 3, 10, 0x393C, 0x393D, 0x393F, 0xFFFF_FFFF]);
    let any = rng.below(most);
    place.set(state, 1 + if value < most { value } else { any });
}
