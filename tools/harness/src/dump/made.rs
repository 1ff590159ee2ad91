//! The states that are dumped.

use crate::rng::Rng;
use crate::spoil::{fit, spoil, Place, Way as Spoiled};
use handler::registers::{Register, MAP};
use handler::{Handler, Links, ALERTS};

/// The ways in which a state is made, by their names.
pub const WAYS: [&str; 7] = [
    "new",
    "fitted",
    "few stages",
    "one stage",
    "full",
    "above",
    "refused",
];

/// Those by number.
pub const NEW: usize = 0;
pub const FITTED: usize = 1;
pub const FEW: usize = 2;
pub const ONE: usize = 3;
pub const FULL: usize = 4;
pub const ABOVE: usize = 5;
pub const REFUSED: usize = 6;

/// The ways of states that 7 may meet.
const SPOILED: [Spoiled; 8] = [
    Spoiled::Flip,
    Spoiled::Flips,
    Spoiled::Over,
    Spoiled::Over,
    Spoiled::State,
    Spoiled::Count,
    Spoiled::Alerts,
    Spoiled::Random,
];

/// A state and the way in which it was made.
pub struct Made {
    /// The way's number.
    pub way: usize,
    /// The state.
    pub state: Handler,
}

/// The numbers of the shadowed registers of n alerts, rising.
pub fn shadowed(n: usize) -> Vec<u16> {
    let is = |number: &u16| match MAP.register(*number) {
        Some(Register::Alert(_, i)) if i >= n => false,
        Some(register) => register.is_shadowed(),
        None => false,
    };
    (0..MAP.end()).filter(is).collect()
}

/// Every place of a stage, in the order of the numbers.
fn stages(n: usize) -> Vec<Place> {
    let place = |number| match MAP.register(number) {
        Some(Register::Alert(field, i)) => Place::AlertStage(field, i),
        Some(Register::Local(field, j)) => Place::LocalStage(field, j),
        Some(Register::Class(k, setting)) => Place::ClassStage(k, setting),
        _ => Place::PingStage,
    };
    shadowed(n).into_iter().map(place).collect()
}

/// Opens a stage, with its least or largest value or any.
fn open(place: Place, rng: &mut Rng, state: &mut Handler) {
    let most = place.most().unwrap_or(1);
    let any = 1 + rng.below(most);
    place.set(state, rng.pick(&[1, most, any, any]));
}

/// Random registers and N alerts, without stages. Receivers and turns are no
/// part of a dump: those of a new handler keep the rule for every N.
fn fitted(places: &[Place], rng: &mut Rng, n: usize) -> Handler {
    let mut state = Handler::new(1).0;
    fit(places, rng, &mut state);
    (state.n, state.links) = (n, Links::NEW);
    for place in stages(ALERTS) {
        place.set(&mut state, 0);
    }
    state
}

/// The way of a state with this seed: of three one has one stage, at the
/// registers in turn, one an N in turn, and one may be refused.
fn way(seed: u64, rng: &mut Rng) -> usize {
    match seed % 3 {
        0 => ONE,
        1 => rng.pick(&[NEW, FITTED, FITTED, FEW, FEW, FEW, FEW, FULL, ABOVE]),
        _ => rng.pick(&[REFUSED, REFUSED, FEW, FULL, ABOVE]),
    }
}

/// The state of a seed.
pub fn made(seed: u64, places: &[Place], rng: &mut Rng) -> Made {
    let way = way(seed, rng);
    let n = match way {
        ONE => ALERTS,
        FULL if rng.once_in(4) => ALERTS,
        _ => (seed / 3 % (ALERTS as u64 + 1)) as usize,
    };
    let mut state = match way {
        NEW => Handler {
            n,
            ..Handler::new(1).0
        },
        _ => fitted(places, rng, n),
    };
    match way {
        ONE => {
            let all = stages(ALERTS);
            open(all[(seed / 3) as usize % all.len()], rng, &mut state);
        }
        FEW | ABOVE => {
            let all = stages(n);
            for _ in 0..rng.below(9) {
                open(rng.pick(&all), rng, &mut state);
            }
        }
        FULL | REFUSED => stages(n)
            .into_iter()
            .for_each(|it| open(it, rng, &mut state)),
        _ => {}
    }
    match way {
        ABOVE => above(n, rng, &mut state),
        REFUSED => {
            let spoiled = rng.pick(&SPOILED);
            spoil(spoiled, places, rng, &mut state);
        }
        _ => {}
    }
    Made { way, state }
}

/// Random bytes at every alert from n up.
fn above(n: usize, rng: &mut Rng, state: &mut Handler) {
    for place in Place::all().into_iter().filter(|place| place.is_above(n)) {
        place.set(state, rng.bits());
    }
}
