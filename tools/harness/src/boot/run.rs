//! The run over boots, one seed each.

use super::both::boot;
use super::start::start;
use super::subject::Install;
use super::summary::Summary;
use super::way::WAYS;
use crate::calls::Found;
use crate::rng::Rng;
use crate::spoil::Place;

/// The boots in the default set.
pub const DEFAULT_BOOTS: u64 = 5_000;

/// Each lifecycle, those that lock more often, and numbers that are none.
const LIFECYCLES: [u8; 12] = [0, 1, 1, 1, 2, 2, 3, 3, 4, 5, 6, 255];

/// Tries boots from a seed on until one differs or the number is reached.
pub fn try_boots(install: Install, seed: u64, boots: u64, summary: &mut Summary) -> Option<Found> {
    let places = Place::all();
    for place in 0..boots {
        let seed = seed.wrapping_add(place);
        let mut rng = Rng::new(seed ^ (0xB7 << 56));
        let (way, name) = rng.pick(&WAYS);
        let state = start(way, &places, &mut rng);
        let any = rng.bits() as u8;
        let lifecycle = if rng.once_in(16) {
            any
        } else {
            rng.pick(&LIFECYCLES)
        };
        summary.ways[way as usize] += 1;
        if let Some(odd) = boot(install, &state, lifecycle, summary) {
            return Some(Found {
                seed,
                way: name,
                odd,
            });
        }
    }
    None
}
