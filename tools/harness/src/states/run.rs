//! The run over states, one seed each.

use super::both::{batches, tick};
use super::pool::{Pool, BLOCK};
use super::subject::Subject;
use super::summary::Summary;
use crate::calls::{reference_of, Found};
use crate::rng::Rng;
use crate::spoil::{spoil, Place, WAYS};

/// The states in the default set.
pub const DEFAULT_STATES: u64 = 200_000;

/// Tries states from a seed on until one differs or the number is reached.
pub fn try_all(subject: &Subject, seed: u64, states: u64, summary: &mut Summary) -> Option<Found> {
    let places = Place::all();
    let mut pool = Pool::new(seed / BLOCK);
    for place in 0..states {
        let seed = seed.wrapping_add(place);
        if seed / BLOCK != pool.block {
            pool = Pool::new(seed / BLOCK);
        }
        let mut rng = Rng::new(seed ^ (0xA5 << 56));
        let mut state = pool.states[(seed % BLOCK) as usize];
        let (way, name) = rng.pick(&WAYS);
        spoil(way, &places, &mut rng, &mut state);
        let valid = reference_of(&state).valid();
        summary.states += 1;
        summary.ways[way as usize][usize::from(valid)] += 1;
        let odd = tick(subject, &state, &mut rng, summary)
            .or_else(|| batches(subject, &state, &mut rng, summary));
        if let Some(odd) = odd {
            return Some(Found {
                seed,
                way: name,
                odd,
            });
        }
    }
    None
}
