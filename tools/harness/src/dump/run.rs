//! The run over states, one seed each.

use super::beside::{back_odd, dump_odd};
use super::changed::{all, some, Seen};
use super::made::{made, Made, WAYS};
use super::subject::Subject;
use super::summary::Summary;
use super::Found;
use crate::calls::reference_of;
use crate::entries::Buffer;
use crate::rng::Rng;
use crate::spoil::Place;
use handler::{Handler, DUMP_MOST};

/// The states in the default set: more than three for each shadowed register.
pub const DEFAULT_DUMPS: u64 = 2_000;

/// One state in so many has every cut and flipped bit of its dump tried.
const THOROUGH: u64 = 125;

/// Tries states from a seed on until one differs or the number is reached.
pub fn try_dumps(
    subject: &Subject,
    seed: u64,
    states: u64,
    summary: &mut Summary,
) -> Option<Found> {
    let places = Place::all();
    for place in 0..states {
        let seed = seed.wrapping_add(place);
        let mut rng = Rng::new(seed ^ (0xD4 << 56));
        let made = made(seed, &places, &mut rng);
        let seen = write(subject, &made, &mut rng, summary)
            .or_else(|| read(subject, seed, &made.state, &mut rng, summary));
        if let Some((what, odd)) = seen {
            return Some(Found {
                seed,
                way: WAYS[made.way],
                what,
                odd,
            });
        }
    }
    None
}

/// The reference's dump of a state, where 7 does not meet it.
fn dumped(state: &Handler) -> Option<Vec<u8>> {
    let mut out = vec![0; DUMP_MOST];
    let length = reference::dump(&reference_of(state), &mut out);
    out.truncate(usize::try_from(length).ok()?);
    Some(out)
}

/// A state to buffers of lengths around its need.
fn write(subject: &Subject, made: &Made, rng: &mut Rng, summary: &mut Summary) -> Seen {
    let state = &made.state;
    let dump = dumped(state);
    summary.state(made, dump.as_deref());
    let need = dump.as_ref().map_or(DUMP_MOST, Vec::len);
    let short = [0, 1, 4, need - 1, need - 1, need - 2, rng.index(need)];
    let long = [need + 1, need + 2, need + 48, DUMP_MOST.max(need + 1)];
    for length in [need, rng.pick(&short), rng.pick(&long)] {
        let buffer = Buffer::of(length, rng);
        let (right, odd) = dump_odd(subject, state, &buffer);
        summary.written(right, length, need);
        if let Some(odd) = odd {
            return Some((format!("a buffer of {length} bytes"), odd));
        }
    }
    None
}

/// What a state's dump shows, and bytes made of it.
fn read(
    subject: &Subject,
    seed: u64,
    state: &Handler,
    rng: &mut Rng,
    summary: &mut Summary,
) -> Seen {
    let dump = dumped(state)?;
    if let Some(odd) = back_odd(subject, state, &dump) {
        return Some(("its dump".to_string(), odd));
    }
    some(subject, &dump, rng, summary).or_else(|| match seed % THOROUGH {
        0 => all(subject, &dump, rng, summary),
        _ => None,
    })
}
