//! Traces by edition, kind and seed. The same three give the same bytes.

mod damage;
mod edges;
mod ends;
mod entropy;
mod escalations;
mod handshake;
mod kind;
mod lines;
mod long;
mod pings;
mod play;
mod profile;
mod refused;
mod scene;
mod set_up;
mod stages;
mod steps;
mod sweep;
mod threshold;
mod together;
mod wires;

pub use kind::{Kind, KINDS};

use crate::rng::Rng;
use handler::registers::Map;
use handler::Edition;

/// The numbers of alerts that most traces use: both sides of each byte and
/// word of wires, and the most.
fn counts(edition: Edition) -> &'static [u8] {
    match edition {
        Edition::Alerts64 => &[1, 2, 7, 8, 9, 63, 64],
        Edition::Alerts248 | Edition::Pings | Edition::Wires => {
            &[1, 9, 64, 65, 127, 128, 191, 192, 247, 248]
        }
    }
}

/// Values on both sides of every width.
pub const WRITTEN: [u32; 14] = [
    0,
    1,
    1,
    1,
    2,
    3,
    4,
    15,
    16,
    0x3FFF,
    0x4000,
    0xFFFF,
    0x1_0000,
    u32::MAX,
];

/// A number a little past the last register: the numbers from it on are all
/// alike.
pub const fn far(map: Map) -> u16 {
    map.end() + 16
}

/// The bytes of a trace.
pub fn trace(edition: Edition, kind: Kind, seed: u64) -> Vec<u8> {
    // Edition and kind go in too, so that equal seeds of two kinds differ.
    let mut rng = Rng::new(seed ^ ((kind as u64 + 1) << 56) ^ ((edition as u64) << 48));
    match kind {
        Kind::Sweep => sweep::sweep(edition, rng),
        Kind::Ends => ends::ends(edition, rng),
        Kind::Edges => edges::edges(edition, rng),
        Kind::Handshake => handshake::handshakes(edition, rng),
        Kind::Pings => pings::pings(edition, rng),
        Kind::Lines => escalations::escalations(edition, rng),
        Kind::Full => long::long(edition, rng, seed),
        Kind::Noise => damage::noise(edition, rng),
        Kind::Damaged => {
            let inner = Kind::of(edition, rng.below(9));
            let whole = trace(edition, inner, rng.bits());
            damage::damaged(rng, whole)
        }
        _ => play::play(edition, rng, kind),
    }
}
