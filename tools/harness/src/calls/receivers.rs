//! The alerts' receivers on both sides: words of bits in the library, one by
//! one in the reference.

use handler::{Receivers, ALERTS, WORDS};
use reference::{Place, Receiver};
use std::array::from_fn;

/// Whether alert i's bit is 1.
pub fn bit(words: &[u64; WORDS], i: usize) -> bool {
    words[i / 64] >> (63 - i % 64) & 1 == 1
}

/// The words in which alert i's bit says whether it has this.
fn words(has: impl Fn(usize) -> bool) -> [u64; WORDS] {
    let each = |w: usize| (64 * w..64 * (w + 1)).map(|i| u64::from(i < ALERTS && has(i)));
    from_fn(|w| each(w).fold(0, |word, bit| word << 1 | bit))
}

/// The reference's receivers. The two bits of a place are written out here
/// apart from the library's.
pub fn reference_receivers(receivers: &Receivers) -> [Receiver; ALERTS] {
    from_fn(|i| Receiver {
        place: match (bit(&receivers.pausing, i), bit(&receivers.busy, i)) {
            (false, false) => Place::Ready,
            (false, true) => Place::Acknowledged,
            (true, true) => Place::FirstPause,
            (true, false) => Place::SecondPause,
        },
        ping: bit(&receivers.level, i),
        open: bit(&receivers.pending, i),
    })
}

/// The library's receivers; bits that are no alert's are as in a new one.
pub fn handler_receivers(receivers: &[Receiver; ALERTS]) -> Receivers {
    let stands = |i: usize, places: [Place; 2]| places.contains(&receivers[i].place);
    Receivers {
        pausing: words(|i| stands(i, [Place::FirstPause, Place::SecondPause])),
        busy: words(|i| stands(i, [Place::Acknowledged, Place::FirstPause])),
        level: words(|i| receivers[i].ping),
        pending: words(|i| receivers[i].open),
    }
}

/// The bits of a last word that are no alert's.
const SPARE: u64 = (1 << (64 * WORDS - ALERTS)) - 1;

/// The receivers with those bits of other ones: the reference has no such
/// bits, and no call changes them.
pub fn with_spare_bits(receivers: Receivers, other: &Receivers) -> Receivers {
    let spare = |mut words: [u64; WORDS], other: &[u64; WORDS]| {
        let last = WORDS - 1;
        words[last] = words[last] & !SPARE | other[last] & SPARE;
        words
    };
    Receivers {
        pausing: spare(receivers.pausing, &other.pausing),
        busy: spare(receivers.busy, &other.busy),
        level: spare(receivers.level, &other.level),
        pending: spare(receivers.pending, &other.pending),
    }
}

#[cfg(test)]
mod tests {
    use super::*;
    use crate::rng::Rng;

    #[test]
    fn every_receiver_stands_at_its_own_bits() {
        let mut rng = Rng::new(4);
        for _ in 0..200 {
            let mut any = || from_fn(|_| rng.bits());
            let receivers = Receivers {
                pausing: any(),
                busy: any(),
                level: any(),
                pending: any(),
            };
            let back = handler_receivers(&reference_receivers(&receivers));
            assert_eq!(with_spare_bits(back, &receivers), receivers);
            for words in [back.pausing, back.busy, back.level, back.pending] {
                assert_eq!(words[WORDS - 1] & SPARE, 0);
            }
        }
    }

    #[test]
    fn the_places_are_those_of_the_tools() {
        let mut rng = Rng::new(5);
        let mut receivers = Receivers::NEW;
        receivers.pausing = from_fn(|_| rng.bits());
        receivers.busy = from_fn(|_| rng.bits());
        for (i, receiver) in reference_receivers(&receivers).iter().enumerate() {
            let place = format!("{:?}", receiver.place);
            assert_eq!(format!("{:?}", receivers.place(i)), place);
        }
    }
}
