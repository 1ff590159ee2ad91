//! The lines' senders on both sides: bits of one number for each field in the
//! library, one by one in the reference.

use handler::{LinePairs, Links, Senders, LINES};
use reference::{Answering, Sender, Stand};
use std::array::from_fn;

/// Line e's bit of a number.
fn bit(bits: u32, e: usize) -> bool {
    bits >> e & 1 == 1
}

/// The number in which line e's bit says whether it has this.
fn bits(has: impl Fn(usize) -> bool) -> u32 {
    (0..LINES).map(|e| u32::from(has(e)) << e).sum()
}

/// The reference's senders. It counts the answers to a ping to the end; the
/// library rests after the second, with the level of the third: a sender at
/// rest with that level is the reference's at the third.
pub fn reference_senders(senders: &Senders) -> [Sender; LINES] {
    from_fn(|e| {
        let level = bit(senders.answer, e);
        let stand = match (bit(senders.last, e), bit(senders.deep, e)) {
            (true, false) => Stand::First,
            (true, true) => Stand::Escalation,
            (false, true) => Stand::Second,
            (false, false) if level => Stand::Third,
            (false, false) => Stand::Rest,
        };
        Sender {
            on: bit(senders.on, e),
            first: bit(senders.first, e),
            receiver: Answering { stand, level },
        }
    })
}

/// The library's senders.
pub fn handler_senders(senders: &[Sender; LINES]) -> Senders {
    let stand = |e: usize| senders[e].receiver.stand;
    Senders {
        on: bits(|e| senders[e].on),
        first: bits(|e| senders[e].first),
        last: bits(|e| matches!(stand(e), Stand::First | Stand::Escalation)),
        deep: bits(|e| matches!(stand(e), Stand::Second | Stand::Escalation)),
        answer: bits(|e| senders[e].receiver.level),
    }
}

/// Receive and escalation pairs.
pub fn reference_pairs(pairs: LinePairs) -> reference::LinePairs {
    // Bits from 4 up count for nothing on either side.
    reference::LinePairs {
        pos: pairs.pos as u8,
        neg: pairs.neg as u8,
    }
}

/// The senders of a state that more ticks than one go on from, as ticks can
/// make them: a line on holds its pair, its first tick is the first of its
/// pair, and a pulse is answered only while its ping is open. Else a second
/// pulse may come three ticks after another, and then the library's answers, as
/// those of document 004's receiver, rest one tick before the reference's; the
/// timer keeps pings of a line eight ticks apart or more, so no tick leads there.
pub fn settle(links: &mut Links) {
    let Senders {
        mut on,
        mut first,
        mut last,
        mut deep,
        mut answer,
    } = links.senders;
    let pinged = links.lines & 15;
    last |= on;
    first &= on;
    deep |= on & !first;
    let started = last & !deep & !pinged;
    on |= started;
    first |= started;
    let pulse = last & !deep & pinged & !first;
    answer |= pulse;
    deep &= last | pinged;
    answer &= last | pinged;
    answer &= last | !deep;
    links.senders = Senders {
        on,
        first,
        last,
        deep,
        answer,
    };
}

#[cfg(test)]
mod tests {
    use super::*;
    use crate::rng::Rng;

    #[test]
    fn every_sender_stands_at_its_own_bits() {
        let mut rng = Rng::new(9);
        for _ in 0..500 {
            let mut any = || rng.bits() as u32 & 15;
            let senders = Senders {
                on: any(),
                first: any(),
                last: any(),
                deep: any(),
                answer: any(),
            };
            let back = handler_senders(&reference_senders(&senders));
            assert_eq!(back, senders);
        }
    }

    #[test]
    fn settled_senders_stay() {
        let mut rng = Rng::new(10);
        for _ in 0..500 {
            let mut links = Links::NEW;
            let mut any = || rng.bits() as u32 & 15;
            links.senders = Senders {
                on: any(),
                first: any(),
                last: any(),
                deep: any(),
                answer: any(),
            };
            links.lines = any();
            settle(&mut links);
            let once = links;
            settle(&mut links);
            assert_eq!(links, once);
        }
    }
}
