//! The alerts' receivers: the handshake on each alert's wires, and its pings.
use crate::state::WORDS;

/// The receivers of the alerts: alert i has bit 63 - i % 64 of word i / 64 in each. Any bits are a receiver; refusal 7 looks at
/// `pending` alone.
#[repr(C)]
#[derive(Clone, Copy, Debug, PartialEq, Eq)]
pub struct Receivers {
    /// Where it stands, in two bits, `busy` the other one: see `Place`.
    pub pausing: [u64; WORDS],
    /// The other bit.
    pub busy: [u64; WORDS],
    /// The level of its ping pair: 1 for (1,0), 0 for (0,1).
    pub level: [u64; WORDS],
    /// A ping is open: sent, not answered and not failed yet. Only the turn's may be.
    pub pending: [u64; WORDS],
}

/// Where a receiver stands in the handshake before a tick's wires are read.
#[derive(Clone, Copy, Debug, PartialEq, Eq)]
pub enum Place {
    /// A rise is taken.
    Ready,
    /// A rise was taken: it is acknowledged until its drop is read.
    Acknowledged,
    /// The drop was read: the coming tick is the first of the pause.
    FirstPause,
    /// The coming tick is the second of the pause.
    SecondPause,
}

impl Receivers {
    /// Every receiver ready, its ping pair at (0,1), no ping open.
    pub const NEW: Receivers = Receivers {
        pausing: [0; WORDS],
        busy: [0; WORDS],
        level: [0; WORDS],
        pending: [0; WORDS],
    };

    /// Where the receiver of alert i stands.
    pub fn place(&self, i: usize) -> Place {
        let bit = |words: &[u64; WORDS]| words[i / 64] >> (63 - i % 64) & 1 == 1;
        match (bit(&self.pausing), bit(&self.busy)) {
            (false, false) => Place::Ready,
            (false, true) => Place::Acknowledged,
            (true, true) => Place::FirstPause,
            (true, false) => Place::SecondPause,
        }
    }
}

#[test]
fn a_place_is_two_bits() {
    let mut receivers = Receivers::NEW;
    receivers.pausing[1] = 0b0011;
    receivers.busy[1] = 0b0110;
    let places = [124, 125, 126, 127].map(|i| receivers.place(i));
    assert_eq!(
        places,
        [
            Place::Ready,
            Place::Acknowledged,
            Place::FirstPause,
            Place::SecondPause
        ]
    );
    assert_eq!(receivers.place(63), Place::Ready);
}

#[test]
fn words_stand_where_the_header_has_them() {
    use crate::layout::offset_of;
    use std::mem::size_of;
    assert!(size_of::<Receivers>() == 128);
    assert!(offset_of!(Receivers, pausing) == 0);
    assert!(offset_of!(Receivers, busy) == 32);
    assert!(offset_of!(Receivers, level) == 64);
    assert!(offset_of!(Receivers, pending) == 96);
}
