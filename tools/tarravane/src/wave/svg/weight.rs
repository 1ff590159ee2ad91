//! How much a tick matters in a picture.
use crate::facts::changes::{happens, turns};
use crate::facts::clears::clear;
use crate::facts::events;
use crate::facts::settings::switches_off;
use crate::facts::tick::Tick;
use crate::facts::timer::{ping, End};
use handler::{Access, CLASSES};

/// From the least to the most; what matters least is folded first.
#[derive(Clone, Copy, Debug, PartialEq, Eq, PartialOrd, Ord)]
pub enum Weight {
    /// No access, no change, steady wires.
    Calm,
    /// A receiver goes on in its handshake.
    Handshake,
    Read,
    /// It may configure or lock: a boot is a long run of such writes.
    Write,
    /// Wires that move, an event, a local alert, a ping that is sent, answered or closed.
    Alert,
    /// A cause or an accumulator changes, an access is refused, a stage is dropped, something is switched off, the ping timer
    /// goes on, a ping fails, or a line's answer is wrong.
    Change,
    /// A state, a line or an interrupt changes, or a clear is asked for.
    Turn,
}

impl Weight {
    /// Those that are folded, the least first.
    pub const FOLDED: [Weight; 6] = [
        Weight::Calm,
        Weight::Handshake,
        Weight::Read,
        Weight::Write,
        Weight::Alert,
        Weight::Change,
    ];
}

/// Is a ping sent, answered or closed?
fn pings(t: &Tick) -> bool {
    let ends = |end| matches!(end, Some(End::Answered | End::Closed));
    ping(t).map_or(false, |ping| ping.sent || ends(ping.end))
}

/// `moved`: are the wires other ones than in the tick before? `goes_on`: does a receiver go on?
pub fn weight(t: &Tick, moved: bool, goes_on: bool) -> Weight {
    let asks_clear = (0..CLASSES).any(|k| clear(t, k).is_some());
    let occurs = events::alerts(t).next().is_some() || events::locals(t).next().is_some();
    match t.input.access {
        _ if turns(t) || asks_clear => Weight::Turn,
        _ if happens(t) || switches_off(t) => Weight::Change,
        _ if moved || occurs || pings(t) => Weight::Alert,
        Access::Write(..) => Weight::Write,
        Access::Nothing if goes_on => Weight::Handshake,
        Access::Nothing => Weight::Calm,
        _ => Weight::Read,
    }
}
