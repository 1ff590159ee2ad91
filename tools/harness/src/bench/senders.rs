//! The sound senders of the alerts, at the other end of the alerts' wires (document 004, "Alert Sender").

use super::QUIET;
use crate::record::Side;
use handler::ALERTS;
use reference::{Handler, Receiver};

/// Where a sender stands.
#[derive(Clone, Copy, Debug, PartialEq, Eq)]
enum Stand {
    /// Nothing is sent.
    Ready,
    /// The pair is high, until the acknowledgement is seen.
    Raised,
    /// The pair is low again, until the acknowledgement is seen to be over.
    Dropped,
    /// The first of two ticks of pause; in the second it is ready for the next.
    Paused,
}

/// The sender of an alert. What goes out of the handler in a tick it sees in
/// that tick, and acts in the next.
#[derive(Clone, Copy)]
struct Sender {
    stand: Stand,
    /// Whether an alert or a ping waits to be sent: both look the same.
    asked: bool,
    /// The level of the ping pair that was seen last.
    ping: bool,
    /// Whether the last tick had the acknowledgement.
    acknowledged: bool,
}

impl Sender {
    const NEW: Sender = Sender {
        stand: Stand::Ready,
        asked: false,
        ping: false,
        acknowledged: false,
    };

    /// Whether the pair is high in the next tick, before which the receiver
    /// stands so.
    fn next(&mut self, receiver: &Receiver) -> bool {
        self.asked |= receiver.ping != self.ping;
        self.ping = receiver.ping;
        self.stand = match self.stand {
            Stand::Ready if self.asked => {
                self.asked = false;
                Stand::Raised
            }
            Stand::Raised if self.acknowledged => Stand::Dropped,
            Stand::Dropped if !self.acknowledged => Stand::Paused,
            Stand::Paused => Stand::Ready,
            stays => stays,
        };
        // This goes out in the next tick.
        self.acknowledged = receiver.acknowledges();
        self.stand == Stand::Raised
    }
}

/// The senders of all alerts: each answers its pings, and sends what it is
/// asked to.
pub struct Senders([Sender; ALERTS]);

impl Senders {
    /// All at rest.
    pub fn new() -> Senders {
        Senders([Sender::NEW; ALERTS])
    }

    /// Alert i is to be sent.
    pub fn raise(&mut self, i: usize) {
        self.0[i].asked = true;
    }

    /// The wires of the next tick, before which the handler stands so.
    pub fn wires(&mut self, before: &Handler) -> (Side, Side) {
        let (mut pos, mut neg) = QUIET;
        let receivers = before.receivers.iter().take(before.n as usize);
        for ((i, receiver), sender) in receivers.enumerate().zip(&mut self.0) {
            if sender.next(receiver) {
                let wire = 1 << (63 - i % 64);
                pos[i / 64] |= wire;
                neg[i / 64] &= !wire;
            }
        }
        (pos, neg)
    }
}

impl Default for Senders {
    fn default() -> Senders {
        Senders::new()
    }
}
