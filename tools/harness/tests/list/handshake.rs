//! What may go wrong with the handshake, as far as words show it: one slip or more for each reading of request (viii). What only
//! pairs and pings show `links.rs` has.

use super::Slip;

/// What equal wires do.
const EQUAL: &str = "        if pos == neg {
            return false;
        }";
/// What the first and the second tick of the pause do.
const FIRST: &str = "                self.place = Place::SecondPause;
                false";
const SECOND: &str = "                self.place = Place::Ready;
                false";

/// A slip in the receiver.
const fn receiver(name: &'static str, right: &'static str, wrong: &'static str) -> Slip {
    Slip {
        name,
        file: "receiver.rs",
        right,
        wrong,
    }
}

/// Slips about handshakes.
pub const HANDSHAKE: &[Slip] = &[
    receiver(
        "a pause of one tick",
        FIRST,
        "                self.place = Place::Ready;
                false",
    ),
    receiver(
        "no pause",
        "self.place = Place::FirstPause;",
        "self.place = Place::Ready;",
    ),
    receiver(
        "a pause of three ticks",
        SECOND,
        // No older trace has pings, so that the level is free to count.
        "                if self.ping {
                    self.place = Place::Ready;
                }
                self.ping = !self.ping;
                false",
    ),
    receiver(
        "a rise in the pause begins the pause anew",
        SECOND,
        "                self.place = if pos {
                    Place::FirstPause
                } else {
                    Place::Ready
                };
                false",
    ),
    receiver(
        "a rise in the first tick of the pause is taken at its end",
        SECOND,
        "                self.place = Place::Ready;
                pos && self.take()",
    ),
    receiver(
        "a rise that is held through the pause is not taken",
        SECOND,
        "                if !pos {
                    self.place = Place::Ready;
                }
                false",
    ),
    receiver(
        "a rise needs (0,1) in the tick before",
        "Place::Ready => pos && self.take(),",
        "Place::Ready => {
                let edge = pos && !self.ping;
                self.ping = pos;
                edge && self.take()
            }",
    ),
    receiver(
        "a rise that is gone before the pause ends is remembered",
        "            Place::Ready => pos && self.take(),",
        "            Place::Ready => {
                let waits = std::mem::take(&mut self.ping);
                (pos || waits) && self.take()
            }
            Place::SecondPause if pos => {
                self.ping = true;
                self.place = Place::Ready;
                false
            }",
    ),
    receiver(
        "equal wires count as a tick of the pause",
        EQUAL,
        "        if pos == neg {
            self.place = match self.place {
                Place::FirstPause => Place::SecondPause,
                Place::SecondPause => Place::Ready,
                place => place,
            };
            return false;
        }",
    ),
    receiver(
        "equal wires count where the acknowledgement drops",
        EQUAL,
        "        if pos == neg {
            if self.place == Place::FirstPause {
                self.place = Place::SecondPause;
            }
            return false;
        }",
    ),
    receiver(
        "equal wires begin the pause anew",
        EQUAL,
        "        if pos == neg {
            if self.place == Place::SecondPause {
                self.place = Place::FirstPause;
            }
            return false;
        }",
    ),
    receiver(
        "equal wires end the handshake",
        EQUAL,
        "        if pos == neg {
            self.place = Place::Ready;
            return false;
        }",
    ),
    receiver(
        "(1,1) is a rise",
        EQUAL,
        "        if pos == neg {
            return pos && self.place == Place::Ready && self.take();
        }",
    ),
    receiver(
        "(0,0) is a drop",
        EQUAL,
        "        if pos == neg {
            if !pos && self.place == Place::Acknowledged {
                self.place = Place::FirstPause;
            }
            return false;
        }",
    ),
    receiver(
        "(1,1) is a drop",
        EQUAL,
        "        if pos == neg {
            if pos && self.place == Place::Acknowledged {
                self.place = Place::FirstPause;
            }
            return false;
        }",
    ),
    receiver(
        "an event in each tick of a rise",
        "                if neg {
                    self.place = Place::FirstPause;
                }
                false",
        "                if neg {
                    self.place = Place::FirstPause;
                }
                pos",
    ),
    receiver(
        "an event with the drop",
        "                    self.place = Place::FirstPause;
                }
                false",
        "                    self.place = Place::FirstPause;
                }
                neg",
    ),
    Slip {
        name: "a disabled alert has no handshake",
        file: "handler.rs",
        right: "if self.receivers[i].read(p, n) && alert.en == 1 {",
        wrong: "if alert.en == 1 && self.receivers[i].read(p, n) {",
    },
    Slip {
        name: "an alert that is enabled in a handshake has its event",
        file: "handler.rs",
        right: "if self.receivers[i].read(p, n) && alert.en == 1 {",
        // The level holds what a disabled alert's rise left.
        wrong: "let risen = self.receivers[i].read(p, n) || self.receivers[i].ping;
            let over = self.receivers[i].place != crate::receiver::Place::Acknowledged;
            self.receivers[i].ping = risen && alert.en == 0 && !over;
            if risen && alert.en == 1 {",
    },
    Slip {
        name: "equal wires matter only on a ready receiver",
        file: "handler.rs",
        right: "equal |= p == n && alert.en == 1;",
        wrong: "let ready = self.receivers[i].place == crate::receiver::Place::Ready;
            equal |= p == n && alert.en == 1 && ready;",
    },
    Slip {
        name: "equal wires matter only outside the pause",
        file: "handler.rs",
        right: "equal |= p == n && alert.en == 1;",
        wrong: "use crate::receiver::Place::{Acknowledged, Ready};
            let heard = [Ready, Acknowledged].contains(&self.receivers[i].place);
            equal |= p == n && alert.en == 1 && heard;",
    },
];
