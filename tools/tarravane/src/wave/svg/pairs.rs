//! What a picture shows of the lines' pairs in one tick, or in several that are folded.
use super::held::Held;
use crate::facts::pairs::{is_wrong, sent};
use crate::facts::tick::Tick;
use handler::LINES;
use std::array::from_fn;

/// A line's pairs.
#[derive(Clone, Copy, Debug)]
pub struct Pairs {
    /// The escalation pair is (1,0).
    pub sent: Held<bool>,
    /// What came back: positive wire, then negative one.
    pub came: Held<(bool, bool)>,
    /// Is an answer wrong?
    pub wrong: bool,
    /// Is one of them ever off rest, where the edition has both?
    pub moves: bool,
}

pub fn pairs(t: &Tick) -> [Pairs; LINES] {
    from_fn(|e| {
        let sent = sent(t) >> e & 1 == 1;
        let came = t.input.sample.receive.pair(e);
        let wrong = is_wrong(t, e);
        Pairs {
            sent: Held::new(sent),
            came: Held::new(came),
            wrong,
            moves: t.edition.has_receive() && (sent || wrong || came != (false, true)),
        }
    })
}

impl Pairs {
    pub fn joined(self, next: Pairs) -> Pairs {
        Pairs {
            sent: self.sent.joined(next.sent),
            came: self.came.joined(next.came),
            wrong: self.wrong || next.wrong,
            moves: self.moves || next.moves,
        }
    }
}
