//! Records under construction.

use crate::calls::reference_edition;
use crate::record::{pack, Head, Side, Tail, NONE};
use handler::{Edition, LinePairs, LINES};
use reference::{batch, Handler};

/// A record without access.
pub const NOTHING: Head = Head {
    kind: NONE,
    register: 0,
    rest: 0,
    value: 0,
};

/// The records so far. The reference runs beside: it knows what sound receivers
/// of the lines and sound senders of the alerts do next.
pub struct Maker {
    edition: Edition,
    /// The state after the records.
    pub state: Handler,
    /// The records.
    pub bytes: Vec<u8>,
}

impl Maker {
    /// No record yet, from this state on, and room for so many.
    pub fn new(edition: Edition, state: Handler, records: usize) -> Maker {
        let bytes = Vec::with_capacity(records * edition.bytes());
        Maker {
            edition,
            state,
            bytes,
        }
    }

    /// How many records there are.
    pub fn records(&self) -> usize {
        self.bytes.len() / self.edition.bytes()
    }

    /// Adds a tick; its receive pairs, where it has any, are those of sound
    /// receivers.
    pub fn tick(&mut self, head: Head, wires: (Side, Side), word: u32) {
        let tail = match self.edition.has_receive() {
            true => Tail::wired(word, self.received()),
            false => Tail::new(word, 0),
        };
        let record = pack(self.edition, head, wires, tail);
        let edition = reference_edition(self.edition);
        let answer = batch(&mut self.state, edition, &record, &mut [0]);
        assert_eq!(answer, 0);
        self.bytes.extend(record);
    }

    fn received(&self) -> LinePairs {
        let on = |e: usize| u32::from(self.state.senders[e].expected()) << e;
        LinePairs::sound((0..LINES).map(on).sum())
    }
}
