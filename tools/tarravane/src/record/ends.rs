//! The receivers at the ends of the lines, for ticks in which they answer as sound ones do: the library's proved ones, which hear
//! what the handler sends in the ticks so far.
use handler::{Edition, Handler, LinePairs, LineReceivers, Word};

pub struct Ends {
    handler: Handler,
    receivers: LineReceivers,
}

impl Ends {
    /// New receivers, and the handler that is before the first tick.
    pub fn new(handler: Handler) -> Ends {
        Ends {
            handler,
            receivers: LineReceivers::NEW,
        }
    }

    /// The handler after the ticks so far.
    pub fn handler(&self) -> &Handler {
        &self.handler
    }

    /// Goes on by a record, and gives its word.
    pub fn tick(&mut self, edition: Edition, record: &[u8]) -> Word {
        let mut word = [Word::default()];
        self.handler = self.handler.batch(edition, record, &mut word).0;
        let sent = LinePairs::sound(self.handler.links.senders.last);
        self.receivers = self.receivers.listen(sent).receivers;
        word[0]
    }

    /// The pairs of the coming tick: on these lines what the receivers send, on the others what is given.
    pub fn answer(&self, lines: u32, given: LinePairs) -> LinePairs {
        let sends = self.receivers.sends();
        LinePairs {
            pos: sends.pos & lines | given.pos & !lines,
            neg: sends.neg & lines | given.neg & !lines,
        }
    }
}
