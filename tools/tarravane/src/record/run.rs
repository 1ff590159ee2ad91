//! The ticks of a trace as it grows: the library runs them, for what sound receivers answer and for stages that come to nothing.
use super::ends::Ends;
use super::warnings::Warnings;
use super::watch::{Ran, Watch};
use handler::{Edition, Handler, LinePairs};

pub struct Run {
    edition: Edition,
    ends: Ends,
    watch: Watch,
}

impl Run {
    pub fn new(edition: Edition, handler: Handler) -> Run {
        Run {
            edition,
            ends: Ends::new(handler),
            watch: Watch::default(),
        }
    }

    /// Goes on by these records; the lines that they are of.
    pub fn go(&mut self, records: &[u8], lines: &[u64], warnings: &mut Warnings) {
        let edition = self.edition;
        for (record, line) in records.chunks_exact(edition.bytes()).zip(lines) {
            let before = *self.ends.handler();
            let word = self.ends.tick(edition, record);
            let ran = Ran {
                record,
                line: *line,
                before: &before,
                after: self.ends.handler(),
                word,
            };
            self.watch.look(edition, &ran, warnings);
        }
    }

    /// The pairs of the coming tick, as `Ends` gives them.
    pub fn answer(&self, lines: u32, given: LinePairs) -> LinePairs {
        self.ends.answer(lines, given)
    }

    pub fn end(&self, warnings: &mut Warnings) {
        self.watch.end(warnings);
    }
}
