//! A trace that the library has run, for tests to compare with.
use handler::{Edition, Handler, Word, CLASSES};
use harness::opened::opened;

/// One tick: the record, and what the library gives for it.
pub struct Ran {
    pub number: u64,
    pub record: Vec<u8>,
    pub before: Handler,
    pub after: Handler,
    pub word: Word,
}

impl Ran {
    /// The levels of an alert's wires, 0b10 for (1,0).
    pub fn pair(&self, edition: Edition, i: usize) -> u8 {
        let bit = |side: usize| self.record[8 + side + i / 8] >> (7 - i % 8) & 1;
        bit(0) << 1 | bit(edition.wire_bytes())
    }
}

/// Runs the ticks of a trace one after another; N is taken for granted.
pub fn each(trace: &[u8], mut take: impl FnMut(Ran)) -> Edition {
    let input = opened(trace);
    let (edition, n) = (input.edition, input.n.expect("N"));
    let (mut handler, answer) = Handler::new(n.into());
    assert_eq!(answer.value(), Ok(0));
    for (number, record) in (1..).zip(input.records.chunks_exact(edition.bytes())) {
        let mut words = [Word::default()];
        let (after, answer) = handler.batch(edition, record, &mut words);
        assert_eq!(answer.value(), Ok(0));
        take(Ran {
            number,
            record: record.to_vec(),
            before: handler,
            after,
            word: words[0],
        });
        handler = after;
    }
    edition
}

/// The edition and all ticks.
pub fn ran(trace: &[u8]) -> (Edition, Vec<Ran>) {
    let mut all = Vec::new();
    let edition = each(trace, |t| all.push(t));
    (edition, all)
}

/// What is kept of a tick of a long trace.
pub struct Brief {
    pub states: [u32; CLASSES],
    pub word: Word,
}

pub fn briefs(trace: &[u8]) -> Vec<Brief> {
    let mut all = Vec::new();
    each(trace, |t| {
        all.push(Brief {
            states: t.after.classes.map(|class| class.state),
            word: t.word,
        })
    });
    all
}
