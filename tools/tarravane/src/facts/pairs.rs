//! The lines' pairs: which escalation pairs are on, and which receive pairs are not the right answer. Read off the library's
//! senders; what came, the sample says.
use super::tick::Tick;
use handler::LINES;

/// A receive pair that makes local alert 3 occur, where that is enabled: positive wire, then negative one.
#[derive(Clone, Copy, Debug, PartialEq, Eq)]
pub struct Fault {
    pub line: usize,
    pub right: (bool, bool),
    pub came: (bool, bool),
}

/// The lines whose escalation pair is (1,0) in this tick, line 0 at the lowest bit.
pub fn sent(t: &Tick) -> u32 {
    t.after.links.senders.last & 15
}

/// The lines whose receive pair is not the right answer; in records of older editions nobody checks.
pub fn faults(t: &Tick) -> Vec<Fault> {
    let right = t.before.links.senders.right();
    let fault = |line| Fault {
        line,
        right: right.pair(line),
        came: t.input.sample.receive.pair(line),
    };
    (0..LINES)
        .filter(|_| t.edition.has_receive())
        .map(fault)
        .filter(|fault| fault.came != fault.right)
        .collect()
}

/// Is line e's receive pair not the right answer?
pub fn is_wrong(t: &Tick, e: usize) -> bool {
    faults(t).iter().any(|fault| fault.line == e)
}
