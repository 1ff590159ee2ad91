//! What the lines met: pairs that were sent, and what came back.

use reference::{Handler, Sample};
use std::fmt;

/// Ticks between a ping and an escalation that are counted one by one.
const NEAR: usize = 6;

/// Counts over single lines and ticks.
#[derive(Debug, Default)]
pub struct Wired {
    /// Line ticks whose receive pair was checked.
    pub checked: u64,
    /// Those of equal wires.
    pub equal: u64,
    /// Those of an answer where none was right, and of none where one was.
    pub wrong: [u64; 2],
    /// Escalations of one tick, of two, and longer ones.
    pub lengths: [u64; 3],
    /// Gaps of one tick between two escalations of a line.
    pub gaps: u64,
    /// Escalations so many ticks after a ping of the line.
    pub after_ping: [u64; NEAR],
    /// Pings so many ticks after the line's last tick.
    pub before_ping: [u64; NEAR],
    lines: [Line; 4],
}

/// What was of a line: ticks since its ping, since it was on, and how long it
/// is on.
#[derive(Clone, Copy, Debug, Default)]
struct Line {
    ping: Option<usize>,
    off: Option<usize>,
    on: usize,
}

impl Wired {
    /// Begins a trace.
    pub fn begin(&mut self) {
        self.lines = Default::default();
    }

    /// Takes in a tick: the handler before and after it, and its sample.
    pub fn tick(&mut self, before: &Handler, after: &Handler, sample: &Sample) {
        for e in 0..4 {
            if let Some(pairs) = sample.receive {
                self.answer(before, e, pairs.pair(e));
            }
            let sender = &after.senders[e];
            let pulse = sender.sent() && !sender.on && !before.senders[e].first;
            self.line(e, sender.on, pulse);
        }
    }

    fn answer(&mut self, before: &Handler, e: usize, pair: (bool, bool)) {
        let sender = &before.senders[e];
        self.checked += 1;
        if pair.0 == pair.1 {
            self.equal += 1;
        } else if !sender.right(pair) {
            self.wrong[usize::from(sender.expected())] += 1;
        }
    }

    fn line(&mut self, e: usize, on: bool, pulse: bool) {
        let line = &mut self.lines[e];
        let count = |counts: &mut [u64; NEAR], age: Option<usize>| {
            if let Some(at) = age.filter(|age| *age < NEAR) {
                counts[at] += 1;
            }
        };
        line.ping = line.ping.map(|age| age + 1);
        line.off = line.off.map(|age| age + 1);
        if on && line.on == 0 {
            count(&mut self.after_ping, line.ping);
            self.gaps += u64::from(line.off == Some(2));
        }
        if pulse {
            count(&mut self.before_ping, line.off);
            line.ping = Some(0);
        }
        if on {
            (line.on, line.off) = (line.on + 1, Some(0));
        } else if line.on > 0 {
            self.lengths[line.on.min(3) - 1] += 1;
            line.on = 0;
        }
    }
}

impl fmt::Display for Wired {
    fn fmt(&self, out: &mut fmt::Formatter) -> fmt::Result {
        if self.checked == 0 {
            return Ok(());
        }
        writeln!(
            out,
            "receive pairs {}: equal {}, answers too many and missing {:?}; escalations of one tick, two, more {:?}, gaps of one {}; after a ping by ticks {:?}, pings after them {:?}",
            self.checked, self.equal, self.wrong, self.lengths, self.gaps, self.after_ping, self.before_ping
        )
    }
}
