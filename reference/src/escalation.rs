//! What the four escalation senders do in a tick (request (xi)): they check the
//! answers that come back, and send the line or a ping.

use crate::handler::{Handler, CLASSES, ESCALATION_INTEGRITY};
use crate::line_pairs::{LinePairs, LINES};
use crate::pings::Standing;
use crate::timer::Turn;

impl Handler {
    /// Compares what came back with what a sound receiver of the pairs sent
    /// before this tick answers; gives the lines that answered right, line 0
    /// lowest. Any other answer, equal wires among them, is a reason for local
    /// 3. Without receive pairs nothing is checked, and nothing is right.
    pub(crate) fn check_answers(
        &mut self,
        receive: Option<LinePairs>,
        assigned: &mut [bool; CLASSES],
    ) -> u8 {
        let pairs = match receive {
            Some(pairs) => pairs,
            None => return 0,
        };
        let mut right = 0;
        for (e, sender) in self.senders.iter().enumerate() {
            if sender.right(pairs.pair(e)) {
                right |= 1 << e;
            }
        }
        if right != 0xF {
            self.occur(ESCALATION_INTEGRITY, assigned);
        }
        right
    }

    /// The line that gets the pulse of a ping in this tick, if any: the ping
    /// opened in it, and the pair was off in the tick before. A pulse right
    /// after a pair that was on would be taken for an escalation.
    pub(crate) fn pulse(&self, standing: Standing) -> Option<usize> {
        // The count of an open ping is 0 only in the tick that opened it.
        let opened = standing == Standing::Open && self.timer.count == 0;
        match self.timer.turn() {
            Turn::Line(e) if opened && !self.senders[e].sent() => Some(e),
            _ => None,
        }
    }

    /// Sends the pairs of a tick with these lines on, line 0 lowest.
    pub(crate) fn send(&mut self, lines: u8, pulse: Option<usize>) {
        for (e, sender) in self.senders.iter_mut().enumerate() {
            sender.send((lines >> e) & 1 == 1, pulse == Some(e));
        }
    }

    /// The pairs sent in the last tick.
    pub(crate) fn sent(&self) -> LinePairs {
        let mut pairs = LinePairs::at_rest();
        for e in 0..LINES {
            let on = self.senders[e].sent();
            pairs = pairs.with(e, (on, !on));
        }
        pairs
    }
}
