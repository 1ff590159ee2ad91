//! What the ping timer does in a tick, before and after the wires are read and
//! after the lines are known.

use crate::handler::{Handler, ALERT_PING, CLASSES, ESCALATION_PING};
use crate::timer::Turn;
use crate::wires::Sample;

/// The ticks from the pulse of a line's ping to the last of its four answers,
/// as in document 004's picture: the pulse at time 1, the ping answered at 5.
const ANSWERED: u16 = 4;

/// How the turn stands within a tick.
#[derive(Clone, Copy, Debug, PartialEq, Eq)]
pub(crate) enum Standing {
    /// The ping is not due yet.
    Waiting,
    /// The ping is open.
    Open,
    /// The turn ends in this tick.
    Over,
}

impl Handler {
    /// Moves the turn on by one tick, after the access and before the wires: a
    /// due ping opens, so that the wires of the same tick may answer it. The
    /// timer was on before the tick's access or not; nothing counts down in the
    /// tick in which it goes on.
    pub(crate) fn open_due(&mut self, on: bool, sample: &Sample) -> Standing {
        if !on {
            return Standing::Waiting;
        }
        let turn = self.timer.turn();
        if self.ping_open(turn) {
            self.timer.count = self.timer.count.saturating_add(1);
            return Standing::Open;
        }
        if self.timer.count > 0 {
            self.timer.count -= 1;
            return Standing::Waiting;
        }
        // The count is 0, and so it is right for a ping that opens now.
        match turn {
            Turn::Alert(i) if self.pingable(i) => self.receivers[i].ask(),
            Turn::Alert(_) => return Standing::Over,
            // Right after a pair that was on, a pulse would be no ping. In a
            // tick of an older edition the wire keeps no ping from opening.
            Turn::Line(e) if sample.checks() && self.senders[e].sent() => return Standing::Over,
            Turn::Line(e) => {
                self.timer.lines |= 1 << e;
                self.timer.wrong = false;
            }
        }
        Standing::Open
    }

    /// Says how the turn stands after the wires of the tick, in which the lines
    /// in `right` were checked and answered right. An answer in the very tick of
    /// the timeout is not too late.
    pub(crate) fn settle(
        &mut self,
        standing: Standing,
        sample: &Sample,
        right: u8,
        assigned: &mut [bool; CLASSES],
    ) -> Standing {
        if standing != Standing::Open {
            return standing;
        }
        let turn = self.timer.turn();
        if let Turn::Line(e) = turn {
            // An alert's answer came by its wires and closed the ping there.
            if self.line_answered(e, sample, right) {
                self.close(turn);
            }
        }
        if !self.ping_open(turn) {
            return Standing::Over;
        }
        let timeout = self.timer.timeout;
        if timeout == 0 || self.timer.count < timeout {
            return Standing::Open;
        }
        self.close(turn);
        let failed = match turn {
            Turn::Alert(_) => ALERT_PING,
            Turn::Line(_) => ESCALATION_PING,
        };
        self.occur(failed, assigned);
        Standing::Over
    }

    /// Whether the tick answers the open ping of line e: by its bit where the
    /// sample has no receive pairs, else by the last of four right answers.
    fn line_answered(&mut self, e: usize, sample: &Sample, right: u8) -> bool {
        if !sample.checks() {
            // What nobody checks is no right answer, so from here on only a bit
            // can answer this ping.
            self.timer.wrong = true;
            return (sample.answers >> e) & 1 == 1;
        }
        // The answers start in the tick after the pulse.
        let count = self.timer.count;
        if count > 0 && (right >> e) & 1 == 0 {
            self.timer.wrong = true;
        }
        count == ANSWERED && !self.timer.wrong
    }

    /// Says how the turn stands once the tick's lines are known: a real
    /// escalation wins over a ping of its line and closes it unfailed. In a tick
    /// of an older edition a line closes no ping.
    pub(crate) fn give_way(&mut self, standing: Standing, sample: &Sample, lines: u8) -> Standing {
        let turn = self.timer.turn();
        match turn {
            Turn::Line(e) if (lines >> e) & 1 == 1 => {
                if standing != Standing::Open || !sample.checks() {
                    return standing;
                }
                self.close(turn);
                Standing::Over
            }
            _ => standing,
        }
    }

    /// Ends the tick for the timer: its word sets the next turn if one is over,
    /// and the first if the timer went on.
    pub(crate) fn end_turn(&mut self, on: bool, standing: Standing, word: u32) {
        if standing == Standing::Over {
            self.timer.next_turn(word);
        } else if !on && self.timer.on() {
            self.timer.start(word);
        }
    }

    /// Whether the turn's ping is open. An alert at N and above has none,
    /// whatever is stored there.
    fn ping_open(&self, turn: Turn) -> bool {
        match turn {
            Turn::Alert(i) => self.has_alert(i) && self.receivers[i].open,
            Turn::Line(e) => self.timer.line_open(e),
        }
    }

    /// Closes the turn's open ping.
    fn close(&mut self, turn: Turn) {
        match turn {
            Turn::Alert(i) => self.receivers[i].open = false,
            Turn::Line(e) => {
                self.timer.lines &= !(1 << e);
                self.timer.wrong = false;
            }
        }
    }

    /// Whether a due ping of alert i opens: it is locked and enabled.
    fn pingable(&self, i: usize) -> bool {
        self.has_alert(i) && self.alerts[i].regwen == 0 && self.alerts[i].en == 1
    }

    /// Whether the drawn alert is one of the N.
    fn has_alert(&self, i: usize) -> bool {
        (i as u64) < self.n
    }
}
