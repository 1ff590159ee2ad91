//! What the ping timer did: its turns, and what became of their pings.

use reference::timer::Turn;
use reference::{Handler, Place, Sample};
use std::fmt;

/// Counts over ticks. Where there are two, they are of alerts and of lines.
#[derive(Debug, Default)]
pub struct Turns {
    /// Ticks with the timer on.
    pub on: u64,
    /// Ticks in which it became so.
    pub begun: u64,
    /// A 0, and a 1, written to the enable of a timer that is on.
    pub again: [u64; 2],
    /// Pings that opened, of alerts.
    pub alerts: u64,
    /// Those of each line.
    pub lines: [u64; 4],
    /// Due alerts that were not pinged: not there, not locked, not enabled.
    pub none: [u64; 3],
    /// Pings of alerts that were locked by the access of the tick; due alerts
    /// that were enabled by it, which are not locked then.
    pub by_access: [u64; 2],
    /// Pings answered in the tick in which they opened, later, and in the tick
    /// of the timeout.
    pub answered: [[u64; 3]; 2],
    /// Pings that failed, and those with the local alert disabled.
    pub failed: [[u64; 2]; 2],
    /// Of both, ones with a timeout of 65534 and more.
    pub far: u64,
    /// Ticks of an open line with answers of other lines alone.
    pub other_line: u64,
    /// Ticks with answers where no line has a ping.
    pub stray: u64,
    /// Pings of lines that an escalation kept from the wire, and that it closed.
    pub escalated: [u64; 2],
    /// Pings that were open while the timeout changed, and those that failed
    /// by it.
    pub changed: [u64; 2],
    /// Ticks of open pings at timeout 0.
    pub waiting: u64,
    /// The longest wait that came to its end.
    pub longest: u16,
    /// The wait of the turn that runs.
    wait: u16,
}

/// How a turn stands in a tick.
struct Standing {
    line: bool,
    /// Its ping was open before; it is due; it is open in the tick.
    was: bool,
    due: bool,
    open: bool,
    /// The ticks since it opened.
    age: u16,
    answered: bool,
    ends: bool,
}

impl Standing {
    fn of(before: &Handler, after: &Handler, sample: &Sample) -> Standing {
        let (was_at, is_at) = (&before.timer, &after.timer);
        let ends = was_at.number != is_at.number;
        let (line, was, opened, answered) = match was_at.turn() {
            Turn::Alert(i) if (i as u64) < before.n => {
                let [was, is] = [before, after].map(|handler| handler.receivers[i]);
                let taken = was.place == Place::Ready && is.place == Place::Acknowledged;
                (false, was.open, was.ping != is.ping, taken)
            }
            Turn::Alert(_) => (false, false, false, false),
            Turn::Line(e) => {
                // An escalation on the line keeps a ping from the wire.
                let free = !before.senders[e].sent() && !after.senders[e].on;
                let answered = match sample.receive {
                    Some(pairs) => {
                        let right = before.senders[e].right(pairs.pair(e));
                        right && was_at.count == 3 && !was_at.wrong
                    }
                    None => sample.answers >> e & 1 == 1,
                };
                (
                    true,
                    was_at.line_open(e),
                    free || !sample.checks(),
                    answered,
                )
            }
        };
        let due = !was && was_at.count == 0;
        let open = was || (due && opened);
        let age = if was {
            was_at.count.saturating_add(1)
        } else {
            0
        };
        Standing {
            line,
            was,
            due,
            open,
            age,
            answered: open && answered,
            ends,
        }
    }
}

impl Turns {
    /// Begins a trace.
    pub fn begin(&mut self) {
        self.wait = 0;
    }

    /// Takes in an accepted write of this value to the enable.
    pub fn enabled(&mut self, before: &Handler, value: u32) {
        if before.timer.on() {
            self.again[usize::from(value == 1)] += 1;
        }
    }

    /// Takes in a tick: the handler before and after it, and its sample.
    pub fn tick(&mut self, before: &Handler, after: &Handler, sample: &Sample) {
        if !before.timer.on() {
            self.begun += u64::from(after.timer.on());
            self.wait = after.timer.count;
            self.stray += u64::from(sample.answers & 15 != 0);
            return;
        }
        self.on += 1;
        let now = Standing::of(before, after, sample);
        if now.due {
            self.longest = self.longest.max(self.wait);
            self.due(before, after, &now);
        }
        if now.open {
            self.open(before, after, sample, &now);
        }
        if !(now.open && now.line) {
            self.stray += u64::from(sample.answers & 15 != 0);
        }
        if now.ends {
            self.wait = after.timer.count;
        }
    }

    /// A ping that is due opens or not.
    fn due(&mut self, before: &Handler, after: &Handler, now: &Standing) {
        match before.timer.turn() {
            Turn::Line(_) if !now.open => self.escalated[0] += 1,
            Turn::Line(e) => self.lines[e] += 1,
            Turn::Alert(i) if (i as u64) >= before.n => self.none[0] += 1,
            Turn::Alert(i) => {
                let [was, is] = [before, after].map(|handler| handler.alerts[i]);
                if now.open {
                    self.alerts += 1;
                    self.by_access[0] += u64::from(was.regwen != is.regwen);
                } else {
                    self.by_access[1] += u64::from(was.en < is.en);
                    self.none[if is.regwen == 1 { 1 } else { 2 }] += 1;
                }
            }
        }
    }

    /// An open ping is answered, fails or goes on.
    fn open(&mut self, before: &Handler, after: &Handler, sample: &Sample, now: &Standing) {
        let (of, timeout) = (usize::from(now.line), after.timer.timeout);
        let at_end = timeout > 0 && now.age == timeout;
        let changed = now.was && before.timer.timeout != timeout;
        let over = timeout > 0 && now.age >= timeout;
        let failed = now.ends && !now.answered && over;
        self.escalated[1] += u64::from(now.ends && !now.answered && !over);
        if now.answered {
            self.answered[of][usize::from(now.was) + usize::from(now.was && at_end)] += 1;
        }
        if failed {
            let disabled = after.locals[of].en == 0;
            self.failed[of][usize::from(disabled)] += 1;
            self.far += u64::from(timeout >= 65534);
        }
        self.changed[0] += u64::from(changed);
        self.changed[1] += u64::from(changed && failed);
        self.waiting += u64::from(timeout == 0);
        self.other_line += u64::from(now.line && !now.answered && sample.answers & 15 != 0);
    }
}

impl fmt::Display for Turns {
    fn fmt(&self, out: &mut fmt::Formatter) -> fmt::Result {
        if (self.on, self.begun) == (0, 0) {
            return Ok(());
        }
        let (alerts, lines, [absent, unlocked, disabled]) = (self.alerts, self.lines, self.none);
        writeln!(
            out,
            "ping timer: begun {}, ticks {}, enable again {:?}, longest wait {}; pings of alerts {alerts}, of lines {lines:?}, by the access of the tick {:?}",
            self.begun, self.on, self.again, self.longest, self.by_access
        )?;
        writeln!(
            out,
            "due and not pinged: not there {absent}, not locked {unlocked}, not enabled {disabled}; answered at once, later, at the timeout {:?}, failed and with the local alert off {:?}, at a timeout of 65534 and more {}",
            self.answered, self.failed, self.far
        )?;
        writeln!(
            out,
            "answers of another line {}, of no ping {}; timeout changed while open {}, to its failure {}; ticks open at timeout 0 {}; pings that an escalation kept from the wire, and closed {:?}",
            self.other_line, self.stray, self.changed[0], self.changed[1], self.waiting, self.escalated
        )
    }
}
