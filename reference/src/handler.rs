//! The handler's state and its tick.

use crate::answer::Refusal;
use crate::class::Class;
use crate::line_pairs::{LinePairs, LINES};
use crate::receiver::Receiver;
use crate::sender::Sender;
use crate::stages::Stages;
use crate::timer::{Timer, Turn};
use crate::wires::{wire, Pairs, Sample, Wires};

/// The largest number of alerts.
pub const MAX_ALERTS: usize = 248;
/// The number of local alerts.
pub const LOCALS: usize = 7;
/// The number of classes.
pub const CLASSES: usize = 4;
/// The local alert that reports a failed ping of an alert.
pub const ALERT_PING: usize = 0;
/// The local alert that reports a failed ping of an escalation line.
pub const ESCALATION_PING: usize = 1;
/// The local alert that reports equal wires of an alert.
pub const ALERT_INTEGRITY: usize = 2;
/// The local alert that reports equal wires of an escalation line, or a wrong or
/// missing answer on them.
pub const ESCALATION_INTEGRITY: usize = 3;
/// The local alert that reports two writes that differ; those not named here
/// never occur.
pub const SHADOW_UPDATE: usize = 5;

/// One register access, as a trace record or a caller gives it.
#[derive(Clone, Copy, Debug, PartialEq, Eq)]
pub enum Access {
    /// No access.
    None,
    /// A read of a register number.
    Read {
        /// The register number.
        register: u16,
    },
    /// A write to a register number.
    Write {
        /// The register number.
        register: u16,
        /// The written value.
        value: u32,
    },
    /// A malformed record; it is refused with 5.
    Malformed,
}

/// What a tick gives, and what a skipped stretch of ticks does.
#[derive(Clone, Copy, Debug, PartialEq, Eq)]
pub struct Ticked {
    /// The access's value, after a skip the number of changes, or minus the
    /// refusal number.
    pub answer: i64,
    /// The interrupts, class 0 lowest.
    pub interrupts: u8,
    /// The escalation lines, line 0 lowest.
    pub lines: u8,
    /// The acknowledge pairs of the alerts.
    pub acknowledge: Pairs,
    /// The ping pairs of the alerts.
    pub ping: Pairs,
    /// The pairs of the escalation lines.
    pub escalation: LinePairs,
}

impl Ticked {
    /// What a refusal gives where no tick runs: interrupts and lines 0, and
    /// every pair at (0,1).
    pub(crate) fn refused(refusal: Refusal) -> Ticked {
        Ticked::at_rest(Outcome {
            answer: refusal.answer(),
            interrupts: 0,
            lines: 0,
        })
    }

    /// This outcome with every pair at (0,1).
    pub(crate) fn at_rest(outcome: Outcome) -> Ticked {
        Ticked {
            answer: outcome.answer,
            interrupts: outcome.interrupts,
            lines: outcome.lines,
            acknowledge: Pairs::at_rest(),
            ping: Pairs::at_rest(),
            escalation: LinePairs::at_rest(),
        }
    }

    /// What a word of a trace holds of the tick.
    pub fn outcome(&self) -> Outcome {
        Outcome {
            answer: self.answer,
            interrupts: self.interrupts,
            lines: self.lines,
        }
    }
}

/// What a word of a trace holds of a tick: all but the pairs, which a batch
/// therefore does not build.
#[derive(Clone, Copy, Debug, PartialEq, Eq)]
pub struct Outcome {
    /// The access's value, or minus its refusal number.
    pub answer: i64,
    /// The interrupts, class 0 lowest.
    pub interrupts: u8,
    /// The escalation lines, line 0 lowest.
    pub lines: u8,
}

/// The registers of one alert or local alert.
#[derive(Clone, Copy, Debug, PartialEq, Eq)]
pub struct Source {
    /// REGWEN, 1 bit.
    pub regwen: u8,
    /// EN, 1 bit.
    pub en: u8,
    /// CLASS, 2 bits.
    pub class: u8,
    /// CAUSE, 1 bit.
    pub cause: u8,
}

impl Source {
    /// The registers at reset.
    pub fn new() -> Source {
        Source {
            regwen: 1,
            en: 0,
            class: 0,
            cause: 0,
        }
    }

    /// Whether no register holds more than its bits.
    pub fn valid(&self) -> bool {
        self.regwen <= 1 && self.en <= 1 && self.class <= 3 && self.cause <= 1
    }
}

impl Default for Source {
    fn default() -> Self {
        Source::new()
    }
}

/// The whole state of an alert handler.
#[derive(Clone, Debug, PartialEq, Eq)]
pub struct Handler {
    /// The number of alerts, N.
    pub n: u64,
    /// INTR_STATE, 4 bits, class 0 lowest.
    pub intr_state: u8,
    /// INTR_ENABLE, 4 bits, class 0 lowest.
    pub intr_enable: u8,
    /// The local alerts.
    pub locals: [Source; LOCALS],
    /// The alerts; entries at N and above are no registers.
    pub alerts: [Source; MAX_ALERTS],
    /// The receiver of each alert; those at N and above receive nothing.
    pub receivers: [Receiver; MAX_ALERTS],
    /// The four classes.
    pub classes: [Class; CLASSES],
    /// The values that wait for a second write.
    pub stages: Stages,
    /// The ping timer.
    pub timer: Timer,
    /// The sender of each escalation line.
    pub senders: [Sender; LINES],
}

impl Handler {
    /// Makes a handler for `n` alerts and answers 0. If `n` is 0 or over 248 the
    /// answer is -6 and the handler has no alerts, otherwise as new.
    pub fn new(n: u64) -> (Handler, i64) {
        let accepted = n >= 1 && n <= MAX_ALERTS as u64;
        let handler = Handler {
            n: if accepted { n } else { 0 },
            intr_state: 0,
            intr_enable: 0,
            locals: [Source::new(); LOCALS],
            alerts: [Source::new(); MAX_ALERTS],
            receivers: [Receiver::new(); MAX_ALERTS],
            classes: [Class::new(); CLASSES],
            stages: Stages::new(),
            timer: Timer::new(),
            senders: [Sender::new(); LINES],
        };
        let answer = if accepted {
            0
        } else {
            Refusal::AlertCount.answer()
        };
        (handler, answer)
    }

    /// Whether the state keeps the rule of refusal 7. An N of 0 keeps it: the
    /// rule speaks of N over 248 only.
    pub fn valid(&self) -> bool {
        if self.n > MAX_ALERTS as u64 || self.intr_state > 0xF || self.intr_enable > 0xF {
            return false;
        }
        // Entries at N and above are not looked at.
        for i in 0..self.n as usize {
            if !self.alerts[i].valid() {
                return false;
            }
            // Only the ping of the timer's turn may be open.
            if self.receivers[i].open && !self.timer.pings(Turn::Alert(i)) {
                return false;
            }
        }
        for local in &self.locals {
            if !local.valid() {
                return false;
            }
        }
        for class in &self.classes {
            if !class.valid() {
                return false;
            }
        }
        self.timer.valid() && self.stages.valid(self.n as usize)
    }

    /// Runs one tick. A broken state answers -7 and stays as it is, with every
    /// pair at (0,1) whatever receivers and senders hold.
    pub fn tick(&mut self, access: Access, sample: &Sample) -> Ticked {
        if !self.valid() {
            return Ticked::refused(Refusal::BrokenState);
        }
        // What this tick's wires change is acknowledged in the next tick, but
        // the ping that this tick opens shows at once, and so do its lines.
        let acknowledge = self.pairs(Receiver::acknowledges);
        let outcome = self.run(access, sample);
        Ticked {
            answer: outcome.answer,
            interrupts: outcome.interrupts,
            lines: outcome.lines,
            acknowledge,
            ping: self.pairs(|receiver| receiver.ping),
            escalation: self.sent(),
        }
    }

    /// Runs one tick on a state known to be valid, without its pairs.
    pub(crate) fn run(&mut self, access: Access, sample: &Sample) -> Outcome {
        let on = self.timer.on();
        let (answer, cleared) = self.access(access);
        let mut standing = self.open_due(on, sample);
        let pulse = self.pulse(standing);
        let mut assigned = self.sample(&sample.pos, &sample.neg);
        let right = self.check_answers(sample.receive, &mut assigned);
        standing = self.settle(standing, sample, right, &mut assigned);
        if answer == Refusal::StageDiffers.answer() {
            self.occur(SHADOW_UPDATE, &mut assigned);
        }
        self.escalate(assigned, cleared);
        let lines = self.lines();
        standing = self.give_way(standing, sample, lines);
        self.send(lines, pulse);
        self.end_turn(on, standing, sample.word);
        Outcome {
            answer,
            interrupts: self.interrupts(),
            lines,
        }
    }

    /// Steps 3 and 4 of every class, from the classes that have an event or
    /// local alert assigned and the one whose clear was accepted.
    fn escalate(&mut self, assigned: [bool; CLASSES], cleared: Option<usize>) {
        for (k, class) in self.classes.iter_mut().enumerate() {
            let bit = 1u8 << k;
            let clear = cleared == Some(k);
            let event = assigned[k] && class.enabled();
            // Set after any clearing in step 1, so the event wins.
            if event {
                self.intr_state |= bit;
            }
            let trigger = class.accumulate(event, clear);
            class.advance(trigger, self.intr_state & bit != 0, clear);
        }
    }

    /// Takes the wires; says which classes have an alert's event or the failure
    /// of equal wires assigned, whether or not their EN is 1.
    fn sample(&mut self, pos: &Wires, neg: &Wires) -> [bool; CLASSES] {
        let mut assigned = [false; CLASSES];
        let mut equal = false;
        for i in 0..self.n as usize {
            let p = wire(pos, i);
            let n = wire(neg, i);
            let alert = &mut self.alerts[i];
            equal |= p == n && alert.en == 1;
            // A disabled alert's handshake runs too, but sets no cause.
            if self.receivers[i].read(p, n) && alert.en == 1 {
                alert.cause = 1;
                assigned[usize::from(alert.class)] = true;
            }
        }
        if equal {
            self.occur(ALERT_INTEGRITY, &mut assigned);
        }
        assigned
    }

    /// The pairs that are (1,0) for the receivers named by `high`; those at N
    /// and above are (0,1) whatever is stored there.
    fn pairs(&self, high: impl Fn(&Receiver) -> bool) -> Pairs {
        let mut pairs = Pairs::at_rest();
        for (i, receiver) in self.receivers[..self.n as usize].iter().enumerate() {
            if high(receiver) {
                pairs.raise(i);
            }
        }
        pairs
    }

    /// Local alert j has a reason to occur. It does if its EN is 1 after step 1;
    /// it then sets its cause and counts for the class assigned to it.
    pub(crate) fn occur(&mut self, j: usize, assigned: &mut [bool; CLASSES]) {
        let local = &mut self.locals[j];
        if local.en == 1 {
            local.cause = 1;
            assigned[usize::from(local.class)] = true;
        }
    }

    /// The interrupts that go out, class 0 lowest.
    pub(crate) fn interrupts(&self) -> u8 {
        self.intr_state & self.intr_enable
    }

    /// A line is on if any class drives it.
    pub(crate) fn lines(&self) -> u8 {
        let mut lines = 0;
        for class in &self.classes {
            lines |= class.lines();
        }
        lines
    }
}
