//! What may go wrong with the ping timer, as far as words show it: one slip or more for each reading of request (ix).

use super::Slip;

/// A slip in the turn's tick, in the timer, in its place among the steps, and in the records.
const fn turn(name: &'static str, right: &'static str, wrong: &'static str) -> Slip {
    slip(name, "pings.rs", right, wrong)
}

const fn timer(name: &'static str, right: &'static str, wrong: &'static str) -> Slip {
    slip(name, "timer.rs", right, wrong)
}

const fn steps(name: &'static str, right: &'static str, wrong: &'static str) -> Slip {
    slip(name, "handler.rs", right, wrong)
}

const fn record(name: &'static str, right: &'static str, wrong: &'static str) -> Slip {
    slip(name, "trace.rs", right, wrong)
}

const fn slip(
    name: &'static str,
    file: &'static str,
    right: &'static str,
    wrong: &'static str,
) -> Slip {
    Slip {
        name,
        file,
        right,
        wrong,
    }
}

/// The access, and then the samples.
const STEPS: &str = "let (answer, cleared) = self.access(access);
        let mut standing = self.open_due(on, sample);
        let pulse = self.pulse(standing);
        let mut assigned = self.sample(&sample.pos, &sample.neg);
        let right = self.check_answers(sample.receive, &mut assigned);
        standing = self.settle(standing, sample, right, &mut assigned);";
/// A line's answer.
const ANSWERED: &str = "return (sample.answers >> e) & 1 == 1;";
/// A due alert that is pinged, and one that is not.
const PINGED: &str = "Turn::Alert(i) if self.pingable(i) => self.receivers[i].ask(),";
const NOT_PINGED: &str = "Turn::Alert(_) => return Standing::Over,";
/// What a word draws.
const COUNT: &str = "self.count = word as u16;";
const ALERT: &str = "self.alert = (word >> 16) as u8;";
/// What waits for the timeout.
const WAITS: &str = "if timeout == 0 || self.timer.count < timeout {";

/// Slips about when a ping is due, when it fails, and what ends a turn.
pub const TURNS: &[Slip] = &[
    turn(
        "a ping due one tick early",
        "        if self.timer.count > 0 {
            self.timer.count -= 1;
            return Standing::Waiting;
        }",
        "        if self.timer.count > 1 {
            self.timer.count -= 1;
            return Standing::Waiting;
        }
        self.timer.count = 0;",
    ),
    timer(
        "a ping due one tick late",
        COUNT,
        "self.count = (word as u16).saturating_add(1);",
    ),
    timer(
        "the wait cut to 15 bits",
        COUNT,
        "self.count = word as u16 & 0x7FFF;",
    ),
    timer(
        "a line's ping due at once",
        COUNT,
        "self.count = if self.number % 2 == 1 { 0 } else { word as u16 };",
    ),
    turn(
        "a ping counts down in the tick in which the timer goes on",
        "if !on {",
        "if !self.timer.on() {",
    ),
    turn(
        "a ping fails one tick early",
        WAITS,
        "if timeout == 0 || self.timer.count + 1 < timeout {",
    ),
    turn(
        "a ping fails one tick late",
        WAITS,
        "if timeout == 0 || self.timer.count <= timeout {",
    ),
    turn(
        "a ping fails at timeout 0",
        WAITS,
        "if self.timer.count < timeout {",
    ),
    turn(
        "the age of a ping stays at 255",
        "self.timer.count = self.timer.count.saturating_add(1);",
        "self.timer.count = self.timer.count.saturating_add(1).min(255);",
    ),
    turn(
        "a failed ping stays open",
        "        self.close(turn);
        let failed",
        "        let failed",
    ),
    turn(
        "a failed ping does not end the turn",
        "self.occur(failed, assigned);
        Standing::Over",
        "self.occur(failed, assigned);
        Standing::Open",
    ),
    turn(
        "local 0 and 1 exchanged",
        "            Turn::Alert(_) => ALERT_PING,
            Turn::Line(_) => ESCALATION_PING,",
        "            Turn::Alert(_) => ESCALATION_PING,
            Turn::Line(_) => ALERT_PING,",
    ),
    turn(
        "a failed ping of a line makes nothing occur",
        "self.occur(failed, assigned);",
        "if failed == ALERT_PING {
            self.occur(failed, assigned);
        }",
    ),
    steps(
        "a changed timeout counts from the next tick on",
        STEPS,
        "let old = self.timer.timeout;
        let (answer, cleared) = self.access(access);
        let new = std::mem::replace(&mut self.timer.timeout, old);
        let mut standing = self.open_due(on, sample);
        let pulse = self.pulse(standing);
        let mut assigned = self.sample(&sample.pos, &sample.neg);
        let right = self.check_answers(sample.receive, &mut assigned);
        standing = self.settle(standing, sample, right, &mut assigned);
        self.timer.timeout = new;",
    ),
    turn(
        "the word of the tick before sets a turn",
        "        if standing == Standing::Over {
            self.timer.next_turn(word);",
        "        thread_local! {
            static LAST: std::cell::Cell<u32> = std::cell::Cell::new(0);
        }
        let last = LAST.with(|last| last.replace(word));
        if standing == Standing::Over {
            self.timer.next_turn(last);",
    ),
    turn(
        "an alert that is not pinged is drawn again",
        NOT_PINGED,
        "Turn::Alert(_) => {
                self.timer.number = self.timer.number.wrapping_sub(1);
                return Standing::Over;
            }",
    ),
    turn(
        "an alert that is not pinged is waited for",
        NOT_PINGED,
        "Turn::Alert(_) => return Standing::Waiting,",
    ),
];

/// Slips about whose turn it is, and which alert can be pinged.
pub const DRAWN: &[Slip] = &[
    turn("an unlocked alert pinged", "self.alerts[i].regwen == 0 && ", ""),
    turn("a disabled alert pinged", " && self.alerts[i].en == 1", ""),
    turn(
        "an alert in a handshake is not pinged",
        PINGED,
        "Turn::Alert(i) if self.pingable(i) && self.receivers[i].place == crate::receiver::Place::Ready => {
                self.receivers[i].ask()
            }",
    ),
    turn(
        "an alert at N and above counts as the last one",
        PINGED,
        "Turn::Alert(i) if self.pingable(i.min(self.n as usize - 1)) => {
                let i = i.min(self.n as usize - 1);
                self.timer.alert = i as u8;
                self.receivers[i].ask()
            }",
    ),
    steps(
        "a lock by the access of the due tick does not count",
        STEPS,
        "let old = self.alerts;
        let (answer, cleared) = self.access(access);
        let new = self.alerts;
        for i in 0..MAX_ALERTS {
            self.alerts[i].regwen = old[i].regwen;
        }
        let mut standing = self.open_due(on, sample);
        let pulse = self.pulse(standing);
        let mut assigned = self.sample(&sample.pos, &sample.neg);
        let right = self.check_answers(sample.receive, &mut assigned);
        standing = self.settle(standing, sample, right, &mut assigned);
        for i in 0..MAX_ALERTS {
            self.alerts[i].regwen = new[i].regwen;
        }",
    ),
    timer("the alert drawn from the top bits", ALERT, "self.alert = (word >> 24) as u8;"),
    timer("the alert drawn in seven bits", ALERT, "self.alert = (word >> 16) as u8 & 0x7F;"),
    timer("a line's turn first", "self.number = 0;\n        self.draw(word);", "self.number = 1;\n        self.draw(word);"),
    timer("lines from 3 down", "self.number / 2 % 4", "3 - self.number / 2 % 4"),
    timer("line 3 left out", "self.number / 2 % 4", "self.number / 2 % 3"),
    timer("alerts alone", "self.number.wrapping_add(1);", "self.number.wrapping_add(2);"),
    timer(
        "the enable written again begins anew",
        "TimerField::Enable => self.enable |= value as u8,",
        "TimerField::Enable => {
                if value == 1 && self.lines & 15 == 0 {
                    self.count = 0;
                }
                self.enable |= value as u8
            }",
    ),
    timer(
        "a written 0 turns the timer off",
        "TimerField::Enable => self.enable |= value as u8,",
        "TimerField::Enable => self.enable = value as u8,",
    ),
];

/// Slips about answers.
pub const ANSWERS: &[Slip] = &[
    turn("a line's answer in the tick of its ping is lost", ANSWERED, "return (sample.answers >> e) & 1 == 1 && self.timer.count > 0;"),
    turn("any line's answer counts", ANSWERED, "return sample.answers & 15 != 0;"),
    turn(
        "an answer of another line fails the ping",
        "if let Turn::Line(e) = turn {",
        "if let Turn::Line(e) = turn {
            if sample.answers & 15 != 0 && (sample.answers >> e) & 1 == 0 {
                self.occur(ESCALATION_PING, assigned);
            }",
    ),
    turn(
        "a line's answer in the tick of the timeout is too late",
        ANSWERED,
        "return (sample.answers >> e) & 1 == 1 && (self.timer.timeout == 0 || self.timer.count < self.timer.timeout);",
    ),
    slip("a rise that answers is an event", "receiver.rs", "let event = !self.open;", "let event = true;"),
    slip(
        "a rise does not close the ping",
        "receiver.rs",
        "        self.open = false;
        event",
        "        event",
    ),
    slip(
        "a rise in the tick of the ping is an event",
        "pings.rs",
        "Turn::Alert(i) if self.pingable(i) => self.receivers[i].ask(),",
        "Turn::Alert(i) if self.pingable(i) => {
                self.timer.count = 1;
                return Standing::Open;
            }",
    ),
    steps(
        "an answer is read where no ping is open",
        "        standing = self.settle",
        "        if on && standing == crate::pings::Standing::Waiting && sample.answers & 15 != 0 {
            standing = crate::pings::Standing::Over;
        }
        standing = self.settle",
    ),
];

/// Slips about the timer's registers and its records.
pub const RECORDS: &[Slip] = &[
    timer(
        "the enable is not locked",
        "TimerField::Timeout | TimerField::Enable => self.regwen == 0,",
        "TimerField::Timeout => self.regwen == 0,
            TimerField::Enable => false,",
    ),
    timer(
        "a 0 to the locked enable accepted",
        "TimerField::Timeout | TimerField::Enable => self.regwen == 0,",
        "TimerField::Timeout => self.regwen == 0,
            TimerField::Enable => self.regwen == 0 && value != 0,",
    ),
    timer(
        "the timeout is not locked",
        "TimerField::Timeout | TimerField::Enable => self.regwen == 0,",
        "TimerField::Timeout => false,
            TimerField::Enable => self.regwen == 0,",
    ),
    timer(
        "a 1 opens the timer's lock",
        "TimerField::Regwen => self.regwen == 0 && value != 0,",
        "TimerField::Regwen => false,",
    ),
    slip(
        "the timeout takes one write",
        "register.rs",
        "field == TimerField::Timeout,",
        "false,",
    ),
    slip(
        "the enable takes two writes",
        "register.rs",
        "field == TimerField::Timeout,",
        "field != TimerField::Regwen,",
    ),
    slip(
        "the timeout has 15 bits",
        "register.rs",
        "TimerField::Timeout => 0xFFFF,",
        "TimerField::Timeout => 0x7FFF,",
    ),
    record(
        "the answers' last line first",
        "sample.answers = turned(rest[4] & 0xF);",
        "sample.answers = rest[4] & 0xF;",
    ),
    record(
        "the word's low half first",
        "sample.word = number(&rest[..4]);",
        "sample.word = number(&rest[..4]).rotate_left(16);",
    ),
    record(
        "a zero bit before the answers accepted",
        "if rest[4] >> 4 != 0 {",
        "if rest[4] >> 4 > 1 {",
    ),
    record(
        "a malformed record's answers do not count",
        "        if rest[4] >> 4 != 0 {
            access",
        "        if rest[4] >> 4 != 0 {
            sample.answers = 0;
            access",
    ),
    record(
        "a malformed record's word does not count",
        "        if rest[4] >> 4 != 0 {
            access",
        "        if rest[4] >> 4 != 0 {
            sample.word = 0;
            access",
    ),
    record(
        "a record of 70 bytes reaches the timer",
        "Edition::Second => without_timer(number),",
        "Edition::Second => number,",
    ),
    slip(
        "a record of 70 bytes reaches the timeout",
        "carried.rs",
        "4..=6 => UNASSIGNED,",
        "4 | 6 => UNASSIGNED,",
    ),
    slip(
        "a record of 24 bytes reaches the timer",
        "carried.rs",
        "0..=2 | 16..=22",
        "0..=2 | 4..=6 | 16..=22",
    ),
    slip(
        "a first byte of 254 is N",
        "reference-replay.rs",
        "        Some(THIRD) => (Edition::Third, byte(input)?),\n",
        "",
    ),
];
