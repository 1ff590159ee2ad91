//! The signals of a dump: where each stands, its name and its value in a tick.
use super::moved::Moved;
use super::value::{Kind, Value};
use crate::alert_bits::{self, is_set};
use crate::facts::clears::{clear, Clear};
use crate::facts::receivers::{acknowledged, ping_levels};
use crate::facts::tick::Tick;
use crate::facts::timer::{self, End, Ping};
use crate::facts::{answer, events, pairs};
use crate::names;
use handler::registers::{Field, Naming, Register, Setting, LETTERS};
use handler::{Access, LinePairs, CLASSES, LINES, LOCALS};

#[derive(Clone, Copy, Debug, PartialEq, Eq)]
pub enum Signal {
    /// The positive wire, then the negative one.
    Pair(usize),
    Event(usize),
    Cause(usize),
    /// Where the receiver stands as the tick begins.
    Stands(usize),
    /// The acknowledge pair at (1,0).
    Acknowledge(usize),
    /// The ping pair at (1,0).
    Ping(usize),
    PingAnswer(usize),
    LocalEvent(usize),
    LocalCause(usize),
    State(usize),
    StateName(usize),
    EscCnt(usize),
    AccumCnt(usize),
    Interrupt(usize),
    AcceptedClear(usize),
    Line(usize),
    /// The escalation pair at (1,0).
    Sent(usize),
    /// The receive pair, the right one, and whether they differ.
    Came(usize),
    Right(usize),
    Wrong(usize),
    /// Is the ping timer on after the tick?
    TimerOn,
    /// Whose turn it is.
    PingTurn,
    PingOpen,
    PingAnswered,
    PingFailed,
    PingClosed,
    PingUnsent,
    AccessKind,
    /// The register that is read or written.
    Accessed,
    /// The value that is written.
    Written,
    Answer,
}

use Signal::*;

/// Signals that stand together.
pub struct Scope {
    pub name: String,
    pub signals: Vec<Signal>,
}

/// Of the handshake and of pings only where there are any.
fn alert(moved: &Moved, i: usize) -> Vec<Signal> {
    let mut all = vec![Pair(i), Event(i), Cause(i)];
    if is_set(&moved.shaken, i) {
        all.extend([Stands(i), Acknowledge(i)]);
    }
    if is_set(&moved.pinged, i) {
        all.extend([Ping(i), PingAnswer(i)]);
    }
    all
}

fn alerts(moved: &Moved) -> Vec<Signal> {
    let alerts = alert_bits::alerts(moved.alerts).flat_map(|i| alert(moved, i));
    let locals = (0..LOCALS).filter(|&j| moved.locals[j]);
    let locals = locals.flat_map(|j| [LocalEvent(j), LocalCause(j)]);
    alerts.chain(locals).collect()
}

fn class(k: usize) -> Vec<Signal> {
    vec![
        StateName(k),
        State(k),
        EscCnt(k),
        AccumCnt(k),
        Interrupt(k),
        AcceptedClear(k),
    ]
}

/// Of a line's pairs only where they move.
fn lines(moved: &Moved) -> Vec<Signal> {
    let pairs = (0..LINES).filter(|&e| moved.lines[e]);
    let pairs = pairs.flat_map(|e| [Sent(e), Came(e), Right(e), Wrong(e)]);
    (0..LINES).map(Line).chain(pairs).collect()
}

/// All scopes; of the alerts those that move.
pub fn scopes(moved: &Moved) -> Vec<Scope> {
    let scope = |name: &str, signals| Scope {
        name: name.to_string(),
        signals,
    };
    let mut all = vec![scope("alerts", alerts(moved))];
    for k in 0..CLASSES {
        let letter = LETTERS[k].to_ascii_lowercase();
        all.push(scope(&format!("class_{letter}"), class(k)));
    }
    all.push(scope("lines", lines(moved)));
    if moved.timer {
        let mut timer = vec![TimerOn, PingTurn, PingOpen, PingAnswered, PingFailed];
        if moved.lines.contains(&true) {
            timer.extend([PingClosed, PingUnsent]);
        }
        all.push(scope("pings", timer));
    }
    all.push(scope("access", vec![AccessKind, Accessed, Written, Answer]));
    all
}

fn pair(t: &Tick, i: usize) -> u64 {
    let wires = &t.input.sample.alerts;
    u64::from(is_set(&wires.pos, i)) << 1 | u64::from(is_set(&wires.neg, i))
}

fn line_pair(pairs: LinePairs, e: usize) -> Value {
    let (pos, neg) = pairs.pair(e);
    Value::Number(u64::from(pos) << 1 | u64::from(neg))
}

/// Whose turn the tick meets; nothing where the timer is off.
fn turn(t: &Tick) -> Option<String> {
    timer::turn(&t.before).map(names::pinged)
}

fn is_ping(t: &Tick, of: impl Fn(Ping) -> bool) -> bool {
    timer::ping(t).map_or(false, of)
}

fn access_kind(t: &Tick) -> &'static str {
    match t.input.access {
        _ if t.is_malformed() => "malformed",
        Access::Nothing => "none",
        Access::Read(_) => "read",
        Access::Write(..) => "write",
        Access::Malformed => "malformed",
    }
}

/// The register's name, and the value that is written to it; a malformed record has neither.
fn accessed(t: &Tick) -> (Option<String>, Option<String>) {
    let name = |number| Some(names::register(Naming::Ours, t.edition, number));
    match t.input.access {
        Access::Read(number) if !t.is_malformed() => (name(number), None),
        Access::Write(number, value) if !t.is_malformed() => {
            let value = names::written(t.edition, number, value);
            (name(number), Some(value))
        }
        _ => (None, None),
    }
}

fn text(words: Option<String>) -> Value {
    words.map_or(Value::text("-"), Value::text)
}

impl Signal {
    /// Registers have their own names.
    pub fn name(self) -> String {
        let class = |k, setting| Register::Class(k, setting).to_string();
        match self {
            Pair(i) => format!("ALERT{i}_PAIR"),
            Event(i) => format!("ALERT{i}_EVENT"),
            Cause(i) => Register::Alert(Field::Cause, i).to_string(),
            Stands(i) => format!("ALERT{i}_PLACE"),
            Acknowledge(i) => format!("ALERT{i}_ACK"),
            Ping(i) => format!("ALERT{i}_PING"),
            PingAnswer(i) => format!("ALERT{i}_ANSWER"),
            LocalEvent(j) => format!("LOC_ALERT{j}_EVENT"),
            LocalCause(j) => Register::Local(Field::Cause, j).to_string(),
            State(k) => class(k, Setting::State),
            StateName(k) => format!("CLASS{}_STATE_NAME", LETTERS[k]),
            EscCnt(k) => class(k, Setting::EscCnt),
            AccumCnt(k) => class(k, Setting::AccumCnt),
            Interrupt(k) => format!("CLASS{}_INTERRUPT", LETTERS[k]),
            AcceptedClear(k) => format!("CLASS{}_CLEAR", LETTERS[k]),
            Line(e) => format!("LINE{e}"),
            Sent(e) => format!("LINE{e}_ESC"),
            Came(e) => format!("LINE{e}_BACK"),
            Right(e) => format!("LINE{e}_RIGHT"),
            Wrong(e) => format!("LINE{e}_WRONG"),
            TimerOn => Register::PingEnable.to_string(),
            PingTurn => "TURN".to_string(),
            PingOpen => "OPEN".to_string(),
            PingAnswered => "ANSWERED".to_string(),
            PingFailed => "FAILED".to_string(),
            PingClosed => "CLOSED".to_string(),
            PingUnsent => "UNSENT".to_string(),
            AccessKind => "KIND".to_string(),
            Accessed => "REGISTER".to_string(),
            Written => "VALUE".to_string(),
            Answer => "ANSWER".to_string(),
        }
    }

    pub fn kind(self) -> Kind {
        match self {
            Pair(_) | Came(_) | Right(_) => Kind::Pair,
            State(_) | EscCnt(_) | AccumCnt(_) => Kind::Number,
            StateName(_) | Stands(_) | PingTurn => Kind::Text,
            AccessKind | Accessed | Written | Answer => Kind::Text,
            _ => Kind::Bit,
        }
    }

    /// The alert that it is of, where it is of one.
    pub fn alert(self) -> Option<usize> {
        match self {
            Pair(i) | Event(i) | Cause(i) => Some(i),
            Stands(i) | Acknowledge(i) | Ping(i) | PingAnswer(i) => Some(i),
            _ => None,
        }
    }

    /// Its value in a tick: access and wires of the tick, where receivers stood as it began, states and outputs after it.
    pub fn value(self, t: &Tick) -> Value {
        let classes = &t.after.classes;
        match self {
            Pair(i) => Value::Number(pair(t, i)),
            Event(i) => Value::Bit(is_set(&events::bits(t), i)),
            Cause(i) => Value::Bit(t.after.alerts.cause[i] == 1),
            Stands(i) => Value::text(names::place(t.before.links.receivers.place(i))),
            Acknowledge(i) => Value::Bit(is_set(&acknowledged(t), i)),
            Ping(i) => Value::Bit(is_set(&ping_levels(t), i)),
            PingAnswer(i) => Value::Bit(is_set(&events::answers(t), i)),
            LocalEvent(j) => Value::Bit(events::locals(t).any(|other| other == j)),
            LocalCause(j) => Value::Bit(t.after.locals.cause[j] == 1),
            State(k) => Value::Number(classes[k].state.into()),
            StateName(k) => Value::text(names::state(classes[k].state)),
            EscCnt(k) => Value::Number(classes[k].count.into()),
            AccumCnt(k) => Value::Number(classes[k].accum.into()),
            Interrupt(k) => Value::Bit(t.word.interrupt(k)),
            AcceptedClear(k) => Value::Bit(clear(t, k) == Some(Clear::Accepted)),
            Line(e) => Value::Bit(t.word.line(e)),
            Sent(e) => Value::Bit(pairs::sent(t) >> e & 1 == 1),
            Came(e) => line_pair(t.input.sample.receive, e),
            Right(e) => line_pair(t.before.links.senders.right(), e),
            Wrong(e) => Value::Bit(pairs::is_wrong(t, e)),
            TimerOn => Value::Bit(t.after.timer.is_on()),
            PingTurn => text(turn(t)),
            PingOpen => Value::Bit(is_ping(t, |ping| ping.open)),
            PingAnswered => Value::Bit(is_ping(t, |ping| ping.end == Some(End::Answered))),
            PingFailed => Value::Bit(timer::failed(t).is_some()),
            PingClosed => Value::Bit(is_ping(t, |ping| ping.end == Some(End::Closed))),
            PingUnsent => Value::Bit(is_ping(t, |ping| ping.end == Some(End::Unsent))),
            AccessKind => Value::text(access_kind(t)),
            Accessed => text(accessed(t).0),
            Written => text(accessed(t).1),
            Answer => Value::text(answer::words(t)),
        }
    }
}
