//! The ping timer: whose turn it is, its ping, and the turn that a tick sets. Read off the library's states and its account of
//! what was heard; that a line answers, the sample says: its answer bit, or the fourth of four right receive pairs.
use super::tick::Tick;
use super::{events, pairs};
use crate::alert_bits::{is_set, put, AlertBits};
use handler::{Handler, Whose, WORDS};

/// How a turn ends.
#[derive(Clone, Copy, Debug, PartialEq, Eq)]
pub enum End {
    Answered,
    Failed,
    /// No ping was sent: the alert was not locked and enabled when it was due, or an escalation was on the line's wires.
    Unsent,
    /// An escalation on the line closed it, unfailed.
    Closed,
}

/// The ticks from a line's ping to the last of its right answers.
const ANSWER: u32 = 4;

/// What a tick does with the turn.
#[derive(Clone, Copy, Debug, PartialEq, Eq)]
pub struct Ping {
    pub of: Whose,
    /// Its ping is opened in this tick.
    pub sent: bool,
    /// Its ping is open in this tick, up to its answer or failure.
    pub open: bool,
    pub end: Option<End>,
}

/// A turn that the tick's word sets.
#[derive(Clone, Copy, Debug, PartialEq, Eq)]
pub struct Drawn {
    pub of: Whose,
    /// The ticks to its ping, 1 to 65,536.
    pub wait: u32,
}

/// Does the timer go on in this tick?
pub fn begins(t: &Tick) -> bool {
    !t.before.timer.is_on() && t.after.timer.is_on()
}

/// The turn that stands, where the timer is on.
pub fn turn(h: &Handler) -> Option<Whose> {
    h.timer.is_on().then(|| h.links.turn.whose())
}

fn is_open(h: &Handler, of: Whose) -> bool {
    match of {
        Whose::Alert(i) => i < h.n && is_set(&h.links.receivers.pending, i),
        Whose::Line(e) => h.links.lines >> e & 1 == 1,
    }
}

/// An alert's ping that opens changes its level; a line's opens when it is due, and stays open in that tick where it is sent on
/// the wires.
fn is_sent(t: &Tick, of: Whose) -> bool {
    let level = |h: &Handler, i| is_set(&h.links.receivers.level, i);
    let is_new = !is_open(&t.before, of);
    match of {
        Whose::Alert(i) => i < t.before.n && level(&t.before, i) != level(&t.after, i),
        Whose::Line(_) if t.edition.has_receive() => is_new && is_open(&t.after, of),
        Whose::Line(_) => is_new && t.before.links.turn.count == 0,
    }
}

/// The ticks since the open ping was sent.
fn age(t: &Tick) -> u32 {
    u32::from(t.before.links.turn.count.saturating_add(1))
}

/// All four answers to a line's ping were right, and this tick's is the last.
fn is_right(t: &Tick, e: usize) -> bool {
    age(t) == ANSWER && t.before.links.right & 1 == 1 && !pairs::is_wrong(t, e)
}

fn is_answered(t: &Tick, of: Whose) -> bool {
    match of {
        Whose::Alert(i) => i < t.before.n && is_set(&events::answers(t), i),
        Whose::Line(e) if t.edition.has_receive() => is_right(t, e),
        Whose::Line(e) => t.input.answers >> e & 1 == 1,
    }
}

/// How an open ping ends that is not answered: by the timeout, which comes first, or by an escalation.
fn unanswered(t: &Tick, of: Whose) -> End {
    let timeout = t.after.timer.timeout;
    match of {
        Whose::Line(_) if timeout == 0 || age(t) < timeout => End::Closed,
        _ => End::Failed,
    }
}

/// What the tick does with the turn that it meets; nothing where the timer is off.
pub fn ping(t: &Tick) -> Option<Ping> {
    let of = turn(&t.before)?;
    let sent = is_sent(t, of);
    let open = sent || is_open(&t.before, of);
    // The next turn has another number.
    let ends = t.before.links.turn.number != t.after.links.turn.number;
    let end = match open {
        false => End::Unsent,
        true if is_answered(t, of) => End::Answered,
        true => unanswered(t, of),
    };
    Some(Ping {
        of,
        sent,
        open,
        end: ends.then_some(end),
    })
}

/// The turn that the tick's word sets: the first one, or the next where one ends.
pub fn drawn(t: &Tick) -> Option<Drawn> {
    let ends = ping(t).map_or(false, |ping| ping.end.is_some());
    let turn = t.after.links.turn;
    (begins(t) || ends).then(|| Drawn {
        of: turn.whose(),
        wait: u32::from(turn.count) + 1,
    })
}

/// The ping that fails in this tick.
pub fn failed(t: &Tick) -> Option<Whose> {
    let ping = ping(t)?;
    (ping.end == Some(End::Failed)).then_some(ping.of)
}

/// The alert whose ping is open in this tick, as a bit.
pub fn pinged(t: &Tick) -> AlertBits {
    let mut bits = [0; WORDS];
    if let Some(Ping {
        of: Whose::Alert(i),
        open: true,
        ..
    }) = ping(t)
    {
        put(&mut bits, i, true);
    }
    bits
}
