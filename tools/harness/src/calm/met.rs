//! What calm ticks met: each kind must be there, else a run says nothing of it.

use super::plain::{drives, Plain};
use super::start::Start;
use crate::calls::bit;
use handler::{Class, Handler, LinePairs, Wires, CLASSES, LINES};

/// Something that calm ticks may meet.
#[derive(Clone, Copy, Debug, PartialEq, Eq)]
pub enum Kind {
    NoTicks,
    NoTicksLine,
    NoTicksPairs,
    Threshold,
    Timeout,
    TimeoutByEvent,
    NotDue,
    Due,
    Length0,
    Length1,
    LengthMost,
    LengthMostEnds,
    Full,
    StaysFull,
    TerminalCounts,
    TwoMove,
    ThreeMove,
    FourMove,
    SeveralLines,
    MoveUnseen,
    HandedOver,
    LoneTick,
    EqualWires,
    EqualUnheard,
    RiseWaits,
    FirstTick,
    LastTick,
    Acknowledge,
    Ping,
    Escalation,
    Stages,
    NoAlerts,
    LongRun,
    NoneFirst,
    NoneSecond,
    AtTheJoin,
    AfterTheJoin,
    MostTicks,
    FarChange,
}

use Kind::*;

/// Every kind with its name.
pub const KINDS: [(Kind, &str); 39] = [
    (NoTicks, "0 ticks"),
    (NoTicksLine, "0 ticks with a line on"),
    (NoTicksPairs, "0 ticks where a tick shows pairs"),
    (Threshold, "threshold met inside a jump"),
    (Timeout, "timeout met inside a jump"),
    (TimeoutByEvent, "timeout ended by an event inside a jump"),
    (NotDue, "Timeout to Idle"),
    (Due, "Idle to Timeout"),
    (Length0, "phase of length 0"),
    (Length1, "phase of length 1"),
    (LengthMost, "phase of length 4294967295"),
    (LengthMostEnds, "end of a phase of length 4294967295"),
    (Full, "accumulator comes to 65535 inside a jump"),
    (StaysFull, "accumulator stays at 65535"),
    (TerminalCounts, "event counted in Terminal"),
    (TwoMove, "two classes move in one tick"),
    (ThreeMove, "three"),
    (FourMove, "four"),
    (SeveralLines, "several lines change in one tick"),
    (MoveUnseen, "class moves and no line changes"),
    (HandedOver, "line goes from class to class"),
    (LoneTick, "line on for a lone tick"),
    (EqualWires, "equal wires, local 2 enabled"),
    (EqualUnheard, "equal wires, local 2 disabled"),
    (RiseWaits, "rise that waits for the pause"),
    (FirstTick, "change in tick 1"),
    (LastTick, "change in the last tick"),
    (Acknowledge, "acknowledge pair on at the end"),
    (Ping, "ping pair on at the end"),
    (Escalation, "escalation pair on at the end"),
    (Stages, "open stages"),
    (NoAlerts, "no alerts"),
    (LongRun, "more than 65535 plain ticks"),
    (NoneFirst, "m = 0"),
    (NoneSecond, "n = 0"),
    (AtTheJoin, "change in tick m"),
    (AfterTheJoin, "change in tick m + 1"),
    (MostTicks, "m + n = 4294967295"),
    (FarChange, "change after tick 2147483648"),
];

/// Ticks in which an engine may still run plain ones.
const SETTLING: u32 = 6;

/// How often each kind was met.
pub struct Met(pub [u64; KINDS.len()]);

impl Default for Met {
    fn default() -> Met {
        Met([0; KINDS.len()])
    }
}

/// Whether an enabled alert has equal wires.
fn is_broken(state: &Handler, wires: &Wires) -> bool {
    let equal = |i: usize| bit(&wires.pos, i) == bit(&wires.neg, i);
    (0..state.n).any(|i| state.alerts.en[i] == 1 && equal(i))
}

/// The class that has an event in every tick: an enabled alert has equal wires,
/// local 2 is enabled in it, and it has EN and at least one line enable.
pub fn always_hit(start: &Start) -> Option<usize> {
    let Start { state, wires } = start;
    let k = usize::from(state.locals.class[2]);
    let class = state.classes.get(k)?;
    let enabled = class.ctrl & 1 == 1 && class.ctrl & 0x3C != 0;
    let occurs = state.locals.en[2] == 1 && is_broken(state, wires);
    (enabled && occurs).then_some(k)
}

/// The length of the phase that a class is in.
fn phase_length(class: &Class) -> Option<u32> {
    let phase = class.state.checked_sub(4)?;
    class.lengths.get(phase as usize).copied()
}

impl Met {
    /// Counts a kind where it is there.
    pub fn note(&mut self, kind: Kind, is: bool) {
        self.0[kind as usize] += u64::from(is);
    }

    /// What a state and its wires have before the first tick.
    pub fn start(&mut self, start: &Start) {
        let Start { state, wires } = start;
        let broken = is_broken(state, wires);
        self.note(EqualWires, broken && state.locals.en[2] == 1);
        self.note(EqualUnheard, broken && state.locals.en[2] == 0);
        self.note(NoAlerts, state.n == 0);
        self.note(Stages, state.stages != handler::Stages::NONE);
    }

    /// What a tick of a plain run met: the run before and after it, and the
    /// class that has an event in every tick.
    pub fn tick(&mut self, hit: Option<usize>, before: &Plain, after: &Plain) {
        let tick = after.ticks;
        let mut moved = 0;
        for k in 0..CLASSES {
            let [was, is] = [before, after].map(|run| run.handler.classes[k]);
            moved += u32::from(was.state != is.state);
            self.moves(tick > SETTLING, &was, &is);
            let full = hit == Some(k) && was.accum == 65535;
            self.note(StaysFull, full && tick > SETTLING);
        }
        let changed = before.output.lines ^ after.output.lines;
        self.note(TwoMove, moved == 2);
        self.note(ThreeMove, moved == 3);
        self.note(FourMove, moved == 4);
        self.note(SeveralLines, changed.count_ones() > 1);
        self.note(MoveUnseen, moved > 0 && changed == 0);
        self.note(HandedOver, is_handed(&before.handler, &after.handler));
        let (lines, sent) = (after.output.lines, after.output.escalation.pos);
        self.note(LoneTick, tick > 1 && sent & !lines != 0);
        let cause = |run: &Plain| run.handler.alerts.cause;
        self.note(RiseWaits, tick > 1 && cause(before) != cause(after));
        self.note(FirstTick, tick == 1 && changed != 0);
    }

    /// What became of one class; whether inside a jump.
    fn moves(&mut self, inside: bool, was: &Class, is: &Class) {
        let to = (was.state, is.state);
        self.note(Threshold, inside && to == (0, 4));
        let due = was.count >= was.timeout;
        self.note(Timeout, inside && to == (1, 4) && due);
        self.note(TimeoutByEvent, inside && to == (1, 4) && !due);
        self.note(NotDue, to == (1, 0));
        self.note(Due, to == (0, 1));
        let left = phase_length(was).filter(|_| was.state != is.state);
        self.note(Length0, inside && left == Some(0));
        self.note(Length1, inside && left == Some(1));
        self.note(LengthMost, inside && phase_length(is) == Some(u32::MAX));
        self.note(LengthMostEnds, left == Some(u32::MAX));
        self.note(Full, inside && (was.accum, is.accum) == (65534, 65535));
        self.note(TerminalCounts, to == (3, 3) && was.accum != is.accum);
    }

    /// What the last tick of a run shows.
    pub fn end(&mut self, plain: &Plain) {
        let output = &plain.output;
        let last = plain.changes.last().map(|change| change.tick());
        self.note(LastTick, last == Some(plain.ticks));
        self.note(Acknowledge, output.acknowledge != Wires::REST);
        self.note(Ping, output.ping != Wires::REST);
        self.note(Escalation, output.escalation != LinePairs::REST);
        self.note(LongRun, plain.ticks > 65535);
    }

    /// The names of those that were never met.
    pub fn missed(&self) -> impl Iterator<Item = &'static str> + '_ {
        let never = KINDS.iter().filter(|(kind, _)| self.0[*kind as usize] == 0);
        never.map(|(_, name)| *name)
    }
}

/// Whether a line stays on that one class leaves and another takes.
fn is_handed(before: &Handler, after: &Handler) -> bool {
    let at = |state: &Handler, e: usize| -> Vec<bool> {
        let drives = |class| drives(class, e);
        state.classes.iter().map(drives).collect()
    };
    (0..LINES).any(|e| {
        let (was, is) = (at(before, e), at(after, e));
        let left = (0..CLASSES).any(|k| was[k] && !is[k]);
        left && (0..CLASSES).any(|k| !was[k] && is[k])
    })
}
