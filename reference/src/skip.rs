//! Skipping the calm (request (xii)): many ticks without access on steady
//! wires. Here they are plain ticks, one after another.

use crate::answer::Refusal;
use crate::handler::{Access, Handler, Outcome, Ticked};
use crate::line_pairs::{LinePairs, LINES};
use crate::trace::turned;
use crate::wires::{Sample, Wires};

/// The entries that the list of changes needs: each class changes the lines at
/// most five times, at the start of its four phases and of Terminal.
pub const CHANGES: usize = 20;

/// Runs this many ticks without access, each with these alert wires, the word 0
/// and escalation receivers that answer without fault. Gives what the last tick
/// gave, but for the answer: that is the number of ticks at which a line
/// changed. They stand at the front of `changes`, in order, as words: lines (4
/// bits, line 0 first), 28 zeros, tick (32 bits, the first is 1). Later entries
/// stay as they were.
///
/// Tick 0 is the given state: its lines are those before the first tick, and
/// without ticks its interrupts and lines go out, with every pair at (0,1).
///
/// Answers -7, -15 where the ping timer is on, and -18 where `changes` has
/// fewer than 20 entries, in this order. Each leaves state and list unchanged,
/// with interrupts and lines 0 and every pair at (0,1).
pub fn skip(
    handler: &mut Handler,
    pos: &Wires,
    neg: &Wires,
    ticks: u32,
    changes: &mut [u64],
) -> Ticked {
    if let Some(refusal) = refusal(handler, changes) {
        return Ticked::refused(refusal);
    }
    let mut last = Ticked::at_rest(Outcome {
        answer: 0,
        interrupts: handler.interrupts(),
        lines: handler.lines(),
    });
    let mut lines = last.lines;
    let mut found = 0;
    for tick in 1..=ticks {
        let sample = calm(handler, pos, neg);
        let now = if tick == ticks {
            last = handler.tick(Access::None, &sample);
            last.lines
        } else {
            // Ticks keep a valid state valid, and their pairs do not go out.
            handler.run(Access::None, &sample).lines
        };
        if now != lines {
            changes[found] = change(now, tick);
            found += 1;
        }
        lines = now;
    }
    last.answer = found as i64;
    last
}

/// Why the skip is refused, if it is.
fn refusal(handler: &Handler, changes: &[u64]) -> Option<Refusal> {
    if !handler.valid() {
        Some(Refusal::BrokenState)
    } else if handler.timer.on() {
        Some(Refusal::TimerOn)
    } else if changes.len() < CHANGES {
        Some(Refusal::ShortChanges)
    } else {
        None
    }
}

/// The sample of the coming tick. Each sender knows what a sound receiver of
/// the pairs sent so far, before the skip too, answers in it.
fn calm(handler: &Handler, pos: &Wires, neg: &Wires) -> Sample {
    let mut receive = LinePairs::at_rest();
    for e in 0..LINES {
        let level = handler.senders[e].expected();
        receive = receive.with(e, (level, !level));
    }
    Sample {
        pos: *pos,
        neg: *neg,
        word: 0,
        receive: Some(receive),
        answers: 0,
    }
}

/// The word of a change.
fn change(lines: u8, tick: u32) -> u64 {
    (u64::from(turned(lines)) << 60) | u64::from(tick)
}
