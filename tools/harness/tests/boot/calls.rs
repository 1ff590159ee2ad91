//! Slips in how an installer goes about it: its ticks, where it stops, what it
//! gives.

use crate::slip::Slip::{self, Gives, GoesOn, Takes, Ticks};
use handler::boot::{inputs, Entry};
use handler::{Access, Answer, Handler, Input, Installed, LinePairs, Sample, Wires};

/// The ticks of an entry without some of them.
fn without(entry: Entry, dropped: fn(usize, &Access) -> bool) -> Vec<Input> {
    let ticks = inputs(entry).into_iter().enumerate();
    let kept = ticks.filter(|(at, tick)| !dropped(*at, &tick.access));
    kept.map(|(_, tick)| tick).collect()
}

/// The ticks of an entry with other wires.
fn rewired(entry: Entry, change: fn(&mut Wires)) -> Vec<Input> {
    let mut ticks = inputs(entry);
    ticks
        .iter_mut()
        .for_each(|tick| change(&mut tick.sample.alerts));
    ticks
}

/// A refused boot.
fn refused(before: &Handler, number: i64) -> Installed {
    Installed {
        handler: *before,
        answer: Answer(-number),
        register: 0,
    }
}

/// Slips in the ticks.
pub const TICKS: &[Slip] = &[
    Ticks("one write each", |entry| without(entry, |at, _| at == 0)),
    Ticks("no read-back", |entry| {
        without(entry, |_, access| matches!(access, Access::Read(_)))
    }),
    Ticks("no read-back of locks", |entry| {
        without(entry, |at, access| {
            at == 1 && matches!(access, Access::Read(_))
        })
    }),
    Ticks("a lock written twice", |entry| {
        let ticks = inputs(entry);
        let twice = ticks.len() == 2;
        ticks[..usize::from(twice)]
            .iter()
            .chain(&ticks)
            .copied()
            .collect()
    }),
    Ticks("all wires low", |entry| {
        rewired(entry, |wires| wires.neg.fill(0))
    }),
    Ticks("another word", |entry| {
        let mut ticks = inputs(entry);
        ticks.iter_mut().for_each(|tick| tick.sample.word = 1 << 16);
        ticks
    }),
    Ticks("receive pairs that answer", |entry| {
        let mut ticks = inputs(entry);
        let all = LinePairs::sound(15);
        ticks.iter_mut().for_each(|tick| tick.sample.receive = all);
        ticks
    }),
    Ticks("equal receive pairs", |entry| {
        let mut ticks = inputs(entry);
        let low = LinePairs { pos: 0, neg: 0 };
        ticks.iter_mut().for_each(|tick| tick.sample.receive = low);
        ticks
    }),
    Ticks("only 64 alerts at rest", |entry| {
        rewired(entry, |wires| wires.neg[1..].fill(0))
    }),
];

/// Slips in where it stops, and in what it gives.
pub const ENDS: &[Slip] = &[
    GoesOn("a locked register passed over", |answer| answer == -3),
    GoesOn("a differing stage passed over", |answer| answer == -12),
    Gives("the state before where it stopped", |before, given| {
        let handler = match given.register {
            0 => given.handler,
            _ => *before,
        };
        Installed { handler, ..given }
    }),
    Gives("no register where it stopped", |_, given| Installed {
        register: 0,
        ..given
    }),
    Gives("the next register where it stopped", |_, given| Installed {
        register: given.register + u16::from(given.register > 0),
        ..given
    }),
    Gives("the positive number of a refusal", |_, given| Installed {
        answer: Answer(given.answer.0.abs()),
        ..given
    }),
    Gives("the last value read on success", |_, given| Installed {
        answer: Answer(given.answer.0 + i64::from(given.is_whole()) * 0x393C),
        ..given
    }),
    Gives("58 alerts are too few", |before, given| {
        match (before.n, given.answer.0) {
            (58, 0 | -3 | -12) => refused(before, 13),
            _ => given,
        }
    }),
    Gives("13 before 7", |before, given| match given.answer.0 {
        -7 if before.n < 58 => refused(before, 13),
        _ => given,
    }),
    Gives("a tick before the refusal", |before, given| {
        match given.answer.0 {
            -13 => {
                let handler = before.tick(Access::Nothing, Sample::AT_REST).handler;
                Installed { handler, ..given }
            }
            _ => given,
        }
    }),
];

/// Slips in the lifecycle.
pub const LIFECYCLES: &[Slip] = &[
    Takes("a number over 5 taken for RAW", |number| match number {
        0..=5 => number,
        _ => 0,
    }),
    Takes("the low bits of a number taken", |number| number & 7),
    Takes("DEV and RMA exchanged", |number| match number {
        3 => 4,
        4 => 3,
        _ => number,
    }),
];
