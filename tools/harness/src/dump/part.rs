//! The parts of a dump, and which of them a bit stands in.

use handler::{CLASSES, LOCALS};

/// A part of a dump.
#[derive(Clone, Copy, Debug, PartialEq, Eq)]
pub enum Part {
    /// TDMP.
    Mark,
    /// N.
    Alerts,
    /// A class's STATE.
    State,
    /// Its count.
    Count,
    /// Its accumulator.
    Accumulator,
    /// A cause.
    Cause,
    /// A lock.
    Lock,
    /// The zeros to a full byte.
    Padding,
    /// The number of open stages.
    Number,
    /// A stage's register.
    Register,
    /// A stage's value.
    Value,
}

/// Every part with its name, in their order.
pub const PARTS: [(Part, &str); 11] = [
    (Part::Mark, "TDMP"),
    (Part::Alerts, "N"),
    (Part::State, "STATE"),
    (Part::Count, "count"),
    (Part::Accumulator, "accumulator"),
    (Part::Cause, "cause"),
    (Part::Lock, "lock"),
    (Part::Padding, "padding"),
    (Part::Number, "number of stages"),
    (Part::Register, "stage's register"),
    (Part::Value, "stage's value"),
];

/// The byte of N, and the first bit behind it.
pub const ALERTS: usize = 4;
pub const CLASSES_FROM: usize = 8 * (ALERTS + 1);
/// The bits of a class: STATE, count, accumulator.
pub const STATE: usize = 3;
pub const COUNT: usize = 32;
pub const CLASS: usize = STATE + COUNT + 16;
/// The bytes of a stage, and those of its register.
pub const STAGE: usize = 6;
pub const REGISTER: usize = 2;

/// The first bit of the causes, of the locks, and the one behind them.
pub fn bits(n: usize) -> [usize; 3] {
    let causes = CLASSES_FROM + CLASSES * CLASS;
    let locks = causes + LOCALS + n;
    [causes, locks, locks + 1 + LOCALS + n + 2 * CLASSES]
}

/// The bytes before the number of stages, for n alerts.
pub fn head(n: usize) -> usize {
    (bits(n)[2] + 7) / 8
}

/// The part that a bit of a dump stands in, or would in a longer one.
pub fn part(dump: &[u8], bit: usize) -> Part {
    let n = dump.get(ALERTS).copied().map_or(0, usize::from);
    let ([causes, locks, end], head) = (bits(n), 8 * head(n));
    match bit {
        _ if bit < 8 * ALERTS => Part::Mark,
        _ if bit < CLASSES_FROM => Part::Alerts,
        _ if bit < causes => match (bit - CLASSES_FROM) % CLASS {
            0..=2 => Part::State,
            3..=34 => Part::Count,
            _ => Part::Accumulator,
        },
        _ if bit < locks => Part::Cause,
        _ if bit < end => Part::Lock,
        _ if bit < head => Part::Padding,
        _ if bit < head + 16 => Part::Number,
        _ => match (bit - head - 16) % (8 * STAGE) < 8 * REGISTER {
            true => Part::Register,
            false => Part::Value,
        },
    }
}
