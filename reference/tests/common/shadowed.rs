//! The shadowed registers, written out by hand, and looks at a handler that
//! leave its stages alone.

use super::{read, write};
use reference::{Handler, Stages};

/// A shadowed register: its number and its largest value.
pub type Row = (u16, u32);

/// The shadowed registers of a handler of `n` alerts.
pub fn shadowed(n: u64) -> Vec<Row> {
    let mut rows = vec![(5, 0xFFFF)];
    for j in 0..7 {
        rows.extend([(24 + j, 1), (32 + j, 3)]);
    }
    for i in 0..n as u16 {
        rows.extend([(512 + i, 1), (768 + i, 3)]);
    }
    for class in [1280, 1296, 1312, 1328] {
        rows.extend([(class + 1, 0x3FFF), (class + 5, 0xFFFF)]);
        rows.extend((6..=10).map(|at| (class + at, u32::MAX)));
    }
    rows
}

/// The REGWEN that guards a shadowed register.
pub fn guard(number: u16) -> u16 {
    match number {
        5 => 4,
        24..=30 => 16 + (number - 24),
        32..=38 => 16 + (number - 32),
        512..=759 => 256 + (number - 512),
        768..=1015 => 256 + (number - 768),
        _ => number - number % 16,
    }
}

/// The stage of a shadowed register: 0 for none, else the value plus 1.
pub fn stage(h: &Handler, number: u16) -> u64 {
    let (at, stages) = (usize::from(number), &h.stages);
    let class = &stages.classes[at % 64 / 16];
    match at {
        5 => h.timer.stage.into(),
        24..=30 => stages.locals.en[at - 24].into(),
        32..=38 => stages.locals.class[at - 32].into(),
        512..=759 => stages.alerts.en[at - 512].into(),
        768..=1015 => stages.alerts.class[at - 768].into(),
        _ => match at % 16 {
            1 => class.ctrl.into(),
            5 => class.thresh.into(),
            6 => class.timeout,
            at => class.lengths[at - 7],
        },
    }
}

/// The value that a register holds, read from a copy so that no stage goes.
pub fn held(h: &Handler, number: u16) -> u32 {
    u32::try_from(read(&mut h.clone(), number)).unwrap()
}

/// How many stages are open.
pub fn open(h: &Handler) -> usize {
    let registers = shadowed(248).into_iter();
    registers.filter(|row| stage(h, row.0) != 0).count()
}

/// A handler's shadowed registers, each with a value of its own staged.
pub fn stage_all(h: &mut Handler) -> Vec<(Row, u32)> {
    let rows: Vec<_> = shadowed(h.n)
        .into_iter()
        .map(|row| (row, u32::from(row.0).wrapping_mul(0x9E37_79B1) >> 7 & row.1))
        .collect();
    for ((number, _), value) in &rows {
        assert_eq!(write(h, *number, *value), 0);
    }
    assert_eq!(open(h), rows.len());
    rows
}

/// Drops all stages by hand.
pub fn drop_all(h: &mut Handler) {
    (h.stages, h.timer.stage) = (Stages::new(), 0);
}
