//! Slips in what an installer writes: other values, or another order.

use crate::slip::Slip::{self, Plans};
use handler::boot::Entry;
use handler::registers::{Field, Register, Setting};
use handler::Lifecycle;

/// The entries of alerts end here, and those of class settings.
const ALERTS: usize = 2 * 58;
const SETTINGS: usize = ALERTS + 4 * 7;

/// Whether a lifecycle locks.
fn locks(lifecycle: Lifecycle) -> bool {
    matches!(lifecycle, Lifecycle::Prod | Lifecycle::ProdEnd)
}

/// The value of a register is changed.
fn set(plan: &mut [Entry], of: Register, change: fn(u32) -> u32) {
    let entries = plan.iter_mut().filter(|entry| entry.0 == of);
    entries.for_each(|entry| entry.1 = change(entry.1));
}

/// CTRL of a class.
fn ctrl(k: usize) -> Register {
    Register::Class(k, Setting::Ctrl)
}

/// CLASS and EN of each alert.
fn pairs(plan: &mut [Entry]) -> impl Iterator<Item = &mut [Entry]> {
    plan[..ALERTS].chunks_exact_mut(2)
}

/// The settings of each class.
fn classes(plan: &mut [Entry]) -> impl Iterator<Item = &mut [Entry]> {
    plan[ALERTS..SETTINGS].chunks_exact_mut(7)
}

/// Leaves out entries of the alerts that are X.
fn leave_x(plan: &mut Vec<Entry>, left: fn(Field) -> bool) {
    let x: Vec<bool> = pairs(plan).map(|pair| pair[1].1 == 0).collect();
    plan.retain(|entry| !matches!(entry.0, Register::Alert(field, i) if x[i] && left(field)));
}

/// Slips in the order.
pub const ORDERS: &[Slip] = &[
    Plans("EN before CLASS", |plan, _| {
        pairs(plan).for_each(|pair| pair.swap(0, 1))
    }),
    Plans("CLASS of all alerts, then EN", |plan, _| {
        plan[..ALERTS].sort_by_key(|entry| matches!(entry.0, Register::Alert(Field::En, _)))
    }),
    Plans("the last alert first", |plan, _| {
        plan[..ALERTS].reverse();
        pairs(plan).for_each(|pair| pair.swap(0, 1));
    }),
    Plans("classes before alerts", |plan, _| {
        plan[..SETTINGS].rotate_left(ALERTS)
    }),
    Plans("CTRL before the lengths", |plan, _| {
        classes(plan).for_each(|class| class[2..].rotate_right(1))
    }),
    Plans("timeout before threshold", |plan, _| {
        classes(plan).for_each(|class| class.swap(0, 1))
    }),
    Plans("locks before settings", |plan, _| {
        let locks = plan.len() - SETTINGS;
        plan[ALERTS..].rotate_right(locks);
    }),
    Plans("alert locks before class settings", |plan, _| {
        let alerts = (plan.len() - SETTINGS).saturating_sub(1);
        plan[ALERTS..SETTINGS + alerts].rotate_right(alerts);
    }),
    Plans("each alert locked at once", |plan, _| {
        plan.sort_by_key(|entry| match entry.0 {
            Register::Alert(_, i) => i,
            _ => 58,
        })
    }),
];

/// Slips in what is written.
pub const VALUES: &[Slip] = &[
    Plans("alert 58 written", |plan, _| {
        let more = [Field::Class, Field::En].map(|field| (Register::Alert(field, 58), 0));
        plan.splice(ALERTS..ALERTS, more);
    }),
    Plans("alert 57 left out", |plan, _| {
        drop(plan.drain(ALERTS - 2..ALERTS))
    }),
    Plans("X left alone", |plan, _| leave_x(plan, |_| true)),
    Plans("CLASS left out for X", |plan, _| {
        leave_x(plan, |field| field == Field::Class)
    }),
    Plans("X enabled in class D", |plan, _| {
        for pair in pairs(plan).filter(|pair| pair[1].1 == 0) {
            (pair[0].1, pair[1].1) = (3, 1);
        }
    }),
    Plans("one alert's class swapped", |plan, lifecycle| {
        if locks(lifecycle) {
            set(plan, Register::Alert(Field::Class, 31), |_| 0);
        }
    }),
    Plans("a threshold left alone", |plan, _| {
        plan.retain(|entry| entry.0 != Register::Class(3, Setting::AccumThresh))
    }),
    Plans("a timeout of 1", |plan, _| {
        set(plan, Register::Class(1, Setting::TimeoutCyc), |_| 1)
    }),
    Plans("no lengths in RMA", |plan, lifecycle| {
        if lifecycle == Lifecycle::Rma {
            set(plan, Register::Class(0, Setting::Phase1Cyc), |_| 0);
        }
    }),
    Plans("phase 3 of 31 bits", |plan, _| {
        set(plan, Register::Class(1, Setting::Phase3Cyc), |cyc| cyc >> 1)
    }),
    Plans("no EN in DEV", |plan, lifecycle| {
        if lifecycle == Lifecycle::Dev {
            set(plan, ctrl(1), |ctrl| ctrl & !1);
        }
    }),
    Plans("EN for class C", |plan, lifecycle| {
        if locks(lifecycle) {
            set(plan, ctrl(2), |ctrl| ctrl | 1);
        }
    }),
];

/// Slips in what is locked.
pub const LOCKS: &[Slip] = &[
    Plans("LOCK in DEV", |plan, lifecycle| {
        if lifecycle == Lifecycle::Dev {
            set(plan, ctrl(0), |ctrl| ctrl | 2);
        }
    }),
    Plans("LOCK for class B", |plan, lifecycle| {
        if locks(lifecycle) {
            set(plan, ctrl(1), |ctrl| ctrl | 2);
        }
    }),
    Plans("class B locked too", |plan, lifecycle| {
        if locks(lifecycle) {
            plan.push((Register::Class(1, Setting::Regwen), 0));
        }
    }),
    Plans("class A not locked", |plan, lifecycle| {
        if locks(lifecycle) {
            plan.pop();
        }
    }),
    Plans("the last alert not locked", |plan, lifecycle| {
        if locks(lifecycle) {
            plan.remove(plan.len() - 2);
        }
    }),
    Plans("no locks in PROD_END", |plan, lifecycle| {
        if lifecycle == Lifecycle::ProdEnd {
            plan.truncate(SETTINGS);
        }
    }),
    Plans("CLR_REGWEN locked too", |plan, lifecycle| {
        if locks(lifecycle) {
            plan.push((Register::Class(0, Setting::ClrRegwen), 0));
        }
    }),
];
