//! Readers with a slip.

use handler::registers::{Register, Setting, MAP};
use handler::{Answer, Content, ALERTS, CLASSES, REGISTERS};
use harness::dump::{content_of, head, shadowed};

/// The right reader.
pub fn right(bytes: &[u8]) -> (Content, Answer) {
    let (shown, answer) = reference::read_dump(bytes);
    (content_of(&shown), Answer(answer))
}

/// A reader.
pub type Reader = fn(&[u8]) -> (Content, Answer);

/// The bytes of a stage.
const STAGE: usize = 6;

/// Whether the number of stages is there.
fn has_number(bytes: &[u8]) -> bool {
    bytes.len() > 4 && bytes.len() >= head(bytes[4].into()) + 2
}

/// The right reading of changed bytes, where that is a dump; else of those that came.
fn lenient(bytes: &[u8], change: impl Fn(&mut Vec<u8>)) -> (Content, Answer) {
    let mut other = bytes.to_vec();
    if has_number(bytes) {
        change(&mut other);
    }
    match right(&other) {
        (content, Answer(0)) => (content, Answer(0)),
        _ => right(bytes),
    }
}

/// Where the stages begin, and how many there are by the number before them.
fn stages(bytes: &[u8]) -> (usize, usize) {
    let at = head(bytes[4].into());
    (
        at + 2,
        usize::from(bytes[at]) << 8 | usize::from(bytes[at + 1]),
    )
}

fn set_number(bytes: &mut [u8], number: usize) {
    let at = head(bytes[4].into());
    bytes[at..at + 2].copy_from_slice(&(number as u16).to_be_bytes());
}

/// The stages as far as they are whole.
fn listed(bytes: &[u8]) -> Vec<[u8; STAGE]> {
    let (from, _) = stages(bytes);
    let one = |it: &[u8]| [it[0], it[1], it[2], it[3], it[4], it[5]];
    bytes[from..].chunks_exact(STAGE).map(one).collect()
}

fn relist(bytes: &mut Vec<u8>, some: &[[u8; STAGE]]) {
    let (from, _) = stages(bytes);
    bytes.truncate(from);
    bytes.extend(some.iter().flatten());
    set_number(bytes, some.len());
}

/// Reads so many bits from one on.
fn get(bytes: &[u8], from: usize, width: usize) -> u64 {
    let bit = |at: usize| u64::from(bytes[at / 8] >> (7 - at % 8) & 1);
    (from..from + width).fold(0, |all, at| all << 1 | bit(at))
}

fn set(bytes: &mut [u8], from: usize, width: usize, value: u64) {
    for at in 0..width {
        let mask = 0x80 >> ((from + at) % 8);
        let byte = &mut bytes[(from + at) / 8];
        match value >> (width - 1 - at) & 1 {
            1 => *byte |= mask,
            _ => *byte &= !mask,
        }
    }
}

/// Takes a STATE and a count that are wrong, by this rule, and shows them.
fn class(bytes: &[u8], wrong: fn(u64, u64) -> bool) -> (Content, Answer) {
    let (mut other, mut shown) = (bytes.to_vec(), Vec::new());
    for k in (0..CLASSES).filter(|k| 40 + 51 * (k + 1) <= 8 * bytes.len()) {
        let from = 40 + 51 * k;
        let (state, count) = (get(bytes, from, 3), get(bytes, from + 3, 32));
        if wrong(state, count) {
            set(&mut other, from, 3, if count > 0 { 4 } else { 0 });
            shown.push((k, state as u32));
        }
    }
    let (mut content, answer) = right(&other);
    if answer.0 != 0 {
        return right(bytes);
    }
    for (k, state) in shown {
        content.classes[k].state = state;
    }
    (content, answer)
}

/// The right reading, and then another content.
fn shown(bytes: &[u8], change: fn(&mut Content)) -> (Content, Answer) {
    let (mut content, answer) = right(bytes);
    if answer.0 == 0 {
        change(&mut content);
    }
    (content, answer)
}

/// Answers another number for a refusal.
fn refused(bytes: &[u8], other: fn(&[u8], i64) -> i64) -> (Content, Answer) {
    let (content, answer) = right(bytes);
    match answer.0 {
        0 => (content, answer),
        number => (content, Answer(other(bytes, number))),
    }
}

/// Every slip; the default set must find each.
pub const SLIPS: &[(&str, Reader)] = &[
    ("a byte behind it accepted", |bytes| {
        match bytes.split_last() {
            Some((_, front)) if right(front).1 .0 == 0 => right(front),
            _ => right(bytes),
        }
    }),
    ("bytes behind it ignored", |bytes| {
        lenient(bytes, |other| {
            let (from, number) = stages(other);
            other.truncate(from + STAGE * number);
        })
    }),
    ("a cut dump called 16", |bytes| refused(bytes, |_, _| -16)),
    ("no bytes called 16", |bytes| {
        refused(
            bytes,
            |bytes, number| if bytes.is_empty() { -16 } else { number },
        )
    }),
    ("every start that is too short called 17", |bytes| {
        refused(bytes, |bytes, number| match bytes.len() < 36 {
            true => -17,
            false => number,
        })
    }),
    ("a cut mark not compared", |bytes| {
        refused(
            bytes,
            |bytes, number| if bytes.len() < 4 { -17 } else { number },
        )
    }),
    ("N over 248 called 17", |bytes| {
        refused(bytes, |bytes, number| match bytes {
            [b'T', b'D', b'M', b'P', n, ..] if *n > 248 => -17,
            _ => number,
        })
    }),
    ("a number of stages with no registers called 17", |bytes| {
        refused(bytes, |bytes, number| {
            let mut other = bytes.to_vec();
            if !has_number(bytes) {
                return number;
            }
            let (from, stages) = stages(bytes);
            set_number(&mut other, shadowed(bytes[4].into()).len().min(stages));
            match right(&other).1 .0 == -17 && bytes.len() < from + STAGE * stages {
                true => -17,
                false => number,
            }
        })
    }),
    ("the registers that are left not counted", |bytes| {
        refused(bytes, |bytes, number| {
            if !has_number(bytes) {
                return number;
            }
            let (mut other, some) = (bytes.to_vec(), listed(bytes));
            let (from, stages) = stages(bytes);
            relist(&mut other, &some);
            let whole = bytes.len() == from + STAGE * some.len();
            match right(&other).1 .0 == 0
                && whole
                && some.len() < stages
                && stages <= shadowed(bytes[4].into()).len()
            {
                true => -17,
                false => number,
            }
        })
    }),
    ("the start of a register not looked at", |bytes| {
        refused(bytes, |bytes, number| match bytes.split_last() {
            Some((_, front)) if right(front).1 .0 == -17 && has_number(front) => {
                let (from, _) = stages(front);
                match (front.len() - from) % STAGE {
                    0 => -17,
                    _ => number,
                }
            }
            _ => number,
        })
    }),
    ("padding not compared", |bytes| {
        lenient(bytes, |other| {
            let n = usize::from(other[4]);
            let used = 40 + 4 * 51 + 7 + n + 16 + n;
            for bit in used..8 * head(n) {
                set(other, bit, 1, 0);
            }
        })
    }),
    ("the mark not compared", |bytes| {
        lenient(bytes, |other| other[..4].copy_from_slice(b"TDMP"))
    }),
    ("the mark's last byte not compared", |bytes| {
        lenient(bytes, |other| other[3] = b'P')
    }),
    ("STATE 2 shown", |bytes| class(bytes, |state, _| state == 2)),
    ("a count shown in Idle", |bytes| {
        class(bytes, |state, count| state == 0 && count > 0)
    }),
    ("a count shown in Terminal", |bytes| {
        class(bytes, |state, count| state == 3 && count > 0)
    }),
    ("no count shown in Timeout", |bytes| {
        class(bytes, |state, count| state == 1 && count == 0)
    }),
    ("no count shown in a phase", |bytes| {
        class(bytes, |state, count| state > 3 && count == 0)
    }),
    ("stages in any order", |bytes| {
        lenient(bytes, |other| {
            let mut some = listed(other);
            some.sort_unstable();
            let (from, _) = stages(other);
            if other.len() == from + STAGE * some.len() {
                relist(other, &some);
            }
        })
    }),
    ("a stage twice accepted", |bytes| {
        lenient(bytes, |other| {
            let mut some = listed(other);
            let (from, number) = stages(other);
            if other.len() == from + STAGE * some.len() && number == some.len() {
                some.dedup();
                relist(other, &some);
            }
        })
    }),
    ("the number of stages not compared", |bytes| {
        lenient(bytes, |other| {
            let some = listed(other);
            let (from, _) = stages(other);
            if other.len() == from + STAGE * some.len() {
                relist(other, &some);
            }
        })
    }),
    ("registers that are not shadowed left out", |bytes| {
        lenient(bytes, |other| {
            let mut some = listed(other);
            let (from, number) = stages(other);
            if other.len() == from + STAGE * some.len() && number == some.len() {
                let known = shadowed(ALERTS);
                some.retain(|it| known.contains(&u16::from_be_bytes([it[0], it[1]])));
                relist(other, &some);
            }
        })
    }),
    ("a value over its field cut", |bytes| {
        lenient(bytes, |other| {
            let mut some = listed(other);
            for it in &mut some {
                let narrow = match u16::from_be_bytes([it[0], it[1]]) {
                    24..=30 | 512..=759 => 1,
                    32..=38 | 768..=1015 => 3,
                    _ => 0,
                };
                if narrow > 0 {
                    (it[2], it[3], it[4]) = (0, 0, 0);
                    it[5] &= narrow;
                }
            }
            let (from, _) = stages(other);
            other.truncate(from);
            other.extend(some.iter().flatten());
        })
    }),
    ("a refused N shown", |bytes| {
        let (mut content, answer) = right(bytes);
        content.n = match answer.0 {
            0 => content.n,
            _ => bytes.get(4).map_or(0, |n| usize::from(*n)),
        };
        (content, answer)
    }),
    ("the bytes answered", |bytes| {
        let (content, answer) = right(bytes);
        (
            content,
            if answer.0 == 0 {
                Answer(bytes.len() as i64)
            } else {
                answer
            },
        )
    }),
    ("locks inverted", |bytes| {
        shown(bytes, |it| it.locked[256] ^= 1)
    }),
    ("a lock at N and above", |bytes| {
        shown(bytes, |it| it.locked[256 + it.n.min(ALERTS - 1)] = 1)
    }),
    ("no lock of the ping timer", |bytes| {
        shown(bytes, |it| it.locked[4] = 0)
    }),
    ("CLR_REGWEN taken for REGWEN", |bytes| {
        shown(bytes, |it| {
            let number = |setting| usize::from(MAP.class(3, setting));
            it.locked
                .swap(number(Setting::Regwen), number(Setting::ClrRegwen))
        })
    }),
    ("a cause for a lock", |bytes| {
        shown(bytes, |it| it.causes[1024] = it.locked[256])
    }),
    ("the last local cause lost", |bytes| {
        shown(bytes, |it| it.causes[46] = 0)
    }),
    ("a staged value without 1 more", |bytes| {
        shown(bytes, |it| {
            it.stages
                .iter_mut()
                .for_each(|code| *code = code.saturating_sub(1))
        })
    }),
    ("the last stage lost", |bytes| {
        shown(bytes, |it| {
            let last = (0..REGISTERS).rev().find(|at| it.stages[*at] > 0);
            last.into_iter().for_each(|at| it.stages[at] = 0)
        })
    }),
    ("class B for class C", |bytes| {
        shown(bytes, |it| it.classes.swap(1, 2))
    }),
    ("a count of 31 bits", |bytes| {
        shown(bytes, |it| it.classes[3].count &= 0x7FFF_FFFF)
    }),
    ("an accumulator of 8 bits", |bytes| {
        shown(bytes, |it| it.classes[0].accum &= 255)
    }),
    ("PING_TIMER_EN for its lock", |bytes| {
        shown(bytes, |it| {
            let at = MAP.number(Register::PingEnable).map_or(0, usize::from);
            it.locked[at] = it.locked[4]
        })
    }),
];
