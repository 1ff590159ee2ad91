//! Random accesses to the shadowed registers and their locks, beside a plain
//! list of what each register holds and has staged.

mod common;

use common::shadowed::{guard, held, open, shadowed, stage, Row};
use common::{new, tick, Numbers, REST};
use reference::Access;
use std::collections::BTreeMap;

/// The handler's alerts.
const N: u64 = 2;
/// Local 5's EN.
const EN: u16 = 29;

/// What the paper says of the registers, one entry for each.
struct List {
    rows: BTreeMap<u16, u32>,
    values: BTreeMap<u16, u32>,
    stages: BTreeMap<u16, u32>,
    locked: BTreeMap<u16, bool>,
}

impl List {
    fn new() -> List {
        let rows: BTreeMap<u16, u32> = shadowed(N).into_iter().collect();
        // CTRL is the one at offset 1 of a class.
        let at_reset = |number| {
            if number > 1280 && number % 16 == 1 {
                0x393C
            } else {
                0
            }
        };
        List {
            values: rows.keys().map(|row| (*row, at_reset(*row))).collect(),
            stages: BTreeMap::new(),
            locked: rows.keys().map(|row| (guard(*row), false)).collect(),
            rows,
        }
    }

    /// A lock takes a 0 but for a silly threshold, and a 1 while it is open.
    fn write_lock(&mut self, number: u16, value: u32) -> i64 {
        if value > 1 {
            return -4;
        }
        if value == 0 && !self.locked[&number] && self.silly(number) {
            return -14;
        }
        if self.locked[&number] && value == 1 {
            return -3;
        }
        self.locked.insert(number, value == 0);
        0
    }

    /// Whether the lock is a class's that has EN 1 and the threshold 65535.
    fn silly(&self, number: u16) -> bool {
        number >= 1280 && self.values[&(number + 1)] % 2 == 1 && self.values[&(number + 5)] == 65535
    }

    fn write(&mut self, number: u16, value: u32) -> i64 {
        let largest = match self.rows.get(&number) {
            Some(largest) => largest,
            None => return self.write_lock(number, value),
        };
        if value > *largest {
            return -4;
        }
        let staged = self.stages.remove(&number);
        if self.locked[&guard(number)] {
            return -3;
        }
        match staged {
            None => self.stages.insert(number, value),
            Some(staged) if staged == value => self.values.insert(number, value),
            Some(_) => return -12,
        };
        0
    }

    fn read(&mut self, number: u16) -> i64 {
        self.stages.remove(&number);
        match self.values.get(&number) {
            Some(value) => i64::from(*value),
            None => i64::from(!self.locked[&number]),
        }
    }

    fn access(&mut self, access: Access) -> i64 {
        match access {
            Access::None => 0,
            Access::Read { register } => self.read(register),
            Access::Write { register, value } => self.write(register, value),
            Access::Malformed => -5,
        }
    }
}

/// An access to one of a few registers, so that its stage is often met again.
fn access(rows: &[Row], numbers: &mut Numbers) -> Access {
    let (number, largest) = rows[numbers.below(rows.len() as u64) as usize];
    let value = [0, 1, 1, largest, largest.wrapping_add(1)][numbers.below(5) as usize];
    match numbers.below(40) {
        0 => Access::None,
        1 => Access::Malformed,
        2 => Access::Read {
            register: guard(number),
        },
        3 => Access::Write {
            register: guard(number),
            value: numbers.below(3) as u32,
        },
        4..=9 => Access::Read { register: number },
        _ => Access::Write {
            register: number,
            value,
        },
    }
}

#[test]
fn answers_values_and_stages_are_the_lists() {
    let mut numbers = Numbers(41);
    let all = shadowed(N);
    let mut seen = BTreeMap::new();
    for _ in 0..200 {
        let mut rows: Vec<Row> = (0..4)
            .map(|_| all[numbers.below(all.len() as u64) as usize])
            .collect();
        rows.push((EN, 1));
        let (mut h, mut list) = (new(N), List::new());
        for _ in 0..100 {
            let access = access(&rows, &mut numbers);
            let enabled = h.locals[5].en;
            h.locals[5].cause = 0;
            let answer = tick(&mut h, access, REST).answer;
            assert_eq!(answer, list.access(access), "{access:?}");
            assert_eq!(h.locals[5].cause == 1, answer == -12 && enabled == 1);
            *seen.entry(answer.min(0)).or_insert(0) += 1;
            assert_eq!(open(&h), list.stages.len());
            for (number, _) in &rows {
                let staged = list
                    .stages
                    .get(number)
                    .map_or(0, |value| u64::from(*value) + 1);
                assert_eq!(stage(&h, *number), staged, "{access:?}");
            }
        }
        for (number, value) in list.values {
            assert_eq!(held(&h, number), value, "{number}");
        }
    }
    for answer in [0, -3, -4, -5, -12] {
        assert!(seen[&answer] > 100, "{answer} was hardly met");
    }
}

#[test]
fn no_stage_reaches_a_locked_register() {
    let mut numbers = Numbers(42);
    let all = shadowed(N);
    let mut met = 0;
    for _ in 0..200 {
        let rows: Vec<Row> = (0..3)
            .map(|_| all[numbers.below(all.len() as u64) as usize])
            .collect();
        let mut h = new(N);
        let mut fixed = BTreeMap::new();
        for _ in 0..100 {
            let access = access(&rows, &mut numbers);
            tick(&mut h, access, numbers.sample());
            for (number, _) in &rows {
                let value = held(&h, *number);
                if held(&h, guard(*number)) == 0 {
                    // The value at which it was locked, for ever.
                    met += u32::from(stage(&h, *number) != 0);
                    assert_eq!(*fixed.entry(*number).or_insert(value), value, "{number}");
                }
            }
        }
    }
    assert!(met > 100, "hardly a stage was open under a lock");
}
