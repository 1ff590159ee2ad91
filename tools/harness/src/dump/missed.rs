//! What a run over dumps must meet and did not.

use super::beside::VERDICTS;
use super::made::{shadowed, WAYS};
use super::part::{Part, PARTS};
use super::summary::{Summary, NOTED, STATES, WRITES};
use super::twist::TWISTS;
use handler::registers::{Field, Register, Setting, MAP};
use handler::{ALERTS, REGISTERS};

/// Flips that give these verdicts, whole, 17 and 16, are met.
const FLIPS: [(Part, [bool; 3]); PARTS.len()] = [
    (Part::Mark, [false, false, true]),
    (Part::Alerts, [false, true, true]),
    (Part::State, [true, false, true]),
    (Part::Count, [true, false, true]),
    (Part::Accumulator, [true, false, false]),
    (Part::Cause, [true, false, false]),
    (Part::Lock, [true, false, false]),
    (Part::Padding, [false, false, true]),
    (Part::Number, [false, true, true]),
    (Part::Register, [true, false, true]),
    (Part::Value, [true, false, true]),
];

/// Whether a register is a cause, or a lock.
fn is_cause(number: usize) -> bool {
    let register = MAP.register(number as u16);
    matches!(
        register,
        Some(Register::Alert(Field::Cause, _) | Register::Local(Field::Cause, _))
    )
}

fn is_lock(number: usize) -> bool {
    match MAP.register(number as u16) {
        Some(Register::PingRegwen) => true,
        Some(Register::Alert(field, _) | Register::Local(field, _)) => field == Field::Regwen,
        Some(Register::Class(_, setting)) => {
            matches!(setting, Setting::Regwen | Setting::ClrRegwen)
        }
        _ => false,
    }
}

/// The names of the things that were counted and never met.
struct Missed(Vec<String>);

impl Missed {
    fn note(&mut self, count: u64, name: String) {
        if count == 0 {
            self.0.push(name);
        }
    }

    /// Those of states.
    fn states(&mut self, met: &Summary) {
        for (name, count) in WAYS.iter().zip(met.ways) {
            self.note(count, format!("way {name}"));
        }
        for (n, count) in met.alerts.iter().enumerate() {
            self.note(*count, format!("N of {n}"));
        }
        for (k, counts) in met.classes.iter().enumerate() {
            for state in (0..STATES).filter(|state| *state != 2) {
                self.note(counts[state], format!("class {k} in STATE {state}"));
            }
        }
        for (name, count) in NOTED.iter().zip(met.noted) {
            self.note(count, format!("state: {name}"));
        }
    }

    /// Those of registers.
    fn registers(&mut self, met: &Summary) {
        for number in shadowed(ALERTS).into_iter().map(usize::from) {
            self.note(met.stages[number], format!("stage at {number}"));
            self.note(met.alone[number], format!("lone stage at {number}"));
        }
        for number in 0..REGISTERS {
            for bit in 0..2 {
                if is_cause(number) {
                    let count = met.causes[number][bit];
                    self.note(count, format!("cause {number} at {bit}"));
                }
                if is_lock(number) {
                    let count = met.locks[number][bit];
                    self.note(count, format!("lock {number} at {bit}"));
                }
            }
        }
    }

    /// Those of reads.
    fn reads(&mut self, met: &Summary) {
        // Padding begins no byte, so that no cut stands in it.
        let cuts = PARTS.iter().zip(met.cuts);
        for ((_, name), count) in cuts.filter(|((part, _), _)| *part != Part::Padding) {
            self.note(count, format!("cut in {name}"));
        }
        for ((part, name), (_, wanted)) in PARTS.iter().zip(FLIPS) {
            for (verdict, _) in wanted.iter().enumerate().filter(|(_, wanted)| **wanted) {
                let count = met.flips[*part as usize][verdict];
                self.note(count, format!("bit of {name}, {}", VERDICTS[verdict]));
            }
        }
        for ((name, _), counts) in TWISTS.iter().zip(met.twists) {
            self.note(counts.iter().sum(), format!("twist: {name}"));
        }
        self.note(met.appended, "bytes behind a dump".to_string());
        self.note(met.random, "random bytes".to_string());
        self.note(met.empty, "no bytes".to_string());
        self.note(met.thorough, "every cut and bit".to_string());
    }
}

impl Summary {
    /// What was never met.
    pub fn missed(&self) -> Vec<String> {
        let mut missed = Missed(Vec::new());
        missed.states(self);
        missed.registers(self);
        missed.reads(self);
        for (name, count) in WRITES.iter().zip(self.writes) {
            missed.note(count, format!("writer: {name}"));
        }
        missed.0
    }
}
