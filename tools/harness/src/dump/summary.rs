//! What a run over dumps reached.

use super::beside::VERDICTS;
use super::content::content_of;
use super::made::{Made, ABOVE, ONE, WAYS};
use super::part::PARTS;
use super::twist::TWISTS;
use crate::calls::reference_of;
use handler::registers::{Register, MAP};
use handler::{Content, ALERTS, CLASSES, DUMP_MOST, REGISTERS};
use std::fmt;

/// The values that STATE takes.
pub(super) const STATES: usize = 8;

/// Counts over all states of a set.
pub struct Summary {
    /// States tried.
    pub states: u64,
    /// States by the way in which they were made.
    pub ways: [u64; WAYS.len()],
    /// States that were dumped, by N.
    pub alerts: [u64; ALERTS + 1],
    /// Of these, classes by number and STATE.
    pub classes: [[u64; STATES]; CLASSES],
    /// Open stages by register.
    pub stages: [u64; REGISTERS],
    /// Those that were the only one.
    pub alone: [u64; REGISTERS],
    /// Causes that were 0 and 1, and locks that were open and locked, by
    /// register.
    pub causes: [[u64; 2]; REGISTERS],
    /// The locks.
    pub locks: [[u64; 2]; REGISTERS],
    /// Calls of the writer by what became of them.
    pub writes: [u64; WRITES.len()],
    /// The things of `NOTED`.
    pub noted: [u64; NOTED.len()],
    /// Cut dumps by the part that the cut stands in.
    pub cuts: [u64; PARTS.len()],
    /// Flipped bits by part and verdict.
    pub flips: [[u64; 3]; PARTS.len()],
    /// Dumps with a change, by the change and the verdict.
    pub twists: [[u64; 3]; TWISTS.len()],
    /// Dumps with bytes behind them.
    pub appended: u64,
    /// Random bytes.
    pub random: u64,
    /// No bytes.
    pub empty: u64,
    /// Dumps of which every cut and bit was tried.
    pub thorough: u64,
    /// Reads by verdict.
    pub verdicts: [u64; 3],
}

/// What becomes of a call of the writer.
pub(super) const WRITES: [&str; 8] = [
    "written, exactly so many bytes",
    "written, one more",
    "written, later bytes",
    "11, no byte",
    "11, one too few",
    "11, fewer",
    "7, a buffer of any dump",
    "7, a short buffer",
];

/// What a state may have.
pub(super) const NOTED: [&str; 6] = [
    "no stage",
    "more than 255 stages",
    "the longest dump",
    "a stage of value 0",
    "a count of 4294967295",
    "anything at N and above",
];

impl Default for Summary {
    fn default() -> Summary {
        Summary {
            states: 0,
            ways: [0; WAYS.len()],
            alerts: [0; ALERTS + 1],
            classes: [[0; STATES]; CLASSES],
            stages: [0; REGISTERS],
            alone: [0; REGISTERS],
            causes: [[0; 2]; REGISTERS],
            locks: [[0; 2]; REGISTERS],
            writes: [0; WRITES.len()],
            noted: [0; NOTED.len()],
            cuts: [0; PARTS.len()],
            flips: [[0; 3]; PARTS.len()],
            twists: [[0; 3]; TWISTS.len()],
            appended: 0,
            random: 0,
            empty: 0,
            thorough: 0,
            verdicts: [0; 3],
        }
    }
}

/// Whether n alerts have such a register.
fn is_below(number: usize, n: usize) -> bool {
    match MAP.register(number as u16) {
        Some(Register::Alert(_, i)) => i < n,
        _ => true,
    }
}

impl Summary {
    /// Takes in a state with its dump, where 7 does not meet it.
    pub(super) fn state(&mut self, made: &Made, dump: Option<&[u8]>) {
        self.states += 1;
        self.ways[made.way] += 1;
        let length = match dump {
            Some(dump) => dump.len(),
            None => return,
        };
        let content = content_of(&reference::Content::of(&reference_of(&made.state)));
        self.alerts[content.n] += 1;
        for (counts, class) in self.classes.iter_mut().zip(&content.classes) {
            counts[class.state as usize] += 1;
        }
        self.registers(&content, made.way == ONE);
        let stages = content.staged();
        let has = [
            stages.is_empty(),
            stages.len() > 255,
            length == DUMP_MOST,
            stages.iter().any(|(_, value)| *value == 0),
            content.classes.iter().any(|class| class.count == u32::MAX),
            made.way == ABOVE,
        ];
        for (count, has) in self.noted.iter_mut().zip(has) {
            *count += u64::from(has);
        }
    }

    /// Takes in what is shown by register.
    fn registers(&mut self, content: &Content, alone: bool) {
        for number in 0..REGISTERS {
            let stage = u64::from(content.stages[number] > 0);
            self.stages[number] += stage;
            self.alone[number] += stage * u64::from(alone);
            if is_below(number, content.n) {
                let (cause, lock) = (content.causes[number], content.locked[number]);
                self.causes[number][usize::from(cause)] += 1;
                self.locks[number][usize::from(lock)] += 1;
            }
        }
    }

    /// Takes in a call of the writer: its answer, the buffer's length and the
    /// bytes that are needed.
    pub(super) fn written(&mut self, answer: i64, length: usize, need: usize) {
        let at = match answer {
            -7 if length >= DUMP_MOST => 6,
            -7 => 7,
            -11 if length == 0 => 3,
            -11 if length + 1 == need => 4,
            -11 => 5,
            _ if length == need => 0,
            _ if length == need + 1 => 1,
            _ => 2,
        };
        self.writes[at] += 1;
    }
}

impl Summary {
    /// Prints what was read.
    fn reads(&self, out: &mut fmt::Formatter) -> fmt::Result {
        writeln!(
            out,
            "reader: {}; every cut and bit of {} dumps",
            named(VERDICTS.into_iter(), &self.verdicts),
            self.thorough
        )?;
        let parts = || PARTS.iter().map(|(_, name)| *name);
        writeln!(out, "cut in: {}", named(parts(), &self.cuts))?;
        write!(out, "flipped bits, whole/17/16:")?;
        for (name, [whole, cut, none]) in parts().zip(self.flips) {
            write!(out, " {name} {whole}/{cut}/{none}")?;
        }
        let twists = self.twists.map(|counts| counts.iter().sum());
        let names = TWISTS.iter().map(|(name, _)| *name);
        write!(
            out,
            "\nchanged: {}; bytes behind it {}, random bytes {}, none {}",
            named(names, &twists),
            self.appended,
            self.random,
            self.empty
        )
    }
}

/// Counts with their names.
fn named<'a>(names: impl Iterator<Item = &'a str>, counts: &[u64]) -> String {
    let words: Vec<String> = names
        .zip(counts)
        .map(|(name, count)| format!("{name} {count}"))
        .collect();
    words.join(", ")
}

impl fmt::Display for Summary {
    fn fmt(&self, out: &mut fmt::Formatter) -> fmt::Result {
        let dumped: u64 = self.alerts.iter().sum();
        let met = |counts: &[u64]| counts.iter().filter(|count| **count > 0).count();
        writeln!(
            out,
            "states {}, dumped {dumped}: {}",
            self.states,
            named(WAYS.into_iter(), &self.ways)
        )?;
        writeln!(
            out,
            "values of N {}, registers with a stage {}, with a lone one {}; {}",
            met(&self.alerts),
            met(&self.stages),
            met(&self.alone),
            named(NOTED.into_iter(), &self.noted)
        )?;
        writeln!(out, "writer: {}", named(WRITES.into_iter(), &self.writes))?;
        self.reads(out)
    }
}
