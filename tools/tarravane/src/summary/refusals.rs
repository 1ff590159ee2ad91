//! Refusals other than of clears, by their number, with their ticks.
use super::kept::Kept;
use super::telling::Telling;
use super::words::count;
use crate::facts::clears::{clear, Clear};
use crate::facts::tick::Tick;
use crate::json::{list, object};
use handler::CLASSES;

/// The refusals that a tick of a trace gets.
const NAMES: [(u8, &str); 7] = [
    (1, "no register"),
    (2, "write only or read only"),
    (3, "locked"),
    (4, "too wide"),
    (5, "malformed"),
    (12, "second write differs"),
    (14, "lock with a threshold of 65535"),
];

#[derive(Default)]
pub struct Refusals([Kept<u64>; NAMES.len()]);

impl Refusals {
    pub fn add(&mut self, t: &Tick) {
        let refusal = match t.word.refusal() {
            Some(refusal) => refusal,
            None => return,
        };
        if (0..CLASSES).any(|k| clear(t, k) == Some(Clear::Refused)) {
            return;
        }
        let at = NAMES.iter().position(|(number, _)| *number == refusal.0);
        if let Some(at) = at {
            self.0[at].push(t.number);
        }
    }

    pub fn json(&self) -> String {
        let one = |((number, _), ticks): (&(u8, &str), &Kept<u64>)| {
            object(&[
                ("refusal", number.to_string()),
                ("ticks", ticks.json(u64::to_string)),
            ])
        };
        let all = NAMES.iter().zip(&self.0);
        list(all.filter(|(_, ticks)| ticks.count() > 0).map(one))
    }

    /// How often each was given and when, of those that were.
    fn words(&self, told: &Telling) -> Vec<String> {
        let one = |((number, name), ticks): (&(u8, &str), &Kept<u64>)| {
            let times = count(ticks.count(), "time");
            format!("{number} ({name}): {times}, {}", told.at(ticks))
        };
        let all = NAMES.iter().zip(&self.0);
        all.filter(|(_, ticks)| ticks.count() > 0)
            .map(one)
            .collect()
    }

    pub fn lines(&self, told: &Telling) -> Vec<String> {
        let mut all = self.words(told);
        if all.is_empty() {
            return vec!["other refusals: none".to_string()];
        }
        all.iter_mut().for_each(|words| words.insert_str(0, "  "));
        [vec!["other refusals, by number:".to_string()], all].concat()
    }

    pub fn line(&self, told: &Telling) -> String {
        match &self.words(told)[..] {
            [] => "other refusals: none".to_string(),
            all => format!("other refusals: {}", all.join("; ")),
        }
    }
}
