//! What a run over calm calls reached.

use super::met::{Met, KINDS};
use super::senders::{left_by_calls, number, STATES};
use super::start::Start;
use super::way::WAYS;
use crate::calls::bit;
use handler::{CHANGES, LINES};
use std::fmt;

/// The refusals, in their order.
const REFUSALS: [i64; 3] = [7, 15, 18];
/// The lengths of lists that are tried: 0 to one more than are needed.
const LENGTHS: usize = CHANGES + 2;

/// Counts over all calls of a set.
#[derive(Default)]
pub struct Summary {
    /// States tried.
    pub states: u64,
    /// States by the way in which they were made.
    pub ways: [u64; WAYS.len()],
    /// Plain ticks of the library.
    pub ticks: u64,
    /// Calls beside them.
    pub plain: u64,
    /// Calls beside the reference's ticks.
    pub reference: u64,
    /// Calls beside two calls.
    pub joined: u64,
    /// Plain runs by the number of their changes.
    pub changes: [u64; CHANGES + 1],
    /// Refused calls by refusal and by the length of the list.
    pub refusals: [[u64; LENGTHS]; REFUSALS.len()],
    /// Alerts that began a run, by the place of their receiver (`pausing`,
    /// `busy`) and by their wires.
    pub receivers: [[u64; 4]; 4],
    /// Lines that began a run, by the five bits of their sender.
    pub senders: [u64; STATES],
    /// The kinds of things that were met.
    pub met: Met,
}

impl Summary {
    /// Takes in a state that is not refused.
    pub(super) fn start(&mut self, start: &Start) {
        let Start { state, wires } = start;
        let receivers = &state.links.receivers;
        let two = |high: bool, low: bool| 2 * usize::from(high) + usize::from(low);
        for i in 0..state.n {
            let place = two(bit(&receivers.pausing, i), bit(&receivers.busy, i));
            let pair = two(bit(&wires.pos, i), bit(&wires.neg, i));
            self.receivers[place][pair] += 1;
        }
        for e in 0..LINES {
            self.senders[number(&state.links.senders, e)] += 1;
        }
        self.met.start(start);
    }

    /// Takes in a refused call.
    pub(super) fn refused(&mut self, number: i64, length: usize) {
        for (refusal, counts) in REFUSALS.iter().zip(&mut self.refusals) {
            counts[length] += u64::from(*refusal == number);
        }
    }

    /// What was never met.
    pub fn missed(&self) -> Vec<String> {
        let mut missed: Vec<String> = self.met.missed().map(str::to_string).collect();
        let none = |counts: &[u64], name: &str| {
            let at = counts.iter().enumerate().filter(|(_, count)| **count == 0);
            at.map(|(at, _)| format!("{name} {at}")).collect::<Vec<_>>()
        };
        missed.extend(none(&self.ways, "way"));
        missed.extend(none(&self.changes, "changes"));
        missed.extend(none(&self.receivers.concat(), "receivers and wires"));
        missed.extend(none(&self.senders, "senders"));
        for (number, counts) in REFUSALS.iter().zip(&self.refusals) {
            // With enough entries there is no refusal 18.
            let lengths = if *number == 18 { CHANGES } else { LENGTHS };
            let name = format!("refusal {number}, entries");
            missed.extend(none(&counts[..lengths], &name));
        }
        missed
    }
}

impl fmt::Display for Summary {
    fn fmt(&self, out: &mut fmt::Formatter) -> fmt::Result {
        writeln!(
            out,
            "states {}, plain ticks {}; calls beside plain ticks {}, beside the reference {}, beside two calls {}",
            self.states, self.ticks, self.plain, self.reference, self.joined
        )?;
        write!(out, "states:")?;
        for ((_, name), count) in WAYS.iter().zip(self.ways) {
            write!(out, " {name} {count}")?;
        }
        let numbers = |counts: &[u64]| {
            let words: Vec<String> = counts.iter().map(u64::to_string).collect();
            words.join(" ")
        };
        let changes = numbers(&self.changes);
        writeln!(out, "\nruns by 0 to {CHANGES} changes: {changes}")?;
        for (number, counts) in REFUSALS.iter().zip(&self.refusals) {
            let counts = numbers(counts);
            writeln!(
                out,
                "refusal {number} with lists of 0 to {} entries: {counts}",
                LENGTHS - 1
            )?;
        }
        let receivers = numbers(&self.receivers.concat());
        writeln!(out, "receivers by place and wires: {receivers}")?;
        let left = left_by_calls();
        let of = |by_calls: bool| -> u64 {
            let pairs = self.senders.iter().zip(left);
            pairs.filter(|it| it.1 == by_calls).map(|it| it.0).sum()
        };
        writeln!(
            out,
            "senders as calls leave them {}, others {}",
            of(true),
            of(false)
        )?;
        let kinds = KINDS.iter().zip(self.met.0);
        let kinds: Vec<String> = kinds
            .map(|((_, name), count)| format!("{name} {count}"))
            .collect();
        let rows: Vec<String> = kinds.chunks(3).map(|row| row.join(", ")).collect();
        write!(out, "met: {}", rows.join(",\n  "))
    }
}
