//! What a run over states reached.

use crate::compare::ANSWERS;
use crate::met::Met;
use crate::spoil::WAYS;
use crate::turns::Turns;
use handler::{Edition, Handler, Heard, WORDS};
use std::fmt;

/// Counts over all states of a set.
#[derive(Default)]
pub struct Summary {
    /// States tried.
    pub states: u64,
    /// States that the reference refuses with 7, and others, by way.
    pub ways: [[u64; 2]; WAYS.len()],
    /// Batches by edition and refusal number, 0 for accepted.
    pub batches: [[u64; 10]; Edition::ALL.len()],
    /// Batches that were refused with 7 for more alerts than the edition has.
    pub over: u64,
    /// Batches of an older edition that were refused with 7 for the ping timer
    /// alone.
    pub older: u64,
    /// Ticks of accepted states by refusal number, 0 for accepted.
    pub ticks: [u64; 15],
    /// What the receivers of accepted states met in them.
    pub met: Met,
    /// Those with an event, with an answered ping, with an occurring local
    /// alert.
    pub heard: [u64; 3],
    /// What the ping timer did in them.
    pub turns: Turns,
}

impl Summary {
    /// Takes in a batch by its answer.
    pub(super) fn batch(&mut self, edition: Edition, state: &Handler, answer: i64, valid: bool) {
        self.batches[edition as usize][answer.unsigned_abs() as usize] += 1;
        let over = state.n > edition.alerts();
        self.over += u64::from(valid && over && answer == -7);
        self.older += u64::from(valid && !over && answer == -7);
    }

    /// Takes in what a tick of an accepted state hears.
    pub(super) fn hears(&mut self, heard: &Heard) {
        let any = [heard.events, heard.answers].map(|words| words != [0; WORDS]);
        let all = [any[0], any[1], heard.locals != 0];
        for (count, some) in self.heard.iter_mut().zip(all) {
            *count += u64::from(some);
        }
    }

    /// States that got refusal 7.
    pub fn refused(&self) -> u64 {
        self.ways.iter().map(|way| way[0]).sum()
    }

    /// States that did not.
    pub fn accepted(&self) -> u64 {
        self.ways.iter().map(|way| way[1]).sum()
    }
}

impl fmt::Display for Summary {
    fn fmt(&self, out: &mut fmt::Formatter) -> fmt::Result {
        let (refused, accepted) = (self.refused(), self.accepted());
        writeln!(
            out,
            "states {}, refused with 7: {refused}, accepted: {accepted}",
            self.states
        )?;
        write!(out, "refused/accepted:")?;
        for ((_, name), [refused, accepted]) in WAYS.iter().zip(self.ways) {
            write!(out, " {name} {refused}/{accepted}")?;
        }
        write!(
            out,
            "\nticks of accepted states: accepted {}",
            self.ticks[0]
        )?;
        for number in &ANSWERS[1..] {
            write!(out, ", refusal {number}: {}", self.ticks[*number])?;
        }
        let [events, answers, locals] = self.heard;
        write!(
            out,
            "\n{}{}ticks with an event {events}, with an answered ping {answers}, with a local alert {locals}",
            self.met, self.turns
        )?;
        for (edition, batches) in Edition::ALL.into_iter().zip(self.batches) {
            let name = edition.name();
            write!(out, "\nbatches of edition {name}: accepted {}", batches[0])?;
            for number in [7, 8, 9] {
                write!(out, ", refusal {number}: {}", batches[number])?;
            }
        }
        write!(
            out,
            "; refused for their alerts alone: {}, for the ping timer alone: {}",
            self.over, self.older
        )
    }
}
