//! The times of a load, as they are shown.

use std::fmt;
use std::time::Duration;

/// The best times of one load, or of boots.
pub struct Timed {
    /// The load's name.
    pub name: String,
    /// The alerts of the handler.
    pub alerts: usize,
    /// What the time of a round is divided by, to be shown: its ticks.
    pub shares: usize,
    /// Of the proved library.
    pub proved: Duration,
    /// Of the reference.
    pub reference: Duration,
    /// Whether all words, answers and last states were equal.
    pub equal: bool,
}

/// The line above the table.
pub const TITLE: &str = "ns a tick, best of 7      N   proved  reference  proved/reference";

impl Timed {
    /// Nothing is timed yet.
    pub(super) fn new(name: impl Into<String>, alerts: usize, shares: usize) -> Timed {
        Timed {
            name: name.into(),
            alerts,
            shares,
            proved: Duration::MAX,
            reference: Duration::MAX,
            equal: true,
        }
    }

    /// Takes in a round of both sides.
    pub(super) fn round(&mut self, proved: Duration, reference: Duration, equal: bool) {
        self.proved = self.proved.min(proved);
        self.reference = self.reference.min(reference);
        self.equal &= equal;
    }
}

impl fmt::Display for Timed {
    fn fmt(&self, out: &mut fmt::Formatter) -> fmt::Result {
        let each = |time: Duration| time.as_nanos() as f64 / self.shares as f64;
        let (proved, reference) = (each(self.proved), each(self.reference));
        let ratio = proved / reference;
        let (name, n) = (&self.name, self.alerts);
        write!(
            out,
            "{name:<23} {n:>3} {proved:>8.1} {reference:>10.1} {ratio:>17.2}"
        )?;
        if !self.equal {
            write!(out, "  DIFFERENT")?;
        }
        Ok(())
    }
}
