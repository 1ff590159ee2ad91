//! A difference that a run over states found.

use super::odd::Odd;
use std::fmt;

/// A state that shows a difference.
#[derive(Debug)]
pub struct Found {
    /// Its seed: a run of one state with it repeats it.
    pub seed: u64,
    /// How it was made.
    pub way: &'static str,
    /// What differs.
    pub odd: Odd,
}

impl fmt::Display for Found {
    fn fmt(&self, out: &mut fmt::Formatter) -> fmt::Result {
        let Found { seed, way, odd } = self;
        writeln!(
            out,
            "DIFFERENT: state seed {seed} ({way}), {}, {}",
            odd.call, odd.field
        )?;
        writeln!(out, "reference: {}", odd.reference)?;
        write!(out, "proved:    {}", odd.got)
    }
}
