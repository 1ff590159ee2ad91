//! A difference that a run found which makes something of each state: calm
//! ticks, a dump, bytes.

use super::odd::Odd;
use std::fmt;

/// A state of which what is made shows a difference.
#[derive(Debug)]
pub struct FoundMade {
    /// The seed of the state: a run of one state with it repeats it.
    pub seed: u64,
    /// How the state was made.
    pub way: &'static str,
    /// What was made of it.
    pub what: String,
    /// What differs.
    pub odd: Odd,
}

impl fmt::Display for FoundMade {
    fn fmt(&self, out: &mut fmt::Formatter) -> fmt::Result {
        let FoundMade {
            seed,
            way,
            what,
            odd,
        } = self;
        writeln!(
            out,
            "DIFFERENT: state seed {seed} ({way}), {what}: {}, {}",
            odd.call, odd.field
        )?;
        writeln!(out, "wanted: {}", odd.reference)?;
        write!(out, "got:    {}", odd.got)
    }
}
