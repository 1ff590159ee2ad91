//! A difference that a run over lists found.

use super::again::AGAIN;
use crate::calls::Odd;
use crate::entries::{Way, LISTS, WAYS};
use std::fmt;

/// A list that shows a difference.
#[derive(Debug)]
pub struct Found {
    /// Its seed: a run of one list with it repeats it.
    pub seed: u64,
    /// What the list has that no record holds.
    pub way: Way,
    /// The lengths of its slices.
    pub lengths: [usize; LISTS],
    /// The length of the buffer.
    pub buffer: usize,
    /// What differs.
    pub odd: Odd,
}

impl fmt::Display for Found {
    fn fmt(&self, out: &mut fmt::Formatter) -> fmt::Result {
        let name = WAYS[self.way as usize].1;
        let odd = &self.odd;
        writeln!(
            out,
            "DIFFERENT: list seed {} ({name}), {}, {}",
            self.seed, odd.call, odd.field
        )?;
        // The records written again are other ones.
        if odd.call != AGAIN {
            writeln!(
                out,
                "slices of {:?} numbers, a buffer of {} bytes",
                self.lengths, self.buffer
            )?;
        }
        writeln!(out, "wanted: {}", odd.reference)?;
        write!(out, "got:    {}", odd.got)
    }
}
