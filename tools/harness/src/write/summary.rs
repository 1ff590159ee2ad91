//! What a run over lists reached.

use crate::entries::{Buffer, Entries, WAYS};
use crate::record::WRITTEN_BYTES;
use std::fmt;

/// The answers to an entry that no record holds, and to a short buffer.
const REFUSED: [i64; 2] = [-10, -11];

/// Counts over all lists of a set.
#[derive(Default)]
pub struct Summary {
    /// Lists tried.
    pub lists: u64,
    /// Lists by what they have that no record holds.
    pub ways: [u64; WAYS.len()],
    /// Lists written.
    pub written: u64,
    /// Lists written that have no entries.
    pub empty: u64,
    /// Lists written to a buffer with later bytes.
    pub later: u64,
    /// Lists refused with 10, and with 11.
    pub refused: [u64; 2],
    /// Lists refused with 10 whose buffer is too short for them as well.
    pub both: u64,
    /// Ticks of written lists that were read back.
    pub ticks: u64,
    /// Those that have an interrupt or a line on.
    pub showing: u64,
    /// Records written again.
    pub again: u64,
}

impl Summary {
    /// Takes in a list with its answer.
    pub(super) fn list(&mut self, entries: &Entries, buffer: &Buffer, answer: i64) {
        let need = entries.lent().kinds.len() * WRITTEN_BYTES;
        let length = buffer.bytes().len();
        self.lists += 1;
        self.ways[entries.way as usize] += 1;
        if answer >= 0 {
            self.written += 1;
            self.empty += u64::from(need == 0);
            self.later += u64::from(length > need);
        }
        for (at, number) in REFUSED.into_iter().enumerate() {
            self.refused[at] += u64::from(answer == number);
        }
        self.both += u64::from(answer == REFUSED[0] && length < need);
    }

    /// Takes in a tick that was read back, by its word.
    pub(super) fn tick(&mut self, word: u64) {
        self.ticks += 1;
        self.showing += u64::from(word >> 56 != 0);
    }
}

impl fmt::Display for Summary {
    fn fmt(&self, out: &mut fmt::Formatter) -> fmt::Result {
        let [unheld, short] = self.refused;
        writeln!(
            out,
            "lists {}, written {}, refused with 10: {unheld}, with 11: {short}",
            self.lists, self.written
        )?;
        writeln!(
            out,
            "written: empty {}, with later bytes {}; refused with 10 and short too: {}",
            self.empty, self.later, self.both
        )?;
        let ways = WAYS.iter().zip(self.ways);
        let ways: Vec<String> = ways
            .map(|((_, name, _), count)| format!("{name} {count}"))
            .collect();
        writeln!(out, "lists by what is wrong: {}", ways.join(", "))?;
        write!(
            out,
            "read back {} ticks, {} with an interrupt or line on; records written again {}",
            self.ticks, self.showing, self.again
        )
    }
}
