//! What is told of a program that did not do as the reference.

use super::Case;
use crate::opened::opened;
use std::fmt;
use std::path::PathBuf;

/// A program that did not do as the reference.
pub struct Difference {
    /// The program.
    pub program: PathBuf,
    /// The shortest trace that shows it.
    pub case: Case,
    /// What the reference prints at that place.
    pub expected: String,
    /// What the program printed there.
    pub got: String,
    /// How the run ended, if it did not end by itself.
    pub ended: Option<String>,
}

impl Difference {
    /// The words after the harness's own name that repeat it.
    pub fn command(&self) -> String {
        let (kind, seed) = (self.case.kind.name(), self.case.seed);
        let records = match self.case.records {
            Some(records) => format!(" --records {records}"),
            None => String::new(),
        };
        let (program, edition) = (self.program.display(), self.case.edition.name());
        format!("repeat {program} {kind} {seed} --edition {edition}{records}")
    }
}

impl fmt::Display for Difference {
    fn fmt(&self, out: &mut fmt::Formatter) -> fmt::Result {
        let bytes = self.case.bytes();
        let input = opened(&bytes);
        let size = input.edition.bytes();
        let records = input.records.len() / size;
        let (kind, seed) = (self.case.kind.name(), self.case.seed);
        writeln!(out, "DIFFERENT: trace {kind} seed {seed}")?;
        writeln!(
            out,
            "shortest prefix: {records} records of {size} bytes, N {:?}; it ends with",
            input.n
        )?;
        let last = input.records.chunks(size);
        for record in last.skip(records.saturating_sub(3)) {
            write!(out, "  ")?;
            for byte in record {
                write!(out, "{byte:02x}")?;
            }
            writeln!(out)?;
        }
        writeln!(out, "reference: {}", self.expected)?;
        write!(out, "program:   {}", self.got)?;
        if let Some(ended) = &self.ended {
            write!(out, "\nthe program's run: {ended}")?;
        }
        Ok(())
    }
}
