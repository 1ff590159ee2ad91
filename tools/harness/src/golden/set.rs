//! The golden set: which traces it has, and a program held against it.

use super::entry::Golden;
use crate::compare::{damage, generated, Case, DEFAULT_SEED};
use crate::opened::opened;
use handler::Edition;
use std::fmt;
use std::io;
use std::path::Path;

/// The traces of the set: of each edition the first ones of the fixed set and
/// of damaged input. Those whose first byte damage made another edition's are
/// left out.
pub fn cases() -> impl Iterator<Item = Case> {
    let all = Edition::ALL.into_iter().flat_map(|edition| {
        let whole = generated(edition, DEFAULT_SEED).take(300);
        whole.chain(damage(edition, DEFAULT_SEED).take(100))
    });
    all.filter(|case| opened(&case.bytes()).edition == case.edition)
}

/// The traces of a file's lines; a line that begins with # is a comment. Gives
/// the number of a line that has none.
pub fn listed(text: &str) -> Result<Vec<Golden>, usize> {
    let lines = text.lines().zip(1..);
    let traces = lines.filter(|(line, _)| !line.starts_with('#'));
    traces
        .map(|(line, number)| Golden::named(line).ok_or(number))
        .collect()
}

/// What was equal.
#[derive(Default)]
pub struct Kept {
    /// Traces.
    pub traces: u64,
    /// Lines that the program printed for them.
    pub lines: u64,
}

impl fmt::Display for Kept {
    fn fmt(&self, out: &mut fmt::Formatter) -> fmt::Result {
        let Kept { traces, lines } = self;
        write!(out, "golden traces {traces}, lines printed {lines}")
    }
}

/// A trace whose bytes or words are others now.
#[derive(Debug)]
pub struct Other {
    /// As it was kept.
    pub kept: Golden,
    /// As it is now.
    pub now: Golden,
}

impl fmt::Display for Other {
    fn fmt(&self, out: &mut fmt::Formatter) -> fmt::Result {
        let (kind, seed) = (self.kept.kind.name(), self.kept.seed);
        let edition = self.kept.edition.name();
        let what = match self.kept.trace == self.now.trace {
            true => "the program gives other words",
            false => "the generator gives another trace",
        };
        writeln!(
            out,
            "DIFFERENT: trace {kind} seed {seed} of edition {edition}: {what}"
        )?;
        writeln!(out, "kept: {}", self.kept)?;
        write!(out, "now:  {}", self.now)
    }
}

/// Holds a program against the traces; gives the first that differs.
pub fn compare(path: &Path, traces: &[Golden], kept: &mut Kept) -> io::Result<Option<Other>> {
    for golden in traces {
        let (now, lines) = Golden::of(path, golden.case())?;
        if now != *golden {
            return Ok(Some(Other { kept: *golden, now }));
        }
        kept.traces += 1;
        kept.lines += lines;
    }
    Ok(None)
}
